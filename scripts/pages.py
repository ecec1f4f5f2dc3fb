"""Reads the documents: their fenced blocks, links and words in backticks; and writes those, and pictures, that scripts make."""
import functools
import os
import re
import sys
from typing import NamedTuple

from sources import TOP, read


def below(folder):
    """Every document of a folder and its folders, as a path from the top."""
    return tuple(sorted(os.path.relpath(f"{at}/{it}", TOP) for at, _, files in os.walk(f"{TOP}/{folder}") for it in files if it.endswith(".md")))


# Written by scripts.
GENERATED = ("docs/CALLS.md", "docs/rattle/API.md", "bench/TABLES.md", *below("docs/rattle/api"), *below("docs/rattle/made"))
# Those of the packages, whose own tests run their blocks.
OF_PACKAGES = ("python/README.md", "rust/README.md", "js/README.md", "packaging/README.md")


def pages():
    """Every document, as a path from the top."""
    of_parts = [f"{it}/README.md" for it in ("bench", "c", "page", "python", "rust", "js", "packaging", "rust/eraser", "generated") if os.path.isfile(f"{TOP}/{it}/README.md")]
    return [*sorted(it for it in os.listdir(TOP) if it.endswith(".md")), *below("docs"), "bench/TABLES.md", *of_parts]


def parser():
    """markdown-it-py; also the one of Debian's package for a Python that is not Debian's."""
    try:
        import markdown_it
    except ImportError:
        sys.path.append("/usr/lib/python3/dist-packages")
        try:
            import markdown_it
        except ImportError:
            sys.exit("scripts/documents: markdown-it-py is missing: apt-get install python3-markdown-it, or pip install markdown-it-py")
    return markdown_it.MarkdownIt("commonmark").enable("table")


class Block(NamedTuple):
    """A fenced block: the page, the number of its first line, the words after the fence, and its lines."""

    page: str
    number: int
    words: list
    lines: list

    def __str__(self):
        return f"{self.page}:{self.number}"


class Page:
    """A document that is parsed: its blocks, the targets of its links, and the words in backticks."""

    def __init__(self, path):
        tokens = parser().parse(read(path))
        inline = [it for token in tokens for it in token.children or ()]
        self.path = path
        self.blocks = [Block(path, it.map[0] + 1, it.info.split(), it.content.rstrip("\n").split("\n")) for it in tokens if it.type == "fence"]
        self.links = list(dict.fromkeys(it.attrs.get("href") or it.attrs.get("src") for it in inline if it.type in ("link_open", "image")))
        self.words = list(dict.fromkeys(it.content for it in inline if it.type == "code_inline"))


page_of = functools.cache(Page)


def slug(heading):
    """The anchor that a heading has."""
    return re.sub(r"[^\w\- ]", "", heading.lower()).replace(" ", "-")


@functools.cache
def anchors(path):
    text = read(path)
    headings = re.findall(r"^#+ +(.*?) *$", re.sub(r"^```.*?^```$", "", text, flags=re.M | re.S), re.M)
    return {slug(it) for it in headings} | set(re.findall(r'<a id="([\w-]+)">', text))


def made(name, document, words, make):
    """The command of a script that writes files. `make` returns their texts, None for one that is there no more; what is wrong; and how many
    things hold. With --stale nothing is written, and what is not up to date is wrong."""
    if words not in ([], ["--stale"]):
        is_help = words in (["--help"], ["-h"])
        print(document, file=sys.stdout if is_help else sys.stderr)
        return 0 if is_help else 2
    texts, wrong, passed = make()
    is_there = lambda it: os.path.isfile(f"{TOP}/{it}")
    old = [it for it, text in texts.items() if (read(it) if is_there(it) else None) != text]
    wrong += [f"{it} is not what the sources say: run scripts/{name}" for it in old if words]
    for it in wrong:
        print(f"{name}: {it}")
    if words:
        print(f"{passed + (not old)} passed, {len(wrong)} failed")
    elif not wrong:
        for it in old:
            if texts[it] is None:
                os.remove(f"{TOP}/{it}")
            else:
                os.makedirs(os.path.dirname(f"{TOP}/{it}"), exist_ok=True)
                with open(f"{TOP}/{it}", "w", encoding="utf-8", newline="") as file:
                    file.write(texts[it])
    return 1 if wrong else 0
