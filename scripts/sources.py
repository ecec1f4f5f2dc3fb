"""Reads the crates: their list, their files, and the functions in their sources, as `rt fmt` lays them out."""
import functools
import os
import re

TOP = os.path.dirname(os.path.dirname(os.path.abspath(__file__)))
LIBRARIES = ("utf_base", "utf_chars", "utf_lanes", "encode_unicode", "recoding", "surveys", "text_runs", "text_buffers", "text_stream", "text_positions", "text_programs", "cuts", "c_api")
# The crates of callers.
CALLERS = ("examples", "run_examples")
HEAD = re.compile(r'^(pub(?:\([^)]*\))? )?(?:(?:const|unsafe|final|extern "C") )*(fn|impl|trait)\b(.*)')


def read(path):
    """A file, by its path from the top of the repository, with its own ends of lines."""
    with open(os.path.join(TOP, path), encoding="utf-8", newline="") as file:
        return file.read()


@functools.cache
def crates():
    """The line of each crate in crates.txt, lowest first."""
    lines = [it.partition("#")[0].strip() for it in read("crates.txt").split("\n")]
    return {re.match(r"\w+", it)[0]: it for it in lines if it}


def used_by(crate):
    """The libraries that crates.txt names for it, also those of the toolchain."""
    return crates()[crate].partition(":")[2].split()


def files_of(crate, part, endings=(".rt",)):
    """The files in a part of a crate, folder by folder, but for its tests."""
    for at, folders, names in os.walk(f"{TOP}/crates/{crate}/{part}"):
        folders.sort()
        yield from (os.path.relpath(f"{at}/{it}", f"{TOP}/crates/{crate}") for it in sorted(names) if it.endswith(endings) and it != "tests.rt")


def module_of(file):
    """The modules that a file is, as the prover's path for what it has names them."""
    path = file.removeprefix("src/").removesuffix(".rt")
    return () if path == "lib" else tuple(path.split("/"))


@functools.cache
def passed_on(crate):
    """What a crate passes on by `pub use`: by its name, pairs of the module that has it and one of the crate's where users find it; and the
    modules of the crate that are public."""
    names, modules = {}, {()}
    # (the items of the crate's root are named there)
    for file in sorted(files_of(crate, "src"), key=lambda it: it != "src/lib.rt"):
        above, text = module_of(file), read(f"crates/{crate}/{file}")
        modules |= {(*above, it) for it in re.findall(r"^pub mod (\w+);", text, re.M)}
        inner = [(m.start(), m.end() + text[m.end() :].index("\n}"), m[1]) for m in re.finditer(r"^pub mod (\w+) \{", text, re.M)]
        for found in re.finditer(r"^\s*pub use ([\w:]+)::(\{[^}]*\}|\w+);", text, re.M):
            at = next((name for first, last, name in inner if first < found.start() < last), None)
            start = found[1].removeprefix("crate::")
            start = start if start.split("::")[0] in LIBRARIES else "::".join([crate, *above, start])
            for name in re.findall(r"\w+", found[2]):
                names.setdefault(name, []).append((start, (*above, at) if at else above))
    return names, modules


def is_reachable(crate, module):
    """Whether the module is public, and each that it is in."""
    return all(tuple(module[:end]) in passed_on(crate)[1] for end in range(len(module) + 1))


class Function:
    """A function: its file and line, its `///` lines, signature, clauses and body."""

    def __init__(self, crate, file, owner, is_public, name):
        self.crate, self.file, self.owner, self.is_public, self.name = crate, file, owner, is_public, name
        self.document, self.signature, self.clauses, self.body = [], "", [], ""
        self.owner_document, self.ghosts = [], []
        self.lines = range(0)

    def module(self):
        return [*module_of(self.file)]

    def owner_words(self):
        """The trait of its impl, what follows that in brackets, and the type; or of a trait its name alone."""
        head = re.sub(r"\bwhere\b.*", "", self.owner)
        head = head if head.startswith("trait") else without_parameters(re.sub(r"^(pub(\(.*?\))? )?", "", head))
        found = re.match(r"(?:impl )?(?:([\w:]+)(<.*>)? for )?(.+)", head)
        if not self.owner or self.is_declared():
            return "", "", re.sub(r".*\btrait (\w+).*", r"\1", self.owner)
        return (found[1] or "").rpartition("::")[2], found[2] or "", found[3].strip()

    def is_declared(self):
        """Whether it is a method that a trait declares."""
        return bool(re.match(r"(pub(\(.*?\))? )?trait\b", self.owner))

    def owner_type(self):
        return re.sub(r"<.*", "", self.owner_words()[2]).rpartition("::")[2]

    def owner_trait(self):
        return self.owner_words()[0]

    def is_of(self, path):
        """Whether the prover's path for a function names this one."""
        parts = path.split("::")
        module = [self.crate, *self.module()]
        if self.is_declared() or parts[-1] != self.name:
            return False
        if self.owner and not self.owner_trait():
            # (that path has the module of the type, wherever its impl is)
            return len(parts) > 2 and parts[0] == self.crate and parts[-2].partition("+")[0].rstrip("0123456789") == self.owner_type()
        if parts[: len(module)] != module:
            return False
        between = parts[len(module) : -1]
        if not between or not self.owner:
            return not between and not self.owner
        trait, brackets, of = self.owner_words()
        # (the prover's path leaves out constants that the types take)
        of, brackets = (re.sub(r"<[A-Z_]{2,}>", "", it) for it in (of, brackets))
        number = re.fullmatch(r"<(\d+)>", brackets)
        of_what = number[1] if number else camel(brackets) if brackets else ""
        return re.sub(r"0x10000|256", "", between[0]) == f"{camel(of)}{trait}{'' if of_what == 'Any' else of_what}"

    def shown(self):
        """Its name as a reader calls it."""
        where = "::".join([*self.module(), *([self.owner_type()] if self.owner else [])])
        told = f" ({self.owner_trait()})" if self.owner_trait() else ""
        return f"{where}::{self.name}{told}" if where else self.name


def without_parameters(head):
    """The head of an impl without the parameters that it declares."""
    if not head.startswith("impl<"):
        return head
    depth, at = 0, len("impl")
    while True:
        depth += {"<": 1, ">": -1 if head[at - 1] not in "-=" else 0}.get(head[at], 0)
        at += 1
        if depth == 0:
            return f"impl{head[at:]}"


def camel(of):
    """A type as the prover's paths write it."""
    words = re.findall(r"&|\[|[A-Za-z]\w*(?:::\w+)*", re.sub(r"'\w+\s?|\b\d\w*", "", of))
    words = [it.rpartition("::")[2] for it in words]
    if len(words) == 1 and len(words[0]) == 1 and words[0].isalpha():
        return "Any"
    named = {"&": "Ref", "[": "Slice"}
    return "".join(named.get(it, it[0].upper() + it[1:]) for it in words if len(it) > 1 or it in named)


def indent_of(line):
    return len(line) - len(line.lstrip(" "))


def functions_of(crate):
    """The functions of a crate, but for its tests, file by file."""
    return [it for path in files_of(crate, "src") for it in functions_in(crate, path)]


def function_at(crate, file, line):
    """The function of a crate that has the line, counted from 1, of the file, or an attribute there; None if none has."""
    fit = [it for it in functions_of(crate) if it.file == file and int(line) <= it.lines.stop]
    return min(fit, key=lambda it: it.lines.stop, default=None)


def functions_in(crate, path):
    lines = read(f"crates/{crate}/{path}").split("\n")
    found, owner, document, in_trait, of_owner, ghosts = [], "", [], False, [], []
    for number, line in enumerate(lines):
        head, text = HEAD.match(line.strip()), line.strip()
        if text.startswith("///"):
            document.append(text.removeprefix("///").strip())
        elif head and head[2] in ("impl", "trait") and indent_of(line) == 0:
            owner, in_trait, of_owner, document = whole_head(lines, number), head[2] == "trait", document, []
            ghosts = ghosts_of(lines, number)
        elif head and head[2] == "fn" and indent_of(line) in (0, 4):
            made = Function(crate, path, owner if indent_of(line) else "", bool(head[1]), re.match(r"\s*(\w+)", head[3])[1])
            made.is_public = head[1] == "pub " or bool(made.owner) and (in_trait or bool(made.owner_trait()))
            made.document, document = document, []
            made.owner_document, made.ghosts = (of_owner, ghosts) if made.owner else ([], [])
            read_rest(made, lines, number)
            found.append(made)
        elif not text.startswith("#["):
            document = []
    return found


def whole_head(lines, number):
    """The head of an impl or a trait, in one line."""
    head = []
    for line in lines[number:]:
        head.append(line.strip())
        if line.rstrip().endswith(("{", "}")):
            return " ".join(head).rstrip("{} ")
    return " ".join(head)


def ghosts_of(lines, number):
    """The ghost items of the impl or trait that begins at this line, by which its contracts speak."""
    found = []
    for line in lines[number + 1 :]:
        if line.startswith("}"):
            break
        if indent_of(line) == 4 and re.match(r" +ghost (?!use\b)", line):
            found.append(line.strip().rstrip(";"))
        elif found and not found[-1].endswith("}") and line.strip():
            found[-1] += " " + line.strip().rstrip(";")
    return found


def is_open(lines):
    """Whether a brace is not closed yet."""
    return sum(it.count("{") - it.count("}") for it in lines) > 0


def read_rest(function, lines, number):
    """Reads the signature, the clauses and the body of the function that begins at this line."""
    indent, signature, at = indent_of(lines[number]), [], number
    while at < len(lines):
        text = lines[at].strip()
        if re.match(r"(requires|ensures|ghost)\b", text):
            clause = [text]
            while at + 1 < len(lines) and lines[at + 1].strip() and (indent_of(lines[at + 1]) > indent + 4 or is_open(clause)):
                at += 1
                clause.append(lines[at].strip())
            function.clauses.append(" ".join(clause).rstrip(";"))
            text = clause[-1]
        elif not text.startswith("//") and text:
            signature.append(text)
        if text.endswith((";", " {")) or text in ("{", "{}") or text.endswith("}") and not function.clauses:
            break
        at += 1
    function.signature = re.sub(r"\s*(\{.*|;)?$", "", " ".join(it for it in signature if it != "{"))
    begun, is_empty = at, lines[at].strip() == "{}"
    while at < len(lines) and not is_empty and not (lines[at].startswith(" " * indent + "}") or lines[at].rstrip().endswith(";") and at == begun):
        at += 1
    function.body = "\n".join(lines[begun : at + 1])
    function.lines = range(number, at + 1)


def without_clauses(lines):
    """A function without what it promises and without attributes, moved to the left edge."""
    kept, indent, is_clause = [], len(lines[0]) - len(lines[0].lstrip(" ")), False
    for line in lines:
        text, deep = line[indent:] if line.strip() else "", len(line) - len(line.lstrip(" ")) - indent
        is_clause = bool(re.match(r" +(requires|ensures|ghost)\b", text)) or is_clause and deep > 4 and kept[-1] != "{"
        if not is_clause and not text.startswith("#["):
            kept.append(text)
    joined = "\n".join(kept)
    return re.sub(r"([^\n{])\n\{\n", r"\1 {\n", joined, count=1).split("\n")
