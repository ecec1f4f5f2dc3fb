"""The mutants of the crates, in crates/CRATE/mutants.txt; what a record of them depends on; and what they lack. scripts/mutants tries them.

scripts/mutants.lock has a line for each crate whose mutants all passed: the crate, a fingerprint and their number. The fingerprint is a
sum over the crate's sources, specs, proofs and mutants, over the public text of the crates below it (specs, types, and the contracts of
public functions), and over the logic of the toolchain. Comments, blank lines and the order of items count for nothing.
"""
import functools
import hashlib
import os
import re
import subprocess
import sys
import threading

from sources import LIBRARIES, TOP, Function, crates, files_of, functions_in, functions_of, read, used_by

LOCK = f"{TOP}/scripts/mutants.lock"
LOCK_HEAD = "# Crates whose mutants the prover rejects all: the crate, a sum of what that depends on, and how many. Made by scripts/mutants --write.\n"
BEFORE_COMMENT = re.compile(r"""((?:[^"'/]|"(?:\\.|[^"\\])*"|'(?:\\.|[^'\\])'|'|/(?!/))*)//""")
TACTIC = re.compile(r"^\s*#\[tactic\(.*?\)\]\n", re.M | re.S)
printing = threading.Lock()

# Public functions that no mutant changes, and why.
EXCUSED = {
    ("encode_unicode", "tally::Tally::new"): "proved by hand: read its line",
    ("utf_chars", "unsent::Unsent::copy"): "mutants of the iterators over an encoded character change it, and nothing else calls it",
    ("utf_chars", "unsent::Unsent::len"): "mutants of the iterators over an encoded character change it, and nothing else calls it",
    ("text_runs", "counted::Counted::into_inner"): "it can only return its field",
    ("text_runs", "splits::Span::start"): "it returns a field, and its clause names that field",
    ("text_runs", "splits::Span::as_bytes"): "it returns a field, and its clause names that field",
    ("recoding", "recoder::Recoder::replaced"): "it returns what the calls that count have counted, and mutants change these",
    ("text_programs", "programs::mains::words"): "no clause can say with which arguments a program was started: a test does",
}


def say(text):
    with printing:
        print(f"mutants: {text}", flush=True)


def below(crate):
    """The crates that it uses, those that these use too."""
    found = [it for it in used_by(crate) if it in crates()]
    return [*dict.fromkeys([*found, *(low for it in found for low in below(it))])]


class Mutant:
    """Edits of a crate's sources: pairs of a file's text and what takes its place."""

    def __init__(self, crate, name):
        self.crate, self.name, self.pairs, self.rejected, self.note = crate, name, [], "", ""

    def applied(self, texts, text_of):
        """The texts with this mutant's edits made too, or None if an `old` is not once in its file."""
        texts = dict(texts)
        for path, old, new in self.pairs:
            text = texts.get(path) or text_of(path)
            if text.count(old) != 1 or old == new:
                return None
            texts[path] = text.replace(old, new)
        return texts

    @functools.cached_property
    def changed(self):
        """What it changes: functions, and of other items the names."""
        found = []
        for path, old, _ in self.pairs:
            before = read(f"crates/{self.crate}/{path}").partition(old)[0]
            inside = [it for it in functions_in(self.crate, path) if before.count("\n") in it.lines]
            named = re.findall(r"^[ \t]*(?:pub(?:\([^)]*\))? )?(?:static|const|struct|enum) (\w+)", f"{before}{old}", re.M)
            found.append(inside[0] if inside else named[-1] if named else path)
        return found

    def changes(self, function):
        """Whether it changes the function that the prover calls so."""
        return any(isinstance(it, Function) and (it.is_of(function) or function == f"{it.crate}::{it.shown()}") for it in self.changed)


def path_of(crate):
    return f"crates/{crate}/mutants.txt"


def has_mutants(crate):
    return os.path.isfile(f"{TOP}/{path_of(crate)}")


def mutants_of(crate, text=None):
    """The mutants of a crate, in the order of its file."""
    text, found, file, old = read(path_of(crate)) if text is None else text, {}, "", None
    for number, line in enumerate(text.split("\n"), 1):
        key, _, value = line.partition(": ")
        is_fenced, of = re.fullmatch(r"\|.*\|", value), [*found.values()][-1:]
        if not line.strip() or line.startswith("#"):
            continue
        if key == "mutant" and value not in found and old is None and (not of or of[0].pairs):
            found[value], file = Mutant(crate, value), ""
        elif key == "file" and of and re.fullmatch(r"(src|specs|proofs)(/[\w+]+)+\.(rt|antt)", value):
            file = value
        elif key == "old" and file and old is None and is_fenced and value != "||":
            old = value[1:-1]
        elif key == "new" and old is not None and is_fenced:
            of[0].pairs.append((file, old, value[1:-1]))
            old = None
        elif key in ("rejected", "note") and of and of[0].pairs:
            setattr(of[0], key, value)
        else:
            sys.exit(f"mutants: {path_of(crate)}:{number}: an entry is `mutant: NAME`, once in the file, `file: PATH` and pairs of `old: |TEXT|` and `new: |TEXT|`: {line}")
    if old is not None or not all(it.pairs for it in found.values()):
        sys.exit(f"mutants: {path_of(crate)}: the last entry lacks `new: |TEXT|`")
    return [*found.values()]


def write(path, text):
    with open(f"{path}.new", "w", encoding="utf-8", newline="") as file:
        file.write(text)
    os.replace(f"{path}.new", path)


def write_goals(crate, goals):
    """Writes for each of these names where the mutant is rejected, or that it is not."""
    blocks = read(path_of(crate)).split("\n\n")
    for at, block in enumerate(blocks):
        name = re.search(r"^mutant: (.*)$", block, re.M)
        if name and name[1] in goals:
            lines = [it for it in block.split("\n") if not it.startswith("rejected: ")]
            last = max(it for it, line in enumerate(lines) if line.startswith("new: "))
            lines[last + 1 : last + 1] = [f"rejected: {goals[name[1]]}"] if goals[name[1]] else []
            blocks[at] = "\n".join(lines)
    write(f"{TOP}/{path_of(crate)}", "\n\n".join(blocks))


def lines_of_lock():
    lines = [it.split() for it in read(LOCK).split("\n") if it and not it.startswith("#")] if os.path.isfile(LOCK) else []
    return {it[0]: (it[1], int(it[2])) for it in lines if len(it) == 3 and it[2].isdigit()}


def write_line(crate, line):
    """Writes the crate's line, or removes it."""
    lines = {**lines_of_lock(), crate: line}
    write(LOCK, LOCK_HEAD + "".join(f"{it} {lines[it][0]} {lines[it][1]}\n" for it in crates() if lines.get(it)))


def stale():
    """The crates whose line no longer fits."""
    known = lines_of_lock()
    return [it for it in crates() if has_mutants(it) and known.get(it) != (fingerprint(it), len(mutants_of(it)))]


@functools.cache
def logic():
    ran = subprocess.run(["rt", "version"], capture_output=True, text=True)
    return ran.stdout.partition(" logic ")[2].strip() or sys.exit("mutants: rt version names no logic")


def bare(path, text):
    """The lines of a file that are neither blank nor comments."""
    mark = "//" if path.endswith(".rt") else "--"
    for line in text.split("\n"):
        before = BEFORE_COMMENT.match(line) if mark == "//" else re.match(r"(.*?\s)--\s", line)
        line = line if line.lstrip().startswith(mark) or not before else before[1]
        if line.strip() and not line.lstrip().startswith(mark):
            yield line.rstrip()


def items(lines):
    """Items of a source: each ends with a line that begins at the left edge and ends it."""
    found = [""]
    for line in lines:
        found[-1] += line + "\n"
        found += [""] if line[:1].strip() and line.endswith(("}", ";")) else []
    return sorted(found)


def public(crate, path, text):
    """What other crates see of a source: all but private functions, bodies, and how a proof goes."""
    lines, heads = text.split("\n"), []
    for it in functions_in(crate, path):
        if it.is_public:
            is_evaluated = re.search(r"\bconst (?:unsafe )?fn\b|->\s*impl\b", it.signature)
            heads.append("\n".join([it.owner, it.signature, *it.clauses, it.body if is_evaluated else ""]))
        lines[it.lines.start : it.lines.stop] = [""] * len(it.lines)
    return [*items(bare(path, TACTIC.sub("", "\n".join(lines)))), *sorted("\n".join(bare(path, it)) for it in heads)]


def texts_of(crate, *parts):
    return [(it, read(f"crates/{crate}/{it}")) for part in parts for it in files_of(crate, part, (".rt", ".antt"))]


def fingerprint(crate):
    """A sum over all that decides whether the mutants of the crate are rejected."""
    own = [(path, items(bare(path, text)) if path.endswith(".rt") else [*bare(path, text)]) for path, text in texts_of(crate, "src", "specs", "proofs")]
    low = [(it, path, public(it, path, text) if path.endswith(".rt") else [*bare(path, text)]) for it in sorted(below(crate)) for path, text in texts_of(it, "src", "specs")]
    listed = [" ".join(crates()[it].split()) for it in sorted([crate, *below(crate)])]
    return hashlib.sha256(repr((logic(), listed, own, low, sorted(repr((it.name, it.pairs)) for it in mutants_of(crate)))).encode()).hexdigest()[:32]


def changed_since(revision):
    """Whether a mutant is new or changed since a revision of the repository, or a file that it edits is."""
    git = lambda *words: subprocess.run(["git", *words], cwd=TOP, capture_output=True, text=True)
    ran = git("diff", "--name-only", revision)
    if ran.returncode:
        sys.exit(f"mutants: {revision} is no revision of this repository")
    files, known = {*ran.stdout.split(), *git("ls-files", "--others", "--exclude-standard").stdout.split()}, {}

    def is_changed(mutant):
        if mutant.crate not in known:
            was = git("show", f"{revision}:{path_of(mutant.crate)}")
            known[mutant.crate] = {repr((it.name, it.pairs)) for it in mutants_of(mutant.crate, was.stdout)}
        return repr((mutant.name, mutant.pairs)) not in known[mutant.crate] or any(f"crates/{mutant.crate}/{path}" in files for path, _, _ in mutant.pairs)

    return is_changed


def is_reached(function, is_changed, every, seen):
    """Whether a mutant changes the function, or what it calls."""
    seen.add(id(function))
    calls = {*re.findall(r"\b([a-z]\w*)(?:::<[^()]*>)?\(", function.body)}
    return is_changed(function) or any(id(it) not in seen and it.name in calls and is_reached(it, is_changed, every, seen) for it in every)


def needs_mutant(function):
    """Whether it is a public function with a body: a law's function does nothing, and what a trait declares is changed where it is defined."""
    return function.is_public and (function.crate, function.shown()) not in EXCUSED and not function.is_declared() and function.body.strip() != "{}"


def edits_of(crate):
    """The mutants of a crate, and the edits that `rt ci` tries, as mutants."""
    folder, texts = f"{TOP}/crates/{crate}/must-fail", []
    for name in sorted(os.listdir(folder)) if os.path.isdir(folder) else []:
        texts += [f"mutant: {name}", re.sub(r"^(old|new): ?(.*)$", r"\1: |\2|", read(f"{folder}/{name}"), flags=re.M)]
    return [*(mutants_of(crate) if has_mutants(crate) else []), *mutants_of(crate, "\n".join(texts))]


def lint():
    """Names mutants that cannot be applied, and public functions that no mutant changes."""
    every = [it for crate in LIBRARIES for it in functions_of(crate)]
    edits = [it for crate in crates() for it in edits_of(crate)]
    text_of = lambda crate: lambda path: read(f"crates/{crate}/{path}")
    problems = [f"{it.crate}/{it.name}: an `old` text is not once in its file" for it in edits if it.applied({}, text_of(it.crate)) is None]
    key = lambda it: (it.crate, it.file, it.lines.start) if isinstance(it, Function) else it
    changed, asked = {key(place) for it in edits for place in it.changed}, [it for it in every if needs_mutant(it)]
    is_changed = lambda it: key(it) in changed or any(isinstance(name, str) and re.search(rf"\b{name}\b", it.body) for name in changed)
    problems += [f"{it.crate}: no mutant changes {it.shown()}" for it in asked if not is_reached(it, is_changed, every, set())]
    for it in problems:
        say(it)
    print(f"{max(len(edits) + len(asked) - len(problems), 0)} passed, {len(problems)} failed")
    return 1 if problems else 0
