"""What the two levels of the library for C share on x86-64: a function that is the same at both, with the constants that it names and all that it
calls, stays in the file for x86-64-v2 alone, and the file for x86-64-v3 calls it there. scripts/generate uses it.

What differs in one instruction or one constant is in both files. Vectors differ, so these are functions that decode piece by piece, at a fault
or at an end. Their symbols begin with `nody_shared_` and are hidden."""
import re

A_CUT = re.compile(r"\s*\.(section\s|text\s*$)")
A_LABEL = re.compile(r'("[^"]*"|[\w.$]+):')
A_NAME = re.compile(r'"[^"]*"|\.L[\w.]+')
A_CALL = re.compile(r'\s+(callq|jmp)\s+("[^"]*")\s*$')
A_COMMENT = re.compile(r"\s+# .*$|^\s*#.*$")
# What says nothing of what a function does, or of what a constant is.
SILENT = re.compile(r"\s*\.(section|type|size|p2align|globl|hidden|ident)\b|\.Lfunc_end\d+:|\s*$")


def is_local(name):
    return name.startswith((".L", '".L'))


def meant(lines):
    """The lines that have a meaning, without comments."""
    return [it for line in lines if not SILENT.match(it := A_COMMENT.sub("", line))]


class Level:
    """A file, cut where another section begins: the piece of each function, and the lines of each constant."""

    def __init__(self, text):
        self.pieces, self.functions, self.constants = [[]], {}, {}
        for line in text.split("\n"):
            if A_CUT.match(line):
                self.pieces.append([])
            self.pieces[-1].append(line)
        for piece in self.pieces:
            labels = [(at, found[1]) for at, line in enumerate(piece) if (found := A_LABEL.match(line))]
            for (at, label), (end, _) in zip(labels, [*labels[1:], (len(piece), "")]):
                if ".text" not in piece[0]:
                    self.constants[label] = meant(piece[at + 1 : end])
                elif not is_local(label):
                    self.functions[label] = meant(piece)
        self.exported = set(re.findall(r"(?m)^\s*\.globl\s+(\S+)", text))

    def constants_of(self, lines):
        """The constants that some lines name, and those that these name, in order."""
        found, left = {}, [lines]
        while left:
            for it in A_NAME.findall("\n".join(left.pop())):
                if it in self.constants and it not in found:
                    found[it] = self.constants[it]
                    left.append(found[it])
        return found

    def said(self, name):
        """What a function does: its lines and its constants, in which local names are numbered."""
        lines, numbers = self.functions[name], {}
        lines = [*lines, *(it for label, has in self.constants_of(lines).items() for it in (f"{label}:", *has))]
        return [A_NAME.sub(lambda it: str(numbers.setdefault(it[0], len(numbers))) if is_local(it[0]) else it[0], line) for line in lines]

    def named(self, name):
        """The functions that a function names, and whether it only calls them."""
        lines = [(it, line) for line in self.functions[name] for it in A_NAME.findall(line) if it in self.functions and it != name]
        return {it for it, _ in lines}, all(A_CALL.match(line) for _, line in lines)


def shared_of(low, high):
    """The functions that are the same at both levels, with all that they call."""
    both = low.functions.keys() & high.functions.keys() - low.exported - high.exported
    addressed = {it for level in (low, high) for name in level.functions for names, calls in [level.named(name)] if not calls for it in names}
    found = {it for it in both - addressed if low.said(it) == high.said(it)}
    while apart := {it for it in found if not high.named(it)[0] <= found}:
        found -= apart
    return found


def without(level, shared):
    """The lines of a file without these functions, and without the constants that nothing else names."""
    kept = level.constants_of([line for it, lines in level.functions.items() if it not in shared for line in lines])
    gone = shared | level.constants.keys() - kept.keys()
    for piece in level.pieces:
        labels = [found[1] for line in piece if (found := A_LABEL.match(line)) and (found[1] in level.functions or found[1] in level.constants)]
        if not labels or not gone.issuperset(labels):
            yield from (line for line in piece if not (found := re.match(r"\s*\.type\s+(.*),@object", line)) or found[1] not in gone)


def share(low_text, high_text):
    """Both files, where what they share is in the first alone."""
    low, high = Level(low_text), Level(high_text)
    shared = shared_of(low, high)
    symbols = {it: "nody_shared_" + re.sub(r"[^A-Za-z0-9]+", "_", it).strip("_") for it in shared}

    def renamed(text):
        return re.sub(r'"[^"\n]*"', lambda it: symbols.get(it[0], it[0]), text)

    asked = {it for name in high.functions.keys() - shared for it in high.named(name)[0] & shared}
    symbols = {it: symbols[it] for it in asked}
    if len(set(symbols.values())) != len(asked):
        raise ValueError("two functions that the levels share have one symbol")
    low_text = re.sub(r"(?m)^(\s*\.type\s+)(nody_shared_\w+)(,@function)", r"\t.hidden\t\2\n\t.globl\t\2\n\1\2\3", renamed(low_text))
    return low_text, renamed("\n".join(without(high, shared)))
