"""The functions of a file, each with its visibility, its clauses and what it is nested in; found only by the marks."""
from functools import cache

from tokens import OPEN, Stop, tokens

BEFORE_ITEM = {"{", "}", ";", "]", ")", "pub", "unsafe"}
CLAUSES = {"requires", "ensures"}


class Text:
    """The tokens of a file, and the edit of each: removed, replaced, or with text put before or after it."""

    def __init__(self, text, name):
        self.name, (self.t, self.is_blank, self.pair) = name, bracketed(text, name)
        self.gone = [False] * len(self.t)
        self.said, self.front, self.back = {}, {}, {}

    def stop(self, i, why):
        stop(self.name, self.t, i, why)

    def is_code(self, i):
        return not self.gone[i] and not self.is_blank[i]

    def next(self, i):
        gone, is_blank, i = self.gone, self.is_blank, i + 1
        while i < len(gone) and (gone[i] or is_blank[i]):
            i += 1
        return i

    def before(self, i):
        i -= 1
        while i >= 0 and not self.is_code(i):
            i -= 1
        return i

    def text(self, i):
        return self.t[i].text if 0 <= i < len(self.t) else ""

    def kind(self, i):
        return self.t[i].kind if 0 <= i < len(self.t) else ""

    def code(self, start, end):
        """The code there without comments, with a space between tokens."""
        return " ".join(self.t[i].text for i in range(start, end) if self.is_code(i))

    def closing(self, i):
        """The bracket that closes the one at i. Clauses too hold pairs alone."""
        return self.pair[i] if self.pair.get(i, -1) > i else self.stop(i, "no bracket opens here")

    def opening(self, i):
        """The bracket that the one at i closes."""
        return self.pair[i] if self.pair.get(i, len(self.t)) < i else self.stop(i, "no bracket closes here")

    def around(self, i):
        """The bracket around the token at i, or -1."""
        k = self.before(i)
        while k >= 0 and not (self.kind(k) == "mark" and self.text(k) in OPEN):
            k = self.before(self.opening(k) if self.kind(k) == "mark" and self.text(k) in OPEN.values() else k)
        return k

    def attributes(self, i):
        """The attributes above the item at i: where each begins and ends."""
        found = []
        while self.text(end := self.before(i)) == "]":
            i = self.before(self.opening(end))
            found.insert(0, (i, end))
        return found

    def attribute_start(self, i):
        """The first attribute above the item at i, or that."""
        return (self.attributes(i) or [(i, i)])[0][0]

    def closing_angle(self, i):
        depth, start = 0, i
        while i < len(self.t):
            x = self.text(i)
            depth += {"<": 1, ">": -1}.get(x, 0)
            if depth == 0:
                return i
            i = self.closing(i) + 1 if x in OPEN else i + 1
        return self.stop(start, "a < is not closed")

    def until(self, i, *marks):
        """The first of these marks from i on, outside brackets."""
        j = i
        while self.text(j) not in marks:
            j = self.next(self.closing(j) if self.text(j) in OPEN and j != i else j)
            if j >= len(self.t):
                self.stop(i, f"no `{marks[0]}` comes")
        return j

    def past_generics(self, i):
        """i, or the index after the generics at i."""
        return self.next(self.closing_angle(i)) if self.text(i) == "<" else i

    def erase(self, i, j):
        for k in range(i, j + 1):
            self.gone[k] = True

    def doc_start(self, i):
        """The first of the comments right above the item at i: they go with it."""
        def is_line(k):
            return self.t[k].kind == "comment" and (k == 0 or "\n" in self.text(k - 1)) and not self.text(k).startswith("//!")

        while i >= 2 and self.t[i - 1].kind == "space" and self.text(i - 1).count("\n") == 1 and is_line(i - 2):
            i -= 2
        return i

    def clause_end(self, i):
        """The end of the clause at i: `requires`, a name or none, and braces."""
        j = self.next(i)
        j = self.next(j) if self.kind(j) == "word" else j
        if self.text(j) != "{":
            self.stop(i, f"`{self.text(i)}` with no braces")
        return self.closing(j)

    def functions(self):
        """All of them. It comes before anything is erased, since it reads the clauses."""
        found, inside, i = [], [], -1
        while (i := self.next(i)) < len(self.t):
            while inside and i > inside[-1].end:
                inside.pop()
            if self.text(i) in ("impl", "trait") and (self.before(i) < 0 or self.text(self.before(i)) in BEFORE_ITEM):
                inside.append(Container(self, i))
            elif self.text(i) == "fn" and self.kind(self.next(i)) == "word":
                it = Function(self, i, inside[-1] if inside else None)
                found.append(it)
        return found


def stop(name, all_tokens, i, why):
    raise Stop(f"{name}:{all_tokens[min(i, len(all_tokens) - 1)].line}: {why}")


@cache
def bracketed(text, name):
    """The tokens of a file, which of them are no code, and the other bracket of each. Nobody changes them: a file is erased twice."""
    found, opened, pair = tokens(text, name), [], {}
    for i, x in enumerate(found):
        if x.kind == "mark" and x.text in OPEN:
            opened.append(i)
        elif x.kind == "mark" and x.text in OPEN.values():
            if not opened or OPEN[found[opened[-1]].text] != x.text:
                stop(name, found, i, "a bracket closes another" if opened else "a bracket closes none")
            pair[i] = opened.pop()
            pair[pair[i]] = i
    if opened:
        stop(name, found, opened[-1], "a bracket is not closed")
    return found, [it.kind in ("space", "comment") for it in found], pair


def visibility(text, i):
    """The first token of the visibility before the word at i, and `pub`, `pub(..)` or nothing."""
    start, seen = i, ""
    while text.text(text.before(start)) in ("unsafe", "const", "extern") or text.kind(text.before(start)) == "string":
        start = text.before(start)
    b = text.before(start)
    if text.text(b) == ")" and text.text(k := text.before(text.opening(b))) == "pub":
        return k, "pub(..)"
    if text.text(b) == "pub":
        start, seen = b, "pub"
    return start, seen


class Container:
    """A trait, or an impl: of a trait, whose name it has, or of a type alone."""

    def __init__(self, text, i):
        self.at, self.kind = i, text.text(i)
        self.start, self.sees = visibility(text, i)
        j = text.past_generics(text.next(i))
        self.name, last = "", ""
        while text.text(j) not in ("{", ";"):
            if text.text(j) == "<":
                j = text.closing_angle(j)
            elif text.text(j) == "for" and self.kind == "impl":
                self.name, self.kind = last, "impl of a trait"
            elif text.text(j) == "where" or (text.text(j) == ":" and self.kind == "trait"):
                j = text.until(j, "{")
                break
            elif text.kind(j) == "word":
                last = text.text(j)
            j = text.next(j)
        self.name = self.name or last
        self.body, self.end = j, text.closing(j)


class Function:
    def __init__(self, text, i, inside):
        self.at, self.inside, self.word = i, inside, text.next(i)
        self.name = text.text(self.word)
        self.start, self.sees = visibility(text, i)
        self.requires, self.clauses, self.names, j = [], [], set(), self.word
        while text.text(j) not in ("{", ";"):
            if text.text(j) in CLAUSES:
                end = text.clause_end(j)
                self.clauses.append((j, end))
                if text.text(j) == "requires":
                    self.requires.append(text.code(text.until(j, "{") + 1, end))
            else:
                end = text.closing(j) if text.text(j) in ("(", "[") else j
                self.names |= {text.text(k) for k in range(j, end + 1) if text.kind(k) == "word"}
            j = text.next(end)
            if j >= len(text.t):
                text.stop(i, "a function has no end")
        self.body = j
