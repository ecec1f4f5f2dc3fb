"""Rattle's text as tokens: words, numbers, strings, lifetimes, marks, comments and space. Joined they are the text again."""
import re
from typing import NamedTuple

FORM = re.compile(r"""
    (?P<space>\s+) | (?P<comment>//[^\n]*)
    | (?P<string> b?r(?P<hashes>\#*)".*?"(?P=hashes) | b?"(?:\\.|[^"\\])*" | b?'(?:\\(?:x[0-9a-fA-F]{2}|u\{[0-9a-fA-F_]+\}|.)|[^'\\])' )
    | (?P<lifetime>'[^\W\d]\w*) | (?P<word>[^\W\d]\w*) | (?P<number>\d\w*(?:\.\d\w*)?) | (?P<mark>::|->|=>|(?!/\*)[^"'])
""", re.S | re.X)
OPEN = {"{": "}", "(": ")", "[": "]"}
# What a file may hold outside of comments and strings once it is erased: the marks of Rust.
MARKS = set("{}()[]<>,;:=+-*/%&|^!?.#@$~_")


class Stop(Exception):
    """What this program does not know, and where: it then writes nothing."""


class Token(NamedTuple):
    kind: str
    text: str
    line: int


def tokens(text, where):
    """All tokens of the text."""
    out, end, line = [], 0, 1
    while end < len(text):
        found = FORM.match(text, end)
        if not found:
            raise Stop(f"{where}:{line}: a string that does not end, or a comment of several lines")
        out.append(Token(found.lastgroup, found[0], line))
        line, end = line + found[0].count("\n"), found.end()
    return out
