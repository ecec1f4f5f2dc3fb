"""What rustc has to inline, and what it has to outline.

`#[inline(always)]` is obeyed without optimization too, and before a function is simplified: a call of the converters then becomes tens of
thousands of lines in the compiler. So with debug assertions no function has it."""
import re

import rules

ALWAYS = re.compile(r"^( *)#\[inline\(always\)\]$", re.M)


def inlined(text):
    """An erased file, in which only a build without debug assertions has to inline."""
    return ALWAYS.sub(r"\1#[cfg_attr(not(debug_assertions), inline(always))]", text)


def cooled(text, name, seen):
    """An erased file, in which the functions of `rules.COLD` are not exported for each type. `seen` gets those that are there."""
    for it in sorted(rules.COLD):
        file, function = it.split(":")
        if file == name:
            outlined = rf"(?m)^( *)#\[inline\(never\)\]\n *(pub\(crate\) )?fn {function}\b"
            text, count = re.subn(outlined, lambda it: f"{it[1]}#[cold]\n{it[1]}{it[2] or seen_by(name, function)}fn {function}", text)
            if count == 1:
                seen.add(it)
    return text


def seen_by(name, function):
    """How the copy for AVX2 sees a function that it shares."""
    return "pub(crate) " if function in rules.SHARED.get(name, ()) else ""
