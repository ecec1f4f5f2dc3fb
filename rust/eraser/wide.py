"""The copy of the proved text for x86-64-v3: of the files that go by lanes, in `CRATE/wide/`, over vectors that go by thirty-two bytes.

A CPU is asked once, where a long input comes (`rules.CHOSEN`, the macro `wide!`). From there on all is compiled for AVX2: what is put in
line by its attribute is so as it stands, and each other function becomes one for that CPU, which a function of the same name calls. What
runs byte by byte would be no faster: so it exists once (`rules.SHARED`), for outputs that both copies know (`rules.EXTENDED`).
"""
import re

import rules
from shape import Text
from tokens import Stop
from windows import called

GATE = '#[cfg(all(target_arch = "x86_64", target_feature = "sse2", feature = "std", not(noddychest_narrow)))]\n'
# After the path of a file: not its copy is meant.
HERE = "::__once__"
FEATURES = "avx2,bmi1,bmi2,lzcnt,popcnt"


def widened(text, name):
    """The copy of an erased file."""
    made = Text(extended(shared(text, name)), name)
    for it in made.functions():
        if f"{name}:{it.name}" in rules.IN_LINE:
            put_in_line(made, it)
        if not it.inside and made.text(it.body) == "{":
            attributes = attributes_of(made, it)
            inline = next((at for at, _, words in attributes if words == "#[inline]"), None)
            if inline is not None and f"{name}:{it.name}" not in rules.CHOSEN:
                made.said[made.closing(made.next(inline))] = "(always)]"
            elif "#[inline(always)]" not in (words for _, _, words in attributes):
                apart(made, it, attributes)
    return paths("".join(made.front.get(k, "") + made.said.get(k, "" if made.gone[k] else x.text) + made.back.get(k, "")
                         for k, x in enumerate(made.t)), name)


def item(head):
    """What matches a comment, the attributes and the item of a file that begin with this, up to the line on which it ends."""
    return rf"(?m)^(?://.*\n|#\[.*\]\n)*{head}(?:.*\n)*?\}}\n\n?"


def shared(text, name):
    """A file without its items that exist once (`rules.SHARED`), which it imports."""
    if not (names := rules.SHARED.get(name)):
        return text
    for it in names:
        text, count = re.subn(item(rf"(?:pub\(crate\) )?(?:fn|struct|impl<'a>) {it}\b"), "", text)
        if not count:
            raise Stop(f"{name}: `{it}`, which exists once, is not there")
    crate, file = name.removesuffix(".rt").split("/")
    return re.sub(r"(?m)^use ", f"pub(crate) use crate::proved::{crate}::{file}{HERE}::{{{', '.join(names)}}};\nuse ", text, count=1)


def extended(text):
    """A file in which a trait has only what its copy has of its own (`rules.EXTENDED`)."""
    trait, once, method, other = rules.EXTENDED
    head = rf"(?m)^((?:pub\(crate\) trait {trait}|impl(?:<.*>)? {trait} for .*) )\{{\n((?:.*\n)*?)\}}\n"

    def own(found):
        body = found[2]
        for it in once:
            body = re.sub(rf"(?m)^(?:    //.*\n|    #\[.*\]\n)*    fn {it}\((?:.*;\n|(?:.*\n)*?    \}}\n)\n?", "", body)
        above = found[1].replace(f"trait {trait} ", f"trait {trait}: crate::proved::recoding::output{HERE}::{trait} ")
        return f"{above}{{\n{body}}}\n"
    text = re.sub(head, own, text)
    text = re.sub(rf"(?m)^(use crate::proved::recoding::output::){trait};", rf"\g<0>\nuse crate::proved::recoding::output{HERE}::{trait} as _;", text)
    return re.sub(rf"\b{method}\b", other, text)


def attributes_of(text, it):
    """Those above a function: where each begins and ends, and what it is."""
    return [(start, end, "".join(x.text for x in text.t[start:end + 1])) for start, end in text.attributes(it.start)]


def put_in_line(text, it):
    """An outlined method of `rules.IN_LINE`, inlined."""
    for start, end, words in attributes_of(text, it):
        if words == "#[inline(never)]":
            text.said[next(k for k in range(start, end) if text.text(k) == "never")] = "always"


def apart(text, it, attributes):
    """`fn f(..) { body }` becomes one that calls `f_apart`, which has that body and is compiled for the CPU."""
    names, generics = called(text, it)
    head = "".join(x.text for x in text.t[it.at:it.body]).rstrip().replace(f"fn {it.name}", f"unsafe fn {it.name}_apart", 1)
    call = f"{it.name}_apart{generics}({', '.join(names)})"
    moved = "".join(f"{words}\n" for _, _, words in attributes)
    text.back[it.body] = (f"\n    crate::support::processor::apart!({call})\n}}\n\n"
                          f'{moved}#[target_feature(enable = "{FEATURES}")]\n{head}\n{{')
    for start, end, _ in attributes:
        for k in range(start, text.next(end) if text.next(end) <= it.at else end + 1):
            text.gone[k] = True
    text.front[it.start] = "#[inline(always)]\n"
    if f"{text.name}:{it.name}" in rules.CHOSEN and it.start == it.at:
        text.front[it.start] += "pub(crate) "


def paths(text, name):
    """The copy names its own files, and the vectors of thirty-two bytes; and it asks for no other copy."""
    if found := re.search(r"crate::proved::(\w+::)?\{", text):
        raise Stop(f"{name}: `{found[0]}` names several files at once, of which some may have a copy")
    text = re.sub(r"\n *crate::support::processor::wide!\(.*", "", text)
    text = re.sub(r"^use crate::\{.*", lambda it: it[0].replace("support as std", "support::wide as std").replace("utf_lanes", "utf_lanes::wide as utf_lanes"), text, flags=re.M)

    def other(found):
        if found[3]:
            return f"crate::proved::{found[1]}::{found[2]}"
        return f"crate::proved::{found[1]}::wide::{found[2]}" if rules.is_wide(f"{found[1]}/{found[2]}.rt") else found[0]
    return re.sub(rf"crate::proved::(\w+)::(\w+)({HERE})?", other, text)
