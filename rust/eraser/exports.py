"""A function that C calls stays one of Rust, and a macro of src/support adds one that takes pointers and lengths."""
import re

import rules
from shape import visibility


def export(text, i):
    start, sees = visibility(text, text.next(text.next(i)))
    attribute = text.attribute_start(start)
    if sees != "pub" or text.text(text.next(i)) != '"C"':
        text.stop(i, "an `extern` of another form")
    end = text.closing(text.next(attribute))
    if text.code(attribute, end + 1) != "# [ unsafe ( no_mangle ) ]":
        text.stop(i, "an `extern` function with another attribute first")
    text.erase(attribute, end)
    it = next(it for it in text.lists if it.at > i)
    left = text.next(it.word)
    for _, kind in parameters(text, left, text.closing(left)):
        if not re.fullmatch(r"& (mut )?\[ \w+ \]", kind) and kind not in rules.PASSED:
            text.stop(it.at, f"{it.name}: C passes no `{kind}`")
    head = "".join(text.t[k].text for k in range(it.word, it.clauses[0][0] if it.clauses else it.body))
    head = " ".join(head.split()).replace("( ", "(").replace(", )", ")")
    text.exports.append(f"crate::support::c::by_c!({head});")


def parameters(text, left, right):
    """The parameters, each as its name and its type."""
    found, part, k = [], [], left
    while (k := text.next(k)) <= right:
        if text.text(k) == "," or k == right:
            if part:
                found.append(" ".join(part).split(" : ", 1))
            part = []
        elif text.text(k) in ("(", "[", "<"):
            end = text.closing_angle(k) if text.text(k) == "<" else text.closing(k)
            part.append(text.code(k, end + 1))
            k = end
        else:
            part.append(text.text(k))
    return found
