"""The lengths that a function of utf_lanes requires, tested once: in the checked text the function gets only that part of a slice.

For `3 ≤ place` and `place + 64 ≤ length bytes` it gets the 67 bytes from `place - 3` on, and 3 as their offset: so rustc tests that these are
there, and no offset within them. A function that writes goes on under another name, and its result, an offset in that part, becomes one in the
slice. This is done only if the slice is used only by offsets, and its offset only with the slice. For `64 ≤ length bytes` there is
an assertion, if the function uses constant offsets. For `from.read + 8 ≤ length bytes` it gets eight bytes, whose offsets count from there.

A part of a text would be tested twice more: whether a character begins at either end. What asks only for its bytes gets these."""
import re

import rules
from exports import parameters
from tokens import Stop

PART = re.compile(r"(\w+) \+ (\d+|[A-Z]) ≤ length (\w+) \. (now|old)")
FRONT = re.compile(r"(\d+) ≤ length (\w+) \. (?:now|old)")
LEAST = re.compile(r"(\d+) ≤ (\w+)")
SPOT = re.compile(r"(\w+) \. (\w+) \+ (\d+) ≤ length (\w+) \. (now|old)")
# What becomes of a result, by what the clauses say of it.
ANSWERS = {"result . 0 result . 1": "let (count, end) = {call};\n    (count, {place} + end)", "result": "{place} + {call}"}


class Part:
    """So many items of a slice, of which some are before the place."""

    def __init__(self, place, size, name, changes, least):
        self.place, self.name, self.is_written, self.back = place, name, changes == "old", least.get(place, "0")
        start, size = (place, size) if self.back == "0" else (f"{place} - {self.back}", f"{self.back} + {size}")
        self.given = f"&{'mut ' if self.is_written else ''}{name}[{start}..][..{size}]"

    def goes_by_place(self, body):
        after = [body[k + 2] for k in range(len(body)) if body[k] == self.name and body[k + 1] in ("[", ",")]
        others = set(after) - {self.place}
        is_alone = len(after) == body.count(self.name) and after.count(self.place) == body.count(self.place)
        return is_alone and (not others or self.is_written and all(it.isidentifier() for it in others))


def window(text, it):
    if it.inside or text.text(it.body) != "{":
        return
    body = [text.text(k) for k in range(it.body, text.closing(it.body)) if text.is_code(k)]
    least = {found[2]: found[1] for asked in it.requires if (found := LEAST.fullmatch(asked))}
    parts = [Part(*found.groups(), least) for asked in it.requires if (found := PART.fullmatch(asked))]
    parts = [it for it in parts if it.goes_by_place(body)]
    heads = [f"assert!({found[1]} <= {found[2]}.len());" for asked in it.requires if (found := FRONT.fullmatch(asked))
             and re.search(rf"\b{found[2]} \[ (\.\. )?\d", " ".join(body))]
    written = next((part.place for part in parts if part.is_written), None)
    answer = written and answered(text, it, written)
    if answer:
        beside(text, it, parts, answer.replace("{place}", written))
    elif parts := [part for part in parts if not part.is_written]:
        heads += [f"let ({part.name}, {part.place}) = ({part.given}, {part.back});" for part in parts]
    heads += [said for asked in it.requires if (found := SPOT.fullmatch(asked)) and (said := from_spot(text, it, *found.groups()))]
    text.back[it.body] = text.back.get(it.body, "") + "".join(f"\n    {said}" for said in heads)


def from_spot(text, it, spot, field, size, name, changes):
    """Of `from.read + 8 ≤ length bytes`, where `bytes` has all its places by that field: these alone, and each place counts from the first."""
    body = [k for k in range(it.body, text.closing(it.body)) if text.is_code(k)]
    uses = [at for at, k in enumerate(body) if text.text(k) == name]
    if not all(re.match(rf"\[ \w+ \. {field} \]", text.code(body[at + 1], body[-1])) for at in uses):
        return None
    for at in uses:
        text.back[body[at + 4]] = f" - {spot}.{field}"
    return f"let {name} = &{'mut ' if changes == 'old' else ''}{name}[{spot}.{field}..][..{size}];"


def answered(text, it, place):
    clauses = " ".join(text.code(start, end) for start, end in it.clauses)
    return next((said for words, said in ANSWERS.items() if re.search(rf"(\w+) \. old \1 \. new {place} (\d+ )?{words}", clauses)), None)


def beside(text, it, parts, answer):
    """`fn f(..) { body }` becomes `f_in_part`, and before it a function of the same name gives it the parts."""
    start, (names, generics) = text.attribute_start(it.start), called(text, it)
    gives = {part.name: part.given for part in parts} | {part.place: part.back for part in parts}
    call = f"{it.name}_in_part{generics}({', '.join(gives.get(name, name) for name in names)})"
    head = "".join(text.said.get(k, text.t[k].text) for k in range(start, it.clauses[0][0]))
    text.front[start] = f"{head.rstrip()} {{\n    {answer.replace('{call}', call)}\n}}\n\n"
    text.said[it.word] = f"{it.name}_in_part"


def called(text, it):
    """The names of the parameters, and what of generics a call has to name."""
    left, generics = text.next(it.word), []
    if text.text(left) == "<":
        end = text.closing_angle(left)
        generics = [it[0].removeprefix("const ") for it in parameters(text, left, end) if not it[0].startswith("'")]
        left = text.next(end)
    names = [name.removeprefix("mut ") for name, _ in parameters(text, left, text.closing(left))]
    return names, f"::<{', '.join(generics)}>" if generics else ""


def tested_once(text, name):
    """An erased file, in which more than its clauses shows what needs no test."""
    return by_end(by_size(by_rest(by_front(by_bytes(text, name)))))


def by_bytes(text, name):
    """An erased file. A function of `rules.BY_BYTES` is there once more over bytes, and is called so if one of them is given another's text,
    or if that text is asked for its bytes and whether it is empty. That it is empty is seen before its offsets are tested."""
    for function in rules.BY_BYTES.get(name, ()):
        found = re.search(rf"\n    #\[inline\(always\)\]\n    pub(?:\(crate\))? (fn {function})\b.*?\n    }}\n", text, re.S)
        if not found:
            raise Stop(f"{name}: no function is as rules.BY_BYTES names {function}")
        other = found[0].replace("    pub fn", "    pub(crate) fn").replace(found[1], f"{found[1]}_bytes").replace(".as_bytes()", "")
        other = re.sub(r"&self\.text\[(.*)\.\.(.*)\]", r"if \1 < \2 { &self.text.as_bytes()[\1..\2] } else { &[] }", other)
        text = text.replace(found[0], found[0] + re.sub(r"\bstr\b", "[u8]", other))
    text = re.sub(r"\b(from_str_start)\(self\.(as_str)\(\)\)", r"\1_bytes(self.\2_bytes())", text)
    return re.sub(r"let (\w+) = self\.as_str\(\);(\n +if \1\.is_empty\(\) {.*?)\1\.as_bytes\(\)", r"let \1 = self.as_str_bytes();\2\1", text, flags=re.S)


def by_front(text):
    """An erased file. Of `[bytes[0], bytes[1], bytes[2], 0]` the bytes are tested in one comparison."""
    def fronted(found):
        count = found[0].count(f"{found[1]}[")
        return found[0] if count == 1 else f"{{ let {found[1]} = &{found[1]}[..{count}]; {found[0]} }}"
    return re.sub(r"\[(\w+)\[0\](?:, \1\[\d\])*(?:, 0)*\]", fronted, text)


def by_rest(text):
    """An erased file. In the head of a loop `64 <= bytes.len() - place` becomes two comparisons, which say that the place is in the bytes too."""
    left = re.compile(r"(?<![-+*/%] )\b((?:\d+ \* )?\w+) <= (\w+)\.len\(\) - ((?:\w+\.)?\w+)\b(?! \*)")
    return re.sub(r"while .*", lambda it: left.sub(r"\1 <= \2.len() && \3 <= \2.len() - \1", it[0]), text)


def by_size(text):
    """An erased file. Of `&bytes[at..at + 4]` one comparison says that it is there, with what does not change in a loop; otherwise two do."""
    part = re.compile(r"&(\w+)\[([a-z_.]+)\.\.\2 \+ (\w+)\]")
    return part.sub(r"{ assert!(\3 <= \1.len() && \2 <= \1.len() - \3); &\1[\2..\2 + \3] }", text)


def by_end(text):
    """An erased file. Of `bytes[bytes.len() - 2]` the length is tested, and not the place: else the place has a register, and a loop from the end more moves."""
    return re.sub(r"(?<!\.)\b(\w+)\[\1\.len\(\) - (\d)\]", r"{ assert!(\2 <= \1.len()); \1[\1.len() - \2] }", text)


def apart(text, name):
    """An erased file of either mode. rustc passes the four bytes of a character in one register, and LLVM no longer sees which of them has its
    length. So a method of `rules.LENT` borrows them, and if they are a result each is named. Two units are one register too: whether there is a
    second is asked of that (`rules.OF_BOTH`), and LLVM knows the result for each length."""
    for method in rules.LENT.get(name, ()):
        if text.count(f"fn {method}(self)") != 1:
            raise Stop(f"{name}: no method is as rules.LENT names {method}")
        text = text.replace(f"fn {method}(self)", f"fn {method}(&self)")
    if name in rules.OF_BOTH:
        asked, of_both = rules.OF_BOTH[name]
        if asked not in text:
            raise Stop(f"{name}: nothing is as rules.OF_BOTH names `{asked}`")
        text = text.replace(asked, of_both)
    code = re.compile(r"let \((\w+), (\w+)\) = (last_code\(.*?\));(.*?)\bfrom_array_unchecked\(\1\)", re.S)
    return code.sub(r"let ([a, b, c, d], \2) = \3;\4from_array_unchecked([a, b, c, d])", text)
