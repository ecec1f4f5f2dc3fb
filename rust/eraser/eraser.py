"""Takes the ghost code of one file away, and says in Rust the few forms that are Rattle's alone. What it does not know stops it.

A file is erased in this order: what asks and what is exported (`demands`), what is ghost (`ghost`), what is not ghost and not Rust
(`forms`), paths and names (`names`); and in the trusted text, what a proof rules out (`trust`)."""
import re

import rules
from exports import export
from shape import Text, visibility
from tokens import MARKS, OPEN
from windows import window

GATE = '#[cfg(feature = "std")]\n'
KEYWORDS = {"as", "break", "const", "dyn", "else", "for", "if", "in", "let", "match", "move", "mut", "ref", "return", "static", "while"}
USES_TRUST = {"At": "support::trust::At", "by_proof": "support::trust::ByProof"}


class Project:
    """What all files together say: functions that are unsafe in Rust, traits and macros of the crates, and `const` functions."""

    def __init__(self, consts):
        self.unsafe, self.traits, self.macros, self.consts, self.narrowed, self.seen = set(), set(), set(), consts, set(), set()
        self.promising = set()

    def read(self, text):
        for it in text.functions():
            if it.requires and it.name.endswith("_unchecked"):
                self.unsafe.add(it.name)
            if it.inside and it.inside.kind == "trait" and it.inside.sees == "pub" and len(it.clauses) > len(it.requires):
                self.promising.add(it.inside.name)
        for i in range(len(text.t)):
            if text.text(i) == "trait" and text.kind(text.next(i)) == "word":
                self.traits.add(text.text(text.next(i)))
            if text.text(i) == "macro_rules":
                self.macros.add(text.text(text.next(text.next(i))))


class Eraser(Text):
    def __init__(self, source, name, project, is_trusted):
        super().__init__(source, name)
        self.project, self.is_trusted, self.crate = project, is_trusted, name.split("/")[0]
        self.crates, self.uses, self.exports, self.lists = set(), set(), [], self.functions()

    def made(self):
        self.demands()
        self.ghost()
        self.forms()
        self.names()
        if self.is_trusted:
            self.trust()
        self.nothing_is_left()
        return self.result()

    # What a function asks, and who may call it.

    def demands(self):
        for it in self.lists:
            key = f"{self.name}:{it.name}"
            if it.name in self.project.unsafe:
                self.make_unsafe(it)
            elif it.requires and not self.is_inner(it):
                self.guard(it, key)
            if it.name in rules.OWN.get(self.name, ()) and it.sees == "pub":
                self.narrow(it)
            if key in self.project.consts:
                self.make_const(it, key)
            if key in rules.CHOSEN:
                self.choose(it, key)
            if not self.is_trusted:
                window(self, it)
        if self.name in rules.OPENED:
            self.open(*rules.OPENED[self.name])

    def open(self, struct, field):
        i = next((k for k in range(len(self.t)) if self.text(k) == "struct" and self.text(self.next(k)) == struct), -1)
        fields = range(i, self.closing(self.until(i, "{"))) if i >= 0 else ()
        found = [k for k in fields if self.text(k) == field and self.text(self.next(k)) == ":"]
        if len(found) != 1:
            self.stop(max(i, 0), f"{struct} has no field {field} (rules.py)")
        self.front[found[0]] = "pub(crate) "

    def make_unsafe(self, it):
        """It asks something of its caller: an `unsafe fn` in Rust, whose documentation says what."""
        self.front[it.at] = "unsafe "
        if it.sees != "pub" and not (it.inside and it.inside.kind == "trait"):
            return
        docs = range(self.doc_start(self.attribute_start(it.start)), it.at)
        said = [k for k in docs if self.kind(k) == "comment" and self.text(k).startswith("/// Condition: ")]
        if len(said) != 1:
            self.stop(it.at, f"{it.name} is unsafe in Rust, and no line `/// Condition:` says what it asks")
        indent = "\n" + " " * self.column(said[0])
        rest = self.text(said[0]).removeprefix("/// Condition: ")
        self.said[said[0]] = f"/// # Safety{indent}///{indent}/// {rest[0].upper()}{rest[1:]}"

    def column(self, i):
        return len(self.text(i - 1).rsplit("\n", 1)[-1]) if i else 0

    def is_inner(self, it):
        """Whether only the crate's own proved text calls it."""
        if it.inside and it.inside.kind == "trait":
            return it.inside.sees != "pub"
        if it.inside and it.inside.kind == "impl of a trait":
            return it.inside.name in self.project.traits
        return it.sees != "pub"

    def guard(self, it, key):
        """A public function that asks something: of sources alone, or it is asserted, or only the crate may call it."""
        if all(self.asks_sources(it, asked) for asked in it.requires):
            return
        if it.inside and it.inside.kind == "impl of a trait":
            self.stop(it.at, f"{it.name} asks for `{it.requires[0]}`, and is a method of {it.inside.name}, which any code may call")
        if it.inside and it.inside.kind == "trait":
            if (owner := f"{self.name}:{it.inside.name}") in rules.OWN_TRAITS:
                return self.project.seen.add(owner)
            self.stop(it.at, f"{it.name} asks for `{it.requires[0]}`, and is a method of a public trait: call it .._unchecked, or make the trait pub(crate)")
        if key in rules.ASSERTED:
            asked, test = rules.ASSERTED[key]
            if same(asked) != same("; ".join(it.requires)):
                self.stop(it.at, f"{it.name} asks for `{'; '.join(it.requires)}`, and what is asserted says `{asked}` (rules.py)")
            self.back[it.body] = f"\n{' ' * (self.column(it.start) + 4)}assert!({test});"
            return self.project.seen.add(key)
        self.project.narrowed.add(it.name)
        self.narrow(it)

    def asks_sources(self, it, asked):
        words = set(re.findall(r"\w+", asked))
        return words <= rules.OF_SOURCES and ("can_next" in asked or "IsFinite" in asked)

    def narrow(self, it):
        self.said[it.start] = "pub(crate)"

    def make_const(self, it, key):
        self.project.seen.add(key)
        if it.inside and it.inside.kind != "impl":
            self.stop(it.at, f"{it.name} cannot be const: it is a method of a trait")
        self.front[it.at] = "const " + self.front.get(it.at, "")

    def choose(self, it, key):
        """Which copy is called is asked first (wide.py)."""
        self.project.seen.add(key)
        length, answer = rules.CHOSEN[key]
        crate, *_, file = self.name.removesuffix(".rt").split("/")
        path = f"crate::proved::{crate}::wide::{file}::{it.name}"
        self.back[it.body] = f"\n    crate::support::processor::wide!({length}, {answer.replace('OTHER', path)});"

    # What is ghost.

    def ghost(self):
        for it in self.lists:
            for start, end in it.clauses:
                self.erase(start, end)
        i = -1
        while (i := self.next(i)) < len(self.t):
            if self.text(i) == "ghost":
                i = self.ghost_item(i)
            elif self.text(i) == "#":
                i = self.attribute(i)
            elif self.text(i) == "impl" and self.is_model(i):
                end = self.closing(self.until(i, "{"))
                self.has_no_public_field(i, end)
                self.erase(self.doc_start(i), end)
            elif self.text(i) == "prove" and self.text(self.next(i)) == "!":
                self.stop(i, "`prove!` is not known")

    def ghost_item(self, i):
        """`ghost use ..;`, and a member of a trait, an impl or a struct, with the comment above it. Returns its end."""
        word = self.text(self.next(i))
        if self.kind(self.next(i)) != "word" or self.text(self.around(i)) in ("(", "["):
            self.stop(i, "`ghost` stands before no item, and no member")
        if word in ("let", "fn", "struct", "enum", "mod", "trait", "impl", "const", "static"):
            self.stop(i, f"`ghost {word}` is not known")
        start = self.before(i) if self.text(self.before(i)) == "pub" else i
        start = start if word == "use" else self.doc_start(start)
        j = self.next(i)
        while self.text(j) not in (";", ","):
            j = self.closing(j) if self.text(j) in OPEN else j
            if self.text(self.next(j)) == "}":
                break
            j = self.next(j)
            if j >= len(self.t):
                self.stop(i, "a ghost item has no end")
        self.erase(start, j)
        return j

    def attribute(self, i):
        j = self.next(i)
        j = self.next(j) if self.text(j) == "!" else j
        if self.text(j) != "[":
            return i
        name, end = self.text(self.next(j)), self.closing(j)
        if name in rules.GHOST_ATTRIBUTES:
            self.erase(i, end)
        elif name == "derive":
            self.derive(i, self.next(self.next(j)), end)
        elif name == "unsafe" and self.code(j, end) == "[ unsafe ( no_mangle )":
            pass
        elif name not in rules.ATTRIBUTES:
            self.stop(i, f"the attribute `{name}` is not known")
        return end

    def derive(self, i, left, end):
        names = [k for k in range(left + 1, end) if self.kind(k) == "word"]
        if "Error" in map(self.text, names) and self.has_use(rules.DERIVED_ERROR):
            error = names.pop([self.text(k) for k in names].index("Error"))
            self.take_out(error, error)
            self.derived_error(self.next(end))
        for k in names:
            if self.text(k) not in rules.DERIVES | {"Drop"}:
                self.stop(k, f"the derive of {self.text(k)} is not known")
        drop = [k for k in names if self.text(k) == "Drop"]
        of = self.next(self.next(end)) if self.text(self.next(end)) == "pub" else self.next(end)
        named = (self.name, self.text(self.next(of)))
        if named in rules.NON_EXHAUSTIVE:
            self.front[i] = "#[non_exhaustive]\n"
            self.project.seen.add(":".join(named))
        if drop and named in rules.DERIVED:
            self.said[drop[0]] = rules.DERIVED[named]
            self.project.seen.add(":".join(named))
        elif drop and len(names) == 1:
            self.erase(i, end)
        elif drop:
            self.take_out(drop[0], drop[0])

    def has_use(self, path):
        return any(self.text(k) == "use" and "".join(self.code(k + 1, self.until(k, ";")).split()) == path for k in range(len(self.t)))

    def derived_error(self, i):
        """The two impls that thiserror's derive makes, of an enum whose variants have nothing but a text."""
        while self.text(i) == "#":
            i = self.next(self.closing(self.next(i)))
        enum = self.next(i) if self.text(i) == "pub" else i
        name = self.next(enum)
        if self.text(enum) != "enum" or self.text(left := self.next(name)) != "{":
            self.stop(i, "a derived Error of another form")
        end, arms, last = self.closing(left), [], left
        while (k := self.next(last)) != end:
            text, close = self.error_text(k), self.closing(self.next(k))
            variant = self.next(close)
            last = self.next(variant)
            if self.text(last) != ",":
                self.stop(variant, "a variant of a derived Error that has more than a text")
            self.erase(k, close)
            arms.append(f"            Self::{self.text(variant)} => {text},\n")
        self.back[end] = (
            f"\n\nimpl core::fmt::Display for {self.text(name)} {{\n"
            "    fn fmt(&self, f: &mut core::fmt::Formatter<'_>) -> core::fmt::Result {\n"
            f"        f.write_str(match self {{\n{''.join(arms)}        }})\n    }}\n}}\n\n"
            f"impl core::error::Error for {self.text(name)} {{}}"
        )

    def error_text(self, i):
        """The text of `#[error("..")]`, in which nothing is shown."""
        left = self.next(i)
        inside = self.code(left + 1, self.closing(left)) if (self.text(i), self.text(left)) == ("#", "[") else ""
        found = re.fullmatch(r'error \( ("[^"\\{}]*") \)', inside)
        return found[1] if found else self.stop(i, "a variant of a derived Error that has more than a text")

    def take_out(self, i, j):
        """An item of a list goes with its comma, and the brackets too if it is alone."""
        before, after = self.before(i), self.next(j)
        if self.text(before) == ",":
            self.erase(before, j)
        else:
            self.erase(*((i, self.next(after) - 1) if self.text(after) == "," else (before, after)))

    def is_model(self, i):
        j = self.past_generics(self.next(i))
        return self.text(j) == "Model" and self.text(self.next(j)) == "for"

    def has_no_public_field(self, i, end):
        """A type with an invariant is made by its own module alone."""
        if not any(self.text(k) == "invariant" for k in range(i, end)):
            return
        name = self.text(self.next(self.until(i, "for")))
        for k in range(len(self.t)):
            if self.text(k) == "struct" and self.text(self.next(k)) == name:
                left = self.until(self.past_generics(self.next(self.next(k))), *OPEN)
                if any(self.text(x) == "pub" and self.text(self.next(x)) != "(" for x in range(left, self.closing(left))):
                    self.stop(k, f"{name} has an invariant and a public field")

    # What is not ghost and not Rust.

    def forms(self):
        i = -1
        while (i := self.next(i)) < len(self.t):
            if self.kind(i) != "word":
                continue
            word, after, b = self.text(i), self.next(i), self.before(i)
            if word == "Drop" and i not in self.said:
                self.bound(i)
            elif word == "Formatter" and self.text(after) == "<":
                self.formatter(i, after)
            elif word == "clone" and self.text(b) == "fn":
                self.clone(i)
            elif word in ("use", "mod") and f"{self.crate}/{self.text(after)}" in rules.LEFT_OUT:
                self.leave_out(i)
            elif word == "use":
                self.use(i)
            elif word in ("shuffle", "swizzle") and self.text(b) == ".":
                self.shuffle(after)
            elif word in self.project.unsafe and self.text(b) != "fn":
                self.call(i, after)
            elif word == "extern":
                export(self, i)
            elif word == "unsafe" and self.text(b) != "[":
                self.of_std_alone(i, after)
            elif word == "static" and self.text(after) == "mut":
                self.stop(i, "`static mut` is not known")
            elif word in self.project.promising:
                self.is_no_bound(i, after)
            elif (word, self.text(after)) == ("Error", "for") and self.text(b) == "impl":
                self.describe(self.until(after, "{"))
            # (`$each!` of a macro is a macro that its caller names, in a line which is looked at itself)
            elif self.text(after) == "!" and self.text(self.next(after)) in OPEN and self.text(b) != "$" and word not in rules.MACROS | self.project.macros:
                self.stop(i, f"the macro `{word}!` is not known")
        for it in self.lists:
            if it.names & set(rules.GATED) and not self.gone[it.at]:
                self.front[it.start] = GATE + self.front.get(it.start, "")
        self.gate_containers()

    def of_std_alone(self, i, left):
        """`unsafe { f(..) }`, if std says what `f` asks."""
        kind = self.next(left)
        name = self.next(self.next(kind))
        is_call = self.text(left) == "{" and self.text(self.next(name)) == "(" and (self.text(kind), self.text(name)) in rules.UNSAFE_OF_STD
        if not is_call or self.next(self.closing(self.next(name))) != self.closing(left):
            self.stop(i, "an `unsafe` of another form")

    def is_no_bound(self, i, after):
        """What a public trait promises, code that is not proved may break: so proved text does not go by it."""
        first = i
        while self.text(self.before(first)) == "::":
            first = self.before(self.before(first))
        is_bound = self.text(self.before(first)) in (":", "+", "impl", "dyn") and self.text(after) != "for"
        own = {it for it in rules.OWN_TRAITS if is_bound and it.endswith(f":{self.text(i)}")}
        self.project.seen |= own
        if is_bound and not own:
            self.stop(i, f"any code may implement {self.text(i)}, and break what it promises: make the trait pub(crate)")

    def describe(self, left):
        """std's trait has a method of old, whose text is that of the type's own method of this name."""
        if self.closing(left) != self.next(left):
            self.stop(left, "an `impl Error` that is not empty")
        self.back[left] = "\n    fn description(&self) -> &str {\n        Self::description(self)\n    }\n"

    def gate_containers(self):
        for i in range(len(self.t)):
            if self.is_code(i) and self.text(i) == "impl" and visibility(self, i)[0] == i:
                j = self.until(i, "{", ";", ")", ",")
                words = set(self.code(i, j).split())
                if self.text(j) == "{" and words & rules.GATED["io"] and "for" in words:
                    self.front[i] = GATE + self.front.get(i, "")

    def bound(self, i):
        b = self.before(i)
        if self.text(b) == "+":
            self.erase(self.before(b) + 1, i)
        else:
            self.stop(i, "`Drop` stands in no bound after another")

    def formatter(self, i, left):
        """`fn f<.., W: Write>(f: &mut Formatter<W>)` names no writer in Rust."""
        w = self.next(left)
        if self.kind(w) != "word" or self.text(self.next(w)) != ">":
            self.stop(i, "a Formatter of another form")
        fn = max((it for it in self.lists if it.at < i), key=lambda it: it.at)
        angle = self.next(fn.word)
        end = self.closing_angle(angle) if self.text(angle) == "<" else angle
        named = [k for k in range(angle, end) if self.text(k) == self.text(w) and self.text(self.next(k)) == ":" and self.is_code(k)]
        for k in named[:1]:
            self.take_out(k, self.before(self.until(k, ",", ">")))
        self.said[w] = "'_"

    def clone(self, i):
        """`fn clone(&self) -> Result<T, AllocError> { Ok(..) }`: in Rust a clone is infallible."""
        arrow = self.next(self.closing(self.next(i)))
        result = self.next(arrow)
        if self.text(result) != "Result":
            return
        angle = self.next(result)
        end = self.closing_angle(angle)
        comma = self.before(self.before(end))
        if self.text(comma) != "," or self.text(self.before(end)) != "AllocError":
            self.stop(i, "a clone that fails by another error")
        self.erase(comma, end)
        self.erase(result, angle)
        body = self.until(end, "{")
        stop = self.closing(body)
        k = body
        while (k := self.next(k)) < stop:
            if self.text(k) == "?":
                self.erase(k, k)
            elif self.text(k) == "Ok" and self.text(self.next(k)) == "(":
                last = self.closing(self.next(k))
                self.erase(last, last)
                self.erase(k, self.next(k))
            elif self.text(k) in ("Err", "return"):
                self.stop(k, "a clone that is more than `Ok(..)`")

    def leave_out(self, i):
        end = self.until(i, ";")
        self.erase(self.before(i) if self.text(self.before(i)) == "pub" else i, end)

    def use(self, i):
        """`Model` and the derive of thiserror go, and what needs std is there with it."""
        end = self.until(i, ";")
        words = "".join(self.code(i + 1, end).split())
        if words in ("std::marker::Model", rules.DERIVED_ERROR):
            return self.erase(i, end)
        self.passed_on(i, end)
        if words.startswith("std::") and words.split("::")[1] in rules.GATED and "::" in words[5:]:
            self.front[i] = GATE

    def passed_on(self, i, end):
        if self.text(self.before(i)) != "pub":
            return
        for k in range(i, end):
            if self.is_code(k) and self.text(k) in self.project.narrowed and self.text(self.next(k)) in (",", ";", "}"):
                self.stop(k, f"{self.text(k)} is passed on, and asks something of its caller: assert it (rules.py)")

    def shuffle(self, left):
        """Places of lanes become a type, since stable Rust has no argument that must be constant."""
        last = self.before(self.closing(left))
        last = self.before(last) if self.text(last) == "," else last
        first = last
        while self.text(first) != "[":
            first -= 1
        inner = [k for k in range(first + 1, last) if self.is_code(k)]
        if self.text(last) != "]" or any(self.kind(k) != "number" and self.text(k) != "," for k in inner):
            self.stop(left, "places of lanes that are no list of numbers")
        count = sum(self.kind(k) == "number" for k in inner)
        self.front[first] = f"{{ struct P; impl crate::support::simd::Places<{count}> for P {{ const LIST: [usize; {count}] = "
        self.back[last] = "; } P }"

    def call(self, i, left):
        """Wraps a call of an unsafe function in `unsafe`."""
        if self.text(left) != "(":
            self.stop(i, f"{self.text(i)} is not called")
        first = i
        while self.text(self.before(first)) == "::":
            first = self.before(self.before(first))
        self.front[first] = "unsafe { "
        self.back[self.closing(left)] = " }"

    # Paths and names.

    def names(self):
        inner = [(i, self.closing(self.until(i, "{"))) for i in range(len(self.t)) if self.text(i) == "mod" and self.text(self.next(self.next(i))) == "{"]
        for i in range(len(self.t)):
            if not self.is_code(i) or self.kind(i) != "word" or i in self.said:
                continue
            word, b, a = self.text(i), self.text(self.before(i)), self.next(i)
            if word in rules.NOT_THERE and b != "fn":
                self.stop(i, f"{word} is not known")
            self.of_known_root(i, word, b, self.text(a))
            if word in rules.PRELUDE:
                self.uses.add(f"support::memory::{word}")
            if self.text(a) != "::" or b in ("::", "."):
                continue
            if (word, self.text(self.next(a))) in rules.OLDER:
                self.said[i] = rules.OLDER[word, self.text(self.next(a))]
            elif word == "crate":
                self.said[i] = f"crate::proved::{self.crate}"
            elif word in rules.CRATES and any(start < i < end for start, end in inner):
                self.said[i] = f"crate::proved::{word}"
            elif word in rules.CRATES:
                self.crates.add(word)
            elif word == "std":
                self.of_std(self.next(a))

    def of_known_root(self, i, word, b, after):
        """Each path begins with a crate or a name, and `std` has no other name."""
        head = self.before(self.before(i))
        is_path = self.kind(head) == "word" and self.text(head) not in KEYWORDS | {"use"}
        if b == "::" and not is_path and self.text(head) != ">":
            self.stop(i, f"::{word} is not known")
        if b not in ("::", ".") and (word in rules.OTHER_ROOTS and after == "::" or word == "std" and after != "::"):
            self.stop(i, f"`{word}` is not known here")

    def of_std(self, module):
        """`std` is src/support there, which has of std's names those that are known."""
        group = self.of_group(module)
        if any(self.text(k) == "*" for k in group):
            self.stop(module, "std::* is not known")
        self.uses.add("support as std")
        after = self.next(self.next(module))
        for name in {self.text(k) for k in group if self.kind(k) == "word"} - rules.CORE - set(rules.SUPPORT) - set(rules.GATED):
            self.stop(module, f"std::{name} is not known")
        known = rules.SUPPORT.get(self.text(module)) or rules.GATED.get(self.text(module))
        if known is None or self.text(self.next(module)) != "::":
            return
        for k in self.of_group(after):
            if self.kind(k) == "word" and self.text(k) not in known | {"self"}:
                self.stop(k, f"std::{self.text(module)}::{self.text(k)} is not known")

    def of_group(self, i):
        """The tokens inside the braces at i, or only the token at i."""
        return range(i, self.closing(i)) if self.text(i) == "{" else [i]

    # The trusted text: what a proof rules out is not tested.

    def trust(self):
        const = [(it.body, self.closing(it.body)) for it in self.lists
                 if f"{self.name}:{it.name}" in self.project.consts and self.text(it.body) == "{"]
        i = -1
        while (i := self.next(i)) < len(self.t):
            if any(start < i < end for start, end in const):
                continue
            b = self.before(i)
            if self.text(i) == "[" and b >= 0 and self.is_value(b):
                self.place(i, b)
            elif self.text(i) == "unwrap" and self.text(b) == ".":
                self.said[i] = "by_proof"
                self.uses.add(USES_TRUST["by_proof"])
            elif self.text(i) == "unreachable" and self.text(self.next(i)) == "!":
                end = self.closing(self.next(self.next(i)))
                self.erase(self.next(i), end)
                self.said[i] = "crate::support::trust::never()"

    def place(self, i, b):
        end = self.closing(i)
        inner = [k for k in range(i + 1, end) if self.is_code(k)]
        is_field = len(inner) == 1 and self.kind(inner[0]) == "number" and self.text(self.before(b)) == "."
        if not inner or is_field:  # (an array's literal place, which rustc judges)
            return
        self.back[i] = self.back.get(i, "") + "At("
        self.front[end] = ")" + self.front.get(end, "")
        self.uses.add(USES_TRUST["At"])

    def is_value(self, b):
        if self.kind(b) == "word":
            return self.text(b) not in KEYWORDS and self.text(self.before(b)) != "$"
        if self.text(b) not in (")", "]"):
            return self.text(b) == "?"
        return self.text(b) != "]" or self.text(self.before(self.opening(b))) not in ("#", "!")

    # What is left has to be Rust.

    def nothing_is_left(self):
        for i in range(len(self.t)):
            if not self.is_code(i) or self.kind(i) in ("string", "lifetime", "number"):
                continue
            word = self.text(i)
            if word in rules.GHOST_WORDS:
                self.stop(i, f"`{word}` is left: no rule erases it")
            if not word.isascii() or (self.kind(i) == "mark" and not set(word) <= MARKS):
                self.stop(i, f"`{word}` is left, which is no mark of Rust")

    def result(self):
        """The text, without lines that lost all that they had."""
        out = []
        for k, x in enumerate(self.t):
            if self.gone[k]:
                out.append("\0" + "\n\0" * x.text.count("\n"))
            else:
                out.append(self.front.get(k, "") + self.said.get(k, x.text) + self.back.get(k, ""))
        lines = []
        for line in "".join(out).split("\n"):
            is_cut, line = "\0" in line, line.replace("\0", "")
            if is_cut and line.strip() in ("", ";"):
                if line.strip():  # (the end of a trait's function goes up)
                    while not lines[-1].strip():
                        lines.pop()
                    lines[-1] += ";"
                continue
            line = line.rstrip() if is_cut else line
            if not line.strip() and (not lines or not lines[-1].strip() or lines[-1].rstrip().endswith("{")):
                continue
            lines.append(line)
        head = next((k for k, it in enumerate(lines) if not it.startswith("//!")), len(lines))
        uses = ([f"proved::{{{', '.join(sorted(self.crates))}}}"] if self.crates else []) + sorted(self.uses)
        lines[head:head] = [f"use crate::{{{', '.join(uses)}}};"] if uses else []
        lines += ["", *self.exports] if self.exports else []
        return "\n".join(lines).rstrip() + "\n"


def same(text):
    return "".join(text.split())
