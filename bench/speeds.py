"""Makes the tables of README.md and docs/BENCHMARKS.md from the stored output of the benchmarks. bench/plots uses it."""
import re
from pathlib import Path

TOP = Path(__file__).resolve().parent.parent
STORED = TOP / "bench/stored"
NAMES = {"rust": "encode_unicode", "std": "std", "bstr": "bstr", "encoding_rs": "encoding_rs", "iconv": "iconv(3)", "simdutf8": "simdutf8 with AVX2",
         "simdutf8_16": "simdutf8, 16-byte lanes", "icu": "ICU", "utf8proc": "utf8proc", "simdutf": "simdutf with AVX2"}
# The inputs of the tables in README.md and of the summary, in words.
TEXTS = {"ascii": "ASCII", "latin": "Latin script", "cyrillic": "Cyrillic", "arabic": "Arabic", "chinese": "Chinese", "japanese": "Japanese",
         "three-byte": "characters of three bytes"}
FORMS = {"utf8": "UTF-8", "utf16le": "UTF-16LE", "utf16be": "UTF-16BE", "utf16": "UTF-16"}
# What each work of `bench/run` does, by its question.
WORKS = {
    "pieces": {"forward": "every piece, forward", "backward": "every piece, backward", "ends": "every piece, from both ends in turn",
               "starts": "`char::from_utf8_slice_start` along the bytes", "text_backward": "every piece of valid text, backward"},
    "valid text": {"utf8chars": "`utf8chars`", "utf8chars_back": "`utf8chars().rev()`", "indices": "`utf8char_indices`",
                   "indices_back": "`utf8char_indices().rev()`", "utf16chars": "`utf16chars`", "utf16chars_back": "`utf16chars().rev()`"},
    "units": {"unit_decoder": "every piece, forward", "units_back": "every piece, backward", "units": "`char::from_utf16_slice_start` along the units",
              "unit_merger": "streaming, from an iterator"},
    "streaming": {"merger": "bytes to characters", "bytes_next": "characters to bytes, one by one", "bytes_read": "characters to bytes, by `read`",
                  "units_next": "characters to units"},
    "characters": {"to_utf8": "a number to UTF-8", "to_utf16": "a number to UTF-16", "between": "forward, and each to `Utf16Char` and back",
                   "collect_bytes": "`collect_bytes`", "extend_bytes": "`extend_bytes`", "collect_string": "`collect_string`", "extend_string": "`extend_string`",
                   "collect_units": "`collect_units`", "extend_units": "`extend_units`", "collect_string16": "`collect_string` of units",
                   "extend_string16": "`extend_string` of units"},
}


class Row:
    """A line of a stored output: the words that name it, and for each side what it took and what was asked."""

    def __init__(self, key, numbers, goals):
        self.key, self.numbers, self.goals = key, numbers, goals

    def ratio(self, side):
        return self.numbers["ours"] / self.numbers[side] if side in self.numbers else None


def stored(name, keys):
    """The rows of a stored output whose first `keys` words name one."""
    sides, found = [], []
    for line in (STORED / name).read_text(encoding="utf-8").splitlines():
        words, _, told = line.partition("|")
        words = words.split()
        if not sides:
            head = re.sub(r"/.*", "", " ".join(words[keys:])).split()
            sides = head[: 1 + len(set(head[1:]) - {"ours"})]
            continue
        cells = words[keys : keys + len(sides)]
        if len(cells) == len(sides) and all(re.fullmatch(r"[\d.]+|-", it) for it in cells):
            numbers = {side: float(it) for side, it in zip(sides, cells) if it != "-"}
            goals = {side: (float(most), verdict == "met") for side, most, verdict in re.findall(r"(\w+) <=? ([\d.]+) (met|not met)", told)}
            found.append(Row(tuple(words[:keys]), numbers, goals))
    return found


def marked_ratio(ratio):
    """A ratio, bold where ours is slower."""
    return f"**{ratio:.2f}**" if ratio > 1 else f"{ratio:.2f}"


def table(heads, rows):
    lines = ["| " + " | ".join(heads) + " |", "|" + "---|" * len(heads)]
    return "\n".join(lines + ["| " + " | ".join(it) + " |" for it in rows])


def between(numbers):
    least, most = f"{min(numbers):.2f}", f"{max(numbers):.2f}"
    return least if least == most else f"{least} to {most}"


def cells(rows, side, shown, named):
    """The cells of some rows compared with one side: what both took in the shown row, the goals, the ratios, and where ours takes more."""
    rows = [it for it in rows if side in it.numbers]
    if not rows:
        return None
    ratios = [it.ratio(side) for it in rows]
    picked = next((it for it in rows if it.key[-1] == shown), rows[0])
    goals = [it.goals[side] for it in rows if side in it.goals]
    asked = between([it for it, _ in goals]) if goals else "–"
    met = f"{sum(it for _, it in goals)} of {len(goals)}" if goals else "–"
    lost = [f"{named(it.key)} {it.ratio(side):.2f}" for it in rows if it.ratio(side) > 1]
    return [NAMES[side], f"{picked.numbers['ours']:.2f}", f"{picked.numbers[side]:.2f}", between(ratios), asked, met, ", ".join(lost) or "nowhere"]


HEADS = ["beside", "ours", "theirs", "ratio", "goal", "met", "ours is slower on"]


def works(question):
    every, lines = stored("run", 2), []
    for work, told in WORKS[question].items():
        of_work = [it for it in every if it.key[0] == work]
        for side in ("bstr", "std", "rust"):
            if it := cells(of_work, side, "mix", lambda key: key[1]):
                lines.append([told, *it])
    return table(["task", *HEADS], lines)


def valid(name="valid"):
    every, lines = stored(name, 2), []
    for form in ("utf8", "utf16"):
        for side in ("std", "simdutf8", "simdutf8_16", "encoding_rs"):
            if it := cells([row for row in every if row.key[0] == form], side, "japanese", lambda key: key[1]):
                lines.append([f"validate {FORMS[form]}", *it])
    return table(["task", *HEADS], lines)


def recoding(name="recode"):
    every, lines = stored(name, 3), []
    for pair in dict.fromkeys(it.key[:2] for it in every):
        for side in ("encoding_rs", "iconv", "std"):
            if it := cells([row for row in every if row.key[:2] == pair], side, "japanese", lambda key: key[2]):
                lines.append([f"{FORMS[pair[0]]} to {FORMS[pair[1]]}", *it])
    return table(["task", *HEADS], lines)


def short(call):
    """Parts of a few bytes, compared with encoding_rs: a row for each pair and input, a column for each size."""
    found = {it.key: it.ratio("encoding_rs") for it in stored("short", 5) if it.key[4] == call and "encoding_rs" in it.numbers}
    sizes = sorted({int(key[3]) for key in found})
    lines = []
    for a, b, text in dict.fromkeys(key[:3] for key in found):
        ratios = [found[(a, b, text, str(size), call)] for size in sizes]
        lines.append([f"{FORMS[a]} to {FORMS[b]}, {text}", *map(marked_ratio, ratios)])
    lost = sum(it > 1 for it in found.values())
    return table([f"`{call}`", *(f"{it} bytes" if it > 1 else "1 byte" for it in sizes)], lines) + f"\n\n{len(found) - lost} of {len(found)} are no slower."


def programs():
    lines = []
    of_recode = stored("recode-programs", 3)
    ratios = [it.ratio("iconv") for it in of_recode if "iconv" in it.numbers]
    lines.append(["`recode`", "iconv(1)", between(ratios), f"{sum(it <= 1 for it in ratios)} of {len(ratios)}"])
    for side, told in [("rust", "a Rust program with the same output"), ("c", "a C program with the same output, of text")]:
        ratios = [it.ratio(side) for it in stored("pieces", 1) if side in it.numbers]
        lines.append(["`pieces`", told, between(ratios), f"{sum(it <= 1 for it in ratios)} of {len(ratios)}"])
    return table(["program", "beside", "ratio", "no slower"], lines)


def printed(name):
    """The cells of the table that a command printed, without those of its head."""
    lines = (STORED / name).read_text(encoding="utf-8").splitlines()
    return [[it.strip() for it in line.strip("|").split("|")] for line in lines if line.startswith("| ")][1:]


def checking():
    """What bench/nody took of valid text, and nody and cat of damaged text. (The others stop at the first fault, and file looks only at the front.)"""
    lines = []
    for text, command, *took in printed("nody"):
        text = text.partition(",")[0]
        if command != "`file`" and (text != "damaged" or command == "`cat`" or command.startswith("`nody check") and "quiet" not in command):
            lines.append([TEXTS.get(text, text), command, *took[:3]])
    return table(["input", "command", "seconds", "of the processor", "GB in a second"], lines)


def repairs():
    """What bench/nody --repair took."""
    return table(["command", "seconds", "of the processor", "GB in a second"], [took[:4] for _, *took in printed("repair")])


def folders():
    """What bench/folders took, and of how many files."""
    told = (STORED / "folders").read_text(encoding="utf-8").splitlines()[-1]
    return f"{told}.\n\n{table(['command', 'seconds', 'of the processor', 'memory, MB', 'output, kB', 'the same names'], printed('folders'))}"


def cores():
    """What bench/cores took, by number of threads."""
    return table(["command", "seconds", "of the processor", "GB in a second", "times one thread"], printed("cores"))


# What c/bench/run does, and whose call it is there.
OF_C = {"utf8-to-utf16le": ("UTF-8 to UTF-16LE, `nody_recoder_feed`", "nody"), "utf16le-to-utf8": ("UTF-16LE to UTF-8, `nody_recoder_feed`", "nody"),
        "valid-up-to": ("validate UTF-8, `nody_utf8_valid_up_to`", "nody"), "decode": ("every piece, `nody_utf8_next`", "nody_utf8_next"),
        "decode first": ("every piece, `nody_utf8_first`", "nody_utf8_first"), "decode at once": ("every piece, `nody_utf8_pieces`", "nody_utf8_pieces")}
# The calls from C of the summary, in its words.
OF_C_IN_SHORT = {"decode": "split into pieces, from C, one at a time", "decode first": "split into pieces, from C, by `nody_utf8_first`",
                 "decode at once": "split into pieces, from C, many at a time",
                 "valid-up-to": "validate UTF-8, from C", "utf8-to-utf16le": "UTF-8 to UTF-16, from C", "utf16le-to-utf8": "UTF-16 to UTF-8, from C"}
PEERS_OF_C = ("icu", "iconv", "utf8proc", "simdutf")


def of_c_bench():
    """What c/bench/run printed: for each work its inputs, each with its sides."""
    found = {}
    for line in (STORED / "c").read_text(encoding="utf-8").splitlines():
        words = line.split()
        found.setdefault(words[0], []).append((words[1], dict(zip(words[2::2], words[3::2]))))
    return found


def from_c():
    """The library for C compared with others, without the sides in Rattle: those are measured above."""
    lines = []
    for work, (told, _) in OF_C.items():
        for side in PEERS_OF_C:
            if it := cells(rows_of_c(work), side, "chinese", lambda key: key[1]):
                lines.append([told, *it])
    return table(["task", *HEADS], lines)


def rows_of_c(work):
    """A call from C over each of its inputs, compared with equivalent ones."""
    ours = OF_C[work][1]
    return [Row((work, text), {"ours": float(it[ours]), **{side: float(it[side]) for side in PEERS_OF_C if side in it}}, {})
            for text, it in of_c_bench()[work.split()[0]]]


# The works of c/bench/run in which calls of ours are compared with another of ours: that one.
OVER_ALL = {"over-utf8": "nody_utf8_valid_up_to", "over-utf16": "nody_utf16_valid_up_to", "pieces-in-parts": "nody_utf8_pieces", "pieces-in-few": "nody_utf8_pieces"}
IN_PARTS = {"pieces-in-parts": ", parts of 4 KiB", "pieces-in-few": ", parts of 100 bytes"}


def over_all():
    """The calls from C that scan a text, compared with our own validation, and those for input in parts with the call for the whole."""
    lines = []
    for work, base in OVER_ALL.items():
        of_work = of_c_bench()[work]
        for side in (it for it in of_work[0][1] if it != base):
            ratios = {text: float(it[side]) / float(it[base]) for text, it in of_work}
            chinese = dict(of_work)["chinese"]
            most = max(ratios, key=ratios.get)
            part = ", parts of 4 KiB" if side == "nody_decoder_feed_faults" else IN_PARTS.get(work, "")
            lines.append([f"`{side}`{part}", f"`{base}`", f"{float(chinese[side]):.2f}", f"{float(chinese[base]):.2f}", between(ratios.values()), f"{most} {ratios[most]:.2f}"])
    return table(["call", "beside", "its time", "time of that", "ratio", "most on"], lines)


def worst(rows):
    """The row and the side of the highest ratio."""
    return max(((row, side) for row in rows for side in row.numbers if side != "ours"), key=lambda it: it[0].ratio(it[1]))


def by_caller():
    """For each language and peer: on how many inputs ours is no slower, the ratios, and the worst of them."""
    told = {work: it for group in WORKS.values() for work, it in group.items()}
    recoded = lambda key: f"{FORMS[key[0]]} to {FORMS[key[1]]}, {key[2]}"
    of_c = [(f"{OF_C[work][0]}, {row.key[1]}", row) for work in OF_C for row in rows_of_c(work)]
    of_rattle = [(f"{told[row.key[0]]}, {row.key[1]}", row) for row in stored("run", 2)] + [(f"validate {FORMS[row.key[0]]}, {row.key[1]}", row) for row in stored("valid", 2)] + [
        (recoded(row.key), row) for row in stored("recode", 3)] + [(f"{recoded(row.key)}, `{row.key[4]}` of {row.key[3]} bytes", row) for row in stored("short", 5)]
    lines = []
    for caller, rows in (("C", of_c), ("Rattle", of_rattle)):
        for side in dict.fromkeys(side for _, row in rows for side in row.numbers if side != "ours"):
            found = [(row.ratio(side), name) for name, row in rows if side in row.numbers]
            ratios, (most, name) = [it for it, _ in found], max(found)
            lines.append([caller, NAMES[side], f"{sum(it <= 1 for it in ratios)} of {len(ratios)}", between(ratios), f"{name}: {marked_ratio(most)}"])
    return table(["called from", "beside", "no slower", "ratio", "our worst"], lines)


def limits():
    found = [line.split() for line in (STORED / "limit").read_text(encoding="utf-8").splitlines()[1:-1]]
    shown = lambda size: f"{size >> 20} MiB" if size >= 1 << 20 else f"{size >> 10} KiB"
    return table(["bytes", "read once", "copied"], [[shown(int(size)), f"{read} ns", f"{copy} ns"] for size, read, copy in found])


def replacements():
    lines = []
    for line in (STORED / "replacements").read_text(encoding="utf-8").splitlines():
        parts = line.split()
        if len(parts) == 6 and parts[1].isdigit():
            ours, lists, anew = float(parts[2]), float(parts[3]), float(parts[5])
            lines.append([parts[0], f"{ours:.0f}", f"{lists:.0f}", f"{ours / lists:.2f}", f"{anew:,.0f}"])
    return table(["input", "`replace`, in microseconds", "moving both lists", "ratio", "decoding all again"], lines)


EDITS = {"buffer: edit": "an edit of a `TextBuffer`", "buffer: piece": "the piece with a number", "buffer: number_of": "the number at an offset",
         "buffer: line_of": "the line at an offset", "buffer: next_fault": "the next error", "table: edit": "an edit of a `PieceTable`",
         "all decoded again": "decoding all again"}


def edited():
    """What bench/tables printed, by what was done and the KiB: the median and the worst, or one number of each byte."""
    found = {}
    for line in (STORED / "tables").read_text(encoding="utf-8").splitlines()[1:]:
        if it := re.fullmatch(r" *(\d+) buffer: made, ns a byte: ([\d.]+); memory for each byte: ([\d.]+)", line):
            found["made", int(it[1])], found["memory", int(it[1])] = it[2], it[3]
        elif it := re.fullmatch(r" *(\d+) (.+?) +([\d.]+) +([\d.]+)", line):
            found[it[2], int(it[1])] = float(it[3]), float(it[4])
    return found


def edits():
    found, sizes = edited(), {64: "64 KiB", 1024: "1 MiB", 16384: "16 MiB", 262144: "256 MiB"}
    both = lambda it: f"{it[0]:,.2f} · {it[1]:,.0f}" if it else "–"
    lines = [[name, *(both(found.get((work, size))) for size in sizes)] for work, name in EDITS.items()]
    lines.append(["a `TextBuffer` made anew, nanoseconds for each byte", *(found["made", size] for size in sizes)])
    lines.append(["its memory, for each byte of the text", *(found["memory", size] for size in sizes)])
    return table(["microseconds, median · worst", *sizes.values()], lines)


DAMAGED = {"to-utf16": "UTF-8 to UTF-16, one U+FFFD for each maximal subpart", "to-utf8": "UTF-8 to UTF-8, one U+FFFD for each maximal subpart",
           "faults": "the list of errors of UTF-8", "from-utf16": "UTF-16LE to UTF-8, one U+FFFD for each lone surrogate",
           "swap-utf16": "UTF-16LE to UTF-16BE, one U+FFFD for each lone surrogate"}


def damage():
    """What bench/damaged printed, by call: for each input its text, density and number of errors, and for each side ns a byte and ns an error."""
    found = {}
    for line in (STORED / "damaged").read_text(encoding="utf-8").splitlines()[1:]:
        head, _, sides = line.partition(" : ")
        (text, every, errors, call), words = head.split(), sides.split()
        of_side = {side: (float(ns), None if each == "-" else float(each)) for side, ns, each in zip(words[::3], words[1::3], words[2::3])}
        found.setdefault(call, {}).setdefault((text, int(every)), (errors, {}))[1].update(of_side)
    return found


def how_damaged(call, every):
    """How much of an input of the call is damaged: of UTF-16 units are, and not bytes."""
    one = "unit" if call in ("from-utf16", "swap-utf16") else "byte"
    return f"one {one} in {every:,}" if every > 1 else "none" if every == 0 else "all of it"


def damaged():
    """For each call and input the time of a byte for each side, and of an error."""
    found, lines = damage(), []
    for call, told in DAMAGED.items():
        for (text, every), (errors, sides) in found.get(call, {}).items():
            theirs = {side: ns for side, (ns, _) in sides.items() if side != "ours"}
            ns, each = sides["ours"]
            best = min(theirs, key=theirs.get)
            lines.append([told, f"{text}, {how_damaged(call, every)}", f"{ns:.3f}", f"{theirs[best]:.3f} ({NAMES[best]})", marked_ratio(ns / theirs[best]), "–" if each is None else f"{each:.0f}",
                          ", ".join(f"{NAMES[it]} {theirs[it]:.2f}" for it in theirs if it != best) or "–"])
    return table(["call", "input, damaged", "ours", "best of theirs", "ratio", "ours, for an error", "others"], lines)


def text_of_damaged():
    """The text of a damaged input in CPython and in Node, beside our conversion to UTF-16."""
    found, lines = damage(), []
    for (text, every), (_, sides) in found["text"].items():
        ours = found["to-utf16"][text, every][1]["ours"][0]
        lines.append([f"{text}, {how_damaged('text', every)}", f"{ours:.2f}", *(f"{sides[it][0]:.2f}" if it in sides else "–" for it in ("CPython", "TextDecoder"))])
    return table(["input, damaged", "ours, to UTF-16", "`bytes.decode`", "`TextDecoder`"], lines)


def damaged_in_short():
    """By call: the ratios of ours to the best of the others over all damaged inputs, and the time of an error where one byte, or unit, in 100 or
    more is damaged."""
    found, lines = damage(), []
    for call, told in ((it, told) for it, told in DAMAGED.items() if it in found):
        ratios, errors = {}, []
        for (text, every), (_, sides) in found[call].items():
            if every:
                ratios[f"{text}, {how_damaged(call, every)}" if every > 1 else text] = sides["ours"][0] / min(ns for side, (ns, _) in sides.items() if side != "ours")
                errors += [] if sides["ours"][1] is None or every > 100 else [sides["ours"][1]]
        worst = max(ratios, key=ratios.get)
        lines.append([told, between(ratios.values()), f"{worst}: {marked_ratio(ratios[worst])}", f"{min(errors):.0f} to {max(errors):.0f}"])
    return table(["call", "ratio to the best of the others", "our worst", "nanoseconds for an error"], lines)


def guessed(kind):
    """The lines of that kind that bench/guesses printed."""
    lines = [it.split("\t") for it in (STORED / "guesses").read_text(encoding="utf-8").splitlines()]
    return [it[1:] for it in lines if it[0] == kind]


def share(right, count):
    """A part of a whole in percent, of which only all is 100."""
    return "–" if count == 0 else "100 %" if right == count else f"{min(100 * right / count, 99.9):.1f} %"


def guesses():
    """By class: how often the first guess and one of the guesses was right, by source, and how often those of others."""
    rows = []
    for name, *numbers in guessed("right"):
        before, first, any_of, others, first_of_others, any_of_others, shared, *right = map(int, numbers)
        rows.append([name, f"{before:,}, {others:,}", f"{share(first, before)}, {share(first_of_others, others)}", f"{share(any_of, before)}, {share(any_of_others, others)}", f"{shared:,}", *(share(it, shared) for it in right)])
    return table(["what the input is", "inputs", "the first guess is right", "one of the guesses is", "shared inputs", "first guess", "chardet", "charset-normalizer"], rows)


def mistaken():
    """By class: what the inputs were taken for that were taken for something else."""
    found = {}
    for wanted, told, count in guessed("taken"):
        found.setdefault(wanted, []).append(f"{told} ({int(count):,})")
    return table(["what the input is", "what it was taken for"], [[it, ", ".join(told)] for it, told in found.items()])


def time_of_surveys():
    return table(["text", "`nody_survey`", "`nody_utf8_valid_up_to`"], guessed("time"))


def short_js():
    """What js/bench --short printed: a row for each call and text, a column for each size, and the ratio that is asked of ASCII."""
    found, asked = {}, {}
    for line in (STORED / "js-short").read_text(encoding="utf-8").splitlines()[1:]:
        call, text, size, _, _, ratio, most = line.split()[:7]
        found.setdefault((call, text), {})[int(size)] = marked_ratio(float(ratio))
        if most != "-":
            asked.setdefault(call, []).append(f"{most} at {int(size):,} bytes")
    sizes = sorted({it for row in found.values() for it in row})
    peers = {"decode": "`TextDecoder`", "isValid": "`isUtf8` of Node"}
    lines = [[f"`{call}`, {text}", peers[call], *(row.get(it, "–") for it in sizes), ", ".join(asked[call]) if text == "ASCII" else "–"] for (call, text), row in found.items()]
    return table(["call", "beside", *(f"{it:,} bytes" for it in sizes), "at most"], lines)


def one(name, keys, key, side):
    """What both took in one row."""
    row = next(it for it in stored(name, keys) if it.key == key)
    return row.numbers["ours"], row.numbers[side]


def worst_cells(task, text, row, side):
    return [task, f"{text} (our worst)", NAMES[side], f"{row.numbers['ours']:.2f} ns", f"{row.numbers[side]:.2f} ns", marked_ratio(row.ratio(side))]


def summary():
    """The first table of docs/BENCHMARKS.md: the rows that a first reader asks for, and of each group that loses the worst."""
    asked = [("split into pieces, forward", "mixed text", "run", ("forward", "mix"), "bstr"),
             ("split into pieces, forward", "ASCII", "run", ("forward", "ascii"), "bstr"),
             ("split into pieces, forward", "mixed text, damaged", "run", ("forward", "damaged"), "rust"),
             ("split into pieces, backward", "mixed text", "run", ("backward", "mix"), "bstr"),
             ("UTF-8 to UTF-16", "Japanese", "recode", ("utf8", "utf16le", "japanese"), "encoding_rs"),
             ("UTF-8 to UTF-16", "Japanese", "recode", ("utf8", "utf16le", "japanese"), "iconv"),
             ("UTF-8 to UTF-16", "a damaged log", "recode", ("utf8", "utf16le", "log"), "encoding_rs"),
             ("validate UTF-8", "Japanese", "valid", ("utf8", "japanese"), "std")]
    lines = []
    for task, text, name, key, side in asked:
        ours, theirs = one(name, len(key), key, side)
        lines.append([task, text, NAMES[side], f"{ours:.2f} ns", f"{theirs:.2f} ns", f"{ours / theirs:.2f}"])
    lost = [("validate UTF-8", "valid", 2, lambda key: key[0] == "utf8"), ("read valid text backward", "run", 2, lambda key: key[0] == "text_backward"),
            ("decode from an iterator", "run", 2, lambda key: key[0] in ("merger", "unit_merger")), ("recode one short part", "short", 5, lambda key: key[4] == "feed_into")]
    short = ""
    for task, name, keys, holds in lost:
        row, side = worst([it for it in stored(name, keys) if holds(it.key)])
        short = row.key[3] if name == "short" else short
        text = f"{TEXTS.get(row.key[2], row.key[2])}, {row.key[3]} bytes, {FORMS[row.key[0]]} to {FORMS[row.key[1]]}" if name == "short" else TEXTS.get(row.key[-1], row.key[-1])
        lines.append(worst_cells(task, text, row, side))
    for work, task in OF_C_IN_SHORT.items():
        row, side = worst(rows_of_c(work))
        lines.append(worst_cells(task, TEXTS.get(row.key[1], row.key[1]), row, side))
    told = ("Times are nanoseconds per byte. The ratio is our time divided by theirs: above 1 we are slower. It was computed before the times "
            "were rounded. For each task many inputs were measured. A row with \"our worst\" has the input and the library for which our ratio is highest. In the row "
            f"\"recode one short part\", the time is for all {short} bytes together. Noddychest was called from Rattle, and where a row says so, from C.\n\n")
    return told + table(["task", "input", "compared with", "Noddychest", "theirs", "ratio"], lines)


def marked(page, name, text):
    """The page with the text between its mark and the end of that part."""
    made, count = re.subn(rf"(<!-- {re.escape(name)} -->\n).*?(<!-- end -->)", lambda it: f"{it[1]}{text}\n{it[2]}", page, flags=re.S)
    if count != 1:
        raise SystemExit(f"bench/plots: the mark '{name}' stands {count} times in its page")
    return made
