#!/usr/bin/env python3
"""Runs `nody` as people do, and holds what it says against Python's own decoder.

usage: c/tests/nody.py BUILD [COMPILER]

BUILD has what make built. The program is compiled again with blocks of a few bytes, so that they end everywhere, and with sanitizers. Texts of
each form, damaged at random, go through all commands, in one thread and in three. Then what fails: arguments, files, full disks, closed
pipes, signals, reads that are interrupted; and other processes that change a file at each moment while it is replaced. It needs Linux; what needs root, or a tool that is not there, is left out, and named. The
last line is 'N passed, M failed'.
"""
import codecs
import contextlib
import errno
import fcntl
import json
import os
import pty
import random
import re
import resource
import select
import shutil
import signal
import struct
import subprocess
import sys
import tempfile
import termios
import time
from concurrent.futures import ThreadPoolExecutor

C = os.path.dirname(os.path.dirname(os.path.abspath(__file__)))
# Signals that end a program, and of which it can know.
ENDS = [signal.SIGTERM, signal.SIGINT, signal.SIGHUP, signal.SIGQUIT, signal.SIGALRM, signal.SIGXCPU]
SOURCES = sorted(f"{C}/nody/{it}" for it in os.listdir(f"{C}/nody") if it.endswith(".c"))
WARNINGS = ["-Wall", "-Wextra", "-Wpedantic", "-Wconversion", "-Werror"]
SANITIZERS = ["-g", "-fsanitize=address,undefined", "-fno-sanitize-recover=all"]
FORMS = {"utf-8": "UTF-8", "utf-16le": "UTF-16LE", "utf-16be": "UTF-16BE"}
# How many bytes a block has, and whether the program then has sanitizers.
BLOCKS = {1: True, 2: False, 3: False, 4: True, 5: False, 7: False}
# What damaged text is made of.
PARTS = {
    "utf-8": [b"a", b"\n", b"text ", "é".encode(), "€".encode(), "\U0001f600".encode(), b"\xc3", b"\xa9", b"\xe2", b"\x82", b"\xe0\x80", b"\xed\xa0",
              b"\xf0\x9f", b"\xf0\x9f\x98", b"\xf4\x90\x80\x80", b"\xff", b"\xc0", b"\xef\xbb\xbf", b"\x80\x80\x80\x80"],
    "utf-16le": [b"a\0", b"\n\0", "é€".encode("utf-16-le"), "\U0001f600".encode("utf-16-le"), b"\x3d\xd8", b"\x00\xde", b"\xff\xfe", b"\x0a\x0a", b"x"],
    "utf-16be": [b"\0a", b"\0\n", "é€".encode("utf-16-be"), "\U0001f600".encode("utf-16-be"), b"\xd8\x3d", b"\xde\x00", b"\xfe\xff", b"\x0a\x0a", b"x"],
}
# All that check finds: of valid and of binary files too, and each invalid byte.
ALL = ["check", "-v", "-a", "--max", "0"]
passed = failed = 0


def expect(holds, what):
    global passed, failed
    passed, failed = passed + bool(holds), failed + (not holds)
    if not holds and failed <= 20:
        print(f"{os.path.basename(sys.argv[0])}: FAILED: {what}"[:700], flush=True)
    return holds


# ---- What is right, by Python's decoder and the table of errors in README.md


def one_byte(error):
    return "\ufffd", error.start + 1


codecs.register_error("one", one_byte)


def kind_of_utf8(data, at):
    first, rest = data[at], data[at + 1 : at + 4]
    if first & 0xC0 == 0x80:
        return "UnexpectedContinuationByte"
    if first in (0xC0, 0xC1) or first > 0xF4:
        return "NonUtf8Byte"
    more = 1 if first < 0xE0 else 2 if first < 0xF0 else 3
    if len(rest) < more:
        return "TooFewBytes"
    if any(it & 0xC0 != 0x80 for it in rest[:more]):
        return "InterruptedSequence"
    value = first & (0x3F >> more)
    for it in rest[:more]:
        value = value << 6 | it & 0x3F
    return "TooHighCodepoint" if value > 0x10FFFF else "Utf16ReservedCodepoint" if 0xD800 <= value < 0xE000 else "OverlongEncoding"


def pieces_of_utf8(data):
    """Offset, length, and the character or the name of the error."""
    wrong, at, found = [], 0, []
    codecs.register_error("note", lambda error: (wrong.append(error.start), ("", error.start + 1))[1])
    data.decode("utf-8", "note")
    for stop in [*wrong, len(data)]:
        for char in data[at:stop].decode("utf-8"):
            found.append((at, len(char.encode()), char))
            at += len(char.encode())
        if stop < len(data):
            found.append((stop, 1, kind_of_utf8(data, stop)))
            at = stop + 1
    return found


def pieces_of_utf16(data, order):
    units, found, i = [int.from_bytes(data[k : k + 2], order) for k in range(0, len(data) - 1, 2)], [], 0
    while i < len(units):
        unit, follows = units[i], units[i + 1] if i + 1 < len(units) else None
        if unit & 0xFC00 == 0xD800 and follows is not None and follows & 0xFC00 == 0xDC00:
            found.append((2 * i, 4, chr(0x10000 + ((unit & 0x3FF) << 10) + (follows & 0x3FF))))
            i += 2
            continue
        is_lead, is_trail = unit & 0xFC00 == 0xD800, unit & 0xFC00 == 0xDC00
        lone = "Incomplete" if follows is None else "UnmatchedLeadingSurrogate"
        found.append((2 * i, 2, "UnexpectedTrailingSurrogate" if is_trail else lone if is_lead else chr(unit)))
        i += 1
    return found + ([(len(data) - 1, 1, "Incomplete")] if len(data) % 2 else [])


def pieces_of(data, form):
    return pieces_of_utf8(data) if form == "utf-8" else pieces_of_utf16(data, "little" if form == "utf-16le" else "big")


def is_error(piece):
    return len(piece[2]) > 1


def places_of(pieces):
    """The line and column of each piece."""
    line, column, places = 1, 1, []
    for _, _, what in pieces:
        places.append((line, column))
        line, column = (line + 1, 1) if what == "\n" else (line, column + 1)
    return places


# What becomes of an invalid byte of UTF-8, for each word of --errors with a table, and what is said of it.
TABLES = {
    "drop": (lambda byte: "", "dropped"),
    "windows-1252": (lambda byte: chr(byte) if byte in (0x81, 0x8D, 0x8F, 0x90, 0x9D) else bytes([byte]).decode("cp1252"), "read as Windows-1252"),
    "latin1": (chr, "read as ISO-8859-1"),
}


def recoded(data, form, to, errors):
    """What recode writes, and where it stops."""
    pieces, name = pieces_of(data, form), to.replace("utf-16", "utf-16-")
    if errors in TABLES and (form == "utf-8" or errors == "drop"):
        return "".join(TABLES[errors][0](data[it[0]]) if is_error(it) else it[2] for it in pieces).encode(name)
    if errors == "lossy":
        return data.decode(form.replace("utf-16", "utf-16-"), "replace").encode(name)
    if errors == "strict":
        pieces = pieces[: next((i for i, it in enumerate(pieces) if is_error(it)), len(pieces))]
    return "".join("\ufffd" if is_error(it) else it[2] for it in pieces).encode(name)


# ---- Running it


def run(words, data=b"", **more):
    ran = subprocess.run(words, input=data if "stdin" not in more else None, capture_output="stdout" not in more, timeout=120, **more)
    return ran.returncode, ran.stdout, ran.stderr


def says(words, status, output=None, error=None, data=b"", **more):
    """One test: how it ends, and what it writes; error is what standard error contains, or b"" for nothing."""
    got = run(words, data, **more)
    right = got[0] == status and (output is None or got[1] == output)
    right = right and (error is None or (got[2] == b"" if error == b"" else error in got[2]))
    return expect(right, f"{[os.path.basename(words[0]), *words[1:]]} on {data[:60]!r}: {got[0]} {got[1][-300:]!r} {got[2][-600:]!r}, not {status} {output and output[-300:]!r} {error!r}")


def sentences(program):
    """The sentences that the program prints, by the names of the reasons."""
    samples = [b"\x80", b"\xff", b"\xe2\x82", b"\xe2A\x82", b"\xe0\x80\xaf", b"\xed\xa0\x80", b"\xf4\x90\x80\x80"]
    pairs = [b"\x00\xde", b"\x3d\xd8A\0", b"\x3d\xd8"]
    told = {}
    for form, data in [("utf-8", it) for it in samples] + [("utf-16le", it) for it in pairs]:
        line = json.loads(run([program, "check", "--json", "--max", "1", "--from", form], data)[1].split(b"\n")[0])
        told[line["kind"]] = line["reason"]
        expect(line["kind"] == pieces_of(data, form)[0][2], f"the kind of {data!r} is {line['kind']}")
    return told


def noun(form, count):
    return f"invalid {'byte' if form == 'utf-8' else 'unit'}{'' if count == 1 else 's'}"


def wanted_check(name, data, form, reasons):
    pieces = pieces_of(data, form)
    wrong = [(place, it) for place, it in zip(places_of(pieces), pieces) if is_error(it)]
    lines = [f"{name}:{line}:{column}: offset {it[0]}: {reasons[it[2]]}\n" for (line, column), it in wrong]
    lines.append(f"{name}: not valid {FORMS[form]}: {len(wrong):,} {noun(form, len(wrong))}\n" if wrong else f"{name}: valid {FORMS[form]}\n")
    return int(bool(wrong)), "".join(lines).encode()


def is_shown(char):
    at = ord(char)
    return not (at < 0x20 or 0x7F <= at < 0xA0 or at in (0xFEFF, 0x61C) or 0x200B <= at <= 0x200F or 0x2028 <= at <= 0x202E or 0x2060 <= at <= 0x206F)


def line_of(data, piece, reasons):
    offset, length, what = piece
    told = f"{what}: {reasons[what]}" if is_error(piece) else f"U+{ord(what):04X} {what if is_shown(what) else ''}"
    return f"{offset} {length} {data[offset : offset + length].hex()} {told}\n"


def wanted_count(name, data, form, reasons):
    pieces = pieces_of(data, form)
    wrong = [it[2] for it in pieces if is_error(it)]
    counts = [len(data), len(pieces) - len(wrong), sum(it[2] == "\n" for it in pieces)]
    nouns = [f"{count} {what}{'' if count == 1 else 's'}" for count, what in zip(counts, ("byte", "character", "line"))]
    order = ["TooFewBytes", "NonUtf8Byte", "UnexpectedContinuationByte", "InterruptedSequence", "OverlongEncoding", "Utf16ReservedCodepoint",
             "TooHighCodepoint", "UnexpectedTrailingSurrogate", "UnmatchedLeadingSurrogate", "Incomplete"]
    kinds = "".join(f"    {wrong.count(it)} {it}: {reasons[it]}\n" for it in order if it in wrong)
    return int(bool(wrong)), f"{name}: {', '.join(nouns)}, {len(wrong)} {noun(form, len(wrong))}\n{kinds}".encode()


def wanted_at(data, form, offset, reasons):
    pieces = pieces_of(data, form)
    here = next(i for i, it in enumerate(pieces) if it[0] + it[1] > offset)
    around = range(max(here - 3, 0), min(here + 4, len(pieces)))
    lines = [("> " if i == here else "  ") + line_of(data, pieces[i], reasons) for i in around]
    return int(is_error(pieces[here])), "".join(lines).encode()


def try_text(program, name, data, form, reasons, jobs, chance):
    """All commands on one text, in a file or from a pipe."""
    with open(name, "wb") as file:
        file.write(data)
    here = ["--from", form] if form != "utf-8" or chance.random() < 0.5 else []
    some = ["--jobs", str(jobs)]
    for given, shown, piped in ((name, name, b""), ("-", "-", data)):
        says([program, *ALL, *here, *some, given], *wanted_check(shown, data, form, reasons), b"", piped)
        says([program, "count", *here, *some, given], *wanted_count(shown, data, form, reasons), b"", piped)
        pieces = pieces_of(data, form)
        listed = "".join(line_of(data, it, reasons) for it in pieces).encode()
        says([program, "list", *here, given], int(any(map(is_error, pieces))), listed, b"", piped)
        for offset in sorted(chance.sample(range(len(data)), min(2, len(data)))):
            says([program, "at", *here, given, str(offset)], *wanted_at(data, form, offset, reasons), b"", piped)
        try_recode(program, given, shown, piped, data, form, reasons, here + some, chance)


def try_recode(program, given, shown, piped, data, form, reasons, words, chance):
    to, wrong = chance.choice([*FORMS]), [it for it in pieces_of(data, form) if is_error(it)]
    status, told = wanted_check(shown, data, form, reasons)
    asked = [program, "recode", *words, "--to", to]
    count = f"nody: {shown}: {len(wrong)} {noun(form, len(wrong))} became U+FFFD\n".encode() if wrong else b""
    got = run([*asked, given], piped)
    expect(got == (0, recoded(data, form, to, "replace"), count), f"recode {form} {to} of {data!r}: {got}")
    got = run([*asked, "--errors", "lossy", given], piped)
    expect(got == (0, recoded(data, form, to, "lossy"), count), f"recode {form} {to} --errors lossy of {data!r}: {got}")
    errors = chance.choice([*TABLES])
    told_of = count.replace(b"became U+FFFD", TABLES[errors][1].encode()) if form == "utf-8" or errors == "drop" else count
    got = run([*asked, "--errors", errors, given], piped)
    expect(got == (0, recoded(data, form, to, errors), told_of), f"recode {form} {to} --errors {errors} of {data!r}: {got}")
    got = run([*asked, "--errors", "strict", given], piped)
    first = told.splitlines(True)[0] if wrong else b""
    expect(got == (status, recoded(data, form, to, "strict"), first), f"recode strictly {form} {to} of {data!r}: {got}")


def texts(form, chance, count, most):
    for _ in range(count):
        text = b"".join(chance.choices(PARTS[form], k=chance.randrange(most)))
        yield text[chance.randrange(3) :] if chance.random() < 0.2 else text


def check_texts(folder, programs, reasons):
    """Each program on its own texts, in several threads of ours."""
    def one(job):
        number, program, form = job
        chance = random.Random(1000 * number + len(form))
        for data in [b"", *texts(form, chance, 2, 12), *texts(form, chance, 2, 60)]:
            try_text(program, f"{folder}/text-{number}", data, form, reasons, chance.choice((1, 2, 3)), chance)

    jobs = [(i, program, form) for i, (program, form) in enumerate((program, form) for program in programs for form in FORMS)]
    with ThreadPoolExecutor(3) as pool:
        list(pool.map(one, jobs))


def check_large(folder, program, reasons):
    """Texts of a few megabytes, with whole blocks, in one thread and in several."""
    chance = random.Random(67)
    for form in FORMS:
        text = "naïve €uro \U0001f600 and so on\n".encode(form.replace("utf-16", "utf-16-"))
        data = b"".join(chance.choices([text, *PARTS[form]], weights=[300] + [1] * len(PARTS[form]), k=60000))
        name = f"{folder}/large"
        with open(name, "wb") as file:
            file.write(data)
        status, want = wanted_check(name, data, form, reasons)
        for jobs in ([], ["--jobs", "1"], ["--jobs", "7"]):
            says([program, *ALL, "--from", form, *jobs, name], status, want, b"")
            says([program, "count", "--from", form, *jobs, name], *wanted_count(name, data, form, reasons), b"")
            for errors in ("replace", "lossy", *TABLES):
                says([program, "recode", "--from", form, "--to", "utf-16be", "--errors", errors, "--quiet", *jobs, name], 0, recoded(data, form, "utf-16be", errors), b"")
        says([program, *ALL, "--from", form, "-"], status, want.replace(name.encode(), b"-"), b"", data)
        for offset in (0, 100, len(data) // 2, len(data) - 1):
            says([program, "at", "--from", form, name, hex(offset)], *wanted_at(data, form, offset, reasons), b"")


# ---- Options


def check_options(folder, program, reasons):
    name, data = f"{folder}/options", b"\xff\n\xfe\n\xfd\n"
    with open(name, "wb") as file:
        file.write(data)
    lines = wanted_check(name, data, "utf-8", reasons)[1].splitlines(True)
    says([program, "check", "--quiet", name], 1, b"", b"")
    says([program, "check", "-q", "-"], 0, b"", b"", b"text")
    says([program, "check", "--max", "2", name], 1, b"".join(lines[:2]) + f"{name}: 1 more invalid byte (--max 0 shows all)\n".encode(), b"looks like Windows-1252")
    says([program, "check", name, "--max=0x1", name], 1, 2 * (lines[0] + f"{name}: 2 more invalid bytes (--max 0 shows all)\n".encode()), b"looks like Windows-1252")
    told = [json.loads(it) for it in run([program, "check", "--json", name])[1].splitlines()]
    expect([(it["line"], it["column"], it["offset"], it["length"], it["kind"]) for it in told[:-1]] == [(i + 1, 1, 2 * i, 1, "NonUtf8Byte") for i in range(3)], f"{told}")
    expect(told[-1] == {"file": name, "encoding": "UTF-8", "valid": False, "binary": False, "invalid": 3, "complete": True}, f"{told[-1]}")
    told = json.loads(run([program, "count", "--json", name])[1])
    expect(told == {"file": name, "encoding": "UTF-8", "bytes": 6, "characters": 3, "lines": 3, "invalid": 3, "kinds": {"NonUtf8Byte": 3}}, f"{told}")
    told = [json.loads(it) for it in run([program, "list", "--json", name])[1].splitlines()]
    expect(told[0]["bytes"] == "ff" and told[0]["kind"] == "NonUtf8Byte" and told[1] == {"file": name, "offset": 1, "length": 1, "bytes": "0a", "scalar": 10}, f"{told}")
    expect(len(run([program, "at", "--json", name, "5"])[1].splitlines()) == 4, "at --json")
    odd = os.fsencode(folder) + b"/\"\\\n\xff"
    shutil.copy(name, odd)
    expect(json.loads(run([program, "count", "--json", odd])[1])["file"] == os.fsdecode(folder) + "/\"\\\n\ufffd", "a file of a strange name in JSON")
    check_names(folder, program, reasons)
    check_origin(folder, program, reasons)
    check_marks(program)
    check_words(program, name)


def check_names(folder, program, reasons):
    """A name that commands a terminal, has several lines, or is no text: messages have it in one line that can be shown."""
    odd = os.fsencode(folder) + "/\033]0;é\007\n\u202e\u0085".encode() + b"\xe9\\"
    shown = folder.encode() + "/\\033]0;é\\007\\012\\342\\200\\256\\302\\205\\351\\".encode()
    with open(odd, "wb") as file:
        file.write(b"\xff")
    first = b"%s:1:1: offset 0: %s\n" % (shown, reasons["NonUtf8Byte"].encode())
    says([program, "check", odd], 1, first + shown + b": not valid UTF-8: 1 invalid byte\n", b"")
    expect(run([program, "count", odd])[1].startswith(shown + b": 1 byte, "), "count names a file that commands a terminal")
    expect(run([program, "recode", odd])[2] == b"nody: %s: 1 invalid byte became U+FFFD\n" % shown, "recode names it")
    expect(run([program, "recode", "--errors", "strict", odd])[2] == first, "recode names it strictly")
    expect(run([program, "check", odd + b"?"])[2] == b"nody: %s?: No such file or directory\n" % shown, "a message names it")
    expect(run([program, "check", "--max", "\033[2J"])[2].startswith(b"nody: --max does not take '\\033[2J'\n"), "a value that commands a terminal")
    expect(b"\\u0085" in run([program, "check", "--json", odd])[1], "JSON has no control character as it is")


def check_origin(folder, program, reasons):
    """Standard input that is a file, of which the front was read already."""
    name, data = f"{folder}/origin", b"read already " + b"caf\xc3\xa9 \xff text\n" * 50000
    with open(name, "wb") as file:
        file.write(data)
    for words, want in ((ALL, wanted_check("-", data[13:], "utf-8", reasons)), (["at", "-", "1000"], wanted_at(data[13:], "utf-8", 1000, reasons)),
                        (["recode", "-q", "--to", "utf-16le"], (0, recoded(data[13:], "utf-8", "utf-16le", "replace")))):
        with open(name, "rb", buffering=0) as file:
            file.read(13)
            says([program, *words], *want, b"-: looks like UTF-8 with bytes of an 8-bit encoding" if words is ALL else b"", stdin=file)


def check_marks(program):
    """Byte order marks, and the labels of encodings."""
    for mark, form, text in ((b"\xef\xbb\xbf", "UTF-8", "é€\n".encode()), (b"\xff\xfe", "UTF-16LE", "é€\n".encode("utf-16-le")),
                             (b"\xfe\xff", "UTF-16BE", "é€\n".encode("utf-16-be")), (b"", "UTF-8", "é€\n".encode())):
        says([program, "check", "-v", "--from", "bom"], 0, f"-: valid {form}\n".encode(), b"", mark + text)
        says([program, "recode", "--from=bom", "--to", "UTF-8"], 0, "é€\n".encode(), b"", mark + text)
        says([program, "recode", "--from=bom", "--to", "unicodeFFFE"], 0, "é€\n".encode("utf-16-be"), b"", mark + text)
    says([program, "recode", "--from=utf-16", "--from=bom"], 0, "é\n".encode(), b"", "é\n".encode())
    for data in (b"", b"\xef", b"\xff", b"\xef\xbb"):
        says([program, "recode", "--from=bom", "-q"], 0, b"\xef\xbf\xbd" * len(data), b"", data)
    labels = {"utf-8": "utf8 UTF-8 unicode-1-1-utf-8 unicode11utf8 unicode20utf8 x-unicode20utf8", "utf-16-le": "csunicode iso-10646-ucs-2 ucs-2 unicode unicodefeff utf-16 utf-16le UTF16LE",
              "utf-16-be": "unicodefffe utf-16be utf16be"}
    for codec, words in labels.items():
        for word in [*words.split(), f" \t{words.split()[0].title()}\r"]:
            says([program, "recode", "--to", word], 0, "é".encode(codec), b"", "é".encode())


def check_words(program, name):
    """What is wrong is said in a line, with how it should be."""
    for words in (["check", "--max", "x"], ["check", "--max", "-1"], ["check", "--max", "99999999999999999999"], ["check", "--max"],
                  ["check", "--to", "utf-8"], ["list", "--max", "1"], ["check", "--from", "latin1"], ["check", "--from", ""], ["recode", "--to", "bom"],
                  ["recode", "--errors", "ignore"], ["recode", "--in-place"], ["recode", "--in-place", "-"], ["recode", "--in-place", "-o", "x", name],
                  ["recode", name, name], ["at", name], ["at", name, "0", "0"], ["check", "--follow", "-r", name], ["check", "-0"], ["check", "--files0-from", name, name], ["check", "--columns", "x"], ["check", "--color", "x"], ["fix"], ["fix", "-"], ["fix", "--errors", "strict", name], ["fix", "--backup", "a/b", name], ["check", "-x"], ["check", "--jobs", "0"], ["recode", "--json"]):
        says([program, *words], 2, b"", b"usage: nody ")
    for word, want in (("-zq", b"there is no option '-z'"), ("-f", b"there is no option '-f'"), ("--none", b"there is no option '--none'"), ("--j", b"there is no option '--j'"),
                       ("--quiet=3", b"--quiet takes no value"), ("--max", b"--max needs a value"), ("-q\033", b"there is no option '-\\033'"),
                       ("--\033[2J\n", b"there is no option '--\\033[2J\\012'"), ("--json=\033[2J", b"--json takes no value")):
        told = run([program, "check", word])
        expect(told[0] == 2 and told[2].split(b"\n")[0] == b"nody: " + want, f"{word!r}: {told}")
    says([program, "recode", "-o"], 2, b"", b"nody: --output needs a value\n")
    for words in ([], ["chek"], ["-q"]):
        says([program, *words], 2, b"", b"usage: nody check|fix|view|count|list|at|recode")
    for offset in ("", "x", "1x", "0x", "-1", "99999999999999999999"):
        says([program, "at", name, "--", offset], 2, b"", b"an OFFSET is a number")
    says([program, "at", name, "6"], 2, b"", b"it ends before this offset")
    says([program, "at", name, "18446744073709551615"], 2, b"", b"it ends before this offset")
    version, had = run([program, "--version"])[1], contents(name)
    expect(re.fullmatch(rb"nody \d+\.\d+\.\d+\n", version), "--version")
    for command in ("check", "list", "count", "at", "recode", "fix"):
        says([program, command, name, "--version"], 0, version, b"")
    expect(contents(name) == had, "a file that is named beside --version")
    expect(run([program, "--help"])[1].count(b"\n  nody ") == 7 and run([program, "at", "--help"])[1].count(b"usage: nody ") == 1, "--help")
    page = contents(f"{os.path.dirname(C)}/packaging/man/nody.1").decode().split(".SH DESCRIPTION")[0].replace("\\-", "-")
    page = re.sub(r"^\.\w+|\\~|\s", "", page, flags=re.M)
    for command in ("check", "fix", "view", "list", "count", "at", "recode"):
        usage = re.sub(r"\s", "", run([program, command, "--help"])[1].decode().split("\n" if command != "recode" else "convert")[0].removeprefix("usage: "))
        expect(usage in page, f"the synopsis of the man page has no {usage}")


# ---- What fails


def check_failures(folder, program):
    valid, missing = f"{folder}/valid", f"{folder}/missing"
    with open(valid, "wb") as file:
        file.write(b"text\n")
    line = f"{valid}: valid UTF-8\n".encode()
    for command in ("check", "count", "list"):
        command, *more = (command, "-v") if command == "check" else (command,)
        got = run([program, command, *more, missing, folder, valid])
        expect(got[0] == 3 and got[2] == f"nody: {missing}: No such file or directory\nnody: {folder}: Is a directory\n".encode(), f"{command}: {got}")
        expect(got[1] == run([program, command, *more, valid])[1] != b"", f"{command} after files that cannot be read: {got}")
    says([program, "at", folder, "0"], 3, b"", b"Is a directory")
    says([program, "check", "-v", "/dev/null"], 0, b"/dev/null: valid UTF-8\n", b"")
    for words in (["check", "-v", valid], ["list", valid], ["count", valid], ["at", valid, "0"], ["recode", valid]):
        with open("/dev/full", "wb") as full:
            ran = subprocess.run([program, *words], stdout=full, stderr=subprocess.PIPE)
        expect((ran.returncode, ran.stderr) == (3, b"nody: cannot write: No space left on device\n"), f"{words} to a full device: {ran}")
        with open("/dev/full", "wb") as full:
            expect(subprocess.run([program, words[0], "--help"], stdout=full).returncode == 3, f"the help of {words[0]} to a full device")
        reader, writer = os.pipe()
        os.close(reader)
        ran = subprocess.run([program, *words], stdout=writer, stderr=subprocess.PIPE)
        os.close(writer)
        expect((ran.returncode, ran.stderr) == (3, b""), f"{words} to a closed pipe: {ran}")
        ran = subprocess.run(["sh", "-c", '"$@" >&-', "sh", program, *words], stderr=subprocess.PIPE)
        expect(ran.returncode == 3 and b"cannot write" in ran.stderr, f"{words} to a closed stream: {ran}")
        if words[0] != "at":
            ran = subprocess.run(["sh", "-c", '"$@" <&-', "sh", program, words[0]], capture_output=True)
            expect(ran.returncode == 3 and b"nody: -: Bad file descriptor" in ran.stderr, f"{words} of a closed stream: {ran}")
    says([program, "recode", valid, "-o", "/dev/full"], 3, b"", b"nody: /dev/full: No space left on device\n")
    says([program, "recode", valid, "-o", f"{folder}/none/x"], 3, b"", b"No such file or directory")
    says([program, "check", "-v", valid, missing], 3, line, b"No such file")
    for words in (["recode", "--jobs", "1", valid], ["check", valid], ["list", "-"]):
        with open(valid, "rb") as file, open(valid, "ab") as end:
            ran = subprocess.run([program, *words], stdin=file, stdout=end, stderr=subprocess.PIPE)
        expect((ran.returncode, contents(valid)) == (3, b"text\n") and b": it is the output too" in ran.stderr, f"{words} to its input: {ran}")
    check_unreadable(folder, program, valid)
    check_endless(program)


def check_unreadable(folder, program, valid):
    """A file and a folder that others may not touch."""
    if os.geteuid() != 0:
        print("nody.py: left out: files of others, which takes root")
        return
    for it in (folder, os.path.dirname(folder)):
        os.chmod(it, 0o755)
    secret = f"{folder}/secret"
    shutil.copy(valid, secret)
    os.chmod(secret, 0o600)
    says([program, "check", "-v", secret, valid], 3, f"{valid}: valid UTF-8\n".encode(), f"nody: {secret}: Permission denied\n".encode(), user=65534)
    says([program, "recode", "--in-place", valid], 3, b"", b"Permission denied", user=65534)
    with open(valid, "rb") as file:
        expect(file.read() == b"text\n", "a file in a folder that is not ours")


def check_endless(program):
    """An endless device, which an invalid byte ends, or whoever reads."""
    ran = subprocess.run(f"'{program}' check /dev/urandom", shell=True, capture_output=True, timeout=60)
    expect(ran.returncode == 1 and b": binary file, not valid UTF-8: " in ran.stdout, f"check /dev/urandom: {ran}")
    ran = subprocess.run(f"'{program}' list /dev/urandom | head -n 3", shell=True, capture_output=True, timeout=60)
    expect(ran.stdout.count(b"\n") == 3 and ran.stderr == b"", f"list /dev/urandom: {ran}")
    ran = subprocess.run(f"'{program}' recode --jobs 3 /dev/zero | head -c 10000000 | wc -c", shell=True, capture_output=True, timeout=60)
    expect(ran.stdout.strip() == b"10000000" and ran.stderr == b"", f"recode /dev/zero: {ran}")


# ---- Files that are replaced


def contents(name):
    with open(name, "rb") as file:
        return file.read()


def check_replaced(folder, program):
    place = f"{folder}/replaced"
    os.mkdir(place)
    name, link, out = f"{place}/text", f"{place}/link", f"{place}/out"
    data = "é€\xff".encode("latin-1", "replace") + "é".encode()
    with open(name, "wb") as file:
        file.write(data)
    os.chmod(name, 0o640)
    os.symlink("text", link)
    says([program, "recode", "--in-place", "--errors", "strict", name], 1, b"", b"text:1:1: offset 0: ")
    expect(contents(name) == data, "a file that is recoded strictly stays, where it is not valid")
    says([program, "recode", "--in-place", "--to", "utf-16le", link], 0, b"", b"became U+FFFD")
    expect(contents(name) == recoded(data, "utf-8", "utf-16le", "replace") and os.path.islink(link), "in place through a link")
    expect(os.stat(name).st_mode & 0o7777 == 0o640, "the mode of a file that is recoded in place")
    says([program, "recode", "--from", "utf-16", name, "-o", out], 0, b"", b"")
    expect(contents(out) == recoded(data, "utf-8", "utf-8", "replace"), "-o")
    mask = os.umask(0o027)
    says([program, "recode", "-o", f"{place}/new", out], 0, b"", b"")
    os.umask(mask)
    expect(os.stat(f"{place}/new").st_mode & 0o7777 == 0o640, "the mode of a new file")
    os.symlink("nowhere", f"{place}/dangling")
    says([program, "recode", "-o", f"{place}/dangling", out], 3, b"", b"dangling: No such file or directory")
    expect(os.path.islink(f"{place}/dangling"), "-o on a link that leads nowhere")
    os.remove(f"{place}/dangling")
    says([program, "recode", "--to", "utf-16be", "-o", out, out], 0, b"", b"")
    expect(contents(out) == recoded(data, "utf-8", "utf-16be", "replace"), "-o on the input itself")
    os.mkfifo(f"{place}/pipe")
    says([program, "recode", "--in-place", f"{place}/pipe"], 3, b"", f"nody: {place}/pipe: it is no regular file\n".encode())
    reader = subprocess.Popen(["head", "-c", "1", f"{place}/pipe"], stdout=subprocess.DEVNULL)
    says([program, "recode", "/dev/zero", "-o", f"{place}/pipe"], 3, b"", b"")
    reader.wait()
    os.remove(f"{place}/pipe")
    says([program, "recode", "--in-place", place, f"{place}/none", name, "--from", "utf-16"], 3, b"", b"Is a directory")
    expect(contents(name) == recoded(data, "utf-8", "utf-8", "replace"), "in place, after files that cannot be")
    expect(sorted(os.listdir(place)) == ["link", "new", "out", "text"], f"what is left: {os.listdir(place)}")
    check_owners(place, program)
    check_lists(place, program)
    check_attributes(place, program)
    check_descriptors(place, program)
    check_limits(place, program)


def check_owners(place, program):
    """Names as long as they can be, groups, and what others own."""
    long = f"{place}/{255 * 'n'}"
    with open(long, "wb") as file:
        file.write(b"\xff")
    says([program, "recode", "-q", "--in-place", long], 0, b"", b"")
    says([program, "recode", "-q", "--to", "utf-16be", "-o", long, long], 0, b"", b"")
    expect(contents(long) == b"\xff\xfd", "a file of a long name")
    os.remove(long)
    if os.geteuid() != 0:
        print("nody.py: left out: files of others that are replaced, which takes root")
        return
    shared, name = f"{place}/shared", f"{place}/shared/text"
    for it in (place, os.path.dirname(place), os.path.dirname(os.path.dirname(place))):
        os.chmod(it, 0o755)
    os.mkdir(shared)
    os.chown(shared, 65534, 12345)
    os.chmod(shared, 0o2755)
    # (what a group that is lost could do, and others could not, neither of the two may do)
    for owner, group, mode, user, left in ((0, 0, 0o6755, 0, 0o6755), (7, 8, 0o4640, 0, 0o4640), (0, 12345, 0o4754, 65534, 0o754), (65534, 0, 0o2754, 65534, 0o744),
                                           (65534, 0, 0o660, 65534, 0o600), (65534, 0, 0o606, 65534, 0o600), (0, 0, 0o1777, 65534, 0o1777), (0, 0, 0o664, 65534, 0o644)):
        with open(name, "wb") as file:
            file.write(b"text\xff")
        os.chown(name, owner, group)
        os.chmod(name, mode)
        says([program, "recode", "-q", "--in-place", name], 0, b"", b"", user=user, group=12345 if user else 0, extra_groups=[])
        about = os.stat(name)
        want = (owner, group, left) if user == 0 else (65534, 12345, left)
        expect((about.st_uid, about.st_gid, about.st_mode & 0o7777) == want, f"a file of {owner}:{group} {oct(mode)}: {about}, not {want}")
    os.chown(name, 0, 0)
    says([program, "recode", name, "-o", name], 3, b"", f"nody: {name}: Permission denied\n".encode(), user=65534)
    expect(contents(name) == b"text\xef\xbf\xbd" and os.listdir(shared) == ["text"], "-o on a file that may not be written")
    shutil.rmtree(shared)


def list_of(named, group, other):
    """An access control list, as Linux keeps it: what user 1234, the group and others may; its mask allows reading and writing."""
    entries = [(1, 6, -1), (2, named, 1234), (4, group, -1), (0x10, 6, -1), (0x20, other, -1)]
    return struct.pack("<I", 2) + b"".join(struct.pack("<HHi", *it) for it in entries)


def check_lists(place, program):
    """Access control lists: a file that is replaced keeps its own, or none; a new one gets that of its folder."""
    shared, name, new = f"{place}/lists", f"{place}/lists/text", f"{place}/lists/new"
    of_file, of_folder = "system.posix_acl_access", "system.posix_acl_default"
    os.mkdir(shared)
    try:
        os.setxattr(shared, of_folder, list_of(4, 0, 0))
    except OSError:
        print("nody.py: left out: access control lists, which this file system has not")
        return
    for has_list in (True, False):
        put_file(name, b"text\xff")
        os.setxattr(name, of_file, list_of(6, 0, 0))
        if not has_list:
            os.removexattr(name, of_file)
            os.chmod(name, 0o640)
        had = os.listxattr(name), os.stat(name).st_mode
        for words in (["recode", "-q", "--in-place"], ["fix", "-q", "--backup", "~"]):
            with open(name, "r+b") as file:
                file.truncate(file.write(b"more\xff"))
            says([program, *words, name], 0, b"", b"")
            expect((os.listxattr(name), os.stat(name).st_mode) == had and contents(name) == b"more\xef\xbf\xbd", f"{words} of a file with a list: {os.listxattr(name)} {oct(os.stat(name).st_mode)}")
            expect(not has_list or os.getxattr(name, of_file) == list_of(6, 0, 0), f"the list of a file that is replaced by {words}")
        os.remove(f"{name}~")
    if os.geteuid() == 0: # (a list of a group that is lost says too much of who has it, and of others)
        put_file(name, b"text\xff")
        os.setxattr(name, of_file, list_of(6, 0, 4))
        for it, owner, mode in ((shared, 65534, 0o755), (name, 65534, 0o664)):
            os.chown(it, owner, 0)
            os.chmod(it, mode)
        says([program, "fix", "-q", name], 0, b"", b"", user=65534, group=12345, extra_groups=[])
        about = os.stat(name)
        expect((about.st_gid, about.st_mode & 0o7777) == (12345, 0o600), f"a file with a list whose group is lost: {about}")
    with open(f"{shared}/made", "wb"):
        says([program, "recode", "-o", new, name], 0, b"", b"")
    expect(os.stat(new).st_mode == os.stat(f"{shared}/made").st_mode and os.getxattr(new, of_file) == os.getxattr(f"{shared}/made", of_file), "the list of a new file")
    shutil.rmtree(shared)


def check_attributes(place, program):
    """Extended attributes: those of users and the label of SELinux stay; none that says what a program may do."""
    name, before = f"{place}/text", contents(f"{place}/text")
    given = {"user.mime_type": b"text/plain", "user.empty": b"", "user.long": b"x" * 900, "user.name\udcff": b"\0\xff"}
    if os.geteuid() == 0:
        given["security.selinux"] = b"user_u:object_r:etc_t:s0\0"
    try:
        for it, value in given.items():
            os.setxattr(name, it, value)
    except OSError:
        print("nody.py: left out: extended attributes, which this file system has not")
        return
    with contextlib.suppress(OSError):
        os.setxattr(name, "security.capability", struct.pack("<5I", 0x2000000, 1 << 10, 0, 0, 0))
    for words in (["fix", "-q", name], ["recode", "-q", "--in-place", name], ["recode", "-q", "-o", name, f"{place}/from"]):
        for it in (name, f"{place}/from"):
            with open(it, "r+b" if os.path.exists(it) else "wb") as file:
                file.truncate(file.write(b"more\xff"))
        says([program, *words], 0, b"", b"")
        found = {it: os.getxattr(name, it) for it in os.listxattr(name)}
        expect(found == given and contents(name) == b"more\xef\xbf\xbd", f"{words}: attributes {found}")
    os.remove(f"{place}/from")
    put_file(name, before)


def check_descriptors(place, program):
    """-o with another name of an open descriptor writes there: what a file had stays, if it is appended to."""
    log, data, link = f"{place}/log", f"{place}/data", f"{place}/leads"
    with open(data, "wb") as file:
        file.write(b"more\n")
    os.symlink("/dev/stdout", link)
    for into in ("-", "/dev/stdout", "/dev/fd/1", "/proc/self/fd/1", link):
        with open(log, "wb") as file:
            file.write(b"had\n")
        with open(log, "ab") as end:
            ran = subprocess.run([program, "recode", data, "-o", into], stdout=end, stderr=subprocess.PIPE)
            expect(ran.returncode == 0 and ran.stderr == b"", f"-o {into}: {ran}")
            ran = subprocess.run([program, "recode", log, "-o", into], stdout=end, stderr=subprocess.PIPE)
            expect(ran.returncode == 3 and ran.stderr == f"nody: {log}: it is the output too\n".encode(), f"-o {into} to the input: {ran}")
        expect(contents(log) == b"had\nmore\n", f"-o {into}, of a file that is appended to: {contents(log)}")
    with open(log, "r+b", buffering=0) as file:
        file.seek(4)
        says([program, "recode", data, "-o", f"/dev/fd/{file.fileno()}"], 0, b"", b"", pass_fds=[file.fileno()])
        says([program, "recode", data, "--output=/dev/stderr"], 0, b"", b"more\n")
        closed = file.fileno()
    expect(contents(log) == b"had\nmore\n", "-o with the number of a descriptor")
    says([program, "recode", data, "-o", f"/dev/fd/{closed + 90}"], 3, b"", b"No such file or directory")
    says([program, "recode", "--in-place", "-o", "-", data], 2, b"", b"usage: nody ")
    for it in (log, data, link):
        os.remove(it)


def check_limits(place, program):
    """A disk that is full, and a file that may not grow so far: what was there stays, and nothing else."""
    name, data = f"{place}/text", b"text\xff\n" * 100000
    with open(name, "wb") as file:
        file.write(data)
    had = sorted(os.listdir(place))
    limited = lambda: resource.setrlimit(resource.RLIMIT_FSIZE, (300000, 300000))
    says([program, "recode", "--in-place", name], 3, b"", b"File too large", preexec_fn=limited)
    expect(contents(name) == data and sorted(os.listdir(place)) == had, "in place over the limit of a file's size")
    disk = f"{place}/disk"
    os.mkdir(disk)
    if subprocess.run(["mount", "-t", "tmpfs", "-o", "size=1m", "none", disk], capture_output=True).returncode:
        print("nody.py: left out: a full disk, which takes a mount")
        return
    try:
        shutil.copy(name, f"{disk}/text")
        for words in (["--in-place", f"{disk}/text"], [f"{disk}/text", "-o", f"{disk}/out"]):
            says([program, "recode", *words], 3, b"", b"No space left on device")
            expect(contents(f"{disk}/text") == data and os.listdir(disk) == ["text"], f"recode {words} on a full disk")
        subprocess.run(["mount", "-o", "remount,ro", disk], check=True)
        says([program, "recode", "--in-place", f"{disk}/text"], 3, b"", b"Read-only file system")
    finally:
        subprocess.run(["umount", disk], check=False)


def check_killed(folder, program):
    """A program that is ended at any time leaves the old file or the new one; a signal that it can see also takes away what is not whole."""
    place, chance = f"{folder}/killed", random.Random(9)
    os.mkdir(place)
    name, old = f"{place}/text", b"caf\xc3\xa9 \xff text\n" * 300000
    new = recoded(old[:13], "utf-8", "utf-16le", "replace") * 300000
    seen, took = {"old": 0, "new": 0}, 0
    for i in range(60):
        with open(name, "wb") as file:
            file.write(old)
        ran = subprocess.Popen([program, "recode", "--to", "utf-16le", "--in-place", "--quiet", name])
        if i == 0: # (as long as it takes where nothing ends it)
            took = time.time()
            ran.wait()
            took = time.time() - took
        time.sleep(chance.random() * 1.5 * took)
        ran.send_signal(signal.SIGKILL if i % 2 else ENDS[i // 2 % len(ENDS)])
        ran.wait()
        is_old, is_new = contents(name) == old, contents(name) == new
        seen["new" if is_new else "old"] += 1
        expect(is_old or is_new, "a file that is not whole has the final name")
        left = [it for it in os.listdir(place) if it != "text"]
        expect(i % 2 or not left, f"{ENDS[i // 2 % len(ENDS)]} left {left}")
        for it in left:
            os.remove(f"{place}/{it}")
    print(f"nody.py: of 60 that were ended {seen['old']} left the old file, {seen['new']} the new one")


class Stops:
    """Runs a program that another process meets at a chosen call of the system (c/tests/stops.c)."""

    def __init__(self, folder, compiler):
        self.folder, self.shared = folder, f"{folder}/stops.so"
        self.is_there = expect(run([compiler, "-shared", "-fPIC", f"{C}/tests/stops.c", "-o", self.shared, "-ldl"])[0] == 0, "stops.c")

    def run(self, words, **told):
        return run(words, env=dict(os.environ, LD_PRELOAD=self.shared, **told))

    def calls(self, words):
        """The calls of a run, as NAME:NUMBER, in order."""
        path, counts = f"{self.folder}/calls", {}
        self.run(words, CALLS=path)
        names = contents(path).decode().split()
        os.remove(path)
        return [f"{name}:{counts.setdefault(name, []).append(name) or len(counts[name]) - 1}" for name in names]


def put_file(name, data):
    """A new file of that name."""
    with contextlib.suppress(OSError):
        os.remove(name)
    with open(name, "wb") as file:
        file.write(data)


def found_at(name):
    """What is there: whether it is a link, and the contents, or None."""
    return os.path.islink(name), contents(name) if os.path.exists(name) else None


CHANGED = b": it changed while it was read, and stays as it is\n"
LOCKED = b": another process has locked it\n"


def check_changed(folder, program, stops):
    """A file that another program changes, or makes shorter, while it is read."""
    name = f"{folder}/changing"
    put_file(name, b"text\n" * 1000)
    check, recode = ([program, command, "--jobs", "1", *more, name] for command, more in (("check", []), ("recode", ["--in-place", "--to", "utf-16be"])))
    for words, command, status, said in ((check, "truncate -s 10", 3, b"it became shorter while it was read"), (recode, "echo >>", 3, CHANGED), (recode, "printf new 1<>", 3, CHANGED),
                                         (check, "rm", 0, b"")):
        got = stops.run(words, STOP="read:1", BETWEEN=f"{command} {name}")
        expect(got[0] == status and said in got[2], f"{words[1:]} with {command}: {got}")
        if "printf" in command:
            expect(contents(name)[:3] == b"new", "in place, where another program wrote as many bytes at once")
    for jobs in ("1", "3"):
        put_file(name, b"text\n" * 1000)
        got = stops.run([program, "recode", "--jobs", jobs, "--in-place", "--to", "utf-16be", name], STOP="fsync:0", BETWEEN=f"echo more >>{name}")
        expect(got[0] == 3 and CHANGED in got[2] and contents(name) == b"text\n" * 1000 + b"more\n", f"a line that is appended while the new file is flushed, {jobs} threads: {got}")
    put_file(f"{name}.2", b"\xff")
    with open(name, "rb") as file:
        fcntl.flock(file, fcntl.LOCK_EX)
        says([program, "recode", "-q", "--in-place", name, f"{name}.2"], 3, b"", f"nody: {name}: another process has locked it\n".encode())
    expect(contents(f"{name}.2") == b"\xef\xbf\xbd", "a file after one that is locked")


def enemies(name):
    """What another process may do to a file meanwhile."""
    return [f"printf 'more\\n' >>{name}", f"printf new 1<>{name}", f"touch -r {name} {name}.time; printf new 1<>{name}; touch -r {name}.time {name}; rm {name}.time",
            f"truncate -s 10 {name}", f"truncate -s 10 {name}; truncate -s 600 {name}", f": >{name}", f"cp {name} {name}.new; printf x >>{name}.new; mv {name}.new {name}",
            f"rm {name}", f"cp -p {name} {name}.new; mv {name}.new {name}", f"mv {name} {name}.moved; ln -s {name}.moved {name}"]


def check_moments(folder, program, stops):
    """Another process changes a file that is converted in place, at each call of the system. Its change is there afterwards, or converted with the
    rest; but for one instant: that between the last look, which is a call of lstat, and rename."""
    place = f"{folder}/moments"
    os.mkdir(place)
    name, old = f"{place}/text", b"caf\xc3\xa9 \xff text\n" * 40
    old += b"x" * (600 - len(old))
    become = lambda data: recoded(data, "utf-8", "utf-16le", "replace")

    def after(command, data):
        """What a command finds and leaves of a file."""
        put_file(name, data)
        subprocess.run(["sh", "-c", command], check=True)
        return found_at(name)

    for target in (["--in-place", name], [name, "-o", name]):
        words = [program, "recode", "--jobs", "1", "-q", "--to", "utf-16le", *target]
        put_file(name, old)
        calls = stops.calls(words)
        expect(contents(name) == become(old), "in place, under stops.c")
        last = calls.index("rename:0")
        expect(calls[last - 1] == "lstat:1" and "fsync:0" in calls[: last - 1], f"the last look at a file is right before rename: {calls}")
        for command in enemies(name):
            is_link, changed = after(command, old)
            late = after(command, become(old))
            for i, call in enumerate(calls):
                put_file(name, old)
                got = stops.run(words, STOP=call, BETWEEN=command)
                is_left, is_recoded = got[0] == 3 and found_at(name) == (is_link, changed), changed is not None and got[0] == 0 and found_at(name) == (is_link, become(changed))
                expect(is_left or is_recoded or i == last or (i > last and got[0] == 0 and found_at(name) == late), f"{command} at {call}: {got} {found_at(name)}"[:400])
                for it in os.listdir(place):
                    os.remove(f"{place}/{it}")
    words = [program, "recode", "--jobs", "1", "-q", "--to", "utf-16le", "--in-place", name]
    put_file(name, old)
    calls = stops.calls(words)
    check_two_runs(place, stops, words, calls)
    check_signals(place, stops, words, calls)
    check_refused_calls(place, program, stops)


def check_two_runs(place, stops, words, calls):
    """A second run on the file, at each call of the first one: it ends with 3 while the first one has the file; and as often as a run ended with 0
    the file was recoded."""
    name, old = f"{place}/text", b"caf\xc3\xa9 \xff text\n" * 40
    for call in calls:
        put_file(name, old)
        got = stops.run(words, STOP=call, BETWEEN=f"{' '.join(words)} 2>{place}/said; echo $? >{place}/status")
        inner, said = int(contents(f"{place}/status")), contents(f"{place}/said")
        want = old
        for status in (got[0], inner):
            want = recoded(want, "utf-8", "utf-16le", "replace") if status == 0 else want
        has_file = calls.index("flock:0") < calls.index(call) <= calls.index("rename:0")
        expect({got[0], inner} <= {0, 3} and contents(name) == want, f"a second run at {call}: {got} {inner} {said} {contents(name)[:40]}")
        expect(not has_file or (got[0], inner, said) == (0, 3, b"nody: " + os.fsencode(name) + LOCKED), f"a second run at {call}: {got} {inner} {said}")
    with open(name, "rb") as file:
        for lock in (fcntl.LOCK_EX, fcntl.LOCK_SH):
            fcntl.flock(file, lock)
            had = contents(name)
            says(words, 3, b"", LOCKED)
            says([*words[:-2], name, "-o", name], 3, b"", LOCKED)
            expect(contents(name) == had, "a file that is locked")
        fcntl.flock(file, fcntl.LOCK_UN)
        says([*words[:-2], "-o", name], 0, b"", b"", stdin=file)
        fcntl.flock(file, fcntl.LOCK_SH | fcntl.LOCK_NB)
    for it in os.listdir(place):
        os.remove(f"{place}/{it}")


def check_signals(place, stops, words, calls):
    """A signal at each call leaves the old file or the new one, and nothing else."""
    name, old = f"{place}/text", b"caf\xc3\xa9 \xff text\n" * 40
    new = recoded(old, "utf-8", "utf-16le", "replace")
    for number in (signal.SIGTERM, signal.SIGHUP):
        for i, call in enumerate(calls):
            put_file(name, old)
            got = stops.run(words, STOP=call, BETWEEN=f"kill -{int(number)} $PPID")
            want = new if i > calls.index("rename:0") else old
            expect(got[0] == -number and contents(name) == want and os.listdir(place) == ["text"], f"signal {number} at {call}: {got} {os.listdir(place)}")
    os.remove(name)


def check_refused_calls(place, program, stops):
    """Calls of the system that fail: the old file stays, and nothing else. Without locks the file is converted all the same."""
    name, old = f"{place}/text", b"caf\xc3\xa9 text\n" * 40
    words = [program, "recode", "--jobs", "1", "--to", "utf-16le", "--in-place", name]
    for call, error in (("fsync", errno.EIO), ("fsync", errno.ENOSPC), ("rename", errno.EACCES), ("rename", errno.EBUSY), ("write", errno.EDQUOT), ("mkstemp", errno.EROFS), ("fchmod", errno.EPERM),
                        ("read", errno.EIO), ("lstat", errno.EIO)):
        put_file(name, old)
        got = stops.run(words, FAIL=f"{call}:{error}")
        said = CHANGED if call == "lstat" else b"" if call == "write" else f": {os.strerror(error)}\n".encode()
        expect(got[0] == 3 and said in got[2] and contents(name) == old and os.listdir(place) == ["text"], f"{call} that fails: {got} {os.listdir(place)}")
    for error in (errno.ENOLCK, errno.EBADF, errno.EOPNOTSUPP, errno.ENOSYS, errno.EINTR):
        put_file(name, old)
        got = stops.run(words, FAIL=f"flock:{error}")
        expect(got == (0, b"", b"") and contents(name) == recoded(old, "utf-8", "utf-16le", "replace"), f"a file system without locks: {got}")
    os.remove(name)


def check_at_once(folder, program):
    """Runs on one file at the same time, many times: as often as one ended with 0 the file was converted, and the others say why not."""
    place = f"{folder}/at-once"
    os.mkdir(place)
    name, old, ended = f"{place}/text", b"caf\xc3\xa9 \xff text\n" * 3000, {0: 0, 3: 0}
    for number in range(40):
        put_file(name, old)
        runs = [subprocess.Popen([program, "recode", "-q", "--to", "utf-16le", "--in-place", name], stderr=subprocess.PIPE) for _ in range(2 + number % 3)]
        said = [it.communicate()[1] for it in runs]
        want = old
        for it, words in zip(runs, said):
            ended[it.returncode] += 1
            want = recoded(want, "utf-8", "utf-16le", "replace") if it.returncode == 0 else want
            expect(it.returncode == 0 or CHANGED in words or LOCKED in words or b"became shorter" in words, f"two runs at once: {it.returncode} {words}")
        expect(contents(name) == want and os.listdir(place) == ["text"], f"runs at once: {[it.returncode for it in runs]} {len(contents(name))} bytes, not {len(want)}")
    print(f"nody.py: of runs on one file at once {ended[0]} ended with 0, {ended[3]} with 3")


def check_appended(folder, program):
    """A line that somebody appends at a random time. (it may come in the instant that is left, right before rename)"""
    name, old, chance, lost, took = f"{folder}/appended", b"caf\xc3\xa9 \xff text\n" * 300000, random.Random(80), 0, 0
    for number in range(20):
        put_file(name, old)
        begun = time.time()
        ran = subprocess.Popen([program, "recode", "-q", "--to", "utf-16le", "--in-place", name], stderr=subprocess.PIPE)
        if number == 0: # (as long as it takes where nobody appends)
            ran.wait()
            took = time.time() - begun
        time.sleep(chance.random() * took)
        with open(name, "ab") as file:
            file.write(b"more\n")
        said = ran.communicate()[1]
        expect(ran.returncode == 0 or (CHANGED in said and contents(name) == old + b"more\n"), f"a file that grows: {ran.returncode} {said}")
        lost += ran.returncode == 0 and not contents(name).endswith((b"more\n", "more\n".encode("utf-16-le")))
    expect(lost <= 1, f"of 20 lines that were appended {lost} are lost")


def check_alone(folder, program):
    """A file that would become what it is stays as it is: its inode, its times, its links."""
    place = f"{folder}/alone"
    os.mkdir(place)
    name, link = f"{place}/text", f"{place}/other"
    text = "naïve €uro \U0001f600 and so on\n" * 40
    palindromes = b"AA\x00\x00\xd8\xd8\xdc\xdc" * 30
    mark, marked = b"\xef\xbb\xbf", b"\xef\xbb\xbf" + text.encode()
    for data, words in ((text.encode(), []), (text.encode(), ["--errors", "strict"]), (text.encode(), ["--errors", "lossy", "--jobs", "1"]), (b"", ["--to", "utf-16le"]),
                        (text.encode("utf-16-be"), ["--from", "utf-16be", "--to", "utf-16be"]), (palindromes, ["--from", "utf-16le", "--to", "utf-16be"]), (text.encode(), ["--from", "bom"]),
                        (marked, ["--bom"]), (marked, ["--bom", "--from", "auto"]), (mark, ["--bom"]), (mark, ["--bom", "--from", "auto"]), (mark + b"a" * 600000, ["--bom", "--from", "auto", "--jobs", "3"]),
                        ((mark + text.encode()).decode().encode("utf-16-be"), ["--bom", "--from", "auto", "--to", "utf-16be"])):
        for target in (["--in-place", name], [name, "-o", name]):
            put_file(name, data)
            os.link(name, link)
            os.chmod(name, 0o444)
            had = os.stat(name)
            says([program, "recode", *words, *target], 0, b"", b"")
            now = os.stat(name)
            expect(contents(name) == data and all(getattr(had, it) == getattr(now, it) for it in ("st_ino", "st_mtime_ns", "st_ctime_ns", "st_nlink", "st_mode")), f"{words} of what it is: {data[:9]} {had} {now}")
            expect(sorted(os.listdir(place)) == ["other", "text"], f"what is left: {os.listdir(place)}")
            os.remove(link)
    for data, words in ((b"\xef\xbb\xbf" + text.encode(), ["--from", "bom"]), (text.encode() + b"\xff", []), (text.encode() + b"\xf0\x9f\x98", ["--errors", "lossy"]),
                        (text.encode("utf-16-le") + b"\x00\xd8", ["--from", "utf-16le", "--to", "utf-16le"])):
        put_file(name, data)
        os.link(name, link)
        says([program, "recode", "-q", *words, "--in-place", name], 0, b"", b"")
        form = "utf-16le" if "--to" in words else "utf-8"
        want = recoded(data[3:] if "bom" in words else data, form, form, "lossy" if "lossy" in words else "replace")
        expect(contents(name) == want and contents(link) == data and os.stat(name).st_nlink == 1, f"{words} of what differs at one end: {contents(name)[-20:]}")
        os.remove(link)
    for data, words, want in ((marked, ["--from", "auto"], text.encode()), (mark + marked, ["--from", "auto", "--bom"], marked), (text.encode(), ["--bom"], marked), (b"", ["--bom"], mark),
                              (mark, ["--from", "auto"], b""), (mark, ["--from", "auto", "--bom", "--to", "utf-16le"], b"\xff\xfe"), (mark + b"\xff", ["--from", "auto", "--bom", "--errors", "drop"], mark),
                              (marked[3:] + marked, ["--bom", "--from", "auto"], mark + marked[3:] + marked)):
        put_file(name, data)
        says([program, "recode", "-q", *words, "--in-place", name], 0, b"", b"")
        expect(contents(name) == want, f"{words} of a file with a mark: {data[:9]} {contents(name)[:9]}")
    check_elsewhere(place, program)


def check_elsewhere(place, program):
    """Links that lead to another folder, and folders that may not be written."""
    name, other = f"{place}/text", f"{place}/folder"
    os.mkdir(other)
    put_file(f"{other}/text", b"\xff")
    os.remove(name)
    os.symlink("folder/text", name)
    says([program, "recode", "-q", "--in-place", name], 0, b"", b"")
    expect(contents(f"{other}/text") == b"\xef\xbf\xbd" and os.readlink(name) == "folder/text" and os.listdir(other) == ["text"], "a link that leads to another folder")
    if os.geteuid() != 0:
        print("nody.py: left out: a folder that may not be written, which takes another user")
        return
    for it in (place, os.path.dirname(place), os.path.dirname(os.path.dirname(place))):
        os.chmod(it, 0o755)
    put_file(f"{other}/text", b"\xff")
    os.chown(f"{other}/text", 65534, 65534)
    os.chmod(other, 0o555)
    for words in (["--in-place", f"{other}/text"], [f"{other}/text", "-o", f"{other}/text"]):
        says([program, "recode", *words], 3, b"", b"text: Permission denied\n", user=65534)
    expect(contents(f"{other}/text") == b"\xff" and os.listdir(other) == ["text"], "a folder that may not be written")


# ---- Reads that fail, memory, threads


def check_faults(folder, programs, compiler, build):
    """Reads and writes that move little, or are interrupted, change nothing; a failed allocation ends with 3, and says so."""
    data = b"caf\xc3\xa9 \xff text\n\xe2\x82" * 40
    name = f"{folder}/faulty-text"
    with open(name, "wb") as file:
        file.write(data)
    flags = [f"-D{it}=faulty_{it}" for it in ("read", "write", "pread", "malloc", "realloc")]
    faults = f"{folder}/faults.o"
    if not expect(run([compiler, *SANITIZERS, "-c", f"{C}/tests/faults.c", "-o", faults])[0] == 0, "faults.c"):
        return
    for block in (4, 4096):
        program = f"{folder}/faulty-{block}"
        if not compiles(compiler, program, block, build, [*SANITIZERS, *flags, faults]):
            return
        for words in (["check", name], ["count", name], ["list", name], ["recode", "--to", "utf-16le", name], ["check", "--jobs", "3", name]):
            want = run([programs[0], *words])
            for fault in ("short 1", "short 3", "unread 2", "unread 3", "unwritten 2"):
                got = run([program, *words], env=dict(os.environ, FAULT=fault))
                expect(got == want, f"{words} with {fault}: {got}, not {want}")
            for number in range(1, 8):
                got = run([program, *words], env=dict(os.environ, FAULT=f"memory {number}"))
                expect(got == want or (got[0] == 3 and b"there is no memory" in got[2]), f"{words} without memory {number}: {got}")


def check_races(folder, compiler, build):
    """Threads under the sanitizer for them."""
    program = f"{folder}/threads"
    if run([compiler, "-fsanitize=thread", "-x", "c", "-", "-o", f"{folder}/try"], b"int main(void) { return 0; }\n")[0] != 0:
        print("nody.py: left out: the sanitizer of threads is not there")
        return
    if compiles(compiler, program, 64, build, ["-g", "-O1", "-fsanitize=thread"]):
        data = b"caf\xc3\xa9 \xff text\n\xe2\x82" * 400
        name = f"{folder}/raced"
        with open(name, "wb") as file:
            file.write(data)
        for words in (["check"], ["count"], ["recode"], ["recode", "--errors", "strict"], ["check", "--max", "5"]):
            for given, piped in ((name, b""), ("-", data)):
                got = run([program, *words, "--jobs", "4", given], piped)
                expect(b"ThreadSanitizer" not in got[2] and got[0] < 3, f"{words} in threads: {got[0]} {got[2][:1500]!r}")


# ---- Files that grow, terminals


def reads(file, count, seconds=10):
    """So many lines of what a program writes, or what came of them in that time."""
    got, end = b"", time.time() + seconds
    os.set_blocking(file.fileno(), False)
    while got.count(b"\n") < count and time.time() < end:
        got += file.read() or b""
        time.sleep(0.02)
    return got


def waits_for_open(ran, name, seconds=10):
    """Until a program has opened a file: then its signals are set, and the name may go."""
    end = time.time() + seconds
    while time.time() < end:
        with contextlib.suppress(OSError):
            if any(os.readlink(f"/proc/{ran.pid}/fd/{it}") == name for it in os.listdir(f"/proc/{ran.pid}/fd")):
                return
        time.sleep(0.02)


def check_follow(folder, program, reasons):
    name = f"{folder}/growing"
    with open(name, "wb") as file:
        file.write(b"one\n\xff\ncaf\xc3")
    ran = subprocess.Popen([program, "check", "--follow", name], stdout=subprocess.PIPE, stderr=subprocess.PIPE)
    want = f"{name}:2:1: offset 4: {reasons['NonUtf8Byte']}\n"
    expect(reads(ran.stdout, 1) == want.encode(), "--follow tells of what is there")
    with open(name, "ab") as file:
        file.write(b"\xa9 \xe2\x82A")
    want = f"{name}:3:6: offset 12: {reasons['InterruptedSequence']}\n{name}:3:7: offset 13: {reasons['UnexpectedContinuationByte']}\n"
    expect(reads(ran.stdout, 2) == want.encode(), "--follow tells of what is added")
    with open(name, "wb") as file:
        file.write(b"\x80\n")
    time.sleep(0.5)
    told = reads(ran.stdout, 2)
    expect(told.endswith(f"{name}:1:1: offset 0: {reasons['UnexpectedContinuationByte']}\n".encode()), f"--follow begins again: {told}")
    with open(name, "ab") as file:
        file.write(b"\xe2")
    time.sleep(0.5)
    ran.send_signal(signal.SIGINT)
    told, said = ran.communicate(timeout=10)
    want = f"{name}:2:1: offset 2: {reasons['TooFewBytes']}\n{name}: not valid UTF-8: 2 invalid bytes\n"
    expect(ran.returncode == 1 and told == want.encode(), f"SIGINT ends --follow: {ran.returncode} {told}")
    expect(said == f"nody: {name}: it became shorter, and is read from its front again\n".encode(), f"--follow says {said}")


def check_passed_over(folder, program):
    """A signal that is to be passed over, as SIGINT of a job in the background of a script, ends no input that is followed."""
    ran = subprocess.Popen([program, "check", "--follow", f"{folder}/growing"], stdout=subprocess.PIPE, preexec_fn=lambda: signal.signal(signal.SIGINT, signal.SIG_IGN))
    reads(ran.stdout, 1)
    ran.send_signal(signal.SIGINT)
    time.sleep(0.5)
    expect(ran.poll() is None, "SIGINT that is to be passed over")
    ran.terminate()
    ran.communicate(timeout=10)
    expect(ran.returncode == 1, f"SIGTERM then ends it: {ran.returncode}")


def check_follow_kernel(program):
    """A file of the kernel, which is said to have no bytes, becomes no shorter by being read."""
    ran = subprocess.Popen([program, "check", "-v", "--follow", "/proc/version"], stdout=subprocess.PIPE, stderr=subprocess.PIPE)
    waits_for_open(ran, "/proc/version")
    time.sleep(0.5)
    ran.send_signal(signal.SIGINT)
    told = ran.communicate(timeout=10)
    expect(ran.returncode == 0 and told == (b"/proc/version: valid UTF-8\n", b""), f"--follow of /proc/version: {ran.returncode} {told[0][:99]} {told[1][:99]}")


def check_follow_renamed(folder, program):
    """A file that is renamed is read to its end, and then the one that gets its name; another file meanwhile, and one that comes late."""
    name, other, late = f"{folder}/renamed", f"{folder}/other", f"{folder}/late"
    for it in (name, other):
        put_file(it, b"a\n")
    ran = subprocess.Popen([program, "check", "--follow", name, other, late], stdout=subprocess.PIPE, stderr=subprocess.PIPE)
    waits_for_open(ran, other)
    os.rename(name, f"{name}.1")
    for it, more, want in ((f"{name}.1", b"\xff", f"{name}:2:1: offset 2: "), (other, b"\xff\n", f"{other}:2:1: offset 2: "), (late, b"\xff", f"{late}:1:1: offset 0: ")):
        with open(it, "ab") as file:
            file.write(more)
        told = reads(ran.stdout, 1)
        expect(told.startswith(want.encode()), f"--follow of several files: {told}, not {want}")
    put_file(name, b"b\xfe\n")
    told = reads(ran.stdout, 2)
    expect(told.startswith(f"{name}: not valid UTF-8: 1 invalid byte\n{name}:1:2: offset 1: ".encode()), f"--follow of a file that gets the name: {told}")
    put_file(f"{name}.2", b"\xc0\n")
    os.rename(f"{name}.2", name)
    told = reads(ran.stdout, 2)
    expect(told.startswith(f"{name}: not valid UTF-8: 1 invalid byte\n{name}:1:1: offset 0: ".encode()), f"--follow of a file that replaces another: {told}")
    ran.send_signal(signal.SIGINT)
    out, said = ran.communicate(timeout=10)
    expect(out.count(b": not valid UTF-8: 1 invalid byte\n") == 3 and ran.returncode == 3, f"the end of --follow: {ran.returncode} {out}")
    for it in (f"{late}: No such file", f"{name}: it is not there any more, and is waited for", f"{name}: another file has its name, and is followed"):
        expect(f"nody: {it}".encode() in said, f"--follow says {it}: {said}")


def check_follow_input(folder, program):
    """Standard input that is a file of which the front was read already, and which becomes shorter."""
    name = f"{folder}/input"
    with open(name, "wb") as file:
        file.write(b"read\n\xff\xff")
    with open(name, "rb", buffering=0) as file:
        file.read(5)
        ran = subprocess.Popen([program, "check", "--follow"], stdin=file, stdout=subprocess.PIPE, stderr=subprocess.PIPE)
    expect(reads(ran.stdout, 2).startswith(b"-:1:1: offset 0: "), "--follow of standard input")
    with open(name, "wb") as file:
        file.write(b"abc\xfe")
    told = reads(ran.stdout, 2)
    expect(told.startswith(b"-: not valid UTF-8: 2 invalid bytes\n-:1:4: offset 3: "), f"standard input is read from its front again: {told}")
    ran.send_signal(signal.SIGTERM)
    ran.communicate(timeout=10)


def check_unblocked(program):
    """Pipes that somebody made ones that do not block, as the shells of some programs do: what is not ready is waited for."""
    data = b"caf\xc3\xa9 text\n" * 20000
    source, sink = os.pipe(), os.pipe()
    for it in (*source, *sink):
        os.set_blocking(it, False)
    ran = subprocess.Popen([program, "recode", "--to", "utf-16le"], stdin=source[0], stdout=sink[1], stderr=subprocess.PIPE)
    os.close(source[0])
    os.close(sink[1])
    got, left, end = b"", data, time.time() + 60
    while time.time() < end:
        if left:
            try:
                left = left[os.write(source[1], left[:30000]):]
            except (BlockingIOError, BrokenPipeError):
                pass
            if not left:
                os.close(source[1])
        time.sleep(0.001)
        try:
            part = os.read(sink[0], 1 << 16)
        except BlockingIOError:
            continue
        if not part:
            break
        got += part
    os.close(sink[0])
    said = ran.communicate(timeout=10)[1]
    expect((ran.returncode, said) == (0, b"") and got == data.decode().encode("utf-16-le"), f"pipes that do not block: {ran.returncode} {said} {len(got)}")


def check_slow(program):
    """From a pipe each invalid byte is reported without waiting for more input."""
    ran = subprocess.Popen([program, "check"], stdin=subprocess.PIPE, stdout=subprocess.PIPE)
    for i in range(3):
        ran.stdin.write(b"\xff\n")
        ran.stdin.flush()
        expect(reads(ran.stdout, 1).startswith(b"-:%d:1: " % (i + 1)), "a pipe that goes on")
    ran.stdin.close()
    ran.wait()


def told_on(main):
    """All that came to a terminal whose other end is closed."""
    said = b""
    with open(main, "rb", buffering=0) as file:
        try:
            while part := file.read(1 << 16):
                said += part
        except OSError:
            pass
    return said


def progress(program, words, columns, kind):
    """What is written to a terminal of `columns` columns while a pipe is slow."""
    main, terminal = pty.openpty()
    fcntl.ioctl(terminal, termios.TIOCSWINSZ, struct.pack("HHHH", 24, columns, 0, 0))
    ran = subprocess.Popen([program, "check", *words], stdin=subprocess.PIPE, stdout=subprocess.PIPE, stderr=terminal, env=dict(os.environ, TERM=kind))
    for _ in range(16):
        ran.stdin.write(b"text\n" * 1000)
        ran.stdin.flush()
        time.sleep(0.1)
    ran.stdin.close()
    ran.wait()
    os.close(terminal)
    return told_on(main)


def check_progress(program):
    """On a terminal there is a progress bar after a second, which goes again, and has its place in a line; with --quiet there is none."""
    jobs = [([], 80, "xterm", True), (["--quiet"], 80, "xterm", False), ([], 80, "dumb", False), ([], 17, "xterm", True)]
    with ThreadPoolExecutor(len(jobs)) as pool:
        for (words, columns, kind, is_there), said in zip(jobs, pool.map(lambda it: progress(program, *it[:3]), jobs)):
            holds = b"B/s"[: 3 if columns > 70 else 0] in said and said.endswith(b"\r\x1b[K") and said.count(b"\r") > 2
            expect(holds if is_there else said == b"", f"progress {words} on {kind} of {columns}: {said}")
            expect(all(len(it.replace(b"\x1b[K", b"")) < columns for it in said.split(b"\r")), f"lines on {columns} columns: {said}")


def check_progress_of_file(folder, program):
    """The bar of a file whose name is long and commands a terminal, if the whole is known, on terminals that are narrow and wide."""
    name = f"{folder}/" + 40 * "é" + "\u6587\033[31m"
    with open(name, "wb") as file:
        file.truncate(3 << 30)
    for columns in (40, 79, 200):
        main, terminal = pty.openpty()
        fcntl.ioctl(terminal, termios.TIOCSWINSZ, struct.pack("HHHH", 24, columns, 0, 0))
        ran = subprocess.Popen(["nice", program, "list", name], stdout=subprocess.DEVNULL, stderr=terminal)
        select.select([main], [], [], 60)
        ran.kill()
        ran.wait()
        os.close(terminal)
        lines = told_on(main).decode(errors="replace").replace("\033[K", "").split("\r")[1:]
        expect(lines and all(len(it) + it.count("\u6587") < columns and "\033" not in it and " of 3.2 GB" in it for it in lines), f"progress of a file on {columns}: {lines}")
    os.remove(name)


def check_far(folder, program):
    """Offsets beyond 4 GiB, and beyond the end: nothing but what is around them is read."""
    name, far = f"{folder}/far", 5_000_000_000
    with open(name, "wb") as file:
        file.truncate(5 << 30)
        file.seek(far)
        file.write(b"\xffA")
    brief = lambda: resource.setrlimit(resource.RLIMIT_CPU, (2, 2))
    got = run([program, "at", name, str(far)], preexec_fn=brief)
    expect(got[0] == 1 and f"> {far} 1 ff NonUtf8Byte".encode() in got[1] and f"  {far + 1} 1 41 U+0041 A\n".encode() in got[1], f"an offset beyond 4 GiB: {got}")
    for offset in (5 << 30, 1 << 62, (1 << 64) - 1):
        says([program, "at", name, hex(offset)], 2, b"", b"it ends before this offset", preexec_fn=brief)
    os.remove(name)


def check_completion():
    """What bash offers: commands in their place alone, options of the command, encodings, and no option after --."""
    if not shutil.which("bash"):
        print("nody.py: left out: bash is not there")
        return
    script = '. "$0"; COMP_WORDS=("$@") COMP_CWORD=$(($# - 1)); _nody; echo "${COMPREPLY[*]}"'
    for words, want in (("nody c", "check count"), ("nody check nody ", ""), ("nody check nody -", OFFERED["check"]),
                        ("nody recode --errors l", "lossy latin1"), ("nody recode --errors s", "strict"), ("nody fix --errors ", OFFERED_ERRORS["fix"]),
                        ("nody check --from = utf-16l", "utf-16le"), ("nody check --from =", "utf-8 utf-16le utf-16be auto bom"), ("nody check --encoding a", "auto"), ("nody check --columns d", "display"),
                        ("nody at --from b", "bom"), ("nody check -- -", ""), ("nody recode -o ", ""), ("nody --v", "--version"), ("nody recode --to ", "utf-8 utf-16le utf-16be")):
        got = run(["bash", "-c", script, f"{os.path.dirname(C)}/packaging/completions/nody", *words.split(" ")])
        expect(got == (0, f"{want}\n".encode(), b""), f"completion of {words!r}: {got}, not {want}")


OFFERED = {"check": "--encoding --names --null --recursive --files0-from --exclude --text --verbose --max --columns --context --no-context --color --follow --quiet --json --jobs --help",
           "view": "--encoding --color --help",
           "fix": "--encoding --errors --color --backup --dry-run --quiet --jobs --help",
           "list": "--encoding --quiet --json --help",
           "count": "--encoding --quiet --json --jobs --help",
           "at": "--encoding --columns --json --help",
           "recode": "--encoding --to --errors --bom --output --in-place --quiet --jobs --help"}
OFFERED_ERRORS = {"fix": "replace lossy drop windows-1252 latin1", "recode": "replace lossy drop windows-1252 latin1 strict"}


def check_completion_of_zsh():
    """Each command has its options. (zsh itself shows them: here its functions say what they were given)"""
    if not shutil.which("zsh"):
        print("nody.py: left out: zsh is not there")
        return
    script = '_arguments() { print -rl -- "$@"; }; _describe() { print -rl -- ${(P)4}; }; service=$1; shift; words=("$@"); CURRENT=$#; . $0'
    path = f"{os.path.dirname(C)}/packaging/completions/_nody"
    for command, want in OFFERED.items():
        status, out, err = run(["zsh", "-f", "-c", script, path, "nody", "nody", command, ""])
        offered = set(re.findall(rb"^(?:\([^)]*\)|\*)?(--[a-z0-9-]+)", out, re.M))
        expect(status == 0 and not err and offered == set(want.encode().split()), f"completion of zsh for {command}: {status}, {out}, {err}")
        ways = OFFERED_ERRORS.get(command, "").split()
        line = next((it for it in out.decode().splitlines() if it.startswith("--errors")), "")
        expect(re.findall(r"([\w-]+)\\:[\"']", line) == ways, f"completion of zsh for {command} --errors: {line}")
    for words, want in (("nody nody", ["check:", "fix:", "view:", "list:", "count:", "at:", "recode:", "(-)--version"]), ("nody-pieces nody-pieces", ["(--ends)--merge", "(--merge)--ends"]), ("nody-recode nody-recode", ["utf16be"])):
        status, out, err = run(["zsh", "-f", "-c", script, path, *words.split(), ""])
        expect(status == 0 and not err and all(it.encode() in out for it in want), f"completion of zsh for {words}: {status}, {out}, {err}")


def check_completion_of_fish():
    """What fish offers."""
    if not shutil.which("fish"):
        print("nody.py: left out: fish is not there")
        return
    folder = f"{os.path.dirname(C)}/packaging/completions"
    asked = [("nody c", "check count"), ("nody check nody --q", "--quiet"), ("nody recode --errors l", "latin1 lossy"), ("nody fix --errors w", "windows-1252"), ("nody check --encoding=utf-16l", "--encoding=utf-16le"), ("nody at --encoding a", "auto"),
             ("nody --v", "--version"), ("nody list --m", ""), ("nody recode --t", "--to"), ("nody-pieces --m", "--merge"), ("nody-recode utf16", "utf16be utf16le")]
    script = f"for it in {folder}/*.fish; source $it; end; for it in $argv; complete -C $it | string replace -r '\\t.*' '' | sort | string join ' '; echo; end"
    status, out, err = run(["fish", "--no-config", "-c", script, *[words for words, _ in asked]])
    got = [it for it in out.decode().split("\n")]
    lines, at = [], 0
    for words, want in asked:
        line = got[at] if at < len(got) else None
        lines.append((words, line, want))
        at += 2 if line else 1
    expect(status == 0 and not err and all(line == want for _, line, want in lines), f"completion of fish: {status}, {lines}, {err}")


def compiles(compiler, program, block, build, flags):
    words = [compiler, "-std=c99", *WARNINGS, f"-DBLOCK={block}", f"-I{C}", *flags, *SOURCES, f"{build}/libnoddychest.a", "-pthread", "-o", program]
    ran = subprocess.run(words, capture_output=True, text=True)
    return expect(ran.returncode == 0, f"{compiler}: nody with blocks of {block}: {ran.stderr[-1500:]}")


def main():
    if len(sys.argv) not in (2, 3) or sys.argv[1].startswith("-"):
        print(__doc__)
        return 0 if sys.argv[1:] in (["--help"], ["-h"]) else 2
    build, compiler = os.path.abspath(sys.argv[1]), sys.argv[2] if len(sys.argv) > 2 else "cc"
    # (who started this in the background, or by nohup, has it pass over signals, and so would what it starts)
    for it in ENDS:
        signal.signal(it, signal.default_int_handler if it == signal.SIGINT else signal.SIG_DFL)
    with tempfile.TemporaryDirectory() as folder:
        built, programs = f"{build}/nody", [f"{folder}/nody-{it}" for it in BLOCKS]
        with ThreadPoolExecutor(2) as pool:
            made = list(pool.map(lambda it: compiles(compiler, it[0], it[1], build, ["-O1", *SANITIZERS] if BLOCKS[it[1]] else ["-O1"]), zip(programs, BLOCKS)))
        if all(made):
            reasons = sentences(built)
            check_texts(folder, programs, reasons)
            check_large(folder, built, reasons)
            for it in (built, programs[3]):
                with tempfile.TemporaryDirectory(dir=folder) as place:
                    check_options(place, it, reasons)
                    check_failures(place, it)
                    check_replaced(place, it)
                    check_alone(place, it)
            check_killed(folder, built)
            stops = Stops(folder, compiler)
            if stops.is_there and compiles(compiler, f"{folder}/plain", 256, build, ["-O1"]):
                check_changed(folder, f"{folder}/plain", stops)
                check_moments(folder, f"{folder}/plain", stops)
            check_at_once(folder, built)
            check_appended(folder, built)
            check_faults(folder, [built], compiler, build)
            check_races(folder, compiler, build)
            check_follow(folder, built, reasons)
            check_passed_over(folder, built)
            check_follow_kernel(built)
            check_follow_renamed(folder, built)
            check_follow_input(folder, built)
            check_slow(built)
            check_unblocked(built)
            check_progress(built)
            check_progress_of_file(folder, built)
            check_far(folder, built)
            check_completion()
            check_completion_of_zsh()
            check_completion_of_fish()
    print(f"{passed} passed, {failed} failed")
    return int(failed > 0)


if __name__ == "__main__":
    sys.exit(main())
