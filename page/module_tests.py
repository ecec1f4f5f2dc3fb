"""Tests that ask the modules of the page alone, in a browser or under node: beside the conformance data, Python's decoder and tools."""
import functools
import json
import os
import random
import re
import shutil
import subprocess

PAGE = os.path.dirname(os.path.abspath(__file__))
TOP = os.path.dirname(PAGE)


def rows(name):
    with open(f"{TOP}/crates/conformance/data/{name}", encoding="ascii") as file:
        return [line.rstrip("\n").split("|") for line in file if not line.startswith("#")]


@functools.cache
def reasons():
    """What is wrong with a byte, by the name of its error: the sentences of the library for C, each without what stands before its colon."""
    with open(f"{TOP}/crates/c_api/src/kinds.rt", encoding="utf-8") as file:
        texts = [it.replace("\\0", "") for it in re.findall(r'text: \*b"(.*?)"', file.read())]
    names, sentences = texts[: len(texts) // 2], texts[len(texts) // 2 :]
    return {name: told.partition(": ")[2] for name, told in zip(names, sentences)}


def test_sentences(it):
    """All sentences of the module are those of the library for C."""
    told = it.ask("return codec.names.map((name, kind) => [name, codec.sentences[kind].split(': ').slice(1).join(': ')])")
    it.tally.equal(dict(told), reasons(), "sentences")


def test_vectors(it):
    """Every vector of the conformance data, by the page's module."""
    listed = rows("bytes.txt")
    got = it.ask(f"""
        const told = (p) => p.kind === 11 ? 'none' : `${{p.place}} ${{p.len}} ${{p.kind ? codec.names[p.kind] : p.scalar.toString(16).padStart(6, '0')}}`;
        return {[[row[0], row[3]] for row in listed]}.map(([hex, word]) => {{
            codec.fill(Uint8Array.from(hex.match(/../g) ?? [], (it) => parseInt(it, 16)));
            const left = {{ front: 0, back: codec.len }};
            const run = codec.pieces(0, codec.len), merged = run.map((it) => codec.streamedAt(it.place));
            const cut = run.every((it, i) => told({{ ...merged[i], kind: it.kind }}) === told(it)) && codec.streamedAt(codec.len).kind === 11;
            return [run.map(told).join(';'), cut ? merged.map((it) => told(it).split(' ')[2]).join(';') : 'another cut', [...word].map((it) => told(codec.step(it, left))).join(';')];
        }})""")
    for row, (run, merged, walk) in zip(listed, got):
        it.tally.equal(run, row[1], f"run of {row[0]}")
        it.tally.equal(merged, row[2], f"run of {row[0]}, byte by byte")
        it.tally.equal(walk, row[4], f"walk of {row[0]} by {row[3]}")
    it.tally.equal(len(got), 500, "vectors")


def test_recodings(it):
    forms = ["utf8", "utf16le", "utf16be"]
    listed = [row[:3] for row in rows("recode.txt")]
    given = [[*(forms.index(name) for name in row[0].split()), row[1]] for row in listed]
    got = it.ask(f"""return {given}.map(([from, to, hex]) => codec.recode(from, to, Uint8Array.from(hex.match(/../g) ?? [], (it) => parseInt(it, 16)))
        .map((part) => Array.from(part, (it) => it.toString(16).padStart(2, '0')).join('')).join(''))""")
    for row, made in zip(listed, got):
        it.tally.equal(made, row[2], f"{row[0]} of {row[1]}")


EDGES = bytes.fromhex("00417f808f909fa0bfc0c1c2dfe0e2ecedeff0f1f4f5ff")
CHARS = [it.encode() for it in "aéя你😀\ud7ff\ue000\ufeff\uffff\U0010ffff"]


def damaged(chance, most):
    parts = [chance.choice(CHARS) if chance.random() < 0.3 else bytes([chance.choice(EDGES)]) for _ in range(chance.randrange(most))]
    return b"".join(parts)


# Bytes as people write them: what they are, and for what the page takes them.
WRITTEN = {"\\xe2\\x82": ("e282", "escapes"), "b'\\xe2\\x82'": ("e282", "a bytes literal"), "%E2%82": ("e282", "percent-encoding, as in addresses"),
           "E2-82": ("e282", "hexadecimal digits"), "e2:82": ("e282", "hexadecimal digits"), "{0xe2, 0x82, ..}": ("e282", "numbers with 0x"),
           "{0xe2, 0x0}": ("e200", "numbers with 0x"), "0xC0, 0xAF": ("c0af", "numbers with 0x"), "[0xe2]": ("e2", "numbers with 0x"),
           "uint8_t x[2] = { 0x41, 0xff };": ("41ff", "numbers with 0x"), "68c3a9e2 8241f09f": ("68c3a9e28241f09f", "hexadecimal digits"),
           "00000000 00000000": ("00" * 8, "hexadecimal digits"), "": ("", ""), "b'h\\xc3\\xa9'": ("68c3a9", "a bytes literal"), 'b"it\'s \\xff"': ("69742773 20ff", "a bytes literal"),
           "bytearray(b'h\\xff')": ("68ff", "a bytes literal"), 'const char *s = "h\\xc3";': ("68c3", "a string literal"), '"h\\xc3" "\\xa9"': ("68c3a9", "a string literal"),
           "caf%C3%A9": ("636166c3a9", "percent-encoding, as in addresses"), "[104, 195]": ("68c3", "decimal numbers"), "[65]": ("41", "decimal numbers"), "[]": ("", ""),
           "[-61, -87]": ("c3a9", "decimal numbers"), "new byte[] { (byte) 0xc3, 65 }": ("c341", "decimal numbers"), "<<104, 195>>": ("68c3", "decimal numbers"),
           "104 195 169": ("68c3a9", "decimal numbers"), "150 303 251": ("68c3a9", "octal numbers"), "bytes([104, 195])": ("68c3", "decimal numbers"),
           "<Buffer 68 c3>": ("68c3", "a Buffer as Node prints it"), "<Buffer 68 c3 ... 50 more bytes>": ("68c3", "a Buffer as Node prints it"),
           "Uint8Array(2) [104, 195]": ("68c3", "decimal numbers"), "\\303\\251": ("c3a9", "escapes"), "h\\303\\251\\n": ("68c3a90a", "escapes"), "\\xe2\\x82A": ("e28241", "escapes"),
           '"\\u00e9\\ud83d\\ude00"': ("c3a9f09f9880", "a string literal"), '"\\ud800"': ("eda080", "a string literal"),
           "aMOp4oJB8J+YgA==": ("68c3a9e28241f09f9880", "base64"), "aMOp4oJB8J-YgA==": ("68c3a9e28241f09f9880", "base64"), "Y2Fm6Q==": ("636166e9", "base64"), "/w==": ("ff", "base64"), "data:text/plain;base64,aMOp": ("68c3a9", "a data: address in base64"),
           "X'68c3'": ("68c3", "hexadecimal digits of SQL"), "\\x68c3a9": ("68c3a9", "hexadecimal digits of SQL"), "caf=C3=A9": ("636166c3a9", "quoted-printable, as in mail"),
           "deadbeef": ("deadbeef", "hexadecimal digits"), "10 20 30": ("102030", "hexadecimal digits"), "68 c3 [41]": ("68c341", "hexadecimal digits"), "<68c3a9e2 8241>": ("68c3a9e28241", "hexadecimal digits")}
UNREADABLE = ["4g", "414", "%E", "0000000 41", "41\n*\n42", "100 101", "[300]", "\\xg", "b'\\400'", "hello", "0x1000:\t0x68\n0x1002:\t0x69"]
# Read as a person asks: the same digits in several ways.
ASKED = {"decimal": ("10 20 30", "0a141e"), "octal": ("101 102", "4142"), "hexadecimal": ("10 20", "1020"), "binary": ("01000001 01000010", "4142"),
         "base64": ("deadbeef", "75e69d6de79f"), "percent": ("a%41", "6141"), "escapes": ("a\\101", "6141"), "dump": ("00000000: 4142  AB", "4142")}
DUMPS = ["xxd", "xxd -p", "xxd -i", "xxd -u -g1", "xxd -c 10", "xxd -g4", "xxd -b", "xxd -e", "hexdump -C", "hexdump", "hexdump -b", "hexdump -c", "hexdump -d", "hexdump -x", "hexdump -o",
         "od", "od -tx1", "od -Ax -tx1", "od -Ad -tx1", "od -An -tx1", "od -x", "od -Ax -x", "od -b", "od -c", "od -tx1z", "od -td1", "od -tx4", "od -tx8", "od -d"]
# What gdb and lldb print for 68 c3 a9 e2 82 41 f0 9f 98 80, and for its first four bytes.
DEBUGGERS = {"0x555555556004:\t0x68\t0xc3\t0xa9\t0xe2\t0x82\t0x41\t0xf0\t0x9f\n0x55555555600c:\t0x98\t0x80": 10, "0x555555556004 <text+4>:\t0x68\t0xc3\t0xa9\t0xe2": 4,
             "0x7ffe1000:\t0xe2a9c368": 4, "0x7ffe1000:\t0xc368\t0xe2a9": 4, "0x7ffe1000:\t104\t195\t169\t226": 4, "0x7ffe1000:\t0150\t0303\t0251\t0342": 4,
             "0x7ffe:\t104 'h'\t-61 '\\303'\t-87 '\\251'\t-30 '\\342'": 4, "0x100003fa4: 68 c3 a9 e2 82 41 f0 9f 98 80  h....A....": 10}
def test_written(it):
    """Bytes as people and tools write them, and for what they are taken."""
    got = it.ask(f"return {[*WRITTEN]}.map((it) => [hexOf(bytesOf(it).bytes), bytesOf(it).took])")
    it.tally.equal({text: tuple(one) for text, one in zip(WRITTEN, got)}, {text: (hexes.replace(" ", ""), took) for text, (hexes, took) in WRITTEN.items()}, "bytes as people write them")
    it.tally.equal(it.ask(f"return {UNREADABLE}.filter((it) => bytesOf(it).bytes || !bytesOf(it).told)"), [], "what is no bytes")
    got = it.ask(f"return {[[reader, text] for reader, (text, _) in ASKED.items()]}.map(([reader, it]) => hexOf(bytesOf(it, reader).bytes))")
    it.tally.equal(dict(zip(ASKED, got)), {reader: want for reader, (_, want) in ASKED.items()}, "bytes read as a person asks")
    it.tally.equal(it.ask("return bytesOf('data:68c3').told"), "A data: address has a comma before its data.", "an address without a comma")
    # (a hundred thousand blanks took minutes; what else the machine does counts too)
    spent = it.ask("const began = performance.now(); for (const blank of [' ', '\\n', ' \\n']) bytesOf(`41${blank.repeat(100000)}42`); return performance.now() - began")
    it.tally.add(spent < 5000, f"a hundred thousand blanks between two bytes: {spent:.0f} ms")
    told = it.ask("const long = 'QUJD'.repeat(3000000), { bytes, took } = bytesOf(long); return [bytes.length, hexOf(bytes.slice(-4)), took]")
    it.tally.equal(told, [9000000, "43414243", "base64"], "base64 of nine megabytes")
    told = it.ask("return bytesOf('<Buffer 68 c3 ... 50 more bytes>').note")
    it.tally.equal(told, "50 more bytes are not in this text.", "a Buffer of which the rest lacks")


def made_by(command, given):
    return [subprocess.run(command.split(), input=one, capture_output=True, check=True).stdout.decode("latin-1") for one in given]


def test_dumps(it):
    """What tools print. What has two readings is refused, and never read wrong."""
    given = [b"h\xc3\xa9\xe2\x82A\xf0\x9f\x98\x80", b"odd", b"odd!!", bytes(range(256)) + b"  |  |", b"\xff" * 19, b"hello  world  |x|\n\n", b"A", bytes(range(33, 127))]
    repeated = [bytes(100), b"A" * 512, b" " * 40]
    for command in DUMPS:
        if not shutil.which(command.split()[0]):
            continue
        got = it.ask(f"return {made_by(command, given)}.map((it) => hexOf(bytesOf(it).bytes))")
        it.tally.equal(got, [one.hex() for one in given], f"what {command} prints")
        got = it.ask(f"return {made_by(command, repeated)}.map((it) => bytesOf(it).bytes ? hexOf(bytesOf(it).bytes) : null)")
        wrong = [one for one, want in zip(got, repeated) if one not in (None, want.hex())]
        it.tally.equal(wrong, [], f"lines that {command} leaves out")
    for command in ("xxd -a", "hexdump -C", "od -tx1", "od -Ad -tx1", "od -Ax -tx1"):
        if shutil.which(command.split()[0]):
            it.tally.equal(it.ask(f"return {made_by(command, repeated)}.map((it) => (bytesOf(it).bytes ?? []).length)"), [100, 512, 40], f"lines that {command} leaves out, read")
    got = it.ask(f"return {[*DEBUGGERS]}.map((it) => [hexOf(bytesOf(it).bytes), bytesOf(it).took.startsWith('what gdb or lldb prints')])")
    it.tally.equal(dict(zip(DEBUGGERS, got)), {text: [given[0][:count].hex(), True] for text, count in DEBUGGERS.items()}, "what gdb and lldb print")
    nearly = ["1" * 40 + "a", "0" * 40 + "z", "61 " * 40 + "x", "1 '\\1' " * 40 + "x"]
    it.tally.equal(it.ask(f"const began = Date.now(); for (const it of {nearly}) bytesOf(`0x1000: ${{it}}`); return Date.now() - began < 3000"), True, "lines that are nearly what gdb prints are judged at once")


def lines_of(data, encoding):
    """The invalid bytes of some bytes with lines and columns, by Python's own decoder: one character or one invalid byte after the other."""
    found, at, line, column = [], 0, 1, 1
    unit = 1 if encoding == "utf-8" else 2
    while at < len(data):
        size = next((n for n in (1, 2, 3, 4) if is_character(data[at:at + n], encoding)), None)
        if size is None:
            found.append([at, line, column])
        is_end = data[at:at + (size or 0)].decode(encoding) == "\n" if size else False
        line, column = (line + 1, 1) if is_end else (line, column + 1)
        at += size or min(unit, len(data) - at)
    return found


def is_character(data, encoding):
    try:
        return len(data.decode(encoding)) == 1
    except UnicodeDecodeError:
        return False



FORMS = ["utf-8", "utf-16-le", "utf-16-be"]


def test_survey(it):
    """Places beside Python's decoder, in one slice and in slices of a few bytes: offsets, lines, columns and counts."""
    chance = random.Random(2)
    given = [(chance.choice(FORMS), damaged(chance, 30) + b"\n" * chance.randrange(2) + damaged(chance, 30) + b"\n\0\n" * chance.randrange(2)) for _ in range(3000 if it.browser.name == "node" else 400)]
    got = it.ask(f"""return {[[FORMS.index(form), one.hex()] for form, one in given]}.map(([form, hex]) => {{
            const bytes = ofHex(hex), size = bytes.length, whole = new Survey(codec, form, {{ size }}), parts = new Survey(codec, form, {{ size }});
            whole.take(bytes, true);
            for (let at = 0; ; ) {{
                const isLast = at + 11 >= size, taken = parts.take(bytes.slice(at, at + 11), isLast);
                at += taken;
                if (isLast) break;
                if (!taken) return 'no step';
            }}
            const told = (made) => {{ const it = made.news(true); return JSON.stringify([it.count, it.faults, it.invalid, it.line, it.places, [...it.causes], [...it.part.offsets], [...it.part.lengths], [...it.part.lines], [...it.part.columns], [...it.part.kinds]]); }};
            const {{ list }} = whole, listed = [];
            for (let i = 0; i < list.length; i++) for (let n = 0; n < list.lengths[i]; n += form ? list.lengths[i] > 2 ? 2 : list.lengths[i] : 1) listed.push([list.offsets[i] + n, list.lines[i], list.columns[i] + (form ? n / 2 : n)]);
            return [told(whole) === told(parts), listed, whole.faults, whole.line];
        }})""")
    wrong = []
    for (form, one), (same, listed, faults, line) in zip(given, got):
        want = lines_of(one, form)
        if not (same and listed == want and faults == len(want) and line == one.decode(form, "replace").count("\n") + 1):
            wrong.append([form, one.hex(), same, listed, want])
    it.tally.equal(wrong[:3], [], "places of inputs")
    it.tally.equal(len(got), len(given), "inputs that were walked over")


def test_repaired(it):
    """The repaired text as UTF-8 beside Python's decoder, which puts one U+FFFD for each maximal subpart; and the mended ones."""
    chance = random.Random(3)
    given = [damaged(chance, 12) for _ in range(4000 if it.browser.name == "node" else 800)]
    got = it.ask(f"""const made = []; for (const hex of {[one.hex() for one in given]}) {{ const parts = [];
        for await (const text of repairedOf(codec, 0, new Blob([ofHex(hex)]), 'utf-8')) parts.push(text); made.push(parts.join('')); }} return made""")
    want = [one.decode("utf-8", "replace").removeprefix("\ufeff") for one in given]
    it.tally.equal([(one.hex(), a, b) for one, a, b in zip(given, got, want) if a != b][:3], [], "inputs that are repaired otherwise")
    cases = [("mixed", b"caf\xe9 \xe2\x82 \xc3\xbc", "café \ufffd ü"), ("windows-1252", b"caf\xe9 \xabx\xbb", "café «x»"), ("twice", "CrÃ¨me â‚¬".encode(), "Crème €"), ("surrogates", b"Hi \xed\xa0\xbd\xed\xb8\x80\xc0\x80", "Hi 😀\0"),
             ("koi8-r", "Привет".encode("koi8-r"), "Привет"), ("shift_jis", "日本語".encode("shift_jis"), "日本語")]
    got = it.ask(f"""const made = []; for (const [how, hex] of {[[how, one.hex()] for how, one, _ in cases]}) {{ const parts = [];
        for await (const text of repairedOf(codec, 0, new Blob([ofHex(hex)]), how)) parts.push(text); made.push(parts.join('')); }} return made""")
    it.tally.equal(got, [text for *_, text in cases], "texts that are mended")


def test_repaired_at_an_edge(it):
    """A file is repaired in parts of 2^19 bytes: what is on both sides of an edge becomes what it becomes elsewhere."""
    cases = [("surrogates", "eda0bdedb880"), ("surrogates", "c080" * 30), ("mixed", "eda0bd"), ("mixed", "f4908080"), ("mixed", "c0af"), ("mixed", "ff" * 90), ("mixed", "e9"), ("utf-8", "f09f98"),
             ("twice", "c383c2a9" * 30), ("twice", "c3a2e2809ac2ac")]
    got = it.ask(f"""const whole = async (bytes, how) => {{ const parts = []; for await (const text of repairedOf(codec, 0, new Blob([bytes]), how)) parts.push(text); return parts.join(''); }};
        const [edge, wrong] = [1 << 19, []];
        for (const [how, hex] of {[list(one) for one in cases]}) {{
            const own = ofHex(hex), want = (await whole(ofHex(`61${{hex}}61`), how)).slice(1, -1);
            for (let at = edge - own.length; at <= edge; at += own.length > 9 ? 7 : 1) {{
                const bytes = new Uint8Array(edge + 200).fill(0x61);
                bytes.set(own, at);
                if (await whole(bytes, how) !== 'a'.repeat(at) + want + 'a'.repeat(bytes.length - at - own.length)) wrong.push([how, hex, edge - at]);
            }}
        }} return wrong""")
    it.tally.equal(got, [], "texts on both sides of an edge that become something else")


TEXTS = ["Dès Noël, où un zéphyr haï me vêt de glaçons würmiens, je dîne d’exquis rôtis de bœuf au kir. ", "Falsches Üben von Xylophonmusik quält jeden größeren Zwerg. ", "El pingüino Wenceslao hizo kilómetros bajo exhaustiva lluvia. "]


def test_guess(it):
    """What bytes most likely are, of texts that were written, cut, mixed and encoded twice."""
    given = []
    for text in TEXTS:
        utf8 = text.encode()
        mixed = utf8 * 2 + text.encode("cp1252") + utf8 * 4
        given += [("utf-8", utf8), ("ascii", text.encode("ascii", "ignore")), ("utf-16le", b"\xff\xfe" + text.encode("utf-16-le")), ("utf-16be", text.encode("utf-16-be")), ("utf-16le", text.encode("utf-16-le")),
                  ("windows-1252", text.encode("cp1252")), ("mixed", mixed), ("twice", text.encode().decode("cp1252", "ignore").encode() if "œ" not in text else "CrÃ¨me brÃ»lÃ©e".encode()), ("cut", utf8 + b"\xe2\x82"), ("cut", b"\xa9" + utf8), ("binary", bytes(range(256)))]
    russian = "Съешь же ещё этих мягких французских булок, да выпей чаю. "
    given += [("other", russian.encode("koi8-r")), ("other", russian.encode("cp1251")), ("surrogates", "Hi ".encode() + b"\xed\xa0\xbd\xed\xb8\x80"), ("utf-32", b"\xff\xfe\0\0H\0\0\0"), ("binary", b"%PDF-1.7\n\xff\xff")]
    got = it.ask(f"return {[one.hex() for _, one in given]}.map((hex) => {{ const bytes = ofHex(hex); return guessAt(codec, bytes, bytes.length).name; }})")
    it.tally.equal([(want, is_, one[:20]) for (want, one), is_ in zip(given, got) if want != is_], [], "guesses")


ALL = [test_sentences, test_vectors, test_recodings, test_survey, test_repaired, test_repaired_at_an_edge, test_guess, test_written, test_dumps]
