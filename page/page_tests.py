"""Tests of the page in a browser: what a person sees and does, in light, dark and forced colours, at 1280 and 360."""
import functools
import json
import os
import re
import shutil
import urllib.parse

import module_tests

WIDE, NARROW, LEAST = (1280, 800), (360, 740), (320, 700)
STOPS, CONTINUES = "InterruptedSequence", "UnexpectedContinuationByte"

# What each script below may call.
PRELUDE = """
const $ = (id) => document.getElementById(id), wait = (ms) => new Promise((done) => setTimeout(done, ms));
const frame = () => new Promise((done) => requestAnimationFrame(() => requestAnimationFrame(done)));
const text = (id) => $(id).textContent.trim(), { codec, input, grid, list, helper, choose, reading, bytesOf, Survey, guessAt, repairedOf } = window.noddychest ?? {};
const hexOf = (bytes) => Array.from(bytes ?? [], (it) => it.toString(16).padStart(2, '0')).join('');
const ofHex = (hex) => Uint8Array.from(hex.match(/../g) ?? [], (it) => parseInt(it, 16));
const until = async (holds) => { for (let i = 0; i < 1800 && !holds(); i++) await wait(50); return Boolean(holds()); };
const settled = () => until(() => document.documentElement.dataset.state !== 'reading');
const send = async (type, data, target = document.body) => { const event = type === 'paste' ? new ClipboardEvent('paste', { clipboardData: data, bubbles: true, cancelable: true }) : new DragEvent(type, { dataTransfer: data, bubbles: true, cancelable: true });
    // (Firefox gives such an event no data)
    Object.defineProperty(event, type === 'paste' ? 'clipboardData' : 'dataTransfer', { value: data }); target.dispatchEvent(event); await wait(0); await settled(); await frame(); };
const paste = (value, target) => { const data = new DataTransfer(); data.setData('text/plain', value); return send('paste', data, target); };
const pasteHex = (hex) => paste(hex.match(/../g).join(' '));
const dropFiles = (files) => { const data = new DataTransfer(); for (const [name, bytes] of files) data.items.add(new File([bytes], name)); return send('drop', data); };
const example = async (name) => { [...$('examples').querySelectorAll('button')].find((it) => it.textContent === name).click(); await wait(0); await settled(); await frame(); };
const cells = () => [...document.querySelectorAll('#grid .p')], items = () => [...document.querySelectorAll('#list .item')];
const chosen = () => [document.querySelector('#grid .chosen')?.dataset.offset, document.querySelector('#list [aria-current]')?.querySelector('.m').textContent, text('why-title'), $('offset').value];
const guesses = () => [...document.querySelectorAll('#guess li')].map((it) => [it.querySelector('b')?.textContent, it.querySelector('pre')?.textContent, it.querySelector('button')?.getAttribute('aria-pressed')]);
const kept = []; const copies = async (id) => { kept.length = 0; Object.defineProperty(navigator, 'clipboard', { value: { writeText: async (it) => kept.push(it) }, configurable: true }); $(id).click(); await until(() => kept.length); return kept[0]; };
"""


DUMP = """00000000  48 65 6c 6c 6f 20 5a c3  bc 72 69 63 68 20 e2 82  |Hello Z..rich ..|
00000010  20 63 61 66 e9 20 f0 9f  98 20 ed a0 80 c0 af ff  | caf. ... ......|
00000020  20 65 6e 64 0a 21 21 0a                           | end.!!.|"""

# Bytes, the finding, and the best guess.
FINDINGS = [
    (b"caf\xc3\xa9 \xe9t\xe9.", "2 of 10 bytes are not UTF-8. The first is E9 at offset 6: é in Windows-1252.", "Best guess: UTF-8 with 2 bytes of Windows-1252"),
    ("Grüße".encode(), "All 7 bytes are UTF-8.", None),
    (b"plain", "All 5 bytes are ASCII, so they are UTF-8 too.", None),
    (b"\xef\xbb\xbfh\xc3\xa9", "All 6 bytes are UTF-8, after a byte order mark (EF BB BF).", None),
    ("CrÃ¨me brÃ»lÃ©e".encode(), "All 21 bytes are UTF-8, but the text was encoded twice: Ã¨ was è.", "Best guess: UTF-8, encoded twice"),
    ("Hello world, text".encode("utf-16-le"), "This is UTF-16LE, not UTF-8: every second byte is 00. Its 34 bytes are valid UTF-8 too, but hardly meant so.", "Best guess: UTF-16LE"),
    (b"\xff\xfe" + "Hé".encode("utf-16-le"), "This is UTF-16LE, not UTF-8: it begins with the mark FF FE. 3 of 6 bytes are not UTF-8. The first is FF at offset 0: never in UTF-8.", "Best guess: UTF-16LE"),
    ("Привет".encode()[:-1], "The last of 11 bytes is not UTF-8: a character is cut off at the end, from D1 at offset 10 on.", "Best guess: UTF-8, cut off at the end"),
    ("Déjà vu à la crème".encode("cp1252"), "4 of 18 bytes are not UTF-8. The first is E9 at offset 1: é in Windows-1252.", "Best guess: Windows-1252"),
    (b"\x89PNG\r\n\x1a\n", "This is a PNG picture, not text. 1 of 8 bytes is not UTF-8. It is 89 at offset 0.", "None"),
    (b"\xff" * 100, "100 of 100 bytes are not UTF-8. This is probably not text. The first is FF at offset 0: 100 × FF.", "None"),
    ("Привет, мир! Это текст.".encode("koi8-r"), "17 of 23 bytes are not UTF-8. The first is F0 at offset 0: a character is cut off.", "Best guess: KOI8-R"),
    (b"Hi \xed\xa0\xbd\xed\xb8\x80", "6 of 9 bytes are not UTF-8. The first is ED at offset 3: half of a character of UTF-16.", "Best guess: CESU-8, or Java’s modified UTF-8"),
]


def test_findings(it):
    it.open()
    for data, said, guess in FINDINGS:
        told = it.ask(f"await pasteHex('{data.hex()}'); return [text('say').replace(/\\s+/g, ' '), document.title, $('guess-part').hidden ? null : String(guesses()[0]?.[0] ?? 'None')]")
        it.tally.equal(told, [said, said, guess], f"the finding of {data[:12]!r}")
    it.tally.equal(it.ask(f"await paste({json.dumps(DUMP)}); return [text('say').replace(/\\s+/g, ' '), ...chosen(), items().length, guesses()]"),
                   ["12 of 40 bytes are not UTF-8. The first is E2 at offset 14: a character is cut off.", "14", "14", "Offset 14 to 15", "14", 6,
                    [["Best guess: UTF-8 with a byte of Windows-1252", "Hello Zürich \ufffd café \ufffd \ufffd\ufffd\ufffd\ufffd\ufffd\ufffd end", "true"], ["Or Windows-1252 throughout", "Hello ZÃ¼rich â‚ café ðŸ˜ í\xa0€À¯ÿ end", "false"]]], "the dump")
    it.tally.equal(it.ask("await paste(' '); $('clear').click(); await settled(); return [text('say'), document.title, cells().length && !$('grid-part').hidden]"), ["Paste text, bytes or a dump.", "UTF-8 damage inspector", False], "nothing")


# Ten forms of the same bytes: h, é, ÿ alone.
BYTES = "48c3a9ff"
FORMS = {"a dump after a prompt": "$ xxd f\n00000000: 48c3 a9ff                                H...\n$ ", "a dump of hexdump -C": "00000000  48 c3 a9 ff                                       |H...|\n00000004", "comments": "48 c3 # begins\na9 ff  # never", "binary digits": "01001000 11000011 10101001 11111111",
         "0x and commas": "0x48, 0xc3, 0xa9, 0xff", "an array": "[72, 195, 169, 255]", "base64": "SMOp/w==", "a dump without offsets": "48 c3 a9 ff  |H...|\n", "a literal": "b'H\\xc3\\xa9\\xff'", "percent-encoding": "H%C3%A9%FF"}
WRONG = ["48 65 6c zz 6c", "48 65 6", "[300]", "[72, 195, 999]", "b'\\400'", "\\xg1", "0x1000:\t0x68\n0x1002:\t0x69", "41 42 43\n*\n44 45 46", "00000000: 4142  AB\n00000004: 4344  CD", "01001000 1100001 11000011", "00000000  41 42  |AB|\n00000030  43 44  |CD|",
         "{0x41, 0xzz}", "00000000: 41zz 42\n00000003: 43 44", "b'\\xzz'", "0x48, 0x1g, 0x49"]
AS_TEXT = ["Grüße, Welt", "decade", "2026", "password", "C:\\new\\table", "50% of all", "a = b", "see section 12 34", "<b>bold</b>"]


def test_forms(it):
    """Ten forms that people paste, fifteen that cannot be read and say so, and text that stays text; the reading that is chosen by hand."""
    it.open()
    for name, given in FORMS.items():
        it.tally.equal(it.ask(f"await paste({json.dumps(given)}); return [hexOf(input.source.bytes), text('took') !== 'text']"), [BYTES, True], name)
    for given in WRONG:
        told = it.ask(f"await paste({json.dumps(given)}); return [document.documentElement.dataset.state, input.size, $('grid-part').hidden, $('list-part').hidden, $('guess-part').hidden, $('why').hidden, $('box').value === {json.dumps(given)}, text('say').length > 20 && document.title.startsWith(text('say'))]")
        it.tally.equal(told, ["refused", 0, True, True, True, True, True, True], f"{given!r} says so, and shows nothing old")
    for given in AS_TEXT:
        it.tally.equal(it.ask(f"await paste({json.dumps(given)}); return [new TextDecoder().decode(input.source.bytes), text('took')]"), [given, "text"], f"{given!r} is text")
    told = it.ask("""await paste('41 42'); const before = [hexOf(input.source.bytes), $('as').value]; $('as').value = 'text'; $('as').dispatchEvent(new Event('change')); await settled(); return [...before, hexOf(input.source.bytes), $('as').value]""")
    it.tally.equal(told, ["4142", "hexadecimal", "3431203432", "text"], "taken as text by hand")
    told = it.ask("await paste('x\\r\\ny'); const cr = [hexOf(input.source.bytes), text('note')]; await paste('\\ud83dx'); const lone = [hexOf(input.source.bytes), text('note').slice(0, 16)]; $('note').querySelector('button').click(); await settled(); return [cr, lone, hexOf(input.source.bytes), $('form').value]")
    it.tally.equal(told, [["780d0a79", "1 carriage return (CR) of the text is kept."], ["efbfbd78", "1 lone surrogate"], "3dd87800", "1"], "a CR, and a lone surrogate")


def test_places(it):
    """Keys, links and the history lead to the same place in grid, explanation and list."""
    it.open()
    it.ask(f"await paste({json.dumps(DUMP)}); document.activeElement.blur()")
    it.browser.keys("n")
    it.tally.equal(it.ask("return chosen()"), ["20", "20", "Offset 20", "20"], "N")
    it.browser.keys("N")
    it.tally.equal(it.ask("return chosen()[0]"), "14", "Shift+N")
    it.browser.keys("N")
    it.tally.equal(it.ask("return [chosen()[0], text('went')]"), ["31", "The last one."], "Shift+N at the first one")
    it.ask("$('grid').focus()")
    it.browser.keys("ArrowLeft")
    it.tally.equal(it.ask("return chosen()[0]"), "29", "an arrow goes to the place before")
    it.browser.keys("Home")
    it.tally.equal(it.ask("return [chosen()[0], text('why-title')]"), ["16", "Offset 16"], "Home")
    it.ask("$('list').focus()")
    it.browser.keys("End")
    it.tally.equal(it.ask("return chosen()[0]"), "31", "the end of the list")
    it.ask("$('offset').value = '0x14'; $('go').requestSubmit()")
    it.tally.equal(it.ask("await frame(); return chosen()[0]"), "20", "an offset")
    link = it.ask("return copies('copy-link')")
    it.tally.add("at=20" in link, f"the link keeps the place: {link}")
    it.open(link[link.index("#"):])
    it.tally.equal(it.ask("return [input.size, ...chosen()]"), [40, "20", "20", "Offset 20", "20"], "the link opens the place")
    told = it.ask("await paste('41 ff'); const first = input.size; await paste('41 ff 42 ff'); history.back(); await until(() => input.size === 2); const back = [first, input.size, $('box').value]; history.forward(); await until(() => input.size === 4); return [...back, input.size]")
    it.tally.equal(told, [2, 2, "41 ff", 4], "Back, and forward")
    told = it.ask("await pasteHex('fffe4800e900'); document.querySelector('#guess button').click(); await settled(); await frame(); return [$('form').value, text('say'), guesses()[0][2]]")
    it.tally.equal(told, ["1", "All 6 bytes are UTF-16LE.", "true"], "read so")
    it.tally.equal(it.ask("history.back(); await until(() => input.form === 0); return $('form').value"), "0", "Back from another encoding")
    it.ask("await example('log'); const chip = [...$('chips').children].find((it) => it.textContent.startsWith('Cut off')); chip.click(); await frame()")
    it.tally.equal(it.ask("return [list.rows.count, document.querySelectorAll('#list .item').length < 20, $('chips').querySelector('[aria-pressed=true]').textContent, $('strip').hidden]"), [39, True, "Cut off 39", False], "a filter, and rows in view alone")


def test_grid(it):
    """No character is split over rows; each invalid byte is an option, in the group of its place."""
    for size in (WIDE, NARROW):
        it.open("", size)
        told = it.ask("""await paste('a' + '你好€😀'.repeat(40)); const rows = [...document.querySelectorAll('#grid .gr')], n = grid.perRow;
            return [n, cells().every((it) => it.querySelectorAll('u').length === Number(it.style.getPropertyValue('--k'))), rows.every((row) => { const box = row.getBoundingClientRect(); return [...row.querySelectorAll('.p')].every((it) => it.getBoundingClientRect().right <= box.right + 1); }), cells().map((it) => it.querySelector('b').textContent).join('').startsWith('a你好€😀你好')]""")
        it.tally.equal(told, [16 if size == WIDE else 8, True, True, True], f"characters at {size[0]}")
        told = it.ask(f"await paste({json.dumps(DUMP)}); const group = document.querySelector('#grid .x'); return [group.getAttribute('role'), [...group.querySelectorAll('[role=option]')].map((it) => it.textContent), $('grid').getAttribute('aria-activedescendant')]")
        it.tally.equal(told, ["group", ["e2", "82"], "p14"], "options of a place")


def test_copies(it):
    it.open()
    it.ask(f"await paste({json.dumps(DUMP)})")
    it.tally.equal(it.ask("return copies('copy-text')"), "Hello Zürich \ufffd café \ufffd \ufffd\ufffd\ufffd\ufffd\ufffd\ufffd end\n!!\n", "the repaired text")
    it.tally.add(it.ask("return copies('copy-bytes')").startswith("48 65 6c 6c 6f 20 5a c3"), "bytes")
    report = it.ask("return copies('copy-report')")
    it.tally.add("**12 of 40 bytes are not UTF-8**, in 6 places. The first is `E2` at offset 14." in report and "| 14 | 1:14 | `E2 82` | Cut off after 2 of 3 bytes |" in report and "at=14" in report or "hex=" in report, f"the report: {report}")
    rows = json.loads(it.ask("return noddychest.json()"))
    it.tally.equal([[one["offset"], one["bytes"], one["error"]] for one in rows][:3], [[14, "E2", STOPS], [15, "82", CONTINUES], [20, "E9", STOPS]], "JSON")
    it.tally.equal(len(rows), 12, "a row for each invalid byte")
    csv = it.ask("return noddychest.csv()").split("\r\n")
    it.tally.equal([csv[0], csv[1], len(csv)], ["offset,line,column,length,bytes,error,reason", f'14,1,14,1,E2,{STOPS},"{module_tests.reasons()[STOPS]}"', 14], "CSV")
    it.tally.equal(it.ask("$('explore').open = true; await frame(); $('place').value = '20'; $('byte').value = '65'; $('damage').requestSubmit(); await settled(); await frame(); const changed = [text('say').slice(0, 24), document.querySelectorAll('#grid .changed').length]; $('undo').click(); await settled(); return [...changed, text('say').slice(0, 24)]"),
                   ["11 of 40 bytes are not U", 1, "12 of 40 bytes are not U"], "a byte that is damaged, and undone")
    it.tally.equal(it.ask("await pasteHex('e08080'); $('letters').value = 'bbf'; $('ends').requestSubmit(); return [...$('taken').children].map((it) => it.textContent)"),
                   ["Back: offset 2, 80 UnexpectedContinuationByte", "Back: offset 1, 80 UnexpectedContinuationByte", "Front: offset 0, E0 TooFewBytes"], "both ends")


HOSTILE = "<img src=x onerror=\"window.hit=1\"><script>window.hit=1</script>`|\u202e\u2066\x1b[31m\x07\x9b</pre></textarea>"


def test_hostile(it):
    """No markup, control or change of direction of the input acts on the page, in a report or in a name."""
    it.open()
    data = HOSTILE.encode() + b"\xff" + HOSTILE.encode() + b"\xe9" + HOSTILE.encode()
    told = it.ask(f"""await pasteHex('{data.hex()}'); await choose({len(HOSTILE.encode())}); await frame();
        const all = () => [document.querySelectorAll('main img, main script, main iframe').length, window.hit ?? 0, /[\\u202a-\\u202e\\u2066-\\u2069\\u0000-\\u0008\\u001b\\u0080-\\u009f]/.test(document.body.innerText)];
        const first = all(), report = await noddychest.report();
        await paste({json.dumps(HOSTILE)}); const second = all();
        await dropFiles([['<img src=x onerror=window.hit=1>\\u202e.txt', ofHex('{data.hex()}')], ['b', ofHex('41')]]); await until(() => document.querySelectorAll('#files-rows li').length === 2);
        return [first, second, all(), report]""")
    it.tally.equal(told[:3], [[0, 0, False]] * 3, "what acts on the page")
    it.tally.add(not re.search(r"[<>\u202e\u2066\x1b\x07\x9b]", told[3]) and all(len(re.findall(r"(?<!\\)\|", row)) == 6 for row in told[3].split("\n") if row.startswith("| ") and "`" in row), f"the report: {told[3]}")
    told = it.ask("location.hash = '#hex=41&from=<script>&at=9e99&how=<img src=x>'; await until(() => input.size === 1); await settled(); return [input.size, input.at, input.how, document.querySelectorAll('main img').length]")
    it.tally.equal(told, [1, 0, "utf-8", 0], "a link that lies")


def test_files(it):
    it.open()
    told = it.ask("""await dropFiles([['one', ofHex('4142')], ['two', ofHex('42ff43')], ['three', ofHex('fffe41004200')]]); await until(() => ![...$('files-rows').querySelectorAll('span:last-child')].some((it) => it.textContent === '…'));
        const rows = [...$('files-rows').children].map((it) => it.textContent); $('files-rows').querySelectorAll('button')[1].click(); await until(() => input.size === 3); await settled(); return [rows, input.size, text('file-name')]""")
    it.tally.equal(told, [["one2 bytesall ASCII", "two3 bytes1 of 3 bytes is not UTF-8", "three6 bytes2 of 6 bytes are not UTF-8: UTF-16LE"], 3, "two"], "several files")
    told = it.ask("const data = new DataTransfer(); data.items.add(new File([ofHex('89504e47')], 'image.png', { type: 'image/png' })); await send('paste', data); return text('note').slice(0, 21)")
    it.tally.equal(told, "A picture was pasted,", "a picture")
    bad, log = f"{it.folder}/bad.bin", f"{it.folder}/log.txt"
    with open(bad, "wb") as file:
        file.write(bytes([0x80, 0xe9, 0xff, 0xc0, 0xe2]) * 600000)
    line = "2026-11-29 INFO worker-1 温度 21 °C Zürich: cache hit\n".encode()
    with open(log, "wb") as file:
        for i in range(6):
            file.write(line * 60000 + b"worker-7 cr\xe8me, cut \xe6\xb8 x\n" * 20)
    it.open()
    it.browser.put_files("#file", [bad])
    told = it.ask("await until(() => input.size === 3000000 && input.places.length > 100 && items().length); const rows = items().length; await settled(); return [rows > 3 && rows < 30, input.found.invalid, input.found.isLast]")
    it.tally.equal(told, [True, 3000000, True], "3 MB of invalid bytes")
    it.browser.put_files("#file-again", [log])
    size = os.path.getsize(log)
    told = it.ask(f"await until(() => input.size === {size}); await settled(); await frame(); return [text('say').replace(/\\s+/g, ' '), guesses()[0][0], input.found.line, $('strip').hidden, $('copy-text').disabled, chosen()[0]]")
    first = len(line) * 60000 + len(b"worker-7 cr")
    it.tally.equal(told, [f"360 of {size:,} bytes are not UTF-8. The first is E8 at offset {first:,}: è in Windows-1252.", "Best guess: UTF-8 with 120 bytes of Windows-1252", 360121, False, True, str(first)], "a file of 20 MB")
    told = it.ask(f"await choose({size - 1}); await until(() => chosen()[0] === '{size - 1}'); return [chosen()[2], cells().length > 10]")
    it.tally.equal(told, [f"Offset {size - 1:,}", True], "the end of the file is read and drawn")
    told = it.ask("const made = await helper.ask('repair', { form: 0, how: 'mixed', source: input.source.blob }, () => {}); return [made.size, (await made.text()).includes('\\ufffd x'), await helper.isReady]")
    it.tally.equal(told, [size + 120 + 120, True, True], "the repaired file, made by the worker")


# Bare checks of layout: what a first screen shows, and whether anything is wider than the screen.
def test_layout(it):
    for size in (WIDE, NARROW, LEAST):
        it.open("", size)
        for name in ("", "log", "cut emoji", "emoji"):
            if name:
                it.ask(f"for (const it of $('examples').querySelectorAll('[hidden]')) it.hidden = false; await example({name!r})")
            it.tally.equal(it.ask("return document.documentElement.scrollWidth <= innerWidth"), True, f"nothing is wider than {size[0]}, {name}")
            if size != LEAST and name != "emoji":
                told = it.ask("scrollTo(0, 0); await frame(); const seen = (e) => { const it = e?.getBoundingClientRect(); return Boolean(it && it.top >= 0 && it.bottom <= innerHeight); }; return [seen($('say')), seen(document.querySelector('#guess li')), seen(document.querySelector('#grid .chosen')), seen(document.querySelector('.prob'))]")
                it.tally.equal(told[:2] if size == NARROW else told, [True] * (2 if size == NARROW else 4), f"the first screen at {size[0]}, {name or 'first'}")
    it.open("", WIDE)
    it.ask(f"await paste({json.dumps(DUMP)})")
    told = it.ask("return [performance.getEntriesByType('resource').map((it) => new URL(it.name)).filter((it) => it.origin !== location.origin).length, performance.getEntriesByType('resource').filter((it) => it.name.endsWith('.js')).length]")
    it.tally.equal(told, [0, 1], "requests that leave the page, and scripts")
    it.tally.equal(it.browser.errors(), [], "errors in the console")


# How much two colours differ, as WCAG counts it, and the colour under an element.
RATIO = """
    const parse = (c) => c.match(/[\\d.]+/g).map(Number), light = (c) => c.slice(0, 3).map((v) => (v /= 255) <= .04045 ? v / 12.92 : ((v + .055) / 1.055) ** 2.4)
        .reduce((sum, v, i) => sum + v * [.2126, .7152, .0722][i], 0);
    const stripes = (e) => (getComputedStyle(e).backgroundImage.match(/rgba?\\([^)]*\\)/g) ?? []).map(parse).filter((c) => c.length < 4 || c[3]);
    const under = (e) => { for (; e; e = e.parentElement) { const s = stripes(e), c = parse(getComputedStyle(e).backgroundColor); if (s.length) return s; if (c.length < 4 || c[3]) return [c]; } return [[255, 255, 255]]; };
    const ratio = (front, backs) => Math.min(...backs.map((back) => { const [a, b] = [light(parse(front)), light(back)]; return (Math.max(a, b) + .05) / (Math.min(a, b) + .05); }));
"""
CONTRAST = f"""{RATIO}
    const texts = document.createTreeWalker(document.body, NodeFilter.SHOW_TEXT), found = new Set(document.querySelectorAll('input:not([type=range], [type=file], [type=checkbox]), textarea, select'));
    for (let node; (node = texts.nextNode());) if (node.data.trim() && !node.parentElement.closest('option, script, style, .out, .taken')) found.add(node.parentElement);
    const low = [...found].filter((e) => e.getClientRects().length).map((e) => [e.className || e.id || e.tagName, ratio(getComputedStyle(e).color, under(e))]).filter((it) => it[1] < 4.5);
    const edges = [...document.querySelectorAll('button:not(.t, :disabled), select, textarea, .p.x')].filter((e) => e.getClientRects().length).map((e) => [e.id || e.className, ratio(getComputedStyle(e).borderTopColor, under(e.parentElement))]).filter((it) => it[1] < 3 );
    return [...low, ...edges];
"""
RULES = """
    const seen = (e) => e.getClientRects().length && getComputedStyle(e).visibility === 'visible', all = (selector) => [...document.querySelectorAll(selector)].filter(seen), wrong = [];
    const name = (e) => e.getAttribute('aria-label') || (e.getAttribute('aria-labelledby') ?? '').split(' ').map((it) => $(it)?.textContent ?? '').join(' ').trim() || [...(e.labels ?? [])].map((it) => it.textContent).join(' ').trim() || e.alt || e.textContent.trim() || e.title;
    const say = (rule, listed) => listed.length && wrong.push(`${rule}: ${listed.slice(0, 4).map((e) => e.outerHTML?.slice(0, 90) ?? e).join(' | ')}`);
    say('document-title', document.title ? [] : [document.head]); say('html-has-lang', document.documentElement.lang ? [] : [document.documentElement]);
    say('names of controls', all('button, input, select, textarea, a[href], summary, [role=listbox], [role=option], progress').filter((e) => !name(e)));
    say('image-alt', all('img').filter((e) => !e.hasAttribute('alt')));
    const ids = [...document.querySelectorAll('[id]')].map((e) => e.id); say('duplicate-id', ids.filter((it, i) => ids.indexOf(it) !== i));
    for (const attribute of ['aria-labelledby', 'aria-describedby', 'aria-activedescendant', 'for']) say(`${attribute} names what is there`, [...document.querySelectorAll(`[${attribute}]`)].filter((e) => e.getAttribute(attribute).split(' ').some((it) => !$(it))));
    const levels = all('h1, h2, h3, h4').map((e) => Number(e.tagName[1])); say('heading-order', levels.filter((it, i) => i && it > levels[i - 1] + 1)); say('one h1', levels.filter((it) => it === 1).length === 1 ? [] : [document.body]);
    say('landmark-one-main', all('main').length === 1 ? [] : [document.body]);
    say('tabindex', all('[tabindex]').filter((e) => e.tabIndex > 0)); say('aria-hidden-focus', all('[aria-hidden=true] button, [aria-hidden=true] a, [aria-hidden=true] input'));
    say('list', all('ul, ol').filter((e) => [...e.children].some((it) => it.tagName !== 'LI'))); say('th scope', all('th').filter((e) => !e.scope && !e.closest('.table')));
    const least = innerWidth < 640 ? 27.5 : 23.5;
    say('target-size', all('button, select, textarea, input:not(.out), summary, label.button, nav a').filter((e) => { const box = e.getBoundingClientRect(); return box.height < least || box.width < 23.5; }));
    say('scrollable-region-focusable', all('*').filter((e) => e !== document.documentElement && e !== document.body && e.scrollHeight > e.clientHeight + 4 && /auto|scroll/.test(getComputedStyle(e).overflowY) && e.tabIndex < 0 && !e.querySelector('[tabindex="0"], a, button, input')));
    say('button in form has a type', all('button').filter((e) => !e.hasAttribute('type') && !e.closest('form')));
    return wrong;
"""
SHOWN = {"first": "", "dump": f"await paste({json.dumps(DUMP)})", "log": "await example('log')", "wrong": "await paste('48 65 zz 66')", "explored": f"await paste({json.dumps(DUMP)}); $('explore').open = true; $('front').click(); await frame()"}


def test_rules(it):
    """Contrast, and the main rules of axe-core, which Debian does not have, by hand, in each state."""
    for size in (WIDE, NARROW):
        it.open("", size)
        for state, script in SHOWN.items():
            it.ask(f"{script}; await frame()")
            it.tally.equal(it.ask(CONTRAST), [], f"low contrast at {size[0]}, {state}")
            it.tally.equal(it.ask(RULES), [], f"rules at {size[0]}, {state}")


def test_keyboard(it):
    """The order of Tab, and that each stop shows the focus."""
    it.open("", WIDE)
    it.ask("document.activeElement?.blur(); scrollTo(0, 0)")
    names = []
    for _ in range(32):
        it.browser.keys("Tab")
        names.append(it.ask("const e = document.activeElement; return e === document.body ? '' : e.id || (e.classList.contains('skip') ? 'skip' : e.getAttribute('aria-label') || e.textContent)"))
    wanted = ["skip", "skip", "The rule", "copy-text", "copy-link", "In use: UTF-8 with a byte of Windows-1252", "as", "box", "Latin-1", "More examples", "offset", "grid", "before", "next", "save-csv", "list"]
    at = [names.index(one) if one in names else -1 for one in wanted]
    it.tally.add(at == sorted(at) and -1 not in at, f"the order of Tab: {names}")
    it.ask("$('grid').focus()")
    it.tally.add(it.ask("const rules = [...document.styleSheets[0].cssRules].map((it) => it.cssText).join(''); return /:focus-visible[^}]*outline: (?:3px|.*3px)/.test(rules)"), "the focus is shown")


# The states whose screenshots are stored: their size, their look and their script.
STATES = {"1-first": (WIDE, "light", SHOWN["first"]), "2-dump": (WIDE, "light", SHOWN["dump"]), "3-log": (WIDE, "light", SHOWN["log"]), "4-phone-dark": (NARROW, "dark", SHOWN["dump"])}
# The share of points that may differ: fonts differ by machine.
TOLERANCE = 0.2


def test_shots(it):
    for name, (size, look, script) in STATES.items():
        if look != it.look:
            continue
        it.open("", size)
        it.ask(f"{script}; document.activeElement?.blur(); scrollTo(0, 0); await until(() => ![...document.querySelectorAll('.flash')].some((it) => it.getAnimations().length)); await frame()")
        it.shoot(name)
        if it.browser.name == "chromium":
            compare(it, name)


def compare(it, name):
    try:
        from PIL import Image, ImageChops
    except ImportError:
        return print("page/check: left out: screenshots are not compared: python3-pil is not there", flush=True)
    if not os.path.exists(f"{it.stored}/{name}.png"):
        return print(f"page/check: left out: page/shots/{name}.png is not there to compare with", flush=True)
    one, other = (Image.open(path).convert("L") for path in (f"{it.shots}/chromium-{name}.png", f"{it.stored}/{name}.png"))
    share = 1.0 if one.size != other.size else sum(ImageChops.difference(one, other).point(lambda v: 255 if v > 48 else 0).histogram()[255:]) / (one.size[0] * one.size[1])
    if share > 0.002:
        print(f"page/check: the screenshot {name} differs from page/shots/{name}.png at {100 * share:.1f} % of its points", flush=True)
    it.tally.add(share <= TOLERANCE, f"the screenshot {name} differs at {100 * share:.0f} % of its points")


def test_one_file(it):
    """The page as one file, opened without a server."""
    shutil.copy(f"{it.out}/noddychest.html", f"{it.folder}/alone.html")
    it.browser.go(f"file://{it.folder}/alone.html#hex=41ff")
    it.tally.equal(it.ask("return until(() => document.documentElement.dataset.ready === 'yes')"), True, "the page as one file is ready")
    told = it.ask("""const first = text('say'); await dropFiles([['many', ofHex('41ff'.repeat(300000))]]); await until(() => input.size === 600000); await settled();
        return [first.replace(/\\s+/g, ' '), input.found.invalid, await helper.isReady, performance.getEntriesByType('resource').filter((it) => !/^(data|blob):/.test(it.name)).length]""")
    it.tally.equal(told, ["1 of 2 bytes is not UTF-8. It is FF at offset 1: never in UTF-8.", 300000, True, 0], "what it does, with a worker, and without a request")
    it.tally.equal(it.browser.errors(), [], "errors in the console")


def test_trouble(it):
    """No module; no script; and what is pasted before the page is ready."""
    it.browser.go(f"{it.root}/without/")
    it.tally.add("The decoder did not load" in it.ask("await until(() => !$('trouble-part').hidden); return text('trouble-part')"), "no module")
    it.browser.errors()
    it.browser.go(f"{it.root}/blank.html")
    told = it.ask(f"""const inner = document.createElement('iframe'); inner.sandbox = 'allow-same-origin'; inner.width = 400; inner.height = 600; inner.src = '{it.address}';
        document.body.append(inner); await new Promise((done) => inner.onload = done); return inner.contentDocument.querySelector('noscript').textContent.includes('needs JavaScript') || inner.contentDocument.querySelector('.trouble').textContent""")
    it.tally.add(told, "without scripts")
    it.browser.errors()


def test_forced(it):
    it.open("#hex=41e28242c3a9")
    it.tally.equal(it.ask("return matchMedia('(forced-colors: active)').matches"), True, "colours are forced")
    told = it.ask("const style = (it) => getComputedStyle(document.querySelector(it)); return [style('#grid .x').borderTopStyle, style('#grid .c').borderTopStyle, style('#grid .chosen').outlineStyle, style('#list [aria-current]').outlineStyle]")
    it.tally.equal(told, ["dashed", "solid", "solid", "solid"], "what is invalid, long and chosen under forced colours")
    it.shoot("forced")


def module(test):
    """A test of the modules, at the page."""
    @functools.wraps(test)
    def at_page(it):
        it.open()
        test(it)
    return at_page


def test_documents(it):
    """Documents are HTML, and what they link to is there."""
    if not it.has_documents:
        return
    anchors.folder = it.out
    names = [name for name in sorted(os.listdir(it.out)) if name.endswith(".html") and name not in ("index.html", "noddychest.html")]
    it.tally.add({"readme.html", "the-cut.html", "definitions.html", "packages.html"} <= set(names), f"documents: {names}")
    for name in names:
        for size in (WIDE, NARROW) if name == "readme.html" else (WIDE,):
            it.browser.size(*size)
            it.browser.go(it.address + name)
            told = it.ask("""
                const links = [...document.querySelectorAll('a[href]')].map((e) => e.getAttribute('href')).filter((it) => !/^[a-z]+:/.test(it));
                return [document.querySelectorAll('h1').length, document.querySelectorAll('h2, li, p').length > 1, links, document.documentElement.scrollWidth <= innerWidth, [...document.images].every((e) => e.complete && e.naturalWidth)]""")
            lost = [link for link in told[2] if not is_anchor(name, link)]
            it.tally.equal([told[0], told[1], lost, told[3], told[4]], [1, True, [], True, True], f"{name} at {size[0]}")
            it.tally.equal(it.ask(RULES), [], f"rules of {name}")
            if name == "readme.html":
                it.shoot(f"readme-{size[0]}")
    it.tally.equal(it.browser.errors(), [], "errors in the console")


@functools.cache
def anchors(name):
    with open(f"{anchors.folder}/{name}", encoding="utf-8") as file:
        return set(re.findall(r'\bid="([^"]*)"', file.read()))


def is_anchor(name, link):
    """Whether an address in a document leads to a page that is there, and a place in it."""
    path, _, part = urllib.parse.unquote(link).partition("#")
    return os.path.isfile(f"{anchors.folder}/{path or name}") and (not part or part in anchors(path or name))


def test_package(it):
    """The package for npm, from a server."""
    it.browser.go(f"{it.root}/blank.html")
    told = it.ask("""const made = await import('/js/web.js'); const bytes = Uint8Array.of(0x68, 0xc3, 0xa9, 0xe2, 0x82, 0x41);
        const stream = new Response(bytes).body.pipeThrough(made.recoderStream('utf-8', 'utf-16be'));
        return [[...made.pieces(bytes)].map((it) => it.error ?? it.char), made.firstFault(bytes).offset, [...made.recode(bytes, 'utf-8', 'utf-16le')].length, (await new Response(stream).arrayBuffer()).byteLength]""")
    it.tally.equal(told, [["h", "é", STOPS, CONTINUES, "A"], 3, 10, 10], "js/web.js")
    it.tally.equal(it.browser.errors(), [], "errors in the console")


def test_workers(it):
    """The package for npm in a worker, which answers messages that were sent before it was loaded, and in a service worker."""
    it.browser.go(f"{it.root}/blank.html")
    told = it.ask("""const worker = new Worker('/workers/module.js', { type: 'module' }), heard = [];
        worker.onmessage = ({ data }) => heard.push(data); worker.onerror = ({ message }) => heard.push(message);
        for (let at = 0; at < 5; at++) worker.postMessage(Uint8Array.from({ length: at + 1 }, (_, i) => i === at ? 0xff : 0x41));
        await until(() => heard.length === 5); worker.terminate(); return heard""")
    it.tally.equal(told, [0, 1, 2, 3, 4], "a worker")
    told = it.ask("""const { installing, waiting, active } = await navigator.serviceWorker.register('/workers/service.js', { type: 'module' });
        const [worker, { port1, port2 }] = [installing ?? waiting ?? active, new MessageChannel()];
        const heard = new Promise((done) => (port1.onmessage = ({ data }) => done(data)));
        worker.postMessage(Uint8Array.of(0x41, 0xc3, 0xa9, 0xff), [port2]);
        const answer = await Promise.race([heard, wait(20000)]);
        for (const it of await navigator.serviceWorker.getRegistrations()) await it.unregister();
        return answer""")
    it.tally.equal(told, 3, "a service worker")
    it.tally.equal(it.browser.errors(), [], "errors in the console")


LIGHT = [test_findings, test_forms, test_places, test_grid, test_copies, test_hostile, test_files, test_layout, test_rules, test_keyboard, test_shots, test_documents, test_one_file, test_trouble, test_package, test_workers, *(module(one) for one in module_tests.ALL)]
BY_LOOK = {"light": LIGHT, "dark": [test_rules, test_shots], "forced": [test_forced]}
