import assert from "node:assert/strict";
import test from "node:test";
import { FaultError, Recoder, encodingOf, firstFault, isValid, pieces, recode, recoderStream } from "noddychest";
import { chances, damaged, hexOf, ofHex, rows } from "./help.js";

const NAMES = { utf8: "utf-8", utf16le: "utf-16le", utf16be: "utf-16be" };
const FORMS = Object.values(NAMES);

test("a recoder counts what it replaced", () => {
    for (const errors of ["replace", "lossy", "drop"]) {
        const recoder = new Recoder("utf-8", "utf-16le", { errors });
        const counts = ["61c3", "ff62", "efbfbd", "e282"].map((part) => {
            recoder.feed(ofHex(part));
            return recoder.replaced;
        });
        // (C3 and FF are invalid, EF BF BD is U+FFFD, and E2 82, one maximal subpart, waits for the end)
        assert.deepEqual(counts, [0, 2, 2, 2]);
        recoder.finish();
        assert.equal(recoder.replaced, 4);
    }
    const strict = new Recoder("utf-8", "utf-8", { fatal: true });
    assert.throws(() => strict.feed(ofHex("ff")), FaultError);
    assert.equal(strict.replaced, 0);
});

test("the stored recodings", () => {
    const listed = rows("recode.txt");
    assert.ok(listed.length > 100);
    for (const [forms, given, made] of listed) assert.equal(hexOf(recode(ofHex(given), ...forms.split(" ").map((it) => NAMES[it]))), made);
});

test("valid text: as TextDecoder and TextEncoder have it", () => {
    const text = "Grüße, Привет, 你好 😀\n".repeat(9000);
    const utf8 = new TextEncoder().encode(text);
    const le = recode(utf8, "utf-8", "utf-16le");
    assert.equal(new TextDecoder("utf-16le").decode(le), text);
    assert.equal(Buffer.from(recode(le, "utf-16le", "utf-16be")).swap16().toString("hex"), hexOf(le));
    assert.deepEqual(recode(le, "UTF-16LE", "UTF-8"), utf8);
});

test("however it is cut into parts, what comes out is the same", () => {
    const chance = chances(3);
    for (let i = 0; i < 600; i++) {
        const [from, to] = [FORMS[chance(3)], FORMS[chance(3)]];
        const bytes = damaged(chance, chance(60));
        const [whole, recoder, made] = [recode(bytes, from, to), new Recoder(from, to), []];
        for (let at = 0; at < bytes.length; ) {
            const len = chance(5);
            made.push(...recoder.feed(bytes.subarray(at, at + len)));
            at += len;
        }
        made.push(...recoder.finish());
        assert.deepEqual(made, [...whole]);
        if (to === "utf-8") assert.ok(isValid(whole));
    }
});

test("a long input in one call and in many", () => {
    const bytes = damaged(chances(4), 400001);
    const recoder = new Recoder("utf-8", "utf-16be");
    const parts = [];
    for (let at = 0; at < bytes.length; at += 70001) parts.push(recoder.feed(bytes.subarray(at, at + 70001)));
    assert.equal(hexOf(Buffer.concat([...parts, recoder.finish()])), hexOf(recode(bytes, "utf-8", "utf-16be")));
});

test("more than the module makes at once: as TextDecoder and Buffer have it, and where a strict one stops", () => {
    for (const size of [(2 << 20) - 1, 2 << 20, (2 << 20) + 1, 5_000_011]) {
        const bytes = new TextEncoder().encode("plain text, Grüße, 天地 😀 ".repeat(1 + size / 30)).subarray(0, size);
        const text = new TextDecoder().decode(bytes);
        const units = Buffer.from(text, "utf16le");
        assert.ok(units.equals(recode(bytes, "utf-8", "utf-16le", { errors: "lossy" })), `${size}`);
        assert.ok(units.swap16().equals(recode(bytes, "utf-8", "utf-16be", { errors: "lossy" })), `${size}`);
        assert.ok(Buffer.from(text).equals(recode(units, "utf-16be", "utf-8", { errors: "lossy" })), `${size}`);
        const spoiled = new Uint8Array(size).fill(0x61);
        spoiled[size - 3] = 0xff;
        assert.equal(Buffer.from(recode(spoiled, "utf-8", "utf-16le").buffer).length, 2 * size);
        assert.throws(() => recode(spoiled, "utf-8", "utf-16le", { errors: "strict" }), { offset: size - 3 });
        spoiled[size - 3] = 0x61;
        spoiled[size - 1] = 0xe2;
        assert.throws(() => recode(spoiled, "utf-8", "utf-16le", { errors: "strict" }), { offset: size - 1, error: "TooFewBytes" });
    }
});

test("what was made before does not change", () => {
    const one = recode(ofHex("41ff"), "utf-8", "utf-16le");
    const other = recode(ofHex("ff42"), "utf-8", "utf-16le");
    assert.deepEqual([hexOf(one), hexOf(other), one.buffer === other.buffer, one.buffer.byteLength], ["4100fdff", "fdff4200", false, 4]);
});

test("recoders at the same time do not disturb each other", () => {
    const [one, other] = [new Recoder("utf-8", "utf-8"), new Recoder("utf-16be", "utf-8")];
    const made = [one.feed(ofHex("e282")), other.feed(ofHex("d83d")), one.feed(ofHex("ac")), other.feed(ofHex("de00")), one.finish(), other.finish()];
    assert.deepEqual(made.map(hexOf), ["", "", "e282ac", "f09f9880", "", ""]);
});

test("what is held at the end is replaced, and once", () => {
    const recoder = new Recoder("utf-8", "utf-8");
    assert.equal(hexOf(recoder.feed(ofHex("41f09f98"))), "41");
    assert.equal(hexOf(recoder.finish()), "efbfbd".repeat(3));
    assert.equal(hexOf(recoder.finish()), "");
});

test("a stream", { skip: typeof TransformStream === "undefined" && "this node has no TransformStream" }, async () => {
    const given = ["41e2", "82", "ac42ff"].map(ofHex);
    const from = new ReadableStream({ start: (it) => (given.forEach((part) => it.enqueue(part)), it.close()) });
    const made = [];
    for await (const part of from.pipeThrough(recoderStream("utf-8", "utf-16be"))) made.push(...part);
    assert.equal(hexOf(made), "004120ac0042fffd");
});

// What a call throws, or gives.
function told(call) {
    try {
        return hexOf(call());
    } catch (error) {
        assert.ok(error instanceof FaultError && error instanceof TypeError, String(error));
        return [error.offset, error.length, error.error];
    }
}

test("fatal: the first invalid byte throws, however the text is cut", () => {
    const chance = chances(6);
    for (let i = 0; i < 1500; i++) {
        const bytes = damaged(chance, chance(14));
        const to = FORMS[chance(3)];
        const found = firstFault(bytes);
        const want = found ? [found.offset, 1, found.error] : hexOf(recode(bytes, "utf-8", to));
        assert.deepEqual(told(() => recode(bytes, "utf-8", to, { fatal: true })), want);
        for (let cut = 0; cut <= bytes.length; cut++) {
            const recoder = new Recoder("utf-8", to, { fatal: true });
            const have = told(() => Buffer.concat([recoder.feed(bytes.subarray(0, cut)), recoder.feed(bytes.subarray(cut)), recoder.finish()]));
            assert.deepEqual(have, want, `${hexOf(bytes)} cut at ${cut}`);
        }
    }
});

test("fatal: as TextDecoder refuses and takes it", () => {
    const chance = chances(7);
    for (let i = 0; i < 3000; i++) {
        const [label, bytes] = [["utf-8", "utf-16le"][chance(2)], damaged(chance, chance(9))];
        const decoder = new TextDecoder(label, { fatal: true, ignoreBOM: true });
        const want = (() => {
            try {
                return decoder.decode(bytes);
            } catch {
                return null;
            }
        })();
        const have = told(() => recode(bytes, label, "utf-8", { fatal: true }));
        assert.equal(typeof have === "string" ? Buffer.from(have, "hex").toString() : null, want, `${label} ${hexOf(bytes)}`);
    }
});

test("fatal: UTF-16, and far into a long text", () => {
    const fatal = { fatal: true };
    for (const [given, want] of [
        ["410000dc", [2, 2, "UnexpectedTrailingSurrogate"]],
        ["00d84100", [0, 2, "UnmatchedLeadingSurrogate"]],
        ["410000d8", [2, 2, "Incomplete"]],
        ["410041", [2, 1, "Incomplete"]],
    ]) assert.deepEqual(told(() => recode(ofHex(given), "utf-16le", "utf-8", fatal)), want);
    const text = new TextEncoder().encode("é".repeat(100000) + "!");
    const bytes = Uint8Array.from([...text, 0xff, 0x41]);
    assert.deepEqual(told(() => recode(bytes, "utf-8", "utf-16be", fatal)), [text.length, 1, "NonUtf8Byte"]);
    assert.equal([...pieces(bytes.subarray(text.length))][0].error, "NonUtf8Byte");
});

test("fatal: a recoder that threw is as it was before", () => {
    const recoder = new Recoder("utf-8", "utf-16be", { fatal: true });
    assert.equal(hexOf(recoder.feed(ofHex("61c3"))), "0061");
    for (let i = 0; i < 2; i++) assert.deepEqual(told(() => recoder.feed(ofHex("62"))), [1, 1, "InterruptedSequence"]);
    assert.deepEqual(told(() => recoder.finish()), [1, 1, "TooFewBytes"]);
    assert.equal(hexOf(recoder.feed(ofHex("a9"))) + hexOf(recoder.finish()), "00e9");
    assert.throws(() => recode(ofHex("61ff"), "utf-8", "utf-8", { fatal: true }), { name: "FaultError", message: "noddychest: invalid UTF-8 at offset 1: NonUtf8Byte" });
});

test("encodings by the labels of the Encoding Standard, and by those of the programs, in any case", () => {
    const labels = ["utf-8", "utf8", "unicode-1-1-utf-8", "unicode11utf8", "unicode20utf8", "x-unicode20utf8",
        "utf-16le", "utf-16", "unicode", "unicodefeff", "csunicode", "iso-10646-ucs-2", "ucs-2", "utf-16be", "unicodefffe"];
    const given = ofHex("e9000041c3a9");
    for (const label of labels) {
        for (const it of [label, label.toUpperCase(), ` ${label}\n`]) {
            const { encoding } = new TextDecoder(it);
            assert.equal(hexOf(recode(given, it, "UTF-8")), hexOf(recode(given, encoding, "utf-8")), it);
            assert.equal(hexOf(recode(given, "utf8", it)), hexOf(recode(given, "utf-8", encoding)), it);
        }
    }
    for (const [name, label] of Object.entries(NAMES)) assert.equal(hexOf(recode(given, "utf-8", name.toUpperCase())), hexOf(recode(given, "utf-8", label)));
});

test("unknown encodings and strings", () => {
    const told = (label) => ({ name: "RangeError", message: `noddychest: the encoding ${label} is not one of utf-8, utf-16le, utf-16be` });
    assert.throws(() => recode(new Uint8Array(1), "latin1", "utf-8"), told("latin1"));
    for (const it of ["utf-32", "", "utf 8", "utf-8\u00a0", "utf\u20118", null, undefined, 8, {}]) assert.throws(() => new Recoder("utf-8", it), told(String(it)));
    assert.throws(() => new Recoder(Symbol("utf-8"), "utf-8"), told("Symbol(utf-8)"));
    assert.throws(() => recode("text", "utf-8", "utf-8"), TypeError);
    assert.throws(() => new Recoder("utf-8", "utf-8").feed("text"), TypeError);
});

test("encodingOf: of each label what TextDecoder makes of it, and null of other labels", () => {
    const labels = ["utf-8", "utf8", "unicode-1-1-utf-8", "unicode11utf8", "unicode20utf8", "x-unicode20utf8", "utf-16le", "utf-16", "unicode", "unicodefeff", "csunicode", "iso-10646-ucs-2", "ucs-2", "utf-16be", "unicodefffe"];
    for (const it of labels) {
        const { encoding } = new TextDecoder(it);
        for (const label of [it, it.toUpperCase(), ` ${it}\t\n\f\r`]) assert.equal(encodingOf(label), encoding, label);
    }
    assert.deepEqual(["utf16le", "UTF16BE"].map(encodingOf), ["utf-16le", "utf-16be"]);
    for (const it of ["latin1", "ascii", "windows-1252", "utf-7", "utf-32", "gb18030", "", " ", "utf 8", "utf-8\0", "\u00a0utf-8", "auto", "__proto__", "constructor", "0", "-1"]) assert.equal(encodingOf(it), null, it);
    for (const it of [undefined, null, 0, {}, [], Symbol("utf-8")]) assert.equal(encodingOf(it), null);
    assert.throws(() => encodingOf(new Uint8Array(1)), TypeError);
});

test("a label with much white space inside takes no quadratic time", () => {
    const [blanks, began] = [" ".repeat(100_000), Date.now()];
    for (const it of [`utf-8${blanks}x`, `${blanks}utf-8${blanks}x${blanks}`, blanks]) assert.equal(encodingOf(it), null);
    assert.equal(encodingOf(`${blanks}utf-8${blanks}`), "utf-8");
    assert.throws(() => recode(new Uint8Array(1), `utf-8${blanks}x`, "utf-8"), RangeError);
    assert.ok(Date.now() - began < 3000);
});
