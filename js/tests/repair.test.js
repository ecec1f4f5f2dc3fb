// What invalid bytes become by a table, compared with the text of that table.
import assert from "node:assert/strict";
import { readFileSync } from "node:fs";
import test from "node:test";
import vm from "node:vm";
import { MessageChannel } from "node:worker_threads";
import { Recoder, decode, isValid, recode, recoderStream, streamText, textStream } from "noddychest";
import { Codec, DROP, LATIN_1, LOSSY, REPLACE, UTF8, WINDOWS_1252, hasVectors, joined, repairOf } from "../codec.js";
import { chances, damaged, divided, hexOf, ofHex } from "./help.js";

const FORMS = ["utf-8", "utf-16le", "utf-16be"];
const BYTES = Array.from({ length: 128 }, (_, at) => 0x80 + at);
// The bytes from 80 to 9F in Windows-1252, as Python's codec cp1252 decodes them. It decodes no 81, 8D, 8F, 90 and 9D, which the Encoding Standard
// takes for the control characters of these numbers. From A0 on a byte is the character of its number.
const SIGNS = "€\u0081‚ƒ„…†‡ˆ‰Š‹Œ\u008dŽ\u008f\u0090‘’“”•–—˜™š›œ\u009džŸ";
const cyrillic = (byte) => (byte >= 0xc0 ? String.fromCharCode(0x410 + byte - 0xc0) : byte === 0xb9 ? "№" : "");
const HIGH = "\uffff";
const mixed = (byte) => ["", "?", "é", HIGH, "\0", "\ufffd"][byte % 6];
// Ways to say each table, what it has for a byte, and what it has for a lone surrogate or an odd last byte.
const TABLES = [
    { ways: ["drop"], of: () => "", unit: "" },
    { ways: ["windows-1252", new String("windows-1252")], of: (byte) => SIGNS[byte - 0x80] ?? String.fromCharCode(byte), unit: "\ufffd" },
    { ways: ["latin-1", (byte) => byte, Uint8Array.from(BYTES), Uint16Array.from(BYTES), new Uint32Array(BYTES), Buffer.from(BYTES), new Map(BYTES.map((it) => [it, it])), Object.fromEntries(BYTES.map((it) => [it, it]))],
        of: (byte) => String.fromCharCode(byte), unit: "\ufffd" },
    { ways: [cyrillic, BYTES.map(cyrillic), new Map(BYTES.map((it) => [it, cyrillic(it)])), Object.fromEntries(BYTES.map((it) => [it, cyrillic(it)])), { __proto__: null, ...BYTES.map(cyrillic).reduce((all, it, at) => ({ ...all, [0x80 + at]: it || null }), {}) }, (byte) => new TextDecoder("windows-1251").decode(Uint8Array.of(byte)).replace(/[^А-я№]/, "")],
        of: cyrillic, unit: "\ufffd" },
    { ways: [mixed, new Map(BYTES.map((it) => [it, mixed(it) || null])), vm.runInNewContext("new Map(all)", { all: BYTES.map((it) => [it, mixed(it)]) }), vm.runInNewContext("Array.from(all)", { all: BYTES.map(mixed) })],
        of: mixed, unit: "\ufffd" },
    { ways: [() => null, () => "", BYTES.map(() => null)], of: () => "", unit: "\ufffd" },
    { ways: [{}, [], new Map(), new Uint8Array(0), () => undefined, Array(128)], of: () => "\ufffd", unit: "\ufffd" },
    { ways: [["é"], Uint8Array.of(0xe9), new Map([[0x80, "é"], [0x41, "B"]]), { 0x80: "é" }, (byte) => ({ 128: "é" })[byte]], of: (byte) => (byte === 0x80 ? "é" : "\ufffd"), unit: "\ufffd" },
];
const one = (array, chance) => array[chance(array.length)];

// The pieces of UTF-8, each as its character or its invalid byte: by the shortest code that TextDecoder takes.
function* split8(bytes) {
    for (let at = 0; at < bytes.length; ) {
        let len = 0;
        for (let n = 1; n <= 4 && !len; n++) {
            try {
                if (at + n <= bytes.length && new TextDecoder("utf-8", { fatal: true, ignoreBOM: true }).decode(bytes.subarray(at, at + n))) len = n;
            } catch {
                continue;
            }
        }
        yield len ? { text: new TextDecoder("utf-8", { ignoreBOM: true }).decode(bytes.subarray(at, at + len)) } : { byte: bytes[at] };
        at += len || 1;
    }
}

function* split16(bytes, isBig) {
    const view = new DataView(bytes.buffer, bytes.byteOffset, bytes.length);
    const whole = bytes.length - (bytes.length % 2);
    const unit = (at) => (at < whole ? view.getUint16(at, !isBig) : 0);
    for (let at = 0; at < whole; at += 2) {
        const [first, second] = [unit(at), unit(at + 2)];
        if (first < 0xd800 || first > 0xdfff) yield { text: String.fromCharCode(first) };
        else if (first < 0xdc00 && second >= 0xdc00 && second <= 0xdfff) yield { text: String.fromCharCode(first, second), skip: (at += 2) };
        else yield { isUnit: true };
    }
    if (whole < bytes.length) yield { isUnit: true };
}

function wanted(bytes, encoding, { of, unit }) {
    const found = [...(encoding === "utf-8" ? split8(bytes) : split16(bytes, encoding === "utf-16be"))];
    return { text: found.map((it) => it.text ?? (it.isUnit ? unit : of(it.byte))).join(""), count: found.filter((it) => it.text === undefined).length };
}

const encoded = (text, encoding) => {
    const bytes = Buffer.from(text, encoding === "utf-8" ? "utf8" : "utf16le");
    return encoding === "utf-16be" ? bytes.swap16() : bytes;
};
const all = async (given) => {
    const found = [];
    for await (const it of given) found.push(it);
    return found;
};

test("each byte becomes what its table has, in each way to say it", () => {
    for (const table of TABLES) {
        for (const errors of table.ways) {
            for (const byte of BYTES) {
                const { text, faults } = decode(Uint8Array.of(byte), "utf-8", { errors });
                assert.deepEqual([text, faults.length], [table.of(byte), 1]);
            }
            const bytes = Uint8Array.from(BYTES.flatMap((it) => [0x61, it]));
            assert.equal(decode(bytes, "utf-8", { errors }).text, BYTES.map((it) => `a${table.of(it)}`).join(""));
        }
    }
});

test("text in mixed encodings", () => {
    const bytes = ofHex("93436166e99420e282ac2031302c20802031302c206e61c3af7665206e61ef76652081");
    assert.equal(decode(bytes, "utf-8", { errors: "windows-1252" }).text, "“Café” € 10, € 10, naïve naïve \u0081");
    assert.equal(decode(bytes, "utf-8", { errors: "latin-1" }).text, "\u0093Café\u0094 € 10, \u0080 10, naïve naïve \u0081");
    assert.equal(decode(bytes, "utf-8", { errors: "drop" }).text, "Caf € 10,  10, naïve nave ");
    assert.equal(decode(ofHex("cff0e8e2e5f22c20d0bcd0b8d180"), "utf-8", { errors: cyrillic }).text, "Привет, мир");
    assert.equal(hexOf(recode(ofHex("e9"), "utf-8", "utf-16be", { errors: { 0xe9: "é" } })), "00e9");
});

test("random damage in random parts, as the reference has it", async () => {
    const chance = chances(61);
    for (let i = 0; i < 1500; i++) {
        const table = one(TABLES, chance);
        const [from, to, errors] = [one(FORMS, chance), one(FORMS, chance), one(table.ways, chance)];
        const bytes = damaged(chance, chance(i % 100 ? 40 : 5000));
        const parts = divided(chance, bytes, i % 100 ? 5 : 3000);
        const { text, count } = wanted(bytes, from, table);
        const told = `${from} ${to} ${hexOf(bytes)}`;
        const want = hexOf(encoded(text, to));
        assert.equal(hexOf(recode(bytes, from, to, { errors })), want, told);
        const recoder = new Recoder(from, to, { errors });
        assert.equal(hexOf(Buffer.concat([...parts.map((it) => recoder.feed(it)), recoder.finish()])), want, told);
        assert.equal(recoder.replaced, count, told);
        const made = decode(bytes, from, { errors });
        assert.equal(made.text, text, told);
        assert.equal(made.faults.length, count);
        const again = decode(encoded(text, "utf-8"), "utf-8", { errors });
        assert.deepEqual([again.text, again.faults], [text, []]);
        if (i % 5) continue;
        const texts = await all(streamText(parts, from, { errors }));
        assert.equal(texts.map((it) => it.text).join(""), text, told);
        assert.equal(texts.flatMap((it) => it.faults).length, count, told);
        if (typeof TransformStream === "undefined") continue;
        const input = () => new ReadableStream({ start: (it) => (parts.forEach((part) => it.enqueue(part)), it.close()) });
        assert.equal(hexOf(Buffer.concat(await all(input().pipeThrough(recoderStream(from, to, { errors }))))), want, told);
        const seen = [];
        assert.equal((await all(input().pipeThrough(textStream(from, { errors, onFault: (it) => seen.push(it) })))).join(""), text, told);
        assert.equal(seen.length, count);
    }
});

test("long input: at the edges of blocks, and where each byte becomes three, or none", () => {
    for (const [errors, sign] of [[() => "€", "€"], ["drop", ""], [() => HIGH, HIGH], [() => null, ""], [{}, "\ufffd"]]) {
        for (const length of [65535, 65536, 65537, 3000000]) {
            const bytes = new Uint8Array(length).fill(0x80);
            assert.ok(Buffer.from(recode(bytes, "utf-8", "utf-8", { errors })).equals(Buffer.from(sign.repeat(length))), `${errors} ${length}`);
        }
        const bytes = Buffer.alloc(1 << 20, "a");
        for (let at = 65530; at < bytes.length - 16; at += 65536) bytes.set(ofHex("e28261e9ff80c3a9"), at + (at % 7));
        const text = bytes.toString("latin1").replace(/Ã©|[^a]/g, (it) => (it.length === 2 ? "é" : sign));
        assert.ok(decode(bytes, "utf-8", { errors }).text === text, String(errors));
        assert.ok(isValid(recode(bytes, "utf-8", "utf-8", { errors })));
    }
});

test("both modules write the same by each table, whole and in parts", () => {
    const names = ["noddychest.wasm", ...(hasVectors() ? ["noddychest-simd.wasm"] : [])];
    const codecs = names.map((name) => new Codec(new WebAssembly.Instance(new WebAssembly.Module(readFileSync(new URL(`../${name}`, import.meta.url)))).exports));
    const chance = chances(62);
    const ways = [DROP, WINDOWS_1252, LATIN_1, repairOf(BYTES.map((it) => mixed(it).codePointAt(0) ?? 0xffffffff))];
    const written = (codec, bytes, mode, to) => {
        const [state, chunks] = [codec.newRecoder(UTF8, to), []];
        codec.feed(state, bytes, chunks, { mode });
        codec.finish(state, chunks, mode);
        return [hexOf(joined(chunks)), codec.replacedBy(state)];
    };
    for (let i = 0; i < 400; i++) {
        const bytes = damaged(chance, chance(300));
        ways.forEach((mode, at) => {
            const { text, count } = wanted(bytes, "utf-8", [TABLES[0], TABLES[1], TABLES[2], TABLES[4]][at]);
            for (const codec of codecs) for (const to of [0, 1, 2]) assert.deepEqual(written(codec, bytes, mode, to), [hexOf(encoded(text, FORMS[to])), count]);
        });
        // (a recoder may be fed in one way and then in another: a table leaves nothing behind)
        const [codec] = codecs;
        assert.deepEqual(written(codec, ofHex("61ff"), one([REPLACE, LOSSY], chance), 0)[0], "61efbfbd");
    }
});

test("a table that is wrong is rejected before anything is read", () => {
    const calls = [(errors) => recode("no bytes", "utf-8", "utf-8", { errors }), (errors) => decode("no bytes", "utf-8", { errors }), (errors) => new Recoder("utf-8", "utf-8", { errors })];
    const rule = (byte) => `noddychest: a table has for the byte ${byte} a character up to U+FFFF, or nothing`;
    const wrong = [
        [() => "😀", "RangeError", `${rule("80")}, and not "😀"`],
        [{ 0xe9: "e\u0301" }, "RangeError", `${rule("E9")}, and not "e\u0301"`],
        [() => "\ud800", "RangeError", `${rule("80")}, and not "\\ud800"`],
        ...[0x10000, 0xd800, 0xdfff, -1, 1.5, NaN, Infinity].map((it) => [() => it, "RangeError", `${rule("80")}, and not ${it}`]),
        [Uint32Array.of(0x41, 0x10000), "RangeError", `${rule("81")}, and not 65536`],
        [new BigUint64Array(1), "TypeError", `${rule("80")}, and no bigint`],
        ...[true, {}, Symbol("é"), 5n, ["é"], Promise.resolve("é")].map((it) => [() => it, "TypeError", `${rule("80")}, and no ${typeof it}`]),
        [Array(129).fill("é"), "RangeError", "noddychest: an array of characters begins with that for the byte 80, and has up to 128, and not 129"],
        [new Uint8Array(256), "RangeError", "noddychest: an array of characters begins with that for the byte 80, and has up to 128, and not 256"],
        [{ é: 0xe9 }, "RangeError", 'noddychest: a table has characters for the bytes 128 to 255, and not for "é"'],
        [{ "0xe9": "é" }, "RangeError", 'noddychest: a table has characters for the bytes 128 to 255, and not for "0xe9"'],
        [{ 256: "é" }, "RangeError", 'noddychest: a table has characters for the bytes 128 to 255, and not for "256"'],
        [new Map([["233", "é"]]), "RangeError", 'noddychest: a table has characters for the bytes 128 to 255, and not for "233"'],
        [new Map([[0xe9n, "é"]]), "RangeError", "noddychest: a table has characters for the bytes 128 to 255, and not for 233"],
        [new Map([[Symbol("e9"), "é"]]), "RangeError", "noddychest: a table has characters for the bytes 128 to 255, and not for Symbol(e9)"],
        ...[new Set([0xe9]), Promise.resolve({}), /é/, new Date(), new DataView(new ArrayBuffer(128)), new ArrayBuffer(128), new Number(1)].map((it) => [it, "TypeError", `noddychest: a table is an object, a Map, an array or a function, and no ${it.constructor.name}`]),
    ];
    for (const call of calls) for (const [errors, name, message] of wrong) assert.throws(() => call(errors), { name, message });
    assert.throws(() => recode(ofHex("ff"), "utf-8", "utf-8", { errors: {}, fatal: true }), { name: "TypeError", message: /fatal is the same as errors: "strict", and here errors is a table/ });
    assert.throws(() => recode("no bytes", "utf-8", "utf-8", { errors: "drop" }), { message: /bytes are a Uint8Array/ });
});

test("each byte is asked for once, in order, before the input is read", () => {
    const calls = [];
    const errors = (...given) => (calls.push(given), "x");
    assert.equal(decode(ofHex("e9ffe9"), "utf-8", { errors }).text, "xxx");
    assert.deepEqual(calls, BYTES.map((it) => [it]));
    const recoder = new Recoder("utf-8", "utf-8", { errors });
    for (let i = 0; i < 3; i++) recoder.feed(ofHex("e9ff"));
    assert.equal(calls.length, 256);
});

test("a table that throws, calls others, or changes meanwhile", () => {
    const own = new Error("of the table");
    const failing = (byte) => {
        if (byte === 0xe0) throw own;
        return "x";
    };
    const bytes = ofHex("61e9");
    for (const errors of [failing, { get 224() { throw own; } }, new Proxy({}, { ownKeys() { throw own; } }), new (class extends Map { get() { throw own; } })()]) {
        assert.throws(() => recode(bytes, "utf-8", "utf-8", { errors }), (it) => it === own);
        assert.equal(decode(bytes).text, "a\ufffd");
    }
    // (inside of a table other calls give what they give elsewhere, and the call around it too)
    const nested = (byte) => decode(Uint8Array.of(0x61, byte), "utf-8", { errors: (it) => (it === byte ? "é" : "z") }).text[1];
    assert.equal(decode(ofHex("61e9ff"), "utf-8", { errors: nested }).text, "aéé");
    const [changing, fixed] = [{ 0xe9: "é" }, BYTES.map(() => "x")];
    const [one, other] = [changing, fixed].map((errors) => new Recoder("utf-8", "utf-8", { errors }));
    changing[0xe9] = "changed";
    fixed.fill("y");
    assert.equal(Buffer.concat([one.feed(ofHex("e961")), one.finish()]).toString(), "éa");
    assert.equal(Buffer.concat([other.feed(ofHex("ff")), other.finish()]).toString(), "x");
    // (a table that takes the input away)
    const taken = new Uint8Array(8).fill(0xe9);
    const taking = () => {
        if (taken.length) {
            const { port1, port2 } = new MessageChannel();
            port1.postMessage(null, [taken.buffer]);
            port1.close();
            port2.close();
        }
        return "x";
    };
    assert.throws(() => decode(taken, "utf-8", { errors: taking }), { name: "TypeError", message: /the bytes are gone/ });
    assert.throws(() => decode(bytes, "utf-8", { errors: taken }), { name: "TypeError", message: /the bytes are gone/ });
});

test("a table has only what is its own", () => {
    for (const name of ["233", "get", "suffix", "repair", "table"]) {
        Object.defineProperty(Object.prototype, name, { value: "z", writable: true, enumerable: false, configurable: true });
        try {
            assert.equal(decode(ofHex("61e9"), "utf-8", { errors: {} }).text, "a\ufffd");
            assert.equal(decode(ofHex("61e9"), "utf-8", { errors: "latin-1" }).text, "aé");
            assert.equal(decode(ofHex("61e9")).text, "a\ufffd");
        } finally {
            delete Object.prototype[name];
        }
    }
});
