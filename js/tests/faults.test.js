// Only invalid bytes, UTF-16, boundaries, counts, maximal subparts and strings with the list of what was wrong.
import assert from "node:assert/strict";
import { readFileSync } from "node:fs";
import test from "node:test";
import { Codec, UTF16LE, UTF8 } from "../codec.js";
import { Ends, FaultError, Recoder, boundaryAfter, boundaryBefore, changedRange, charCount, decode, faults, firstFault, isValid, numberOf, offsetOf, pieces, piecesBack, recode, recodedLength, sentence, shardEnd, streamText } from "noddychest";
import { chances, damaged, hexOf, ofHex } from "./help.js";

const FORMS = ["utf-8", "utf-16le", "utf-16be"];

// The pieces of UTF-16 by hand: [offset, length, character or error].
function unitsOf(bytes, isBig) {
    const found = [];
    const unit = (at) => (at + 1 < bytes.length ? (isBig ? (bytes[at] << 8) | bytes[at + 1] : bytes[at] | (bytes[at + 1] << 8)) : null);
    for (let at = 0; at < bytes.length; ) {
        const [one, two] = [unit(at), unit(at + 2)];
        const [isLead, isPair] = [one >= 0xd800 && one < 0xdc00, two >= 0xdc00 && two < 0xe000];
        if (one === null) found.push([at, 1, "Incomplete"]);
        else if (isLead && isPair) found.push([at, 4, String.fromCharCode(one, two)]);
        else if (isLead) found.push([at, 2, two === null ? "Incomplete" : "UnmatchedLeadingSurrogate"]);
        else if (one >= 0xdc00 && one < 0xe000) found.push([at, 2, "UnexpectedTrailingSurrogate"]);
        else found.push([at, 2, String.fromCharCode(one)]);
        at += found[found.length - 1][1];
    }
    return found;
}

const told = ({ offset, length, char, error }) => [offset, length, char ?? error];

// Bytes in which surrogates are frequent.
function units(chance, len) {
    const found = [];
    while (found.length < len) found.push([0xd8, 0xdb, 0xdc, 0xdf, 0x00, 0x41, 0xe0, 0xff][chance(8)]);
    return Uint8Array.from(found);
}

test("the pieces of UTF-16 in both orders, from the front, the back and both ends", () => {
    const chance = chances(11);
    for (let i = 0; i < 3000; i++) {
        const [bytes, isBig] = [units(chance, chance(i % 100 ? 24 : 9000)), chance(2) === 1];
        const [encoding, want] = [isBig ? "utf-16be" : "utf-16le", unitsOf(bytes, isBig)];
        assert.deepEqual([...pieces(bytes, encoding)].map(told), want, `${encoding} ${hexOf(bytes)}`);
        assert.deepEqual([...piecesBack(bytes, encoding)].reverse().map((it) => [it.offset, it.length, it.char]), want.map(([at, len, it]) => [at, len, /^[A-Z]\w{5}/.test(it) ? null : it]));
        const ends = new Ends(bytes, encoding);
        const found = [];
        for (let piece; (piece = chance(2) ? ends.next() : ends.nextBack()); ) found.push([piece.offset, piece.length, piece.char]);
        assert.deepEqual(found.sort((one, other) => one[0] - other[0]), want.map(([at, len, it]) => [at, len, /^[A-Z]\w{5}/.test(it) ? null : it]));
        assert.equal(charCount(bytes, encoding), want.length);
    }
});

test("faults are the invalid ones of all pieces", () => {
    const chance = chances(12);
    for (let i = 0; i < 2000; i++) {
        const encoding = FORMS[chance(3)];
        const bytes = (chance(2) ? damaged : units)(chance, chance(i % 50 ? 40 : 20000));
        const want = [...pieces(bytes, encoding)].filter((it) => it.error);
        assert.deepEqual([...faults(bytes, encoding)], want);
        assert.deepEqual(firstFault(bytes, encoding), want[0] ?? null);
        assert.equal(isValid(bytes, encoding), want.length === 0);
        assert.equal(charCount(bytes, encoding), [...pieces(bytes, encoding)].length);
    }
});

test("faults on both sides of a megabyte, sparse and dense", () => {
    for (const unit of [1, 2]) {
        const encoding = unit === 1 ? "utf-8" : "utf-16be";
        for (let shift = -6; shift < 6; shift++) {
            const bytes = new Uint8Array((2 << 20) + 11).fill(0x61);
            const at = (1 << 20) + shift * unit;
            bytes.set(unit === 1 ? [0xe2, 0x82, 0xf0, 0x9f, 0x98, 0x61, 0xff] : [0xd8, 0x3d, 0xd8, 0x3d, 0xde, 0x00, 0xdc, 0x00], at);
            const want = (unit === 1 ? [0, 1, 2, 3, 4, 6] : [0, 6]).map((it) => at + it);
            const have = [...faults(bytes, encoding)].map((it) => it.offset);
            assert.deepEqual(unit === 1 ? have : have.slice(0, -1), want);
            if (unit === 2) assert.equal(have[have.length - 1], bytes.length - 1);
        }
    }
    const dense = new Uint8Array((1 << 20) + 100).fill(0xff);
    let [count, next] = [0, 0];
    for (const { offset } of faults(dense)) count += offset === next++ ? 1 : 0;
    assert.equal(count, dense.length);
});

test("text between invalid bytes is validated, and not split", async () => {
    const { exports: calls } = (await WebAssembly.instantiate(readFileSync(new URL("../noddychest.wasm", import.meta.url)))).instance;
    for (const [encoding, name] of [[UTF8, "utf8"], [UTF16LE, "utf16"]]) {
        let asked = 0;
        const counted = (...given) => {
            const count = calls[`nody_${name}_pieces`](...given);
            asked += Number(count);
            return count;
        };
        const codec = new Codec({ ...calls, [`nody_${name}_pieces`]: counted });
        const bytes = new Uint8Array(1_000_000).fill(0x61);
        for (let at = 5000; at < bytes.length; at += 10_000) bytes.set([0xff, 0xdc], at);
        codec.fill(bytes, encoding);
        let told = 0;
        codec.faults(0, Infinity, () => told++);
        assert.equal(told, encoding === UTF8 ? 200 : 100);
        // (32 pieces for each of the hundred places, of half a million or a million)
        assert.equal(asked, 3200);
    }
});

test("other calls between two faults change nothing", () => {
    const bytes = damaged(chances(13), 30000);
    const [want, have] = [[...faults(bytes)], []];
    for (const it of faults(bytes)) {
        have.push(it);
        if (have.length % 999 === 0) isValid(bytes.subarray(7)), [...faults(bytes.subarray(0, 99), "utf-16le")], recode(bytes.subarray(0, 9), "utf-8", "utf-8");
    }
    assert.deepEqual(have, want);
});

test("shards join: TextDecoder gives the text of the whole", () => {
    assert.deepEqual([0, 1, 2, 3, 9].map((at) => shardEnd(ofHex("e28241"), at)), [0, 0, 2, 3, 3]);
    assert.deepEqual([0, 1, 2, 3].map((at) => shardEnd(ofHex("3dd841"), at, "utf-16le")), [0, 0, 0, 3]);
    for (const [encoding, most, some] of [["utf-8", 4, "4180a0c3e0e2edf0f4"], ["utf-16le", 5, "0041d8dc"], ["utf-16be", 5, "0041d8dc"]]) {
        const [bytes, decoder] = [ofHex(some), new TextDecoder(encoding, { ignoreBOM: true })];
        for (let length = 0; length <= most; length++) {
            for (let number = 0; number < bytes.length ** length; number++) {
                const data = Uint8Array.from({ length }, (_, i) => bytes[Math.floor(number / bytes.length ** i) % bytes.length]);
                for (let at = 0; at <= length; at++) {
                    const end = shardEnd(data, at, encoding);
                    assert.ok(end <= at && at <= end + 3);
                    assert.equal(decoder.decode(data.subarray(0, end)) + decoder.decode(data.subarray(end)), decoder.decode(data), `${encoding} ${hexOf(data)} at ${at}`);
                    const [first, rest] = [data.subarray(0, end), data.subarray(end)].map((it) => hexOf(recode(it, encoding, "utf-8")));
                    assert.equal(first + rest, hexOf(recode(data, encoding, "utf-8")));
                }
            }
        }
    }
});

test("a boundary is no offset inside of a piece", () => {
    const chance = chances(14);
    for (let i = 0; i < 400; i++) {
        const encoding = FORMS[chance(3)];
        const bytes = (chance(2) ? damaged : units)(chance, chance(30));
        const starts = [...[...pieces(bytes, encoding)].map((it) => it.offset), bytes.length];
        for (let at = 0; at <= bytes.length + 2; at++) {
            assert.equal(boundaryBefore(bytes, at, encoding), at > bytes.length ? bytes.length : Math.max(...starts.filter((it) => it <= at)), `${encoding} ${hexOf(bytes)} at ${at}`);
            assert.equal(boundaryAfter(bytes, at, encoding), at > bytes.length ? bytes.length : Math.min(...starts.filter((it) => it >= at)));
        }
    }
    const never = { toString: () => assert.fail("asked") };
    for (const at of [-1, 0.5, NaN, Infinity, "1", 1n, undefined, null, never, Object.create(null), Symbol("1")]) assert.throws(() => boundaryBefore(ofHex("41"), at), { name: "RangeError", message: /an offset is a whole number/ });
    for (const [at, told] of [[1n, /, and no bigint$/], ["1", /, and no string$/], [0.5, /, and not 0.5$/]]) assert.throws(() => boundaryBefore(ofHex("41"), at), { message: told });
});

test("pieces by their numbers", () => {
    const chance = chances(21);
    for (let i = 0; i < 400; i++) {
        const encoding = FORMS[chance(3)];
        const bytes = (chance(2) ? damaged : units)(chance, chance(30));
        const starts = [...pieces(bytes, encoding)].map((it) => it.offset);
        for (let number = 0; number <= starts.length + 1; number++) assert.equal(offsetOf(bytes, number, encoding), starts[number] ?? null, `${encoding} ${hexOf(bytes)} ${number}`);
        for (let at = 0; at <= bytes.length + 2; at++) assert.equal(numberOf(bytes, at, encoding), starts.filter((it) => it < at).length, `${encoding} ${hexOf(bytes)} at ${at}`);
    }
    for (const encoding of FORMS) {
        // (more than one window, and a last byte of its own)
        const long = Uint8Array.from(damaged(chances(22), 2_500_001));
        const starts = [...pieces(long, encoding)].map((it) => it.offset);
        for (const number of [0, 1, 4095, 4096, starts.length >> 1, starts.length - 1]) {
            assert.equal(offsetOf(long, number, encoding), starts[number], encoding);
            assert.deepEqual([numberOf(long, starts[number], encoding), numberOf(long, starts[number] + 1, encoding)], [number, number + 1], encoding);
        }
        // (near the end of a window)
        for (let at = (1 << 20) - 20; at < (1 << 20) + 8; at++) {
            const number = starts.filter((it) => it < at).length;
            assert.deepEqual([numberOf(long, at, encoding), offsetOf(long, number, encoding)], [number, starts[number]], `${encoding} ${at}`);
        }
        assert.deepEqual([offsetOf(long, starts.length, encoding), offsetOf(long, 2 ** 53 - 1, encoding), numberOf(long, 2 ** 53 - 1, encoding)], [null, null, starts.length]);
    }
    assert.deepEqual([offsetOf(ofHex("68c3a9e28241"), 2), numberOf(ofHex("68c3a9e28241"), 3), offsetOf(new ArrayBuffer(0), 0)], [3, 2, null]);
    for (const it of [-1, 0.5, NaN, Infinity, "1", 1n, undefined, null, 1e30]) {
        for (const call of [offsetOf, numberOf]) assert.throws(() => call(ofHex("41"), it), { name: "RangeError" });
    }
});

test("pieces outside of the changed range stay", () => {
    const chance = chances(23);
    for (let i = 0; i < 3000; i++) {
        const encoding = FORMS[chance(3)];
        const some = () => [...(chance(2) ? damaged : units)(chance, chance(30))];
        const [old, put] = [some(), some().slice(0, chance(6))];
        const start = chance(old.length + 1);
        const end = start + chance(old.length - start + 1);
        const made = [...old.slice(0, start), ...put, ...old.slice(end)];
        const [was, is] = [changedRange(Uint8Array.from(old), start, end, encoding), changedRange(Uint8Array.from(made), start, start + put.length, encoding)];
        const told = `${encoding} ${hexOf(Uint8Array.from(old))} ${start} to ${end} by ${hexOf(Uint8Array.from(put))}`;
        const [before, after] = [old, made].map((it) => [...pieces(Uint8Array.from(it), encoding)]);
        const parts = (all, range) => [all.filter((it) => it.offset < range.start), all.filter((it) => it.offset >= range.end).map((it) => ({ ...it, offset: it.offset - range.end }))];
        const [kept, moved] = parts(before, was);
        assert.deepEqual(parts(after, is)[0], kept, told);
        assert.ok(was.start <= start && start <= was.start + 6 && end <= was.end && was.end <= end + 6, told);
        if (encoding !== "utf-8" && (put.length + end - start) % 2) continue;
        assert.deepEqual(parts(after, is)[1], moved, told);
        assert.deepEqual([is.start, is.end], [was.start, was.end + put.length - (end - start)], told);
    }
    assert.deepEqual([changedRange(ofHex("616263646566"), 9, 2 ** 53 - 1), changedRange(ofHex("616263646566"), 5, 1), changedRange(new ArrayBuffer(0), 1, 2, "utf-16le")], [{ start: 3, end: 6 }, { start: 0, end: 4 }, { start: 0, end: 0 }]);
    for (const it of [-1, 0.5, NaN, Infinity, "1", 1n, undefined, null]) {
        for (const call of [() => changedRange(ofHex("41"), it, 0), () => changedRange(ofHex("41"), 0, it)]) assert.throws(call, { name: "RangeError" });
    }
});

test("how many bytes recode gives", () => {
    const chance = chances(15);
    for (let i = 0; i < 600; i++) {
        const [from, to] = [FORMS[chance(3)], FORMS[chance(3)]];
        const bytes = (chance(2) ? damaged : units)(chance, chance(50));
        assert.equal(recodedLength(bytes, from, to), recode(bytes, from, to).length);
    }
    const long = damaged(chances(16), (2 << 20) + 77);
    for (const from of FORMS) {
        for (const to of FORMS) assert.equal(recodedLength(long, from, to), recode(long, from, to).length);
        assert.equal(charCount(long, from), [...pieces(long, from)].length);
    }
});

// What TextDecoder shows. (It takes the single byte at the end of UTF-16 and a leading surrogate before it as one.)
const shownBy = (bytes, encoding) => new TextDecoder(encoding, { ignoreBOM: true }).decode(bytes);

test("maximal subparts: as TextDecoder shows them, at once and in parts", () => {
    const chance = chances(17);
    for (let i = 0; i < 4000; i++) {
        const encoding = FORMS[chance(3)];
        const bytes = (chance(2) ? damaged : units)(chance, chance(20));
        const want = shownBy(bytes, encoding);
        assert.equal(Buffer.from(recode(bytes, encoding, "utf-8", { errors: "lossy" })).toString(), want, `${encoding} ${hexOf(bytes)}`);
        assert.equal(decode(bytes, encoding, { errors: "lossy" }).text, want);
        const recoder = new Recoder(encoding, "utf-8", { errors: "lossy" });
        const parts = [];
        for (let at = 0, len; at < bytes.length; at += len) parts.push(recoder.feed(bytes.subarray(at, at + (len = 1 + chance(4)))));
        assert.equal(Buffer.concat([...parts, recoder.finish()]).toString(), want);
    }
});

test("a string with the list of what was wrong", () => {
    assert.deepEqual(decode(ofHex("68c3a9e28241")), { text: "hé\ufffd\ufffdA", faults: [
        { offset: 3, length: 1, char: null, error: "InterruptedSequence" }, { offset: 4, length: 1, char: null, error: "UnexpectedContinuationByte" }] });
    assert.equal(decode(ofHex("68c3a9e28241"), "utf-8", { errors: "lossy" }).text, "hé\ufffdA");
    assert.deepEqual(decode(ofHex("efbbbf41efbfbd")), { text: "\ufeffA\ufffd", faults: [] });
    assert.deepEqual(decode(ofHex("00dc4100"), "utf-16le").faults.map(told), [[0, 2, "UnexpectedTrailingSurrogate"]]);
    for (const options of [{ errors: "strict" }, { fatal: true }, { errors: "strict", fatal: true }]) {
        assert.throws(() => decode(ofHex("41ff"), "utf-8", options), (it) => it instanceof FaultError && it.offset === 1 && it.error === "NonUtf8Byte");
        assert.deepEqual(decode(ofHex("41"), "utf-8", options), { text: "A", faults: [] });
    }
    const chance = chances(18);
    for (let i = 0; i < 500; i++) {
        const encoding = FORMS[chance(3)];
        const bytes = damaged(chance, chance(i % 50 ? 40 : 90000));
        const { text, faults: found } = decode(bytes, encoding);
        assert.equal(text, [...pieces(bytes, encoding)].map((it) => it.char ?? "\ufffd").join(""));
        assert.deepEqual(found, [...faults(bytes, encoding)]);
    }
});

// Lengths on both sides of those at which another way to decode is taken, or another window begins.
const EDGES = [0, 1, 24, 255, 256, 257, 4095, 4096, 4097, 65536 + 4095, 65536 + 4096, 65536 + 4097, 300001];

test("decode of valid text: as TextDecoder has it, also where characters that are not ASCII are few", () => {
    for (const char of ["a", "é", "你", "😀", "\ufeff", "\ufffd", "\0"]) {
        for (const length of EDGES) {
            const [text, all] = [char.repeat(length), new TextEncoder().encode(char.repeat(length))];
            const rare = new Uint8Array(length + 8).fill(0x61);
            for (const at of [0, Math.min(90, length), length >> 1, length]) rare.set(new TextEncoder().encode(char), at);
            for (const bytes of length > 8 ? [all, rare] : [all]) {
                for (const options of [undefined, { errors: "lossy" }, { fatal: true }]) {
                    const made = decode(bytes, "utf-8", options);
                    assert.ok(made.text === shownBy(bytes, "utf-8") && made.faults.length === 0, `${char} ${length}`);
                }
            }
            for (const encoding of ["utf-16le", "utf-16be"]) assert.ok(decode(recode(all, "utf-8", encoding), encoding).text === text, `${encoding} ${length}`);
        }
    }
});

test("an invalid byte on both sides of each edge of a window", () => {
    for (const encoding of FORMS) {
        const fault = ofHex({ "utf-8": "e28261", "utf-16le": "00d86100", "utf-16be": "d8000061" }[encoding]);
        for (const edge of [4096, 4096 + 65536, 4096 + 2 * 65536]) {
            for (let at = edge - 8; at < edge + 4; at += encoding === "utf-8" ? 1 : 2) {
                const bytes = new Uint8Array(4096 + 3 * 65536).fill(0x61);
                assert.equal(isValid(bytes, encoding), true);
                bytes.set(fault, at);
                const want = [...pieces(bytes.subarray(at - 2, at + 6), encoding)].filter((it) => it.error).map((it) => ({ ...it, offset: it.offset + at - 2 }));
                assert.deepEqual([isValid(bytes, encoding), firstFault(bytes, encoding), [...faults(bytes, encoding)]], [false, want[0], want], `${encoding} ${at}`);
                assert.throws(() => decode(bytes, encoding, { fatal: true }), { name: "FaultError", offset: at, error: want[0].error });
                const { text, faults: found } = decode(bytes, encoding);
                assert.deepEqual([found, text.indexOf("\ufffd")], [want, at / (encoding === "utf-8" ? 1 : 2)]);
                assert.deepEqual([isValid(bytes.subarray(0, at), encoding), firstFault(bytes.subarray(0, at + 2), encoding).offset], [true, at]);
            }
        }
        // (a character that an edge cuts is none)
        const text = new TextEncoder().encode("😀".repeat(40000));
        for (let skip = 0; skip < 8; skip++) assert.equal(firstFault(recode(new Uint8Array([...new Uint8Array(skip).fill(0x61), ...text]), "utf-8", encoding), encoding), null);
    }
});

test("a text that is too long for a string", async (t) => {
    const before = globalThis.TextDecoder;
    t.after(() => (globalThis.TextDecoder = before));
    // What TextDecoder of V8 does for so long a text, which takes gigabytes here.
    globalThis.TextDecoder = class {
        decode() {
            throw new TypeError("The encoded data was not valid for encoding utf-16le");
        }
    };
    const told = { name: "RangeError", message: /a text of 3 units of UTF-16 is too long for a string here/ };
    assert.throws(() => decode(ofHex("61ff62")), told);
    await assert.rejects(async () => streamText([ofHex("61ff62")]).next(), told);
});

test("words for errors that are none", () => {
    for (const call of [(it) => recode(ofHex("41"), "utf8", "utf8", it), (it) => new Recoder("utf8", "utf8", it), (it) => decode(ofHex("41"), "utf8", it)]) {
        for (const it of ["ignore", "", "STRICT", "toString", null, 1]) assert.throws(() => call({ errors: it }), { name: "RangeError", message: `noddychest: errors is "replace", "lossy", "strict", "drop", "windows-1252", "latin-1" or a table, and not ${it}` });
        assert.throws(() => call({ errors: "replace", fatal: true }), { name: "TypeError", message: /fatal is the same as errors: "strict"/ });
    }
});

test("a sentence for each error, as the library for C has it", () => {
    const source = readFileSync(new URL("../../crates/c_api/src/kinds.rt", import.meta.url), "utf8");
    const texts = [...source.matchAll(/\*b"([^"]*?)(?:\\0)+"/g)].map((it) => it[1]);
    assert.deepEqual([texts.length, texts[0], texts[11]], [24, "Ok", "None"]);
    for (let kind = 1; kind < 11; kind++) assert.equal(sentence(texts[kind]), texts[12 + kind]);
    assert.equal(sentence("OverlongEncoding"), "overlong encoding: the value has a shorter code");
    for (const it of ["Ok", "None", "", "overlongEncoding", "toString", null, undefined, 5, Symbol("Ok")]) assert.throws(() => sentence(it), { name: "RangeError", message: /^noddychest: no error has the name / });
});
