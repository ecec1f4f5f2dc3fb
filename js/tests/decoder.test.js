// Decoder: pieces of input that comes in parts, against a merger of this file, with both modules.
import assert from "node:assert/strict";
import { readFileSync } from "node:fs";
import test from "node:test";
import v8 from "node:v8";
import vm from "node:vm";
import { MessageChannel } from "node:worker_threads";
import { callsOf } from "../api.js";
import { Codec, hasVectors } from "../codec.js";
import * as installed from "noddychest";
import { chances, damaged, divided, hexOf, ofHex } from "./help.js";

let api, Decoder, Recoder, encodingOfBom, faults, isValid, pieces, recode, undecidedLength;

// Lets the tests that follow call these.
function use(instance) {
    api = callsOf(new Codec(instance.exports));
    ({ Decoder, Recoder, encodingOfBom, faults, isValid, pieces, recode, undecidedLength } = api);
}

const FORMS = ["utf-8", "utf-16le", "utf-16be"];
const GONE = { name: "TypeError", message: /^noddychest: the bytes are gone/ };
const load = (name) => new WebAssembly.Instance(new WebAssembly.Module(readFileSync(new URL(`../${name}.wasm`, import.meta.url))));
const MODULES = Object.entries({ "without vectors": "noddychest", ...(hasVectors() ? { "with vectors": "noddychest-simd" } : {}) }).map(([name, file]) => [name, load(file)]);

// One test for each module.
function each(name, body) {
    for (const [module, instance] of MODULES) {
        test(`${name} (${module})`, () => {
            use(instance);
            return body(instance);
        });
    }
}

// ---- The merger: what the bytes that wait begin with, as [length, character, error], or null if the next byte decides it.

const NEEDS = [0x80, 0xc0, 0xc2, 0xe0, 0xf0, 0xf5];
const LEAST = [0, 0, 0x80, 0x800, 0x10000];

function firstOfBytes(waiting, isEnd) {
    const [byte] = waiting;
    if (byte < 0x80) return [1, String.fromCharCode(byte), null];
    if (byte < 0xc0) return [1, null, "UnexpectedContinuationByte"];
    if (byte < 0xc2 || byte > 0xf4) return [1, null, "NonUtf8Byte"];
    const need = NEEDS.filter((it) => it <= byte).length - 1;
    const rest = waiting.slice(1, need);
    if (!rest.every((it) => it >= 0x80 && it < 0xc0)) return [1, null, "InterruptedSequence"];
    if (rest.length < need - 1) return isEnd ? [1, null, "TooFewBytes"] : null;
    const value = rest.reduce((sum, it) => sum * 64 + it - 0x80, byte % 2 ** (7 - need));
    if (value < LEAST[need]) return [1, null, "OverlongEncoding"];
    if (value >= 0xd800 && value < 0xe000) return [1, null, "Utf16ReservedCodepoint"];
    return value > 0x10ffff ? [1, null, "TooHighCodepoint"] : [need, String.fromCodePoint(value), null];
}

function firstOfUnits(waiting, isEnd, isBig) {
    const unit = (at) => (isBig ? waiting[at] * 256 + waiting[at + 1] : waiting[at + 1] * 256 + waiting[at]);
    const [first, second] = [unit(0), unit(2)];
    if (waiting.length < 2) return isEnd ? [1, null, "Incomplete"] : null;
    if (first >= 0xdc00 && first < 0xe000) return [2, null, "UnexpectedTrailingSurrogate"];
    if (first < 0xd800 || first >= 0xe000) return [2, String.fromCharCode(first), null];
    if (waiting.length < 4) return isEnd ? [2, null, "Incomplete"] : null;
    return second >= 0xdc00 && second < 0xe000 ? [4, String.fromCharCode(first, second), null] : [2, null, "UnmatchedLeadingSurrogate"];
}

class Merger {
    constructor(encoding, offset = 0) {
        Object.assign(this, { encoding, offset, waiting: [] });
    }

    decided(isEnd) {
        const found = [];
        for (let it; this.waiting.length; ) {
            it = this.encoding === "utf-8" ? firstOfBytes(this.waiting, isEnd) : firstOfUnits(this.waiting, isEnd, this.encoding === "utf-16be");
            if (!it) break;
            const [length, char, error] = it;
            found.push({ offset: this.offset, length, char, error });
            this.waiting.splice(0, length);
            this.offset += length;
        }
        return found;
    }

    feed(bytes) {
        const found = [];
        for (const it of bytes) this.waiting.push(it), found.push(...this.decided(false));
        return found;
    }

    finish() {
        return this.decided(true);
    }
}

const ofWhole = (bytes, encoding, offset) => {
    const merger = new Merger(encoding, offset);
    return [...merger.feed(bytes), ...merger.finish()];
};
const faulty = (given) => given.filter((it) => it.error);

// ---- Inputs.

// Bytes in which surrogates are frequent.
function units(chance, len) {
    return Uint8Array.from({ length: len }, () => [0xd8, 0xdb, 0xdc, 0xdf, 0x00, 0x41, 0xe0, 0xff][chance(8)]);
}

const SHORT = ["", "41", "c3a9", "e282ac", "f09f9880", "f041", "e90a", "e08041", "e08080", "eda080", "f4908080", "f0808080", "f09f98", "f09f41", "c0af", "c1", "f58080", "ff41c3", "80bf",
    "e282f09f9880", "c3e9f09f", "f0f0f0f0", "e28241e282", "61c3a962ff", "3dd800de", "d83dde00", "d800", "00d8", "d80000", "dc00d800", "d8d8dcdc", "00d800d800dc", "d800dc00d800", "dbffdfff41", "0000d8"].map(ofHex);

// Takes the memory of a buffer away, as postMessage does with what is transferred.
function detach(buffer) {
    const { port1, port2 } = new MessageChannel();
    port1.postMessage(null, [buffer]);
    port1.close();
    port2.close();
}

// ---- What comes of parts.

// Feeds parts to a decoder and to the merger, and compares after each.
function compare(parts, encoding, offset = 0) {
    const [decoder, other, merger] = [new Decoder(encoding, { offset }), new Decoder(encoding, { offset }), new Merger(encoding, offset)];
    const told = `${encoding} ${parts.slice(0, 20).map(hexOf).join(" ")}`;
    for (const part of parts) {
        const want = merger.feed(part);
        assert.deepEqual([...decoder.feed(part)], want, told);
        assert.deepEqual([...other.feedFaults(part)], faulty(want), told);
        for (const it of [decoder, other]) assert.deepEqual([it.offset, it.held], [merger.offset, merger.waiting.length], told);
    }
    const want = merger.finish();
    assert.deepEqual([[...decoder.finish()], [...other.finishFaults()]], [want, want], told);
    assert.deepEqual([decoder.offset, decoder.held, other.offset, other.held], [merger.offset, 0, merger.offset, 0]);
}

each("how many bytes at the end are undecided: as many as are held", () => {
    const chance = chances(37);
    const inputs = [...SHORT, ...Array.from({ length: 400 }, (_, i) => (i % 2 ? damaged : units)(chance, 1 + chance(24)))];
    for (const bytes of inputs) {
        for (let end = 0; end <= bytes.length; end++) {
            for (const encoding of FORMS) {
                const [block, decoder, merger] = [bytes.subarray(0, end), new Decoder(encoding), new Merger(encoding)];
                [...decoder.feed(block)];
                merger.feed(block);
                const told = `${encoding} ${hexOf(block)}`;
                assert.deepEqual([undecidedLength(block, encoding), decoder.held], [merger.waiting.length, merger.waiting.length], told);
                // (bytes at an odd address)
                assert.equal(undecidedLength(Uint8Array.of(1, ...block).subarray(1), encoding), merger.waiting.length, told);
            }
        }
    }
    assert.deepEqual([undecidedLength(ofHex("61e282")), undecidedLength(ofHex("61e282"), "UTF-16"), undecidedLength(new ArrayBuffer(0))], [2, 1, 0]);
});

each("blocks without what is undecided, which goes before the next one, have the pieces of the whole", () => {
    const chance = chances(38);
    for (let i = 0; i < 300; i++) {
        const [encoding, bytes] = [FORMS[i % 3], (chance(2) ? damaged : units)(chance, chance(60))];
        let [found, rest, base] = [[], [], 0];
        const put = (len) => found.push(...[...pieces(Uint8Array.from(rest.splice(0, len)), encoding)].map((it) => [it.offset + base, it.length, it.char]));
        for (const part of divided(chance, bytes, 9)) {
            rest.push(...part);
            const len = rest.length - undecidedLength(Uint8Array.from(rest), encoding);
            put(len);
            base += len;
        }
        put(rest.length);
        assert.deepEqual(found, ofWhole(bytes, encoding).map((it) => [it.offset, it.length, it.char]), `${encoding} ${hexOf(bytes)}`);
    }
});

each("the encoding that a byte order mark tells", () => {
    const mark = new TextEncoder().encode("\ufeff");
    const marks = { "utf-8": mark, "utf-16le": Uint8Array.from(Buffer.from("\ufeff", "utf16le")), "utf-16be": Uint8Array.from(Buffer.from("\ufeff", "utf16le").reverse()) };
    for (const [encoding, bytes] of Object.entries(marks)) {
        for (const after of [[], [0x61], [0, 0], [...bytes], Array(70_000).fill(0xff)]) {
            const data = Uint8Array.from([...bytes, ...after]);
            const want = { encoding, length: bytes.length };
            assert.deepEqual(encodingOfBom(data), want);
            assert.deepEqual(encodingOfBom(Uint8Array.of(1, ...data).subarray(1)), want);
            const [first] = pieces(data, encoding);
            assert.deepEqual([first.char, first.length], ["\ufeff", bytes.length]);
        }
        for (let len = 0; len < bytes.length; len++) assert.equal(encodingOfBom(bytes.subarray(0, len)), null);
    }
    const EDGE = [0, 0x41, 0xbb, 0xbe, 0xbf, 0xef, 0xfe, 0xff];
    for (let i = 0; i < 8 ** 3; i++) {
        const data = Uint8Array.of(EDGE[i & 7], EDGE[(i >> 3) & 7], EDGE[i >> 6]);
        const want = Object.entries(marks).find(([, bytes]) => hexOf(data).startsWith(hexOf(bytes)))?.[0] ?? null;
        assert.equal(encodingOfBom(data)?.encoding ?? null, want, hexOf(data));
    }
    assert.deepEqual(encodingOfBom(ofHex("fffe0000")), { encoding: "utf-16le", length: 2 });
    for (const it of ["", "0000feff", "61efbbbf", "efbb", "ff", "fe"]) assert.equal(encodingOfBom(ofHex(it)), null);
});

each("ends and marks: what is refused, and other calls go on", () => {
    for (const it of ["text", undefined, null, 5, [65]]) {
        assert.throws(() => undecidedLength(it), { name: "TypeError", message: /bytes are a Uint8Array/ });
        assert.throws(() => encodingOfBom(it), { name: "TypeError", message: /bytes are a Uint8Array/ });
    }
    assert.throws(() => undecidedLength(ofHex("41"), "latin1"), { name: "RangeError", message: /the encoding latin1/ });
    assert.throws(() => undecidedLength(ofHex("41"), ofHex("41")), { name: "TypeError", message: /an encoding is a string/ });
    const found = [];
    for (const { offset } of faults(ofHex("41ff42ff43ff"))) {
        found.push(offset, undecidedLength(ofHex("e2")), encodingOfBom(ofHex("fffe")).length);
    }
    assert.deepEqual(found, [1, 1, 2, 3, 1, 2, 5, 1, 2]);
    const decoder = new Decoder("utf-8");
    const places = [];
    for (const { offset } of decoder.feed(ofHex("41c3a9e2"))) places.push(offset, undecidedLength(ofHex("41c3a9e2")), encodingOfBom(ofHex("41")));
    assert.deepEqual(places, [0, 1, null, 1, 1, null]);
});

each("each short input in two and in three parts, cut at every place", () => {
    const chance = chances(31);
    const inputs = [...SHORT, ...Array.from({ length: 60 }, (_, i) => (i % 2 ? damaged : units)(chance, 1 + chance(8)))];
    for (const bytes of inputs) {
        for (const encoding of FORMS) {
            compare([bytes], encoding);
            for (let to = 0; to <= bytes.length; to++) {
                for (let at = 0; at <= to; at++) compare([bytes.subarray(0, at), bytes.subarray(at, to), bytes.subarray(to)], encoding);
            }
            compare([...bytes].map((it) => Uint8Array.of(it)), encoding);
        }
    }
});

each("long inputs, cut by chance", () => {
    const chance = chances(32);
    for (let i = 0; i < 30; i++) {
        const encoding = FORMS[i % 3];
        const bytes = (encoding === "utf-8" || chance(2) ? damaged : units)(chance, 4000 + chance(20000));
        compare(divided(chance, bytes, [3, 40, 5000, 20000][chance(4)]), encoding, chance(2) ? 0 : 2 ** 32 - chance(20000));
    }
});

each("the pieces are those of the whole but for one kind at the end", () => {
    const chance = chances(33);
    for (let i = 0; i < 1000; i++) {
        const encoding = FORMS[i % 3];
        const bytes = (chance(2) ? damaged : units)(chance, chance(30));
        const decoder = new Decoder(encoding);
        const [have, want] = [[...decoder.feed(bytes), ...decoder.finish()], [...pieces(bytes, encoding)]];
        for (const [k, it] of want.entries()) {
            if (it.error === "TooFewBytes" && have[k].error !== it.error) it.error = "InterruptedSequence";
            assert.deepEqual(have[k], it, `${encoding} ${hexOf(bytes)}`);
        }
    }
    const two = new Decoder();
    assert.deepEqual([...two.feed(ofHex("f041"))].map((it) => it.error), ["InterruptedSequence", null]);
    assert.deepEqual([...pieces(ofHex("f041"))].map((it) => it.error), ["TooFewBytes", null]);
});

each("invalid bytes that are rare, dense, at the ends of parts, and on both sides of a megabyte", () => {
    const [text, size] = ["aé你😀", (2 << 20) + 17];
    for (const encoding of FORMS) {
        const long = recode(new TextEncoder().encode(text.repeat(size / 9)), "utf-8", encoding).slice(0, size);
        const unit = encoding === "utf-8" ? 1 : 2;
        for (let at = 0; at + 4 < size; at += at % 3 ? 9998 : 100_000) long.set(encoding === "utf-8" ? [0xff, 0x41] : [0xdc, 0xdc], at);
        for (let at = (1 << 20) - 6; at < (1 << 20) + 6; at += unit) long.set(encoding === "utf-8" ? [0xf0] : [0xd8, 0xd8], at);
        const want = [...faults(long, encoding)];
        for (const most of [4096, 65536, 1 << 20, size]) {
            const [decoder, have] = [new Decoder(encoding), []];
            for (let at = 0; at < size; at += most) for (const it of decoder.feedFaults(long.subarray(at, at + most))) have.push(it);
            assert.deepEqual([...have, ...decoder.finishFaults()], want, `${encoding}, parts of ${most}`);
        }
    }
    const [dense, decoder] = [new Uint8Array(3_000_000).fill(0xff), new Decoder()];
    let next = 0;
    for (const { offset } of decoder.feedFaults(dense)) next += offset === next ? 1 : 0;
    assert.equal(next, dense.length);
});

// ---- Who asks for what, and when.

each("a generator that is left, or asked late, loses nothing", () => {
    const chance = chances(34);
    for (let i = 0; i < 60; i++) {
        const encoding = FORMS[i % 3];
        const parts = divided(chance, damaged(chance, 200 + chance(i % 10 ? 400 : 20000)), [3, 30, 9000][chance(3)]);
        const [decoder, given, have] = [new Decoder(encoding), [], []];
        const take = (it, count) => {
            for (let left = count; left > 0; left--) {
                const { done, value } = it.next();
                if (done) return;
                have.push(value);
            }
        };
        for (const part of parts) {
            given.push(decoder.feed(part));
            if (chance(3) === 0) for (const it of decoder.feed(new Uint8Array(0))) if (have.push(it) % 5 === 0) break;
            take(given[chance(given.length)], chance(2) ? chance(6) : 0);
        }
        const [last, want] = [decoder.finish(), ofWhole(parts.flatMap((it) => [...it]), encoding)];
        for (const it of [...given, last]) take(it, chance(3) ? Infinity : 2);
        assert.deepEqual([...have, ...decoder.finish()], want);
        assert.deepEqual(given.flatMap((it) => [...it]), []);
    }
});

each("who goes through pieces may feed the same decoder", () => {
    const chance = chances(35);
    for (let i = 0; i < 60; i++) {
        const encoding = FORMS[i % 3];
        const parts = divided(chance, damaged(chance, 100 + chance(i % 10 ? 100 : 30000)), i % 10 ? 5 : 9000);
        const [decoder, have, all] = [new Decoder(encoding), [], ofWhole(parts.flatMap((it) => [...it]), encoding)];
        const go = () => {
            for (const it of parts.length ? decoder.feed(parts.shift()) : decoder.finish()) {
                have.push(it);
                if (parts.length && chance(4) === 0) go();
            }
        };
        while (parts.length) go();
        go();
        assert.deepEqual(have, all);
    }
});

each("pieces and invalid bytes alone in turn: text is passed over up to the invalid byte that is given", () => {
    const chance = chances(36);
    for (let i = 0; i < 200; i++) {
        const encoding = FORMS[i % 3];
        const parts = divided(chance, damaged(chance, 50 + chance(i % 20 ? 300 : 30000)), [4, 50, 9000][chance(3)]);
        const [decoder, merger, known] = [new Decoder(encoding), new Merger(encoding), []];
        const name = parts.slice(0, 30).map(hexOf).join(" ");
        let at = 0;
        for (const part of parts) {
            const isFaults = chance(2) === 1;
            known.push(...merger.feed(part));
            const given = isFaults ? decoder.feedFaults(part) : decoder.feed(part);
            for (let left = chance(3) ? 1 + chance(9) : Infinity; left > 0; left--) {
                if (isFaults) while (at < known.length && !known[at].error) at++;
                const { done, value } = given.next();
                assert.deepEqual(value, known[at], `${encoding} ${name}`);
                if (done) break;
                assert.equal(decoder.offset, known[++at]?.offset ?? merger.offset);
            }
        }
        known.push(...merger.finish());
        assert.deepEqual([...decoder.finish()], known.slice(at));
    }
});

each("two decoders in turn, with other calls between", () => {
    const chance = chances(37);
    for (const ask of ["feed", "feedFaults"]) {
        const inputs = FORMS.map((it) => [it, damaged(chance, 30000)]);
        const found = inputs.map(() => []);
        const going = inputs.map(([encoding, bytes]) => {
            const decoder = new Decoder(encoding);
            return (function* () {
                for (const part of divided(chance, bytes, 9000)) yield* decoder[ask](part);
                yield* ask === "feed" ? decoder.finish() : decoder.finishFaults();
            })();
        });
        for (let left = 3, step = 0; left > 0; step++) {
            const k = chance(3);
            const { done, value } = going[k].next();
            if (!done) found[k].push(value);
            else if (found[k].isOver !== true) [found[k].isOver, left] = [true, left - 1];
            if (step % 50 === 0) isValid(inputs[0][1]), new Recoder("utf-8", "utf-16le").feed(ofHex("41e2")), pieces(ofHex("c3a9"), "utf-16be").next();
        }
        for (const [k, [encoding, bytes]] of inputs.entries()) {
            const want = ofWhole(bytes, encoding);
            assert.deepEqual([...found[k]], ask === "feed" ? want : faulty(want));
        }
    }
});

each("after finish it goes on, as a Recoder does, and offsets go on", () => {
    const [decoder, recoder] = [new Decoder(), new Recoder("utf-8", "utf-8")];
    const told = (given) => [...given].map((it) => [it.offset, it.char ?? it.error]);
    assert.deepEqual([told(decoder.feed(ofHex("41e282"))), told(decoder.finish())], [[[0, "A"]], [[1, "TooFewBytes"], [2, "UnexpectedContinuationByte"]]]);
    assert.deepEqual([told(decoder.finish()), decoder.offset, decoder.held], [[], 3, 0]);
    assert.deepEqual([told(decoder.feed(ofHex("ac42"))), told(decoder.finish())], [[[3, "UnexpectedContinuationByte"], [4, "B"]], []]);
    recoder.feed(ofHex("41e282"));
    recoder.finish();
    assert.equal(hexOf(recoder.feed(ofHex("ac42"))), "efbfbd42");
    // (an end that nobody went through is an end all the same)
    const other = new Decoder();
    [other.feed(ofHex("e2")), other.finish(), other.feed(ofHex("82ac")), other.finish()];
    assert.deepEqual(told(other.finish()), [[0, "TooFewBytes"], [1, "UnexpectedContinuationByte"], [2, "UnexpectedContinuationByte"]]);
});

// ---- Offsets.

each("offsets from 2^32 on, up to the greatest one that is exact, and no further", () => {
    const most = Number.MAX_SAFE_INTEGER;
    for (const [k, encoding] of FORMS.entries()) {
        for (const offset of [2 ** 32 - 7, 2 ** 32, 2 ** 40 + 1, most - 12]) for (const bytes of SHORT) compare(divided(chances(k), bytes, 3), encoding, offset);
    }
    const decoder = new Decoder("utf-8", { offset: most - 3 });
    assert.deepEqual([...decoder.feed(ofHex("41e2"))].map((it) => it.offset), [most - 3]);
    const told = { name: "RangeError", message: "noddychest: offsets go up to 9007199254740991, and this part ends beyond" };
    for (const name of ["feed", "feedFaults"]) assert.throws(() => decoder[name](ofHex("82ac")), told);
    assert.deepEqual([decoder.offset, decoder.held], [most - 2, 1]);
    assert.deepEqual([...decoder.feed(ofHex("82")), ...decoder.finish()].map((it) => it.offset), [most - 2, most - 1]);
    assert.equal(decoder.offset, most);
    assert.deepEqual([...decoder.feed(new Uint8Array(0)), ...decoder.feedFaults(new Uint8Array(0))], []);
    assert.throws(() => decoder.feed(ofHex("41")), told);
    const far = new Decoder("utf-16be", { offset: 2 ** 32 - (3 << 20) });
    const zeros = new Uint8Array(2 << 20);
    zeros.set([0xdc, 0], (2 << 20) - 2);
    for (const at of [2 ** 32 - (1 << 20) - 2, 2 ** 32 + (1 << 20) - 2]) assert.deepEqual([...far.feedFaults(zeros)].map((it) => it.offset), [at]);
});

// ---- Bytes that are none, go away, or change.

each("a part that was fed may be changed, detached or made smaller", () => {
    const bytes = damaged(chances(38), 300_000);
    const want = ofWhole(bytes, "utf-8");
    const spoil = { "changed": (it) => new Uint8Array(it).fill(0x42), "detached": detach, ...("resize" in ArrayBuffer.prototype ? { "made smaller": (it) => it.resize(1) } : {}) };
    for (const [name, change] of Object.entries(spoil)) {
        for (const ask of ["feed", "feedFaults"]) {
            const buffer = name === "made smaller" ? new ArrayBuffer(bytes.length, { maxByteLength: bytes.length }) : new ArrayBuffer(bytes.length);
            new Uint8Array(buffer).set(bytes);
            const decoder = new Decoder();
            const given = decoder[ask](buffer);
            const first = given.next().value;
            change(buffer);
            assert.deepEqual([first, ...given, ...decoder.finish()], ask === "feed" ? want : faulty(want), `${name}, ${ask}`);
        }
    }
    // (one buffer for all parts)
    const [room, decoder, given] = [new Uint8Array(2), new Decoder(), []];
    for (const it of ["41e2", "82ac", "c3a9"]) {
        room.set(ofHex(it));
        given.push(decoder.feed(room));
    }
    assert.equal(given.flatMap((it) => [...it]).map((it) => it.char).join(""), "A€é");
});

each("bytes that are gone, and what is no bytes, are refused, and the decoder is as it was", () => {
    const decoder = new Decoder();
    assert.deepEqual([...decoder.feed(ofHex("e282"))], []);
    const gone = new ArrayBuffer(8);
    const views = [gone, new Uint8Array(gone), new DataView(gone, 1), new Uint16Array(gone)];
    detach(gone);
    for (const name of ["feed", "feedFaults"]) {
        for (const it of views) assert.throws(() => decoder[name](it), GONE);
        for (const it of ["text", [0x41], null, undefined, 1, 1n, {}, new Map(), Symbol("bytes"), new Proxy(new Uint8Array(2), {})]) assert.throws(() => decoder[name](it), { name: "TypeError", message: /bytes are a Uint8Array/ });
    }
    assert.deepEqual([decoder.offset, decoder.held, [...decoder.feed(ofHex("ac"))].map((it) => it.char).join("")], [0, 2, "€"]);
});

each("views, buffers, shared memory, and bytes of another realm, at their real place", () => {
    const { buffer } = ofHex("0041c3a90000");
    const shared = new SharedArrayBuffer(3);
    new Uint8Array(shared).set([0x41, 0xc3, 0xa9]);
    const far = ["new Uint8Array([65, 195, 169]).buffer", "new Uint8Array([65, 195, 169])", "new DataView(new Uint8Array([65, 195, 169]).buffer)", "const it = new SharedArrayBuffer(3); new Uint8Array(it).set([65, 195, 169]); it"];
    const given = [new DataView(buffer, 1, 3), new Uint8Array(buffer, 1, 3), new Int8Array(buffer, 1, 3), buffer.slice(1, 4), Buffer.from("Aé"), shared, new DataView(shared), ...far.map((it) => vm.runInNewContext(it))];
    const decoder = new Decoder();
    const told = given.flatMap((it) => [...decoder.feed(it)]);
    assert.equal(told.map((it) => it.char).join(""), "Aé".repeat(given.length));
    const late = new Decoder();
    const pieces = late.feed(shared);
    new Uint8Array(shared).fill(0xff);
    assert.equal([...pieces].map((it) => it.char).join(""), "Aé");
    for (const it of far) assert.deepEqual([...late.feedFaults(vm.runInNewContext(it))], []);
});

each("want of memory: what cannot be copied was not fed", () => {
    const { Uint8Array: Whole } = globalThis;
    const lacking = function (...given) {
        if (given[0] instanceof Whole && given[0].length > 2) throw new RangeError("Array buffer allocation failed");
        return new Whole(...given);
    };
    for (const [name, other] of [["feed", "41".repeat(9000)], ["feedFaults", "41ff".repeat(9000)]]) {
        const decoder = new Decoder();
        assert.deepEqual([...decoder.feed(ofHex("e282"))], []);
        globalThis.Uint8Array = Object.setPrototypeOf(Object.assign(lacking, { prototype: Whole.prototype }), Whole);
        try {
            assert.throws(() => decoder[name](Buffer.from(other, "hex")), { message: "Array buffer allocation failed" });
        } finally {
            globalThis.Uint8Array = Whole;
        }
        assert.deepEqual([decoder.offset, decoder.held, [...decoder.feed(ofHex("ac41"))].map((it) => it.char).join("")], [0, 2, "€A"]);
    }
});

// ---- What it costs, and what it is made of.

each("a part of many bytes makes few objects at once, and many parts that nobody went through come in order", () => {
    const decoder = new Decoder();
    const before = process.memoryUsage().heapUsed;
    const given = decoder.feed(new Uint8Array(40_000_000).fill(0x61));
    assert.deepEqual([given.next().value, given.next().value].map((it) => it.offset), [0, 1]);
    assert.ok(process.memoryUsage().heapUsed - before < 4_000_000);
    assert.deepEqual([decoder.offset, decoder.held], [2, 39_999_998]);
    assert.equal([...decoder.feedFaults(ofHex("ff"))][0].offset, 40_000_000);
    const other = new Decoder("utf-16le");
    for (let i = 0; i < 100_000; i++) other.feed(Uint8Array.of(i % 2 ? 0 : 0x41));
    let next = 0;
    for (const { offset, char } of other.finish()) next += offset === next && char === "A" ? 2 : 0;
    assert.equal(next, 100_000);
});

each("the module's memory has its size for good: no view of it goes stale", ({ exports: { memory } }) => {
    assert.equal(memory.buffer.byteLength, 16 << 20);
    assert.throws(() => memory.grow(1), RangeError);
});

each("text is passed over by validation, and not split", ({ exports: calls }) => {
    let asked = 0;
    const counted = (...given) => {
        const status = calls.nody_decoder_feed(...given);
        asked += codec.number(codec.numbers + 8);
        return status;
    };
    const codec = new Codec({ ...calls, nody_decoder_feed: counted });
    use({ exports: codec.calls });
    for (const encoding of ["utf-8", "utf-16be"]) {
        const [bytes, decoder] = [new Uint8Array(1_000_000).fill(0x61), new Decoder(encoding)];
        for (let at = 5000; at < bytes.length; at += 10_000) bytes.set([0xdc, 0x61], at);
        asked = 0;
        const told = [];
        for (let at = 0; at < bytes.length; at += 65536) told.push(...decoder.feedFaults(bytes.subarray(at, at + 65536)));
        assert.equal(told.length, 100);
        // (32 pieces for each of the hundred places, of half a million or a million)
        assert.ok(asked <= 3200 + 32, `${asked}`);
    }
});

each("encodings by their labels, and options", () => {
    for (const [label, name] of [[undefined, "utf-8"], ["UTF8", "utf-8"], ["utf-16", "utf-16le"], [" UTF-16BE\n", "utf-16be"]]) assert.equal(new Decoder(label).encoding, name);
    for (const it of ["latin1", "", null, 8]) assert.throws(() => new Decoder(it), { name: "RangeError", message: /^noddychest: the encoding .* is not one of utf-8, utf-16le, utf-16be$/ });
    for (const it of [ofHex("41"), new Uint8Array(50_000_000)]) assert.throws(() => new Decoder(it), { name: "TypeError", message: 'noddychest: an encoding is a string, as "utf-8", and no bytes' });
    for (const it of [undefined, {}, { offset: undefined }, { offset: 0 }, Object.create(null)]) assert.equal(new Decoder("utf-8", it).offset, 0);
    for (const [it, name] of [[null, "null"], [7, "a number"], ["7", "a string"]]) assert.throws(() => new Decoder("utf-8", it), { name: "TypeError", message: `noddychest: options are an object, as { offset: 0 }, or left out, and not ${name}` });
    const zero = new Decoder("utf-8", { offset: -0 });
    assert.deepStrictEqual([zero.offset, zero.held], [0, 0]);
    for (const offset of [-1, 0.5, NaN, Infinity, "1", 1n, null, 2 ** 53]) assert.throws(() => new Decoder("utf-8", { offset }), { name: "RangeError", message: /an offset is a whole number/ });
    assert.throws(() => Decoder("utf-8"), TypeError);
});

test("a part that was read to its end is not kept", async () => {
    v8.setFlagsFromString("--expose-gc");
    const [gc, decoder] = [vm.runInNewContext("gc"), new installed.Decoder()];
    // (memory may be given back a while after it was collected)
    const isBelow = async (most) => {
        for (let turn = 0; turn < 100 && process.memoryUsage().arrayBuffers >= most; turn++) {
            await new Promise((resolve) => setTimeout(resolve, 20));
            gc();
        }
        return process.memoryUsage().arrayBuffers < most;
    };
    gc();
    const most = process.memoryUsage().arrayBuffers + 1_000_000;
    for (const it of decoder.feed(new Uint8Array(2_000_000))) assert.equal(it.char, "\0");
    assert.deepEqual([await isBelow(most), decoder.offset], [true, 2_000_000]);
});

test("the installed package has it, over a stream too", async () => {
    const decoder = new installed.Decoder("utf-16be");
    const told = [];
    async function* parts() {
        for (const it of ["d83d", "de00dc", "00"]) yield ofHex(it);
    }
    for await (const part of parts()) told.push(...decoder.feed(part));
    assert.deepEqual([...told, ...decoder.finish()], [{ offset: 0, length: 4, char: "😀", error: null }, { offset: 4, length: 2, char: null, error: "UnexpectedTrailingSurrogate" }]);
});
