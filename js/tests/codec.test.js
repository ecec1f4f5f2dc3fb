// The module's calls as plain numbers, over both modules: big-endian bytes before and after a call has made them little-endian.
import assert from "node:assert/strict";
import { readFileSync } from "node:fs";
import test from "node:test";
import { Codec, UTF16BE, UTF16LE, hasVectors } from "../codec.js";
import { chances, damaged, hexOf, ofHex } from "./help.js";

const NAMES = ["noddychest.wasm", ...(hasVectors() ? ["noddychest-simd.wasm"] : [])];
const codecs = NAMES.map((name) => new Codec(new WebAssembly.Instance(new WebAssembly.Module(readFileSync(new URL(`../${name}`, import.meta.url)))).exports));

// Exchanges the bytes of each whole unit.
const exchanged = (bytes) => Uint8Array.from(bytes, (_, at) => bytes[at ^ 1] ?? bytes[at]);
const told = (codec) => [codec.validUpTo(), codec.countBetween(0, codec.len), codec.recodedLength(0), [...Array(codec.len + 1).keys()].map((at) => [codec.boundary(at), codec.boundary(at, true)]), codec.pieces(0, codec.len)];

test("big-endian bytes give what little-endian ones give, whichever call comes first", () => {
    const chance = chances(8);
    for (const codec of codecs) {
        for (let i = 0; i < 400; i++) {
            const bytes = damaged(chance, chance(30));
            codec.fill(exchanged(bytes), UTF16LE);
            const wanted = told(codec);
            codec.fill(bytes, UTF16BE);
            if (i % 2) codec.run(0);
            assert.deepEqual(told(codec), wanted, hexOf(bytes));
            assert.equal(hexOf(codec.bytes), hexOf(bytes));
            assert.deepEqual(told(codec), wanted, hexOf(bytes));
        }
    }
});

test("bytes that are set are seen by all calls, and in the bytes that were given out", () => {
    for (const codec of codecs) {
        for (const isTurned of [false, true]) {
            codec.fill(ofHex("d83dde00d8"), UTF16BE);
            if (isTurned) codec.run(0);
            codec.setByte(0, 0x00);
            assert.equal(hexOf(codec.bytes), "003dde00d8");
            const { bytes } = codec;
            assert.equal(codec.validUpTo(), 2);
            codec.setByte(4, 0x41);
            codec.setByte(2, 0x26);
            assert.equal(codec.validUpTo(), 4);
            assert.deepEqual(codec.pieces(0, 5).map((it) => it.scalar), [0x3d, 0x2600, 0]);
            assert.equal(hexOf(codec.bytes), "003d260041");
            assert.equal(bytes, codec.bytes);
        }
    }
});

test("after a call that did not return another instance is taken, and once more where that is not made to its end", () => {
    const full = () => {
        throw new RangeError("the stack is full");
    };
    for (const name of NAMES) {
        const made = new WebAssembly.Module(readFileSync(new URL(`../${name}`, import.meta.url)));
        const calls = () => new WebAssembly.Instance(made).exports;
        const others = [full, () => ({ ...calls(), __heap_base: { get value() { return full(); } } }), calls];
        const codec = new Codec({ ...calls(), nody_char_count: full }, () => others.shift()());
        const [bytes, told] = [ofHex("c3a9c3a9"), { message: "the stack is full" }];
        const filled = codec.fill(bytes);
        assert.throws(() => codec.countBetween(0, 4), told);
        assert.equal(codec.holds(filled), false);
        for (let i = 0; i < 2; i++) assert.throws(() => codec.fill(bytes), told);
        assert.equal(codec.holds(codec.fill(bytes)), true);
        assert.deepEqual([codec.countBetween(0, 4), codec.validUpTo(), others.length], [2, 4, 0]);
    }
});
