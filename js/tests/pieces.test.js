import assert from "node:assert/strict";
import test from "node:test";
import { Ends, firstFault, isValid, pieces, piecesBack } from "noddychest";
import { chances, damaged, ofHex, rows } from "./help.js";

const told = (it) => (it ? `${it.offset} ${it.length} ${it.error ?? it.char.codePointAt(0).toString(16).padStart(6, "0")}` : "none");
const whole = (bytes) => [...pieces(bytes)];

test("the example of the README", () => {
    const bytes = ofHex("68c3a9e28241f09f9880");
    assert.deepEqual(whole(bytes).map(told), ["0 1 000068", "1 2 0000e9", "3 1 InterruptedSequence", "4 1 UnexpectedContinuationByte", "5 1 000041", "6 4 01f600"]);
    assert.deepEqual(whole(bytes)[1], { offset: 1, length: 2, char: "é", error: null });
    assert.deepEqual(firstFault(bytes), { offset: 3, length: 1, char: null, error: "InterruptedSequence" });
});

test("the stored vectors, forward and by a word of both ends", () => {
    const listed = rows("bytes.txt");
    assert.equal(listed.length, 500);
    for (const [hex, forward, , word, walk] of listed) {
        const bytes = ofHex(hex);
        assert.equal(whole(bytes).map(told).join(";"), forward);
        const ends = new Ends(bytes);
        assert.equal([...word].map((it) => told(it === "F" ? ends.next() : ends.nextBack())).join(";"), walk);
    }
});

test("pieces joined are the bytes, characters are those of TextDecoder, and both directions agree", () => {
    const chance = chances(1);
    for (let i = 0; i < 3000; i++) {
        const bytes = damaged(chance, chance(40));
        const found = whole(bytes);
        let at = 0;
        for (const { offset, length, char, error } of found) {
            assert.equal(offset, at);
            if (error) assert.equal(length, 1);
            else assert.equal(new TextDecoder("utf-8", { fatal: true, ignoreBOM: true }).decode(bytes.subarray(at, at + length)), char);
            at += length;
        }
        assert.equal(at, bytes.length);
        assert.deepEqual([...piecesBack(bytes)].reverse().map((it) => [it.offset, it.char]), found.map((it) => [it.offset, it.char]));
        const first = found.find((it) => it.error) ?? null;
        assert.deepEqual(firstFault(bytes), first);
        let isText = true;
        try {
            new TextDecoder("utf-8", { fatal: true }).decode(bytes);
        } catch {
            isText = false;
        }
        assert.equal(isValid(bytes), isText);
        assert.equal(first === null, isText);
    }
});

test("blocks leave no trace: each piece of long inputs is that of the bytes near it", () => {
    const chance = chances(2);
    for (let i = 0; i < 20; i++) {
        const bytes = damaged(chance, 4090 + chance(12) + 4096 * chance(3));
        const [forward, ends] = [whole(bytes), new Ends(bytes)];
        for (const it of forward) assert.deepEqual(ends.next(), it);
        assert.equal(ends.next(), null);
        const again = new Ends(bytes);
        for (const it of piecesBack(bytes)) assert.deepEqual(again.nextBack(), it);
        assert.equal(again.remaining.length, 0);
    }
});

test("the first invalid byte on both sides of a megabyte", () => {
    const bytes = new Uint8Array((1 << 20) + 40).fill(0x61);
    assert.equal(firstFault(bytes), null);
    for (let at = (1 << 20) - 8; at < (1 << 20) + 8; at++) {
        const [valid, broken] = [bytes.slice(), bytes.slice()];
        valid.set([0xf0, 0x9f, 0x98, 0x80], at);
        broken.set([0xf0, 0x9f, 0x98], at);
        assert.equal(isValid(valid), true);
        assert.deepEqual(firstFault(broken), { offset: at, length: 1, char: null, error: "InterruptedSequence" });
    }
});

test("two iterators at the same time, and what is left between both ends", () => {
    const [one, other] = [pieces(ofHex("41c3a9ff")), piecesBack(ofHex("e282acff"))];
    assert.deepEqual([one.next(), other.next(), one.next(), other.next()].map((it) => told(it.value)), ["0 1 000041", "3 1 NonUtf8Byte", "1 2 0000e9", "0 3 0020ac"]);
    const ends = new Ends(ofHex("41c3a9ff"));
    ends.nextBack();
    ends.next();
    assert.deepEqual([...ends.remaining], [0xc3, 0xa9]);
});

test("any bytes, at their real place; no strings", () => {
    const buffer = ofHex("0041c3a90000").buffer;
    for (const it of [new DataView(buffer, 1, 3), new Uint8Array(buffer, 1, 3), new Int8Array(buffer, 1, 3), buffer.slice(1, 4), Buffer.from("Aé")]) {
        assert.equal(whole(it).map((piece) => piece.char).join(""), "Aé");
    }
    assert.equal(whole(new Uint16Array(ofHex("4142c3a9").buffer)).length, 3);
    assert.deepEqual([whole(new ArrayBuffer(0)), firstFault(new Uint8Array(0)), isValid(new Uint8Array(0))], [[], null, true]);
    for (const it of ["text", [65], null, undefined, 65]) assert.throws(() => whole(it), TypeError);
    assert.throws(() => new Ends("text"), TypeError);
    assert.throws(() => firstFault("text"), TypeError);
});
