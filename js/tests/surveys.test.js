// Surveys and guesses: of texts whose encoding is known, whole and in parts, and of what is no bytes.
import assert from "node:assert/strict";
import { readFileSync } from "node:fs";
import test from "node:test";
import { Surveyor, guess, guessText, survey } from "noddychest";
import { chances, damaged, divided, hexOf, ofHex } from "./help.js";

const utf8 = (text) => new TextEncoder().encode(text);
const latin1 = (text) => Uint8Array.from(Buffer.from(text, "latin1"));
const units = (text, isBig) => Uint8Array.from(isBig ? Buffer.from(text, "utf16le").swap16() : Buffer.from(text, "utf16le"));
const FRENCH = "Le café où l'été dernier nous étions à l'aise, « déjà vu » : naïveté, garçon.\n";
const RUSSIAN = "Все счастливые семьи похожи друг на друга.\n";
const CHINESE = "人人生而自由，在尊严和权利上一律平等。\n";

// The Russian words "Все семьи", as Python's codecs encode them.
const KOI8 = ofHex("f7d3c520d3c5cdd8c9");
const CP1251 = ofHex("c2f1e520f1e5ecfce8");
const TEXTS = [
    [utf8("plain text\n"), "Ascii"], [utf8(""), "Ascii"], [utf8(FRENCH), "Utf8"], [utf8(RUSSIAN), "Utf8"], [utf8("\ufeff" + FRENCH), "Utf8Marked"],
    [units(FRENCH, false), "Utf16Le"], [units(RUSSIAN, true), "Utf16Be"], [units(CHINESE, false), "Utf16Le"], [units("\ufeff" + RUSSIAN, false), "Utf16LeMarked"],
    [units("\ufeff" + FRENCH, true), "Utf16BeMarked"], [ofHex("fffe0000610000"), "Utf32"], [latin1(FRENCH), "Windows1252"], [KOI8, "Other8Bit"], [CP1251, "Other8Bit"],
    [utf8(Buffer.from(utf8(FRENCH)).toString("latin1")), "Utf8Twice"], [utf8(RUSSIAN).subarray(1), "Utf8Cut"], [utf8(FRENCH + "é").slice(0, -1), "Utf8Cut"],
    [Uint8Array.of(...utf8(RUSSIAN), 0xe9, 0x21), "Utf8Mixed"], [ofHex("61eda0bdedb880"), "Utf8Surrogates"], [ofHex("7f454c46020101"), "Binary"],
];

test("texts whose encoding is known", () => {
    for (const [bytes, wanted] of TEXTS) {
        assert.equal(guess(bytes), wanted, hexOf(bytes));
        const found = survey(bytes);
        assert.equal(found.guess, wanted);
        assert.equal(found.guesses[0], wanted);
        assert.ok(found.guesses.length <= 3 && new Set(found.guesses).size === found.guesses.length);
    }
    assert.deepEqual(survey(latin1("café")).guesses, ["Windows1252", "Other8Bit"]);
    assert.deepEqual(survey(KOI8).guesses, ["Other8Bit", "Windows1252"]);
    assert.deepEqual(survey(utf8("café")).guesses, ["Utf8"]);
});

test("names and texts are those of the header for C", () => {
    const header = readFileSync(new URL("../../c/noddychest.h", import.meta.url), "utf8");
    const names = [...header.matchAll(/NODY_GUESS_(\w+) = (\d+)/g)].sort((a, b) => a[2] - b[2]).map((it) => it[1].replaceAll("_", "").toLowerCase());
    const texts = [...header.split("nody_guess_text(nody_guess_t guess) {")[1].split("};")[0].matchAll(/"(.*)"/g)].map((it) => it[1]);
    const types = readFileSync(new URL("../index.d.ts", import.meta.url), "utf8").split("export type Guess =")[1].split(";")[0];
    const own = [...types.matchAll(/\| "(\w+)"/g)].map((it) => it[1]);
    assert.deepEqual(own.map((it) => it.toLowerCase()), names);
    assert.deepEqual(own.map(guessText), texts);
    for (const it of ["", "utf8", "Utf7", null, undefined, 1, "toString", Symbol("Utf8")]) assert.throws(() => guessText(it), { name: "RangeError", message: /^noddychest: no guess has the name / });
});

test("counts are those that TextDecoder and a loop give", () => {
    const chance = chances(11);
    for (let i = 0; i < 300; i++) {
        const bytes = damaged(chance, chance(60));
        const found = survey(bytes);
        assert.equal(found.length, bytes.length);
        assert.equal(found.nul, bytes.filter((it) => it === 0).length);
        assert.deepEqual([...found.front], [...bytes.subarray(0, 4)]);
        // (each invalid byte is a maximal subpart of itself, if a character cannot begin before it)
        let [chars, faults] = [0, 0];
        for (let at = 0; at < bytes.length; ) {
            const size = [4, 3, 2].find((it) => at + it <= bytes.length && isCharacter(bytes.subarray(at, at + it)));
            if (size) chars++;
            else if (bytes[at] > 0x7f) faults++;
            at += size ?? 1;
        }
        assert.deepEqual([found.utf8.chars, found.utf8.faults], [chars, faults], hexOf(bytes));
    }
});

// Whether TextDecoder takes these bytes for one character that is not ASCII.
function isCharacter(bytes) {
    try {
        return [...new TextDecoder("utf-8", { fatal: true, ignoreBOM: true }).decode(bytes)].length === 1 && bytes[0] > 0x7f;
    } catch {
        return false;
    }
}

test("parts are surveyed as the whole", () => {
    const chance = chances(12);
    for (const [bytes] of TEXTS) {
        const whole = survey(bytes);
        for (let i = 0; i < 8; i++) {
            const surveyor = new Surveyor();
            for (const part of divided(chance, bytes, 9)) surveyor.feed(part);
            assert.deepEqual(surveyor.survey(), whole);
        }
    }
});

test("a survey does not end the input", () => {
    const surveyor = new Surveyor();
    surveyor.feed(ofHex("636166c3"));
    assert.equal(surveyor.survey().guess, "Windows1252");
    surveyor.feed(ofHex("a9"));
    assert.equal(surveyor.survey().guess, "Utf8");
});

test("an input that is longer than the module's memory", () => {
    const line = utf8(RUSSIAN);
    const bytes = new Uint8Array(25_000_000);
    for (let at = 0; at + line.length <= bytes.length; at += line.length) bytes.set(line, at);
    bytes.fill(0x21, bytes.length - (bytes.length % line.length));
    bytes[12_345_679] = 0xff;
    const found = survey(bytes);
    assert.equal(found.length, bytes.length);
    assert.ok(found.utf8.faults >= 1 && found.utf8.faults <= 2);
    assert.equal(found.guess, "Utf8Mixed");
});

test("what is no bytes is refused, and changes nothing", () => {
    const surveyor = new Surveyor();
    surveyor.feed(ofHex("61"));
    const before = surveyor.survey();
    for (const it of ["", "text", null, undefined, 5, [1, 2], {}, [new Uint8Array(1)]]) {
        for (const call of [guess, survey, (given) => surveyor.feed(given)]) assert.throws(() => call(it), { name: "TypeError", message: /bytes are a Uint8Array/ });
    }
    const gone = new Uint8Array(4);
    structuredClone(gone, { transfer: [gone.buffer] });
    for (const call of [guess, survey, (given) => surveyor.feed(given)]) assert.throws(() => call(gone), { name: "TypeError" });
    assert.deepEqual(surveyor.survey(), before);
    for (const it of [new DataView(ofHex("636166e9").buffer), ofHex("636166e9").buffer, new Uint8Array(ofHex("00636166e9").buffer, 1)]) assert.equal(guess(it), "Windows1252");
    const shared = new Uint8Array(new SharedArrayBuffer(4));
    shared.set(ofHex("636166e9"));
    assert.equal(guess(shared), "Windows1252");
});

test("a part that is counted when the stack ends is counted once, or not at all", () => {
    const surveyor = new Surveyor();
    let fed = 0;
    const dive = () => {
        surveyor.feed(ofHex("c3a9"));
        fed++;
        dive();
    };
    for (let i = 0; i < 3; i++) assert.throws(dive, RangeError);
    const found = surveyor.survey();
    assert.ok(found.length >= 2 * fed && found.length <= 2 * (fed + 3));
    assert.deepEqual([found.utf8.faults, found.guess], [0, "Utf8"]);
});

test("surveyors do not share what they counted", () => {
    const [one, other] = [new Surveyor(), new Surveyor()];
    one.feed(ofHex("636166c3"));
    other.feed(ofHex("ff"));
    survey(utf8(RUSSIAN));
    one.feed(ofHex("a9"));
    assert.deepEqual([one.survey().guess, one.survey().length, other.survey().length], ["Utf8", 5, 1]);
});
