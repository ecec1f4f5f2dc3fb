// The sentences of the page, and how it writes numbers, bytes and characters.
import { UTF16BE, UTF16LE, UTF8 } from "./codec.js";
import { latinOf } from "./guess.js";
import { bytesOfValue, pairOf, subpartsOf, valueOf } from "./repair.js";
import { CAUSE, needOf } from "./survey.js";

export const ENCODINGS = ["UTF-8", "UTF-16LE", "UTF-16BE"];

// Whether offsets are written in hexadecimal.
export const offsets = { isHex: false };
export const number = (count) => count.toLocaleString("en");
export const offsetText = (offset) => (offsets.isHex ? `0x${offset.toString(16).toUpperCase()}` : number(offset));
export const counted = (count, one, more = `${one}s`) => `${number(count)} ${count === 1 ? one : more}`;
export const hexByte = (byte) => byte.toString(16).padStart(2, "0").toUpperCase();
export const hexOf = (bytes) => Array.from(bytes, hexByte).join(" ");
export const codePoint = (scalar) => `U+${scalar.toString(16).toUpperCase().padStart(4, "0")}`;
export const sizeText = (size) => (size < 10000 ? counted(size, "byte") : size < 1e6 ? `${Math.round(size / 1000)} kB` : size < 1e9 ? `${Number((size / 1e6).toFixed(size < 1e7 ? 1 : 0))} MB` : `${(size / 1e9).toFixed(1)} GB`);

const CONTROLS = "NUL SOH STX ETX EOT ENQ ACK BEL BS HT LF VT FF CR SO SI DLE DC1 DC2 DC3 DC4 NAK SYN ETB CAN EM SUB ESC FS GS RS US".split(" ");
const NAMED = { 9: "a tab", 10: "a line feed", 13: "a carriage return", 32: "a space", 34: "a quotation mark" };
const DRAWN = { 9: "→", 10: "↵", 13: "←", 32: "·", 160: "·" };

// What no text shows by itself, or what changes the order of the text around it.
const UNSEEN = /[\p{Cc}\p{Cf}\p{Zl}\p{Zp}\p{Co}\p{Cn}\p{Cs}]/u;
// (a joiner and the tags of emoji stay)
const HARMLESS = /[\u200c\u200d\ufe0f]/;

// Text in one line in which nothing acts: an arrow stands for a line end or a tab, a dot for other controls and format characters.
export const shown = (text) => Array.from(text, (it) => {
    const scalar = it.codePointAt(0);
    if (DRAWN[scalar] && scalar !== 32 && scalar !== 160) return DRAWN[scalar];
    return UNSEEN.test(it) && !HARMLESS.test(it) ? "·" : it;
}).join("");

// What is drawn for a character in the grid, and what stands below it.
export function glyph(scalar) {
    if (DRAWN[scalar]) return DRAWN[scalar];
    if (scalar < 0x20) return CONTROLS[scalar];
    if (scalar === 0x7f) return "DEL";
    const text = String.fromCodePoint(scalar);
    if (/\p{M}/u.test(text)) return `◌${text}`;
    return UNSEEN.test(text) || /\p{Z}/u.test(text) ? "·" : text;
}

const SCRIPTS = "Latin Greek Cyrillic Armenian Hebrew Arabic Devanagari Bengali Tamil Telugu Thai Georgian Hangul Ethiopic Khmer Hiragana Katakana Han".split(" ");
const KINDS = { L: "letter", M: "combining mark", N: "number", P: "punctuation", S: "symbol", Z: "space", Cc: "control character", Cf: "format character", Co: "private use" };
const matcher = (property, value, told) => [new RegExp(`^\\p{${property}=${value}}`, "u"), told];
const OF_SCRIPT = SCRIPTS.map((it) => matcher("Script", it, `${it} `));
const OF_KIND = Object.entries(KINDS).map(([it, told]) => matcher("General_Category", it, told));

// What the browser knows of a character: its script, of the common ones, and what sort of character it is.
export function describe(scalar) {
    const text = String.fromCodePoint(scalar);
    const found = (listed) => listed.find(([test]) => test.test(text))?.[1];
    return /^\p{Emoji_Presentation}/u.test(text) ? "emoji" : `${found(OF_SCRIPT) ?? ""}${found(OF_KIND) ?? "unassigned"}`;
}

// The name of what follows: a character of ASCII, or a byte.
const following = (byte) => (byte < 0 ? "nothing" : NAMED[byte] ?? (byte < 0x20 || byte === 0x7f ? CONTROLS[byte] ?? "DEL" : byte < 0x80 ? `“${String.fromCharCode(byte)}”` : hexByte(byte)));

const counts = ["no", "one", "2", "3", "4"];
const asciiOr = (scalar) => (scalar > 0x20 && scalar < 0x7f ? String.fromCharCode(scalar) : scalar > 0x10ffff ? scalar.toString(16).toUpperCase() : NAMED[scalar] ?? codePoint(scalar));

// All that is told of a place: in the list, in a word, as a sentence, and what probably happened. `after` is the byte that follows, or -1;
// `next` and `previous` are the places side by side with it, or null.
export function told(place, names, { form = UTF8, after = -1, next = null, previous = null, size = 0 } = {}) {
    const bytes = form === UTF8 ? bytesOfValue(place.value, place.length) : unitOf(place, form);
    const context = { place, bytes, hex: hexOf(bytes), after, next, previous, size, form, need: needOf(bytes[0]), name: names[place.kind] };
    const [list, word, sentence, probably] = BY_CAUSE[place.cause](context);
    return { list, word, sentence, probably, error: context.name };
}

// The bytes of a unit, the higher one first.
function unitOf({ value, length }, form) {
    const bytes = bytesOfValue(value, length);
    return form === UTF16LE ? bytes.reverse() : bytes;
}

const joined = (bytes) => bytes.map(hexByte).join("");

// By CAUSE, in its order.
const BY_CAUSE = [
    ({ bytes, need, after }) => [`Cut off after ${bytes.length} of ${need} bytes`, "cut off",
        `${hexByte(bytes[0])} begins a character of ${need} bytes, but only ${bytes.length === 1 ? "one is" : `${counts[bytes.length]} are`} here: ${following(after)} follows.`,
        "A character was cut off here: text was cut by bytes, not by characters, as by a full buffer or a short column."],
    ({ bytes, need }) => ["Cut off at the end", "cut off", `The input ends inside a character: ${bytes.length === 1 ? "one" : bytes.length} of its ${need} bytes ${bytes.length === 1 ? "is" : "are"} there.`,
        "The file or download was cut, or the rest is still to come. In a stream, keep these bytes for the next part."],
    ({ bytes, hex, need, after, name }) => [`${latinOf(bytes[0])} in Windows-1252`, `${latinOf(bytes[0])}?`,
        name === "NonUtf8Byte" ? `${hex} never occurs in UTF-8.` : need === 1 ? `${hex} continues a character, but none has begun.` : `${hex} begins a character of ${need} bytes, but only one is here: ${following(after)} follows.`,
        `This is Latin-1 or Windows-1252, where ${hex} is ${latinOf(bytes[0])}, and was not converted.`],
    ({ hex, place, bytes }) => ["Begins nothing", "stray", `${hex} continues a character, but none has begun.`,
        place.offset === 0 ? "The beginning was cut off: the first byte of this character is gone."
            : `The first byte of a character was lost or overwritten.${latinOf(bytes[0]) && bytes[0] < 0xa0 ? ` Or this is Windows-1252, where ${hex} is ${latinOf(bytes[0])}.` : ""}`],
    ({ hex, bytes, place, next }) => ["Never in UTF-8", "never", `${hex} never occurs in UTF-8.`, neverProbably(bytes[0], place, next)],
    ({ hex, bytes, name }) => {
        const scalar = valueOf(bytes);
        const isNul = joined(bytes) === "C080";
        const said = asciiOr(scalar);
        return [isNul ? "NUL of Java" : `Overlong ${said}`, "overlong",
            name === "NonUtf8Byte" ? `${hexByte(bytes[0])} never occurs in UTF-8. ${hex} would be ${said} in 2 bytes; the shortest is ${hexOf(new TextEncoder().encode(String.fromCodePoint(scalar)))}.`
                : `${hex} is ${said} in ${bytes.length} bytes; UTF-8 takes only the shortest, ${hexOf(new TextEncoder().encode(String.fromCodePoint(scalar)))}.`,
            isNul ? "A NUL, written by Java’s modified UTF-8." : "No correct program writes this. It was used to get ../ past filters: do not decode it."];
    },
    ({ hex, bytes, place, next, previous }) => {
        const pair = pairOf(place, next) || (previous && pairOf(previous, place));
        const surrogate = codePoint(valueOf(bytes));
        return [`Surrogate ${surrogate}`, "surrogate", `${hex} is ${surrogate}, half of a character of UTF-16. UTF-8 cannot have it.`,
            pair ? `With its other half ${pairOf(place, next) ? "behind" : "before"} it: ${pair}, written by Java’s modified UTF-8 or CESU-8.` : "A string was cut inside an emoji; or this is Java’s modified UTF-8 or CESU-8."];
    },
    ({ hex, bytes }) => [`Too high: ${valueOf(bytes).toString(16).toUpperCase()}`, "too high", `${hex} would be ${valueOf(bytes).toString(16).toUpperCase()}; code points end at U+10FFFF.`,
        "Binary data, or something made by the rules from before 2003."],
    ({ bytes, form }) => ["Second half alone", "half", `${joined(bytes)} is the second half of a pair, and the first is missing.`,
        `A string was cut inside an emoji, or the bytes are in the other order, ${ENCODINGS[form === UTF16LE ? UTF16BE : UTF16LE]}.`],
    ({ bytes }) => ["First half alone", "half", `${joined(bytes)} is the first half of a pair, and the second does not follow.`, "A string was cut inside an emoji, as by slice of JavaScript or substring of Java."],
    ({ place, bytes, size }) => (place.length === 1
        ? ["Half a unit at the end", "cut off", `The input ends inside a unit: it has ${counted(size, "byte")}, an odd number.`, "It was cut, or is not UTF-16."]
        : ["Ends after half a pair", "cut off", `The input ends after ${joined(bytes)}, the first half of a pair.`, "The file was cut, or more is to come."]),
    ({ place, bytes, form }) => {
        const many = `${number(place.length / (form === UTF8 ? 1 : 2))} × ${form === UTF8 ? hexByte(bytes[0]) : joined(bytes)}`;
        return [many, `all ${hexByte(bytes[0])}`, `${many}, side by side: none of them is a character.`, "An empty or erased block, a hole in a disk, or binary data."];
    },
];

function neverProbably(byte, { offset }, next) {
    if (offset < 2 && byte >= 0xfe) return "A byte order mark of UTF-16, perhaps: FF FE for UTF-16LE, FE FF for UTF-16BE.";
    const is = latinOf(byte);
    return `Binary data${next ? "" : is ? `, or ${is} of Windows-1252, where ${hexByte(byte)} is ${is}` : ""}.`;
}

// What a filter of the list says of a cause.
export const CAUSE_NAMES = ["Cut off", "Cut off at the end", "Windows-1252", "Begins nothing", "Never in UTF-8", "Overlong", "Surrogates", "Too high", "Second half alone", "First half alone", "Ends inside", "Equal bytes"];

// What the finding says of the first place, after its offset.
const IN_FINDING = ["a character is cut off", "a character is cut off at the end", "", "it continues a character, but none has begun", "never in UTF-8", "an overlong form", "half of a character of UTF-16", "a code point that is too high",
    "second half of a pair, alone", "first half of a pair, alone", "the input ends inside a character", ""];
export function inFinding(place, names, form) {
    if (place.cause === CAUSE.latin) return `${latinOf(bytesOfValue(place.value, 1)[0])} in Windows-1252`;
    if (place.cause === CAUSE.run) return `${told(place, names, { form }).list}`;
    return IN_FINDING[place.cause];
}

// How many U+FFFD decoders show for a place.
export function replacements(place, form) {
    if (form !== UTF8) return "";
    const subparts = subpartsOf(bytesOfValue(place.value, place.length), place.length, place.cause === CAUSE.run);
    return `U+FFFD here: ${number(subparts)} in Python, browsers, Rust; ${number(place.length)} in Go`;
}

// The bits of a byte: those that make its kind, the others, and what that kind is.
export function bitsOf(byte) {
    const bits = byte.toString(2).padStart(8, "0");
    const need = needOf(byte);
    if (byte < 0x80) return ["0", bits.slice(1), `a character by itself: ${following(byte)}`];
    if (byte < 0xc0) return ["10", bits.slice(2), "continues"];
    if (byte === 0xc0 || byte === 0xc1 || need === 1) return [bits.slice(0, byte < 0xf0 ? 3 : 5), bits.slice(byte < 0xf0 ? 3 : 5), "never in UTF-8"];
    return [`${"1".repeat(need)}0`, bits.slice(need + 1), `begins a character of ${need}`];
}

// The last part of an error's sentence, as the package has it.
export const reasonOf = (codec, kind) => codec.sentences[kind].replace(/^.*?: /, "");
