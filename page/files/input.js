// Bytes written as text, as people and tools write them; and for what a text was taken.
import { MOST } from "./codec.js";
import { bytesOfDump, looksLikeDump } from "./dumps.js";

const TOO_MANY = { told: "That is more than 10 MB." };
const wrong = (told) => ({ told });
const quoted = (text, at = 0) => `'${[...text.slice(at, at + 4)][0]}'`;

const fromHex = (digits) => Uint8Array.from({ length: digits.length / 2 }, (_, i) => parseInt(digits.slice(2 * i, 2 * i + 2), 16));

// UTF-8, in which a lone surrogate is written as UTF-8 has no right to: as an invalid byte and two more.
function utf8(scalar) {
    if (scalar < 0xd800 || scalar > 0xdfff) return new TextEncoder().encode(String.fromCodePoint(scalar));
    return [0xed, 0x80 | ((scalar >> 6) & 0x3f), 0x80 | (scalar & 0x3f)];
}

// Hexadecimal digits, two for each byte, whatever stands between the bytes.
function hexadecimal(text) {
    const digits = text.replace(/0x([0-9a-f])(?![0-9a-f])/gi, "0$1").replace(/0x|\.\.+|[\s,;:_\-[\]{}()<>|"']/gi, "");
    const other = digits.match(/[^0-9a-f]/iu);
    if (other) return wrong(`'${other[0]}' is no hexadecimal digit.`);
    if (digits.length % 2) return wrong("One digit is missing: each byte has two.");
    return { bytes: fromHex(digits), took: digits ? "hexadecimal digits" : "" };
}

// What stands in the brackets of an array, with what languages write around it; null where there are none.
function inBrackets(text) {
    const groups = Array.from(text.matchAll(/[[{(<]([^[\]{}()<>]*)[\]})>]/g));
    const [longest] = groups.sort((one, other) => other[1].length - one[1].length);
    if (!longest) return null;
    const around = text.replace(longest[0], "").replace(/[[\]{}()<>;,\s]/g, "");
    return around === "" || /[g-z_=]/i.test(around) ? longest[1] : null;
}

const CASTS = /\((?:unsigned |signed )?(?:byte|char|u?int8(?:_t)?)\)/gi;

function tokensOf(text) {
    const plain = text.replace(CASTS, " ");
    return (inBrackets(plain) ?? plain).split(/[\s,;]+/).filter((it) => it && !/^\.\.+$/.test(it));
}

// Numbers of a base, or with 0x, 0o or 0b before them, one for each byte. Negative ones are those of a signed byte.
function numbers(text, base, took) {
    const bytes = [];
    for (const it of tokensOf(text)) {
        const value = /^0[xob][0-9a-f]+$/i.test(it) ? Number(it) : new RegExp(`^-?[${"0123456789".slice(0, base)}]+$`).test(it) ? parseInt(it, base) : NaN;
        if (!(value >= -128 && value <= 255)) return wrong(`'${it}' is no ${took.replace(/s$/, "")} from 0 to 255.`);
        bytes.push(value & 255);
    }
    return { bytes: Uint8Array.from(bytes), took };
}

const ESCAPES = { n: 10, r: 13, t: 9, a: 7, b: 8, f: 12, v: 11, e: 27, "\\": 92, "'": 39, '"': 34, "?": 63, "`": 96, $: 36, "/": 47, s: 32 };
const ESCAPE = /^\\(?:x\{?([0-9a-f]{1,2})\}?|u\{([0-9a-f]{1,6})\}|u([0-9a-f]{4})|U([0-9a-f]{8})|o?([0-7]{1,3})|(\r?\n)|([^]))/i;

// What a string of a programming language has, without its quotes, as bytes.
function bytesOfEscaped(text) {
    const bytes = [];
    for (let at = 0; at < text.length; ) {
        if (text[at] !== "\\") {
            const scalar = text.codePointAt(at);
            bytes.push(...utf8(scalar));
            at += scalar > 0xffff ? 2 : 1;
            continue;
        }
        const found = text.slice(at, at + 12).match(ESCAPE);
        const [all = "", hex, braced, four, eight, octal, , letter] = found ?? [];
        let scalar = parseInt(braced ?? four ?? eight ?? "", 16);
        let length = all.length;
        const low = scalar >= 0xd800 && scalar < 0xdc00 && text.slice(at + 6, at + 12).match(/^\\u(d[c-f][0-9a-f]{2})$/i);
        if (low) [scalar, length] = [0x10000 + ((scalar - 0xd800) << 10) + parseInt(low[1], 16) - 0xdc00, 12];
        if (hex !== undefined) bytes.push(parseInt(hex, 16));
        else if (octal !== undefined && parseInt(octal, 8) < 256) bytes.push(parseInt(octal, 8));
        else if (scalar <= 0x10ffff) bytes.push(...utf8(scalar));
        else if (letter in ESCAPES) bytes.push(ESCAPES[letter]);
        else if (!found || letter || octal || scalar) return wrong(`'${text.slice(at, at + 2)}' begins no byte: \\x has two hexadecimal digits after it, and \\ three octal ones up to 377.`);
        at += length;
    }
    return { bytes: Uint8Array.from(bytes), took: "escapes" };
}

// What a program has around a literal: a name and =, or a call.
const inCode = (text) => text.match(/^[\w.:]+\(\s*(\w{0,2}["'][^]*["'])\s*\)\s*;?$/)?.[1] ?? text.match(/^[\w\s*[\]:&]+=\s*(\w{0,2}["'][^]*["'])\s*;?$/)?.[1] ?? text;

// The strings of a literal, one after the other; null where the text is none.
function literals(text) {
    const parts = [];
    for (let rest = inCode(text); rest; ) {
        const found = rest.match(/^(?:b|B|u8|L|c|br?|\$|E)?(?:"((?:\\[^]|[^"\\])*)"|'((?:\\[^]|[^'\\])*)')[\s,;+\\)\]}]*/);
        if (!found) return null;
        parts.push(found[1] ?? found[2]);
        rest = rest.slice(found[0].length);
    }
    return parts.length ? parts.join("") : null;
}

function escapes(text) {
    const inside = literals(text);
    if (inside !== null) {
        const made = bytesOfEscaped(inside);
        return made.bytes ? { ...made, took: /^b/i.test(inCode(text)) ? "a bytes literal" : "a string literal" } : made;
    }
    const isSpaced = /^(?:\\x[0-9a-f]{2}|\\[0-7]{3})(?:[\s,;]+(?:\\x[0-9a-f]{2}|\\[0-7]{3}))+[\s,;]*$/i.test(text);
    return bytesOfEscaped(isSpaced ? text.replace(/[\s,;]+/g, "") : text);
}

// Text in which a mark and two hexadecimal digits stand for a byte.
function marked(text, mark, took) {
    const bytes = [];
    for (let at = 0; at < text.length; ) {
        const digits = text.slice(at + 1, at + 3);
        if (text[at] === mark && /^[0-9a-f]{2}$/i.test(digits)) {
            bytes.push(parseInt(digits, 16));
            at += 3;
        } else if (text[at] === mark) return wrong(`After ${quoted(mark)} come two hexadecimal digits, and not '${digits}'.`);
        else {
            const scalar = text.codePointAt(at);
            bytes.push(...utf8(scalar));
            at += scalar > 0xffff ? 2 : 1;
        }
    }
    return { bytes: Uint8Array.from(bytes), took };
}

const percent = (text) => marked(text, "%", "percent-encoding, as in addresses");
// (at the end of a line = joins it with the next one)
const printable = (text) => marked(text.replace(/=\r?\n/g, ""), "=", "quoted-printable, as in mail");

function base64(text) {
    const plain = text.replace(/\s/g, "").replace(/-/g, "+").replace(/_/g, "/").replace(/=+$/, "");
    const other = plain.match(/[^A-Za-z0-9+/]/u);
    if (other) return wrong(`'${other[0]}' does not stand in base64.`);
    if (plain.length % 4 === 1) return wrong("Base64 of this length is cut off.");
    return { bytes: Uint8Array.from(atob(plain), (it) => it.charCodeAt(0)), took: "base64" };
}

function dump(text, only) {
    const found = bytesOfDump(text, only);
    if (found && !found.bytes) return wrong(found.told);
    return found ? { bytes: found.bytes, took: found.told, note: `Offsets and the text column are left out. ${found.note ?? ""}`.trim() }
        : wrong("This is no dump of xxd, hexdump, od, gdb or lldb, or lines of it are missing: its offsets do not count the bytes before them.");
}

// Numbers of a base: a list, or the columns of a dump.
function ofBase(text, base, name) {
    const columns = dump(text, name);
    return columns.bytes ? columns : numbers(text, base, `${name} numbers`);
}
const decimal = (text) => ofBase(text, 10, "decimal");
const octal = (text) => (/\\/.test(text) ? escapes(text) : ofBase(text, 8, "octal"));
const binary = (text) => {
    const bits = (inBrackets(text) ?? text).replace(/0b|[\s,;_]/gi, "");
    if (/[^01]/.test(bits) || bits.length % 8) return wrong("Each byte has eight binary digits.");
    return { bytes: Uint8Array.from(bits.match(/.{8}/g) ?? [], (it) => parseInt(it, 2)), took: "binary digits" };
};

// The ways to read a text that a person can ask for.
export const READERS = { hexadecimal, decimal, octal, binary, escapes, percent, base64, dump };

// A link of the scheme data.
function dataLink(text) {
    const found = text.match(/^data:([^,]*),([^]*)$/i);
    if (!found) return wrong("A data: address has a comma before its data.");
    const data = percent(found[2]);
    if (!data.bytes || !/;base64$/i.test(found[1])) return data.bytes ? { ...data, took: "a data: address" } : data;
    const made = base64(new TextDecoder().decode(data.bytes));
    return made.bytes ? { ...made, took: "a data: address in base64" } : made;
}

// What SQL writes: X'68c3', and PostgreSQL's \x68c3.
function ofSql(text) {
    const digits = text.match(/^(?:x|b|_binary\s*x)'([0-9a-f\s]*)'[;,]?$/i)?.[1] ?? text.match(/^(?:E?'\\?)?\\x((?:[0-9a-f]{2}){2,})'?(?:::bytea)?;?$/i)?.[1];
    if (digits === undefined) return null;
    const made = hexadecimal(digits);
    return made.bytes ? { ...made, took: "hexadecimal digits of SQL" } : made;
}

// <Buffer 68 c3> of Node, of which no more than the first bytes may be there.
function ofNode(text) {
    const found = text.match(/^<(?:Buffer|SlowBuffer)\s*([0-9a-f\s]*?)(?:\s*\.\.\.\s*(\d+) more bytes?)?>$/i);
    if (!found) return null;
    const made = hexadecimal(found[1]);
    return made.bytes ? { ...made, took: "a Buffer as Node prints it", note: found[2] ? `${found[2]} more bytes are not in this text.` : "" } : made;
}

// Numbers between commas or spaces, where they are no pairs of hexadecimal digits.
function ofNumbers(text) {
    const tokens = tokensOf(text);
    if (!tokens.length || !tokens.every((it) => /^(?:-?\d{1,3}|0x[0-9a-f]{1,2}|0b[01]{1,8}|0o[0-7]{1,3})$/i.test(it))) return null;
    if (tokens.every((it) => /^0x/i.test(it))) return numbers(text, 10, "numbers with 0x");
    const isList = (tokens.length > 1 && /,/.test(text)) || inBrackets(text.replace(CASTS, " ")) !== null;
    const isSpaced = tokens.length > 1 && tokens.some((it) => it.length === 3 || it.startsWith("-"));
    if (!isList && !isSpaced && !tokens.some((it) => /^0[xbo]/i.test(it))) return null;
    const tens = numbers(text, 10, "decimal numbers");
    if (isList) return tens;
    const eights = tokens.every((it) => it.length === 3) ? numbers(text, 8, "octal numbers") : {};
    if (tens.bytes && eights.bytes) return wrong("These may be decimal or octal numbers: choose which.");
    return eights.bytes ? eights : tens;
}

// Letters of base64 in fours: padded, or at least eight of them, one of which is no hexadecimal digit. (What is none of them is looked for:
// of megabytes that have to match as a whole, browsers give up)
function looksLikeBase64(text) {
    const letters = text.replace(/={1,2}$/, "");
    if (text.length % 4 || !letters || /[^\w+/-]/.test(letters)) return false;
    return letters.length < text.length || (text.length >= 8 && /[g-z]/i.test(text));
}

// By the first of these that a text looks like.
const LOOKS = [
    [(text) => /^data:/i.test(text), dataLink],
    [(text) => bytesOfDump(text) !== null || looksLikeDump(text), dump],
    [(text) => ofSql(text) !== null, ofSql],
    [(text) => ofNode(text) !== null, ofNode],
    [(text) => /\\(?:x[0-9a-f]|u[0-9a-f{]|U[0-9a-f]|[0-7]|[nrtabfve"'\\])/.test(text) || literals(text) !== null && /^(?:b|B)?["']/.test(text) && !/^["'](?:0x)?[0-9a-f\s,]*["']$/i.test(text), escapes],
    [(text) => /%[0-9a-f]{2}/i.test(text) || /^%/.test(text), percent],
    [(text) => ofNumbers(text) !== null, ofNumbers],
    [(text) => "bytes" in hexadecimal(inBrackets(text) ?? text), (text) => hexadecimal(inBrackets(text) ?? text)],
    [(text) => /=[0-9A-F]{2}/.test(text), printable],
    [(text) => looksLikeBase64(text.replace(/\s/g, "")), base64],
    [() => true, (text) => hexadecimal(inBrackets(text) ?? text)],
];

// The bytes of a text, for what it was taken, and what else to say of it; or what is wrong with it.
export function bytesOf(given, reader = "") {
    if (given.length > 8 * MOST) return TOO_MANY;
    const text = given.trim();
    // (the offsets of a dump stand in columns: what is before the first one counts)
    const lines = given.replace(/^(?:[ \t]*\r?\n)+/, "").trimEnd();
    const shown = (read) => ([dump, decimal, octal].includes(read) ? lines : text);
    const read = READERS[reader] ?? (text ? LOOKS.find(([fits, it]) => fits(shown(it)))[1] : hexadecimal);
    const made = read(shown(read));
    return made.bytes?.length > MOST ? TOO_MANY : { note: "", took: "", ...made };
}

// An offset in decimal or, after 0x, in hexadecimal; NaN where it is none, or empty.
export function offsetOf(text) {
    return /^\s*(\d+|0x[0-9a-f]+)\s*$/i.test(text) ? Number(text) : NaN;
}
