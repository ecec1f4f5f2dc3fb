// For what a text in the one field is taken: text, bytes as people write them, or a dump; and its bytes, or why it cannot be read so.
import { UTF16LE, UTF8, joined } from "./codec.js";
import { bytesOfDump, looksLikeDump } from "./dumps.js";
import { READERS, bytesOf } from "./input.js";

// The ways that a person can choose, with their names.
export const WAYS = { text: "text", hexadecimal: "hexadecimal", dump: "a dump", escapes: "escapes (\\xC3)", percent: "percent-encoding", decimal: "decimal numbers", octal: "octal numbers", binary: "binary digits", base64: "base64" };

// More is hardly typed: it is text, or what a person chose.
const LONG = 1 << 24;

const PROMPT = /^\s*(?:[\w.-]+@[\w.-][^$#%>]*|\([\w .-]+\)\s*|~)?\s*[$#%>❯]\s+\S.*$/;
const lineBreak = /\r?\n/;

// A text without the command before a dump, the prompt after it, and comments at the ends of its lines.
function bare(text) {
    const lines = text.split(lineBreak);
    while (lines.length > 1 && (PROMPT.test(lines[0]) || !lines[0].trim())) lines.shift();
    while (lines.length > 1 && /^\s*(?:\S*[$#%>❯])?\s*$/.test(lines[lines.length - 1])) lines.pop();
    return lines.join("\n");
}

const withoutComments = (text) => text.replace(/(^|\s)(?:#|\/\/|;;|--\s).*$/gm, "").trimEnd();

// Lines of digits with the same bytes as text beside them, as a dump without its offsets has them; null if it is none.
function withoutOffsets(text) {
    const bytes = [];
    let hasText = false;
    for (const line of text.split(lineBreak).filter((it) => it.trim())) {
        const found = line.match(/^\s*((?:[0-9a-f]{2} {1,2})*[0-9a-f]{2})(?: {2,}\|(.*)\|| {2,}(.*?)|\s*)$/i) ?? line.match(/^\s*((?:[0-9a-f]{4} )*[0-9a-f]{2,4}) {2,}()(.*)$/i);
        if (!found) return null;
        const row = found[1].replace(/\s/g, "").match(/../g).map((it) => parseInt(it, 16));
        const beside = found[2] ?? found[3];
        if (beside !== undefined && beside.length > row.length) return null;
        hasText ||= Boolean(beside);
        for (const it of row) bytes.push(it);
    }
    return hasText ? Uint8Array.from(bytes) : null;
}

const tokens = (text) => text.split(/[\s,;]+/).filter((it) => it);
const isPair = (it) => /^(?:0x)?[0-9a-f]{2}$/i.test(it);
const isDigits = (it) => /^[0-9a-f]+$/i.test(it);

// Whether all or nearly all of a text are pairs of hexadecimal digits: then what is none is a mistake.
function looksLikeHex(text) {
    const found = tokens(text);
    const pairs = found.filter(isPair).length;
    return found.length >= 3 && pairs >= 0.6 * found.length && found.some((it) => /\d/.test(it));
}

function isHex(text) {
    const found = tokens(text.replace(/[[\]{}()<>"':|_-]/g, " "));
    if (!found.length || !found.every((it) => isDigits(it.replace(/^0x/i, "")) && it.replace(/^0x/i, "").length % 2 === 0)) return false;
    const digits = found.join("").replace(/0x/gi, "");
    // (words such as “decade” have only letters, and years only digits)
    return found.length > 1 ? found.every(isPair) || /\d/.test(digits) : digits.length >= 8 && /\d/.test(digits) || (digits.length >= 4 && /\d/.test(digits) && /[a-f]/i.test(digits));
}

const isBinary = (text) => {
    const found = tokens(text.replace(/0b/g, " "));
    return found.length > 1 && found.every((it) => /^[01]{8}$/.test(it)) && /1/.test(text);
};
const nearlyBinary = (text) => tokens(text).length > 2 && tokens(text).every((it) => /^[01]{4,9}$/.test(it)) && tokens(text).filter((it) => it.length === 8).length * 2 > tokens(text).length;

// Numbers that are a list of bytes, or that would be if they were not too large.
function isNumbers(text) {
    const inside = text.match(/^[\w\s.=*:&]*[[{(<]+([^[\]{}()]*)[\]})>]+;?$/)?.[1];
    const found = tokens(inside ?? text);
    const isNumber = (it) => /^-?(?:\d{1,4}|0x[0-9a-z]{1,2}|0b[01]{1,8}|0o[0-7]{1,3})$/i.test(it);
    if (!found.length || !found.every(isNumber)) return false;
    return inside !== undefined || (found.length > 1 && (/,/.test(text) || found.every((it) => /^0[xbo]/i.test(it)))) || (found.length === 1 && /^0x/i.test(text));
}

const isEscaped = (text) => /\\x[0-9a-f]{2}|\\[0-3][0-7]{2}|\\u\{?[0-9a-f]{4}/i.test(text) || /^b(?:'[^]*'|"[^]*")$/.test(text) || /\\x(?![0-9a-f]{2})/i.test(text);
const isPercent = (text) => /%[89a-f][0-9a-f]/i.test(text) || (/%[0-9a-f]{2}/i.test(text) && !/\s/.test(text));
const isQuoted = (text) => /=[89A-F][0-9A-F]/.test(text) && !/=[^0-9A-F\r\n]/.test(text);

function isBase64(text) {
    const plain = text.replace(/\s/g, "");
    if (plain.length < 4 || plain.length % 4 || !/^[\w+/-]+={0,2}$/.test(plain) || (/\s/.test(text.trim()) && plain.length < 60)) return false;
    const hasAll = /[a-z]/.test(plain) && /[A-Z]/.test(plain);
    return /=$/.test(plain) || (plain.length >= 12 && hasAll && /[0-9+/]/.test(plain));
}

// By the first of these that a text looks like: its way, and whether it could well be text.
const LOOKS = [
    ["", (text) => /^data:[^\s]*,/i.test(text)],
    ["dump", (text) => bytesOfDump(text) !== null || looksLikeDump(text)],
    ["", (text) => /^(?:x|b|_binary\s*x)'[0-9a-f\s]*'[;,]?$|^(?:E?'\\?)?\\x(?:[0-9a-f]{2}){2,}'?(?:::bytea)?;?$|^<(?:Slow)?Buffer/i.test(text)],
    ["escapes", isEscaped],
    ["binary", (text) => isBinary(text) || nearlyBinary(text)],
    ["", isNumbers],
    ["rows", (text) => lineBreak.test(text.trim()) || / {2}/.test(text.trim()) ? withoutOffsets(text)?.length > 1 && /\d/.test(text) : false],
    ["hexadecimal", (text) => isHex(text) || looksLikeHex(text)],
    ["percent", isPercent],
    ["", isQuoted],
    ["base64", isBase64],
];

// What a way reads, with what it took the text for; `told` if it cannot.
function readBy(way, text) {
    if (way === "rows") return { bytes: withoutOffsets(text), took: "a dump without offsets", way: "dump" };
    const made = bytesOf(text, way);
    // (without an offset a dump has one reading)
    const rows = way === "dump" && !made.bytes ? withoutOffsets(text) : null;
    return rows ? { bytes: rows, took: "a dump without offsets", way } : { ...made, way: way || "" };
}

// The bytes of text: its units recoded by the module. UTF-8 has no bytes for a lone surrogate; they are `lost`.
export function encoded(codec, text, form) {
    const units = new Uint16Array(text.length);
    for (let i = 0; i < units.length; i++) units[i] = text.charCodeAt(i);
    const bytes = new Uint8Array(units.buffer);
    if (form === UTF16LE) return { bytes, lost: 0 };
    const [chunks, state] = [[], codec.newRecoder(UTF16LE, UTF8)];
    codec.feed(state, bytes, chunks);
    codec.finish(state, chunks);
    return { bytes: joined(chunks), lost: codec.replacedBy(state) };
}

const asText = (codec, text) => ({ ...encoded(codec, text, UTF8), took: "text", way: "text" });

const NAMES = { ...WAYS, hexadecimal: "hexadecimal", dump: "a dump", escapes: "a literal with escapes", decimal: "a list of decimal numbers", octal: "a list of octal numbers", binary: "a list of binary digits" };

// What is wrong with a text, and at which character.
function mistake(text, way, told) {
    const said = told.replace(/\.$/, "");
    if (way === "hexadecimal") {
        if (/^\s*\*\s*$/m.test(text)) return "“*” stands for lines that were left out, and without offsets nobody knows how many";
        const other = tokens(text).find((it) => !isPair(it));
        if (other) return `This is not hexadecimal: “${other.slice(0, 12)}” at character ${text.indexOf(other) + 1}`;
    }
    const found = said.match(/'([^']+)'/);
    const at = found ? text.indexOf(found[1]) : -1;
    return `This is not ${NAMES[way] ?? "a list of bytes"}: ${said.replace(/'([^']*)'/g, "“$1”")}${at >= 0 ? ` (character ${at + 1})` : ""}`;
}

// The bytes of a text, for what it was taken and by which way, and whether it could be text as well; or `told`, what is wrong with it.
export function reading(codec, given, way = "") {
    if (way === "text" || (!way && (given.length > LONG || !given.trim()))) return asText(codec, given);
    const trimmed = bare(given);
    for (const text of new Set([trimmed, withoutComments(trimmed)])) {
        const lines = text.replace(/^(?:[ \t]*\r?\n)+/, "").trimEnd();
        const found = way ? [way] : LOOKS.find(([name, fits]) => fits(name === "dump" || name === "rows" ? lines : text.trim()));
        if (!found) continue;
        const made = readBy(found[0], lines);
        if (made.bytes) return { ...made, lost: 0, isDoubtful: !way && isDoubtful(found[0], text) };
        const isLast = text === withoutComments(trimmed);
        if (isLast) return { told: mistake(given, found[0], made.told), way: found[0] in READERS ? found[0] : "" };
    }
    return way ? { told: `This cannot be read as ${WAYS[way]}.`, way } : asText(codec, given);
}

const isDoubtful = (way, text) => (way === "hexadecimal" || way === "base64") && !/\s/.test(text.trim()) && text.trim().length < 24;
