// Bytes as dumps show them: xxd, hexdump, od, gdb and lldb. The offsets of a dump say how its numbers are to be read: where they do not
// count the bytes before them, it is none.
import { MOST } from "./codec.js";

// The bytes of a number that was written as one word, the lower byte first.
function lowFirst(value, size) {
    return Array.from({ length: size }, (_, i) => Number((BigInt(value) >> BigInt(8 * i)) & 0xffn));
}

const pairs = (digits) => digits.match(/../g).map((it) => parseInt(it, 16));
const words = (size, value) => (it) => lowFirst(value(it), size);
const below = (most, value) => (it) => (value(it) < most ? value(it) : null);
const byte = (value) => (it) => {
    const found = below(256, value)(it);
    return found === null ? null : [found];
};
const octal = (it) => parseInt(it, 8);

// The columns of od and hexdump: how wide each is, where that is fixed; what a number looks like; its bytes; and what it is called.
const HEX_BYTES = { form: /^[0-9a-f]{2}$/i, bytes: pairs, size: 1, bases: { 6: [16], 7: [8, 10] }, told: "hexadecimal bytes" };
const HEX_WORDS = { form: /^[0-9a-f]{4}$/i, bytes: words(2, (it) => parseInt(it, 16)), size: 2, told: "hexadecimal words of two bytes, the lower byte first" };
const DECIMAL_WORDS = { form: /^\d{1,5}$/, bytes: (it) => (it < 65536 ? lowFirst(it, 2) : null), size: 2, told: "decimal words of two bytes, the lower byte first" };
const COLUMNS = [
    { ...HEX_BYTES, width: 3 },
    { form: /^[0-7]{3}$/, bytes: byte(octal), size: 1, width: 4, told: "octal bytes" },
    { form: /^\d{1,3}$/, bytes: byte(Number), size: 1, width: 4, told: "decimal bytes" },
    { form: /^-?\d{1,3}$/, bytes: (it) => (Math.abs(it) <= 128 ? [it & 255] : null), size: 1, width: 5, told: "signed decimal bytes" },
    { ...HEX_WORDS, width: 5 },
    { form: /^[0-7]{6}$/, bytes: (it) => (octal(it) < 65536 ? lowFirst(octal(it), 2) : null), size: 2, told: "octal words of two bytes, the lower byte first" },
    { ...DECIMAL_WORDS, width: 6 },
    { ...DECIMAL_WORDS, form: /^\d{5}$/, width: 8 },
    { form: /^[0-9a-f]{8}$/i, bytes: words(4, (it) => `0x${it}`), size: 4, told: "hexadecimal words of four bytes, the lower byte first" },
    { form: /^[0-9a-f]{16}$/i, bytes: words(8, (it) => `0x${it}`), size: 8, told: "hexadecimal words of eight bytes, the lower byte first" },
    { letters: true, size: 1, told: "letters and octal bytes" },
    HEX_BYTES,
    HEX_WORDS,
];
const LETTERS = { "\\0": 0, "\\a": 7, "\\b": 8, "\\t": 9, "\\n": 10, "\\v": 11, "\\f": 12, "\\r": 13 };

// A cell of `od -c`: a letter, an escape or three octal digits, at the right of four columns.
function letterOf(cell) {
    const it = cell.slice(1).trimStart() || " ";
    if (it in LETTERS) return [LETTERS[it]];
    if (/^[0-7]{3}$/.test(it)) return byte(octal)(it);
    return it.length === 1 && it.charCodeAt(0) < 0x80 ? [it.charCodeAt(0)] : null;
}

const cellsOf = (rest, width) => (rest.length % width === 0 ? rest.match(new RegExp(`[^]{${width}}`, "g")) ?? [] : null);

// The bytes of the rest of a line in that column, or null where it is written otherwise.
function bytesIn(column, rest) {
    const cells = column.width ? cellsOf(rest, column.width) : rest.split(/\s+/).filter((it) => it);
    if (!cells || (column.width && cells.some((it) => it[0] !== " "))) return null;
    const found = cells.map((it) => (column.form.test(it.trim()) ? column.bytes(it.trim()) : null));
    return found.includes(null) ? null : found.flat();
}

// The bytes of letters in columns, where one is no digit.
function bytesOfLetters(rest) {
    const found = cellsOf(rest, 4)?.map((it) => (it[0] === " " ? letterOf(it) : null)) ?? [null];
    return found.includes(null) ? null : found.flat();
}

// The bytes of lines of { offset, bytes }, or null where an offset is not the number of bytes before it.
function joinedLines(lines, base, size = 1) {
    const place = (it) => parseInt(it.offset, base) - parseInt(lines[0].offset, base);
    const found = [];
    let row = [];
    for (const [i, line] of lines.entries()) {
        if (line.isRepeated) {
            // The line before, again, up to the offset of the next one.
            const until = lines[i + 1]?.offset ? place(lines[i + 1]) : 0;
            if (!(until <= MOST) || !row.length || until % row.length) return null;
            while (found.length < until) for (const it of row) found.push(it);
            continue;
        }
        // (after an odd last byte the word is filled up by zeros, which the last offset leaves out)
        const over = found.length - place(line);
        if (!line.bytes.length && over > 0 && over < size && found.slice(-over).every((it) => it === 0)) found.length -= over;
        if (place(line) !== found.length) return null;
        row = line.bytes;
        for (const it of row) found.push(it);
    }
    return found.length ? Uint8Array.from(found) : null;
}

const REPEATED = { isRepeated: true, bytes: [] };

// Lines that one function reads all, or null.
function readLines(texts, read) {
    const lines = texts.map((it) => (it.trim() === "*" ? REPEATED : read(it)));
    return lines.includes(null) || lines[0].isRepeated ? null : lines;
}

// xxd: a colon, groups of digits, spaces and the text, of which each letter stands for a byte.
function readXxd(text) {
    const found = text.match(/^\s*([0-9a-f]{4,16}):(?:\s(.*))?$/i);
    return found && { offset: found[1], rest: found[2] ?? "" };
}

// What the text column shows: a dot for all that is no printable ASCII.
const shownAs = (bytes) => bytes.map((it) => (it >= 0x20 && it < 0x7f ? String.fromCharCode(it) : ".")).join("");

const WAYS = [
    [/^([0-9a-f]{2})+$/i, pairs, "what xxd prints"],
    [/^[01]{8}$/, (it) => [parseInt(it, 2)], "what xxd -b prints, bits"],
    [/^([0-9a-f]{2})+$/i, (it) => pairs(it).reverse(), "what xxd -e prints, words with the lower byte first"],
];

// The bytes of a line whose text column, where it has one, is that of these bytes.
function bytesOfXxd(rest, form, read, hasText) {
    const ends = [...Array.from(rest.matchAll(/ {2,}/g), (it) => it.index), rest.length];
    for (const end of ends) {
        const groups = rest.slice(0, end).split(/\s+/).filter((it) => it);
        if (!groups.every((it) => form.test(it))) continue;
        const bytes = groups.flatMap(read);
        if (end === rest.length || !hasText || rest.slice(end).trim() === shownAs(bytes).trim()) return bytes;
    }
    return null;
}

function xxd(texts) {
    const split = readLines(texts, readXxd);
    if (!split) return null;
    for (const [[form, read, told], hasText] of [...WAYS.map((it) => [it, true]), [WAYS[0], false]]) {
        const lines = split.map((it) => (it.isRepeated ? it : { offset: it.offset, bytes: bytesOfXxd(it.rest, form, read, hasText) }));
        const bytes = lines.every((it) => it.bytes) && joinedLines(lines, 16);
        if (bytes) return { bytes, told, note: hasText ? "" : "The text column shows other bytes than the digits." };
    }
    return null;
}

// hexdump -C: the text stands between bars.
function canonical(texts) {
    const read = (text) => {
        const found = text.match(/^\s*([0-9a-f]{6,16})(?:\s+((?:[0-9a-f]{2}\s+)*)\|.*\|?)?\s*$/i);
        return found && { offset: found[1], bytes: pairs(found[2]?.replace(/\s/g, "") || "  ").filter((it) => it >= 0) };
    };
    const lines = texts.some((it) => it.includes("|")) && readLines(texts, read);
    const bytes = lines && joinedLines(lines, 16);
    return bytes ? { bytes, told: "what hexdump -C prints" } : null;
}

// By how many digits an offset has, to which bases it may be: od prints 7, or 6 after 0x; hexdump prints 7 or 8.
const BASES = { 6: [16], 7: [8, 16, 10] };
const IN_BASE = { 8: /^[0-7]+$/, 10: /^\d+$/, 16: /^[0-9a-f]+$/i };

// All readings of lines of an offset and columns in which the offsets count the bytes.
function readingsOf(split, column) {
    for (const isPadded of [false, true]) {
        const read = (rest) => (column.letters ? bytesOfLetters(rest) : bytesIn(column, rest));
        const lines = split.map((it) => (it.isRepeated ? it : { offset: it.offset, bytes: read(isPadded ? it.rest.trimEnd() : it.rest) }));
        if (lines.some((it) => it.bytes === null)) continue;
        const bases = ((column.bases ?? BASES)[split[0].offset.length] ?? [16]).filter((base) => split.every((it) => it.isRepeated || IN_BASE[base].test(it.offset)));
        const found = bases.map((base) => joinedLines(lines, base, column.size)).filter((it) => it);
        if (found.length) return { found, isPadded };
    }
    return null;
}

// od and hexdump: an offset and columns. Offsets may be octal, decimal or hexadecimal.
function od(texts, only) {
    const split = readLines(texts, (text) => {
        const found = text.match(/^\s*([0-9a-f]{6,16})((?:\s.*)?)$/i);
        return found && { offset: found[1], rest: found[2].replace(/ {2}>.*<$/, "").replace(/^\t/, " ") };
    });
    if (!split || split.length < 2) return null;
    for (const column of COLUMNS.filter((it) => it.told.includes(only))) {
        const readings = readingsOf(split, column);
        if (!readings) continue;
        const [bytes] = readings.found;
        // (only lines that are left out can have two readings, but for zeros that fill up the last word)
        if (readings.found.some((it) => Math.abs(it.length - bytes.length) >= column.size)) return { told: "Its offsets may be octal, as of od, or hexadecimal, as of hexdump, and lines of it are left out. Ask od or hexdump for all lines, by the option -v." };
        return { bytes, told: `what od or hexdump prints, ${column.told}` };
    }
    return null;
}

// What is between an address and the end of a line of gdb or lldb. (no text can be divided in two ways, which would take exponential time)
const VALUES = [
    [/^(?:0x[0-9a-f]{2}\s*)+$/i, (rest) => rest.match(/0x[0-9a-f]+/gi).flatMap((it) => pairs(it.slice(2))), 1],
    ...[4, 8, 16].map((digits) => [new RegExp(`^(?:0x[0-9a-f]{${digits}}\\s*)+$`, "i"), (rest) => rest.match(/0x[0-9a-f]+/gi).flatMap((it) => lowFirst(it, digits / 2)), digits / 2]),
    [/^0[0-7]*(?:\s+0[0-7]*)*$/, (rest) => rest.trim().split(/\s+/).map(octal), 1],
    [/^-?\d+(?:\s+-?\d+)*$/, (rest) => rest.trim().split(/\s+/).map((it) => it & 255), 1],
    [/^(?:-?\d+ '(?:\\\d+|\\\D|[^'\\])'\s*)+$/, (rest) => rest.match(/-?\d+ '/g).map((it) => parseInt(it, 10) & 255), 1],
    [/^(?:[0-9a-f]{2} )*[0-9a-f]{2}(?: {2,}.*)?$/i, (rest) => pairs(rest.replace(/ {2,}.*$/, "").replace(/ /g, "")), 1],
];

function debuggers(texts) {
    const split = readLines(texts, (text) => {
        const found = text.trimEnd().match(/^\s*0x([0-9a-f]+)(?:\s*<[^>]*>)?:\s+(.*)$/i);
        return found && { offset: found[1], rest: found[2] };
    });
    const way = split && VALUES.find(([form]) => split.every((it) => !it.isRepeated && form.test(it.rest)));
    if (!way) return null;
    // (addresses are above the numbers that are exact)
    const first = BigInt(`0x${split[0].offset}`);
    const lines = split.map((it) => ({ offset: (BigInt(`0x${it.offset}`) - first).toString(16), bytes: way[1](it.rest) }));
    const bytes = joinedLines(lines, 16);
    return bytes ? { bytes, told: `what gdb or lldb prints${way[2] > 1 ? `, words of ${way[2]} bytes, the lower byte first` : ""}` } : null;
}

// The bytes of a dump and which tool's it is, or what is wrong with it; null where the text is none. Of columns those alone that are
// called so.
export function bytesOfDump(text, only = "") {
    const texts = text.split(/\r?\n/).filter((it) => it.trim());
    if (!texts.length) return null;
    for (const read of [debuggers, xxd, canonical, (it) => od(it, only)]) {
        const found = read(texts);
        if (found) return found;
    }
    return null;
}

// The most bytes that a line of a dump shows.
const LONGEST = 4096;

// Whether lines begin with offsets that grow: then the text is a dump of which something lacks, or one that is not known here.
export function looksLikeDump(text) {
    const found = text.split(/\r?\n/).filter((it) => it.trim() && it.trim() !== "*").map((it) => {
        const [, address, offset] = it.match(/^\s*(?:0x([0-9a-f]+)(?: <[^>]*>)?:|([0-9a-f]{6,16}):?)\s/i) ?? [];
        return address ?? offset;
    });
    const grows = (it, i) => i === 0 || (parseInt(found[i - 1], 16) < parseInt(it, 16) && parseInt(it, 16) <= parseInt(found[i - 1], 16) + LONGEST);
    return found.length > 1 && found.every((it) => it !== undefined && it.length === found[0].length) && found.every(grows);
}
