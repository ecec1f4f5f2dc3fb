// `noddychest check`: whether input is valid, and each invalid byte with its place and the reason.
import { sentence, survey } from "./calls.js";
import { Input, START, foundIn, plus } from "./inputs.js";
import { AUTO } from "./options.js";
import { complain, jsonLine, shown } from "./outputs.js";

// A file is binary if its first bytes contain a NUL.
const FRONT = 8192;

// A hint says what this number of bytes before and after the first invalid byte are, if enough bytes are invalid.
const AROUND = 1 << 15;
const FEW = 3;
const HINTS = {
    Utf16LeMarked: "begins with the mark of UTF-16LE: try --encoding auto",
    Utf16BeMarked: "begins with the mark of UTF-16BE: try --encoding auto",
    Utf16Le: "looks like UTF-16LE: try --encoding utf-16le",
    Utf16Be: "looks like UTF-16BE: try --encoding utf-16be",
    Windows1252: "looks like Windows-1252: try fix --errors windows-1252",
    Utf8Mixed: "looks like UTF-8 with bytes of an 8-bit encoding: if that is Windows-1252, try fix --errors windows-1252",
};

// What may help people with a file that is not valid UTF-8, or nothing. A few invalid bytes, one that Windows-1252 has not, or more than the characters
// of UTF-8 beside them, may be damage.
function hintOf(input, { encoding, count, first }, asked) {
    if (asked.quiet || asked.names || asked.json || !count || !input.hasOffsets || asked.encoding === AUTO || encoding !== "utf-8") return undefined;
    const { guess, utf8 } = survey(input.readAt(Math.max(first - (first % 2) - AROUND, 0), 2 * AROUND));
    const isMixed = guess === "Utf8Mixed";
    const isDamage = utf8.faults < FEW || utf8.undefined > 0 || (isMixed && utf8.chars < utf8.faults);
    return isDamage && (isMixed || guess === "Windows1252") ? undefined : HINTS[guess];
}

export const nounOf = (encoding, count) => `invalid ${encoding === "utf-8" ? "byte" : "unit"}${count === 1 ? "" : "s"}`;

const NAMES = { "utf-8": "UTF-8", "utf-16le": "UTF-16LE", "utf-16be": "UTF-16BE" };
const grouped = (count) => count.toLocaleString("en-US");

function summaryOf({ encoding, count, first, isBinary }, most) {
    const name = NAMES[encoding];
    if (count === 0) return `valid ${name}`;
    if (isBinary) return `binary file, not valid ${name}: the first invalid byte is at offset ${first} (-a shows all)`;
    if (most > 0 && count > most) return `${grouped(count - most)} more ${nounOf(encoding, count - most)} (--max 0 shows all)`;
    return `not valid ${name}: ${grouped(count)} ${nounOf(encoding, count)}`;
}

function foundLine(name, { offset, length, error, place }, asked) {
    const [line, column, reason] = [place.lines + 1, place.columns + 1, sentence(error)];
    if (asked.json) return jsonLine(name, { line, column, offset, length, kind: error, reason });
    return `${shown(name)}:${line}:${column}: offset ${offset}: ${reason}\n`;
}

// Only the name: as it is for a program, and as it can be shown for people.
async function nameLine(name, asked) {
    const { isatty } = await import("node:tty");
    return Buffer.concat([isatty(1) ? Buffer.from(shown(name)) : name, Buffer.from(asked.null ? "\0" : "\n")]);
}

// What is said of the whole of an input at its end.
function endOf(name, told, asked) {
    const { encoding, count, first, isBinary, isWhole } = told;
    if (asked.quiet) return "";
    if (asked.names) return count ? nameLine(name, asked) : "";
    if (asked.json) {
        const members = { encoding: NAMES[encoding], valid: count === 0, binary: isBinary, invalid: count, ...(isBinary && count ? { first } : {}), complete: isWhole };
        return jsonLine(name, members);
    }
    if (count === 0 && !asked.verbose) return "";
    return `${shown(name)}: ${summaryOf(told, asked.max)}\n`;
}

// Checks an input. Returns the status.
export async function check(out, name, asked) {
    const input = new Input(name, asked.encoding);
    try {
        input.refuseOutput();
        const told = checked(out, input, asked);
        out.write(await endOf(input.name, told, asked));
        const hint = hintOf(input, told, asked);
        if (hint) {
            out.flush();
            complain(input.name, hint);
        }
        return told.count ? 1 : 0;
    } finally {
        input.close();
    }
}

function checked(out, input, asked) {
    const { encoding } = input;
    const canBeBinary = !asked.text && encoding === "utf-8";
    const front = input.hasOffsets ? input.readAt(0, FRONT) : Buffer.alloc(0);
    const told = { encoding, count: 0, first: 0, isBinary: canBeBinary && front.includes(0), isWhole: true };
    let place = START;
    for (const block of input.blocks()) {
        if (canBeBinary && block.data.subarray(0, Math.max(FRONT - block.offset, 0)).includes(0)) told.isBinary = true;
        const isEnough = asked.quiet || asked.names || told.isBinary;
        const found = foundIn(block, encoding, { most: isEnough ? 1 : asked.max, columns: asked.columns });
        if (isEnough && found.count) return { ...told, count: 1, first: block.offset + found.first[0].offset, isWhole: false };
        const left = asked.max === 0 ? found.count : Math.max(asked.max - told.count, 0);
        for (const it of found.first.slice(0, left)) out.write(foundLine(input.name, { ...it, offset: block.offset + it.offset, place: plus(place, it.place) }, asked));
        if (!told.count && found.count) told.first = block.offset + found.first[0].offset;
        told.count += found.count;
        place = plus(place, found.end);
        out.flush();
    }
    return told;
}
