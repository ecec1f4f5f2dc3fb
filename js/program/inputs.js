// What the program reads: inputs in blocks, and the invalid bytes of a block with their lines and columns.
import fs from "node:fs";
import { boundaryBefore, charCount, encodingOfBom, faults } from "./calls.js";
import { AUTO } from "./options.js";
import { waiting } from "./outputs.js";
import { bytesOf } from "./words.js";

const BLOCK = 1 << 20;
const LONGEST_BOM = 3;
// The bytes after a block that tell why its last bytes are invalid.
const AHEAD = 4;
const LINE_FEED = 10;

// An input that cannot be read, for a reason of the program's own.
export class InputError extends Error {
    constructor(name, why) {
        super(why);
        this.input = name;
    }
}

// The encoding of the byte order mark, or UTF-8.
export const encodingOf = (front) => encodingOfBom(front)?.encoding ?? "utf-8";

export const aboutOf = (file) => fs.fstatSync(file, { bigint: true });

// The offset at which a file is read on. Others may have read the front of standard input: then it is -1 where the system does not say it.
// (only Linux does)
function originOf(file) {
    if (file !== 0) return 0;
    try {
        return Number(/^pos:\s*(\d+)$/m.exec(fs.readFileSync("/proc/self/fdinfo/0", "latin1"))[1]);
    } catch {
        return -1;
    }
}

// An input, which is read once, in blocks. `about` is what it was when it was opened. One that is to be replaced has to be a file, and no
// pipe is waited for.
export class Input {
    #front = Buffer.alloc(0);
    #hasEnded = false;
    // How many bytes were read, from where a file is read; -1 of what is no file.
    #at = -1;
    // The offset in its file at which the input begins; -1 of what is no file.
    #origin = -1;

    constructor(name, encoding, { isReplaced = false } = {}) {
        this.name = bytesOf(name);
        this.file = name === "-" ? 0 : fs.openSync(this.name, fs.constants.O_RDONLY | (isReplaced ? fs.constants.O_NONBLOCK ?? 0 : 0));
        try {
            this.about = aboutOf(this.file);
            if (isReplaced && !this.isFile) throw new InputError(this.name, this.about.isDirectory() ? "it is a folder" : "it is no regular file");
            if (this.isFile) this.#origin = originOf(this.file);
            this.encoding = encoding === AUTO ? this.#encodingByBom() : encoding;
        } catch (error) {
            this.close();
            throw error;
        }
    }

    close() {
        if (this.file !== 0) fs.closeSync(this.file);
    }

    get isFile() {
        return this.about.isFile();
    }

    // Whether `readAt` has the bytes of this input.
    get hasOffsets() {
        return this.#origin >= 0;
    }

    // Throws for a file to which standard output goes: it might never end.
    refuseOutput() {
        if (!this.isFile || this.about.size === 0n) return;
        const out = aboutOf(1);
        if (out.dev === this.about.dev && out.ino === this.about.ino) throw new InputError(this.name, "it is the output too");
    }

    // The bytes of a file from an offset on: fewer only at its end.
    readAt(offset, size) {
        const bytes = Buffer.alloc(size);
        let len = 0;
        for (let count; len < size && (count = fs.readSync(this.file, bytes, len, size - len, this.#origin + offset + len)) > 0; ) len += count;
        return bytes.subarray(0, len);
    }

    // Begins a file again. `about` stays: the encoding was found in the file as it was then.
    rewind() {
        [this.#front, this.#hasEnded, this.#at] = [Buffer.alloc(0), false, 0];
    }

    // Bytes, the offset at which they begin, and how many of them are to be taken: those after them tell why one is invalid.
    *blocks() {
        let [offset, data] = [0, Buffer.alloc(0)];
        for (let part; (part = this.#next()).length > 0; ) {
            data = Buffer.concat([data, part]);
            const cut = boundaryBefore(data, Math.max(data.length - AHEAD, 0), this.encoding);
            yield { offset, data, cut };
            [offset, data] = [offset + cut, data.subarray(cut)];
        }
        yield { offset, data, cut: data.length };
        if (this.isFile && aboutOf(this.file).size < this.about.size) throw new InputError(this.name, "it became shorter while it was read");
    }

    #encodingByBom() {
        for (let part; this.#front.length < LONGEST_BOM && (part = this.#read()).length > 0; ) this.#front = Buffer.concat([this.#front, part]);
        return encodingOf(this.#front);
    }

    #next() {
        const front = this.#front;
        this.#front = Buffer.alloc(0);
        return front.length > 0 ? front : this.#read();
    }

    // Some bytes; none at the end, for which a terminal is asked only once.
    #read() {
        const bytes = Buffer.alloc(this.#hasEnded ? 0 : BLOCK);
        const count = this.#hasEnded ? 0 : waiting(() => fs.readSync(this.file, bytes, 0, BLOCK, this.#at < 0 ? null : this.#at));
        if (this.#at >= 0) this.#at += count;
        this.#hasEnded = count === 0;
        return bytes.subarray(0, count);
    }
}

// ---- Places: a number of lines, and then of columns in the last line, from another place on

export const START = { lines: 0, columns: 0 };
export const plus = (place, more) => ({ lines: place.lines + more.lines, columns: more.lines ? more.columns : place.columns + more.columns });

const unitOf = (encoding) => (encoding === "utf-8" ? 1 : 2);

// Whether a unit at an offset is a character of ASCII.
export const isUnit = (data, at, char, encoding) => data[at + (encoding === "utf-16be")] === char && (encoding === "utf-8" || data[at + (encoding !== "utf-16be")] === 0);

// How many lines end in some bytes, and where the last line begins.
export function linesOf(data, encoding) {
    const unit = unitOf(encoding);
    let [lines, start] = [0, 0];
    for (let at = 0; at < data.length; at += unit) if (isUnit(data, at, LINE_FEED, encoding)) [lines, start] = [lines + 1, at + unit];
    return { lines, start };
}

// Where the line that covers an offset ends, before its line feed and the carriage returns before that.
export function lineEnd(data, at, encoding) {
    const unit = unitOf(encoding);
    let [end, here] = [at, at];
    for (; here < data.length && !isUnit(data, here, LINE_FEED, encoding); here += unit) if (!isUnit(data, here, 13, encoding)) end = here + unit;
    return Math.min(end, data.length);
}

// The place after bytes that begin and end between pieces. A column is a piece or a byte.
function passed(data, encoding, columns) {
    const { lines, start } = linesOf(data, encoding);
    return { lines, columns: columns === "bytes" ? data.length - start : charCount(data.subarray(start), encoding) };
}

// The invalid bytes of a block, with their offsets in it: their number, the first of them with their places (at most `most`, or all if that
// is 0), and the place at which the block ends.
export function foundIn({ data, cut }, encoding, { most, columns = "characters" }) {
    const first = [];
    let [place, counted, count] = [START, 0, 0];
    for (const fault of faults(data, encoding)) {
        if (fault.offset >= cut) break;
        if (most === 0 || count < most) {
            place = plus(place, passed(data.subarray(counted, fault.offset), encoding, columns));
            counted = fault.offset;
            first.push({ ...fault, place });
        }
        count++;
    }
    return { count, first, end: plus(place, passed(data.subarray(counted, cut), encoding, columns)) };
}
