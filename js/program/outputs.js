// What the program writes: standard output, messages, and names as both show them.
import fs from "node:fs";
import * as util from "node:util";
import { decode, pieces } from "./calls.js";

const ROOM = 1 << 16;
const HIDDEN = /[\0-\x1f\x7f-\x9f\u061c\u200b-\u200f\u2028-\u202e\u2060-\u206f\ufeff]/;

// A character that has no place on a line of its own: a control, a mark of direction, or another end of a line.
export const isHidden = (char) => HIDDEN.test(char);

const octal = (bytes) => Array.from(bytes, (it) => `\\${it.toString(8).padStart(3, "0")}`).join("");

// Bytes as text, of which a function shows each piece.
export function shownBy(show, bytes, encoding) {
    let text = "";
    for (const { offset, length, char } of pieces(bytes, encoding)) text += show(char, bytes.subarray(offset, offset + length));
    return text;
}

// A name as nody(1) shows it: a character that is hidden, or a byte that is not UTF-8, as a backslash and three octal digits for each
// byte. So no name commands a terminal, or has the look of two lines.
export const shown = (name) => shownBy((char, bytes) => (char !== null && !isHidden(char) ? char : octal(bytes)), name);

const escaped = (char) => (char === '"' || char === "\\" ? `\\${char}` : `\\u${char.charCodeAt(0).toString(16).padStart(4, "0")}`);

// An object of JSON for a file. Bytes of its name that are not UTF-8 become U+FFFD.
export const jsonLine = (name, members) => `{"file":"${decode(name).text.replace(/["\\\0-\x1f\x7f-\x9f]/g, escaped)}",${JSON.stringify(members).slice(1)}\n`;

// Standard output cannot be written.
export class OutputError extends Error {}

// Tries a call again that would have to wait: the descriptor is one that does not wait by itself.
export function waiting(call) {
    for (;;) {
        try {
            return call();
        } catch (error) {
            if (error.code !== "EAGAIN" && error.code !== "EINTR") throw error;
            Atomics.wait(new Int32Array(new SharedArrayBuffer(4)), 0, 0, error.code === "EAGAIN" ? 10 : 0);
        }
    }
}

export function writeAll(file, bytes) {
    for (let at = 0; at < bytes.length; ) at += waiting(() => fs.writeSync(file, bytes, at));
}

// Standard output, with a buffer. That it cannot be written is no failure of an input.
export class Output {
    #parts = [];
    #size = 0;

    // Adds text, or bytes.
    write(given) {
        const bytes = typeof given === "string" ? Buffer.from(given) : given;
        this.#parts.push(bytes);
        this.#size += bytes.length;
        if (this.#size >= ROOM) this.flush();
    }

    flush() {
        const bytes = Buffer.concat(this.#parts);
        [this.#parts, this.#size] = [[], 0];
        try {
            writeAll(1, bytes);
        } catch (cause) {
            throw new OutputError(cause.code, { cause });
        }
    }
}

// Writes a line on standard error, as far as that can be written.
export function tell(line) {
    try {
        writeAll(2, Buffer.from(`${line}\n`));
    } catch {
        // (there is nobody else to tell)
    }
}

export const complain = (name, why) => tell(`noddychest: ${shown(name)}: ${why}`);

// The words of the system for its errors, where Node's own are others.
const WORDS = {
    E2BIG: "Argument list too long", EACCES: "Permission denied", EBADF: "Bad file descriptor", EBUSY: "Device or resource busy", EDQUOT: "Disk quota exceeded",
    EEXIST: "File exists", EFBIG: "File too large", EINVAL: "Invalid argument", EIO: "Input/output error", EISDIR: "Is a directory", ELOOP: "Too many levels of symbolic links",
    EMFILE: "Too many open files", EMLINK: "Too many links", ENAMETOOLONG: "File name too long", ENFILE: "Too many open files in system", ENODEV: "No such device",
    ENOENT: "No such file or directory", ENOMEM: "Cannot allocate memory", ENOSPC: "No space left on device", ENOTDIR: "Not a directory", ENXIO: "No such device or address",
    EPERM: "Operation not permitted", EPIPE: "Broken pipe", EROFS: "Read-only file system", ETXTBSY: "Text file busy", EXDEV: "Invalid cross-device link",
};

// Why something cannot be read or written.
export const reasonOf = (error) => WORDS[error.code] ?? util.getSystemErrorMap?.().get(error.errno)?.[1] ?? error.message;
