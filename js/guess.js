// What the page says of bytes: what they most likely are, by the guess of the proved module, and what Windows-1252 has for a byte.
import { copyOf } from "./bytes.js";

// What Windows-1252 has at 80 to 9F; five of these bytes it has not.
const SIGNS_AT_80 = "€\u0081‚ƒ„…†‡ˆ‰Š‹Œ\u008dŽ\u008f\u0090‘’“”•–—˜™š›œ\u009džŸ";
const UNDEFINED = new Set([0x81, 0x8d, 0x8f, 0x90, 0x9d]);
const BYTES_OF_SIGNS = new Map(Array.from(SIGNS_AT_80, (it, i) => [it.codePointAt(0), 0x80 + i]));

// The character of a byte in Windows-1252, or "" if it has none.
export function latinOf(byte) {
    if (UNDEFINED.has(byte)) return "";
    return byte >= 0x80 && byte < 0xa0 ? SIGNS_AT_80[byte - 0x80] : String.fromCharCode(byte);
}

// The byte of a code point in Windows-1252, or -1.
export const byteOfLatin = (scalar) => (scalar < 0x80 || (scalar >= 0xa0 && scalar < 0x100) ? scalar : BYTES_OF_SIGNS.get(scalar) ?? -1);

export const isLetter = (byte) => (byte | 32) >= 0x61 && (byte | 32) <= 0x7a;

// How many bytes of the input are surveyed whole, and how many of each slice after them.
export const WHOLE = 1 << 20;
export const SAMPLE = 1 << 14;

// What was seen of an input: a survey of its front and of samples, and of all of it the invalid bytes, and those that begin as characters do.
export class Evidence {
    constructor(codec) {
        Object.assign(this, { surveyor: codec.newSurveyor(), seen: 0, faults: 0, torn: 0, tornBytes: 0, tail: 0 });
    }

    // Surveys a block. (the module's memory has it then)
    sample(codec, block) {
        this.surveyor = codec.surveyed(this.surveyor, block);
        this.seen += block.length;
    }

    // Counts invalid bytes that begin as a character of UTF-8 does: a lead byte and continuation bytes.
    tear(length) {
        this.torn++;
        this.tornBytes += length;
    }
}

// The page's names of guesses, by their numbers; whether a byte order mark says so.
const NAMES = ["ascii", "utf-8", "utf-8", "cut", "mixed", "twice", "surrogates", "utf-16le", "utf-16be", "utf-16le", "utf-16be", "utf-32", "windows-1252", "other", "binary"];
const MARKED = new Set([2, 9, 10]);
const VALID = new Set(["ascii", "utf-8"]);
const OF_8_BITS = new Set(["windows-1252", "other"]);

const FILES = [[[0x25, 0x50, 0x44, 0x46], "a PDF file"], [[0x7f, 0x45, 0x4c, 0x46], "an ELF program"], [[0x89, 0x50, 0x4e, 0x47], "a PNG picture"], [[0x50, 0x4b, 3, 4], "a ZIP file"],
    [[0x47, 0x49, 0x46, 0x38], "a GIF picture"], [[0x1f, 0x8b], "a gzip file"], [[0xff, 0xd8, 0xff], "a JPEG picture"], [[0xde, 0x12, 4, 0x95], "a message catalogue"]];
const begins = (front, bytes) => bytes.every((it, i) => front[i] === it);

// What the input most likely is, with what was found: `single` invalid bytes that are no end of a character.
export function guess(codec, { surveyor, seen, faults, torn, tornBytes, tail }, len) {
    const { counts, ends, guesses } = codec.survey(surveyor);
    const [front, head, twice] = [copyOf(ends, 0, 4), ends[4], counts[9]];
    const chars = Math.round(counts[3] * (seen ? len / seen : 1));
    const single = chars ? faults - head - tail : faults;
    const file = FILES.find(([bytes]) => begins(front, bytes));
    const guessed = NAMES[guesses[0]];
    const said = { single, chars, twice, head, tail, ...(MARKED.has(guesses[0]) ? { mark: true } : {}), ...(file && guessed === "binary" ? { file: file[1] } : {}) };
    // (characters that are torn speak for UTF-8)
    const isMixed = chars + torn > 0 && chars + torn >= single - tornBytes;
    if (OF_8_BITS.has(guessed) && isMixed) return { name: "mixed", ...said };
    if (!VALID.has(guessed) || !faults) return { name: guessed, ...said };
    // (what is invalid is not in the samples, or follows a mark)
    if (chars && single === 0) return { name: "cut", ...said };
    return { name: isMixed || said.mark ? "mixed" : "windows-1252", ...said };
}
