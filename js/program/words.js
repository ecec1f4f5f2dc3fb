// The words of the command line as bytes, each a character of a string: the name of a file may be no UTF-8. A word that Node could not
// decode is read from the system.
import { readFileSync } from "node:fs";

export const bytesOf = (word) => Buffer.from(word, "latin1");
const wordOf = (bytes) => bytes.toString("latin1");

export function wordsAsBytes(words) {
    if (words.some((it) => it.includes("\ufffd"))) {
        try {
            const all = wordOf(readFileSync("/proc/self/cmdline")).split("\0").slice(0, -1);
            return all.slice(all.length - words.length);
        } catch {
            // (only Linux has it)
        }
    }
    return words.map((it) => wordOf(Buffer.from(it)));
}
