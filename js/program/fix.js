// `noddychest fix`: replaces the invalid bytes of a file in place, as nody(1) does.
import { Recoder, boundaryBefore, isValid, recode } from "./calls.js";
import { nounOf } from "./check.js";
import { Input, START, foundIn, lineEnd, linesOf, plus } from "./inputs.js";
import { complain, isHidden, shown, shownBy } from "./outputs.js";
import { replaceFile } from "./replacing.js";

// The bytes that are read before and after an invalid one, to show its line; and how many of them decide where that is cut.
const [REACH, LEAD] = [4096, 4];

// What became of invalid bytes: of units of UTF-16 no table has any.
const READ = { drop: "dropped", "windows-1252": "read as Windows-1252", "latin-1": "read as ISO-8859-1" };
const becameOf = (errors, encoding) => (encoding === "utf-8" || errors === "drop" ? READ[errors] : undefined) ?? "became U+FFFD";

function* recoded(input, recoder) {
    for (const { data, cut } of input.blocks()) yield recoder.feed(data.subarray(0, cut));
    yield recoder.finish();
}

function isAllValid(input) {
    for (const { data, cut } of input.blocks()) if (!isValid(data.subarray(0, cut), input.encoding)) return false;
    return true;
}

// Replaces the invalid bytes of a file, or shows the lines that would change. A valid file is not touched. Returns the status.
export async function fix(out, name, asked) {
    const input = new Input(name, asked.encoding, { isReplaced: true });
    try {
        if (isAllValid(input)) return 0;
        input.rewind();
        if (asked["dry-run"]) {
            showChanges(out, input, asked.errors);
            return 1;
        }
        const recoder = new Recoder(input.encoding, input.encoding, { errors: asked.errors });
        await replaceFile(input, recoded(input, recoder), asked.backup);
        const { replaced } = recoder;
        if (replaced && !asked.quiet) complain(input.name, `${replaced} ${nounOf(input.encoding, replaced)} ${becameOf(asked.errors, input.encoding)}`);
        return 0;
    } finally {
        input.close();
    }
}

// Shows each line that would change, before and after.
function showChanges(out, input, errors) {
    let [place, last] = [START, 0];
    for (const block of input.blocks()) {
        const found = foundIn(block, input.encoding, { most: 0 });
        for (const it of found.first) {
            const line = plus(place, it.place).lines + 1;
            if (line === last) continue;
            if (last === 0) out.write(`--- ${shown(input.name)}\n+++ ${shown(input.name)}\n`);
            out.write(`@@ -${line} +${line} @@\n${changeOf(input, block.offset + it.offset, errors)}`);
            last = line;
        }
        place = plus(place, found.end);
    }
}

// The line of an invalid byte as it is, and as it would become; of a long line the part around that byte, between characters.
function changeOf(input, offset, errors) {
    const { encoding } = input;
    const front = Math.max(offset - REACH, 0);
    const at = offset - front;
    const read = input.readAt(front, at + REACH);
    const isLong = read.length === at + REACH;
    const data = isLong ? read.subarray(0, boundaryBefore(read, read.length - LEAD, encoding)) : read;
    const { lines, start } = linesOf(data.subarray(0, at), encoding);
    const isCut = front > 0 && lines === 0;
    const goesOn = isLong && linesOf(data.subarray(at), encoding).lines === 0;
    const line = data.subarray(isCut ? boundaryBefore(data, LEAD, encoding) : start, lineEnd(data, at, encoding));
    const text = (bytes) => `${isCut ? "…" : ""}${shownBy(shownPiece, bytes, encoding)}${goesOn ? "…" : ""}\n`;
    return `-${text(line)}+${text(recode(line, encoding, encoding, { errors }))}`;
}

const hex = (number, digits) => number.toString(16).toUpperCase().padStart(digits, "0");

// Invalid bytes as \xE9, a tab as a space, and what commands a terminal as <U+001B>.
function shownPiece(char, bytes) {
    if (char === null) return Array.from(bytes, (it) => `\\x${hex(it, 2)}`).join("");
    if (char === "\t") return " ";
    return isHidden(char) ? `<U+${hex(char.codePointAt(0), 4)}>` : char;
}
