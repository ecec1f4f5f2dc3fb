// What is copied and saved: a report in Markdown for an issue tracker, and the invalid bytes as CSV and JSON, a row for each.
import { UTF8 } from "./codec.js";
import { guessesOf } from "./guesses.js";
import { bytesOfValue } from "./repair.js";
import { CAUSE } from "./survey.js";
import { ENCODINGS, counted, hexOf, number, reasonOf, told } from "./words.js";

const ROWS = 20;
const AROUND = 36;
const CHARACTERS = 12;
// Rows of a file that are made at once.
const AT_ONCE = 20000;

// Text of the input in which nothing acts on the page that shows the report: no markup, no control, no change of direction.
export function escaped(text) {
    return Array.from(text, (it) => {
        const scalar = it.codePointAt(0);
        if (it === "\n") return "↵";
        if (/[\p{Cc}\p{Cf}\p{Zl}\p{Zp}\p{Cs}`|<>&\\[\]@#!*_~]/u.test(it)) return scalar > 0xffff ? `\\u{${scalar.toString(16).toUpperCase()}}` : `\\u${scalar.toString(16).toUpperCase().padStart(4, "0")}`;
        return it;
    }).join("");
}

const LABELS = ["utf-8", "utf-16le", "utf-16be"];

async function row(input, place) {
    const { source, form, codec, size } = input;
    const [from, to] = [Math.max(place.offset - AROUND, 0), Math.min(place.offset + Math.min(place.length, 8) + AROUND, size)];
    const bytes = await source.read(from & ~1, to);
    const start = place.offset - (from & ~1);
    const decoder = new TextDecoder(LABELS[form], { ignoreBOM: true });
    const before = decoder.decode(bytes.subarray(0, start)).replace(/^\ufffd+/, "");
    const after = decoder.decode(bytes.subarray(start + place.length)).replace(/\ufffd+$/, "");
    const hex = `${hexOf(bytesOfValue(place.value, Math.min(place.length, 4)))}${place.length > 4 ? " .." : ""}`;
    const next = bytes[start + place.length] ?? -1;
    const what = told(place, codec.names, { form, after: next, size }).list;
    const cut = (text, isEnd) => escaped((isEnd ? Array.from(text).slice(-CHARACTERS) : Array.from(text).slice(0, CHARACTERS)).join(""));
    return `| ${place.offset} | ${place.line}:${place.column} | \`${hex}\` | ${escaped(what)} | \`${cut(before, true)}⟦${hex}⟧${cut(after, false)}\` |`;
}

export async function reportOf(input, link) {
    const { found, places, form, size, source } = input;
    const head = found.invalid ? `**${number(found.invalid)} of ${counted(size, "byte")} ${found.invalid === 1 ? "is" : "are"} not ${ENCODINGS[form]}**, in ${counted(found.places, "place")}. The first is \`${hexOf(bytesOfValue(places.values[0], Math.min(places.lengths[0], 4))).split(" ")[0]}\` at offset ${places.offsets[0]}.`
        : `**All ${counted(size, "byte")} are ${ENCODINGS[form]}.**`;
    const rows = await Promise.all(Array.from({ length: Math.min(places.length, ROWS) }, (_, i) => row(input, places.at(i))));
    const more = found.places - rows.length;
    const [guess] = guessesOf(input);
    return [source.name ? `File: \`${escaped(source.name)}\`\n\n` : "", `${head}\n`, ...(rows.length ? ["\n| offset | line:column | bytes | what | text around |\n|---|---|---|---|---|\n", rows.join("\n"), "\n"] : []),
        more > 0 ? `\nand ${number(more)} more.\n` : "", `\n${guess ? `Best guess: ${escaped(guess.name)}. ` : ""}Checked with the UTF-8 damage inspector${link ? `: ${link}` : ""}.\n`].join("");
}

// The invalid bytes, or units, of a place, each as a row.
function* bytesOf(place, names, form) {
    const { offset, line, column, length, value, kind } = place;
    if (form !== UTF8) return yield { offset, line, column, length, bytes: hexOf(bytesOfValue(value, length)), error: names[kind] };
    const values = bytesOfValue(value, length);
    for (let i = 0; i < length; i++) {
        const isFirst = i === 0 || place.cause === CAUSE.run;
        yield { offset: offset + i, line, column: column + i, length: 1, bytes: hexOf([isFirst ? values[0] : values[i]]), error: isFirst ? names[kind] : "UnexpectedContinuationByte" };
    }
}

// All rows as texts, some thousands at once.
function* blocks(input, row) {
    const { places, codec, form } = input;
    let made = [];
    for (let i = 0; i < places.length; i++) {
        for (const it of bytesOf(places.at(i), codec.names, form)) {
            made.push(row(it));
            if (made.length < AT_ONCE) continue;
            yield made.join("");
            made = [];
        }
    }
    yield made.join("");
}

export function csvOf(input) {
    const { codec } = input;
    const reasons = new Map(codec.names.map((name, kind) => [name, reasonOf(codec, kind)]));
    return ["offset,line,column,length,bytes,error,reason\r\n", ...blocks(input, ({ offset, line, column, length, bytes, error }) => `${offset},${line},${column},${length},${bytes},${error},"${reasons.get(error)}"\r\n`)];
}

export function jsonOf(input) {
    let isFirst = true;
    const row = (it) => {
        const text = `${isFirst ? "" : ","}\n${JSON.stringify(it)}`;
        isFirst = false;
        return text;
    };
    return ["[", ...blocks(input, row), "\n]\n"];
}
