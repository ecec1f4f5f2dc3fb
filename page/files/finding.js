// The finding: how many bytes are invalid, the first one, and what it is.
import { UTF8 } from "./codec.js";
import { $, element, put, unbroken } from "./dom.js";
import { bytesOfValue, decodedTwice } from "./repair.js";
import { BINS, CAUSE, CAUSES } from "./survey.js";
import { ENCODINGS, counted, hexByte, hexOf, inFinding, number, offsetText } from "./words.js";

const NAME = "UTF-8 damage inspector";
const DENSE = 5;
// Fewer bytes are too few to say so. Text of an encoding has more letters for each byte than this.
const [LITTLE, UNLIKE] = [64, 0.2];

const are = (count) => (count === 1 ? "is" : "are");
const TO_PASTE = { lead: "Paste text, bytes or a dump.", rest: [] };

// How many bytes are in runs of equal ones.
const inRuns = ({ bins }) => Array.from({ length: BINS }, (_, i) => bins[i * CAUSES.length + CAUSE.run]).reduce((sum, it) => sum + it, 0);

// Whether more than 1 in 5 bytes are invalid, and nothing speaks for an encoding.
export const isHardlyText = ({ found, guess, size, likeness }) => found.invalid * DENSE > size && (guess?.name === "binary" || (inRuns(found) * 2 > found.invalid && size >= LITTLE) || (guess?.name === "other" && likeness < UNLIKE && size >= LITTLE));

// The first place, as the sentence has it: its bytes, the offset, and what it is.
function first(input, place, isOnly) {
    const bytes = input.form === UTF8 ? bytesOfValue(place.value, 1) : bytesOfValue(place.value, place.length);
    const what = input.guess?.name === "binary" ? "" : inFinding(place, input.codec.names, input.form);
    return [`${isOnly ? "It" : "The first"} is `, { hot: hexOf(bytes) }, ` at offset ${offsetText(place.offset)}${what ? `: ${what}` : ""}.`];
}

function ofUtf16({ guess, form }) {
    const name = guess.name.toUpperCase();
    const why = guess.mark ? `it begins with the mark ${guess.name === "utf-16le" ? "FF FE" : "FE FF"}` : "every second byte is 00";
    return form === UTF8 ? `This is ${name}, not UTF-8: ${why}.` : "";
}

function ofValid(input) {
    const { size, guess, found, form } = input;
    const all = `All ${counted(size, "byte")} are`;
    if (size === 1) return { lead: `The one byte is ${ENCODINGS[form]}.`, rest: [] };
    if (form !== UTF8) return { lead: `${all} ${ENCODINGS[form]}.`, rest: [] };
    if (/^utf-16/.test(guess?.name)) return { lead: ofUtf16(input), rest: [`Its ${counted(size, "byte")} are valid UTF-8 too, but hardly meant so.`] };
    if (guess?.mark) return { lead: `${all} UTF-8,`, rest: ["after a byte order mark (EF BB BF)."] };
    if (guess?.name === "twice") return { lead: `${all} UTF-8,`, rest: [`but the text was encoded twice${twiceSample(input)}.`] };
    if (guess?.name === "binary") return { lead: `${all} UTF-8,`, rest: ["but this is probably not text."] };
    return { lead: found.count === size ? `${all} ASCII, so they are UTF-8 too.` : `${all} UTF-8.`, rest: [] };
}

// A character of a text that was encoded twice, and what it was.
function twiceSample({ source }) {
    const text = new TextDecoder().decode(source.atHand(0, Math.min(source.size, 4096)) ?? new Uint8Array());
    const found = text.match(/[\u00c2-\u00f4][\u0080-\u00bf\u0152-\u2122]{1,3}/g)?.find((it) => decodedTwice(it).length < it.length);
    return found ? `: ${found} was ${decodedTwice(found)}` : "";
}

function ofInvalid(input, place) {
    const { found, size, guess, form } = input;
    const { invalid, places, isLast } = found;
    const of = `${number(invalid)} of ${counted(size, "byte")} ${are(invalid)} not ${ENCODINGS[form]}.`;
    if (!isLast) return { lead: `So far ${of}`, rest: first(input, place, false) };
    const utf16 = /^utf-16/.test(guess?.name) ? ofUtf16(input) : "";
    if (utf16) return { lead: utf16, rest: [`${of} `, ...first(input, place, invalid === 1)] };
    if (guess?.name === "utf-32" && form === UTF8) return { lead: "This is UTF-32, not UTF-8, by its byte order mark.", rest: [`${of} `, ...first(input, place, false)] };
    if (guess?.file && form === UTF8) return { lead: `This is ${guess.file}, not text.`, rest: [`${of} `, ...first(input, place, invalid === 1)] };
    if (isHardlyText(input)) return { lead: of, rest: ["This is probably not text. ", ...first(input, place, invalid === 1)] };
    if (places === 1 && place.cause === CAUSE.end && form === UTF8) {
        const last = invalid === 1 ? "The last of" : `The last ${number(invalid)} of`;
        return { lead: `${last} ${counted(size, "byte")} ${are(invalid)} not UTF-8:`, rest: ["a character is cut off at the end, from ", { hot: hexByte(place.value >>> 24) }, ` at offset ${offsetText(place.offset)} on.`] };
    }
    return { lead: of, rest: first(input, place, invalid === 1) };
}

// The finding of an input as it stands: its lead, and the rest, in which the first byte is drawn as in the grid.
export function findingOf(input) {
    const { size, found, places } = input;
    if (!size) return TO_PASTE;
    if (!found) return { lead: `Reading ${counted(size, "byte")}.`, rest: [] };
    if (places.length) return ofInvalid(input, places.at(0));
    if (found.invalid) return { lead: `So far ${number(found.invalid)} of ${counted(size, "byte")} are not ${ENCODINGS[input.form]}.`, rest: [] };
    return found.isLast ? ofValid(input) : { lead: `So far all of ${counted(found.read, "byte")} are ${ENCODINGS[input.form]}.`, rest: [] };
}

const plain = ({ lead, rest }) => [lead, " ", ...rest.map((it) => it.hot ?? it)].join("").trim();

// Draws it, also in the title of the tab. It is said once it is final.
export function showFinding(input, finding = findingOf(input)) {
    const text = plain(finding);
    put("say", element("b", "", {}, ...unbroken(finding.lead)), " ", ...finding.rest.flatMap((it) => (it.hot ? element("span", "hot", {}, it.hot) : unbroken(it))));
    document.title = input.size ? text : NAME;
    if (!input.found || input.found.isLast) $("said").textContent = text;
}

// Draws what cannot be read, in place of a finding.
export function showTrouble(text) {
    put("say", element("b", "", {}, ...unbroken(text)));
    document.title = `${text} – ${NAME}`;
    $("said").textContent = text;
}

// How much there is, below the finding.
export function metaOf({ found, size, isExample, form, source }) {
    if (isExample) return [element("b", "", {}, "An example. "), "Paste yours anywhere on the page, or drop a file."];
    if (!found || !size) return [];
    if (found.places > 20) return [`In ${counted(found.places, "place")}, on ${number(found.faultLines)} of ${counted(found.line, "line")}`];
    const characters = counted(found.count - found.faults, "character");
    if (!found.invalid) return [`${characters}, ${counted(found.line, "line")}`];
    return [`${characters}, ${counted(found.invalid, "invalid byte")} in ${counted(found.places, "place")}${form === UTF8 || !source ? "" : `, as ${ENCODINGS[form]}`}`];
}
