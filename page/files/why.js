// The explanation of what is chosen: a place, with its bits, or a character.
import { UTF8 } from "./codec.js";
import { $, button, element } from "./dom.js";
import { Survey } from "./survey.js";
import { ENCODINGS, bitsOf, codePoint, counted, describe, glyph, hexByte, number, offsetText, replacements, told } from "./words.js";

// How many bytes have a row of bits; and before how many the line of a character is counted.
const BITS = 8;
const COUNTED = 1 << 20;

// A row of the table: the byte, its bits, and what they mean. `isWanted` is a byte that should have continued a character.
function bitsRow(byte, isBad, isWanted) {
    const [kind, rest, means] = bitsOf(byte);
    const bits = element("td", "", {}, element("em", "", {}, kind), element("s", "", {}, rest));
    const said = isWanted ? element("td", "bad", {}, "should be ", element("b", "m", {}, "10"), ": continue it") : element("td", "", {}, means);
    return element("tr", "", {}, element("th", isBad ? "bad" : "", { scope: "row" }, hexByte(byte)), bits, said);
}

function bits(bytes, isBad, after = -1) {
    const rows = bytes.map((it) => bitsRow(it, isBad, false));
    if (after >= 0) rows.push(bitsRow(after, false, true));
    return element("table", "bits", { "aria-label": "Bits of each byte" }, element("tbody", "", {}, ...rows));
}

function heading(input, group, steps) {
    const last = group.offset + group.length - 1;
    const made = element("div", "row", {}, element("h2", "", { id: "why-title" }, `Offset ${offsetText(group.offset)}${group.length > 1 ? ` to ${offsetText(last)}` : ""}`));
    if (!input.found?.places) return made;
    const count = group.isFault && group.number >= 0 ? `${number(group.number + 1)} of ${number(input.found.places)}` : counted(input.found.places, "place");
    const next = button("Next ", () => steps(1), { id: "next" });
    next.append(element("kbd", "", { "aria-hidden": "true" }, "N"));
    made.append(element("span", "row end nav", {}, element("span", "soft", {}, count), button("↑", () => steps(-1), { id: "before", "aria-label": "Before", title: "Shift+N" }), next));
    return made;
}

// The line and column of an offset, if they are known.
function lineOf(input, group) {
    if (group.isFault && group.number >= 0) return `Line ${number(group.line)}, column ${number(group.column)}`;
    if (group.offset > COUNTED || input.source.isFile) return "";
    const survey = new Survey(input.codec, input.form);
    survey.take(input.source.bytes.subarray(0, group.offset), true);
    return `Line ${number(survey.line)}, column ${number(survey.column)}`;
}

// Draws it; `bytes` are those from `base` on around the group.
export function explain(input, group, bytes, base, steps) {
    const at = (offset) => bytes[offset - base] ?? -1;
    const own = Array.from({ length: Math.min(group.length, BITS) }, (_, i) => at(group.offset + i)).filter((it) => it >= 0);
    const line = lineOf(input, group);
    const parts = group.isFault ? ofPlace(input, group, own, at, line) : ofCharacter(input, group, own, line);
    $("why").replaceChildren(heading(input, group, steps), ...parts);
}

function ofPlace(input, place, own, at, line) {
    const { codec, form, places, size } = input;
    const after = at(place.offset + place.length);
    const near = (i) => (place.number >= 0 && i >= 0 && i < places.length ? places.at(i) : null);
    const [next, previous] = [near(place.number + 1), near(place.number - 1)];
    const said = told(place, codec.names, { form, after, size, next: next?.offset === place.offset + place.length ? next : null, previous: previous && previous.offset + previous.length === place.offset ? previous : null });
    const isBroken = said.error === "InterruptedSequence" || said.error === "TooFewBytes";
    return [element("p", "say", {}, said.sentence), ...(form === UTF8 ? [bits(own, true, isBroken ? after : -1)] : []),
        element("p", "prob", {}, element("b", "", {}, "Probably: "), input.guess?.name === "binary" ? `This is a byte of ${input.guess.file ?? "a file that is not text"}, and means no character.` : said.probably),
        element("p", "soft", {}, element("code", "", { title: codec.sentences[place.kind] }, said.error), line ? ` · ${line}` : "", element("br"), replacements(place, form))];
}

function ofCharacter(input, group, own, line) {
    const drawn = glyph(group.scalar);
    const said = element("p", "say", {}, element("b", "big", {}, element("bdi", "", {}, drawn)), ` ${codePoint(group.scalar)}, ${counted(group.length, "byte")}, ${describe(group.scalar)}`);
    const start = input.source.bytes ? "" : " of the file";
    return [said, ...(input.form === UTF8 ? [bits(own, false)] : []), element("p", "soft", {}, `Valid ${ENCODINGS[input.form]}${line ? ` · ${line}` : start}`)];
}
