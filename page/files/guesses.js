// What the bytes most likely are: at most three ways to read them, each with the text that results.
import { UTF16BE, UTF16LE, UTF8 } from "./codec.js";
import { $, button, element, unbroken } from "./dom.js";
import { isHardlyText } from "./finding.js";
import { latinOf } from "./guess.js";
import { MARGIN } from "./groups.js";
import { LABELS, bytesOfValue, decodedTwice, isLabel, repairedParts } from "./repair.js";
import { CAUSE } from "./survey.js";
import { counted, number, shown } from "./words.js";

const LENGTH = 60;
const NEAR = 192;
const FORM_OF = { "utf-16le": UTF16LE, "utf-16be": UTF16BE };
// Encodings of 8 bits and of East Asia that are tried when none of the rules holds.
const TRIED = ["windows-1251", "koi8-r", "windows-1250", "windows-1253", "windows-1254", "shift_jis", "gbk", "big5", "euc-kr", "macintosh"];

// Lead bytes of the characters that are most common.
const COMMON_LEADS = new Set([0xc2, 0xc3, 0xc4, 0xc5, 0xce, 0xcf, 0xd0, 0xd1, 0xd8, 0xd9, 0xe2, 0xe3, 0xf0]);

export const formOf = (how) => FORM_OF[how] ?? UTF8;

// How much a text looks like one: letters of one case after another speak for it, signs and what cannot be decoded against it.
function likeness(text) {
    const count = (test) => text.match(test)?.length ?? 0;
    return count(/\p{Ll}(?=\p{Ll}|\P{L})/gu) + 1.5 * count(/[оеаинтсαοιετσν]/gu) + 2 * count(/[ぁ-ヿ]/gu) + count(/[一-龯가-힣]/gu) * 1.2 - 4 * count(/[\ufffd\u0080-\u009f]/gu) - 3 * count(/\p{Ll}\p{Lu}/gu) - 2 * count(/[^\x00-\x7f\p{L}\p{P}]/gu);
}

// The encoding in which some bytes look most like text, and how much, for each byte.
export function likeliest(bytes) {
    const scored = TRIED.map((label) => [likeness(new TextDecoder(label).decode(bytes)), label]);
    const [most, likely] = scored.reduce((best, it) => (it[0] > best[0] ? it : best));
    return { likely, likeness: most / bytes.length };
}

const list = (parts) => (parts.length > 1 ? `${parts.slice(0, -1).join(", ")} and ${parts[parts.length - 1]}` : parts.join(""));

// The characters of Windows-1252 that places are, each once, at most three.
function latins({ places }) {
    const found = new Set();
    for (let i = 0; i < places.length && i < 100000 && found.size < 4; i++) if (places.causes[i] === CAUSE.latin) found.add(latinOf(places.values[i] >>> 24));
    const all = [...found];
    return all.length > 3 ? `${all.slice(0, 3).join(", ")} and others` : list(all);
}

function mixed(input) {
    const { found } = input;
    const count = found.causes[CAUSE.latin];
    if (!count) return { how: "utf-8", name: "UTF-8 with damage", note: damage(input) };
    const rest = found.invalid - count;
    const bytes = count === 1 ? "a byte" : `${number(count)} bytes`;
    const first = latins(input);
    const one = found.places === 1 ? `${bytesOfValue(input.places.values[0], 1)[0].toString(16).toUpperCase()} alone is ${first} there.` : `${first}${rest ? `; the other ${rest === 1 ? "byte stays" : `${number(rest)} bytes stay`} U+FFFD.` : ": all that is invalid."}`;
    return { how: "mixed", name: `UTF-8 with ${bytes} of Windows-1252`, note: one };
}

const damage = ({ found }) => (found.invalid ? `${counted(found.invalid, "invalid byte")} ${found.invalid === 1 ? "stays" : "stay"} U+FFFD.` : "As it is.");

// A valid character near the first place, and what it becomes in Windows-1252.
function sampleOf({ source, places }) {
    const from = Math.max((places.length ? places.offsets[0] : 0) - 4 * NEAR, 0);
    const text = new TextDecoder().decode(source.atHand(from, Math.min(from + 16 * NEAR, source.size)) ?? new Uint8Array());
    const found = text.match(/[^\x00-\x7f\ufffd\p{C}]/u)?.[0];
    return found ? `${found} becomes ${shown(new TextDecoder("windows-1252").decode(new TextEncoder().encode(found)))}` : "";
}

function throughout(input, guess, isFirst) {
    const { found } = input;
    const sample = guess.chars ? sampleOf(input) : "";
    const note = isFirst && !guess.chars ? "No valid character speaks for UTF-8." : sample ? `Nothing is invalid, but ${sample}.` : "Every byte is a character there.";
    return { how: "windows-1252", name: isFirst ? "Windows-1252" : "Windows-1252 throughout", note, hasOthers: isFirst || !found.causes[CAUSE.latin] };
}

// The ways to read an input, the likeliest first.
function waysOf(input, guess) {
    const plain = () => ({ how: "utf-8", name: "UTF-8 with damage", note: damage(input) });
    const utf16 = (name, mark) => ({ how: name, name: name.toUpperCase(), note: mark ? "By its byte order mark." : "Without a mark: every second byte is 00." });
    switch (guess.name) {
        case "utf-16le":
        case "utf-16be": return [utf16(guess.name, guess.mark)];
        case "twice": return [{ how: "twice", name: "UTF-8, encoded twice", note: "Decoded once more. Two programs each encoded it." }, ...(input.found.invalid ? [plain()] : [{ how: "utf-8", name: "UTF-8, once", note: "As it is." }])];
        case "cut": return [cut(input, guess), ...(input.found.invalid === 1 ? [throughout(input, guess, false)] : [])];
        case "surrogates": return [{ how: "surrogates", name: "CESU-8, or Java’s modified UTF-8", note: "Halves of emoji are joined; halves alone stay U+FFFD." }, plain()];
        case "mixed": return [mixed(input), throughout(input, guess, false)];
        case "windows-1252": return onlyEnd(input, guess) ?? [throughout(input, guess, true), ...(guess.chars ? [mixed(input)] : [])];
        case "other": return [{ how: input.likely, name: LABELS[input.likely], note: "Or another 8-bit encoding: choose by the text.", hasOthers: true }, throughout(input, guess, false)];
        default: return [];
    }
}

// Bytes of which the last one alone is invalid may be cut off; which of both is likelier depends on how common the byte is as a lead byte.
function onlyEnd(input, guess) {
    const { found, places } = input;
    if (found.places !== 1 || places.causes[0] !== CAUSE.end) return null;
    const both = [throughout(input, guess, true), cut(input, { ...guess, tail: 1 })];
    return COMMON_LEADS.has(places.values[0] >>> 24) ? both.reverse() : both;
}

function cut({ found }, guess) {
    const ends = list([...(guess.head ? ["start"] : []), ...(guess.tail ? ["end"] : [])].map((it) => `at the ${it}`));
    return { how: "utf-8", name: `UTF-8, cut off ${ends}`, note: `The rest is valid; ${counted(found.invalid, "byte")} ${found.invalid === 1 ? "is" : "are"} the remains of a character.` };
}

// The guesses of an input, of which the first is the best; none if it is what it seems, or nothing fits.
export function guessesOf(input) {
    const { guess, found } = input;
    if (!guess || !found?.isLast || !input.size) return [];
    if (["utf-8", "ascii"].includes(guess.name) || isHardlyText(input)) return [];
    const ways = waysOf(input, guess);
    return guess.name === "mixed" && !found.causes[CAUSE.latin] && guess.chars > guess.single * 4 ? ways.slice(0, 1) : ways;
}

// The line of the first place, or the first line, as parts of text; `null` if its bytes are not at hand.
export function preview(input, how, middle = null) {
    const { source, places } = input;
    const isWhole = isLabel(how) || how === "twice";
    const place = middle ?? (formOf(how) === UTF8 && places.length && input.form === UTF8 ? places.offsets[0] : 0);
    const from = Math.max(place - NEAR, 0) & ~1;
    const to = Math.min(place + 2 * NEAR, source.size);
    const bytes = source.atHand(from, to);
    if (!bytes) return null;
    const parts = isWhole ? decodedParts(input, bytes, how, from) : repairedParts(input.codec, bytes, boundary(bytes, from), bytes.length - tail(bytes, to < source.size), how, from);
    return around(lineOf(Array.from(parts, (it) => ({ ...it, offset: it.place?.offset ?? it.offset })), place));
}

// Where the first whole character of a window begins, and how many bytes of a character its end has.
const boundary = (bytes, from) => (from ? Math.max(bytes.findIndex((it) => (it & 0xc0) !== 0x80), 0) : 0);
const tail = (bytes, isCut) => (isCut ? MARGIN : 0);

// The parts of one line: the one that has the place, or else the first that is marked or has any text.
function lineOf(parts, offset = -1) {
    const lines = [[]];
    for (const part of parts) {
        part.text.split(/\r?\n|\r/).forEach((text, i) => {
            if (i) lines.push([]);
            lines[lines.length - 1].push({ text, mark: part.mark, isIt: part.offset === offset });
        });
    }
    const has = (test) => lines.find((line) => line.some(test));
    return has((it) => it.isIt) ?? has((it) => it.mark) ?? has((it) => it.text.trim()) ?? [];
}

// Text of another encoding; marked is what stands for characters that were valid UTF-8.
function decodedParts(input, bytes, how, from) {
    if (how === "twice") return [{ text: decodedTwice(new TextDecoder().decode(bytes)), mark: "" }];
    if (formOf(how) !== UTF8) return [{ text: new TextDecoder(how).decode(bytes), mark: "" }];
    // (bytes of an encoding of several bytes for a character belong together)
    if (/^(?:shift_jis|gbk|big5|euc-kr)$/.test(how)) return [{ text: new TextDecoder(how).decode(bytes.subarray(boundary(bytes, from))), mark: "" }];
    const decoder = new TextDecoder(how);
    const isBest = input.guess?.name === "windows-1252" || input.guess?.name === "other";
    const made = [];
    for (const part of repairedParts(input.codec, bytes, boundary(bytes, from), bytes.length, "mixed", from)) {
        if (part.place) {
            const own = bytes.subarray(part.place.offset - from, part.place.offset - from + part.place.length);
            made.push({ text: decoder.decode(own), mark: isBest ? "mended" : part.mark === "mended" ? "" : "bad", offset: part.place.offset });
        } else for (const it of part.text.split(/([^\x00-\x7f]+)/)) made.push(/^[^\x00-\x7f]/.test(it) ? { text: decoder.decode(new TextEncoder().encode(it)), mark: isBest ? "mended" : "bad" } : { text: it, mark: "" });
    }
    return made;
}

// So many characters at most, those around the first mark.
function around(parts) {
    const all = parts.map((it) => ({ ...it, letters: Array.from(shown(it.text)) }));
    const isIt = all.findIndex((it) => it.isIt);
    const first = isIt >= 0 ? isIt : all.findIndex((it) => it.mark);
    const before = first < 0 ? 0 : all.slice(0, first).reduce((sum, it) => sum + it.letters.length, 0);
    let [skip, left] = [Math.max(before - LENGTH / 2, 0), LENGTH];
    const made = skip ? [{ text: "…", mark: "" }] : [];
    for (const { letters, mark } of all) {
        const taken = letters.slice(skip, skip + left);
        skip = Math.max(skip - letters.length, 0);
        left -= taken.length;
        if (taken.length) made.push({ text: taken.join(""), mark });
        if (left <= 0) {
            made.push({ text: "…", mark: "" });
            break;
        }
    }
    return made;
}

const marks = { mended: "ins", bad: "mark" };
const drawn = (parts) => parts.map(({ text, mark }) => (mark ? element(marks[mark], "", {}, text) : text));

function chooser(input, way, use) {
    const made = element("select", "", { "aria-label": "Another encoding" }, ...Object.entries(LABELS).map(([label, name]) => element("option", "", { value: label, ...(label === way.how ? { selected: "" } : {}) }, name)));
    made.addEventListener("change", () => use(made.value));
    return made;
}

// Draws the guesses; `use` takes one.
export function showGuesses(input, use) {
    const ways = guessesOf(input);
    $("guess-part").hidden = !ways.length && !(input.found?.isLast && input.found.invalid && input.form === UTF8);
    if (!ways.length) return $("guess").replaceChildren(element("li", "none", {}, element("p", "soft", {}, input.guess?.name === "binary" ? `Nothing to repair: open ${input.guess.file ?? "it"} with a program for such files.` : "No encoding fits better than UTF-8 with damage.")));
    const rows = ways.map((way, i) => {
        const how = i === 0 && way.hasOthers && isLabel(input.how) && !ways.some((it) => it.how === input.how) ? input.how : way.how;
        const isInUse = input.how === how && input.form === formOf(how);
        const name = how === way.how ? way.name : LABELS[how] ?? way.name;
        const told = element("div", "", {}, element("b", "", {}, ...unbroken(`${i ? "Or" : "Best guess:"} ${name}`)), element("br"), element("span", "soft", {}, way.note), ...(way.hasOthers && i === ways.findIndex((it) => it.hasOthers) ? [" ", chooser(input, { how }, use)] : []));
        const parts = preview(input, how);
        const text = element("pre", parts ? "" : "waits", {}, element("bdi", "", {}, ...drawn(parts ?? [])));
        // (a text in another encoding is to be read so before anything else is done)
        const isNext = i === 0 && formOf(how) !== input.form;
        const pressed = button(isInUse ? "✓ In use" : "Read it so", () => use(how), { "aria-pressed": String(isInUse), "aria-label": `${isInUse ? "In use" : "Read it so"}: ${name}` }, isNext ? "go" : "");
        return element("li", "", { "data-how": how }, told, text, pressed);
    });
    $("guess").replaceChildren(...rows);
}
