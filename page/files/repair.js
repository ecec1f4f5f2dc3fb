// The text that results if bytes are read by a guess. Bytes that stay invalid become U+FFFD, one for each maximal subpart.
import { UTF8, UTF16LE } from "./codec.js";
import { byteOfLatin, latinOf } from "./guess.js";
import { CAUSE, Survey, needOf } from "./survey.js";

// Fewer bytes than places can be listed.
const PART = 1 << 19;
const AROUND = 32;
const utf8 = new TextDecoder("utf-8", { ignoreBOM: true });

// How far the second byte of a character goes after these lead bytes.
const SECOND = { 0xe0: [0xa0, 0xbf], 0xed: [0x80, 0x9f], 0xf0: [0x90, 0xbf], 0xf4: [0x80, 0x8f] };

// How many maximal subparts the bytes of a place are.
export function subpartsOf(bytes, length, isRun) {
    if (isRun || length === 1 || needOf(bytes[0]) === 1 || bytes[0] < 0xc2) return length;
    const [low, high] = SECOND[bytes[0]] ?? [0x80, 0xbf];
    return low <= bytes[1] && bytes[1] <= high ? 1 : length;
}

export const bytesOfValue = (value, length) => [24, 16, 8, 0].slice(0, Math.min(length, 4)).map((shift) => (value >>> shift) & 255);

// The code point that bytes would be by their form alone, whether UTF-8 has it or not.
export const valueOf = ([first, ...rest]) => rest.reduce((value, it) => (value << 6) | (it & 0x3f), first & (0xff >> (rest.length + 2)));

// The labels of encodings that the browser decodes.
export const LABELS = { "windows-1252": "Windows-1252", "windows-1250": "Windows-1250", "windows-1251": "Windows-1251", "windows-1253": "Windows-1253", "windows-1254": "Windows-1254", "iso-8859-2": "ISO-8859-2",
    "iso-8859-15": "ISO-8859-15", "koi8-r": "KOI8-R", "macintosh": "Mac Roman", "shift_jis": "Shift_JIS", "gbk": "GBK", "big5": "Big5", "euc-kr": "EUC-KR" };
export const isLabel = (name) => name in LABELS || name === "utf-16le" || name === "utf-16be";

// What a place becomes: its text, and whether it was mended.
function textOfPlace(place, next, how) {
    const bytes = bytesOfValue(place.value, place.length);
    if (how === "mixed" && place.cause === CAUSE.latin) return { text: latinOf(bytes[0]), mark: "mended" };
    if (how === "surrogates" && place.cause !== CAUSE.run) {
        if (place.length === 2 && bytes[0] === 0xc0 && bytes[1] === 0x80) return { text: "\0", mark: "mended" };
        const pair = pairOf(place, next);
        if (pair) return { text: pair, mark: "mended", hasNext: true };
    }
    return { text: "\ufffd".repeat(subpartsOf(bytes, place.length, place.cause === CAUSE.run)), mark: "bad" };
}

// The character of two surrogates side by side, each written in three bytes, or "".
export function pairOf(place, next) {
    if (place.cause !== CAUSE.surrogate || next?.cause !== CAUSE.surrogate || next.offset !== place.offset + 3) return "";
    const [high, low] = [place, next].map((it) => valueOf(bytesOfValue(it.value, 3)));
    return high < 0xdc00 && low >= 0xdc00 ? String.fromCodePoint(0x10000 + ((high - 0xd800) << 10) + low - 0xdc00) : "";
}

// Parts of the text of bytes from one offset of theirs up to and without another, or up to the end of a place that is on both sides of that.
// Returns where they end.
export function* repairedParts(codec, bytes, from, to, how, base = 0) {
    const survey = new Survey(codec, UTF8, { base });
    survey.take(bytes, true);
    const { list } = survey;
    let at = from;
    for (let i = 0; i < list.length; i++) {
        const [place, next] = [list.at(i), i + 1 < list.length ? list.at(i + 1) : null];
        // (a run may have begun before)
        const start = Math.max(place.offset - base, at);
        const length = place.offset - base + place.length - start;
        if (length <= 0) continue;
        if (start >= to) break;
        if (at < start) yield { text: utf8.decode(bytes.subarray(at, start)), mark: "" };
        const { text, mark, hasNext } = textOfPlace({ ...place, length }, next, how);
        yield { text, mark, place };
        at = start + length + (hasNext ? 3 : 0);
    }
    if (at < to) yield { text: utf8.decode(bytes.subarray(at, to)), mark: "" };
    return Math.max(at, to);
}

// Text that was encoded twice, decoded once more; a part that was encoded once stays.
export function decodedTwice(text) {
    return text.replace(/[\u0080-\u00ff\u0152\u0153\u0160\u0161\u0178\u017d\u017e\u0192\u02c6\u02dc\u2013-\u203a\u20ac\u2122]{2,}/g, (run) => {
        const bytes = Uint8Array.from(run, (it) => Math.max(byteOfLatin(it.codePointAt(0)), 0));
        try {
            return new TextDecoder("utf-8", { fatal: true, ignoreBOM: true }).decode(bytes);
        } catch {
            return run;
        }
    });
}

// A source by a guess, as chunks of text, each as it is made; it stops if it is not wanted.
export async function* repairedOf(codec, form, source, how, isWanted = () => true) {
    const label = form === UTF8 ? (isLabel(how) ? how : "") : form === UTF16LE ? "utf-16le" : "utf-16be";
    const decoder = label && new TextDecoder(label);
    // The end of the text so far that may be the front of a character that was encoded twice: all after the last character of ASCII.
    let held = "";
    for (let at = 0; at < source.size && isWanted(); ) {
        const first = Math.max(at - AROUND, 0);
        const bytes = new Uint8Array(await source.slice(label ? at : first, at + PART + AROUND).arrayBuffer());
        if (label) {
            const taken = bytes.subarray(0, PART);
            at += taken.length;
            yield decoder.decode(taken, { stream: at < source.size });
            continue;
        }
        const isLast = at + PART + AROUND >= source.size;
        codec.fill(bytes);
        const end = isLast ? bytes.length : codec.shardEnd(at - first + PART);
        const parts = repairedParts(codec, bytes, at - first, end, how, first);
        let [text, it] = ["", parts.next()];
        for (; !it.done; it = parts.next()) text += it.value.text;
        if (how === "twice") {
            let cut = text.length;
            while (!isLast && cut && text.charCodeAt(cut - 1) > 0x7f) cut--;
            const known = cut ? held + text.slice(0, cut) : "";
            held = (cut ? "" : held) + text.slice(cut);
            text = decodedTwice(known);
        }
        yield at === 0 ? text.replace(/^\ufeff/, "") : text;
        at = first + it.value;
    }
}

// As a Blob of UTF-8, with how far it is now and then.
export async function repairedBlob(codec, form, source, how, tell, isWanted) {
    const made = [];
    let done = 0;
    for await (const text of repairedOf(codec, form, source, how, isWanted)) {
        made.push(new Blob([text]));
        tell({ part: Math.min(((done += PART) / source.size), 1) });
    }
    return isWanted() ? new Blob(made, { type: "text/plain" }) : null;
}

// A Blob in another encoding, as a Blob; invalid bytes become U+FFFD each.
export async function recodedBlob(codec, from, to, source, tell, isWanted) {
    const [state, made] = [codec.newRecoder(from, to), []];
    for (let at = 0; at < source.size; at += 8 * PART) {
        const chunks = [];
        codec.feed(state, new Uint8Array(await source.slice(at, at + 8 * PART).arrayBuffer()), chunks);
        made.push(new Blob(chunks));
        tell({ part: at / source.size });
        if (!isWanted()) return null;
    }
    const last = [];
    codec.finish(state, last);
    return new Blob([...made, ...last], { type: "application/octet-stream" });
}
