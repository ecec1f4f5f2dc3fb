// The calls of the package. index.d.ts says what they take and return.
import { bytesOf, copyOf, hold, own, partOf, unshared } from "./bytes.js";
import { DROP, FEW, FORMS, INCOMPLETE, LATIN_1, LOSSY, NONE, NOTHING, NO_BYTES, NO_PIECES, OK, REPLACE, ROOM, SEEN, SETTINGS, STRICT, TABLED, TOO_FEW, UTF16LE, UTF8, WINDOWS_1252, joined, repairOf } from "./codec.js";

// How many bytes are scanned for pieces in one call of the module.
const BLOCK = 4096;
const MEGABYTE = 1 << 20;
// How many bytes are validated in one call of the module: they stay in the CPU's cache.
const WINDOW = 1 << 16;
// Up to this length TextDecoder decodes valid UTF-8 in less time than transcoding to UTF-16 takes. Of longer text only ASCII.
const SHORT = 256;
const SAMPLES = 100;
// From this length on a TextDecoder validates ASCII that it decodes: it need not be copied into the module's memory. For less text the error
// of a TextDecoder, if the text is invalid, takes too long.
const LONG = 1 << 15;
// Every engine allows strings of this many code units.
const UNITS = 1 << 27;
// Bytes of UTF-16 that a TextDecoder gets in one call: Node's fails for 2^28.
const AT_ONCE = 1 << 25;

// The labels of the Encoding Standard, and those that the programs take.
const LABELS = [
    ["utf-8", "utf8", "unicode-1-1-utf-8", "unicode11utf8", "unicode20utf8", "x-unicode20utf8"],
    ["utf-16le", "utf16le", "utf-16", "unicode", "unicodefeff", "csunicode", "iso-10646-ucs-2", "ucs-2"],
    ["utf-16be", "utf16be", "unicodefffe"],
];

// A label, which may be of no encoding here: then the form is below 0.
function labelOf(given) {
    if (ArrayBuffer.isView(given)) throw new TypeError('noddychest: an encoding is a string, as "utf-8", and no bytes');
    const told = String(given);
    // (no label has white space inside. A regular expression for that at the end alone would take quadratic time for what is inside)
    const words = told.split(/[\t\n\f\r ]+/, 3).filter((it) => it !== "");
    const name = words.length === 1 ? words[0].toLowerCase() : "";
    return { told, form: LABELS.findIndex((it) => it.includes(name)) };
}

function formOf(label) {
    const known = FORMS.indexOf(label);
    if (known >= 0) return known;
    const { told, form } = labelOf(label);
    if (form < 0) throw new RangeError(`noddychest: the encoding ${told} is not one of ${FORMS.join(", ")}`);
    return form;
}

function encodingOf(label) {
    const { form } = labelOf(label);
    return form < 0 ? null : FORMS[form];
}

// Bytes and their form. (a label may run code, which may take the bytes away: so it is asked first)
function textOfForm(data, encoding) {
    const form = formOf(encoding);
    return [bytesOf(data), form];
}

// Options, which are to be an object.
function objectOf(options, example) {
    if (options !== null && (typeof options === "object" || typeof options === "function")) return options;
    throw new TypeError(`noddychest: options are an object, as ${example}, or left out, and not ${options === null ? "null" : `a ${typeof options}`}`);
}

const has = (object, name) => Object.prototype.hasOwnProperty.call(object, name);

// An option; undefined of one that somebody put into Object.prototype, where all objects seem to have it.
function optionOf(options, name) {
    let it = options;
    for (let next; (next = Object.getPrototypeOf(it)) !== null; it = next) if (has(it, name)) return options[name];
    return it !== options && has(it, name) ? undefined : options[name];
}

// What a value is by the language itself, as "Map", also one of another realm.
const kindOf = (value) => Object.prototype.toString.call(value).slice(8, -1);

// The first byte that a table has.
const FIRST = 0x80;

const quoted = (value) => (typeof value === "string" ? JSON.stringify(value) : String(value));

// The number of a character that a table has for a byte: U+FFFD if it does not have the byte.
function numberOfChar(char, byte) {
    if (char === undefined) return 0xfffd;
    if (char === null || char === "") return NOTHING;
    const rule = `noddychest: a table has for the byte ${byte.toString(16).toUpperCase()} a character up to U+FFFF, or nothing`;
    if (typeof char !== "string" && typeof char !== "number") throw new TypeError(`${rule}, and no ${typeof char}`);
    const number = typeof char === "number" ? char : char.length === 1 ? char.charCodeAt(0) : -1;
    if (Number.isInteger(number) && number >= 0 && number <= 0xffff && (number < 0xd800 || number > 0xdfff)) return number;
    throw new RangeError(`${rule}, and not ${quoted(char)}`);
}

// Throws if a key of a table is no byte.
function holdKeys(keys, numberOf) {
    for (const key of keys) {
        const byte = numberOf(key);
        if (!Number.isInteger(byte) || byte < 0 || byte > 0xff) throw new RangeError(`noddychest: a table has characters for the bytes 128 to 255, and not for ${quoted(key)}`);
    }
}

// What looks a byte up in a table.
function lookUpIn(table) {
    if (typeof table === "function") return (byte) => table(byte);
    if (Array.isArray(table) || (ArrayBuffer.isView(table) && kindOf(table) !== "DataView")) {
        if (ArrayBuffer.isView(table)) bytesOf(table); // (throws if these are gone)
        const { length } = table;
        if (length > TABLED) throw new RangeError(`noddychest: an array of characters begins with that for the byte 80, and has up to ${TABLED}, and not ${length}`);
        return (byte) => table[byte - FIRST];
    }
    if (kindOf(table) === "Map") {
        holdKeys(table.keys(), (key) => key);
        return (byte) => table.get(byte);
    }
    if (kindOf(table) !== "Object") throw new TypeError(`noddychest: a table is an object, a Map, an array or a function, and no ${kindOf(table)}`);
    holdKeys(Object.keys(table), (key) => (String(Number(key)) === key ? Number(key) : NaN));
    return (byte) => (has(table, byte) ? table[byte] : undefined);
}

// What writes the characters of a table, of which each is asked for once.
function repairBy(table) {
    const lookUp = lookUpIn(table);
    const numbers = new Array(TABLED);
    for (let at = 0; at < TABLED; at++) numbers[at] = numberOfChar(lookUp(FIRST + at), FIRST + at);
    return repairOf(numbers);
}

// What options ask to do with invalid bytes. `fatal: true` is how TextDecoder says "strict".
const WAYS = { replace: REPLACE, lossy: LOSSY, strict: STRICT, drop: DROP, "windows-1252": WINDOWS_1252, "latin-1": LATIN_1 };

function wayBy(name) {
    if (Object.keys(WAYS).includes(name)) return WAYS[name];
    throw new RangeError(`noddychest: errors is ${Object.keys(WAYS).map((it) => `"${it}"`).join(", ")} or a table, and not ${name}`);
}

function wayOf(options) {
    if (options === undefined) return REPLACE;
    const given = objectOf(options, "{ fatal: true }");
    const [errors, fatal] = [optionOf(given, "errors"), optionOf(given, "fatal")];
    if (errors === undefined) return fatal ? STRICT : REPLACE;
    const isTable = typeof errors === "function" || (typeof errors === "object" && errors !== null && kindOf(errors) !== "String");
    const way = isTable ? repairBy(errors) : wayBy(String(errors));
    if (fatal && way !== STRICT) throw new TypeError(`noddychest: fatal is the same as errors: "strict", and here errors is ${isTable ? "a table" : `"${errors}"`}`);
    return way;
}

// What options ask to call with each fault.
function onFaultOf(options = {}) {
    const onFault = optionOf(objectOf(options, "{ onFault: (fault) => .. }"), "onFault");
    if (onFault === undefined || typeof onFault === "function") return onFault;
    throw new TypeError(`noddychest: onFault is a function, and not ${onFault === null ? "null" : `a ${typeof onFault}`}`);
}

// An offset that a caller gives.
function wholeOf(at) {
    if (Number.isSafeInteger(at) && at >= 0) return at + 0; // (-0 becomes 0)
    throw new RangeError(`noddychest: an offset is a whole number from 0 on, and ${typeof at === "number" ? `not ${at}` : `no ${typeof at}`}`);
}

// The offset from which options ask to count.
function startOf(options = {}) {
    const offset = optionOf(objectOf(options, "{ offset: 0 }"), "offset");
    return wholeOf(offset === undefined ? 0 : offset);
}

// The start of a window of about `size` bytes before an offset: not inside a code unit.
function startBefore(back, size, form) {
    const start = Math.max(back - size, 0);
    return form === UTF8 ? start : start - (start % 2);
}

// The fault that an error reports.
function faultOf(given) {
    const { offset, length, error } = Object(given);
    if (Number.isSafeInteger(offset) && offset >= 0 && (length === 1 || length === 2) && typeof error === "string") return { offset, length, error };
    throw new TypeError('noddychest: a FaultError is made of a fault, as { offset: 3, length: 1, error: "NonUtf8Byte" }, and its encoding');
}

// That text which had to be valid is not. A TypeError, as TextDecoder throws. (Of an error structuredClone and postMessage keep the
// only the message and the cause.)
export class FaultError extends TypeError {
    offset;
    length;
    error;
    name = "FaultError";

    constructor(fault, encoding = "utf-8") {
        const told = faultOf(fault);
        super(`noddychest: invalid ${FORMS[formOf(encoding)].toUpperCase()} at offset ${told.offset}: ${told.error}`, { cause: told });
        // (where an Error takes no cause yet)
        if (!has(this, "cause")) Object.defineProperty(this, "cause", own({ value: told, configurable: true, writable: true, enumerable: false }));
        Object.assign(this, told);
    }
}

// Whether a string of this length is possible here. (one that repeats another takes no memory for its units)
function fitsInString(units) {
    if (units <= UNITS) return true;
    try {
        return Boolean("ab".repeat(Math.floor(units / 2)) + "a".repeat(units % 2));
    } catch {
        return false;
    }
}

const tooLong = (units) => new RangeError(`noddychest: a text of ${units} units of UTF-16 is too long for a string here: take streamText, or recode`);

const newTextDecoder = (form) => new TextDecoder(FORMS[form], own({ ignoreBOM: true, fatal: form === UTF8 }));

// A TextDecoder of each encoding, which is kept, since making one takes longer than decoding a short text; and the class of them.
const kept = { of: null, decoders: [null, null, null] };

// The text of bytes, which a TextDecoder gets in parts of at most AT_ONCE. Null if it fits in no string, of which V8 says that its bytes are not
// valid, and of invalid UTF-8.
function decodedBy(form, bytes) {
    const { decoders } = kept;
    if (kept.of !== TextDecoder) [kept.of, decoders[UTF8], decoders[UTF16LE]] = [TextDecoder, null, null];
    const decoder = decoders[form] ?? newTextDecoder(form);
    // (one that throws is not used again)
    decoders[form] = null;
    try {
        const text = bytes.length <= AT_ONCE ? decoder.decode(bytes) : decodedInParts(decoder, bytes);
        decoders[form] = decoder;
        return text;
    } catch {
        return null;
    }
}

function decodedInParts(decoder, bytes) {
    let text = "";
    for (let at = 0; at < bytes.length; at += AT_ONCE) text += decoder.decode(partOf(bytes, at, at + AT_ONCE), own({ stream: at + AT_ONCE < bytes.length }));
    return text;
}

// Whether some of the bytes, all over them, are ASCII.
function looksAscii(bytes) {
    const step = Math.ceil(bytes.length / SAMPLES);
    for (let at = 0; at < bytes.length; at += step) if (bytes[at] > 0x7f) return false;
    return true;
}

// The parts of a stream or of any iterable. A stream that is left before its end is cancelled.
async function* partsOf(stream) {
    if (typeof stream?.getReader !== "function") {
        if (ArrayBuffer.isView(stream) || (!stream?.[Symbol.asyncIterator] && !stream?.[Symbol.iterator])) throw new TypeError("noddychest: a stream is a ReadableStream, or another iterable, of bytes in parts");
        yield* stream;
        return;
    }
    const reader = stream.getReader();
    let isOver = false;
    try {
        for (;;) {
            const { done, value } = await reader.read();
            isOver = done;
            if (done) return;
            yield value;
        }
    } finally {
        // (what that says is of no use, nor that it throws)
        if (!isOver) await (async () => reader.cancel())().catch(() => {});
        reader.releaseLock();
    }
}

// The names of guesses by their numbers, and what they say.
const GUESSES = [
    ["Ascii", "ASCII"],
    ["Utf8", "UTF-8"],
    ["Utf8Marked", "UTF-8, by its byte order mark"],
    ["Utf8Cut", "UTF-8, cut off inside a character"],
    ["Utf8Mixed", "UTF-8, with single bytes of an 8-bit encoding"],
    ["Utf8Twice", "UTF-8 that was encoded twice"],
    ["Utf8Surrogates", "CESU-8 or Java's modified UTF-8: UTF-8 with surrogates"],
    ["Utf16Le", "UTF-16LE, without a byte order mark"],
    ["Utf16Be", "UTF-16BE, without a byte order mark"],
    ["Utf16LeMarked", "UTF-16LE, by its byte order mark"],
    ["Utf16BeMarked", "UTF-16BE, by its byte order mark"],
    ["Utf32", "UTF-32, by its byte order mark"],
    ["Windows1252", "Windows-1252, or another encoding of Latin letters"],
    ["Other8Bit", "some 8-bit encoding, but not Windows-1252"],
    ["Binary", "not text"],
];

function guessText(guess) {
    const found = GUESSES.find(([name]) => name === guess);
    if (!found) throw new RangeError(`noddychest: no guess has the name ${String(guess)}`);
    return found[1];
}

// A survey, as callers see it.
function surveyOf({ counts, ends, guesses }) {
    const [length, nul, control, chars, faults, third, signs, undefined_, surrogates, twice, twiceChars] = counts;
    const [utf16le, utf16be] = [11, 14].map((at) => ({ plain: counts[at], stray: counts[at + 1], unpaired: counts[at + 2] }));
    const utf8 = { chars, faults, third, signs, undefined: undefined_, surrogates, twice, twiceChars };
    const told = Array.from(guesses, (number) => GUESSES[number][0]);
    return { guess: told[0], guesses: told, length, nul, control, utf8, utf16le, utf16be, front: copyOf(ends, 0, Math.min(length, 4)), head: ends[4], tail: ends[5] };
}

// A fault with its position.
const locatedOf = ({ offset, length, error }, { line, column, byteColumn }) => ({ offset, line, column, byteColumn, length, error });

// The calls over one instance of the module, which no others use.
export function callsOf(codec) {
    // A piece of the codec, which began at the offset `base`, as callers see it.
    function shown({ place, len, scalar, kind }, base = 0) {
        const isValid = kind === OK;
        return { offset: base + place, length: len, char: isValid ? String.fromCodePoint(scalar) : null, error: isValid ? null : codec.names[kind] };
    }

    function sentence(error) {
        const kind = codec.names.indexOf(error);
        if (kind <= OK || kind >= NONE) throw new RangeError(`noddychest: no error has the name ${String(error)}`);
        return codec.sentences[kind];
    }

    // The pieces of some bytes that begin before `end`, with offsets from `base` on.
    function* piecesIn(bytes, form, base = 0, end = bytes.length) {
        const { length } = bytes;
        for (let at = 0; at < end; ) {
            hold(bytes.length === length);
            const isLast = length - at <= BLOCK;
            codec.fill(partOf(bytes, at, at + BLOCK), form);
            const stop = Math.min(isLast ? codec.len : BLOCK - SEEN + 1, end - at);
            // (a copy, of which objects are made one by one: such as live for a block cost more)
            const row = codec.copies(codec.run(0).count);
            let place = 0;
            while (place < stop) {
                const piece = row.take(place);
                hold(bytes.length === length);
                yield shown(piece, base + at);
                place += piece.len;
            }
            at += place;
        }
    }

    // The invalid ones of the pieces; `most` is about how many one call looks for. With a position, that of the first byte, each has its own,
    // and the position is then that of the end.
    function* faultsIn(bytes, form, { base, end, most, position = null } = { base: 0, end: bytes.length, most: BLOCK }) {
        const { length } = bytes;
        let [begin, front, filled, limit, size] = [0, 0, 0, 0, BLOCK];
        while (begin + front < end) {
            hold(bytes.length === length);
            if (!codec.holds(filled) || front === limit) {
                // (the window is short at first, and again after another call took the memory)
                size = filled && codec.holds(filled) ? Math.min(16 * size, MEGABYTE) : BLOCK;
                [begin, front] = [begin + front, 0];
                filled = codec.fill(partOf(bytes, begin, begin + size), form);
                // (the kind of a piece depends on the bytes after it: those at the end of this window come again)
                limit = begin + codec.len === length ? codec.len : codec.boundary(codec.len - SEEN);
            }
            const block = [];
            let passed = front;
            const tell = (place, len, kind) => {
                if (place >= limit || begin + place >= end) return;
                const fault = shown({ place, len, scalar: 0, kind }, base + begin);
                if (position) codec.advance(passed, place);
                block.push(position ? locatedOf(fault, codec.position) : fault);
                passed = place;
            };
            if (position) codec.setPosition(position);
            const told = codec.faults(front, most, tell);
            front = Math.min(told, limit);
            if (position) codec.advance(passed, Math.max(passed, Math.min(front, end - begin)));
            if (position) codec.positionTo(position);
            for (const it of block) {
                hold(bytes.length === length);
                yield it;
            }
        }
    }

    const pieces = (data, encoding = "utf-8") => piecesIn(...textOfForm(data, encoding));

    const piecesBack = (data, encoding = "utf-8") => piecesBefore(...textOfForm(data, encoding));

    function* piecesBefore(bytes, form) {
        const { length } = bytes;
        for (let back = length; back > 0; ) {
            hold(bytes.length === length);
            const base = startBefore(back, BLOCK, form);
            codec.fill(partOf(bytes, base, back), form);
            const [block, left] = [[], { front: 0, back: codec.len }];
            while (left.back > 0 && (base === 0 || left.back >= SEEN)) block.push(shown(codec.step("B", left), base));
            back = base + left.back;
            for (const it of block) {
                hold(bytes.length === length);
                yield it;
            }
        }
    }

    class Ends {
        #bytes;
        #form;
        #length;
        #front = 0;
        #back;

        constructor(data, encoding = "utf-8") {
            [this.#bytes, this.#form] = textOfForm(data, encoding);
            this.#back = this.#length = this.#bytes.length;
        }

        // One piece, decoded only from the bytes near that end.
        #step(letter, from, to) {
            codec.fill(this.#part(from, to), this.#form);
            const left = { front: 0, back: codec.len };
            const piece = codec.step(letter, left);
            if (piece.kind === NONE) return null;
            const made = shown(piece, from);
            if (letter === "F") this.#front += piece.len;
            else this.#back -= piece.len;
            return made;
        }

        next() {
            return this.#step("F", this.#front, Math.min(this.#front + SEEN, this.#back));
        }

        nextBack() {
            return this.#step("B", Math.max(startBefore(this.#back, SEEN, this.#form), this.#front), this.#back);
        }

        // (code that V8 optimized may see the old length of an array that was detached, and then this throws)
        #part(from, to) {
            hold(this.#bytes.length === this.#length);
            try {
                return partOf(this.#bytes, from, to);
            } catch {
                return hold(false);
            }
        }

        get remaining() {
            return this.#part(this.#front, this.#back);
        }
    }

    const faults = (data, encoding = "utf-8") => faultsIn(...textOfForm(data, encoding));

    const locatedIn = (bytes, form) => faultsIn(bytes, form, { base: 0, end: bytes.length, most: BLOCK, position: codec.newPosition() });

    const located = (data, encoding = "utf-8") => locatedIn(...textOfForm(data, encoding));

    // The first invalid byte, or null. (it is named by the bytes that were validated: another thread may have changed shared memory since)
    function firstIn(bytes, form) {
        const { length } = bytes;
        for (let [at, size] = [0, BLOCK]; at < length; size = WINDOW) {
            codec.fill(at || length > size ? partOf(bytes, at, at + size) : bytes, form);
            const valid = codec.validUpTo();
            // (what begins among the last bytes of a window depends on those after it)
            if (valid < codec.len && (valid <= codec.len - SEEN || at + codec.len === length)) return shown(codec.step("F", { front: valid, back: codec.len }), at);
            at += valid;
        }
        return null;
    }

    const firstFault = (data, encoding = "utf-8") => firstIn(...textOfForm(data, encoding));

    const isValid = (data, encoding = "utf-8") => firstFault(data, encoding) === null;

    // Takes a window of the bytes, at most so long. Returns the boundary at which it ends.
    function windowEnd(bytes, at, size, form) {
        codec.fill(partOf(bytes, at, at + size), form);
        return at + codec.len === bytes.length ? codec.len : codec.boundary(codec.len - SEEN);
    }

    // The sum of a call's results over consecutive windows that end at boundaries.
    function summed(bytes, form, call) {
        let sum = 0;
        for (let at = 0; at < bytes.length; ) {
            const end = windowEnd(bytes, at, MEGABYTE, form);
            sum += call(partOf(bytes, at, at + end), end, at);
            at += end;
        }
        return sum;
    }

    const charCount = (data, encoding = "utf-8") => summed(...textOfForm(data, encoding), (_, end) => codec.countBetween(0, end));

    function recodedLength(data, from, to) {
        const [form, target] = [formOf(from), formOf(to)];
        return recodedLengthOf(bytesOf(data), form, target);
    }

    const recodedLengthOf = (bytes, form, target) => summed(bytes, form, (part) => {
        codec.fill(part, form);
        return codec.recodedLength(target);
    });

    // Takes the bytes near an offset, which decide the pieces there. Returns where they begin.
    function standNear(bytes, place, form) {
        const start = startBefore(place, 2 * SEEN, form);
        codec.fill(partOf(bytes, start, place + 2 * SEEN), form);
        return start;
    }

    // An offset near another, which `find` returns for one in the bytes near it.
    function offsetNear(data, at, encoding, find) {
        const [bytes, form, place] = [...textOfForm(data, encoding), wholeOf(at)];
        if (place >= bytes.length) return bytes.length;
        const start = standNear(bytes, place, form);
        return start + find(place - start);
    }

    const boundaryBefore = (data, at, encoding = "utf-8") => offsetNear(data, at, encoding, (place) => codec.boundary(place));
    const boundaryAfter = (data, at, encoding = "utf-8") => offsetNear(data, at, encoding, (place) => codec.boundary(place, true));
    const shardEnd = (data, at, encoding = "utf-8") => offsetNear(data, at, encoding, (place) => codec.shardEnd(place));

    // The offset of the piece with a number: counted window by window, of which the first is short.
    function offsetOf(data, number, encoding = "utf-8") {
        const [bytes, form] = textOfForm(data, encoding);
        let [left, size] = [wholeOf(number), BLOCK];
        for (let at = 0; at < bytes.length; size = Math.min(2 * size, MEGABYTE)) {
            const end = windowEnd(bytes, at, size, form);
            const count = codec.countBetween(0, end);
            if (left < count) return at + codec.offsetOf(left);
            left -= count;
            at += end;
        }
        return null;
    }

    // (what is far after an offset does not change what begins before it)
    function numberOf(data, offset, encoding = "utf-8") {
        const [[bytes, form], place] = [textOfForm(data, encoding), wholeOf(offset)];
        return summed(partOf(bytes, 0, place + 2 * SEEN), form, (_, end, at) => codec.numberOf(Math.max(Math.min(place - at, end), 0)));
    }

    // (the bytes near each end decide)
    function changedRange(data, start, end, encoding = "utf-8") {
        const [bytes, form] = textOfForm(data, encoding);
        const last = Math.min(wholeOf(end), bytes.length);
        const [before, after] = [Math.min(wholeOf(start), last), last].map((place) => {
            const base = standNear(bytes, place, form);
            const range = codec.changedRange(place - base);
            return { start: base + range.start, end: base + range.end };
        });
        return { start: before.start, end: after.end };
    }

    // (the last bytes decide)
    function undecidedLength(data, encoding = "utf-8") {
        const [bytes, form] = textOfForm(data, encoding);
        codec.fill(partOf(bytes, startBefore(bytes.length, 2 * SEEN, form)));
        return codec.undecidedLength(form);
    }

    function encodingOfBom(data) {
        codec.fill(partOf(bytesOf(data), 0, SEEN));
        const mark = codec.formOfBom();
        return mark && { encoding: FORMS[mark.form], length: mark.len };
    }

    // The output of a recoder for these bytes, whose first one is at an offset of the input; the input ends after the last ones. It throws in
    // strict mode at the first invalid byte.
    function recoded(state, bytes, { form, mode, base, isLast, isLent }) {
        const chunks = [];
        const { fault } = codec.feed(state, bytes, chunks, { most: Infinity, mode, isLast, isLent });
        if (fault) throw new FaultError(shown(fault, base), FORMS[form]);
        return joined(chunks);
    }

    function recode(data, from, to, options) {
        const [form, target, mode] = [formOf(from), formOf(to), wayOf(options)];
        return recoded(codec.newRecoder(form, target), bytesOf(data), { form, mode, base: 0, isLast: true, isLent: false });
    }

    class Recoder {
        #from;
        #way;
        #state;
        #count = 0;

        constructor(from, to, options) {
            const forms = [formOf(from), formOf(to)];
            this.#from = forms[0];
            this.#way = wayOf(options);
            this.#state = codec.newRecoder(...forms);
        }

        get replaced() {
            return codec.replacedBy(this.#state);
        }

        // (if it throws, nothing has changed)
        #put(bytes, isLast) {
            const [state, end] = [copyOf(this.#state), this.#count + bytes.length];
            const made = recoded(state, bytes, { form: this.#from, mode: this.#way, base: this.#count, isLast, isLent: false });
            this.#state = state;
            this.#count = end;
            return made;
        }

        feed(data) {
            return this.#put(bytesOf(data), false);
        }

        finish() {
            return this.#put(NO_BYTES, true);
        }
    }

    function recoderStream(from, to, options) {
        const recoder = new Recoder(from, to, options);
        const put = (bytes, controller) => bytes.length && controller.enqueue(bytes);
        const feed = (part, controller) => void put(recoder.feed(part), controller);
        const finish = (controller) => void put(recoder.finish(), controller);
        return new TransformStream(own({ transform: feed, flush: finish }));
    }

    // A part of the input that a decoder reads, or the end of the input, which has no bytes.
    class Part {
        at = 0;
        isOver = false;
        base = 0;
        filled = 0;
        next = null;

        constructor(bytes, isEnd) {
            this.bytes = bytes;
            this.isEnd = isEnd;
        }

        // Copies what is left to read, so that it does not matter what becomes of the caller's buffer.
        keep() {
            this.bytes = new Uint8Array(partOf(this.bytes, this.at));
            [this.base, this.at] = [this.base - this.at, 0];
        }

        // The offset of the rest in the module's memory, to which up to `size` bytes are copied in one step.
        stand(size) {
            if (!codec.holds(this.filled) || this.at === this.base + codec.len) {
                this.filled = codec.fill(partOf(this.bytes, this.at, this.at + size));
                this.base = this.at;
            }
            return this.at - this.base;
        }
    }

    // A decoder has parts that are not read to their end, linked by `next`; the state of the module's decoder; and a row of pieces that this
    // gave and nobody has taken. All iterators take from there, so that each piece is given once, in order, whoever asks.
    class Decoder {
        #form;
        #state;
        #row = NO_PIECES;
        #front = null;
        #last = null;
        // The offset at which all that was fed ends.
        #end;
        // How many pieces one call asks for in a search for invalid bytes.
        #most = FEW;

        constructor(encoding = "utf-8", options) {
            this.#form = formOf(encoding);
            this.#end = startOf(options);
            this.#state = codec.newDecoder(this.#form, this.#end);
        }

        get encoding() {
            return FORMS[this.#form];
        }

        get offset() {
            return this.#row.isTaken ? this.#state.offset : this.#row.offset;
        }

        get held() {
            return this.#end - this.offset;
        }

        feed(part) {
            return this.#put(new Part(bytesOf(part), false), false);
        }

        finish() {
            return this.#put(new Part(NO_BYTES, true), false);
        }

        feedFaults(part) {
            return this.#put(new Part(bytesOf(part), false), true);
        }

        finishFaults() {
            return this.#put(new Part(NO_BYTES, true), true);
        }

        // Reads a part up to its first pieces, and keeps the rest. (So what has no invalid bytes is not copied, if they are looked for.)
        #put(part, isFaults) {
            const [{ length }, state, row, most] = [part.bytes, this.#state, this.#row, this.#most];
            if (length > Number.MAX_SAFE_INTEGER - this.#end) throw new RangeError(`noddychest: offsets go up to ${Number.MAX_SAFE_INTEGER}, and this part ends beyond`);
            let given;
            try {
                if (!this.#front) this.#readUntilSome(part, isFaults);
                if (!part.isOver) part.keep();
                given = this.#taken(isFaults);
            } catch (error) {
                this.#state = state;
                this.#row = row;
                this.#most = most;
                throw error;
            }
            // (from here on nothing is called: on stack overflow that would throw with half of it done)
            if (!part.isOver) {
                if (this.#front) this.#last.next = part;
                else this.#front = part;
                this.#last = part;
            }
            this.#end += length;
            return given;
        }

        *#taken(isFaults) {
            for (let it; (it = this.#next(isFaults)); ) yield it;
        }

        #next(isFaults) {
            for (;;) {
                if (isFaults) this.#row.passText();
                if (!this.#row.isTaken) return this.#row.take(shown);
                if (!this.#front) return null;
                this.#readUntilSome(this.#front, isFaults);
                if (this.#front.isOver) this.#front = this.#front.next;
                if (!this.#front) this.#last = null;
            }
        }

        #readUntilSome(part, isFaults) {
            while (this.#row.isTaken && !part.isOver) this.#read(part, isFaults);
        }

        #read(part, isFaults) {
            if (isFaults && this.#most === FEW && !this.#state.held && !part.isEnd) this.#skip(part);
            const told = part.isEnd ? codec.decodeLast(this.#state) : codec.decode(this.#state, part.stand(isFaults ? MEGABYTE : BLOCK), isFaults ? this.#most : ROOM);
            this.#state = told.state;
            this.#row = told.row;
            part.at += told.read;
            part.isOver = part.at === part.bytes.length && !told.isFull;
            if (isFaults) this.#passText();
        }

        // (if invalid bytes are dense, one call asks for more pieces)
        #passText() {
            const { faults, count } = this.#row;
            this.#most = faults > count / 8 ? Math.min(2 * this.#most, ROOM) : FEW;
            this.#row.passText();
        }

        // Passes valid text over: a decoder that holds nothing may as well begin after it.
        #skip(part) {
            const len = codec.validFrom(this.#form, part.stand(MEGABYTE));
            if (!len) return;
            this.#state = codec.newDecoder(this.#form, this.#state.offset + len);
            part.at += len;
        }
    }

    class Surveyor {
        #state = codec.newSurveyor();

        feed(part) {
            this.#state = codec.surveyed(this.#state, bytesOf(part));
        }

        survey() {
            return surveyOf(codec.survey(this.#state));
        }
    }

    const survey = (data) => surveyOf(codec.survey(codec.surveyed(codec.newSurveyor(), bytesOf(data))));

    const guess = (data) => survey(data).guess;

    // Throws if the text of some bytes fits in no string: they are counted only if there are very many.
    function holdLength(bytes, form, way) {
        if (fitsInString(form === UTF8 ? bytes.length : Math.ceil(bytes.length / 2))) return;
        const isByOne = way === REPLACE || way === STRICT;
        const units = (isByOne ? recodedLengthOf(bytes, form, UTF16LE) : codec.feed(codec.newRecoder(form, UTF16LE), bytes, null, { ...SETTINGS, mode: way, isLast: true }).total) / 2;
        if (!fitsInString(units)) throw tooLong(units);
    }

    // The text of whole pieces, in one way or another.
    function textOf(bytes, form, way) {
        const units = recoded(codec.newRecoder(form, UTF16LE), bytes, { form, mode: way, base: 0, isLast: true, isLent: true });
        const text = decodedBy(UTF16LE, units);
        if (text === null) throw tooLong(units.length / 2);
        return text;
    }

    // The text of bytes that are all valid.
    function validText(bytes, form) {
        const { length } = bytes;
        const isQuick = form === UTF8 && (length <= SHORT || (length <= AT_ONCE && looksAscii(bytes)));
        return (isQuick ? decodedBy(UTF8, bytes) : null) ?? textOf(bytes, form, REPLACE);
    }

    // The text of long ASCII, if all is valid; null of any other bytes.
    function asciiText(bytes, form) {
        if (form !== UTF8 || bytes.length < LONG || bytes.length > AT_ONCE || !looksAscii(bytes)) return null;
        codec.fill(partOf(bytes, 0, BLOCK));
        return codec.validUpTo() > BLOCK - SEEN ? decodedBy(UTF8, bytes) : null;
    }

    function decode(data, encoding = "utf-8", options) {
        const form = formOf(encoding);
        const way = wayOf(options);
        const bytes = unshared(bytesOf(data));
        const text = asciiText(bytes, form);
        if (text !== null) return { text, faults: [] };
        const first = firstIn(bytes, form);
        if (first && way === STRICT) throw new FaultError(first, FORMS[form]);
        holdLength(bytes, form, way);
        if (!first) return { text: validText(bytes, form), faults: [] };
        return { text: textOf(bytes, form, way), faults: [...faultsIn(bytes, form)] };
    }

    // How many of some bytes are decided, when more may follow: all but the beginning of a character at the end, with what is after it. Three
    // at most are not.
    function decidedOf(bytes, form) {
        const start = startBefore(bytes.length, 2 * SEEN, form);
        codec.fill(partOf(bytes, start), form);
        const open = codec.pieces(0, codec.len).find((it) => it.place > codec.len - SEEN && (it.kind === TOO_FEW || it.kind === INCOMPLETE));
        return open ? start + open.place : bytes.length;
    }

    // The input of a stream in windows: the bytes, how many of them are decided, and the offset at which they begin.
    async function* windowsOf(stream, form) {
        let [base, held] = [0, new Uint8Array(0)];
        for await (const part of partsOf(stream)) {
            const bytes = joined([held, bytesOf(part)]);
            const end = decidedOf(bytes, form);
            if (end) yield { bytes, end, base };
            [base, held] = [base + end, copyOf(bytes, end)];
        }
        if (held.length) yield { bytes: held, end: held.length, base };
    }

    async function* streamPieces(stream, encoding = "utf-8") {
        const form = formOf(encoding);
        for await (const { bytes, end, base } of windowsOf(stream, form)) yield* piecesIn(bytes, form, base, end);
    }

    async function* streamFaults(stream, encoding = "utf-8") {
        const form = formOf(encoding);
        for await (const { bytes, end, base } of windowsOf(stream, form)) yield* faultsIn(bytes, form, { base, end, most: BLOCK });
    }

    async function* streamLocated(stream, encoding = "utf-8") {
        const [form, position] = [formOf(encoding), codec.newPosition()];
        for await (const { bytes, end, base } of windowsOf(stream, form)) yield* faultsIn(bytes, form, { base, end, most: BLOCK, position });
    }

    async function* textsOf(stream, form, way) {
        for await (const { bytes, end, base } of windowsOf(stream, form)) {
            const found = [...faultsIn(bytes, form, { base, end, most: way === STRICT ? 1 : BLOCK })];
            const stop = way === STRICT && found.length ? found[0].offset - base : end;
            holdLength(partOf(bytes, 0, stop), form, way);
            if (stop) yield { offset: base, text: textOf(partOf(bytes, 0, stop), form, way), faults: way === STRICT ? [] : found };
            if (stop < end) throw new FaultError(found[0], FORMS[form]);
        }
    }

    async function* streamText(stream, encoding = "utf-8", options) {
        yield* textsOf(stream, formOf(encoding), wayOf(options));
    }

    // (a text is made when it is asked for: a TransformStream that fails forgets what it has given and nobody has read yet)
    function textStream(encoding = "utf-8", options) {
        const [form, way, onFault] = [formOf(encoding), wayOf(options), onFaultOf(options)];
        let [input, isLeft] = [null, false];
        const { readable, writable } = new TransformStream(own({ start: (controller) => void (input = controller) }));
        const reader = readable.getReader();
        const texts = textsOf(own({ [Symbol.asyncIterator]: () => own({ next: () => reader.read() }) }), form, way);
        const give = async (controller) => {
            const { done, value } = await texts.next();
            if (isLeft) return;
            if (done) return controller.close();
            if (onFault) for (const it of value.faults) onFault(it);
            controller.enqueue(value.text);
        };
        const pull = (controller) => give(controller).catch((error) => {
            input.error(error);
            throw error;
        });
        const cancel = (reason) => {
            isLeft = true;
            return reader.cancel(reason);
        };
        return { readable: new ReadableStream(own({ pull, cancel }), own({ highWaterMark: 0 })), writable };
    }

    return { Decoder, Ends, FaultError, Recoder, Surveyor, boundaryAfter, boundaryBefore, changedRange, charCount, decode, encodingOf, encodingOfBom, faults, firstFault, guess, guessText, isValid, located, numberOf, offsetOf, pieces, piecesBack, recode, recodedLength, recoderStream, sentence, shardEnd, streamFaults, streamLocated, streamPieces, streamText, survey, textStream, undecidedLength };
}
