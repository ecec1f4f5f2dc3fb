// One walk over input of any length, slice by slice: how many characters, lines and invalid bytes it has, where these are, and with which
// cause. Invalid bytes with one cause that stand side by side are one place.
import { NONE, SEEN, UTF8 } from "./codec.js";
import { Evidence, SAMPLE, WHOLE, guess, isLetter, latinOf } from "./guess.js";

// The first slice is small, so that the first places are known soon.
const [FIRST, SLICE] = [1 << 16, 1 << 22];
// How many bytes at the end of a slice come again in the next one: more than can be undecided.
const KEPT = 8;
const LF = 10;
// How many places are listed; all are counted.
export const LISTED = 1000000;
// So many equal bytes side by side are one place.
const RUN = 8;
// How many parts of the input are counted for the strip.
export const BINS = 160;
// A gap of fewer bytes is walked here: a call of the module would take longer.
const SHORT = 64;
// How often a walk tells what it has found, and lets other work come in between.
const [OFTEN, PAUSE] = [120, 40];

export const CAUSES = ["cut", "end", "latin", "stray", "never", "overlong", "surrogate", "high", "second", "first", "half", "run"];
export const CAUSE = Object.fromEntries(CAUSES.map((it, i) => [it, i]));

// Causes of places that begin as a character does.
const UTF8_LIKE = new Set([CAUSE.cut, CAUSE.overlong, CAUSE.surrogate]);

// The cause of an invalid byte by the name of its kind.
const BY_KIND = {
    TooFewBytes: CAUSE.end, NonUtf8Byte: CAUSE.never, UnexpectedContinuationByte: CAUSE.stray, InterruptedSequence: CAUSE.cut, OverlongEncoding: CAUSE.overlong,
    Utf16ReservedCodepoint: CAUSE.surrogate, TooHighCodepoint: CAUSE.high, UnexpectedTrailingSurrogate: CAUSE.second, UnmatchedLeadingSurrogate: CAUSE.first, Incomplete: CAUSE.half,
};

// How many bytes the character has that a byte begins, also one that UTF-8 never has: 1 if it begins none.
export const needOf = (byte) => (byte < 0xc0 || byte > 0xf4 ? 1 : byte < 0xe0 ? 2 : byte < 0xf0 ? 3 : 4);

// Whether a byte that stands alone, after `before` and before `after` and `next`, is text of Windows-1252. (-1 is no byte)
function isLatin(byte, before, after, next) {
    if (!latinOf(byte)) return false;
    const [isFirst, isLast] = [before >= 0xc0 && byte >= 0xc0, after >= 0xc0 && next < 0x80];
    if ((before >= 0x80 && !isFirst) || (after >= 0x80 && !isLast)) return false;
    if (byte < 0xc0) return before >= 0x20 || after >= 0x20;
    const [isAfter, isBefore] = [isLetter(before) || isFirst, isLetter(after) || isLast];
    return byte === 0xff ? isAfter && isBefore : isAfter || isBefore;
}

// Places in order, as columns of numbers. `values` has the first four bytes of each.
export class Places {
    constructor(room = 64) {
        Object.assign(this, { length: 0, offsets: new Float64Array(room), lengths: new Float64Array(room), lines: new Float64Array(room), columns: new Float64Array(room), values: new Uint32Array(room), kinds: new Uint8Array(room), causes: new Uint8Array(room) });
    }

    static fields = ["offsets", "lengths", "lines", "columns", "values", "kinds", "causes"];

    reserve(count) {
        if (count <= this.offsets.length) return;
        for (const name of Places.fields) {
            const grown = new this[name].constructor(Math.max(count, 2 * this.offsets.length));
            grown.set(this[name]);
            this[name] = grown;
        }
    }

    add(place) {
        this.reserve(this.length + 1);
        const i = this.length++;
        [this.offsets[i], this.lengths[i], this.lines[i], this.columns[i]] = [place.offset, place.length, place.line, place.column];
        [this.values[i], this.kinds[i], this.causes[i]] = [place.value, place.kind, place.cause];
    }

    // Those from one number on, as arrays that can be sent to another thread.
    part(from, to) {
        return { from, ...Object.fromEntries(Places.fields.map((name) => [name, this[name].slice(from, to)])) };
    }

    // Takes a part that another thread sent.
    take(part) {
        this.length = part.from + part.offsets.length;
        this.reserve(this.length);
        for (const name of Places.fields) this[name].set(part[name], part.from);
    }

    at(i) {
        return { number: i, offset: this.offsets[i], length: this.lengths[i], line: this.lines[i], column: this.columns[i], value: this.values[i], kind: this.kinds[i], cause: this.causes[i] };
    }

    // The number of the last place that begins at or before an offset, or -1.
    before(offset) {
        let [low, high] = [-1, this.length - 1];
        while (low < high) {
            const middle = (low + high + 1) >> 1;
            if (this.offsets[middle] <= offset) low = middle;
            else high = middle - 1;
        }
        return low;
    }

    // The place that has a byte, or null.
    over(offset) {
        const i = this.before(offset);
        return i >= 0 && offset < this.offsets[i] + this.lengths[i] ? this.at(i) : null;
    }
}

export class Survey {
    // The whole input has `size` bytes; a walk over a part of it begins at `base`.
    constructor(codec, form, { size = 0, base = 0, evidence = null } = {}) {
        Object.assign(this, { codec, form, size, base, evidence, count: 0, faults: 0, invalid: 0, line: 1, column: 1, faultLines: 0, places: 0, list: new Places() });
        Object.assign(this, { causes: new Float64Array(CAUSES.length), bins: new Uint32Array(BINS * CAUSES.length), open: null, earlier: [-1, -1], run: { end: -1, count: 0 }, walked: 0, sent: 0 });
        this.causeOf = codec.names.map((name) => BY_KIND[name] ?? NONE);
        this.strayKind = codec.names.indexOf("UnexpectedContinuationByte");
    }

    // Walks over a slice; returns how many of its bytes. The others have to come again, before more.
    take(bytes, isLast) {
        const { codec } = this;
        codec.fill(bytes, this.form);
        const end = isLast ? codec.len : codec.boundary(Math.max(codec.len - SEEN, 0));
        Object.assign(this, { bytes, walked: 0 });
        codec.faults(0, Infinity, (at, len, kind) => at < end && this.add(at, len, kind));
        const { open } = this;
        if (open && (isLast || open.offset + open.length < this.base + end)) this.close();
        this.walk(end);
        this.count += codec.countBetween(0, end);
        if (end > 0) this.earlier = [this.at(end - 2), this.at(end - 1)];
        if (this.evidence && this.form === UTF8) this.sample(bytes, end);
        this.base += end;
        return end;
    }

    // Surveys the front of what was walked over, up to a character. (units are counted from an even offset on)
    sample(bytes, end) {
        const { codec, evidence, base } = this;
        const from = (base + evidence.seen) & 1;
        const most = from + (base < WHOLE ? WHOLE - base : SAMPLE);
        evidence.sample(codec, bytes.subarray(from, most < end ? codec.boundary(most) : end));
    }

    // A byte of the slice, or of the two before it; -1 if there is none.
    at(place) {
        return this.bytes[place] ?? this.earlier[place + 2] ?? -1;
    }

    add(at, len, kind) {
        const offset = this.base + at;
        this.faults++;
        this.invalid += len;
        if (this.evidence) this.evidence.faults++;
        const { open } = this;
        if (open && open.offset + open.length === offset && open.length < open.need && kind === this.strayKind) {
            open.value |= this.bytes[at] << (24 - 8 * open.length);
            open.length++;
            this.walked = at + 1;
            return;
        }
        if (open) this.close();
        this.walk(at);
        const need = this.form === UTF8 && kind !== this.strayKind ? needOf(this.bytes[at]) : 1;
        const value = (this.bytes[at] << 24) | (len === 2 ? this.bytes[at + 1] << 16 : 0);
        this.open = { offset, length: len, need, value, kind, cause: 0, line: this.line, column: this.column, before: this.at(at - 1) };
        this.walked = at + len;
        this.column += 1;
    }

    // What is known of the open place once the bytes after it are.
    close() {
        const { open } = this;
        this.open = null;
        this.column += this.form === UTF8 ? open.length - 1 : 0;
        open.cause = this.causeOfPlace(open);
        if (open.length > 1 && UTF8_LIKE.has(open.cause)) this.evidence?.tear(open.length);
        this.countPlace(open, 1);
        if (this.isInRun(open)) return;
        if (this.list.length < LISTED) this.list.add(open);
    }

    causeOfPlace(open) {
        const [byte, end] = [open.value >>> 24, open.offset + open.length - this.base];
        const known = this.causeOf[open.kind];
        // (the decoder names it so if too few bytes are left, whatever they are)
        const cause = known === CAUSE.end && this.at(end) >= 0 ? CAUSE.cut : known;
        if (this.form !== UTF8 || cause === CAUSE.end) return cause;
        if (open.length === 1 && isLatin(byte, open.before, this.at(end), this.at(end + 1))) return CAUSE.latin;
        return cause === CAUSE.never && open.length === 2 ? CAUSE.overlong : cause;
    }

    countPlace({ offset, length, cause, line }, by) {
        this.places += by;
        this.causes[cause] += by;
        const bin = this.size ? Math.min(Math.floor((offset * BINS) / this.size), BINS - 1) : 0;
        this.bins[bin * CAUSES.length + cause] += by * length;
        if (by > 0 && line !== this.faultLine) this.faultLines++;
        this.faultLine = line;
    }

    // Joins equal single bytes or units to one place, from the eighth on; returns whether this one was joined.
    isInRun(open) {
        const { run, list } = this;
        const isNext = run.end === open.offset && run.value === open.value && run.kind === open.kind && open.length <= 2;
        run.count = isNext ? run.count + 1 : 1;
        [run.end, run.value, run.kind] = [open.offset + open.length, open.value, open.kind];
        if (run.count < RUN || run.first >= LISTED) {
            if (run.count === 1) run.first = list.length;
            return false;
        }
        const from = run.count === RUN ? RUN : 1;
        const whole = { ...list.at(run.first), cause: CAUSE.run };
        this.countPlace(open, -1);
        if (from === RUN) this.openRun(run.first, list);
        this.bins[Math.min(Math.floor((open.offset * BINS) / (this.size || Infinity)), BINS - 1) * CAUSES.length + CAUSE.run] += open.length;
        list.lengths[run.first] = open.offset + open.length - whole.offset;
        return true;
    }

    // The seven that were listed before the eighth become one place.
    openRun(first, list) {
        for (let i = first; i < list.length; i++) this.countPlace(list.at(i), -1);
        list.length = first + 1;
        list.causes[first] = CAUSE.run;
        this.countPlace({ ...list.at(first), length: list.at(first).length * (RUN - 1) }, 1);
    }

    // Counts lines and columns up to a place of the slice. A line ends after its LF; a column counts characters and invalid bytes, from 1 on.
    walk(to) {
        const from = this.walked;
        this.walked = Math.max(to, from);
        if (to - from >= SHORT || this.form !== UTF8) return this.walkFar(from, to);
        for (let at = from; at < to; at++) {
            const byte = this.bytes[at];
            if (byte === LF) [this.line, this.column] = [this.line + 1, 1];
            else if ((byte & 0xc0) !== 0x80) this.column++;
        }
    }

    // (units are looked at as little-endian ones)
    walkFar(from, to) {
        const { codec } = this;
        if (to <= from) return;
        codec.turn();
        const bytes = codec.memory.subarray(codec.start, codec.start + to);
        let begin = -1;
        for (let at = bytes.indexOf(LF, from); at >= 0; at = bytes.indexOf(LF, at + 1)) {
            if (codec.unit === 2 && (at % 2 || bytes[at + 1] !== 0)) continue;
            this.line++;
            begin = at + codec.unit;
        }
        if (begin >= 0) this.column = 1;
        this.column += codec.countBetween(Math.max(begin, from), to);
    }

    // What was found since the last call; of places those that no more bytes can change.
    news(isLast) {
        const { count, faults, invalid, line, faultLines, places, causes, bins, base, form, list } = this;
        const to = isLast ? list.length : Math.max(list.length - RUN, Math.min(this.sent, list.length));
        const part = list.part(Math.min(this.sent, to), to);
        this.sent = to;
        const guessed = isLast && this.evidence && form === UTF8 ? guess(this.codec, this.withTail(), this.size) : null;
        return { form, isLast, read: base, count, faults, invalid, line, faultLines, places, causes: causes.slice(), bins: bins.slice(), part, guess: guessed };
    }

    withTail() {
        const last = this.list.length - 1;
        if (last >= 0 && this.list.causes[last] === CAUSE.end && this.form === UTF8) this.evidence.tail = this.list.lengths[last];
        return this.evidence;
    }
}

// A guess at the bytes of a source that are at hand.
export function guessAt(codec, bytes, size) {
    const survey = new Survey(codec, UTF8, { size, evidence: new Evidence(codec) });
    survey.take(bytes, true);
    return survey.news(true).guess;
}

// Lets what waits come in between. (a timer would take four milliseconds)
let channel = null;
const waiting = [];
const pause = () => new Promise((done) => {
    if (!channel) {
        channel = new MessageChannel();
        channel.port1.onmessage = () => waiting.shift()();
    }
    waiting.push(done);
    channel.port2.postMessage(null);
});

// Walks over a Blob; tells now and then what was found. Returns null once it is not wanted.
export async function surveyOf(codec, form, source, tell, isWanted) {
    const survey = new Survey(codec, form, { size: source.size, evidence: new Evidence(codec) });
    const sliceAt = (at) => source.slice(at, at + (at < SLICE ? FIRST : SLICE)).arrayBuffer();
    let [told, rested] = [-Infinity, performance.now()];
    // Where the slice begins that is being read, and how many of its bytes were walked over already.
    let [start, done, next] = [0, 0, sliceAt(0)];
    for (;;) {
        const slice = new Uint8Array(await next);
        const end = start + slice.length;
        const isLast = end >= source.size;
        if (!isLast && slice.length <= KEPT) throw new Error("the file became shorter");
        // (the next slice is read while this one is walked over)
        if (!isLast) next = sliceAt(end - KEPT);
        const taken = survey.take(slice.subarray(done), isLast);
        if (isLast) return survey.news(true);
        [start, done] = [end - KEPT, start + done + taken - (end - KEPT)];
        if (performance.now() - told > OFTEN) {
            tell(survey.news(false));
            told = performance.now();
        }
        if (performance.now() - rested > PAUSE) {
            await pause();
            rested = performance.now();
        }
        if (!isWanted()) return null;
    }
}
