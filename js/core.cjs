// Written by js/commonjs: bytes.js, codec.js, loading.js, api.js as one CommonJS module.
"use strict";
// Bytes of the caller's, as the language itself sees them: also those of another realm, and so that no code of the caller runs.

// A record without what somebody put into Object.prototype, where all others seem to have it.
const own = (record) => ({ __proto__: null, ...record });

// The built-in methods of an array of bytes, also if somebody has replaced them since.
const ofArray = (name) => Function.prototype.call.bind(Object.getPrototypeOf(Uint8Array.prototype)[name]);
const [setBytes, partOf, copyOf] = ["set", "subarray", "slice"].map(ofArray);
const valuesOf = ofArray("values");

const getter = (prototype, name) => Object.getOwnPropertyDescriptor(prototype, name).get;
const ARRAY = Object.getPrototypeOf(Uint8Array.prototype);
const arrayName = getter(ARRAY, Symbol.toStringTag);
const [OF_ARRAY, OF_VIEW] = [ARRAY, DataView.prototype].map((it) => ["buffer", "byteOffset", "byteLength"].map((name) => getter(it, name)));
// (before 2023 no buffer could be resized)
const resizable = Object.getOwnPropertyDescriptor(ArrayBuffer.prototype, "resizable")?.get;
const LENGTHS = [ArrayBuffer, ...(typeof SharedArrayBuffer === "function" ? [SharedArrayBuffer] : [])].map((it) => getter(it.prototype, "byteLength"));

// The bytes of a view; it throws if they are not inside its buffer. (An array of such bytes says that it is empty, and `values` throws.)
function bytesOfView(view) {
    const isArray = arrayName.call(view) !== undefined;
    const [buffer, offset, length] = isArray ? OF_ARRAY : OF_VIEW;
    const count = length.call(view);
    if (isArray && count === 0) valuesOf(view);
    return new Uint8Array(buffer.call(view), offset.call(view), count);
}

// The length of a buffer of a kind; undefined of another object.
function lengthOf(buffer, length) {
    try {
        return length.call(buffer);
    } catch {
        return undefined;
    }
}

// The length of a buffer, shared or not; undefined of other objects.
const lengthOfBuffer = (buffer) => LENGTHS.reduce((found, length) => found ?? lengthOf(buffer, length), undefined);

// The bytes of a buffer, which throws if it is detached; undefined of other objects.
function bytesOfBuffer(buffer) {
    const count = lengthOfBuffer(buffer);
    return count === undefined ? undefined : new Uint8Array(buffer, 0, count);
}

// Whether that is a view or a buffer, of bytes that may be gone.
const isBytes = (data) => ArrayBuffer.isView(data) || lengthOfBuffer(data) !== undefined;

// These bytes, or, if other threads may change them, or their buffer may be resized, a copy. (A TextDecoder of a browser may reject both.)
function unshared(bytes) {
    const buffer = OF_ARRAY[0].call(bytes);
    return lengthOf(buffer, LENGTHS[0]) === undefined || resizable?.call(buffer) ? new Uint8Array(bytes) : bytes;
}

// Throws where bytes that were there are no more.
function hold(isThere) {
    if (!isThere) throw new TypeError("noddychest: the bytes are gone: their buffer was detached, or made smaller");
}

// Any bytes as a plain Uint8Array over the same memory, which keeps its length unless its buffer is detached or made smaller.
function bytesOf(data) {
    let bytes;
    try {
        bytes = ArrayBuffer.isView(data) ? bytesOfView(data) : bytesOfBuffer(data);
    } catch {
        hold(false);
    }
    if (bytes) return bytes;
    throw new TypeError("noddychest: bytes are a Uint8Array, another view or an ArrayBuffer; encode a string by TextEncoder, and await arrayBuffer() of a File or Blob");
}

// The calls of the proved module, as plain numbers. This is the only file that knows their names and the layout of the memory. There
// are two modules with the same calls: one with SIMD, and one for engines without.
//
// Offsets and lengths are in bytes, in UTF-16 too. Big-endian UTF-16 stays in the module's memory as it came until a call needs code
// units: then it is swapped to little-endian, and swapped back if somebody asks for the bytes.
//
// The module's memory has a fixed size of 16 MiB. After its own stack and constants, from __heap_base on, it has: a cursor, a result,
// two lengths, a recoder or decoder, a fault and a table; a buffer for pieces; a part to transcode; the caller's bytes; and the output buffer.


const OK = 0;
// The kinds that more bytes may change: of a character that the end cuts off, in UTF-8 and in UTF-16.
const TOO_FEW = 1;
const INCOMPLETE = 10;
const NONE = 11;
// The status of a call whose buffer is full, and of a strict one that stopped at an invalid byte, or unit.
const [FULL, FAULT] = [1, 3];
const FORMS = ["utf-8", "utf-16le", "utf-16be"];
const [UTF8, UTF16LE, UTF16BE] = [0, 1, 2];
// The most bytes that one call of `fill` takes.
const MOST = 10 * 1024 * 1024;
// A piece depends on no more bytes than these from its first on, or up to its last.
const SEEN = 4;
const NO_BYTES = new Uint8Array(0);
// What a recoder does with invalid bytes, as the end of the names of its calls: one U+FFFD for each; one for each maximal subpart; or it
// stops at the first one.
const [REPLACE, LOSSY, STRICT] = ["", "_lossy", "_strict"].map((suffix) => ({ suffix, repair: null, table: NO_BYTES }));
// Or it writes what a table has for each, which its calls take by number: nothing; the characters of Windows-1252, or of ISO-8859-1; or a
// table of the caller's, as the bytes of its numbers.
const wayOfTable = (repair, table) => ({ suffix: "_repair", repair, table });
const [DROP, WINDOWS_1252, LATIN_1] = [0, 1, 2].map((repair) => wayOfTable(repair, NO_BYTES));
// The bytes from 80 on, each of which has a number of 32 bits in a table; and the number that stands for nothing.
const TABLED = 128;
const TABLE = 4 * TABLED;
const NOTHING = 0xffffffff;

// A recoder that writes the characters with these numbers, of which the first is for the byte 80.
function repairOf(numbers) {
    const table = new Uint8Array(TABLE);
    const view = new DataView(table.buffer);
    numbers.forEach((number, at) => view.setUint32(4 * at, number, true));
    return wayOfTable(3, table);
}

// How `Codec.feed` feeds, if a caller asks for nothing else.
const SETTINGS = { most: Infinity, mode: REPLACE, isLast: false, isLent: false };
// How many pieces one call asks for if invalid bytes are rare.
const FEW = 32;
const PIECE = 16;
const ROOM = 4096;
const PART = 65536;
const PART_ROOM = 4 * PART;
// The outputs of parts are concatenated up to about this many bytes, and copied out together: each array is new memory, whose allocation
// takes longer than to transcode.
const MADE = 4 * 1024 * 1024;
// The size of a recoder, and of a decoder; the offset of the count of replaced bytes in the former, and in the latter those of the count
// of carried-over bytes and of the input's offset.
const STATE = 16;
const REPLACED = 8;
const [HELD, OFFSET] = [1, 8];
// The size of a position, of a surveyor and of a survey.
const POSITION = 32;
const [SURVEYOR, SURVEY] = [176, 144];
// How many numbers of 64 bits a survey begins with, and the most guesses.
const [COUNTS, MOST_GUESSES] = [17, 3];
// A module of one function, which has a vector.
const PROBE = [0, 97, 115, 109, 1, 0, 0, 0, 1, 5, 1, 96, 0, 1, 123, 3, 2, 1, 0, 10, 10, 1, 8, 0, 65, 0, 253, 15, 253, 98, 11];

// Whether the module with vectors runs here.
const hasVectors = () => WebAssembly.validate(Uint8Array.from(PROBE));

// A length as the module takes it. (the short ones are made before, as that takes as long as to validate them)
const BIGS = Array.from({ length: 256 }, (_, length) => BigInt(length));
const bigOf = (length) => BIGS[length] ?? BigInt(length);

class Codec {
    filled = 0;

    // `another` gives the calls of a new instance of the same module.
    constructor(calls, another = null) {
        this.another = another;
        this.use(calls);
        this.fill(new Uint8Array(0));
        this.names = this.textsOfKinds(this.calls.nody_put_kind_name);
        this.sentences = this.textsOfKinds(this.calls.nody_put_kind_sentence);
    }

    // (on stack overflow it may end anywhere: so all is as it should be once the last line was reached)
    use(calls) {
        this.isBroken = true;
        this.calls = this.watched(calls);
        this.filled++;
        this.memory = new Uint8Array(calls.memory.buffer);
        this.view = new DataView(calls.memory.buffer);
        const end = calls.__heap_base.value;
        // (the module without vectors was lowered from addresses of 64 bits, and takes them as such)
        this.address = typeof end === "bigint" ? BigInt : Number;
        this.cursor = Math.ceil(Number(end) / PIECE) * PIECE;
        this.answer = this.cursor + 16;
        this.numbers = this.answer + 16;
        this.state = this.numbers + 16;
        this.fault = this.state + 16;
        this.table = this.fault + 32;
        this.room = this.table + TABLE;
        this.part = this.room + ROOM * PIECE;
        this.start = this.part + PART;
        this.made = this.start + MOST;
        this.isBroken = false;
    }

    // The calls, each of which notes if it did not return: on stack overflow a call throws midway, and the module has lost for good the part
    // of its own stack that the call used. Once that stack is used up, no call returns any more.
    watched(calls) {
        const watch = (call) => (...given) => {
            try {
                return call(...given);
            } catch (error) {
                this.isBroken = true;
                throw error;
            }
        };
        return Object.fromEntries(Object.entries(calls).map(([name, it]) => [name, typeof it === "function" ? watch(it) : it]));
    }

    // Takes a new instance if a call did not return. The content of the memory is lost.
    mend() {
        if (this.isBroken && this.another) this.use(this.another());
    }

    // Takes these bytes in place of those before. Returns a number that `holds` knows until others are taken.
    fill(bytes, form = UTF8) {
        this.mend();
        setBytes(this.memory, bytes, this.start);
        this.len = bytes.length;
        this.form = form;
        this.unit = form === UTF8 ? 1 : 2;
        this.standing = form;
        this.original = null;
        return ++this.filled;
    }

    // Whether the bytes of that call of `fill` are still in memory.
    holds(filled) {
        return this.filled === filled && !this.isBroken;
    }

    // The bytes as they came.
    get bytes() {
        if (this.form !== UTF16BE) return partOf(this.memory, this.start, this.start + this.len);
        if (!this.original) {
            this.original = copyOf(this.memory, this.start, this.start + this.len);
            if (this.isTurned) swap(this.original, 0, this.len);
        }
        return this.original;
    }

    setByte(place, byte) {
        if (this.original) this.original[place] = byte;
        const isLast = place === this.len - 1 && this.len % 2 === 1;
        this.memory[this.start + (this.isTurned && !isLast ? place ^ 1 : place)] = byte;
    }

    // Whether big-endian units were made little-endian.
    get isTurned() {
        return this.standing !== this.form;
    }

    turn() {
        if (this.standing !== UTF16BE) return;
        swap(this.memory, this.start, this.len);
        this.standing = UTF16LE;
    }

    // The length up to the last whole unit.
    get whole() {
        return this.len - (this.len % this.unit);
    }

    // A length or an address, of which the upper half is zero in a memory of 16 MiB.
    number(address) {
        return this.view.getUint32(address, true);
    }

    // The bytes from one offset up to and without another are left.
    setCursor(front, back) {
        const { view, cursor } = this;
        this.turn();
        view.setUint32(cursor, this.start + front, true);
        view.setUint32(cursor + 4, 0, true);
        view.setUint32(cursor + 8, (back - front) / this.unit, true);
        view.setUint32(cursor + 12, 0, true);
    }

    // The piece at an address, which begins at an offset of the bytes.
    pieceAt(address, place) {
        const { view } = this;
        return { place, len: this.lengthAt(address), scalar: view.getUint32(address + 8, true), kind: view.getUint8(address + 12) };
    }

    // The length in bytes of the piece at an address.
    lengthAt(address) {
        return this.number(address) * this.unit;
    }

    // The single byte at the end of UTF-16, or, if the input ends before it, no piece.
    lastByte(place) {
        return place < this.len ? { place, len: 1, scalar: 0, kind: INCOMPLETE } : { place, len: 0, scalar: 0, kind: NONE };
    }

    // The text that a call of the module has for each kind of error: its name or its sentence, in ASCII up to a NUL.
    textsOfKinds(call) {
        this.view.setBigUint64(this.answer, BigInt(this.room), true);
        return Array.from({ length: NONE + 1 }, (_, kind) => {
            call(kind, this.address(this.answer));
            const text = this.number(this.answer);
            return String.fromCharCode(...partOf(this.memory, text, this.memory.indexOf(0, text)));
        });
    }

    // Writes the pieces that begin at `front` to the buffer, at most `most`; returns how many and where they end. The single byte at
    // the end of UTF-16 is not written.
    run(front, most = ROOM) {
        const call = this.form === UTF8 ? this.calls.nody_utf8_pieces : this.calls.nody_utf16_pieces;
        this.setCursor(front, Math.max(front, this.whole));
        const count = call(this.address(this.cursor), this.address(this.room), BigInt(Math.min(most, ROOM)));
        return { count: Number(count), end: this.number(this.cursor) - this.start };
    }

    // How many of the pieces in the buffer are invalid bytes.
    faultsInRoom(count) {
        let faults = 0;
        for (let at = this.room + 12, end = at + count * PIECE; at < end; at += PIECE) faults += this.memory[at] !== OK;
        return faults;
    }

    // Copies of the first `count` pieces in the buffer.
    copies(count) {
        return new Copies(copyOf(this.memory, this.room, this.room + count * PIECE).buffer, this.unit);
    }

    // The pieces from an offset at which one begins, as far as they begin before another, and end after a third.
    pieces(front, before, after = front) {
        const found = [];
        const last = Math.min(before, this.whole);
        for (let place = front; place < last; ) {
            const { count, end } = this.run(place, before - place);
            for (let at = this.room, stop = at + count * PIECE; at < stop && place < before; at += PIECE) {
                const next = place + this.lengthAt(at);
                if (after < next) found.push(this.pieceAt(at, place));
                place = next;
            }
            place = Math.max(place, end);
        }
        if (this.whole < Math.min(before, this.len)) found.push(this.lastByte(this.whole));
        return found;
    }

    // Finds invalid bytes from a boundary on, at most `most`; calls `tell` with the offset, length and kind of each, and returns the
    // offset up to which all were reported. Valid text is skipped as fast as it is validated.
    faults(front, most, tell) {
        let [at, size] = [front, FEW];
        for (let left = most; at < this.whole; ) {
            if (size === FEW) at = this.validUpTo(at);
            if (at >= this.whole || left <= 0) break;
            const { count, end } = this.run(at, Math.min(size, left));
            const found = this.tellFaults(count, at, tell);
            left -= found;
            // (if invalid bytes are dense, one call asks for more pieces)
            size = found > count / 8 ? Math.min(2 * size, ROOM) : FEW;
            at = end;
        }
        if (at < this.whole || this.whole === this.len || most <= 0) return at;
        tell(this.whole, 1, INCOMPLETE);
        return this.len;
    }

    tellFaults(count, place, tell) {
        let found = 0;
        for (let at = this.room, end = at + count * PIECE; at < end; at += PIECE) {
            const [len, kind] = [this.lengthAt(at), this.memory[at + 12]];
            if (kind !== OK) {
                tell(place, len, kind);
                found++;
            }
            place += len;
        }
        return found;
    }

    // One piece from the front ("F") or the back ("B") of what is left, which then leaves it.
    step(letter, left) {
        const isFirst = letter === "F";
        const { front, back } = left;
        const end = Math.min(back, Math.max(this.whole, front));
        if (end < back && (front === end || !isFirst)) {
            left.back = end;
            return this.lastByte(end);
        }
        this.setCursor(front, end);
        const { calls } = this;
        if (this.form === UTF8) (isFirst ? calls.nody_utf8_next : calls.nody_utf8_next_back)(this.address(this.answer), this.address(this.cursor));
        else (isFirst ? calls.nody_utf16_next : calls.nody_utf16_next_back)(this.address(this.answer), this.address(this.cursor));
        left.front = this.number(this.cursor) - this.start;
        if (!isFirst) left.back = left.front + this.lengthAt(this.cursor + 8);
        return this.pieceAt(this.answer, isFirst ? front : left.back);
    }

    // The piece that begins at an offset, as a decoder that gets one byte at a time names it. (In UTF-16 none names it otherwise.)
    streamedAt(place) {
        if (this.form !== UTF8) return this.pieces(place, place + 1)[0] ?? this.lastByte(this.len);
        this.calls.nody_utf8_streamed_at(this.address(this.answer), this.address(this.start), BigInt(this.len), BigInt(place));
        return this.pieceAt(this.answer, place);
    }

    // The offset of the first invalid byte from an offset on at which a piece begins, or the length if there is none.
    validUpTo(front = 0) {
        if (this.standing === UTF16BE) return front + this.validFrom(UTF16BE, front, Math.max(this.whole, front));
        const call = this.form === UTF8 ? this.calls.nody_utf8_valid_up_to : this.calls.nody_utf16_valid_up_to;
        const units = bigOf(Math.max(this.whole - front, 0) / this.unit);
        const valid = call(this.address(this.start + front), units);
        return valid === units ? Math.max(this.whole, front) : front + this.unit * Number(valid);
    }

    // How many pieces there are from one boundary on and before another.
    countBetween(front, back) {
        return Number(this.calls.nody_char_count(this.standing, this.address(this.start + front), BigInt(back - front)));
    }

    // The offset of the piece with a number, of those that are there.
    offsetOf(number) {
        return Number(this.calls.nody_offset_of(this.standing, this.address(this.start), BigInt(this.len), BigInt(number)));
    }

    // How many pieces begin before an offset.
    numberOf(offset) {
        return Number(this.calls.nody_number_of(this.standing, this.address(this.start), BigInt(this.len), BigInt(offset)));
    }

    // The part outside of which no piece changes if something is inserted at an offset.
    changedRange(at) {
        const [form, place] = [Math.min(this.form, UTF16LE), BigInt(at)];
        this.calls.nody_changed_range(this.address(this.answer), form, this.address(this.start), BigInt(this.len), place, place);
        return { start: this.number(this.answer), end: this.number(this.answer + 8) };
    }

    // The last offset up to `at`, or the first one from there on, that lies in no character and no unit.
    boundary(at, isAfter = false) {
        const call = isAfter ? this.calls.nody_boundary_after : this.calls.nody_boundary_before;
        return Number(call(this.standing, this.address(this.start), BigInt(this.len), BigInt(at)));
    }

    // The last offset up to `at` that lies in no character, no maximal subpart and no unit.
    shardEnd(at) {
        return Number(this.calls.nody_shard_end(this.standing, this.address(this.start), BigInt(this.len), BigInt(at)));
    }

    // How many bytes at the end of these depend on what follows, in an encoding. (The bytes must be as they came: `fill` got no encoding.)
    undecidedLength(form) {
        return Number(this.calls.nody_undecided_len(form, this.address(this.start), BigInt(this.len)));
    }

    // The encoding that a byte order mark at the front names, and the length of the mark; null if there is none. (The bytes must be as they
    // came, too.)
    formOfBom() {
        const len = Number(this.calls.nody_encoding_of_bom(this.address(this.start), BigInt(this.len), this.address(this.answer)));
        return len ? { form: this.view.getUint8(this.answer), len } : null;
    }

    // How many bytes these become in another form.
    recodedLength(to) {
        return Number(this.calls.nody_recoded_len(this.standing, to, this.address(this.start), BigInt(this.len)));
    }

    // A recoder that holds nothing, as the bytes of its struct.
    newRecoder(from, to) {
        this.mend();
        this.calls.nody_recoder(this.address(this.state), from, to);
        return copyOf(this.memory, this.state, this.state + STATE);
    }

    // How many invalid bytes, or units, a recoder has replaced.
    replacedBy(state) {
        return Number(new DataView(state.buffer).getBigUint64(REPLACED, true));
    }

    // Feeds bytes to a recoder, and appends its output to `chunks`, if given, up to about `settings.most` bytes, or, in strict mode, up to
    // the first invalid byte. Returns how many bytes were fed, how many were written, and that invalid byte or null. If these bytes are the
    // last ones, the input ends after them. If `settings.isLent`, the last chunk is no copy, and is valid until the next call.
    // (Calls that are not strict take one argument less: the last is ignored.)
    feed(state, source, chunks, { most = Infinity, mode = REPLACE, isLast = false, isLent = false } = SETTINGS) {
        this.mend();
        const { suffix, repair, table } = mode;
        const [feed, finish] = [this.calls[`nody_recoder_feed${suffix}`], this.calls[`nody_recoder_finish${suffix}`]];
        const [recoder, part, read, written, fault] = [this.state, this.part, this.numbers, this.numbers + 8, this.fault].map(this.address);
        const more = repair === null ? [] : [repair, this.address(this.table), BigInt(table.length / 4)];
        setBytes(this.memory, table, this.table);
        setBytes(this.memory, state, this.state);
        let [at, total, made, status] = [0, 0, 0, 0];
        while (at < source.length && total < most && status !== FAULT) {
            const taken = partOf(source, at, at + PART);
            setBytes(this.memory, taken, this.part);
            status = feed(recoder, part, BigInt(taken.length), this.address(this.made + made), BigInt(PART_ROOM), ...more, read, written, fault);
            at += this.number(this.numbers);
            made += this.number(this.numbers + 8);
            total += this.number(this.numbers + 8);
            if (made > MADE) made -= this.keep(chunks, made);
        }
        if (isLast && at === source.length && status !== FAULT) {
            status = finish(recoder, this.address(this.made + made), BigInt(PART_ROOM), ...more, written, fault);
            made += this.number(this.numbers + 8);
            total += this.number(this.numbers + 8);
        }
        if (isLent) chunks.push(partOf(this.memory, this.made, this.made + made));
        else this.keep(chunks, made);
        setBytes(state, partOf(this.memory, this.state, this.state + STATE));
        return { at, total, fault: status === FAULT ? this.faultBefore(at) : null };
    }

    // What a recoder still holds, as no more input follows. Returns the first invalid byte, if it is strict, or null; its offset counts
    // from the end of the input.
    finish(state, chunks, mode = REPLACE) {
        return this.feed(state, NO_BYTES, chunks, { ...SETTINGS, mode, isLast: true }).fault;
    }

    // The fault at which a strict call stopped, after `read` bytes.
    faultBefore(read) {
        const { fault } = this;
        return { place: read - this.number(fault + 8), len: this.number(fault), kind: this.view.getUint8(fault + 16) };
    }

    // The position at the front of an input, as the bytes of its struct. (It has the memory of a fault)
    newPosition() {
        this.mend();
        this.calls.nody_position(this.address(this.fault));
        return copyOf(this.memory, this.fault, this.fault + POSITION);
    }

    // Takes a position, which `advance` moves on until `positionTo` puts it back.
    setPosition(state) {
        setBytes(this.memory, state, this.fault);
    }

    // Advances the position over the bytes from one offset up to another. (It holds units in one order: so big-endian ones are turned)
    advance(from, to) {
        this.turn();
        this.calls.nody_position_advance(this.address(this.fault), this.standing, this.address(this.start + from), BigInt(to - from));
    }

    positionTo(state) {
        setBytes(state, partOf(this.memory, this.fault, this.fault + POSITION));
    }

    // The position, as callers see it.
    get position() {
        const { view, fault } = this;
        return { line: wide(view, fault), column: wide(view, fault + 8), byteColumn: wide(view, fault + 16) };
    }

    // A surveyor of an input of which nothing was fed, as the bytes of its struct. (It has the memory of pieces)
    newSurveyor() {
        this.mend();
        this.calls.nody_surveyor(this.address(this.room));
        return copyOf(this.memory, this.room, this.room + SURVEYOR);
    }

    // The surveyor after a part.
    surveyed(state, part) {
        for (let at = 0; at < part.length; at += MOST) {
            this.fill(partOf(part, at, at + MOST));
            setBytes(this.memory, state, this.room);
            this.calls.nody_surveyor_feed(this.address(this.room), this.address(this.start), BigInt(this.len));
            state = copyOf(this.memory, this.room, this.room + SURVEYOR);
        }
        return state;
    }

    // The survey of all parts: its counts in order, its last bytes, and the numbers of the guesses.
    survey(state) {
        this.mend();
        const [at, guesses] = [this.room + SURVEYOR, this.room + SURVEYOR + SURVEY];
        setBytes(this.memory, state, this.room);
        this.calls.nody_surveyor_survey(this.address(this.room), this.address(at));
        const count = Number(this.calls.nody_guesses(this.address(at), this.address(guesses), BigInt(MOST_GUESSES)));
        const counts = Array.from({ length: COUNTS }, (_, i) => wide(this.view, at + 8 * i));
        return { counts, ends: copyOf(this.memory, at + 8 * COUNTS, at + 8 * COUNTS + 6), guesses: copyOf(this.memory, guesses, guesses + count) };
    }

    // A decoder that holds nothing, and counts from an offset.
    newDecoder(form, offset) {
        this.mend();
        this.calls.nody_decoder(this.address(this.state), form);
        this.view.setBigUint64(this.state + OFFSET, BigInt(offset), true);
        return this.decoder();
    }

    // The decoder in memory: the bytes of its struct, how many bytes it carries over, and the offset of the first of these or of the next.
    decoder() {
        const { memory, state } = this;
        return { bytes: copyOf(memory, state, state + STATE), held: memory[state + HELD], offset: wide(this.view, state + OFFSET) };
    }

    // Lets a decoder read on from an offset of the bytes, at most `most` pieces. Returns its new state, how many bytes it read,
    // whether more pieces are known, and the pieces.
    decode({ bytes }, from, most) {
        const [decoder, part, room, read, written] = [this.state, this.start + from, this.room, this.numbers, this.numbers + 8].map(this.address);
        setBytes(this.memory, bytes, this.state);
        const status = this.calls.nody_decoder_feed(decoder, part, BigInt(this.len - from), room, BigInt(most), read, written);
        return { state: this.decoder(), read: this.number(this.numbers), isFull: status === FULL, row: this.row() };
    }

    // Lets a decoder decode its carried-over bytes at the end of its input; returns what `decode` does.
    decodeLast({ bytes }) {
        this.mend();
        const [decoder, room, written] = [this.state, this.room, this.numbers + 8].map(this.address);
        setBytes(this.memory, bytes, this.state);
        this.calls.nody_decoder_finish(decoder, room, BigInt(ROOM), written);
        return { state: this.decoder(), read: 0, isFull: false, row: this.row() };
    }

    // The pieces in the buffer.
    row() {
        const count = this.number(this.numbers + 8);
        return count ? new Row(copyOf(this.memory, this.room, this.room + count * PIECE)) : NO_PIECES;
    }

    // The length of the valid text from an offset on, up to another, in an encoding, which is that of the bytes in memory.
    validFrom(form, from, end = this.len) {
        return Number(this.calls.nody_utf16_bytes_valid_up_to(form, this.address(this.start + from), BigInt(end - from)));
    }

    // (`slice` would fill the new memory with zeros first, which takes as long as the copy)
    keep(chunks, count) {
        if (count) chunks?.push(new Uint8Array(partOf(this.memory, this.made, this.made + count)));
        return count;
    }

    // These bytes in another encoding, as chunks: all of them, or about `settings.most` bytes of the output.
    recode(from, to, source, settings) {
        const chunks = [];
        this.feed(this.newRecoder(from, to), source, chunks, { ...SETTINGS, ...settings, isLast: true });
        return chunks;
    }
}

// A number below 2^53 of 64 bits.
const wide = (view, at) => view.getUint32(at, true) + view.getUint32(at + 4, true) * 2 ** 32;

// Pieces without their offsets, as copies from the buffer, to be taken one by one.
class Copies {
    constructor(buffer, unit) {
        this.view = new DataView(buffer);
        this.end = buffer.byteLength;
        this.unit = unit;
        this.at = 0;
    }

    // The next one, which begins at an offset. After the last one comes the single byte at the end of UTF-16.
    take(place) {
        const { view, at } = this;
        if (at === this.end) return { place, len: 1, scalar: 0, kind: INCOMPLETE };
        this.at += PIECE;
        return { place, len: view.getUint32(at, true) * this.unit, scalar: view.getUint32(at + 8, true), kind: view.getUint8(at + 12) };
    }
}

// Pieces with their offsets, as copies of what a decoder gave, of which the first ones were taken.
class Row {
    constructor(bytes) {
        this.view = new DataView(bytes.buffer);
        this.end = bytes.length;
        this.at = 0;
    }

    get isTaken() {
        return this.at === this.end;
    }

    // The offset of the next one.
    get offset() {
        return wide(this.view, this.at);
    }

    get count() {
        return (this.end - this.at) / PIECE;
    }

    // How many of those that are left are invalid bytes.
    get faults() {
        let faults = 0;
        for (let { at } = this; at < this.end; at += PIECE) faults += this.view.getUint8(at + 13) !== OK;
        return faults;
    }

    // Takes the next one, once it is made as the caller wants it: if that throws, it is not lost.
    take(made) {
        const { view, at } = this;
        const it = made({ place: wide(view, at), len: view.getUint8(at + 12), scalar: view.getUint32(at + 8, true), kind: view.getUint8(at + 13) });
        this.at = at + PIECE;
        return it;
    }

    // Takes those before the next invalid byte.
    passText() {
        while (this.at < this.end && this.view.getUint8(this.at + 13) === OK) this.at += PIECE;
    }
}

const NO_PIECES = new Row(new Uint8Array(0));

// Exchanges the bytes of each whole unit of some memory, from a multiple of four on; two units at a time.
function swap(memory, start, len) {
    const pairs = new Int32Array(memory.buffer, memory.byteOffset + start, Math.floor(len / 4));
    for (let i = 0; i < pairs.length; i++) pairs[i] = ((pairs[i] & 0xff00ff) << 8) | ((pairs[i] >>> 8) & 0xff00ff);
    const at = start + 4 * pairs.length;
    if (len % 4 >= 2) [memory[at], memory[at + 1]] = [memory[at + 1], memory[at]];
}

// Chunks, one after the other.
function joined(chunks) {
    if (chunks.length === 1) return chunks[0];
    const all = new Uint8Array(chunks.reduce((sum, it) => sum + it.length, 0));
    let at = 0;
    for (const it of chunks) {
        setBytes(all, it, at);
        at += it.length;
    }
    return all;
}

// Makes a codec of what a caller has: bytes, a compiled module, a response, or the address of a file.

function isModule(source) {
    try {
        return Array.isArray(WebAssembly.Module.exports(source));
    } catch {
        return false;
    }
}

// The address that a string, a URL, a Request or a Response has.
const addressOf = (source) => (typeof source === "string" ? source : source?.href ?? source?.url);

// The bytes of a response, or of the file at an address, which `get` asks for.
async function fetched(source, get) {
    const address = addressOf(source);
    if (typeof address !== "string") throw new TypeError("noddychest: its module of WebAssembly is bytes, a WebAssembly.Module, a Response, a Request or a URL");
    try {
        const response = typeof source.arrayBuffer === "function" && "ok" in source ? source : await get(typeof source.href === "string" ? address : source);
        if (!response.ok) throw new Error(response.status);
        return await response.arrayBuffer();
    } catch (cause) {
        throw new Error(`noddychest: ${address || "the response"} did not load (${cause.message})`);
    }
}

// The module that a caller gives, compiled.
async function moduleOf(source, get = (address) => fetch(address)) {
    const given = await source;
    const module = isModule(given) ? given : await WebAssembly.compile(isBytes(given) ? new Uint8Array(bytesOf(given)) : await fetched(given, get));
    if (WebAssembly.Module.exports(module).some(({ name }) => name === "nody_version")) return module;
    throw new TypeError("noddychest: this module of WebAssembly is not one of the package's");
}

// The codec of an instance. Another one of the same module takes its place once it is broken.
const codecIn = (instance, module) => new Codec(instance.exports, () => new WebAssembly.Instance(module).exports);

async function codecOf(source, get) {
    const module = await moduleOf(source, get);
    return codecIn(await WebAssembly.instantiate(module), module);
}

// The calls of the package. index.d.ts says what they take and return.

// How many bytes are scanned for pieces in one call of the module.
const BLOCK = 4096;
const MEGABYTE = 1 << 20;
// How many bytes are validated in one call of the module: they stay in the CPU's cache.
const WINDOW = 1 << 16;
// Up to this length TextDecoder decodes valid UTF-8 in less time than transcoding to UTF-16 takes. Of longer text only ASCII.
const SHORT = 256;
const SAMPLES = 100;
// From this length on a TextDecoder validates ASCII that it decodes: it need not be copied into the module's memory. For less text the error
// of a TextDecoder, if the text is invalid, takes too long.
const LONG = 1 << 15;
// Every engine allows strings of this many code units.
const UNITS = 1 << 27;
// Bytes of UTF-16 that a TextDecoder gets in one call: Node's fails for 2^28.
const AT_ONCE = 1 << 25;

// The labels of the Encoding Standard, and those that the programs take.
const LABELS = [
    ["utf-8", "utf8", "unicode-1-1-utf-8", "unicode11utf8", "unicode20utf8", "x-unicode20utf8"],
    ["utf-16le", "utf16le", "utf-16", "unicode", "unicodefeff", "csunicode", "iso-10646-ucs-2", "ucs-2"],
    ["utf-16be", "utf16be", "unicodefffe"],
];

// A label, which may be of no encoding here: then the form is below 0.
function labelOf(given) {
    if (ArrayBuffer.isView(given)) throw new TypeError('noddychest: an encoding is a string, as "utf-8", and no bytes');
    const told = String(given);
    // (no label has white space inside. A regular expression for that at the end alone would take quadratic time for what is inside)
    const words = told.split(/[\t\n\f\r ]+/, 3).filter((it) => it !== "");
    const name = words.length === 1 ? words[0].toLowerCase() : "";
    return { told, form: LABELS.findIndex((it) => it.includes(name)) };
}

function formOf(label) {
    const known = FORMS.indexOf(label);
    if (known >= 0) return known;
    const { told, form } = labelOf(label);
    if (form < 0) throw new RangeError(`noddychest: the encoding ${told} is not one of ${FORMS.join(", ")}`);
    return form;
}

function encodingOf(label) {
    const { form } = labelOf(label);
    return form < 0 ? null : FORMS[form];
}

// Bytes and their form. (a label may run code, which may take the bytes away: so it is asked first)
function textOfForm(data, encoding) {
    const form = formOf(encoding);
    return [bytesOf(data), form];
}

// Options, which are to be an object.
function objectOf(options, example) {
    if (options !== null && (typeof options === "object" || typeof options === "function")) return options;
    throw new TypeError(`noddychest: options are an object, as ${example}, or left out, and not ${options === null ? "null" : `a ${typeof options}`}`);
}

const has = (object, name) => Object.prototype.hasOwnProperty.call(object, name);

// An option; undefined of one that somebody put into Object.prototype, where all objects seem to have it.
function optionOf(options, name) {
    let it = options;
    for (let next; (next = Object.getPrototypeOf(it)) !== null; it = next) if (has(it, name)) return options[name];
    return it !== options && has(it, name) ? undefined : options[name];
}

// What a value is by the language itself, as "Map", also one of another realm.
const kindOf = (value) => Object.prototype.toString.call(value).slice(8, -1);

// The first byte that a table has.
const FIRST = 0x80;

const quoted = (value) => (typeof value === "string" ? JSON.stringify(value) : String(value));

// The number of a character that a table has for a byte: U+FFFD if it does not have the byte.
function numberOfChar(char, byte) {
    if (char === undefined) return 0xfffd;
    if (char === null || char === "") return NOTHING;
    const rule = `noddychest: a table has for the byte ${byte.toString(16).toUpperCase()} a character up to U+FFFF, or nothing`;
    if (typeof char !== "string" && typeof char !== "number") throw new TypeError(`${rule}, and no ${typeof char}`);
    const number = typeof char === "number" ? char : char.length === 1 ? char.charCodeAt(0) : -1;
    if (Number.isInteger(number) && number >= 0 && number <= 0xffff && (number < 0xd800 || number > 0xdfff)) return number;
    throw new RangeError(`${rule}, and not ${quoted(char)}`);
}

// Throws if a key of a table is no byte.
function holdKeys(keys, numberOf) {
    for (const key of keys) {
        const byte = numberOf(key);
        if (!Number.isInteger(byte) || byte < 0 || byte > 0xff) throw new RangeError(`noddychest: a table has characters for the bytes 128 to 255, and not for ${quoted(key)}`);
    }
}

// What looks a byte up in a table.
function lookUpIn(table) {
    if (typeof table === "function") return (byte) => table(byte);
    if (Array.isArray(table) || (ArrayBuffer.isView(table) && kindOf(table) !== "DataView")) {
        if (ArrayBuffer.isView(table)) bytesOf(table); // (throws if these are gone)
        const { length } = table;
        if (length > TABLED) throw new RangeError(`noddychest: an array of characters begins with that for the byte 80, and has up to ${TABLED}, and not ${length}`);
        return (byte) => table[byte - FIRST];
    }
    if (kindOf(table) === "Map") {
        holdKeys(table.keys(), (key) => key);
        return (byte) => table.get(byte);
    }
    if (kindOf(table) !== "Object") throw new TypeError(`noddychest: a table is an object, a Map, an array or a function, and no ${kindOf(table)}`);
    holdKeys(Object.keys(table), (key) => (String(Number(key)) === key ? Number(key) : NaN));
    return (byte) => (has(table, byte) ? table[byte] : undefined);
}

// What writes the characters of a table, of which each is asked for once.
function repairBy(table) {
    const lookUp = lookUpIn(table);
    const numbers = new Array(TABLED);
    for (let at = 0; at < TABLED; at++) numbers[at] = numberOfChar(lookUp(FIRST + at), FIRST + at);
    return repairOf(numbers);
}

// What options ask to do with invalid bytes. `fatal: true` is how TextDecoder says "strict".
const WAYS = { replace: REPLACE, lossy: LOSSY, strict: STRICT, drop: DROP, "windows-1252": WINDOWS_1252, "latin-1": LATIN_1 };

function wayBy(name) {
    if (Object.keys(WAYS).includes(name)) return WAYS[name];
    throw new RangeError(`noddychest: errors is ${Object.keys(WAYS).map((it) => `"${it}"`).join(", ")} or a table, and not ${name}`);
}

function wayOf(options) {
    if (options === undefined) return REPLACE;
    const given = objectOf(options, "{ fatal: true }");
    const [errors, fatal] = [optionOf(given, "errors"), optionOf(given, "fatal")];
    if (errors === undefined) return fatal ? STRICT : REPLACE;
    const isTable = typeof errors === "function" || (typeof errors === "object" && errors !== null && kindOf(errors) !== "String");
    const way = isTable ? repairBy(errors) : wayBy(String(errors));
    if (fatal && way !== STRICT) throw new TypeError(`noddychest: fatal is the same as errors: "strict", and here errors is ${isTable ? "a table" : `"${errors}"`}`);
    return way;
}

// What options ask to call with each fault.
function onFaultOf(options = {}) {
    const onFault = optionOf(objectOf(options, "{ onFault: (fault) => .. }"), "onFault");
    if (onFault === undefined || typeof onFault === "function") return onFault;
    throw new TypeError(`noddychest: onFault is a function, and not ${onFault === null ? "null" : `a ${typeof onFault}`}`);
}

// An offset that a caller gives.
function wholeOf(at) {
    if (Number.isSafeInteger(at) && at >= 0) return at + 0; // (-0 becomes 0)
    throw new RangeError(`noddychest: an offset is a whole number from 0 on, and ${typeof at === "number" ? `not ${at}` : `no ${typeof at}`}`);
}

// The offset from which options ask to count.
function startOf(options = {}) {
    const offset = optionOf(objectOf(options, "{ offset: 0 }"), "offset");
    return wholeOf(offset === undefined ? 0 : offset);
}

// The start of a window of about `size` bytes before an offset: not inside a code unit.
function startBefore(back, size, form) {
    const start = Math.max(back - size, 0);
    return form === UTF8 ? start : start - (start % 2);
}

// The fault that an error reports.
function faultOf(given) {
    const { offset, length, error } = Object(given);
    if (Number.isSafeInteger(offset) && offset >= 0 && (length === 1 || length === 2) && typeof error === "string") return { offset, length, error };
    throw new TypeError('noddychest: a FaultError is made of a fault, as { offset: 3, length: 1, error: "NonUtf8Byte" }, and its encoding');
}

// That text which had to be valid is not. A TypeError, as TextDecoder throws. (Of an error structuredClone and postMessage keep the
// only the message and the cause.)
class FaultError extends TypeError {
    offset;
    length;
    error;
    name = "FaultError";

    constructor(fault, encoding = "utf-8") {
        const told = faultOf(fault);
        super(`noddychest: invalid ${FORMS[formOf(encoding)].toUpperCase()} at offset ${told.offset}: ${told.error}`, { cause: told });
        // (where an Error takes no cause yet)
        if (!has(this, "cause")) Object.defineProperty(this, "cause", own({ value: told, configurable: true, writable: true, enumerable: false }));
        Object.assign(this, told);
    }
}

// Whether a string of this length is possible here. (one that repeats another takes no memory for its units)
function fitsInString(units) {
    if (units <= UNITS) return true;
    try {
        return Boolean("ab".repeat(Math.floor(units / 2)) + "a".repeat(units % 2));
    } catch {
        return false;
    }
}

const tooLong = (units) => new RangeError(`noddychest: a text of ${units} units of UTF-16 is too long for a string here: take streamText, or recode`);

const newTextDecoder = (form) => new TextDecoder(FORMS[form], own({ ignoreBOM: true, fatal: form === UTF8 }));

// A TextDecoder of each encoding, which is kept, since making one takes longer than decoding a short text; and the class of them.
const kept = { of: null, decoders: [null, null, null] };

// The text of bytes, which a TextDecoder gets in parts of at most AT_ONCE. Null if it fits in no string, of which V8 says that its bytes are not
// valid, and of invalid UTF-8.
function decodedBy(form, bytes) {
    const { decoders } = kept;
    if (kept.of !== TextDecoder) [kept.of, decoders[UTF8], decoders[UTF16LE]] = [TextDecoder, null, null];
    const decoder = decoders[form] ?? newTextDecoder(form);
    // (one that throws is not used again)
    decoders[form] = null;
    try {
        const text = bytes.length <= AT_ONCE ? decoder.decode(bytes) : decodedInParts(decoder, bytes);
        decoders[form] = decoder;
        return text;
    } catch {
        return null;
    }
}

function decodedInParts(decoder, bytes) {
    let text = "";
    for (let at = 0; at < bytes.length; at += AT_ONCE) text += decoder.decode(partOf(bytes, at, at + AT_ONCE), own({ stream: at + AT_ONCE < bytes.length }));
    return text;
}

// Whether some of the bytes, all over them, are ASCII.
function looksAscii(bytes) {
    const step = Math.ceil(bytes.length / SAMPLES);
    for (let at = 0; at < bytes.length; at += step) if (bytes[at] > 0x7f) return false;
    return true;
}

// The parts of a stream or of any iterable. A stream that is left before its end is cancelled.
async function* partsOf(stream) {
    if (typeof stream?.getReader !== "function") {
        if (ArrayBuffer.isView(stream) || (!stream?.[Symbol.asyncIterator] && !stream?.[Symbol.iterator])) throw new TypeError("noddychest: a stream is a ReadableStream, or another iterable, of bytes in parts");
        yield* stream;
        return;
    }
    const reader = stream.getReader();
    let isOver = false;
    try {
        for (;;) {
            const { done, value } = await reader.read();
            isOver = done;
            if (done) return;
            yield value;
        }
    } finally {
        // (what that says is of no use, nor that it throws)
        if (!isOver) await (async () => reader.cancel())().catch(() => {});
        reader.releaseLock();
    }
}

// The names of guesses by their numbers, and what they say.
const GUESSES = [
    ["Ascii", "ASCII"],
    ["Utf8", "UTF-8"],
    ["Utf8Marked", "UTF-8, by its byte order mark"],
    ["Utf8Cut", "UTF-8, cut off inside a character"],
    ["Utf8Mixed", "UTF-8, with single bytes of an 8-bit encoding"],
    ["Utf8Twice", "UTF-8 that was encoded twice"],
    ["Utf8Surrogates", "CESU-8 or Java's modified UTF-8: UTF-8 with surrogates"],
    ["Utf16Le", "UTF-16LE, without a byte order mark"],
    ["Utf16Be", "UTF-16BE, without a byte order mark"],
    ["Utf16LeMarked", "UTF-16LE, by its byte order mark"],
    ["Utf16BeMarked", "UTF-16BE, by its byte order mark"],
    ["Utf32", "UTF-32, by its byte order mark"],
    ["Windows1252", "Windows-1252, or another encoding of Latin letters"],
    ["Other8Bit", "some 8-bit encoding, but not Windows-1252"],
    ["Binary", "not text"],
];

function guessText(guess) {
    const found = GUESSES.find(([name]) => name === guess);
    if (!found) throw new RangeError(`noddychest: no guess has the name ${String(guess)}`);
    return found[1];
}

// A survey, as callers see it.
function surveyOf({ counts, ends, guesses }) {
    const [length, nul, control, chars, faults, third, signs, undefined_, surrogates, twice, twiceChars] = counts;
    const [utf16le, utf16be] = [11, 14].map((at) => ({ plain: counts[at], stray: counts[at + 1], unpaired: counts[at + 2] }));
    const utf8 = { chars, faults, third, signs, undefined: undefined_, surrogates, twice, twiceChars };
    const told = Array.from(guesses, (number) => GUESSES[number][0]);
    return { guess: told[0], guesses: told, length, nul, control, utf8, utf16le, utf16be, front: copyOf(ends, 0, Math.min(length, 4)), head: ends[4], tail: ends[5] };
}

// A fault with its position.
const locatedOf = ({ offset, length, error }, { line, column, byteColumn }) => ({ offset, line, column, byteColumn, length, error });

// The calls over one instance of the module, which no others use.
function callsOf(codec) {
    // A piece of the codec, which began at the offset `base`, as callers see it.
    function shown({ place, len, scalar, kind }, base = 0) {
        const isValid = kind === OK;
        return { offset: base + place, length: len, char: isValid ? String.fromCodePoint(scalar) : null, error: isValid ? null : codec.names[kind] };
    }

    function sentence(error) {
        const kind = codec.names.indexOf(error);
        if (kind <= OK || kind >= NONE) throw new RangeError(`noddychest: no error has the name ${String(error)}`);
        return codec.sentences[kind];
    }

    // The pieces of some bytes that begin before `end`, with offsets from `base` on.
    function* piecesIn(bytes, form, base = 0, end = bytes.length) {
        const { length } = bytes;
        for (let at = 0; at < end; ) {
            hold(bytes.length === length);
            const isLast = length - at <= BLOCK;
            codec.fill(partOf(bytes, at, at + BLOCK), form);
            const stop = Math.min(isLast ? codec.len : BLOCK - SEEN + 1, end - at);
            // (a copy, of which objects are made one by one: such as live for a block cost more)
            const row = codec.copies(codec.run(0).count);
            let place = 0;
            while (place < stop) {
                const piece = row.take(place);
                hold(bytes.length === length);
                yield shown(piece, base + at);
                place += piece.len;
            }
            at += place;
        }
    }

    // The invalid ones of the pieces; `most` is about how many one call looks for. With a position, that of the first byte, each has its own,
    // and the position is then that of the end.
    function* faultsIn(bytes, form, { base, end, most, position = null } = { base: 0, end: bytes.length, most: BLOCK }) {
        const { length } = bytes;
        let [begin, front, filled, limit, size] = [0, 0, 0, 0, BLOCK];
        while (begin + front < end) {
            hold(bytes.length === length);
            if (!codec.holds(filled) || front === limit) {
                // (the window is short at first, and again after another call took the memory)
                size = filled && codec.holds(filled) ? Math.min(16 * size, MEGABYTE) : BLOCK;
                [begin, front] = [begin + front, 0];
                filled = codec.fill(partOf(bytes, begin, begin + size), form);
                // (the kind of a piece depends on the bytes after it: those at the end of this window come again)
                limit = begin + codec.len === length ? codec.len : codec.boundary(codec.len - SEEN);
            }
            const block = [];
            let passed = front;
            const tell = (place, len, kind) => {
                if (place >= limit || begin + place >= end) return;
                const fault = shown({ place, len, scalar: 0, kind }, base + begin);
                if (position) codec.advance(passed, place);
                block.push(position ? locatedOf(fault, codec.position) : fault);
                passed = place;
            };
            if (position) codec.setPosition(position);
            const told = codec.faults(front, most, tell);
            front = Math.min(told, limit);
            if (position) codec.advance(passed, Math.max(passed, Math.min(front, end - begin)));
            if (position) codec.positionTo(position);
            for (const it of block) {
                hold(bytes.length === length);
                yield it;
            }
        }
    }

    const pieces = (data, encoding = "utf-8") => piecesIn(...textOfForm(data, encoding));

    const piecesBack = (data, encoding = "utf-8") => piecesBefore(...textOfForm(data, encoding));

    function* piecesBefore(bytes, form) {
        const { length } = bytes;
        for (let back = length; back > 0; ) {
            hold(bytes.length === length);
            const base = startBefore(back, BLOCK, form);
            codec.fill(partOf(bytes, base, back), form);
            const [block, left] = [[], { front: 0, back: codec.len }];
            while (left.back > 0 && (base === 0 || left.back >= SEEN)) block.push(shown(codec.step("B", left), base));
            back = base + left.back;
            for (const it of block) {
                hold(bytes.length === length);
                yield it;
            }
        }
    }

    class Ends {
        #bytes;
        #form;
        #length;
        #front = 0;
        #back;

        constructor(data, encoding = "utf-8") {
            [this.#bytes, this.#form] = textOfForm(data, encoding);
            this.#back = this.#length = this.#bytes.length;
        }

        // One piece, decoded only from the bytes near that end.
        #step(letter, from, to) {
            codec.fill(this.#part(from, to), this.#form);
            const left = { front: 0, back: codec.len };
            const piece = codec.step(letter, left);
            if (piece.kind === NONE) return null;
            const made = shown(piece, from);
            if (letter === "F") this.#front += piece.len;
            else this.#back -= piece.len;
            return made;
        }

        next() {
            return this.#step("F", this.#front, Math.min(this.#front + SEEN, this.#back));
        }

        nextBack() {
            return this.#step("B", Math.max(startBefore(this.#back, SEEN, this.#form), this.#front), this.#back);
        }

        // (code that V8 optimized may see the old length of an array that was detached, and then this throws)
        #part(from, to) {
            hold(this.#bytes.length === this.#length);
            try {
                return partOf(this.#bytes, from, to);
            } catch {
                return hold(false);
            }
        }

        get remaining() {
            return this.#part(this.#front, this.#back);
        }
    }

    const faults = (data, encoding = "utf-8") => faultsIn(...textOfForm(data, encoding));

    const locatedIn = (bytes, form) => faultsIn(bytes, form, { base: 0, end: bytes.length, most: BLOCK, position: codec.newPosition() });

    const located = (data, encoding = "utf-8") => locatedIn(...textOfForm(data, encoding));

    // The first invalid byte, or null. (it is named by the bytes that were validated: another thread may have changed shared memory since)
    function firstIn(bytes, form) {
        const { length } = bytes;
        for (let [at, size] = [0, BLOCK]; at < length; size = WINDOW) {
            codec.fill(at || length > size ? partOf(bytes, at, at + size) : bytes, form);
            const valid = codec.validUpTo();
            // (what begins among the last bytes of a window depends on those after it)
            if (valid < codec.len && (valid <= codec.len - SEEN || at + codec.len === length)) return shown(codec.step("F", { front: valid, back: codec.len }), at);
            at += valid;
        }
        return null;
    }

    const firstFault = (data, encoding = "utf-8") => firstIn(...textOfForm(data, encoding));

    const isValid = (data, encoding = "utf-8") => firstFault(data, encoding) === null;

    // Takes a window of the bytes, at most so long. Returns the boundary at which it ends.
    function windowEnd(bytes, at, size, form) {
        codec.fill(partOf(bytes, at, at + size), form);
        return at + codec.len === bytes.length ? codec.len : codec.boundary(codec.len - SEEN);
    }

    // The sum of a call's results over consecutive windows that end at boundaries.
    function summed(bytes, form, call) {
        let sum = 0;
        for (let at = 0; at < bytes.length; ) {
            const end = windowEnd(bytes, at, MEGABYTE, form);
            sum += call(partOf(bytes, at, at + end), end, at);
            at += end;
        }
        return sum;
    }

    const charCount = (data, encoding = "utf-8") => summed(...textOfForm(data, encoding), (_, end) => codec.countBetween(0, end));

    function recodedLength(data, from, to) {
        const [form, target] = [formOf(from), formOf(to)];
        return recodedLengthOf(bytesOf(data), form, target);
    }

    const recodedLengthOf = (bytes, form, target) => summed(bytes, form, (part) => {
        codec.fill(part, form);
        return codec.recodedLength(target);
    });

    // Takes the bytes near an offset, which decide the pieces there. Returns where they begin.
    function standNear(bytes, place, form) {
        const start = startBefore(place, 2 * SEEN, form);
        codec.fill(partOf(bytes, start, place + 2 * SEEN), form);
        return start;
    }

    // An offset near another, which `find` returns for one in the bytes near it.
    function offsetNear(data, at, encoding, find) {
        const [bytes, form, place] = [...textOfForm(data, encoding), wholeOf(at)];
        if (place >= bytes.length) return bytes.length;
        const start = standNear(bytes, place, form);
        return start + find(place - start);
    }

    const boundaryBefore = (data, at, encoding = "utf-8") => offsetNear(data, at, encoding, (place) => codec.boundary(place));
    const boundaryAfter = (data, at, encoding = "utf-8") => offsetNear(data, at, encoding, (place) => codec.boundary(place, true));
    const shardEnd = (data, at, encoding = "utf-8") => offsetNear(data, at, encoding, (place) => codec.shardEnd(place));

    // The offset of the piece with a number: counted window by window, of which the first is short.
    function offsetOf(data, number, encoding = "utf-8") {
        const [bytes, form] = textOfForm(data, encoding);
        let [left, size] = [wholeOf(number), BLOCK];
        for (let at = 0; at < bytes.length; size = Math.min(2 * size, MEGABYTE)) {
            const end = windowEnd(bytes, at, size, form);
            const count = codec.countBetween(0, end);
            if (left < count) return at + codec.offsetOf(left);
            left -= count;
            at += end;
        }
        return null;
    }

    // (what is far after an offset does not change what begins before it)
    function numberOf(data, offset, encoding = "utf-8") {
        const [[bytes, form], place] = [textOfForm(data, encoding), wholeOf(offset)];
        return summed(partOf(bytes, 0, place + 2 * SEEN), form, (_, end, at) => codec.numberOf(Math.max(Math.min(place - at, end), 0)));
    }

    // (the bytes near each end decide)
    function changedRange(data, start, end, encoding = "utf-8") {
        const [bytes, form] = textOfForm(data, encoding);
        const last = Math.min(wholeOf(end), bytes.length);
        const [before, after] = [Math.min(wholeOf(start), last), last].map((place) => {
            const base = standNear(bytes, place, form);
            const range = codec.changedRange(place - base);
            return { start: base + range.start, end: base + range.end };
        });
        return { start: before.start, end: after.end };
    }

    // (the last bytes decide)
    function undecidedLength(data, encoding = "utf-8") {
        const [bytes, form] = textOfForm(data, encoding);
        codec.fill(partOf(bytes, startBefore(bytes.length, 2 * SEEN, form)));
        return codec.undecidedLength(form);
    }

    function encodingOfBom(data) {
        codec.fill(partOf(bytesOf(data), 0, SEEN));
        const mark = codec.formOfBom();
        return mark && { encoding: FORMS[mark.form], length: mark.len };
    }

    // The output of a recoder for these bytes, whose first one is at an offset of the input; the input ends after the last ones. It throws in
    // strict mode at the first invalid byte.
    function recoded(state, bytes, { form, mode, base, isLast, isLent }) {
        const chunks = [];
        const { fault } = codec.feed(state, bytes, chunks, { most: Infinity, mode, isLast, isLent });
        if (fault) throw new FaultError(shown(fault, base), FORMS[form]);
        return joined(chunks);
    }

    function recode(data, from, to, options) {
        const [form, target, mode] = [formOf(from), formOf(to), wayOf(options)];
        return recoded(codec.newRecoder(form, target), bytesOf(data), { form, mode, base: 0, isLast: true, isLent: false });
    }

    class Recoder {
        #from;
        #way;
        #state;
        #count = 0;

        constructor(from, to, options) {
            const forms = [formOf(from), formOf(to)];
            this.#from = forms[0];
            this.#way = wayOf(options);
            this.#state = codec.newRecoder(...forms);
        }

        get replaced() {
            return codec.replacedBy(this.#state);
        }

        // (if it throws, nothing has changed)
        #put(bytes, isLast) {
            const [state, end] = [copyOf(this.#state), this.#count + bytes.length];
            const made = recoded(state, bytes, { form: this.#from, mode: this.#way, base: this.#count, isLast, isLent: false });
            this.#state = state;
            this.#count = end;
            return made;
        }

        feed(data) {
            return this.#put(bytesOf(data), false);
        }

        finish() {
            return this.#put(NO_BYTES, true);
        }
    }

    function recoderStream(from, to, options) {
        const recoder = new Recoder(from, to, options);
        const put = (bytes, controller) => bytes.length && controller.enqueue(bytes);
        const feed = (part, controller) => void put(recoder.feed(part), controller);
        const finish = (controller) => void put(recoder.finish(), controller);
        return new TransformStream(own({ transform: feed, flush: finish }));
    }

    // A part of the input that a decoder reads, or the end of the input, which has no bytes.
    class Part {
        at = 0;
        isOver = false;
        base = 0;
        filled = 0;
        next = null;

        constructor(bytes, isEnd) {
            this.bytes = bytes;
            this.isEnd = isEnd;
        }

        // Copies what is left to read, so that it does not matter what becomes of the caller's buffer.
        keep() {
            this.bytes = new Uint8Array(partOf(this.bytes, this.at));
            [this.base, this.at] = [this.base - this.at, 0];
        }

        // The offset of the rest in the module's memory, to which up to `size` bytes are copied in one step.
        stand(size) {
            if (!codec.holds(this.filled) || this.at === this.base + codec.len) {
                this.filled = codec.fill(partOf(this.bytes, this.at, this.at + size));
                this.base = this.at;
            }
            return this.at - this.base;
        }
    }

    // A decoder has parts that are not read to their end, linked by `next`; the state of the module's decoder; and a row of pieces that this
    // gave and nobody has taken. All iterators take from there, so that each piece is given once, in order, whoever asks.
    class Decoder {
        #form;
        #state;
        #row = NO_PIECES;
        #front = null;
        #last = null;
        // The offset at which all that was fed ends.
        #end;
        // How many pieces one call asks for in a search for invalid bytes.
        #most = FEW;

        constructor(encoding = "utf-8", options) {
            this.#form = formOf(encoding);
            this.#end = startOf(options);
            this.#state = codec.newDecoder(this.#form, this.#end);
        }

        get encoding() {
            return FORMS[this.#form];
        }

        get offset() {
            return this.#row.isTaken ? this.#state.offset : this.#row.offset;
        }

        get held() {
            return this.#end - this.offset;
        }

        feed(part) {
            return this.#put(new Part(bytesOf(part), false), false);
        }

        finish() {
            return this.#put(new Part(NO_BYTES, true), false);
        }

        feedFaults(part) {
            return this.#put(new Part(bytesOf(part), false), true);
        }

        finishFaults() {
            return this.#put(new Part(NO_BYTES, true), true);
        }

        // Reads a part up to its first pieces, and keeps the rest. (So what has no invalid bytes is not copied, if they are looked for.)
        #put(part, isFaults) {
            const [{ length }, state, row, most] = [part.bytes, this.#state, this.#row, this.#most];
            if (length > Number.MAX_SAFE_INTEGER - this.#end) throw new RangeError(`noddychest: offsets go up to ${Number.MAX_SAFE_INTEGER}, and this part ends beyond`);
            let given;
            try {
                if (!this.#front) this.#readUntilSome(part, isFaults);
                if (!part.isOver) part.keep();
                given = this.#taken(isFaults);
            } catch (error) {
                this.#state = state;
                this.#row = row;
                this.#most = most;
                throw error;
            }
            // (from here on nothing is called: on stack overflow that would throw with half of it done)
            if (!part.isOver) {
                if (this.#front) this.#last.next = part;
                else this.#front = part;
                this.#last = part;
            }
            this.#end += length;
            return given;
        }

        *#taken(isFaults) {
            for (let it; (it = this.#next(isFaults)); ) yield it;
        }

        #next(isFaults) {
            for (;;) {
                if (isFaults) this.#row.passText();
                if (!this.#row.isTaken) return this.#row.take(shown);
                if (!this.#front) return null;
                this.#readUntilSome(this.#front, isFaults);
                if (this.#front.isOver) this.#front = this.#front.next;
                if (!this.#front) this.#last = null;
            }
        }

        #readUntilSome(part, isFaults) {
            while (this.#row.isTaken && !part.isOver) this.#read(part, isFaults);
        }

        #read(part, isFaults) {
            if (isFaults && this.#most === FEW && !this.#state.held && !part.isEnd) this.#skip(part);
            const told = part.isEnd ? codec.decodeLast(this.#state) : codec.decode(this.#state, part.stand(isFaults ? MEGABYTE : BLOCK), isFaults ? this.#most : ROOM);
            this.#state = told.state;
            this.#row = told.row;
            part.at += told.read;
            part.isOver = part.at === part.bytes.length && !told.isFull;
            if (isFaults) this.#passText();
        }

        // (if invalid bytes are dense, one call asks for more pieces)
        #passText() {
            const { faults, count } = this.#row;
            this.#most = faults > count / 8 ? Math.min(2 * this.#most, ROOM) : FEW;
            this.#row.passText();
        }

        // Passes valid text over: a decoder that holds nothing may as well begin after it.
        #skip(part) {
            const len = codec.validFrom(this.#form, part.stand(MEGABYTE));
            if (!len) return;
            this.#state = codec.newDecoder(this.#form, this.#state.offset + len);
            part.at += len;
        }
    }

    class Surveyor {
        #state = codec.newSurveyor();

        feed(part) {
            this.#state = codec.surveyed(this.#state, bytesOf(part));
        }

        survey() {
            return surveyOf(codec.survey(this.#state));
        }
    }

    const survey = (data) => surveyOf(codec.survey(codec.surveyed(codec.newSurveyor(), bytesOf(data))));

    const guess = (data) => survey(data).guess;

    // Throws if the text of some bytes fits in no string: they are counted only if there are very many.
    function holdLength(bytes, form, way) {
        if (fitsInString(form === UTF8 ? bytes.length : Math.ceil(bytes.length / 2))) return;
        const isByOne = way === REPLACE || way === STRICT;
        const units = (isByOne ? recodedLengthOf(bytes, form, UTF16LE) : codec.feed(codec.newRecoder(form, UTF16LE), bytes, null, { ...SETTINGS, mode: way, isLast: true }).total) / 2;
        if (!fitsInString(units)) throw tooLong(units);
    }

    // The text of whole pieces, in one way or another.
    function textOf(bytes, form, way) {
        const units = recoded(codec.newRecoder(form, UTF16LE), bytes, { form, mode: way, base: 0, isLast: true, isLent: true });
        const text = decodedBy(UTF16LE, units);
        if (text === null) throw tooLong(units.length / 2);
        return text;
    }

    // The text of bytes that are all valid.
    function validText(bytes, form) {
        const { length } = bytes;
        const isQuick = form === UTF8 && (length <= SHORT || (length <= AT_ONCE && looksAscii(bytes)));
        return (isQuick ? decodedBy(UTF8, bytes) : null) ?? textOf(bytes, form, REPLACE);
    }

    // The text of long ASCII, if all is valid; null of any other bytes.
    function asciiText(bytes, form) {
        if (form !== UTF8 || bytes.length < LONG || bytes.length > AT_ONCE || !looksAscii(bytes)) return null;
        codec.fill(partOf(bytes, 0, BLOCK));
        return codec.validUpTo() > BLOCK - SEEN ? decodedBy(UTF8, bytes) : null;
    }

    function decode(data, encoding = "utf-8", options) {
        const form = formOf(encoding);
        const way = wayOf(options);
        const bytes = unshared(bytesOf(data));
        const text = asciiText(bytes, form);
        if (text !== null) return { text, faults: [] };
        const first = firstIn(bytes, form);
        if (first && way === STRICT) throw new FaultError(first, FORMS[form]);
        holdLength(bytes, form, way);
        if (!first) return { text: validText(bytes, form), faults: [] };
        return { text: textOf(bytes, form, way), faults: [...faultsIn(bytes, form)] };
    }

    // How many of some bytes are decided, when more may follow: all but the beginning of a character at the end, with what is after it. Three
    // at most are not.
    function decidedOf(bytes, form) {
        const start = startBefore(bytes.length, 2 * SEEN, form);
        codec.fill(partOf(bytes, start), form);
        const open = codec.pieces(0, codec.len).find((it) => it.place > codec.len - SEEN && (it.kind === TOO_FEW || it.kind === INCOMPLETE));
        return open ? start + open.place : bytes.length;
    }

    // The input of a stream in windows: the bytes, how many of them are decided, and the offset at which they begin.
    async function* windowsOf(stream, form) {
        let [base, held] = [0, new Uint8Array(0)];
        for await (const part of partsOf(stream)) {
            const bytes = joined([held, bytesOf(part)]);
            const end = decidedOf(bytes, form);
            if (end) yield { bytes, end, base };
            [base, held] = [base + end, copyOf(bytes, end)];
        }
        if (held.length) yield { bytes: held, end: held.length, base };
    }

    async function* streamPieces(stream, encoding = "utf-8") {
        const form = formOf(encoding);
        for await (const { bytes, end, base } of windowsOf(stream, form)) yield* piecesIn(bytes, form, base, end);
    }

    async function* streamFaults(stream, encoding = "utf-8") {
        const form = formOf(encoding);
        for await (const { bytes, end, base } of windowsOf(stream, form)) yield* faultsIn(bytes, form, { base, end, most: BLOCK });
    }

    async function* streamLocated(stream, encoding = "utf-8") {
        const [form, position] = [formOf(encoding), codec.newPosition()];
        for await (const { bytes, end, base } of windowsOf(stream, form)) yield* faultsIn(bytes, form, { base, end, most: BLOCK, position });
    }

    async function* textsOf(stream, form, way) {
        for await (const { bytes, end, base } of windowsOf(stream, form)) {
            const found = [...faultsIn(bytes, form, { base, end, most: way === STRICT ? 1 : BLOCK })];
            const stop = way === STRICT && found.length ? found[0].offset - base : end;
            holdLength(partOf(bytes, 0, stop), form, way);
            if (stop) yield { offset: base, text: textOf(partOf(bytes, 0, stop), form, way), faults: way === STRICT ? [] : found };
            if (stop < end) throw new FaultError(found[0], FORMS[form]);
        }
    }

    async function* streamText(stream, encoding = "utf-8", options) {
        yield* textsOf(stream, formOf(encoding), wayOf(options));
    }

    // (a text is made when it is asked for: a TransformStream that fails forgets what it has given and nobody has read yet)
    function textStream(encoding = "utf-8", options) {
        const [form, way, onFault] = [formOf(encoding), wayOf(options), onFaultOf(options)];
        let [input, isLeft] = [null, false];
        const { readable, writable } = new TransformStream(own({ start: (controller) => void (input = controller) }));
        const reader = readable.getReader();
        const texts = textsOf(own({ [Symbol.asyncIterator]: () => own({ next: () => reader.read() }) }), form, way);
        const give = async (controller) => {
            const { done, value } = await texts.next();
            if (isLeft) return;
            if (done) return controller.close();
            if (onFault) for (const it of value.faults) onFault(it);
            controller.enqueue(value.text);
        };
        const pull = (controller) => give(controller).catch((error) => {
            input.error(error);
            throw error;
        });
        const cancel = (reason) => {
            isLeft = true;
            return reader.cancel(reason);
        };
        return { readable: new ReadableStream(own({ pull, cancel }), own({ highWaterMark: 0 })), writable };
    }

    return { Decoder, Ends, FaultError, Recoder, Surveyor, boundaryAfter, boundaryBefore, changedRange, charCount, decode, encodingOf, encodingOfBom, faults, firstFault, guess, guessText, isValid, located, numberOf, offsetOf, pieces, piecesBack, recode, recodedLength, recoderStream, sentence, shardEnd, streamFaults, streamLocated, streamPieces, streamText, survey, textStream, undecidedLength };
}

let calls;
const once = (make) => (calls ??= make());

module.exports = { addressOf, callsOf, codecIn, codecOf, hasVectors, once };
