// The calls of the proved module, as plain numbers. This is the only file that knows their names and the layout of the memory. There
// are two modules with the same calls: one with SIMD, and one for engines without.
//
// Offsets and lengths are in bytes, in UTF-16 too. Big-endian UTF-16 stays in the module's memory as it came until a call needs code
// units: then it is swapped to little-endian, and swapped back if somebody asks for the bytes.
//
// The module's memory has a fixed size of 16 MiB. After its own stack and constants, from __heap_base on, it has: a cursor, a result,
// two lengths, a recoder or decoder, a fault and a table; a buffer for pieces; a part to transcode; the caller's bytes; and the output buffer.

import { copyOf, partOf, setBytes } from "./bytes.js";

export const OK = 0;
// The kinds that more bytes may change: of a character that the end cuts off, in UTF-8 and in UTF-16.
export const TOO_FEW = 1;
export const INCOMPLETE = 10;
export const NONE = 11;
// The status of a call whose buffer is full, and of a strict one that stopped at an invalid byte, or unit.
const [FULL, FAULT] = [1, 3];
export const FORMS = ["utf-8", "utf-16le", "utf-16be"];
export const [UTF8, UTF16LE, UTF16BE] = [0, 1, 2];
// The most bytes that one call of `fill` takes.
export const MOST = 10 * 1024 * 1024;
// A piece depends on no more bytes than these from its first on, or up to its last.
export const SEEN = 4;
export const NO_BYTES = new Uint8Array(0);
// What a recoder does with invalid bytes, as the end of the names of its calls: one U+FFFD for each; one for each maximal subpart; or it
// stops at the first one.
export const [REPLACE, LOSSY, STRICT] = ["", "_lossy", "_strict"].map((suffix) => ({ suffix, repair: null, table: NO_BYTES }));
// Or it writes what a table has for each, which its calls take by number: nothing; the characters of Windows-1252, or of ISO-8859-1; or a
// table of the caller's, as the bytes of its numbers.
const wayOfTable = (repair, table) => ({ suffix: "_repair", repair, table });
export const [DROP, WINDOWS_1252, LATIN_1] = [0, 1, 2].map((repair) => wayOfTable(repair, NO_BYTES));
// The bytes from 80 on, each of which has a number of 32 bits in a table; and the number that stands for nothing.
export const TABLED = 128;
const TABLE = 4 * TABLED;
export const NOTHING = 0xffffffff;

// A recoder that writes the characters with these numbers, of which the first is for the byte 80.
export function repairOf(numbers) {
    const table = new Uint8Array(TABLE);
    const view = new DataView(table.buffer);
    numbers.forEach((number, at) => view.setUint32(4 * at, number, true));
    return wayOfTable(3, table);
}

// How `Codec.feed` feeds, if a caller asks for nothing else.
export const SETTINGS = { most: Infinity, mode: REPLACE, isLast: false, isLent: false };
// How many pieces one call asks for if invalid bytes are rare.
export const FEW = 32;
const PIECE = 16;
export const ROOM = 4096;
const PART = 65536;
const PART_ROOM = 4 * PART;
// The outputs of parts are concatenated up to about this many bytes, and copied out together: each array is new memory, whose allocation
// takes longer than to transcode.
const MADE = 4 * 1024 * 1024;
// The size of a recoder, and of a decoder; the offset of the count of replaced bytes in the former, and in the latter those of the count
// of carried-over bytes and of the input's offset.
const STATE = 16;
const REPLACED = 8;
const [HELD, OFFSET] = [1, 8];
// The size of a position, of a surveyor and of a survey.
const POSITION = 32;
const [SURVEYOR, SURVEY] = [176, 144];
// How many numbers of 64 bits a survey begins with, and the most guesses.
const [COUNTS, MOST_GUESSES] = [17, 3];
// A module of one function, which has a vector.
const PROBE = [0, 97, 115, 109, 1, 0, 0, 0, 1, 5, 1, 96, 0, 1, 123, 3, 2, 1, 0, 10, 10, 1, 8, 0, 65, 0, 253, 15, 253, 98, 11];

// Whether the module with vectors runs here.
export const hasVectors = () => WebAssembly.validate(Uint8Array.from(PROBE));

// A length as the module takes it. (the short ones are made before, as that takes as long as to validate them)
const BIGS = Array.from({ length: 256 }, (_, length) => BigInt(length));
const bigOf = (length) => BIGS[length] ?? BigInt(length);

export class Codec {
    filled = 0;

    // `another` gives the calls of a new instance of the same module.
    constructor(calls, another = null) {
        this.another = another;
        this.use(calls);
        this.fill(new Uint8Array(0));
        this.names = this.textsOfKinds(this.calls.nody_put_kind_name);
        this.sentences = this.textsOfKinds(this.calls.nody_put_kind_sentence);
    }

    // (on stack overflow it may end anywhere: so all is as it should be once the last line was reached)
    use(calls) {
        this.isBroken = true;
        this.calls = this.watched(calls);
        this.filled++;
        this.memory = new Uint8Array(calls.memory.buffer);
        this.view = new DataView(calls.memory.buffer);
        const end = calls.__heap_base.value;
        // (the module without vectors was lowered from addresses of 64 bits, and takes them as such)
        this.address = typeof end === "bigint" ? BigInt : Number;
        this.cursor = Math.ceil(Number(end) / PIECE) * PIECE;
        this.answer = this.cursor + 16;
        this.numbers = this.answer + 16;
        this.state = this.numbers + 16;
        this.fault = this.state + 16;
        this.table = this.fault + 32;
        this.room = this.table + TABLE;
        this.part = this.room + ROOM * PIECE;
        this.start = this.part + PART;
        this.made = this.start + MOST;
        this.isBroken = false;
    }

    // The calls, each of which notes if it did not return: on stack overflow a call throws midway, and the module has lost for good the part
    // of its own stack that the call used. Once that stack is used up, no call returns any more.
    watched(calls) {
        const watch = (call) => (...given) => {
            try {
                return call(...given);
            } catch (error) {
                this.isBroken = true;
                throw error;
            }
        };
        return Object.fromEntries(Object.entries(calls).map(([name, it]) => [name, typeof it === "function" ? watch(it) : it]));
    }

    // Takes a new instance if a call did not return. The content of the memory is lost.
    mend() {
        if (this.isBroken && this.another) this.use(this.another());
    }

    // Takes these bytes in place of those before. Returns a number that `holds` knows until others are taken.
    fill(bytes, form = UTF8) {
        this.mend();
        setBytes(this.memory, bytes, this.start);
        this.len = bytes.length;
        this.form = form;
        this.unit = form === UTF8 ? 1 : 2;
        this.standing = form;
        this.original = null;
        return ++this.filled;
    }

    // Whether the bytes of that call of `fill` are still in memory.
    holds(filled) {
        return this.filled === filled && !this.isBroken;
    }

    // The bytes as they came.
    get bytes() {
        if (this.form !== UTF16BE) return partOf(this.memory, this.start, this.start + this.len);
        if (!this.original) {
            this.original = copyOf(this.memory, this.start, this.start + this.len);
            if (this.isTurned) swap(this.original, 0, this.len);
        }
        return this.original;
    }

    setByte(place, byte) {
        if (this.original) this.original[place] = byte;
        const isLast = place === this.len - 1 && this.len % 2 === 1;
        this.memory[this.start + (this.isTurned && !isLast ? place ^ 1 : place)] = byte;
    }

    // Whether big-endian units were made little-endian.
    get isTurned() {
        return this.standing !== this.form;
    }

    turn() {
        if (this.standing !== UTF16BE) return;
        swap(this.memory, this.start, this.len);
        this.standing = UTF16LE;
    }

    // The length up to the last whole unit.
    get whole() {
        return this.len - (this.len % this.unit);
    }

    // A length or an address, of which the upper half is zero in a memory of 16 MiB.
    number(address) {
        return this.view.getUint32(address, true);
    }

    // The bytes from one offset up to and without another are left.
    setCursor(front, back) {
        const { view, cursor } = this;
        this.turn();
        view.setUint32(cursor, this.start + front, true);
        view.setUint32(cursor + 4, 0, true);
        view.setUint32(cursor + 8, (back - front) / this.unit, true);
        view.setUint32(cursor + 12, 0, true);
    }

    // The piece at an address, which begins at an offset of the bytes.
    pieceAt(address, place) {
        const { view } = this;
        return { place, len: this.lengthAt(address), scalar: view.getUint32(address + 8, true), kind: view.getUint8(address + 12) };
    }

    // The length in bytes of the piece at an address.
    lengthAt(address) {
        return this.number(address) * this.unit;
    }

    // The single byte at the end of UTF-16, or, if the input ends before it, no piece.
    lastByte(place) {
        return place < this.len ? { place, len: 1, scalar: 0, kind: INCOMPLETE } : { place, len: 0, scalar: 0, kind: NONE };
    }

    // The text that a call of the module has for each kind of error: its name or its sentence, in ASCII up to a NUL.
    textsOfKinds(call) {
        this.view.setBigUint64(this.answer, BigInt(this.room), true);
        return Array.from({ length: NONE + 1 }, (_, kind) => {
            call(kind, this.address(this.answer));
            const text = this.number(this.answer);
            return String.fromCharCode(...partOf(this.memory, text, this.memory.indexOf(0, text)));
        });
    }

    // Writes the pieces that begin at `front` to the buffer, at most `most`; returns how many and where they end. The single byte at
    // the end of UTF-16 is not written.
    run(front, most = ROOM) {
        const call = this.form === UTF8 ? this.calls.nody_utf8_pieces : this.calls.nody_utf16_pieces;
        this.setCursor(front, Math.max(front, this.whole));
        const count = call(this.address(this.cursor), this.address(this.room), BigInt(Math.min(most, ROOM)));
        return { count: Number(count), end: this.number(this.cursor) - this.start };
    }

    // How many of the pieces in the buffer are invalid bytes.
    faultsInRoom(count) {
        let faults = 0;
        for (let at = this.room + 12, end = at + count * PIECE; at < end; at += PIECE) faults += this.memory[at] !== OK;
        return faults;
    }

    // Copies of the first `count` pieces in the buffer.
    copies(count) {
        return new Copies(copyOf(this.memory, this.room, this.room + count * PIECE).buffer, this.unit);
    }

    // The pieces from an offset at which one begins, as far as they begin before another, and end after a third.
    pieces(front, before, after = front) {
        const found = [];
        const last = Math.min(before, this.whole);
        for (let place = front; place < last; ) {
            const { count, end } = this.run(place, before - place);
            for (let at = this.room, stop = at + count * PIECE; at < stop && place < before; at += PIECE) {
                const next = place + this.lengthAt(at);
                if (after < next) found.push(this.pieceAt(at, place));
                place = next;
            }
            place = Math.max(place, end);
        }
        if (this.whole < Math.min(before, this.len)) found.push(this.lastByte(this.whole));
        return found;
    }

    // Finds invalid bytes from a boundary on, at most `most`; calls `tell` with the offset, length and kind of each, and returns the
    // offset up to which all were reported. Valid text is skipped as fast as it is validated.
    faults(front, most, tell) {
        let [at, size] = [front, FEW];
        for (let left = most; at < this.whole; ) {
            if (size === FEW) at = this.validUpTo(at);
            if (at >= this.whole || left <= 0) break;
            const { count, end } = this.run(at, Math.min(size, left));
            const found = this.tellFaults(count, at, tell);
            left -= found;
            // (if invalid bytes are dense, one call asks for more pieces)
            size = found > count / 8 ? Math.min(2 * size, ROOM) : FEW;
            at = end;
        }
        if (at < this.whole || this.whole === this.len || most <= 0) return at;
        tell(this.whole, 1, INCOMPLETE);
        return this.len;
    }

    tellFaults(count, place, tell) {
        let found = 0;
        for (let at = this.room, end = at + count * PIECE; at < end; at += PIECE) {
            const [len, kind] = [this.lengthAt(at), this.memory[at + 12]];
            if (kind !== OK) {
                tell(place, len, kind);
                found++;
            }
            place += len;
        }
        return found;
    }

    // One piece from the front ("F") or the back ("B") of what is left, which then leaves it.
    step(letter, left) {
        const isFirst = letter === "F";
        const { front, back } = left;
        const end = Math.min(back, Math.max(this.whole, front));
        if (end < back && (front === end || !isFirst)) {
            left.back = end;
            return this.lastByte(end);
        }
        this.setCursor(front, end);
        const { calls } = this;
        if (this.form === UTF8) (isFirst ? calls.nody_utf8_next : calls.nody_utf8_next_back)(this.address(this.answer), this.address(this.cursor));
        else (isFirst ? calls.nody_utf16_next : calls.nody_utf16_next_back)(this.address(this.answer), this.address(this.cursor));
        left.front = this.number(this.cursor) - this.start;
        if (!isFirst) left.back = left.front + this.lengthAt(this.cursor + 8);
        return this.pieceAt(this.answer, isFirst ? front : left.back);
    }

    // The piece that begins at an offset, as a decoder that gets one byte at a time names it. (In UTF-16 none names it otherwise.)
    streamedAt(place) {
        if (this.form !== UTF8) return this.pieces(place, place + 1)[0] ?? this.lastByte(this.len);
        this.calls.nody_utf8_streamed_at(this.address(this.answer), this.address(this.start), BigInt(this.len), BigInt(place));
        return this.pieceAt(this.answer, place);
    }

    // The offset of the first invalid byte from an offset on at which a piece begins, or the length if there is none.
    validUpTo(front = 0) {
        if (this.standing === UTF16BE) return front + this.validFrom(UTF16BE, front, Math.max(this.whole, front));
        const call = this.form === UTF8 ? this.calls.nody_utf8_valid_up_to : this.calls.nody_utf16_valid_up_to;
        const units = bigOf(Math.max(this.whole - front, 0) / this.unit);
        const valid = call(this.address(this.start + front), units);
        return valid === units ? Math.max(this.whole, front) : front + this.unit * Number(valid);
    }

    // How many pieces there are from one boundary on and before another.
    countBetween(front, back) {
        return Number(this.calls.nody_char_count(this.standing, this.address(this.start + front), BigInt(back - front)));
    }

    // The offset of the piece with a number, of those that are there.
    offsetOf(number) {
        return Number(this.calls.nody_offset_of(this.standing, this.address(this.start), BigInt(this.len), BigInt(number)));
    }

    // How many pieces begin before an offset.
    numberOf(offset) {
        return Number(this.calls.nody_number_of(this.standing, this.address(this.start), BigInt(this.len), BigInt(offset)));
    }

    // The part outside of which no piece changes if something is inserted at an offset.
    changedRange(at) {
        const [form, place] = [Math.min(this.form, UTF16LE), BigInt(at)];
        this.calls.nody_changed_range(this.address(this.answer), form, this.address(this.start), BigInt(this.len), place, place);
        return { start: this.number(this.answer), end: this.number(this.answer + 8) };
    }

    // The last offset up to `at`, or the first one from there on, that lies in no character and no unit.
    boundary(at, isAfter = false) {
        const call = isAfter ? this.calls.nody_boundary_after : this.calls.nody_boundary_before;
        return Number(call(this.standing, this.address(this.start), BigInt(this.len), BigInt(at)));
    }

    // The last offset up to `at` that lies in no character, no maximal subpart and no unit.
    shardEnd(at) {
        return Number(this.calls.nody_shard_end(this.standing, this.address(this.start), BigInt(this.len), BigInt(at)));
    }

    // How many bytes at the end of these depend on what follows, in an encoding. (The bytes must be as they came: `fill` got no encoding.)
    undecidedLength(form) {
        return Number(this.calls.nody_undecided_len(form, this.address(this.start), BigInt(this.len)));
    }

    // The encoding that a byte order mark at the front names, and the length of the mark; null if there is none. (The bytes must be as they
    // came, too.)
    formOfBom() {
        const len = Number(this.calls.nody_encoding_of_bom(this.address(this.start), BigInt(this.len), this.address(this.answer)));
        return len ? { form: this.view.getUint8(this.answer), len } : null;
    }

    // How many bytes these become in another form.
    recodedLength(to) {
        return Number(this.calls.nody_recoded_len(this.standing, to, this.address(this.start), BigInt(this.len)));
    }

    // A recoder that holds nothing, as the bytes of its struct.
    newRecoder(from, to) {
        this.mend();
        this.calls.nody_recoder(this.address(this.state), from, to);
        return copyOf(this.memory, this.state, this.state + STATE);
    }

    // How many invalid bytes, or units, a recoder has replaced.
    replacedBy(state) {
        return Number(new DataView(state.buffer).getBigUint64(REPLACED, true));
    }

    // Feeds bytes to a recoder, and appends its output to `chunks`, if given, up to about `settings.most` bytes, or, in strict mode, up to
    // the first invalid byte. Returns how many bytes were fed, how many were written, and that invalid byte or null. If these bytes are the
    // last ones, the input ends after them. If `settings.isLent`, the last chunk is no copy, and is valid until the next call.
    // (Calls that are not strict take one argument less: the last is ignored.)
    feed(state, source, chunks, { most = Infinity, mode = REPLACE, isLast = false, isLent = false } = SETTINGS) {
        this.mend();
        const { suffix, repair, table } = mode;
        const [feed, finish] = [this.calls[`nody_recoder_feed${suffix}`], this.calls[`nody_recoder_finish${suffix}`]];
        const [recoder, part, read, written, fault] = [this.state, this.part, this.numbers, this.numbers + 8, this.fault].map(this.address);
        const more = repair === null ? [] : [repair, this.address(this.table), BigInt(table.length / 4)];
        setBytes(this.memory, table, this.table);
        setBytes(this.memory, state, this.state);
        let [at, total, made, status] = [0, 0, 0, 0];
        while (at < source.length && total < most && status !== FAULT) {
            const taken = partOf(source, at, at + PART);
            setBytes(this.memory, taken, this.part);
            status = feed(recoder, part, BigInt(taken.length), this.address(this.made + made), BigInt(PART_ROOM), ...more, read, written, fault);
            at += this.number(this.numbers);
            made += this.number(this.numbers + 8);
            total += this.number(this.numbers + 8);
            if (made > MADE) made -= this.keep(chunks, made);
        }
        if (isLast && at === source.length && status !== FAULT) {
            status = finish(recoder, this.address(this.made + made), BigInt(PART_ROOM), ...more, written, fault);
            made += this.number(this.numbers + 8);
            total += this.number(this.numbers + 8);
        }
        if (isLent) chunks.push(partOf(this.memory, this.made, this.made + made));
        else this.keep(chunks, made);
        setBytes(state, partOf(this.memory, this.state, this.state + STATE));
        return { at, total, fault: status === FAULT ? this.faultBefore(at) : null };
    }

    // What a recoder still holds, as no more input follows. Returns the first invalid byte, if it is strict, or null; its offset counts
    // from the end of the input.
    finish(state, chunks, mode = REPLACE) {
        return this.feed(state, NO_BYTES, chunks, { ...SETTINGS, mode, isLast: true }).fault;
    }

    // The fault at which a strict call stopped, after `read` bytes.
    faultBefore(read) {
        const { fault } = this;
        return { place: read - this.number(fault + 8), len: this.number(fault), kind: this.view.getUint8(fault + 16) };
    }

    // The position at the front of an input, as the bytes of its struct. (It has the memory of a fault)
    newPosition() {
        this.mend();
        this.calls.nody_position(this.address(this.fault));
        return copyOf(this.memory, this.fault, this.fault + POSITION);
    }

    // Takes a position, which `advance` moves on until `positionTo` puts it back.
    setPosition(state) {
        setBytes(this.memory, state, this.fault);
    }

    // Advances the position over the bytes from one offset up to another. (It holds units in one order: so big-endian ones are turned)
    advance(from, to) {
        this.turn();
        this.calls.nody_position_advance(this.address(this.fault), this.standing, this.address(this.start + from), BigInt(to - from));
    }

    positionTo(state) {
        setBytes(state, partOf(this.memory, this.fault, this.fault + POSITION));
    }

    // The position, as callers see it.
    get position() {
        const { view, fault } = this;
        return { line: wide(view, fault), column: wide(view, fault + 8), byteColumn: wide(view, fault + 16) };
    }

    // A surveyor of an input of which nothing was fed, as the bytes of its struct. (It has the memory of pieces)
    newSurveyor() {
        this.mend();
        this.calls.nody_surveyor(this.address(this.room));
        return copyOf(this.memory, this.room, this.room + SURVEYOR);
    }

    // The surveyor after a part.
    surveyed(state, part) {
        for (let at = 0; at < part.length; at += MOST) {
            this.fill(partOf(part, at, at + MOST));
            setBytes(this.memory, state, this.room);
            this.calls.nody_surveyor_feed(this.address(this.room), this.address(this.start), BigInt(this.len));
            state = copyOf(this.memory, this.room, this.room + SURVEYOR);
        }
        return state;
    }

    // The survey of all parts: its counts in order, its last bytes, and the numbers of the guesses.
    survey(state) {
        this.mend();
        const [at, guesses] = [this.room + SURVEYOR, this.room + SURVEYOR + SURVEY];
        setBytes(this.memory, state, this.room);
        this.calls.nody_surveyor_survey(this.address(this.room), this.address(at));
        const count = Number(this.calls.nody_guesses(this.address(at), this.address(guesses), BigInt(MOST_GUESSES)));
        const counts = Array.from({ length: COUNTS }, (_, i) => wide(this.view, at + 8 * i));
        return { counts, ends: copyOf(this.memory, at + 8 * COUNTS, at + 8 * COUNTS + 6), guesses: copyOf(this.memory, guesses, guesses + count) };
    }

    // A decoder that holds nothing, and counts from an offset.
    newDecoder(form, offset) {
        this.mend();
        this.calls.nody_decoder(this.address(this.state), form);
        this.view.setBigUint64(this.state + OFFSET, BigInt(offset), true);
        return this.decoder();
    }

    // The decoder in memory: the bytes of its struct, how many bytes it carries over, and the offset of the first of these or of the next.
    decoder() {
        const { memory, state } = this;
        return { bytes: copyOf(memory, state, state + STATE), held: memory[state + HELD], offset: wide(this.view, state + OFFSET) };
    }

    // Lets a decoder read on from an offset of the bytes, at most `most` pieces. Returns its new state, how many bytes it read,
    // whether more pieces are known, and the pieces.
    decode({ bytes }, from, most) {
        const [decoder, part, room, read, written] = [this.state, this.start + from, this.room, this.numbers, this.numbers + 8].map(this.address);
        setBytes(this.memory, bytes, this.state);
        const status = this.calls.nody_decoder_feed(decoder, part, BigInt(this.len - from), room, BigInt(most), read, written);
        return { state: this.decoder(), read: this.number(this.numbers), isFull: status === FULL, row: this.row() };
    }

    // Lets a decoder decode its carried-over bytes at the end of its input; returns what `decode` does.
    decodeLast({ bytes }) {
        this.mend();
        const [decoder, room, written] = [this.state, this.room, this.numbers + 8].map(this.address);
        setBytes(this.memory, bytes, this.state);
        this.calls.nody_decoder_finish(decoder, room, BigInt(ROOM), written);
        return { state: this.decoder(), read: 0, isFull: false, row: this.row() };
    }

    // The pieces in the buffer.
    row() {
        const count = this.number(this.numbers + 8);
        return count ? new Row(copyOf(this.memory, this.room, this.room + count * PIECE)) : NO_PIECES;
    }

    // The length of the valid text from an offset on, up to another, in an encoding, which is that of the bytes in memory.
    validFrom(form, from, end = this.len) {
        return Number(this.calls.nody_utf16_bytes_valid_up_to(form, this.address(this.start + from), BigInt(end - from)));
    }

    // (`slice` would fill the new memory with zeros first, which takes as long as the copy)
    keep(chunks, count) {
        if (count) chunks?.push(new Uint8Array(partOf(this.memory, this.made, this.made + count)));
        return count;
    }

    // These bytes in another encoding, as chunks: all of them, or about `settings.most` bytes of the output.
    recode(from, to, source, settings) {
        const chunks = [];
        this.feed(this.newRecoder(from, to), source, chunks, { ...SETTINGS, ...settings, isLast: true });
        return chunks;
    }
}

// A number below 2^53 of 64 bits.
const wide = (view, at) => view.getUint32(at, true) + view.getUint32(at + 4, true) * 2 ** 32;

// Pieces without their offsets, as copies from the buffer, to be taken one by one.
class Copies {
    constructor(buffer, unit) {
        this.view = new DataView(buffer);
        this.end = buffer.byteLength;
        this.unit = unit;
        this.at = 0;
    }

    // The next one, which begins at an offset. After the last one comes the single byte at the end of UTF-16.
    take(place) {
        const { view, at } = this;
        if (at === this.end) return { place, len: 1, scalar: 0, kind: INCOMPLETE };
        this.at += PIECE;
        return { place, len: view.getUint32(at, true) * this.unit, scalar: view.getUint32(at + 8, true), kind: view.getUint8(at + 12) };
    }
}

// Pieces with their offsets, as copies of what a decoder gave, of which the first ones were taken.
class Row {
    constructor(bytes) {
        this.view = new DataView(bytes.buffer);
        this.end = bytes.length;
        this.at = 0;
    }

    get isTaken() {
        return this.at === this.end;
    }

    // The offset of the next one.
    get offset() {
        return wide(this.view, this.at);
    }

    get count() {
        return (this.end - this.at) / PIECE;
    }

    // How many of those that are left are invalid bytes.
    get faults() {
        let faults = 0;
        for (let { at } = this; at < this.end; at += PIECE) faults += this.view.getUint8(at + 13) !== OK;
        return faults;
    }

    // Takes the next one, once it is made as the caller wants it: if that throws, it is not lost.
    take(made) {
        const { view, at } = this;
        const it = made({ place: wide(view, at), len: view.getUint8(at + 12), scalar: view.getUint32(at + 8, true), kind: view.getUint8(at + 13) });
        this.at = at + PIECE;
        return it;
    }

    // Takes those before the next invalid byte.
    passText() {
        while (this.at < this.end && this.view.getUint8(this.at + 13) === OK) this.at += PIECE;
    }
}

export const NO_PIECES = new Row(new Uint8Array(0));

// Exchanges the bytes of each whole unit of some memory, from a multiple of four on; two units at a time.
function swap(memory, start, len) {
    const pairs = new Int32Array(memory.buffer, memory.byteOffset + start, Math.floor(len / 4));
    for (let i = 0; i < pairs.length; i++) pairs[i] = ((pairs[i] & 0xff00ff) << 8) | ((pairs[i] >>> 8) & 0xff00ff);
    const at = start + 4 * pairs.length;
    if (len % 4 >= 2) [memory[at], memory[at + 1]] = [memory[at + 1], memory[at]];
}

// Chunks, one after the other.
export function joined(chunks) {
    if (chunks.length === 1) return chunks[0];
    const all = new Uint8Array(chunks.reduce((sum, it) => sum + it.length, 0));
    let at = 0;
    for (const it of chunks) {
        setBytes(all, it, at);
        at += it.length;
    }
    return all;
}
