// What callers do that nobody should: bytes that go away, of other realms, or that lie; options that run code.
import assert from "node:assert/strict";
import { spawnSync } from "node:child_process";
import { readFileSync } from "node:fs";
import { createRequire } from "node:module";
import test from "node:test";
import vm from "node:vm";
import { MessageChannel, Worker, receiveMessageOnPort } from "node:worker_threads";
import { Decoder, Ends, FaultError, Recoder, boundaryAfter, boundaryBefore, changedRange, charCount, decode, encodingOfBom, faults, firstFault, isValid, numberOf, offsetOf, pieces, piecesBack, recode, recodedLength, recoderStream, streamFaults, streamPieces, streamText, textStream, undecidedLength } from "noddychest";
import { callsOf } from "../api.js";
import { codecOf } from "../loading.js";
import { chances, damaged, hexOf, ofHex } from "./help.js";

const GONE = { name: "TypeError", message: /^noddychest: the bytes are gone: their buffer was detached, or made smaller$/ };
const canResize = "resize" in ArrayBuffer.prototype;
const OLD = "this node has no resizable buffers";

// Takes the memory of some bytes away, as postMessage does with what is transferred.
function detach(bytes) {
    const { port1, port2 } = new MessageChannel();
    port1.postMessage(null, [bytes.buffer ?? bytes]);
    port1.close();
    port2.close();
}

// Each way to ask for all pieces, as a function that gives the next one, or null.
const WAYS = {
    pieces: (bytes) => nextOf(pieces(bytes)),
    piecesBack: (bytes) => nextOf(piecesBack(bytes)),
    "Ends, from the front": (bytes) => stepsOf(new Ends(bytes), "next"),
    "Ends, from the back": (bytes) => stepsOf(new Ends(bytes), "nextBack"),
};
const nextOf = (iterator) => () => iterator.next().value ?? null;
const stepsOf = (ends, name) => () => ends[name]();

for (const [name, way] of Object.entries(WAYS)) {
    test(`${name}: bytes that are detached on the way`, () => {
        for (const [size, steps] of [[3, 1], [3, 2], [5000, 1], [5000, 4500], [20000, 9000]]) {
            const bytes = new Uint8Array(size).fill(0x61);
            const next = way(bytes);
            for (let i = 0; i < steps; i++) assert.equal(next().char, "a");
            detach(bytes);
            assert.throws(next, GONE, `${size} bytes after ${steps}`);
        }
    });

    test(`${name}: after the last piece the bytes may go`, () => {
        const bytes = ofHex("61c3a9ff");
        const next = way(bytes);
        for (let i = 0; i < 3; i++) assert.ok(next());
        if (!name.startsWith("Ends")) {
            detach(bytes);
            assert.equal(next(), null);
        }
    });

    test(`${name}: a buffer that grows, and one that is made smaller`, { skip: canResize ? false : OLD }, () => {
        for (const give of [(it) => it, (it) => new Uint8Array(it), (it) => new Uint8Array(it, 0, 9000), (it) => new DataView(it)]) {
            const buffer = new ArrayBuffer(9000, { maxByteLength: 20000 });
            const next = way(give(buffer));
            next();
            buffer.resize(20000);
            for (let i = 1; i < 8999; i++) assert.equal(next().char, "\0");
            buffer.resize(8999);
            assert.throws(next, GONE);
        }
    });
}

test("faults: bytes that are detached on the way, a buffer that grows, and one that is made smaller", () => {
    for (const [size, steps] of [[3, 1], [9000, 1], [9000, 5000], [3_000_000, 1], [3_000_000, 5000]]) {
        const bytes = new Uint8Array(size).fill(0xff);
        const found = faults(bytes);
        for (let i = 0; i < steps; i++) assert.equal(found.next().value.offset, i);
        detach(bytes);
        assert.throws(() => found.next(), GONE, `${size} bytes after ${steps}`);
    }
    const bytes = ofHex("ffff");
    const found = [...faults(bytes)];
    detach(bytes);
    assert.equal(found.length, 2);
    if (!canResize) return;
    const buffer = new ArrayBuffer(9000, { maxByteLength: 20000 });
    new Uint8Array(buffer).fill(0xff);
    const some = faults(buffer, "utf-16le");
    assert.equal(some.next().value, undefined);
    const others = faults(buffer);
    others.next();
    buffer.resize(20000);
    for (let i = 1; i < 8999; i++) assert.equal(others.next().value.offset, i);
    buffer.resize(8999);
    assert.throws(() => others.next(), GONE);
});

test("a part of a stream that is detached after it was read", async () => {
    const parts = [ofHex("41e2"), ofHex("82ac")];
    const found = [];
    for await (const it of streamPieces(parts)) {
        found.push(it.char);
        if (found.length === 1) detach(parts[0]);
    }
    assert.deepEqual(found, ["A", "€"]);
    const gone = ofHex("41");
    detach(gone);
    await assert.rejects(streamPieces([gone]).next(), GONE);
});

test("bytes that are gone already are refused, and are not empty text", () => {
    const views = [(it) => it, (it) => new Uint8Array(it), (it) => new Uint8Array(it, 2, 0), (it) => new DataView(it, 1), (it) => new Uint16Array(it)];
    for (const give of views) {
        const buffer = new ArrayBuffer(8);
        const data = give(buffer);
        detach(buffer);
        const calls = [isValid, firstFault, charCount, decode, faults, pieces, piecesBack, (it) => boundaryBefore(it, 1), (it) => boundaryAfter(it, 1), (it) => offsetOf(it, 1), (it) => numberOf(it, 1), (it) => changedRange(it, 0, 1), undecidedLength, encodingOfBom];
        for (const call of [...calls, (it) => new Ends(it), (it) => recode(it, "utf8", "utf8"), (it) => recodedLength(it, "utf8", "utf8")]) {
            assert.throws(() => call(data), GONE);
        }
    }
    for (const it of [new DataView(new ArrayBuffer(0)), new Uint8Array(0), new ArrayBuffer(0), new DataView(new ArrayBuffer(4), 4)]) assert.equal(isValid(it), true);
});

test("a view that lies outside of its buffer is refused", { skip: canResize ? false : OLD }, () => {
    for (const give of [(it) => new Uint8Array(it, 4), (it) => new Uint8Array(it, 4, 2), (it) => new DataView(it, 4, 2), (it) => new DataView(it, 4)]) {
        const buffer = new ArrayBuffer(8, { maxByteLength: 8 });
        const data = give(buffer);
        buffer.resize(3);
        assert.throws(() => isValid(data), GONE);
        assert.throws(() => new Recoder("utf8", "utf8").feed(data), GONE);
        buffer.resize(8);
        assert.equal(isValid(data), true);
    }
});

test("a recoder that met bytes that are gone goes on", () => {
    const recoder = new Recoder("utf-8", "utf-16be");
    recoder.feed(ofHex("e282"));
    const bytes = ofHex("ac");
    detach(bytes);
    assert.throws(() => recoder.feed(bytes), GONE);
    assert.equal(hexOf(recoder.feed(ofHex("ac"))), "20ac");
});

test("bytes of another realm", () => {
    const far = (code) => vm.runInNewContext(code);
    const given = ["new Uint8Array([65, 255]).buffer", "new Uint8Array([65, 255])", "new DataView(new Uint8Array([65, 255]).buffer)", "new Uint16Array([0xff41])"];
    if (typeof SharedArrayBuffer === "function") given.push("const it = new SharedArrayBuffer(2); new Uint8Array(it).set([65, 255]); it");
    for (const it of given) {
        assert.equal(firstFault(far(it)).offset, 1, it);
        assert.deepEqual([...pieces(far(it))].map((piece) => piece.error), [null, "NonUtf8Byte"], it);
        assert.equal(hexOf(recode(far(it), "utf8", "utf16be")), "0041fffd", it);
        assert.deepEqual([decode(far(it)).text, [...faults(far(it))].length, charCount(far(it)), boundaryBefore(far(it), 1), recodedLength(far(it), "utf8", "utf16le")], ["A\ufffd", 1, 2, 1, 4], it);
        assert.deepEqual([undecidedLength(far(it)), undecidedLength(far(it), "utf-16le"), encodingOfBom(far(it))], [0, 0, null], it);
    }
    for (const it of ["[65]", "'text'", "({ byteLength: 2 })", "new Map()"]) assert.throws(() => isValid(far(it)), { name: "TypeError", message: /bytes are a Uint8Array/ });
});

test("shared memory, and one that grows", () => {
    const shared = new SharedArrayBuffer(3);
    new Uint8Array(shared).set([0x41, 0xc3, 0xa9]);
    assert.equal([...pieces(shared)].map((it) => it.char).join(""), "Aé");
    assert.equal(hexOf(recode(new DataView(shared, 1), "utf8", "utf16be")), "00e9");
    assert.deepEqual([decode(shared).text, charCount(shared), [...faults(new DataView(shared, 2))].length, boundaryBefore(shared, 2), decode(shared, "utf-16be").faults.length], ["Aé", 2, 1, 1, 1]);
    if (!("grow" in SharedArrayBuffer.prototype)) return;
    const growing = new SharedArrayBuffer(3, { maxByteLength: 9 });
    const found = pieces(new Uint8Array(growing));
    found.next();
    growing.grow(9);
    assert.equal([...found].length, 2);
});

test("bytes that lie about themselves, or run code when asked, are read as they are", () => {
    class Lying extends Uint8Array {
        static get [Symbol.species]() {
            return assert.fail("code of the caller ran");
        }
        get length() {
            return assert.fail("code of the caller ran");
        }
        subarray() {
            return assert.fail("code of the caller ran");
        }
    }
    for (const name of ["buffer", "byteOffset", "byteLength", "values", Symbol.iterator, Symbol.toStringTag]) Object.defineProperty(Lying.prototype, name, { get: () => assert.fail("code of the caller ran") });
    const bytes = new Lying(3);
    Uint8Array.prototype.set.call(bytes, [0x41, 0xc3, 0xa9]);
    assert.equal([...pieces(bytes)].length, 2);
    assert.equal(hexOf(recode(bytes, "utf8", "utf16le")), "4100e900");
    assert.equal(new Ends(bytes).nextBack().char, "é");
    assert.deepEqual([decode(bytes).text, [...faults(bytes)].length, charCount(bytes), boundaryAfter(bytes, 2), firstFault(bytes, "utf-16be").offset], ["Aé", 0, 2, 3, 2]);
    for (const it of [new Proxy(new Uint8Array(2), {}), Object.create(Uint8Array.prototype), { __proto__: ArrayBuffer.prototype, byteLength: 10 ** 30 }, { length: 10 ** 30 }, Symbol("bytes"), 10n ** 30n]) {
        assert.throws(() => isValid(it), { name: "TypeError", message: /bytes are a Uint8Array/ });
    }
});

test("other calls between two pieces, and from within options and labels, change nothing", () => {
    const bytes = damaged(chances(9), 9000);
    const [want, have, other] = [[...pieces(bytes)], [], new Recoder("utf8", "utf16le")];
    for (const it of pieces(bytes)) {
        have.push(it);
        if (have.length % 7 === 0) other.feed(bytes.subarray(it.offset, it.offset + 9)), isValid(bytes.subarray(5)), pieces(bytes).next(), new Ends(bytes).nextBack();
    }
    assert.deepEqual(have, want);
    const busy = (value) => (recode(bytes, "utf16be", "utf8"), [...pieces(ofHex("e282"))], value);
    const label = { toString: () => busy("utf-8") };
    const recoder = new Recoder(label, { toString: () => busy("utf-16be") }, { get fatal() { return busy(false); } });
    assert.equal(hexOf(recoder.feed(ofHex("e282"))) + hexOf(recoder.feed(ofHex("ac"))), "20ac");
    let asked = 0;
    assert.throws(() => recode(ofHex("ff"), "utf8", "utf8", { get fatal() { return ++asked === 1; } }), FaultError);
    assert.equal(asked, 1);
});

test("labels that take the bytes away: each call says that these are gone", () => {
    const calls = [pieces, piecesBack, faults, firstFault, isValid, charCount, undecidedLength, decode, (data, label) => new Ends(data, label), (data, label) => recode(data, label, "utf8"), (data, label) => recodedLength(data, label, "utf8")];
    const placed = [offsetOf, numberOf, boundaryBefore, boundaryAfter].map((call) => (data, label) => call(data, 1, label));
    for (const call of [...calls, ...placed, (data, label) => changedRange(data, 1, 2, label)]) {
        const bytes = ofHex("4142ff");
        assert.throws(() => call(bytes, { toString: () => (detach(bytes), "utf8") }), GONE);
    }
});

test("options that are none throw a sentence", () => {
    const told = (it) => ({ name: "TypeError", message: `noddychest: options are an object, as { fatal: true }, or left out, and not ${it}` });
    for (const [given, name] of [[null, "null"], [true, "a boolean"], ["fatal", "a string"], [1, "a number"], [Symbol("fatal"), "a symbol"], [1n, "a bigint"]]) {
        assert.throws(() => new Recoder("utf8", "utf8", given), told(name));
        assert.throws(() => recode(new Uint8Array(1), "utf8", "utf8", given), told(name));
        assert.throws(() => recoderStream("utf8", "utf8", given), told(name));
    }
    for (const given of [undefined, {}, { fatal: undefined }, { fatal: 0 }, Object.create(null)]) assert.equal(recode(ofHex("ff"), "utf8", "utf8", given).length, 3);
});

// The results of all calls that have options, or records of their own.
async function answers() {
    const bytes = ofHex("61e282ff62f09f9880c3");
    const thrown = (call) => {
        try {
            return call();
        } catch (it) {
            return [it.constructor.name, it.name, it.message, it.offset, it.length, it.error, Object.keys(it)];
        }
    };
    const all = [];
    for (const given of [[], [{}], [Object.create(null)], [{ errors: "lossy" }], [{ errors: "drop" }], [{ errors: "windows-1252" }], [{ errors: { 255: "?" } }], [{ fatal: true }], [{ fatal: false, errors: "strict" }]]) {
        for (const form of ["utf-8", "utf-16le", "utf-16be"]) {
            const recoder = new Recoder(form, "utf-8", ...given);
            const feeds = [() => hexOf(recoder.feed(bytes)), () => hexOf(recoder.finish()), () => recoder.replaced];
            all.push([() => decode(bytes, form, ...given), () => hexOf(recode(bytes, form, "utf-16be", ...given)), ...feeds].map(thrown));
        }
        const stream = recoderStream("utf-8", "utf-16le", ...given);
        const writer = stream.writable.getWriter();
        const written = [writer.write(bytes.subarray(0, 3)), writer.close()].map((it) => it.catch((error) => error.message));
        try {
            for await (const it of stream.readable) all.push(hexOf(it));
        } catch (it) {
            all.push(it.message);
        }
        all.push(await Promise.all(written));
        const texts = textStream("utf-8", ...given);
        const sent = texts.writable.getWriter();
        const sending = [sent.write(bytes.subarray(0, 3)), sent.close()].map((it) => it.catch((error) => error.message));
        try {
            for await (const it of texts.readable) all.push(it);
        } catch (it) {
            all.push(it.message);
        }
        all.push(await Promise.all(sending));
        try {
            for await (const it of streamText([bytes.subarray(0, 2), bytes.subarray(2)], "utf-8", ...given)) all.push(it);
        } catch (it) {
            all.push(it.message);
        }
    }
    for (const given of [[], [{}], [{ offset: 5 }]]) {
        const decoder = new Decoder("utf-8", ...given);
        all.push([...decoder.feed(bytes.subarray(0, 3))], [...decoder.feedFaults(bytes.subarray(3))], decoder.offset, decoder.held, [...decoder.finish()]);
    }
    for (const call of [pieces, piecesBack, faults]) all.push([...call(bytes)], [...call(bytes, "utf-16be")]);
    for (const call of [streamPieces, streamFaults]) for await (const it of call([bytes.subarray(0, 2), bytes.subarray(2)])) all.push(it);
    for (const call of [firstFault, isValid, charCount, encodingOfBom, undecidedLength]) all.push(call(bytes));
    return [...all, changedRange(bytes, 2, 3), boundaryBefore(bytes, 6), offsetOf(bytes, 2), numberOf(bytes, 3), recodedLength(bytes, "utf-8", "utf-16le")];
}

const NAMES = ["most", "base", "end", "errors", "fatal", "encoding", "offset", "mode", "isLast", "form", "length", "error", "char", "cause", "settings", "ignoreBOM", "stream", "bytes", "isEnd", "at", "isOver", "filled", "read", "count", "kind", "place", "len", "scalar", "fault", "readableType", "writableType", "from", "to", "next", "done", "value", "total", "names", "calls", "memory", "suffix", "repair", "table", "255"];

test("what somebody put into Object.prototype changes no answer", async () => {
    const want = await answers();
    for (const name of NAMES) {
        for (const value of [1, "strict", null]) {
            Object.defineProperty(Object.prototype, name, { value, writable: true, enumerable: false, configurable: true });
            let have;
            try {
                have = await answers();
            } finally {
                delete Object.prototype[name];
            }
            assert.deepEqual(have, want, `${name}: ${value}`);
        }
    }
});

test("options count that an object has from its class, or from an object before it", () => {
    class Options {
        get fatal() {
            return true;
        }
    }
    for (const given of [new Options(), Object.create({ errors: "strict" }), Object.create(new Options()), new Proxy({}, { get: (_, name) => name === "fatal" || undefined })]) {
        assert.throws(() => recode(ofHex("ff"), "utf8", "utf8", given), FaultError);
        assert.throws(() => decode(ofHex("ff"), "utf8", given), FaultError);
    }
    assert.equal(new Decoder("utf-8", Object.create({ offset: 7 })).offset, 7);
});

test("an error where the language's own objects are frozen", () => {
    const program = 'for (const it of [Object, Error, TypeError, Array, Function]) Object.freeze(it.prototype); const { recode, FaultError } = require("noddychest"); try { recode(Uint8Array.of(255), "utf8", "utf8", { fatal: true }); } catch (it) { console.log(it.name, it instanceof FaultError, it.offset, it.cause.error); }';
    const ran = spawnSync(process.execPath, ["-e", program], { cwd: new URL("..", import.meta.url), encoding: "utf8" });
    assert.equal(ran.stdout, "FaultError true 0 NonUtf8Byte\n", ran.stderr);
});

test("an error says where also after it was cloned or sent", () => {
    const error = (() => {
        try {
            return recode(ofHex("41000041dc00"), "utf16be", "utf8", { fatal: true });
        } catch (it) {
            return it;
        }
    })();
    const want = { offset: 4, length: 2, error: "UnexpectedTrailingSurrogate" };
    assert.deepEqual({ ...error.cause }, want);
    assert.equal(Object.keys(error).includes("cause"), false);
    const { port1, port2 } = new MessageChannel();
    port1.postMessage(error);
    const sent = receiveMessageOnPort(port2).message;
    port1.close();
    for (const it of typeof structuredClone === "function" ? [sent, structuredClone(error)] : [sent]) {
        assert.equal(it.message, "noddychest: invalid UTF-16BE at offset 4: UnexpectedTrailingSurrogate");
        assert.ok(it instanceof Error);
        if (Number(process.versions.node.split(".")[0]) >= 20) assert.deepEqual(it.cause, want);
    }
});

test("require gives the same calls as import", () => {
    const all = createRequire(import.meta.url)("noddychest");
    assert.equal(all.FaultError, FaultError);
    assert.equal(all.pieces, pieces);
    const ran = spawnSync(process.execPath, ["-e", 'console.log(require("noddychest").firstFault(Buffer.from([65, 255])).error)'], { cwd: new URL("..", import.meta.url), encoding: "utf8" });
    assert.equal(ran.stdout, "NonUtf8Byte\n", ran.stderr);
});

test("text that is longer than the module's memory, and offsets in it", () => {
    const bytes = new Uint8Array(40_000_000).fill(0x61);
    bytes[39_999_998] = 0xe2;
    assert.equal(firstFault(bytes).offset, 39_999_998);
    assert.throws(() => recode(bytes, "utf8", "utf16le", { fatal: true }), { offset: 39_999_998, error: "TooFewBytes" });
    assert.equal(recode(bytes, "utf8", "utf8").length, 40_000_002);
    assert.deepEqual([...faults(bytes)].map((it) => it.offset), [39_999_998]);
    assert.deepEqual([charCount(bytes), recodedLength(bytes, "utf8", "utf8"), boundaryBefore(bytes, 39_999_999)], [40_000_000, 40_000_002, 39_999_999]);
    const { text, faults: wrong } = decode(bytes);
    assert.deepEqual([text.length, text[text.length - 1], wrong.length], [40_000_000, "a", 1]);
});

// Calls something at a depth of `depth` calls, of which the first has some arguments more.
const deep = (depth, call) => (depth > 0 ? (deep(depth - 1, call), 0) : (call(), 0));
const wide = (depth, call, ..._) => deep(depth, call) + 1;

test("where the stack is full a call throws, and those after it answer as before", async () => {
    const api = callsOf(await codecOf(readFileSync(new URL("../noddychest.wasm", import.meta.url))));
    const bytes = damaged(chances(31), 200);
    const want = recode(bytes, "utf-16be", "utf-8", { errors: "lossy" });
    const [decoder, recoder, found] = [new api.Decoder(), new api.Recoder("utf-8", "utf-16le"), api.faults(damaged(chances(32), 9000))];
    const [held, made] = [[...decoder.feed(ofHex("41e282"))], [...recoder.feed(ofHex("41e282"))]];
    const first = found.next().value;
    const call = () => api.recode(bytes, "utf-16be", "utf-8", { errors: "lossy" });
    let thrown = 0;
    const fits = (depth, more) => {
        try {
            return wide(depth, call, ...Array(more)) > 0;
        } catch (it) {
            thrown++;
            assert.equal(it.message, "Maximum call stack size exceeded");
            return false;
        }
    };
    for (let i = 0; i < 20000; i++) wide(20, call);
    for (let more = 0; more < 3; more++) {
        let [some, much] = [10, 40000];
        while (some + 1 < much) fits((some + much) >> 1, more) ? (some = (some + much) >> 1) : (much = (some + much) >> 1);
        for (let depth = much; depth < much + 16; depth++) fits(depth, more);
    }
    assert.ok(thrown > 20);
    assert.deepEqual(call(), want);
    assert.deepEqual([...held, ...decoder.feed(ofHex("ac"))].map((it) => it.char), ["A", "€"]);
    assert.deepEqual([...made, ...recoder.feed(ofHex("ac"))], [0x41, 0, 0xac, 0x20]);
    assert.deepEqual([first, ...found], [...faults(damaged(chances(32), 9000))]);
});

test("a piece that could not be made is not lost", () => {
    const { fromCodePoint } = String;
    const once = (call) => {
        String.fromCodePoint = () => {
            throw new RangeError("no room");
        };
        try {
            assert.throws(call, { message: "no room" });
        } finally {
            String.fromCodePoint = fromCodePoint;
        }
    };
    const bytes = ofHex("41c3a9ff42");
    const [decoder, ends] = [new Decoder(), new Ends(bytes)];
    once(() => decoder.feed(bytes).next());
    const given = decoder.feed(ofHex("43"));
    assert.equal(given.next().value.char, "A");
    once(() => given.next());
    assert.deepEqual([...decoder.feed(ofHex("44"))].map((it) => it.char ?? it.error), ["é", "NonUtf8Byte", "B", "C", "D"]);
    once(() => ends.next());
    once(() => ends.nextBack());
    assert.deepEqual([ends.next().char, ends.nextBack().char, ends.next().char, ends.nextBack().error, ends.next()], ["A", "B", "é", "NonUtf8Byte", null]);
});

test("a decoder is as it was, where the module fails on the way", () => {
    const { setBigUint64 } = DataView.prototype;
    const failing = (call) => {
        DataView.prototype.setBigUint64 = () => {
            throw new RangeError("no room");
        };
        try {
            assert.throws(call, { message: "no room" });
        } finally {
            DataView.prototype.setBigUint64 = setBigUint64;
        }
    };
    // (invalid bytes are rare: so text is passed over)
    const rare = ofHex(`ff${"41".repeat(60)}`);
    const decoder = new Decoder();
    const first = [...decoder.feedFaults(rare)];
    failing(() => decoder.feedFaults(ofHex("4242ff")));
    assert.deepEqual([...first, ...decoder.feedFaults(ofHex("42ff"))].map((it) => it.offset), [0, 62]);
    // (parts that wait, of which a generator begins to read)
    const other = new Decoder();
    for (const it of [rare, rare, ofHex("4242ff")]) other.feed(it);
    const given = other.feedFaults(ofHex("42"));
    assert.equal(given.next().value.offset, 0);
    failing(() => [...given]); // (it gives one at 61 before)
    assert.deepEqual([...other.feedFaults(ofHex("ff"))].map((it) => it.offset), [124, 126]);
});

test("a host without TextDecoder is told as that", () => {
    const program = 'delete globalThis.TextDecoder; const { decode, faults } = require("noddychest"); console.log([...faults(Uint8Array.of(255))].length); try { decode(Uint8Array.of(65)); } catch (it) { console.log(it.message); }';
    const ran = spawnSync(process.execPath, ["-e", program], { cwd: new URL("..", import.meta.url), encoding: "utf8" });
    assert.equal(ran.stdout, "1\nTextDecoder is not defined\n", ran.stderr);
});

test("memory that another thread changes meanwhile: of decode the text and the list of faults belong together", async () => {
    const shared = new SharedArrayBuffer(1 << 20);
    const bytes = new Uint8Array(shared).fill(0x61);
    const worker = new Worker("const bytes = require('node:worker_threads').workerData; for (let i = 0; ; i++) if (i % 4096 === 0) bytes[bytes.length - 1] ^= 0x80;", { eval: true, workerData: bytes });
    try {
        await new Promise((done) => worker.once("online", done));
        for (let began = Date.now(), i = 0; Date.now() - began < 2000 || i < 50; i++) {
            const { text, faults: wrong } = decode(shared);
            assert.equal(text.endsWith("\ufffd"), wrong.length === 1);
            try {
                assert.ok(decode(shared, "utf-8", { fatal: true }).text.endsWith("a"));
            } catch (it) {
                assert.ok(it instanceof FaultError, it);
            }
        }
    } finally {
        await worker.terminate();
    }
});

test("memory that another thread changes meanwhile: firstFault gives an invalid byte or null", async () => {
    const bytes = new Uint8Array(new SharedArrayBuffer(64)).fill(0x61);
    const worker = new Worker("const bytes = require('node:worker_threads').workerData; for (let i = 0; ; i++) if (i % 64 === 0) Atomics.xor(bytes, 40, 0x80);", { eval: true, workerData: bytes });
    try {
        await new Promise((done) => worker.once("online", done));
        for (let began = Date.now(), i = 0; Date.now() - began < 2000 || i < 2000; i++) {
            const found = firstFault(bytes);
            if (found) assert.deepEqual(found, { offset: 40, length: 1, char: null, error: "InterruptedSequence" });
        }
    } finally {
        await worker.terminate();
    }
});

test("what somebody put in the place of calls of Uint8Array changes no answer", async () => {
    const prototype = Object.getPrototypeOf(Uint8Array.prototype);
    const want = await answers();
    // (one that does nothing, and one that calls the package)
    const others = [() => function () { return this; }, (own) => function (...given) {
        const was = Object.getOwnPropertyDescriptor(Uint8Array.prototype, name);
        delete Uint8Array.prototype[name];
        recode(new Uint8Array(9).fill(0xff), "utf-8", "utf-16le"), isValid(new Uint8Array(9)), new Ends(new Uint8Array(9)).next();
        Object.defineProperty(Uint8Array.prototype, name, was);
        return own.apply(this, given);
    }];
    let name;
    // (the prototype of Uint8Array has none of its own; a test asks for the text of bytes by subarray)
    for (name of ["set", "slice"]) {
        for (const make of others) {
            Object.defineProperty(Uint8Array.prototype, name, { value: make(prototype[name]), writable: true, configurable: true });
            let have;
            try {
                have = await answers();
            } finally {
                delete Uint8Array.prototype[name];
            }
            assert.deepEqual(have, want, name);
        }
    }
});

test("a TextDecoder that rejects shared memory and buffers that may be resized, as those of browsers, is given neither; another class is used from the next call on", () => {
    const { TextDecoder } = globalThis;
    let asked = 0;
    const classOf = (name) => class extends TextDecoder {
        decode(bytes, ...more) {
            assert.ok(bytes.buffer instanceof ArrayBuffer && !bytes.buffer.resizable);
            asked++;
            return name + super.decode(bytes, ...more);
        }
    };
    const buffers = [(size) => new ArrayBuffer(size), (size) => new SharedArrayBuffer(size), ...(canResize ? [(size) => new ArrayBuffer(size, { maxByteLength: 2 * size })] : [])];
    try {
        for (const name of ["1", "2"]) {
            globalThis.TextDecoder = classOf(name);
            for (const make of buffers) {
                for (const size of [24, 1000, 100000]) {
                    const bytes = new Uint8Array(make(size)).fill(0x61);
                    assert.deepEqual(decode(bytes), { text: name + "a".repeat(size), faults: [] });
                    bytes[size - 1] = 0xff;
                    assert.equal(decode(bytes).text, `${name}${"a".repeat(size - 1)}\ufffd`);
                }
            }
        }
        assert.ok(asked >= 12 * buffers.length);
    } finally {
        globalThis.TextDecoder = TextDecoder;
    }
    assert.equal(decode(ofHex("61")).text, "a");
});

test("a TextDecoder that failed once is not used again", () => {
    const { decode: whole } = TextDecoder.prototype;
    TextDecoder.prototype.decode = function () {
        whole.call(this, ofHex("61d8"), { stream: true });
        throw new TypeError("not valid");
    };
    try {
        for (const it of ["61", "61ff"]) assert.throws(() => decode(ofHex(it)), { name: "RangeError", message: /too long for a string/ });
    } finally {
        TextDecoder.prototype.decode = whole;
    }
    for (const [it, want] of [["61", "a"], ["61ff", "a\ufffd"]]) assert.equal(decode(ofHex(it)).text, want);
});

test("decode of a text that fits in no string throws before it makes the text", () => {
    const { TextDecoder } = globalThis;
    // (V8 has strings of 2^29 - 24 units)
    const bytes = new Uint8Array(2 ** 29);
    const told = { name: "RangeError", message: /^noddychest: a text of 536870912 units of UTF-16 is too long for a string here/ };
    globalThis.TextDecoder = () => assert.fail("the text was made");
    try {
        for (const errors of ["replace", "lossy", "strict"]) assert.throws(() => decode(bytes, "utf-8", { errors }), told);
        bytes[5] = 0xff;
        assert.throws(() => decode(bytes, "utf-8", { fatal: true }), { name: "FaultError", offset: 5 });
    } finally {
        globalThis.TextDecoder = TextDecoder;
    }
});

test("decode of a text of more units than the TextDecoder of Node takes, with a character at each edge of a part", () => {
    const bytes = new Uint8Array(2 ** 27 + 40).fill(0x61);
    for (let at = 2 ** 24 - 1; at < bytes.length; at += 2 ** 24) bytes.set(ofHex("f09f9880"), at);
    bytes[bytes.length - 1] = 0xff;
    const { text, faults: wrong } = decode(bytes);
    assert.deepEqual([text.length, wrong.map((it) => it.offset), text.slice(-3)], [bytes.length - 16, [bytes.length - 1], "aa\ufffd"]);
    let count = 0;
    for (let at = text.indexOf("😀"); at >= 0; at = text.indexOf("😀", at + 1)) count++;
    assert.equal(count, 8);
});

test("a FaultError is made of a fault and its encoding, or says so", () => {
    const told = { name: "TypeError", message: 'noddychest: a FaultError is made of a fault, as { offset: 3, length: 1, error: "NonUtf8Byte" }, and its encoding' };
    for (const it of [undefined, null, "x", 5, Symbol("x"), {}, new Error("x"), { offset: 1.5, length: 1, error: "Incomplete" }, { offset: -1, length: 1, error: "Incomplete" }, { offset: 1, length: 3, error: "Incomplete" }, { offset: 1, length: 1 }]) {
        assert.throws(() => new FaultError(it, "utf-8"), told);
        assert.throws(() => new FaultError(it), told);
    }
    assert.throws(() => new FaultError(firstFault(ofHex("ff")), "latin1"), { name: "RangeError", message: /latin1/ });
    const bytes = ofHex("410000dc");
    for (const encoding of ["utf-16le", "UTF-16BE"]) {
        const [made, thrown] = [() => new FaultError(firstFault(bytes, encoding), encoding), () => recode(bytes, encoding, "utf-8", { fatal: true })].map((call) => {
            try {
                return call();
            } catch (it) {
                return it;
            }
        });
        if (encoding === "utf-16le") assert.deepEqual([made.message, made.offset, made.length, made.error, { ...made.cause }, made.name], [thrown.message, thrown.offset, thrown.length, thrown.error, { ...thrown.cause }, thrown.name]);
        else assert.ok(made instanceof TypeError, String(made));
    }
    assert.match(new FaultError(firstFault(ofHex("ff"))).message, /invalid UTF-8 at offset 0: NonUtf8Byte$/);
});

// Calls something with stack left for no more than `left` calls of this function. Returns whether it threw.
function nearTheEnd(left, call) {
    let told = false;
    const dive = () => {
        let depth;
        try {
            depth = dive();
        } catch {
            return 0;
        }
        if (depth !== left) return depth + 1;
        try {
            call();
        } catch {
            told = true;
        }
        return depth + 1;
    };
    dive();
    return told;
}

test("where the stack is full, a part was fed or was not, and no piece comes twice or never", () => {
    const chance = chances(33);
    let thrown = 0;
    for (const [encoding, feed, finish] of [["utf-8", "feed", "finish"], ["utf-16be", "feed", "finish"], ["utf-8", "feedFaults", "finishFaults"], ["utf-16be", "feedFaults", "finishFaults"]]) {
        for (let round = 0; round < 60; round++) {
            const parts = Array.from({ length: 5 }, () => damaged(chance, chance(60)));
            const [whole, decoder, found] = [new Decoder(encoding), new Decoder(encoding), []];
            const want = [...whole[feed](Uint8Array.from(parts.flatMap((it) => [...it]))), ...whole[finish]()];
            for (const part of [...parts, null]) {
                let given;
                const put = () => (given = part ? decoder[feed](part) : decoder[finish]());
                if (nearTheEnd(chance(40), put)) thrown++, put();
                for (let steps = chance(5), isOver = false; steps > 0 && !isOver; steps--) {
                    let step;
                    isOver = nearTheEnd(chance(40), () => (step = given.next()));
                    thrown += isOver;
                    if (step && !step.done) found.push(step.value);
                }
            }
            found.push(...decoder[feed](new Uint8Array(0)));
            assert.deepEqual(found, want, `${feed} of ${encoding}`);
            const recoder = new Recoder(encoding, "utf-8");
            const made = [...parts, null].map((part) => {
                let it;
                const put = () => (it = part ? recoder.feed(part) : recoder.finish());
                if (nearTheEnd(chance(40), put)) put();
                return hexOf(it);
            });
            assert.equal(made.join(""), hexOf(recode(Uint8Array.from(parts.flatMap((it) => [...it])), encoding, "utf-8")));
        }
    }
    assert.ok(thrown > 100);
});
