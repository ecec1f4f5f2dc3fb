// Input that comes in parts: pieces, invalid bytes and text with offsets from the first byte of all.
import assert from "node:assert/strict";
import { createReadStream, mkdtempSync, rmSync, writeFileSync } from "node:fs";
import { tmpdir } from "node:os";
import test from "node:test";
import vm from "node:vm";
import { MessageChannel } from "node:worker_threads";
import { FaultError, decode, faults, pieces, streamFaults, streamPieces, streamText, textStream } from "noddychest";
import { chances, damaged, divided, hexOf, ofHex } from "./help.js";

const FORMS = ["utf-8", "utf-16le", "utf-16be"];
const hasStreams = typeof ReadableStream !== "undefined";
const skip = hasStreams ? false : "this node has no ReadableStream";
const all = async (given) => {
    const found = [];
    for await (const it of given) found.push(it);
    return found;
};

// Takes the memory of a buffer away, as postMessage does with what is transferred.
function detach(buffer) {
    const { port1, port2 } = new MessageChannel();
    port1.postMessage(null, [buffer]);
    port1.close();
    port2.close();
}

const streamOf = (parts) => new ReadableStream({ start: (it) => (parts.forEach((part) => it.enqueue(part)), it.close()) });

test("however the input is divided, the pieces are those of the whole", async () => {
    const chance = chances(21);
    for (let i = 0; i < 300; i++) {
        const encoding = FORMS[chance(3)];
        const bytes = damaged(chance, chance(i % 100 ? 30 : 30000));
        const parts = divided(chance, bytes, i % 100 ? 4 : 9000);
        assert.deepEqual(await all(streamPieces(parts, encoding)), [...pieces(bytes, encoding)], `${encoding} ${hexOf(bytes)}`);
        assert.deepEqual(await all(streamFaults(parts, encoding)), [...faults(bytes, encoding)]);
        for (const errors of ["replace", "lossy"]) {
            const told = await all(streamText(parts, encoding, { errors }));
            const want = decode(bytes, encoding, { errors });
            assert.equal(told.map((it) => it.text).join(""), want.text);
            assert.deepEqual(told.flatMap((it) => it.faults), want.faults);
        }
    }
});

test("parts of one byte: a piece comes as soon as it is decided", async () => {
    const log = [];
    async function* bytes() {
        for (const it of ofHex("68c3a9e28241f09f98")) {
            log.push(it.toString(16));
            yield Uint8Array.of(it);
        }
    }
    for await (const { offset, char, error } of streamPieces(bytes())) log.push(`${offset}:${char ?? error}`);
    assert.deepEqual(log, ["68", "0:h", "c3", "a9", "1:é", "e2", "82", "41", "3:InterruptedSequence", "4:UnexpectedContinuationByte", "5:A", "f0", "9f", "98",
        "6:TooFewBytes", "7:UnexpectedContinuationByte", "8:UnexpectedContinuationByte"]);
});

test("text comes with the offset at which it begins", async () => {
    const told = await all(streamText(["61c3", "a962", "ff", "", "63e2"].map(ofHex)));
    assert.deepEqual(told.map((it) => [it.offset, it.text, it.faults.map((fault) => fault.offset)]), [[0, "a", []], [1, "éb", []], [4, "\ufffd", [4]], [5, "c", []], [6, "\ufffd", [6]]]);
    const [one, two] = await all(streamText(["3dd8", "00de41"].map(ofHex), "utf-16le"));
    assert.deepEqual([one, two].map((it) => [it.offset, it.text]), [[0, "😀"], [4, "\ufffd"]]);
    assert.deepEqual(await all(streamText([])), []);
});

test("strict: the text before the first invalid byte, and then an error", async () => {
    const chance = chances(22);
    for (let i = 0; i < 500; i++) {
        const encoding = FORMS[chance(3)];
        const bytes = damaged(chance, chance(12));
        const [found] = [...faults(bytes, encoding)];
        let [text, error] = ["", null];
        try {
            for await (const it of streamText(divided(chance, bytes, 3), encoding, { errors: "strict" })) text += it.text;
        } catch (it) {
            assert.ok(it instanceof FaultError);
            error = it;
        }
        assert.deepEqual(error && [error.offset, error.length, error.error], found ? [found.offset, found.length, found.error] : null);
        assert.equal(text, decode(bytes.subarray(0, found?.offset ?? bytes.length), encoding).text);
    }
});

test("a ReadableStream, one that is left, and one that fails", { skip }, async () => {
    assert.deepEqual((await all(streamPieces(streamOf(["41e2", "82ac", "ff"].map(ofHex))))).map((it) => it.char ?? it.error), ["A", "€", "NonUtf8Byte"]);
    let cancelled = 0;
    const endless = new ReadableStream({ pull: (it) => it.enqueue(ofHex("4142")), cancel: () => void cancelled++ });
    for await (const it of streamPieces(endless)) if (it.offset > 5) break;
    assert.equal(cancelled, 1);
    assert.equal(endless.locked, false);
    const failing = new ReadableStream({ start: (it) => it.enqueue(ofHex("41")), pull: (it) => it.error(new Error("the line is cut")) });
    await assert.rejects(all(streamText(failing)), { message: "the line is cut" });
    assert.equal(failing.locked, false);
    const taken = streamOf([ofHex("41")]);
    taken.getReader();
    await assert.rejects(all(streamFaults(taken)), TypeError);
    if (typeof Response !== "undefined") assert.deepEqual((await all(streamText(new Response(ofHex("41ff")).body))).map((it) => it.text).join(""), "A\ufffd");
});

test("a stream of Node, in parts of three bytes", async () => {
    const folder = mkdtempSync(`${tmpdir()}/noddychest-`);
    try {
        const bytes = damaged(chances(23), 4000);
        writeFileSync(`${folder}/given`, bytes);
        assert.deepEqual(await all(streamFaults(createReadStream(`${folder}/given`, { highWaterMark: 3 }))), [...faults(bytes)]);
    } finally {
        rmSync(folder, { recursive: true });
    }
});

test("parts of other kinds, of other realms, and parts that are used again", async () => {
    const given = [new DataView(ofHex("41").buffer), ofHex("c3").buffer, new Uint16Array(ofHex("a942").buffer), vm.runInNewContext("new Uint8Array([0xff])")];
    if (typeof SharedArrayBuffer === "function") given.push(new SharedArrayBuffer(1));
    assert.deepEqual((await all(streamPieces(given))).map((it) => it.char ?? it.error).slice(0, 4), ["A", "é", "B", "NonUtf8Byte"]);
    // (one buffer for all parts)
    const room = new Uint8Array(2);
    async function* parts() {
        for (const it of ["41e2", "82ac", "c3a9"]) {
            room.set(ofHex(it));
            yield room;
        }
    }
    assert.equal((await all(streamText(parts()))).map((it) => it.text).join(""), "A€é");
});

test("what is no stream, and parts that are no bytes", async () => {
    for (const it of [null, undefined, 1, {}, ofHex("41"), new DataView(new ArrayBuffer(1))]) {
        for (const call of [streamPieces, streamFaults, streamText]) await assert.rejects(all(call(it)), { name: "TypeError", message: /a stream is a ReadableStream/ });
    }
    for (const it of ["text", ["text"], [1], [null]]) await assert.rejects(all(streamPieces(it)), { name: "TypeError", message: /bytes are a Uint8Array/ });
    await assert.rejects(all(streamPieces([], "latin1")), RangeError);
    await assert.rejects(all(streamText([], "utf-8", { errors: "ignore" })), RangeError);
});

test("two streams at the same time", async () => {
    const chance = chances(24);
    const inputs = [damaged(chance, 3000), damaged(chance, 3000)];
    const found = await Promise.all(inputs.map((it) => all(streamPieces(divided(chance, it, 5)))));
    assert.deepEqual(found, inputs.map((it) => [...pieces(it)]));
});

test("two iterations of one stream: who begins first has it, and of other iterables each part comes once", { skip }, async () => {
    for (const call of [streamPieces, streamFaults, streamText]) {
        const stream = streamOf(["41ff", "42ff"].map(ofHex));
        const [one, two] = [call(stream), call(stream)];
        assert.equal(stream.locked, false);
        assert.equal((await one.next()).done, false);
        await assert.rejects(two.next(), TypeError);
        assert.equal((await two.next()).done, true);
        assert.ok((await all(one)).length);
        assert.equal(stream.locked, false);
        assert.deepEqual(await all(call(stream)), []);
    }
    const parts = ["61", "62", "63", "64"].map(ofHex)[Symbol.iterator]();
    const [one, two, found] = [streamPieces(parts), streamPieces(parts), []];
    for (const it of [one, two, one, two, one, two]) found.push((await it.next()).value);
    assert.deepEqual(found.map((it) => it && [it.offset, it.char]), [[0, "a"], [0, "b"], [1, "c"], [1, "d"], undefined, undefined]);
});

test("asked for many steps at once, and by two at a time: each piece comes once, in order", { skip }, async () => {
    const want = [...pieces(ofHex("41e282acff42"))];
    const given = streamPieces(streamOf(["41e2", "82", "acff42"].map(ofHex)));
    const told = await Promise.all(Array.from({ length: 8 }, () => given.next()));
    assert.deepEqual(told.map((it) => it.value), [...want, undefined, undefined, undefined, undefined]);
    const [shared, found] = [streamPieces(["41e2", "82", "acff42"].map(ofHex)), []];
    const take = async () => {
        for await (const it of shared) found.push(it);
    };
    await Promise.all([take(), take()]);
    assert.deepEqual(found, want);
});

test("return and throw: before the first step, between two, while one is asked for, and twice", { skip }, async () => {
    for (const call of [streamPieces, streamFaults, streamText]) {
        let [cancelled, pulled] = [0, 0];
        const endless = () => new ReadableStream({ pull: (it) => (pulled++, it.enqueue(ofHex("ffff"))), cancel: () => void cancelled++ }, { highWaterMark: 0 });
        // (one that never began has not taken the stream)
        const unbegun = endless();
        assert.deepEqual(await call(unbegun).return(), { done: true, value: undefined });
        assert.deepEqual([unbegun.locked, cancelled, pulled], [false, 0, 0]);
        const left = endless();
        const given = call(left);
        await given.next();
        assert.equal(left.locked, true);
        assert.equal((await given.return()).done, true);
        assert.equal((await given.return()).done, true);
        assert.equal((await given.next()).done, true);
        assert.deepEqual([left.locked, cancelled, pulled], [false, 1, 1]);
        const thrown = endless();
        const other = call(thrown);
        await other.next();
        await assert.rejects(other.throw(new Error("enough")), { message: "enough" });
        assert.deepEqual([thrown.locked, cancelled, (await other.next()).done], [false, 2, true]);
        // (asked for while a step is on its way, return waits for it)
        const busy = endless();
        const third = call(busy);
        const [step, end] = await Promise.all([third.next(), third.return()]);
        assert.deepEqual([step.done, end.done, busy.locked, cancelled], [false, true, false, 3]);
    }
});

test("a reader that fails, whose cancel fails, and a part that is no bytes: the error comes, and the stream is free", { skip }, async () => {
    for (const call of [streamPieces, streamFaults, streamText]) {
        let reasons = 0;
        const rude = new ReadableStream({ pull: (it) => it.enqueue(ofHex("ff")), cancel: () => (reasons++, Promise.reject(new Error("no"))) });
        for await (const it of call(rude)) if (it) break;
        assert.deepEqual([rude.locked, reasons], [false, 1]);
        const mixed = new ReadableStream({ start: (it) => ([ofHex("ff"), "text", ofHex("41")].forEach((part) => it.enqueue(part)), it.close()), cancel: () => void reasons++ });
        await assert.rejects(all(call(mixed)), { name: "TypeError", message: /bytes are a Uint8Array/ });
        assert.deepEqual([mixed.locked, reasons], [false, 2]);
        const failing = { getReader: () => ({ read: () => Promise.reject(new Error("cut")), cancel: () => Promise.reject(new Error("no")), releaseLock: () => void reasons++ }) };
        await assert.rejects(all(call(failing)), { message: "cut" });
        assert.equal(reasons, 3);
        for (const cancel of [() => {}, () => { throw new Error("no"); }]) {
            await assert.rejects(all(call({ getReader: () => ({ ...failing.getReader(), cancel }) })), { message: "cut" });
        }
        assert.equal(reasons, 5);
        await assert.rejects(all(call({ getReader: () => { throw new Error("taken"); } })), { message: "taken" });
    }
    let closed = 0;
    const parts = { async *[Symbol.asyncIterator]() {
        try {
            yield ofHex("ff");
            yield "text";
        } finally {
            closed++;
        }
    } };
    await assert.rejects(all(streamPieces(parts)), { name: "TypeError", message: /bytes are a Uint8Array/ });
    for await (const it of streamFaults(parts)) if (it) break;
    assert.equal(closed, 2);
});

test("parts that are changed, detached, grown or made smaller while a piece is at hand", async () => {
    const spoils = { changed: (it) => new Uint8Array(it).fill(0xff), detached: detach };
    if ("resize" in ArrayBuffer.prototype) Object.assign(spoils, { grown: (it) => it.resize(20000), "made smaller": (it) => it.resize(1) });
    for (const [name, spoil] of Object.entries(spoils)) {
        const give = (it) => {
            const buffer = name !== "changed" && "resize" in ArrayBuffer.prototype ? new ArrayBuffer(it.length, { maxByteLength: 20000 }) : new ArrayBuffer(it.length);
            new Uint8Array(buffer).set(it);
            return buffer;
        };
        for (const call of [streamPieces, streamFaults]) {
            const [bytes, found] = [damaged(chances(25), 9000), []];
            const parts = [give(bytes.subarray(0, 4999)), give(bytes.subarray(4999))];
            for await (const it of call(parts)) {
                if (!found.length) spoil(parts[0]);
                found.push(it);
            }
            assert.deepEqual(found, [...(call === streamPieces ? pieces : faults)(bytes)], name);
        }
    }
    if (typeof SharedArrayBuffer !== "function") return;
    const [shared, found] = [new SharedArrayBuffer(9000), []];
    for await (const it of streamPieces([shared])) {
        found.push(it.char);
        if (found.length === 1) new Uint8Array(shared).fill(0xff);
    }
    assert.deepEqual([found.length, new Set(found).size, found[8999]], [9000, 1, "\0"]);
});

test("offsets from 2^32 on", async () => {
    const [zeros, parts] = [new Uint8Array(16 << 20), 256];
    const last = ofHex("41ffc3a9e282");
    async function* given() {
        for (let i = 0; i < parts; i++) yield zeros;
        yield last;
    }
    const [base, want] = [2 ** 32, [...faults(last)]];
    assert.deepEqual(await all(streamFaults(given())), want.map((it) => ({ ...it, offset: base + it.offset })));
    const { offset, text } = (await all(streamText((async function* () {
        for (let i = 0; i < 2; i++) yield last;
    })())))[1];
    assert.deepEqual([offset, text], [4, "\ufffd\ufffdA\ufffdé"]);
});

test("textStream: however the input is divided, the strings and the faults are those of the whole", { skip }, async () => {
    const chance = chances(26);
    for (let i = 0; i < 300; i++) {
        const [encoding, errors] = [FORMS[chance(3)], ["replace", "lossy"][chance(2)]];
        const bytes = damaged(chance, chance(i % 100 ? 30 : 30000));
        const [found, want] = [[], decode(bytes, encoding, { errors })];
        const texts = await all(streamOf(divided(chance, bytes, i % 100 ? 4 : 9000)).pipeThrough(textStream(encoding, { errors, onFault: (it) => found.push(it) })));
        assert.equal(texts.join(""), want.text, `${encoding} ${errors} ${hexOf(bytes)}`);
        assert.deepEqual(found, want.faults);
        assert.ok(texts.every((it) => typeof it === "string" && it.length));
    }
    const whole = "\ufeff né€😀";
    const texts = await all(streamOf(Array.from(new TextEncoder().encode(whole), (it) => Uint8Array.of(it))).pipeThrough(textStream()));
    assert.deepEqual(texts, [...whole]);
});

test("textStream gives what TextDecoderStream gives", { skip: typeof TextDecoderStream === "undefined" && "this node has no TextDecoderStream" }, async () => {
    const chance = chances(27);
    for (let i = 0; i < 200; i++) {
        const [encoding, bytes] = [FORMS[chance(3)], damaged(chance, chance(40))];
        const parts = divided(chance, bytes, 3);
        const [ours, theirs] = [textStream(encoding, { errors: "lossy" }), new TextDecoderStream(encoding, { ignoreBOM: true })];
        const texts = await Promise.all([ours, theirs].map((it) => all(streamOf(parts).pipeThrough(it))));
        assert.equal(texts[0].join(""), texts[1].join(""), `${encoding} ${hexOf(bytes)}`);
    }
});

test("textStream, strict: the text before the first invalid byte is not lost, also at the end and with a slow reader", { skip }, async () => {
    const chance = chances(28);
    for (let i = 0; i < 300; i++) {
        const [encoding, bytes] = [FORMS[chance(3)], damaged(chance, chance(12))];
        const [found] = [...faults(bytes, encoding)];
        const { readable, writable } = textStream(encoding, { errors: "strict", onFault: () => assert.fail() });
        const sending = streamOf(divided(chance, bytes, 3)).pipeTo(writable).then(() => null, (it) => it);
        if (i % 2) await new Promise((go) => setTimeout(go));
        let [text, error] = ["", null];
        try {
            for await (const it of readable) text += it;
        } catch (it) {
            error = it;
        }
        assert.equal(text, decode(bytes.subarray(0, found?.offset ?? bytes.length), encoding).text);
        assert.deepEqual(error && [error.constructor, error.offset, error.error], found ? [FaultError, found.offset, found.error] : null);
        // (what is at the end is read after all is written)
        assert.ok([null, error].includes(await sending));
    }
});

test("textStream tells those who write, and those who gave the bytes, of what failed", { skip }, async () => {
    const strict = textStream("utf-8", { fatal: true });
    const [writer, reader] = [strict.writable.getWriter(), strict.readable.getReader()];
    writer.write(ofHex("4142ff43")).catch(() => {});
    assert.deepEqual(await reader.read(), { done: false, value: "AB" });
    await assert.rejects(reader.read(), (it) => it instanceof FaultError && it.offset === 2);
    await assert.rejects(writer.write(ofHex("41")), FaultError);

    const reasons = [];
    const endless = () => new ReadableStream({ pull: (it) => it.enqueue(ofHex("41ff")), cancel: (it) => void reasons.push(it?.message) });
    const left = endless().pipeThrough(textStream()).getReader();
    assert.equal((await left.read()).value, "A\ufffd");
    await left.cancel(new Error("enough"));
    await assert.rejects(all(endless().pipeThrough(textStream("utf-8", { onFault: () => { throw new Error("no fault is allowed"); } }))), { message: "no fault is allowed" });
    await assert.rejects(all(endless().pipeThrough(textStream("utf-8", { fatal: true }))), FaultError);
    await new Promise((go) => setTimeout(go));
    assert.deepEqual(reasons, ["enough", "no fault is allowed", "noddychest: invalid UTF-8 at offset 1: NonUtf8Byte"]);

    const failing = new ReadableStream({ start: (it) => it.enqueue(ofHex("41")), pull: (it) => it.error(new Error("the line is cut")) });
    await assert.rejects(all(failing.pipeThrough(textStream())), { message: "the line is cut" });
    for (const it of ["text", 5, null, undefined]) await assert.rejects(all(streamOf([it]).pipeThrough(textStream())), { name: "TypeError", message: /bytes are a Uint8Array/ });
});

test("textStream that is left while it waits: nothing more is told, and who writes learns why", { skip }, async () => {
    const { readable, writable } = textStream("utf-8", { onFault: () => assert.fail() });
    const [writer, reader] = [writable.getWriter(), readable.getReader()];
    writer.closed.catch(() => {});
    const [, first] = await Promise.all([writer.write(ofHex("61e2")), reader.read()]);
    assert.equal(first.value, "a");
    const waiting = reader.read();
    await new Promise((go) => setTimeout(go));
    await reader.cancel(new Error("enough"));
    assert.deepEqual(await waiting, { done: true, value: undefined });
    await assert.rejects(writer.write(ofHex("61")), { message: "enough" });
    // (and nothing is read ahead)
    const [ahead, done] = [textStream().writable.getWriter(), []];
    ahead.write(ofHex("61")).then(() => done.push(1));
    await new Promise((go) => setTimeout(go));
    assert.deepEqual(done, []);
});

test("textStream: what it is given is looked at at once", () => {
    for (const it of [null, 5, "replace"]) assert.throws(() => textStream("utf-8", it), { name: "TypeError", message: /options are an object/ });
    for (const it of [null, 5, "call", {}]) assert.throws(() => textStream("utf-8", { onFault: it }), { name: "TypeError", message: /onFault is a function/ });
    assert.throws(() => textStream("latin1"), RangeError);
    assert.throws(() => textStream("utf-8", { errors: "ignore" }), RangeError);
});
