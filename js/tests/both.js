// Prints for how many of COUNT inputs two modules return different results: both.js ONE OTHER COUNT. Each input is converted between all
// encodings, lossy, strict and by tables, whole and in two parts, and split from the front, from both ends, at each offset and in two parts.
import { readFileSync } from "node:fs";
import { Codec, DROP, LOSSY, REPLACE, STRICT, WINDOWS_1252, joined, repairOf } from "../codec.js";
import { chances, damaged } from "./help.js";

const load = async (path) => new Codec((await WebAssembly.instantiate(readFileSync(new URL(path, import.meta.url)))).instance.exports);
const codecs = await Promise.all(process.argv.slice(2, 4).map(load));
const count = Number(process.argv[4]);
const chance = chances(5);

// What a recoder makes of two parts, and where a strict one stops.
function inParts(codec, bytes, cut, from, to, mode) {
    const [state, chunks] = [codec.newRecoder(from, to), []];
    const stops = [bytes.subarray(0, cut), bytes.subarray(cut)].map((part) => codec.feed(state, part, chunks, { mode }));
    return [stops, codec.finish(state, chunks, mode), codec.replacedBy(state), [...joined(chunks)]];
}

// The pieces that a decoder gives of two parts, some at a time, and what it is like after each call.
function located(codec, bytes, cut, form, most) {
    const found = [];
    const put = ({ state, read, isFull, row }) => {
        found.push(state.held, state.offset, read, isFull, Buffer.from(row.view.buffer).toString("latin1"));
        return { state, read, isFull };
    };
    let did = { state: codec.newDecoder(form, 2 ** 32 - 9) };
    for (const part of [bytes.subarray(0, cut), bytes.subarray(cut)]) {
        codec.fill(part);
        for (let from = 0, isFull = true; isFull; [from, isFull] = [from + did.read, did.isFull]) did = put(codec.decode(did.state, from, most));
    }
    put(codec.decodeLast(did.state));
    return found;
}

const FORMS = [0, 1, 2];
const WAYS = [REPLACE, LOSSY, STRICT, DROP, WINDOWS_1252, repairOf(Array.from({ length: 128 }, (_, at) => [at, 0xe9, 0xffff, 0xd800][at % 4]))];

function told(codec, bytes, word, cut) {
    codec.fill(bytes);
    const [run, left] = [codec.pieces(0, bytes.length), { front: 0, back: bytes.length }];
    const walk = [...word].map((it) => codec.step(it, left));
    const streamed = run.map((it) => codec.streamedAt(it.place));
    const ends = [codec.validUpTo(), codec.boundary(bytes.length >> 1), codec.formOfBom(), ...FORMS.map((form) => codec.undecidedLength(form))];
    const pairs = FORMS.flatMap((from) => FORMS.map((to) => [from, to]));
    const recoded = pairs.map(([from, to]) => WAYS.map((mode) => inParts(codec, bytes, cut, from, to, mode)));
    const whole = pairs.map(([from, to]) => [...joined(codec.recode(from, to, bytes))]);
    const parts = FORMS.map((form) => located(codec, bytes, cut, form, 1 + (bytes.length % 40)));
    return JSON.stringify([run, walk, streamed, ends, codec.names, recoded, whole, parts]);
}

const text = new TextEncoder().encode("Hello, world. Grüße, déjà vu. Съешь ещё булок. 天地玄黄宇宙洪荒. 😀🎉🌍 नमस्ते. ".repeat(16));
let differ = 0;
for (let i = 0; i < count; i++) {
    const rare = i % 3 ? undefined : damaged(chance, chance(9));
    const bytes = rare ? Uint8Array.from([...text.subarray(chance(300), 300 + chance(900)), ...rare, ...text.subarray(0, chance(400))]) : damaged(chance, chance(i % 100 ? 24 : 3000));
    const given = [bytes, Array.from({ length: 6 }, () => "FB"[chance(2)]).join(""), chance(bytes.length + 1)];
    differ += told(codecs[0], ...given) !== told(codecs[1], ...given);
}
console.log(`${differ} of ${count} differ`);
