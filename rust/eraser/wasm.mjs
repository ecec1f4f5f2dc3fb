// The library for C as WebAssembly compared with TextDecoder: node rust/eraser/wasm.mjs MODULE. The last line is 'N passed, M failed'.
import { readFileSync } from "node:fs";

const { instance } = await WebAssembly.instantiate(readFileSync(process.argv[2]), { env: {} });
const c = instance.exports;
const BYTES = 1 << 16;
const place = (c.memory.grow(8) << 16) >>> 0;
const [input, output, numbers, recoder] = [place, place + BYTES, place + 5 * BYTES, place + 6 * BYTES];
const view = () => new DataView(c.memory.buffer);
const at = (start, len) => new Uint8Array(c.memory.buffer, start, len);

let seed = 1;
const below = (n) => (seed = (Math.imul(seed, 1103515245) + 12345) >>> 0) % n;
const SAMPLES = ["a", "z0 ", "é", "жз", "中文", "\u{1F600}", "\u{10FFFF}", "\uFFFD"].map((it) => new TextEncoder().encode(it));
const DAMAGE = [[0x80], [0xff], [0xe2, 0x82], [0xed, 0xa0, 0x80], [0xf4, 0x90], [0xc0]];

/** Text of one script or several, and in every second one some damage. */
function some() {
    const [length, width, isDamaged] = [below(600), 1 + below(SAMPLES.length), below(2)];
    const first = below(SAMPLES.length);
    const out = [];
    while (out.length < length) {
        out.push(...(isDamaged && below(60) === 0 ? DAMAGE[below(DAMAGE.length)] : SAMPLES[(first + below(width)) % SAMPLES.length]));
    }
    return Uint8Array.from(out);
}

/** Transcodes the bytes in one call, and what is held after it. */
function recode(from, to, bytes) {
    at(input, bytes.length).set(bytes);
    c.nody_recoder(recoder, from, to);
    const fed = c.nody_recoder_feed(recoder, input, bytes.length, output, 4 * BYTES, numbers, numbers + 8);
    const written = view().getUint32(numbers + 8, true);
    const ended = c.nody_recoder_finish(recoder, output + written, 4 * BYTES - written, numbers + 8);
    return fed === 0 && ended === 0 ? at(output, written + view().getUint32(numbers + 8, true)).slice() : null;
}

/** How many bytes are valid, as TextDecoder sees it. */
function validUpTo(bytes) {
    let [low, high] = [0, bytes.length];
    while (low < high) {
        const middle = (low + high + 1) >> 1;
        try {
            new TextDecoder("utf-8", { fatal: true, ignoreBOM: true }).decode(bytes.subarray(0, middle), { stream: true });
            low = middle;
        } catch {
            high = middle - 1;
        }
    }
    // (what it would wait for is not valid yet)
    let end = low;
    while (end > 0) {
        try {
            new TextDecoder("utf-8", { fatal: true, ignoreBOM: true }).decode(bytes.subarray(0, end));
            return end;
        } catch {
            end -= 1;
        }
    }
    return 0;
}

const same = (a, b) => a !== null && a.length === b.length && a.every((it, k) => it === b[k]);
let [passed, failed] = [0, 0];
const holds = (is, what) => (is ? (passed += 1) : ((failed += 1), console.log(`FAILED: ${what}`)));
for (let turn = 0; turn < 10_000; turn += 1) {
    const bytes = some();
    at(input, bytes.length).set(bytes);
    const valid = c.nody_utf8_valid_up_to(input, bytes.length) >>> 0;
    holds(valid === validUpTo(bytes), `valid_up_to of ${bytes}: ${valid}`);
    const text = new TextDecoder("utf-8", { ignoreBOM: true }).decode(bytes.subarray(0, valid));
    const units = new Uint8Array(Uint16Array.from({ length: text.length }, (_, k) => text.charCodeAt(k)).buffer);
    holds(same(recode(0, 1, bytes.subarray(0, valid)), units), `UTF-8 to UTF-16LE of ${bytes.subarray(0, valid)}`);
    holds(same(recode(1, 0, units), bytes.subarray(0, valid)), `UTF-16LE to UTF-8 of ${units}`);
}
console.log(`${passed} passed, ${failed} failed`);
process.exitCode = failed ? 1 : 0;
