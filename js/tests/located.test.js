// Lines and columns of invalid bytes, whole and in parts, counted from the pieces.
import assert from "node:assert/strict";
import test from "node:test";
import { faults, located, pieces, recode, streamFaults, streamLocated } from "noddychest";
import { chances, damaged, divided, hexOf } from "./help.js";

const FORMS = ["utf-8", "utf-16le", "utf-16be"];

// What `located` has to give: each fault, with the position that all pieces before it make.
function wanted(bytes, encoding, found = [...faults(bytes, encoding)]) {
    const all = [...pieces(bytes, encoding)];
    let [line, column, byteColumn, k] = [1, 1, 1, 0];
    return found.map(({ offset, length, error }) => {
        for (; all[k].offset < offset; k++) {
            if (all[k].char === "\n") [line, column, byteColumn] = [line + 1, 1, 1];
            else [column, byteColumn] = [column + 1, byteColumn + all[k].length];
        }
        return { offset, line, column, byteColumn, length, error };
    });
}

// Damaged text with line feeds.
function lines(chance, len, encoding) {
    const feed = { "utf-8": [10], "utf-16le": [10, 0], "utf-16be": [0, 10] }[encoding];
    const found = [];
    while (found.length < len) {
        if (encoding !== "utf-8" && found.length % 2) found.push(chance(256));
        found.push(...(chance(4) ? damaged(chance, 1 + chance(9)) : feed));
    }
    return Uint8Array.from(found);
}

const gathered = async (stream) => {
    const found = [];
    for await (const it of stream) found.push(it);
    return found;
};

test("each invalid byte has its line and its columns", () => {
    const chance = chances(71);
    for (let i = 0; i < 1500; i++) {
        const encoding = FORMS[i % 3];
        const bytes = lines(chance, chance(i % 50 ? 40 : 20000), encoding);
        assert.deepEqual([...located(bytes, encoding)], wanted(bytes, encoding), `${encoding} ${bytes.length < 99 ? hexOf(bytes) : ""}`);
    }
    assert.deepEqual([...located(Uint8Array.of(0x61, 10, 0xc3, 0xa9, 0xff))], [{ offset: 4, line: 2, column: 2, byteColumn: 3, length: 1, error: "NonUtf8Byte" }]);
    assert.deepEqual([...located(new Uint8Array(0))], []);
});

test("they do not depend on how the input is divided", async () => {
    const chance = chances(72);
    for (let i = 0; i < 200; i++) {
        const encoding = FORMS[i % 3];
        const bytes = lines(chance, chance(i % 40 ? 40 : 9000), encoding);
        const found = await gathered(streamFaults([bytes], encoding));
        for (const most of [1, 3, 500]) {
            assert.deepEqual(await gathered(streamLocated(divided(chance, bytes, most), encoding)), wanted(bytes, encoding, found), `${encoding} ${hexOf(bytes)}`);
        }
    }
});

test("on both sides of a megabyte, in each encoding", async () => {
    for (const encoding of FORMS) {
        const unit = encoding === "utf-8" ? 1 : 2;
        const text = "ab\u00e9\n".repeat(300_000);
        const bytes = recode(new TextEncoder().encode(text), "utf-8", encoding);
        for (let at = (1 << 20) - 12; at < (1 << 20) + 12; at += 6) bytes.set(unit === 1 ? [0xff] : encoding === "utf-16le" ? [0, 0xdc] : [0xdc, 0], at);
        const want = wanted(bytes, encoding);
        assert.deepEqual([...located(bytes, encoding)], want);
        assert.deepEqual(await gathered(streamLocated([bytes.subarray(0, 700_001), bytes.subarray(700_001)], encoding)), want);
    }
});

test("two of them, and other calls in between, do not disturb each other", () => {
    const chance = chances(73);
    for (let i = 0; i < 40; i++) {
        const all = FORMS.map((encoding) => [lines(chance, chance(9000), encoding), encoding]);
        const runs = all.map(([bytes, encoding]) => located(bytes, encoding));
        const found = all.map(() => []);
        for (let open = 3; open; ) {
            open = 0;
            runs.forEach((run, k) => {
                const { done, value } = run.next();
                if (!done) found[k].push(value);
                open += !done;
                recode(Uint8Array.of(0xff, 0x41), "utf-8", "utf-16be");
            });
        }
        all.forEach(([bytes, encoding], k) => assert.deepEqual(found[k], wanted(bytes, encoding)));
    }
});

test("a buffer that is detached, and what is no data", () => {
    const bytes = new Uint8Array(9000).fill(0xff);
    const run = located(bytes);
    assert.equal(run.next().value.line, 1);
    structuredClone(bytes, { transfer: [bytes.buffer] });
    assert.throws(() => [...run], TypeError);
    assert.throws(() => located("text"), TypeError);
    assert.throws(() => located(bytes, "latin1"), RangeError);
});
