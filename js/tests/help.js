// What the tests share: stored vectors, inputs by chance in which damage is frequent, their parts, and whether a command is there.
import { spawnSync } from "node:child_process";
import { readFileSync } from "node:fs";

const top = new URL("../../", import.meta.url);

export const rows = (name) =>
    readFileSync(new URL(`crates/conformance/data/${name}`, top), "ascii").split("\n").filter((it) => it && !it.startsWith("#")).map((it) => it.split("|"));

// Why a test that asks for a command is left out, or false.
export const needs = (command) => (spawnSync(command, ["--version"]).status === 0 ? false : `no ${command} here`);

export const ofHex = (text) => Uint8Array.from(text.match(/../g) ?? [], (it) => parseInt(it, 16));
export const hexOf = (bytes) => Buffer.from(bytes).toString("hex");

// A number below `n`; the same ones for the same seed.
export function chances(seed) {
    return (n) => {
        seed = (Math.imul(seed, 1664525) + 1013904223) >>> 0;
        return Math.floor((seed / 2 ** 32) * n);
    };
}

const EDGES = [0x00, 0x41, 0x7f, 0x80, 0x8f, 0x90, 0x9f, 0xa0, 0xbf, 0xc0, 0xc1, 0xc2, 0xdf, 0xe0, 0xe2, 0xec, 0xed, 0xef, 0xf0, 0xf1, 0xf4, 0xf5, 0xff];
const CHARS = ["a", "é", "я", "你", "😀", "\ud7ff", "\ue000", "\uffff", "\u{10ffff}"].map((it) => new TextEncoder().encode(it));

export function damaged(chance, len) {
    const found = [];
    while (found.length < len) {
        if (chance(3)) found.push(...CHARS[chance(CHARS.length)]);
        else found.push(EDGES[chance(EDGES.length)]);
    }
    return Uint8Array.from(found.slice(0, len));
}

// Bytes in random parts of at most `most` bytes; a part can be empty.
export function divided(chance, bytes, most) {
    const parts = [];
    for (let at = 0; at < bytes.length; ) {
        const len = chance(most + 1);
        parts.push(bytes.slice(at, at + len));
        at += len;
    }
    return parts;
}
