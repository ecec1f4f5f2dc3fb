// The calls in Node, which read the module next to this file, or next to a bundle of this file.
import { readFileSync } from "node:fs";
import { readFile } from "node:fs/promises";
import { pathToFileURL } from "node:url";
import core from "./core.cjs";

// (a bundle that is CommonJS has no import.meta.url)
const here = import.meta.url ?? pathToFileURL(`${__dirname}/`);

// Reads and compiles the module once, whether `import`, `require` or `load` asks first.
export const calls = () => core.once(() => {
    const module = new WebAssembly.Module(readFileSync(new URL(core.hasVectors() ? "noddychest-simd.wasm" : "noddychest.wasm", here)));
    return core.callsOf(core.codecIn(new WebAssembly.Instance(module), module));
});

// (Node's fetch reads no files)
const get = async (source) => (/^file:/i.test(core.addressOf(source)) ? { ok: true, arrayBuffer: () => readFile(new URL(core.addressOf(source))) } : fetch(source));

export const load = async (source) => (source === undefined ? calls() : core.callsOf(await core.codecOf(source, get)));
