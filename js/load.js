// For browsers and other hosts that fetch. Nothing is awaited while this is imported: so a worker hears every message, and a service worker
// starts.
import { callsOf } from "./api.js";
import { hasVectors } from "./codec.js";
import { codecOf } from "./loading.js";

// The calls over the module next to this file, or next to a bundle of this file.
let besides = null;

// (bundlers know this form of an address)
function addressBeside() {
    try {
        return hasVectors() ? new URL("noddychest-simd.wasm", import.meta.url) : new URL("noddychest.wasm", import.meta.url);
    } catch {
        throw new Error('noddychest: here load has to be given the address of its module of WebAssembly, as load("/noddychest.wasm"): a script that is no module has no address');
    }
}

// Loads the module once. If that fails, the next call tries it again.
function loadBeside() {
    besides ??= codecOf(addressBeside()).then(callsOf).catch((error) => {
        besides = null;
        throw error;
    });
    return besides;
}

export const load = async (source) => (source === undefined ? loadBeside() : callsOf(await codecOf(source)));
