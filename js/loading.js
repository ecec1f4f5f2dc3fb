// Makes a codec of what a caller has: bytes, a compiled module, a response, or the address of a file.
import { bytesOf, isBytes } from "./bytes.js";
import { Codec } from "./codec.js";

function isModule(source) {
    try {
        return Array.isArray(WebAssembly.Module.exports(source));
    } catch {
        return false;
    }
}

// The address that a string, a URL, a Request or a Response has.
export const addressOf = (source) => (typeof source === "string" ? source : source?.href ?? source?.url);

// The bytes of a response, or of the file at an address, which `get` asks for.
async function fetched(source, get) {
    const address = addressOf(source);
    if (typeof address !== "string") throw new TypeError("noddychest: its module of WebAssembly is bytes, a WebAssembly.Module, a Response, a Request or a URL");
    try {
        const response = typeof source.arrayBuffer === "function" && "ok" in source ? source : await get(typeof source.href === "string" ? address : source);
        if (!response.ok) throw new Error(response.status);
        return await response.arrayBuffer();
    } catch (cause) {
        throw new Error(`noddychest: ${address || "the response"} did not load (${cause.message})`);
    }
}

// The module that a caller gives, compiled.
export async function moduleOf(source, get = (address) => fetch(address)) {
    const given = await source;
    const module = isModule(given) ? given : await WebAssembly.compile(isBytes(given) ? new Uint8Array(bytesOf(given)) : await fetched(given, get));
    if (WebAssembly.Module.exports(module).some(({ name }) => name === "nody_version")) return module;
    throw new TypeError("noddychest: this module of WebAssembly is not one of the package's");
}

// The codec of an instance. Another one of the same module takes its place once it is broken.
export const codecIn = (instance, module) => new Codec(instance.exports, () => new WebAssembly.Instance(module).exports);

export async function codecOf(source, get) {
    const module = await moduleOf(source, get);
    return codecIn(await WebAssembly.instantiate(module), module);
}
