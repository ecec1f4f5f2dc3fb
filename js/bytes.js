// Bytes of the caller's, as the language itself sees them: also those of another realm, and so that no code of the caller runs.

// A record without what somebody put into Object.prototype, where all others seem to have it.
export const own = (record) => ({ __proto__: null, ...record });

// The built-in methods of an array of bytes, also if somebody has replaced them since.
const ofArray = (name) => Function.prototype.call.bind(Object.getPrototypeOf(Uint8Array.prototype)[name]);
export const [setBytes, partOf, copyOf] = ["set", "subarray", "slice"].map(ofArray);
const valuesOf = ofArray("values");

const getter = (prototype, name) => Object.getOwnPropertyDescriptor(prototype, name).get;
const ARRAY = Object.getPrototypeOf(Uint8Array.prototype);
const arrayName = getter(ARRAY, Symbol.toStringTag);
const [OF_ARRAY, OF_VIEW] = [ARRAY, DataView.prototype].map((it) => ["buffer", "byteOffset", "byteLength"].map((name) => getter(it, name)));
// (before 2023 no buffer could be resized)
const resizable = Object.getOwnPropertyDescriptor(ArrayBuffer.prototype, "resizable")?.get;
const LENGTHS = [ArrayBuffer, ...(typeof SharedArrayBuffer === "function" ? [SharedArrayBuffer] : [])].map((it) => getter(it.prototype, "byteLength"));

// The bytes of a view; it throws if they are not inside its buffer. (An array of such bytes says that it is empty, and `values` throws.)
function bytesOfView(view) {
    const isArray = arrayName.call(view) !== undefined;
    const [buffer, offset, length] = isArray ? OF_ARRAY : OF_VIEW;
    const count = length.call(view);
    if (isArray && count === 0) valuesOf(view);
    return new Uint8Array(buffer.call(view), offset.call(view), count);
}

// The length of a buffer of a kind; undefined of another object.
function lengthOf(buffer, length) {
    try {
        return length.call(buffer);
    } catch {
        return undefined;
    }
}

// The length of a buffer, shared or not; undefined of other objects.
const lengthOfBuffer = (buffer) => LENGTHS.reduce((found, length) => found ?? lengthOf(buffer, length), undefined);

// The bytes of a buffer, which throws if it is detached; undefined of other objects.
function bytesOfBuffer(buffer) {
    const count = lengthOfBuffer(buffer);
    return count === undefined ? undefined : new Uint8Array(buffer, 0, count);
}

// Whether that is a view or a buffer, of bytes that may be gone.
export const isBytes = (data) => ArrayBuffer.isView(data) || lengthOfBuffer(data) !== undefined;

// These bytes, or, if other threads may change them, or their buffer may be resized, a copy. (A TextDecoder of a browser may reject both.)
export function unshared(bytes) {
    const buffer = OF_ARRAY[0].call(bytes);
    return lengthOf(buffer, LENGTHS[0]) === undefined || resizable?.call(buffer) ? new Uint8Array(bytes) : bytes;
}

// Throws where bytes that were there are no more.
export function hold(isThere) {
    if (!isThere) throw new TypeError("noddychest: the bytes are gone: their buffer was detached, or made smaller");
}

// Any bytes as a plain Uint8Array over the same memory, which keeps its length unless its buffer is detached or made smaller.
export function bytesOf(data) {
    let bytes;
    try {
        bytes = ArrayBuffer.isView(data) ? bytesOfView(data) : bytesOfBuffer(data);
    } catch {
        hold(false);
    }
    if (bytes) return bytes;
    throw new TypeError("noddychest: bytes are a Uint8Array, another view or an ArrayBuffer; encode a string by TextEncoder, and await arrayBuffer() of a File or Blob");
}
