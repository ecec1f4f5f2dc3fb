// The input: bytes in memory, or a file of any size, of which parts are read as they are needed.
const CHUNK = 1 << 18;
const KEPT = 6;

export class Source {
    #chunks = [];

    // `given` is a Uint8Array or a Blob.
    constructor(given, name = "") {
        this.bytes = given instanceof Uint8Array ? given : null;
        this.blob = this.bytes ? new Blob([this.bytes]) : given;
        this.size = this.blob.size;
        this.name = name;
    }

    get isFile() {
        return !this.bytes;
    }

    // The bytes between two offsets if they are at hand, or null.
    atHand(from, to) {
        if (this.bytes) return this.bytes.subarray(from, to);
        const chunk = this.#chunks.find((it) => it.from <= from && Math.min(to, this.size) <= it.from + it.bytes.length);
        return chunk ? chunk.bytes.subarray(from - chunk.from, to - chunk.from) : null;
    }

    async read(from, to) {
        const found = this.atHand(from, to);
        if (found) return found;
        const first = Math.max(Math.min(from, from - ((CHUNK - (to - from)) >> 1)), 0);
        const bytes = new Uint8Array(await this.blob.slice(first, Math.max(first + CHUNK, to)).arrayBuffer());
        if (bytes.length < Math.min(to, this.size) - first) throw new Error("the file became shorter");
        this.#chunks = [{ from: first, bytes }, ...this.#chunks.slice(0, KEPT - 1)];
        return bytes.subarray(from - first, to - first);
    }
}
