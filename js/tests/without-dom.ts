// Read only by tsc, without the types of browsers: those of the package need only the language's own.
import { Decoder, pieces, recode, recoderStream, streamText } from "noddychest";
import type { Piece, RecodeOptions } from "noddychest";
import { load } from "noddychest/load";

const bytes = new Uint8Array([0xe2]);
const found: Piece[] = [...pieces(bytes), ...new Decoder().feed(bytes)];
export const made: Uint8Array = recode(bytes, "utf-8", "utf-16le");
export async function read(parts: AsyncIterable<Uint8Array>): Promise<string> {
    let all = String(found.length);
    for await (const part of streamText(parts)) all += part.text;
    return all;
}
export const stream = recoderStream("utf-8", "utf-8");
export const loaded = async (): Promise<boolean> => (await load(bytes)).isValid(bytes) && (await load("https://example.org/noddychest.wasm")).isValid(bytes);
// @ts-expect-error: a number is no stream
streamText(5);

// Options may be undefined, as for the calls themselves.
export function asked(fatal: boolean | undefined, offset: number | undefined): RecodeOptions {
    new Decoder("utf-8", { offset });
    return { fatal, errors: undefined };
}
