// Read only by tsc: each call as a caller with types writes it, and what has to be rejected.
import { Decoder, Ends, FaultError, Recoder, boundaryAfter, boundaryBefore, changedRange, charCount, decode, encodingOf, encodingOfBom, faults, firstFault, isValid, numberOf, offsetOf, pieces, piecesBack, recode, recodedLength, recoderStream, streamFaults, streamPieces, streamText, textStream, undecidedLength } from "noddychest";
import type { Encoding, FaultKind, Fault, Piece, Table } from "noddychest";
import { load } from "noddychest/load";
import type { Noddychest, Source } from "noddychest/load";

const bytes = new Uint8Array([0xe2]);
for (const piece of pieces(bytes)) {
    const offset: number = piece.offset;
    const told: string = piece.error === null ? piece.char : piece.error;
    console.log(offset, told);
}
const back: Piece[] = [...piecesBack(new DataView(bytes.buffer))];
const name: FaultKind | undefined = firstFault(bytes.buffer)?.error;
const encodings: Encoding[] = ["utf-16le", "UTF-8", "utf8", "utf16le", "UTF-16BE"];
const [encoding] = encodings;
const made: Uint8Array = recode(bytes, "utf-8", encoding);
const recoder = new Recoder("utf-16be", "utf-8");
const parts: Uint8Array[] = [recoder.feed(made), recoder.finish()];
const replaced: number = recoder.replaced;
const listed: Fault[] = [...faults(bytes, "utf-16be")];
const numbers: number[] = [charCount(bytes), boundaryBefore(bytes, 1, "utf-16le"), boundaryAfter(bytes, 1), recodedLength(bytes, "utf-8", "utf-16le"), listed.length, undecidedLength(bytes), undecidedLength(bytes.buffer, "utf-16be")];
const offset: number | null = offsetOf(bytes, 3, "utf-16le");
const changed: { start: number; end: number } = changedRange(bytes, 0, numberOf(bytes, offset ?? bytes.length));
const mark: { encoding: Encoding; length: number } | null = encodingOfBom(bytes);
const marked: Piece[] = [...pieces(bytes.subarray(mark?.length ?? 0, changed.start + changed.end), mark?.encoding ?? "utf-8")];
const labelled: "utf-8" | "utf-16le" | "utf-16be" | null = encodingOf("latin1");
const strings: ReadableStream<string> = new ReadableStream<Uint8Array>().pipeThrough(textStream(labelled ?? "utf-8", { errors: "lossy", onFault: (fault) => console.log(fault.offset) }));
const tables: Table[] = ["é".repeat(128).split(""), Uint16Array.of(0x20ac), new Map([[0xe9, "é"]]), { 0xe9: "é", 0xea: null }, (byte) => (byte < 0xa0 ? "" : byte)];
const repaired: string[] = [...tables, "windows-1252" as const, "latin-1" as const, "drop" as const].map((errors) => decode(bytes, "utf-8", { errors }).text);
const { text, faults: wrong }: { text: string; faults: Fault[] } = decode(bytes, "utf-8", { errors: "lossy" });
export async function read(stream: ReadableStream<Uint8Array>): Promise<string> {
    let all = text + repaired.join() + wrong.length + numbers.join();
    for await (const piece of streamPieces(stream)) all += piece.char ?? piece.error;
    for await (const fault of streamFaults([bytes], "utf-16le")) all += fault.offset;
    for await (const part of streamText(stream, "utf-8", { errors: "strict" })) all += part.text + part.offset + part.faults.length;
    return all;
}
const ends = new Ends(bytes);
const left: [Piece | null, Piece | null, Uint8Array] = [ends.next(), ends.nextBack(), ends.remaining];
const decoder = new Decoder("utf-16be", { offset: 2 ** 40 });
const inParts: Piece[] = [...decoder.feed(bytes), ...decoder.feed(bytes.buffer), ...decoder.finish()];
const wrongInParts: Fault[] = [...new Decoder().feedFaults(bytes), ...decoder.finishFaults()];
const place: number = decoder.offset + decoder.held + inParts.length + wrongInParts.length;
const told: "utf-8" | "utf-16le" | "utf-16be" = decoder.encoding;
console.log(place, told, marked);
console.log(back, name, parts, replaced, left, isValid(bytes), recoderStream("utf-8", "utf-8").readable);
const strict = new Recoder("utf-8", "utf-16le", { fatal: true });
try {
    console.log(strict.feed(bytes), recode(bytes, "utf-8", "utf-8", { fatal: true }), recoderStream("utf-8", "utf-8", { fatal: true }));
} catch (error) {
    if (error instanceof FaultError) console.log(error.offset + error.length + error.cause.offset, error.error === "Incomplete", error.message);
}
const wrongFirst = firstFault(bytes);
if (wrongFirst) throw new FaultError(wrongFirst, "utf-16be");
export async function loaded(given: Uint8Array | ArrayBuffer | WebAssembly.Module | URL | Request | Response | Promise<Response> | string): Promise<Piece[]> {
    const n: Noddychest = await load(given);
    const [all, own]: [Piece[], InstanceType<Noddychest["Decoder"]>] = [[...n.pieces(bytes)], new n.Decoder("utf-16le")];
    const source: Source = bytes;
    const calls: typeof import("noddychest") = await load();
    return [...all, ...own.feed(bytes), ...(await load(source)).pieces(bytes), ...calls.faults(bytes)];
}
// @ts-expect-error: a number is no module
load(5);
// @ts-expect-error: an error is made of a fault
new FaultError("text");
// @ts-expect-error: null may be no encoding
isValid(bytes, encodingOf("latin1"));
// @ts-expect-error: a fault is no number
textStream("utf-8", { onFault: (fault: number) => console.log(fault) });
console.log(strings);
// @ts-expect-error: a stream of strings is no bytes
streamText(new ReadableStream<string>());
// @ts-expect-error: no such way
recode(bytes, "utf-8", "utf-8", { errors: "ignore" });
// @ts-expect-error: a table has characters for bytes
recode(bytes, "utf-8", "utf-8", { errors: { 0xe9: true } });
// @ts-expect-error: a function of a byte returns a character
recode(bytes, "utf-8", "utf-8", { errors: (byte: number) => [byte] });
// @ts-expect-error: no such option
recode(bytes, "utf-8", "utf-8", { strict: true });
// @ts-expect-error: a string is no bytes
isValid("text");
// @ts-expect-error: bytes are no encoding
new Decoder(bytes);
// @ts-expect-error: an offset is no BigInt
new Decoder("utf-8", { offset: 1n });
// @ts-expect-error: the properties of a decoder are read-only
decoder.offset = 1;
// @ts-expect-error: no such encoding
recode(bytes, "latin1", "utf-8");
// @ts-expect-error: a number may be missing
const missing: number = offsetOf(bytes, 0);
console.log(missing);
