// Written by js/commonjs: index.d.ts, for `require`.
/** Any bytes, also of another realm. They are read, never changed and never kept. A string is a `TypeError`; bytes whose buffer is detached, too. */
export type Bytes = ArrayBufferView | ArrayBufferLike;

/** The encodings. No call but `encodingOfBom` looks for a byte order mark, and none adds one. Case does not matter; `"UTF-16"` is little-endian, as `TextDecoder` has it. */
export type Encoding = Label | Uppercase<Label>;

/** The labels of the Encoding Standard for them, and `"utf16le"` and `"utf16be"`. */
type Label =
    | "utf-8" | "utf8" | "unicode-1-1-utf-8" | "unicode11utf8" | "unicode20utf8" | "x-unicode20utf8"
    | "utf-16le" | "utf16le" | "utf-16" | "unicode" | "unicodefeff" | "csunicode" | "iso-10646-ucs-2" | "ucs-2"
    | "utf-16be" | "utf16be" | "unicodefffe";

/** Why a byte is invalid; in UTF-16, why a unit of 16 bits is, or a single byte at the end. */
export type FaultKind =
    /** Fewer bytes are left than the first byte asks for. */
    | "TooFewBytes"
    /** 0xC0, 0xC1 or above 0xF4: no UTF-8 has this byte. */
    | "NonUtf8Byte"
    /** 0x80 to 0xBF where a character should begin. */
    | "UnexpectedContinuationByte"
    /** A byte that should be a continuation byte is something else. */
    | "InterruptedSequence"
    /** The value fits in fewer bytes. */
    | "OverlongEncoding"
    /** The value is a surrogate, U+D800 to U+DFFF. */
    | "Utf16ReservedCodepoint"
    /** The value is above U+10FFFF. */
    | "TooHighCodepoint"
    /** UTF-16: 0xDC00 to 0xDFFF where a character should begin. */
    | "UnexpectedTrailingSurrogate"
    /** UTF-16: 0xD800 to 0xDBFF, and the next unit is not 0xDC00 to 0xDFFF. */
    | "UnmatchedLeadingSurrogate"
    /** UTF-16: 0xD800 to 0xDBFF is the last unit, or the text ends inside a unit. */
    | "Incomplete";

/**
 * What an error means, as the library for C says it: of `"OverlongEncoding"` it is "overlong encoding: the value has a shorter code". A name of
 * no error is a `RangeError`. O(1).
 */
export function sentence(error: FaultKind): string;

/** A character: `length` is 1 to 4 bytes. */
export interface Character {
    offset: number;
    length: number;
    char: string;
    error: null;
}

/**
 * A single invalid byte; in UTF-16 a lone surrogate of two bytes, or a single byte at the end. Offsets and lengths count bytes. It has no
 * value: that is in the bytes at `offset`. In a stream it may lie up to three bytes before the part: keep the last three bytes of each.
 */
export interface Fault {
    offset: number;
    length: 1 | 2;
    char: null;
    error: FaultKind;
}

export type Piece = Character | Fault;

/**
 * The pieces of text from the front, one after the other without a gap: characters, and single invalid bytes. The encoding is UTF-8
 * if none is given. O(n). A step throws a `TypeError` where pieces are left and the buffer was detached, or made smaller, since the
 * first one. Pieces are looked for 4 KiB ahead: bytes that change meanwhile may be seen as they were.
 */
export function pieces(data: Bytes, encoding?: Encoding): Generator<Piece, void, undefined>;

/**
 * The same pieces from the end, the last one first. Errors are named by the bytes that are left: the first byte of a damaged
 * character is `TooFewBytes`, since what follows it was taken before. O(n).
 */
export function piecesBack(data: Bytes, encoding?: Encoding): Generator<Piece, void, undefined>;

/** Takes pieces from both ends, in any order, until they meet; each piece comes once. Each call is O(1). */
export class Ends {
    constructor(data: Bytes, encoding?: Encoding);
    /** The next piece from the front, or null if nothing is left. */
    next(): Piece | null;
    /** The next piece from the end, or null if nothing is left. */
    nextBack(): Piece | null;
    /** The bytes between both ends, over the same memory. */
    get remaining(): Uint8Array;
}

/** Only the invalid bytes, in order. Text between them is skipped as fast as `isValid` scans it. O(n). */
export function faults(data: Bytes, encoding?: Encoding): Generator<Fault, void, undefined>;

/** An invalid byte with its position. Lines and columns count from 1. */
export interface LocatedFault {
    offset: number;
    /** A line ends after its line feed, and after nothing else. */
    line: number;
    /** In characters and invalid bytes. */
    column: number;
    /** In bytes. */
    byteColumn: number;
    length: 1 | 2;
    error: FaultKind;
}

/**
 * The invalid bytes that `faults` gives, each with its line and its columns. Line feeds are counted as fast as memory is read, and columns only
 * in the lines that have invalid bytes. O(n).
 */
export function located(data: Bytes, encoding?: Encoding): Generator<LocatedFault, void, undefined>;

/** The first invalid byte, or null if there is none. O(n). */
export function firstFault(data: Bytes, encoding?: Encoding): Fault | null;

/** Whether all of it is valid. O(n). */
export function isValid(data: Bytes, encoding?: Encoding): boolean;

/** How many pieces there are: characters, and invalid bytes. O(n). */
export function charCount(data: Bytes, encoding?: Encoding): number;

/**
 * The offset of the piece with that number, counted from 0, or null if there are no more pieces. What is no whole number from 0 on is a
 * `RangeError`. O(n) in the offset.
 */
export function offsetOf(data: Bytes, number: number, encoding?: Encoding): number | null;

/**
 * How many pieces begin before an offset: if one begins at it, its number, counted from 0. All of them if the offset is the length or
 * more. What is no whole number from 0 on is a `RangeError`. O(n) in the offset.
 */
export function numberOf(data: Bytes, offset: number, encoding?: Encoding): number;

/**
 * The part of a text outside of which no piece changes if the bytes from `start` up to `end` are replaced by any others: what to decode
 * again after an edit. What was decoded before its start stays, and what was decoded from its end on moves with its bytes. `data` is the
 * text after the edit, with where the new bytes are in it, or the text before it. In UTF-16, if the length changes by an odd number of
 * bytes, all from its start on may change. It begins at most six bytes before `start`, and ends at most six after `end`. Offsets above the
 * length count as the length, and a start above the end as the end; what is no whole number from 0 on is a `RangeError`. O(1).
 */
export function changedRange(data: Bytes, start: number, end: number, encoding?: Encoding): { start: number; end: number };

/**
 * The last offset up to `at` that is not inside a character, and in UTF-16 not inside a 16-bit unit; the length if `at` is beyond it.
 * Text that is divided there gives the same pieces. An `at` that is not a whole number from 0 on is a `RangeError`. O(1).
 */
export function boundaryBefore(data: Bytes, at: number, encoding?: Encoding): number;

/** The first such offset from `at` on. O(1). */
export function boundaryAfter(data: Bytes, at: number, encoding?: Encoding): number;

/**
 * Where to cut bytes that are converted in shards: the last offset up to `at` that is not inside a character or a maximal subpart, and in
 * UTF-16 not inside a 16-bit unit; at most three bytes before `at`. What the shards become, joined, is what the whole becomes, with one
 * U+FFFD for each invalid byte, with one for each maximal subpart, and with a table. The length if `at` is beyond it. An `at` that is not a
 * whole number from 0 on is a `RangeError`. O(1).
 */
export function shardEnd(data: Bytes, at: number, encoding?: Encoding): number;

/**
 * How many bytes at the end of a block depend on those that follow, 0 to 3: what a `Decoder` holds that was fed the block. Keep them back,
 * and put them before the next block. All pieces before them are known, with the errors that a `Decoder` gives; if no byte follows, they
 * are invalid. The block begins where a character may begin: `undecidedLength(Uint8Array.of(0x61, 0xe2, 0x82))` is 2. O(1).
 */
export function undecidedLength(data: Bytes, encoding?: Encoding): number;

/**
 * The encoding by a byte order mark at the front, and the length of the mark in bytes; null if there is none. The first three
 * bytes are enough. UTF-32LE begins with the mark of UTF-16LE, and is taken for that. Of `FF FE 61 00` it is
 * `{ encoding: "utf-16le", length: 2 }`. O(1).
 */
export function encodingOfBom(data: Bytes): { encoding: "utf-8" | "utf-16le" | "utf-16be"; length: 2 | 3 } | null;

/** What an input most likely is. */
export type Guess =
    /** Only ASCII, or nothing. */
    | "Ascii"
    /** UTF-8 that is valid. */
    | "Utf8"
    /** UTF-8 with a byte order mark. */
    | "Utf8Marked"
    /** UTF-8 of which some bytes at the start or the end are missing, inside a character. */
    | "Utf8Cut"
    /** UTF-8 with single bytes of an 8-bit encoding. */
    | "Utf8Mixed"
    /** UTF-8 that was read as Windows-1252 and encoded once more. */
    | "Utf8Twice"
    /** UTF-8 with surrogates: CESU-8, or Java's modified UTF-8. */
    | "Utf8Surrogates"
    /** UTF-16, low byte first, without a byte order mark. */
    | "Utf16Le"
    /** UTF-16, high byte first, without a byte order mark. */
    | "Utf16Be"
    /** UTF-16, low byte first, with a byte order mark. */
    | "Utf16LeMarked"
    /** UTF-16, high byte first, with a byte order mark. */
    | "Utf16BeMarked"
    /** UTF-32 with a byte order mark. */
    | "Utf32"
    /** Windows-1252, or another 8-bit encoding of Latin letters. */
    | "Windows1252"
    /** Some 8-bit encoding, but not Windows-1252. */
    | "Other8Bit"
    /** No text. */
    | "Binary";

/** What bytes have, as units of UTF-16 in one byte order. */
export interface UnitCounts {
    /** Units that occur in nearly every text: tab, LF, CR, U+0020 to U+007E, U+3001, U+3002 and U+FF0C. */
    plain: number;
    /** Units that do not occur in text: controls, U+FFFE and U+FFFF. */
    stray: number;
    /** Units of which the one before begins a pair that this one does not end, or the other way round. */
    unpaired: number;
}

/** What bytes have, as UTF-8. */
export interface Utf8Counts {
    /** Characters of several bytes. */
    chars: number;
    /** Invalid bytes. */
    faults: number;
    /** Invalid bytes other than A0, after two bytes above 7F. */
    third: number;
    /** Invalid bytes between two ASCII letters, where Windows-1252 rarely has them. */
    signs: number;
    /** Invalid bytes for which Windows-1252 has no character. */
    undefined: number;
    /** Surrogates that are written as characters of three bytes. */
    surrogates: number;
    /** Sequences that were read as Windows-1252 and encoded once more. */
    twice: number;
    /** The characters of these sequences. */
    twiceChars: number;
}

/** What was counted in an input, and what that most likely is. */
export interface Survey {
    /** What the input most likely is: the first of the guesses. */
    guess: Guess;
    /** What the input may be: one to three guesses, the likeliest first. Each says what the input is if those before it are wrong. */
    guesses: Guess[];
    /** The length of the input in bytes. */
    length: number;
    /** Bytes that are 00. */
    nul: number;
    /** Other controls that do not occur in text: 01 to 06, 0E to 1A, and 1C to 1F. */
    control: number;
    utf8: Utf8Counts;
    /** Units, low byte first. */
    utf16le: UnitCounts;
    /** Units, high byte first. */
    utf16be: UnitCounts;
    /** The first four bytes, or all if they are fewer. */
    front: Uint8Array;
    /** Continuation bytes before any other byte, at most three: the rest of a character. */
    head: number;
    /** Bytes at the end, at most three, that begin a character whose other bytes are missing. */
    tail: number;
}

/**
 * What bytes most likely are. It is a guess, by thresholds that were set on texts in 74 languages, and it is `survey(data).guess`. Of `63 61 66 E9` it
 * is `"Windows1252"`. O(n).
 */
export function guess(data: Bytes): Guess;

/** What a guess says, for people: of `"Utf8Twice"` it is "UTF-8 that was encoded twice". A name of no guess is a `RangeError`. O(1). */
export function guessText(guess: Guess): string;

/** Counts what bytes have, and guesses by that what they most likely are. For input in parts there is a `Surveyor`. O(n). */
export function survey(data: Bytes): Survey;

/**
 * Surveys input that comes in parts, which may begin and end anywhere: the survey is that of the joined parts.
 *
 * ```js
 * const surveyor = new Surveyor();
 * for await (const part of file.stream()) surveyor.feed(part);
 * console.log(guessText(surveyor.survey().guess));
 * ```
 */
export class Surveyor {
    /** Counts what the next part has. A part that is no bytes is a `TypeError`, and counts for nothing. O(n). */
    feed(part: Bytes): void;
    /** The survey of what was fed so far. You may feed more afterwards. O(1). */
    survey(): Survey;
}

/**
 * The encoding that a label of the Encoding Standard, or `"utf16le"` or `"utf16be"`, is of, as a `charset` of HTTP gives one: of `"Unicode-1-1-UTF-8"` it
 * is `"utf-8"`, and of `"utf-16"` `"utf-16le"`. Case does not matter, nor white space around it. Null of a label of another encoding, and of what is no label. O(1).
 */
export function encodingOf(label: string): "utf-8" | "utf-16le" | "utf-16be" | null;

/** What an invalid byte becomes: a string of one character up to U+FFFF, or its number; nothing, if it is `""` or null; U+FFFD, if it is undefined. */
export type TableEntry = string | number | null | undefined;

/**
 * What each invalid byte of UTF-8, 0x80 to 0xFF, becomes: by a function, a Map or an object from a byte, as a number, to a character; or an
 * array of at most 128 characters, or numbers, of which the first is for the byte 0x80. A byte that it does not have becomes U+FFFD, and so do in
 * UTF-16 a lone surrogate and an odd last byte. It is read once, byte by byte from 0x80 on, before any of the input: what it throws comes through.
 *
 * `(byte) => new TextDecoder("windows-1251").decode(Uint8Array.of(byte))` takes each invalid byte for Windows-1251.
 */
export type Table =
    | ((byte: number) => TableEntry)
    | ReadonlyMap<number, TableEntry>
    | readonly TableEntry[]
    | Uint8Array
    | Uint16Array
    | Uint32Array
    | (object & { readonly [byte: number]: TableEntry });

export interface RecodeOptions {
    /**
     * What to do with invalid bytes. `"replace"`, the default, puts one U+FFFD, the replacement character, for each; in UTF-16 for each
     * lone surrogate. `"lossy"` puts one for each maximal subpart, as `TextDecoder` does. `"strict"` throws a `FaultError` at the first one.
     *
     * `"windows-1252"` puts for each the character that the byte is in Windows-1252, by the Encoding Standard, and `"latin-1"` that of ISO-8859-1,
     * U+0080 to U+00FF: for text that is UTF-8 but for bytes of that encoding. `"drop"` leaves them out. A `Table` has other characters. In
     * UTF-16 `"drop"` leaves lone surrogates out, and the other three put U+FFFD. Of a table with a character above U+FFFF, with several
     * characters for a byte, or with an entry for what is no byte, a `RangeError` is thrown, and of one with other values a `TypeError`, before
     * anything is read.
     */
    errors?: "replace" | "lossy" | "strict" | "drop" | "windows-1252" | "latin-1" | Table | undefined;
    /** `errors: "strict"`, by its name in `TextDecoder`; false by default. */
    fatal?: boolean | undefined;
}

/** Thrown where text has to be valid and is not. */
export class FaultError extends TypeError {
    /** Made of a fault, as `firstFault` gives it, and its encoding. What is no fault is a `TypeError`. */
    constructor(fault: { offset: number; length: number; error: FaultKind }, encoding?: Encoding);
    /** Where it begins, in bytes from the front of all that was given. */
    readonly offset: number;
    /** How many bytes are invalid: 1 in UTF-8; in UTF-16 2, or 1 if the text ends inside a unit. */
    readonly length: number;
    readonly error: FaultKind;
    /** The same three. Of an error `structuredClone` and `postMessage` keep the message, which has the offset, and in most engines the cause. */
    readonly cause: { offset: number; length: number; error: FaultKind };
}

/**
 * The text in another encoding. From an encoding to the same one it repairs. An unknown encoding, or another word for `errors`, is a
 * `RangeError`. O(n).
 */
export function recode(data: Bytes, from: Encoding, to: Encoding, options?: RecodeOptions): Uint8Array;

/** How many bytes `recode` gives with `errors: "replace"`. O(n). */
export function recodedLength(data: Bytes, from: Encoding, to: Encoding): number;

/**
 * The text as a string, and the list of what was wrong, one entry for each invalid byte or lone surrogate. A byte order mark stays in the text. A text that is
 * longer than a string can be (in V8 about 2^29 units of UTF-16) is a `RangeError`, before any of it is made. O(n).
 */
export function decode(data: Bytes, encoding?: Encoding, options?: RecodeOptions): { text: string; faults: Fault[] };

/**
 * Transcodes text that comes in parts. However it is cut into parts, the joined output is that of `recode` on the whole. With `strict` a
 * call throws once it is decided that a byte is invalid, and why; the recoder is then as it was before that call.
 */
export class Recoder {
    constructor(from: Encoding, to: Encoding, options?: RecodeOptions);
    /** What the part, and bytes held from parts before, become, in a buffer of its own. At most three bytes are held back. */
    feed(part: Bytes): Uint8Array;
    /** What the bytes that are still held become: call it once, after the last part. */
    finish(): Uint8Array;
    /**
     * How many invalid bytes, or units, were replaced so far, by U+FFFD or by what a table has for them, also if that is nothing. With `lossy`
     * each byte of a maximal subpart counts; with `strict` it is 0. A U+FFFD in the input does not count. A number, not a BigInt: exact up to
     * `Number.MAX_SAFE_INTEGER`.
     */
    readonly replaced: number;
}

/**
 * Gives the pieces of input that comes in parts, with offsets from the first byte of all. They do not depend on how the input is divided.
 * They are those that `pieces` gives for the whole, but for the kind in one case: at
 * the end of the input the first byte of `F0 41` is `InterruptedSequence` here, and `TooFewBytes` there.
 *
 * The generators make pieces as they are asked for, 4,096 at most before; the part itself is copied, and may be changed, or sent away, once
 * a call has returned. Each piece is given once, in order, by whichever generator of the decoder is asked. If you leave a
 * generator before its end, the next one begins with the pieces that are left. So a decoder may be fed between two pieces.
 *
 * A part that is no bytes, or whose buffer was detached, is a `TypeError`, and one that ends beyond `Number.MAX_SAFE_INTEGER` a
 * `RangeError`; the decoder is then as it was. Offsets are exact.
 */
export class Decoder {
    /** `offset` is the offset of the first byte, 0 by default: a whole number from 0 on, or a `RangeError` is thrown. */
    constructor(encoding?: Encoding, options?: { offset?: number | undefined });
    /**
     * The pieces that are decided with this part. At most three bytes wait for the next part: the front of a character, or invalid bytes
     * whose kind the next bytes decide. O(n).
     */
    feed(part: Bytes): Generator<Piece, void, undefined>;
    /** Only the invalid bytes among the pieces of `feed`: text is skipped as fast as `isValid` scans it. O(n). */
    feedFaults(part: Bytes): Generator<Fault, void, undefined>;
    /** Ends the input: the pieces of what waits, which are invalid. What is fed after that is other input, and offsets go on. */
    finish(): Generator<Piece, void, undefined>;
    /** Ends the input as `finish` does, and gives only the invalid bytes of what waits. */
    finishFaults(): Generator<Fault, void, undefined>;
    /** The offset of the next piece that will be given. */
    readonly offset: number;
    /** How many bytes were fed from there on: at most three, once the generators were gone through. */
    readonly held: number;
    /** The name of the encoding, as the Encoding Standard has it, in lower case. */
    readonly encoding: "utf-8" | "utf-16le" | "utf-16be";
}

declare global {
    /** The stream of browsers and Node, for programs whose `lib` has none. */
    interface TransformStream<I = any, O = any> {}
}

/** A `Recoder` as a stream, for `body.pipeThrough(..)`. It needs Node 18 or a browser. */
export function recoderStream(from: Encoding, to: Encoding, options?: RecodeOptions): TransformStream<Bytes, Uint8Array>;

/** Bytes in parts: a `ReadableStream`, as `response.body` and `file.stream()` are, a stream of Node, or any other iterable of bytes. */
export type Parts = Stream | AsyncIterable<Bytes> | Iterable<Bytes>;

/** What is asked of a `ReadableStream`. */
interface Stream {
    getReader(): { read(): Promise<{ done: boolean; value?: Bytes | undefined }>; cancel(): Promise<void>; releaseLock(): void };
}

/**
 * The pieces of input in parts, for `for await`: those that `pieces` gives for the whole, with offsets from its first byte, however it
 * is divided. At most three bytes of a part are held until the next one comes. Each part is copied. A stream that is left before its
 * end is cancelled.
 */
export function streamPieces(parts: Parts, encoding?: Encoding): AsyncGenerator<Piece, void, undefined>;

/** Only the invalid bytes among the pieces of `streamPieces`. Text between them is skipped as fast as `isValid` scans it. */
export function streamFaults(parts: Parts, encoding?: Encoding): AsyncGenerator<Fault, void, undefined>;

/** The invalid bytes of `streamFaults`, each with its line and its columns, which count from the front of all input. */
export function streamLocated(parts: Parts, encoding?: Encoding): AsyncGenerator<LocatedFault, void, undefined>;

/**
 * The text of input in parts: for each part the offset at which its text begins, the text, and what was wrong in it. Joined, the texts
 * are what `decode` gives for the whole. With `strict` the text before the first invalid byte comes, and then a `FaultError` is thrown.
 */
export function streamText(parts: Parts, encoding?: Encoding, options?: RecodeOptions): AsyncGenerator<{ offset: number; text: string; faults: Fault[] }, void, undefined>;

export interface TextStreamOptions extends RecodeOptions {
    /** Called with each invalid byte, in order, before the text that has what it became; not with `strict`. What it throws ends the stream. */
    onFault?: ((fault: Fault) => void) | undefined;
}

/**
 * `streamText` as a stream from bytes to strings, for `body.pipeThrough(..)`, as a `TextDecoderStream` is. A string has whole characters. A byte
 * order mark stays in the text. With `strict` the text before the first invalid byte comes, and then the stream fails with a `FaultError`,
 * and so do writes. It needs Node 18 or a browser.
 */
export function textStream(encoding?: Encoding, options?: TextStreamOptions): TransformStream<Bytes, string>;
