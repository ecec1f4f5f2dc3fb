// What a window of the input has: characters and places, each whole. It depends on no more than a few bytes before and after the window.
import { OK } from "./codec.js";
import { Survey } from "./survey.js";

// More than a place, or the run that makes one, has to be seen of.
export const MARGIN = 24;

// The bytes that a window needs, at even offsets.
export const around = (from, to, size) => [Math.max(from - MARGIN, 0) & ~1, Math.min(to + MARGIN, size)];

// The characters and places of bytes that begin at `base`, as far as they have a byte from one offset up to and without another.
// `known` is the list of the whole input, which knows where long runs begin.
export function groupsOf(codec, form, bytes, base, from, to, known = null) {
    const survey = new Survey(codec, form, { base });
    survey.take(bytes, true);
    const { list } = survey;
    const found = [];
    const front = base ? codec.boundary(Math.min(4, bytes.length)) : 0;
    for (let i = 0, at = front; at < bytes.length; ) {
        while (i < list.length && list.offsets[i] + list.lengths[i] <= base + at) i++;
        const isPlace = i < list.length && list.offsets[i] <= base + at;
        if (base + at >= to) break;
        if (isPlace) {
            found.push(placeIn(list.at(i), known));
            at = list.offsets[i] + list.lengths[i] - base;
        } else {
            const end = i < list.length ? list.offsets[i] - base : bytes.length;
            for (const piece of codec.pieces(at, Math.min(end, to - base))) {
                if (piece.kind !== OK) break;
                found.push({ offset: base + piece.place, length: piece.len, scalar: piece.scalar, isFault: false });
                at = piece.place + piece.len;
            }
            if (at < end && at < to - base) break;
        }
    }
    return found.filter((it) => from < it.offset + it.length && it.offset < to);
}

function placeIn(local, known) {
    const whole = known?.over(local.offset);
    return { ...(whole ?? { ...local, number: -1 }), isFault: true };
}

// Those of a source, without waiting; null if its bytes are not at hand.
export function groupsAtHand(codec, form, source, from, to, known) {
    const [first, last] = around(from, to, source.size);
    const bytes = source.atHand(first, last);
    return bytes && groupsOf(codec, form, bytes, first, from, to, known);
}

export async function groupsIn(codec, form, source, from, to, known) {
    const [first, last] = around(from, to, source.size);
    return groupsOf(codec, form, await source.read(first, last), first, from, to, known);
}
