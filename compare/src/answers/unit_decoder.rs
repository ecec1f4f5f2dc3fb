//! The decoder of units, call by call.

use super::side::iterator::Utf16CharDecoder;
use super::side::SliceExt;
use crate::numbers::{Answers, NOTHING};

/// The decoder that is made from the slice, and the one that the slice's own method makes.
pub fn units(src: &[u16]) -> Answers {
    items(Utf16CharDecoder::from(src)).and(items(src.utf16char_indices()))
}

fn items(mut decoder: Utf16CharDecoder) -> Answers {
    let mut to = Answers::default();
    loop {
        to.put_hint(decoder.size_hint());
        to.put_size("as_slice().len()", decoder.as_slice().len());
        to.put_units("as_slice()", decoder.as_slice());
        let Some((offset, answer, len)) = decoder.next() else {
            to.put("next() at the end", NOTHING);
            return to;
        };
        to.put_item(offset, answer, len);
    }
}
