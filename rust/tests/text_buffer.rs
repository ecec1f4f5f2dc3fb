//! A text that is edited, compared with a list of its bytes that is cut anew after each edit.

mod common;

use common::{of_encoding, Chance, End};
use noddychest::{Change, Encoding, Piece, PieceTable, TextBuffer};

/// Where each piece begins, how long it is, and whether it is a character.
fn cut(bytes: &[u8]) -> Vec<(usize, usize, Option<char>)> {
    of_encoding(Encoding::Utf8, bytes, End::OfSlice).into_iter().map(|(at, len, answer)| (at, len, answer.ok())).collect()
}

fn shown(piece: Piece) -> (usize, usize, Option<char>) {
    (piece.offset, piece.len, piece.char())
}

fn agrees(text: &TextBuffer, bytes: &[u8]) {
    let pieces = cut(bytes);
    let counts = text.counts();
    assert_eq!((text.len(), counts.bytes, counts.pieces), (bytes.len(), bytes.len(), pieces.len()));
    assert_eq!(counts.faults, pieces.iter().filter(|it| it.2.is_none()).count());
    assert_eq!(counts.line_feeds, bytes.iter().filter(|it| **it == b'\n').count());
    assert!(text.to_vec() == bytes);
}

fn agrees_at(text: &TextBuffer, bytes: &[u8], place: usize) {
    let pieces = cut(bytes);
    let number = pieces.partition_point(|it| it.0 < place);
    assert_eq!(text.number_of(place), number);
    assert_eq!(text.piece(number).map(shown), pieces.get(number).copied());
    assert_eq!(text.offset_of(number), pieces.get(number).map(|it| it.0));
    let over = pieces.iter().find(|it| it.0 <= place && place < it.0 + it.1);
    assert_eq!(text.piece_at(place).map(shown), over.copied());
    let is_fault = |it: &&(usize, usize, Option<char>)| it.2.is_none();
    assert_eq!(text.next_fault(place), pieces[number..].iter().find(is_fault).map(|it| it.0));
    assert_eq!(text.previous_fault(place), pieces[..number].iter().rfind(is_fault).map(|it| it.0));
    let line = bytes[..place].iter().filter(|it| **it == b'\n').count();
    assert_eq!(text.line_of(place), line);
    let start = bytes[..place].iter().rposition(|it| *it == b'\n').map_or(0, |it| it + 1);
    assert_eq!(text.offset_of_line(line), Some(start));
}

/// What did not change is as it was; an edit of some bytes changes few pieces around them.
fn tells(change: Change, old: &[u8], new: &[u8], start: usize, end: usize) {
    let (before, after) = (cut(old), cut(new));
    let Change { offset, number, gone, come, .. } = change;
    assert_eq!(before[..number], after[..number]);
    assert_eq!(offset, before.get(number).map_or(old.len(), |it| it.0));
    assert_eq!(old[offset + gone.bytes..], new[offset + come.bytes..]);
    let rest = before[number + gone.pieces..].iter().map(|it| (it.0 + come.bytes - gone.bytes, it.1, it.2));
    assert!(rest.eq(after[number + come.pieces..].iter().copied()));
    assert!(offset <= start && start <= offset + 6 && end <= offset + gone.bytes && offset + gone.bytes <= end + 6);
    let faults = |pieces: &[(usize, usize, Option<char>)]| pieces.iter().filter(|it| it.2.is_none()).count();
    assert_eq!(gone.faults, faults(&before[number..number + gone.pieces]));
    assert_eq!(come.faults, faults(&after[number..number + come.pieces]));
}

/// Bytes of damaged text, with lines.
fn some(chance: &mut Chance, most: usize) -> Vec<u8> {
    let mut bytes = chance.bytes(most);
    for _ in 0..bytes.len() / 16 {
        let at = chance.below(bytes.len());
        bytes[at] = b'\n';
    }
    bytes
}

fn edited(seed: u64, most: usize, edits: usize, piece: usize) {
    let mut chance = Chance(seed);
    let mut bytes = some(&mut chance, most);
    let mut text = TextBuffer::new(&bytes);
    agrees(&text, &bytes);
    for _ in 0..edits {
        let start = chance.below(bytes.len() + 1);
        let end = start + chance.below((bytes.len() - start).min(piece) + 1);
        let new = some(&mut chance, piece);
        let change = text.replace(start..end, &new);
        let old = bytes.clone();
        bytes.splice(start..end, new);
        tells(change, &old, &bytes, start, end);
        agrees(&text, &bytes);
        for place in [start, chance.below(bytes.len() + 1), bytes.len()] {
            agrees_at(&text, &bytes, place);
        }
    }
}

#[test]
fn few_bytes_are_edited() {
    (0..200).for_each(|seed| edited(seed, 24, 20, 6));
}

#[test]
fn several_chunks_are_edited() {
    (0..4).for_each(|seed| edited(seed, 20_000, 40, 40));
    (4..8).for_each(|seed| edited(seed, 20_000, 20, 9_000));
}

/// So many texts of each length as the environment says: `TEXTS=1000 cargo test --release --test text_buffer -- --ignored`.
#[test]
#[ignore = "it takes as long as it is asked to"]
fn many_texts_are_edited() {
    let texts: u64 = std::env::var("TEXTS").map_or(10, |it| it.parse().expect("TEXTS is a number"));
    for seed in 1_000..1_000 + texts {
        edited(seed, 24, 100, 6);
        edited(seed, 300, 60, 40);
        edited(seed, 5_000, 20, 3_000);
    }
}

#[test]
fn a_text_grows_from_nothing_and_goes_again() {
    let mut text = TextBuffer::default();
    for _ in 0..20_000 {
        text.insert(text.len(), "é".as_bytes());
    }
    assert_eq!((text.counts().pieces, text.counts().faults), (20_000, 0));
    assert_eq!(text.offset_of(19_999), Some(39_998));
    for _ in 0..20_000 {
        text.remove(1..3.min(text.len()));
    }
    assert_eq!((text.len(), text.counts().faults), (1, 1));
}

#[test]
fn parts_of_a_range() {
    let bytes: Vec<u8> = (0..30_000_u32).map(|it| it as u8).collect();
    let text = TextBuffer::new(&bytes);
    for (start, end) in [(0, 30_000), (5, 5), (4_000, 9_000), (29_999, 30_000), (29_990, 40_000), (30_000, 30_001), (9, 3)] {
        let want = bytes.get(start..end.min(30_000)).unwrap_or_default();
        assert!(text.bytes(start..end).collect::<Vec<_>>().concat() == want, "{start}..{end}");
        assert!(text.bytes(start..end).all(|part| !part.is_empty()));
    }
    assert_eq!(text.bytes(usize::MAX - 1..usize::MAX).next(), None);
}

/// The pieces that begin in a range, from both ends in turn, as those of all bytes are.
fn has_pieces_in(text: &TextBuffer, pieces: &[(usize, usize, Option<char>)], start: usize, end: usize, chance: &mut Chance) {
    let want: Vec<_> = pieces.iter().filter(|it| (start..end).contains(&it.0)).copied().collect();
    assert_eq!(text.pieces_in(start..end).map(shown).collect::<Vec<_>>(), want, "{start}..{end}");
    assert!(text.pieces_in(start..end).rev().map(shown).eq(want.iter().rev().copied()), "{start}..{end}");
    let (mut left, mut front, mut back) = (text.pieces_in(start..end), Vec::new(), Vec::new());
    while front.len() + back.len() < want.len() {
        let (least, most) = left.size_hint();
        assert!((least..=most.unwrap()).contains(&(want.len() - front.len() - back.len())));
        match chance.below(2) {
            0 => front.extend(left.next().map(shown)),
            _ => back.extend(left.next_back().map(shown)),
        }
    }
    assert_eq!((left.next(), left.next_back(), left.next()), (None, None, None));
    assert!(front.into_iter().chain(back.into_iter().rev()).eq(want));
}

#[test]
fn pieces_of_a_range() {
    let mut chance = Chance(32);
    for round in 0..60 {
        let mut bytes = some(&mut chance, [9, 60, 9_000][round % 3]);
        let mut text = TextBuffer::new(&bytes);
        for _ in 0..4 {
            let at = chance.below(bytes.len() + 1);
            let new = some(&mut chance, [3, 20, 2_000][round % 3]);
            text.insert(at, &new);
            bytes.splice(at..at, new);
        }
        let pieces = cut(&bytes);
        has_pieces_in(&text, &pieces, 0, bytes.len(), &mut chance);
        for _ in 0..20 {
            let (start, end) = (chance.below(bytes.len() + 3), chance.below(bytes.len() + 3));
            has_pieces_in(&text, &pieces, start, end, &mut chance);
        }
        for (start, end) in [(0, 0), (0, usize::MAX), (usize::MAX - 1, usize::MAX), (usize::MAX, 0)] {
            has_pieces_in(&text, &pieces, start, end, &mut chance);
        }
    }
}

/// A piece at the end of a chunk is what it is in all bytes: the next chunk may have what decides its kind.
#[test]
fn pieces_over_the_ends_of_chunks() {
    let mut chance = Chance(33);
    for unit in ["😀", "\u{10FFFF}€é!"].map(str::as_bytes).into_iter().chain([
        &b"\xF0\x9F\x98"[..],
        b"\xE2\x82",
        b"\xF4\x90\x80\x80",
        b"\xED\xA0\x80",
    ]) {
        for front in 0..4 {
            let bytes = [&b"abc"[..front], &unit.repeat(9_000 / unit.len())].concat();
            has_pieces_in(&TextBuffer::new(&bytes), &cut(&bytes), 0, bytes.len(), &mut chance);
        }
    }
}

#[test]
fn what_lies_past_the_end() {
    let mut text = TextBuffer::new(b"a\nb");
    assert_eq!((text.number_of(usize::MAX), text.line_of(usize::MAX)), (3, 1));
    assert_eq!((text.piece(usize::MAX), text.piece_at(3), text.piece_at(usize::MAX)), (None, None, None));
    assert_eq!((text.offset_of(usize::MAX), text.offset_of_line(2)), (None, None));
    assert_eq!((text.next_fault(usize::MAX), text.previous_fault(usize::MAX)), (None, None));
    for (start, end) in [(2, 4), (4, 4), (3, 2), (usize::MAX, usize::MAX)] {
        let edit = std::panic::catch_unwind(std::panic::AssertUnwindSafe(|| text.replace(start..end, b"x")));
        assert!(edit.is_err(), "{start}..{end}");
    }
    assert_eq!(text.to_vec(), b"a\nb");
}

#[test]
fn copies_are_apart_and_threads_may_have_one() {
    fn is_sent<T: Send + Sync>(_: &T) {}
    let text = TextBuffer::new(b"one");
    is_sent(&text);
    let mut copy = text.clone();
    copy.replace(0..1, b"t");
    assert_eq!((text.to_vec(), copy.to_vec()), (b"one".to_vec(), b"tne".to_vec()));
    assert!(format!("{text:?}").starts_with("TextBuffer { counts: Counts {"));
}

/// Whether two texts are equal, whichever is asked.
fn same(one: &TextBuffer, two: &TextBuffer) -> bool {
    let is_same = one == two;
    assert_eq!(two == one, is_same);
    is_same
}

/// Texts are equal by their bytes, however they were edited: the chunks of these end at other offsets.
#[test]
fn texts_are_compared_by_their_bytes() {
    let mut chance = Chance(31);
    for round in 0..24 {
        let bytes = some(&mut chance, [0, 5, 900, 9_000][round % 4]);
        let whole = TextBuffer::new(&bytes);
        let mut made = TextBuffer::default();
        for part in bytes.chunks(50 + chance.below(700)) {
            made.insert(made.len(), part);
        }
        for _ in 0..20 {
            let at = chance.below(made.len() + 1);
            made.insert(at, &bytes[..bytes.len().min(2_100)]);
            made.remove(at..at + bytes.len().min(2_100));
        }
        assert!(same(&made, &whole) && same(&made, &made.clone()));
        if !bytes.is_empty() {
            let at = chance.below(bytes.len());
            made.replace(at..at + 1, &[bytes[at] ^ 1]);
            assert!(!same(&made, &whole));
            made.replace(at..at + 1, &[bytes[at], b'!']);
            assert!(!same(&made, &whole));
        }
    }
    let (one, two) = (PieceTable::new(b"a\xC3"), PieceTable::new(b"a\xC3\xA9"));
    let mut edited = one.clone();
    edited.replace(2..2, b"\xA9");
    assert!(one != two && edited == two && edited != one);
}
