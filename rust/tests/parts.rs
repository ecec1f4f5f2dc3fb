//! A decoder in parts, and the pieces of a reader, compared with what std and the table of errors say of the whole.

mod common;

use common::{long_text_of, of_encoding, text_of, Chance, End, Told};
use noddychest::{io, Decoder, Encoding, FaultKind, Piece, Status};
use std::io::{BufRead, BufReader, Error, ErrorKind, Read, Result};

fn seen(piece: Piece<u64>) -> Told {
    assert_eq!(piece.range(), piece.offset..piece.offset + piece.len as u64);
    if let Err(fault) = piece.result {
        assert_eq!(fault.range(), piece.range());
    }
    (piece.offset as usize, piece.len, piece.result.map_err(|fault| fault.kind()))
}

/// The content of an output buffer before it is written.
fn blank() -> Piece<u64> {
    Piece::new(77, 1, Ok('\0'))
}

/// Feeds the parts into rooms of the sizes that `room` gives. Of what is held nothing is decided, and all else was given.
fn decoded_in_parts(mut decoder: Decoder, parts: &[&[u8]], mut room: impl FnMut() -> usize) -> Vec<Told> {
    let (mut out, mut fed) = (Vec::new(), 0);
    let note = |out: &mut Vec<Told>, decoder: &Decoder, place: &[Piece<u64>], written: usize| {
        assert!(place[written..].iter().all(|it| *it == blank()), "it writes where it says nothing of");
        out.extend(place[..written].iter().copied().map(seen));
        assert_eq!(decoder.offset() as usize, out.last().map_or(0, |it| it.0 + it.1));
    };
    for part in parts {
        let mut rest = *part;
        loop {
            let mut place = vec![blank(); room()];
            let did = decoder.feed(rest, &mut place);
            (rest, fed) = (&rest[did.read..], fed + did.read);
            note(&mut out, &decoder, &place, did.written);
            assert_eq!(decoder.offset() as usize + decoder.held().len(), fed);
            assert!(did.status == Status::Done || (did.status == Status::Full && did.written == place.len()));
            if did.status == Status::Done {
                break;
            }
        }
        assert!(rest.is_empty() && decoder.held().len() < 4);
    }
    loop {
        let mut place = vec![blank(); room()];
        let did = decoder.finish(&mut place);
        note(&mut out, &decoder, &place, did.written);
        if did.status == Status::Done {
            break assert_eq!((did.read, decoder.held(), decoder.offset() as usize), (0, &[][..], fed));
        }
        assert_eq!((did.status, did.written), (Status::Full, place.len()));
    }
    out
}

/// The invalid bytes of the parts. A second decoder that is fed for all pieces has the same carried-over bytes after each part.
fn faults_in_parts(mut decoder: Decoder, parts: &[&[u8]], mut room: impl FnMut() -> usize) -> Vec<Told> {
    let (mut out, mut beside) = (Vec::new(), decoder.clone());
    for part in parts {
        let mut rest = *part;
        loop {
            let mut place = vec![blank(); room()];
            let did = decoder.feed_faults(rest, &mut place);
            assert!(
                place[did.written..].iter().all(|it| *it == blank())
                    && place[..did.written].iter().all(|it| it.fault().is_some())
            );
            out.extend(place[..did.written].iter().copied().map(seen));
            rest = &rest[did.read..];
            if did.status == Status::Done {
                break;
            }
            assert_eq!((did.status, did.written), (Status::Full, place.len()));
        }
        assert_eq!(beside.feed(part, &mut vec![blank(); part.len() + 3]).read, part.len());
        assert_eq!((rest, decoder.held(), decoder.offset()), (&[][..], beside.held(), beside.offset()));
    }
    let mut last = [blank(); 3];
    let did = decoder.finish(&mut last);
    out.extend(last[..did.written].iter().copied().map(seen));
    out
}

#[test]
fn random_texts_in_random_parts() {
    let mut chance = Chance(11);
    for _ in 0..20_000 {
        for &encoding in Encoding::ALL {
            let bytes = text_of(encoding, &mut chance, 16);
            let want = of_encoding(encoding, &bytes, End::OfParts);
            let first = chance.below(bytes.len() + 1);
            let second = first + chance.below(bytes.len() - first + 1);
            let parts = [&bytes[..first], &bytes[first..second], &bytes[second..]];
            let most = 2 + chance.below(20);
            assert_eq!(decoded_in_parts(Decoder::new(encoding), &parts, || chance.below(most)), want, "{encoding} {parts:x?}");
            let faults: Vec<Told> = want.into_iter().filter(|it| it.2.is_err()).collect();
            assert_eq!(faults_in_parts(Decoder::new(encoding), &parts, || chance.below(most)), faults, "{encoding} {parts:x?}");
        }
    }
}

#[test]
fn every_cut_of_short_texts() {
    let mut chance = Chance(12);
    for _ in 0..300 {
        for &encoding in Encoding::ALL {
            let bytes = text_of(encoding, &mut chance, 8);
            let want = of_encoding(encoding, &bytes, End::OfParts);
            for first in 0..=bytes.len() {
                for second in first..=bytes.len() {
                    for room in [1, 2, 5, 64] {
                        let parts = [&bytes[..first], &bytes[first..second], &bytes[second..]];
                        assert_eq!(decoded_in_parts(Decoder::new(encoding), &parts, || room), want, "{encoding} {parts:x?}");
                    }
                }
            }
        }
    }
}

/// More pieces than a decoder asks of the proved text in one call, in output buffers of about as many.
#[test]
fn long_texts_in_large_rooms() {
    let mut chance = Chance(13);
    for &encoding in Encoding::ALL {
        let bytes = long_text_of(encoding, &mut chance, 20_000);
        let want = of_encoding(encoding, &bytes, End::OfParts);
        for room in [31, 32, 33, 64, 65, 100_000] {
            let parts: Vec<&[u8]> = bytes.chunks(1 + chance.below(5_000)).collect();
            assert!(decoded_in_parts(Decoder::new(encoding), &parts, || room) == want, "{encoding} {room}");
        }
    }
}

#[test]
fn byte_by_byte_as_a_merger() {
    let mut chance = Chance(14);
    for _ in 0..5_000 {
        let bytes = chance.bytes(12);
        let parts: Vec<&[u8]> = bytes.chunks(1).collect();
        let merged = noddychest::pieces(&bytes).map(|it| noddychest::streamed_at(&bytes, it.offset).expect("a piece"));
        let merged = merged.map(|it| (it.offset, it.len, it.result.map_err(|fault| fault.kind())));
        assert!(decoded_in_parts(Decoder::new(Encoding::Utf8), &parts, || 2).into_iter().eq(merged), "{bytes:x?}");
    }
}

/// What a decoder holds that was fed the bytes.
fn held_of(encoding: Encoding, bytes: &[u8]) -> usize {
    let mut decoder = Decoder::new(encoding);
    let did = decoder.feed(bytes, &mut vec![blank(); bytes.len()]);
    assert_eq!((did.read, did.status), (bytes.len(), Status::Done));
    decoder.held().len()
}

#[test]
fn what_is_undecided_is_what_a_decoder_holds() {
    let mut chance = Chance(15);
    for _ in 0..20_000 {
        for &encoding in Encoding::ALL {
            let bytes = text_of(encoding, &mut chance, 10);
            for block in (0..=bytes.len()).map(|len| &bytes[..len]) {
                assert_eq!(noddychest::undecided_len(encoding, block), held_of(encoding, block), "{encoding} {block:x?}");
            }
        }
    }
    let long = [&b"a".repeat(100_000)[..], b"\xF0\x9F\x98"].concat();
    assert_eq!(noddychest::undecided_len(Encoding::Utf8, &long), 3);
}

/// A block without its undecided end has the pieces that the whole has there, whatever the rest is.
#[test]
fn what_is_decided_stays() {
    let mut chance = Chance(16);
    for _ in 0..2_000 {
        for &encoding in Encoding::ALL {
            let bytes = text_of(encoding, &mut chance, 10);
            let want = of_encoding(encoding, &bytes, End::OfParts);
            for len in 0..=bytes.len() {
                let whole = len - noddychest::undecided_len(encoding, &bytes[..len]);
                let mut have = of_encoding(encoding, &bytes[..len], End::OfParts);
                have.retain(|it| it.0 < whole);
                assert_eq!(have, want[..have.len()], "{encoding} {len} {bytes:x?}");
                assert_eq!(have.last().map_or(0, |it| it.0 + it.1), whole);
            }
        }
    }
}

#[test]
fn rooms_without_a_place() {
    let mut decoder = Decoder::new(Encoding::Utf8);
    assert_eq!(decoder.feed(b"", &mut []).status, Status::Done);
    let did = decoder.feed(b"\xE2", &mut []);
    assert_eq!((did.read, did.status, decoder.held()), (1, Status::Done, &b"\xE2"[..]));
    let did = decoder.feed(b"A", &mut []);
    assert_eq!((did.written, did.status), (0, Status::Full));
    assert_eq!(decoder.finish(&mut []).status, Status::Full);
    let mut room = [blank(); 4];
    let did = decoder.finish(&mut room);
    assert_eq!((did.written, room[0].fault().expect("a fault").kind()), (1, FaultKind::TooFewBytes));
}

#[test]
fn clones_go_on_by_themselves() {
    let mut decoder = Decoder::new(Encoding::Utf16Le);
    let mut room = [blank(); 4];
    assert_eq!(decoder.feed(b"a\0\x3D\xD8\0", &mut room).written, 1);
    let mut other = decoder.clone();
    assert_eq!(decoder.feed(b"\xDE", &mut room).written, 1);
    assert_eq!(seen(room[0]), (2, 4, Ok('😀')));
    assert_eq!(other.finish(&mut room).written, 2);
    assert_eq!([seen(room[0]), seen(room[1])], [(2, 2, Err(FaultKind::Incomplete)), (4, 1, Err(FaultKind::Incomplete))]);
    assert_eq!((decoder.encoding(), decoder.offset(), other.offset()), (Encoding::Utf16Le, 6, 5));
}

/// Lends some bytes at a time, takes some of them, and fails now and then. It never lends again what was taken.
struct Halting {
    chance: Chance,
    bytes: Vec<u8>,
    place: usize,
    lent: usize,
}

impl BufRead for Halting {
    fn fill_buf(&mut self) -> Result<&[u8]> {
        match self.chance.below(6) {
            0 => return Err(ErrorKind::Interrupted.into()),
            1 => return Err(ErrorKind::WouldBlock.into()),
            _ => {}
        }
        let most = [1, 2, 3, 5, 40, 400][self.chance.below(6)];
        self.lent = most.min(self.bytes.len() - self.place);
        Ok(&self.bytes[self.place..self.place + self.lent])
    }

    fn consume(&mut self, count: usize) {
        assert!(count <= self.lent, "it takes more than was lent");
        (self.place, self.lent) = (self.place + count, self.lent - count);
    }
}

impl Read for Halting {
    fn read(&mut self, _: &mut [u8]) -> Result<usize> {
        panic!("nobody asked for it");
    }
}

/// All items of an iterator that fails now and then; after the end it stays ended.
fn all<T>(mut items: impl Iterator<Item = Result<T>>) -> Vec<T> {
    let mut out = Vec::new();
    loop {
        match items.next() {
            Some(Ok(item)) => out.push(item),
            Some(Err(error)) => assert_eq!(error.kind(), ErrorKind::WouldBlock),
            None => break assert!(items.next().is_none()),
        }
    }
    out
}

fn hold_reader(encoding: Encoding, bytes: &[u8], seed: u64) {
    let want = of_encoding(encoding, bytes, End::OfParts);
    let reader = || Halting { chance: Chance(seed), bytes: bytes.to_vec(), place: 0, lent: 0 };
    assert!(all(io::pieces(reader(), encoding)).into_iter().map(seen).eq(want.iter().copied()), "{encoding} {bytes:x?}");
    let faults = all(io::faults(reader(), encoding)).into_iter().map(|it| (it.range(), it.kind()));
    let want = want.into_iter().filter_map(|(at, len, answer)| Some((at as u64..(at + len) as u64, answer.err()?)));
    assert!(faults.eq(want), "{encoding} {bytes:x?}");
}

#[test]
fn readers_that_halt() {
    let mut chance = Chance(15);
    for seed in 0..6_000 {
        for &encoding in Encoding::ALL {
            let bytes = text_of(encoding, &mut chance, 40);
            hold_reader(encoding, &bytes, seed);
        }
    }
    for seed in 0..60 {
        for &encoding in Encoding::ALL {
            hold_reader(encoding, &long_text_of(encoding, &mut chance, 3_000), seed);
        }
    }
}

#[test]
fn readers_of_small_buffers() {
    let mut chance = Chance(16);
    for &encoding in Encoding::ALL {
        let bytes = long_text_of(encoding, &mut chance, 3_000);
        let want = of_encoding(encoding, &bytes, End::OfParts);
        for capacity in [1, 2, 3, 7, 64, 4096] {
            let pieces = all(io::pieces(BufReader::with_capacity(capacity, &bytes[..]), encoding));
            assert!(pieces.into_iter().map(seen).eq(want.iter().copied()), "{encoding} {capacity}");
            let faults = all(io::faults(BufReader::with_capacity(capacity, &bytes[..]), encoding)).len();
            assert_eq!(faults, want.iter().filter(|it| it.2.is_err()).count(), "{encoding} {capacity}");
        }
    }
}

/// Fails once and for all, after a part.
struct Failing<'a>(&'a [u8]);

impl BufRead for Failing<'_> {
    fn fill_buf(&mut self) -> Result<&[u8]> {
        if self.0.is_empty() {
            return Err(Error::other("the disk is gone"));
        }
        Ok(self.0)
    }

    fn consume(&mut self, count: usize) {
        self.0 = &self.0[count..];
    }
}

impl Read for Failing<'_> {
    fn read(&mut self, _: &mut [u8]) -> Result<usize> {
        panic!("nobody asked for it");
    }
}

#[test]
fn errors_come_after_what_was_read() {
    let mut pieces = io::pieces(Failing(b"a\xC3"), Encoding::Utf8);
    assert_eq!(pieces.next().expect("a piece").expect("no error").char(), Some('a'));
    for _ in 0..3 {
        assert_eq!(pieces.next().expect("an error").expect_err("no piece").to_string(), "the disk is gone");
    }
    let mut faults = io::faults(Failing(b"a\xFFb"), Encoding::Utf8);
    assert_eq!(faults.next().expect("a fault").expect("no error").offset(), 1);
    assert!(faults.next().expect("an error").is_err());
    assert!(faults.into_inner().0.is_empty());
}

/// Lends the same bytes `times` times.
struct Again<'a> {
    bytes: &'a [u8],
    place: usize,
    times: usize,
}

impl BufRead for Again<'_> {
    fn fill_buf(&mut self) -> Result<&[u8]> {
        if self.place == self.bytes.len() && self.times > 0 {
            (self.place, self.times) = (0, self.times - 1);
        }
        Ok(&self.bytes[self.place..])
    }

    fn consume(&mut self, count: usize) {
        self.place += count;
    }
}

impl Read for Again<'_> {
    fn read(&mut self, _: &mut [u8]) -> Result<usize> {
        panic!("nobody asked for it");
    }
}

/// Offsets go on past what 32 bits can count. (It goes over 5 GB, which takes long if nothing is optimized.)
#[test]
fn offsets_past_32_bits() {
    if cfg!(debug_assertions) {
        return;
    }
    const LEN: usize = 1 << 20;
    let mut bytes = vec![b'a'; LEN];
    bytes[LEN - 1] = 0xFF;
    let faults = io::faults(Again { bytes: &bytes, place: LEN, times: 5_000 }, Encoding::Utf8);
    let offsets = faults.map(|it| it.expect("no error").offset());
    assert!(offsets.eq((1..=5_000).map(|k| k * LEN as u64 - 1)));
    let text = "😀".repeat(LEN / 4);
    let (mut decoder, mut room) = (Decoder::new(Encoding::Utf8), vec![blank(); LEN / 4]);
    for _ in 0..4_097 {
        assert_eq!(decoder.feed(text.as_bytes(), &mut room).written, LEN / 4);
    }
    assert_eq!((decoder.offset(), room[LEN / 4 - 1].offset), (4_097 << 20, (4_097 << 20) - 4));
}
