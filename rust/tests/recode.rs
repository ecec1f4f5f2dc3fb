//! Transcoding, compared with what std makes of the text, in every cut and every room.

mod common;

use common::repairs::{repaired, some_repair, some_repairs};
use common::{encoded, long_text_of, of_encoding, of_hex, rows, text_of, Chance, End};
use noddychest::{
    changed_range, decode, decode_lossy, decode_repaired, decode_strict, recode, recode_lossy, recode_repaired, recode_strict,
    recoded_len, recoded_len_max, shard_end,
};
use noddychest::{Encoding, Fault, FaultKind, Recoder, Repair, Status};

/// The characters and faults of the text, with how many bytes each has.
fn decoded(encoding: Encoding, bytes: &[u8]) -> Vec<(usize, Result<char, FaultKind>)> {
    of_encoding(encoding, bytes, End::OfSlice).into_iter().map(|(_, len, answer)| (len, answer)).collect()
}

/// What std makes of it, with U+FFFD for each fault.
fn replaced(from: Encoding, to: Encoding, bytes: &[u8]) -> Vec<u8> {
    encoded(to, decoded(from, bytes).into_iter().map(|it| it.1.unwrap_or('\u{FFFD}')))
}

fn faults(from: Encoding, bytes: &[u8]) -> Vec<(usize, usize, FaultKind)> {
    let mut offset = 0;
    let places = decoded(from, bytes).into_iter().map(|(len, answer)| {
        offset += len;
        (offset - len, len, answer)
    });
    places.filter_map(|(at, len, answer)| answer.err().map(|kind| (at, len, kind))).collect()
}

fn pairs() -> impl Iterator<Item = (Encoding, Encoding)> {
    Encoding::ALL.iter().flat_map(|from| Encoding::ALL.iter().map(move |to| (*from, *to)))
}

/// How many places before a room and after it have to stay as they were.
const GUARDS: usize = 64;

/// Feeds the parts into rooms of the sizes that `room` gives: what came out, and each fault.
fn recoded_in_parts(mut recoder: Recoder, parts: &[&[u8]], mut room: impl FnMut() -> usize) -> (Vec<u8>, Vec<Fault>) {
    let (mut out, mut told, mut turns) = (Vec::new(), Vec::new(), 0);
    let mut note = |out: &mut Vec<u8>, room: &[u8], status: Status| {
        turns += 1;
        assert!(turns < 10_000, "it goes on for ever");
        out.extend_from_slice(room);
        if let Status::Fault(fault) = status {
            told.push(fault);
        }
        status == Status::Done
    };
    for part in parts {
        let mut rest = *part;
        loop {
            let size = room();
            let mut painted = vec![0xAA; size + 2 * GUARDS];
            let did = recoder.feed(rest, &mut painted[GUARDS..GUARDS + size]);
            let place = &painted[GUARDS..];
            assert!(painted[..GUARDS].iter().chain(&place[size..]).all(|it| *it == 0xAA), "it writes outside of its room");
            rest = &rest[did.read..];
            if note(&mut out, &place[..did.written], did.status) {
                break;
            }
        }
        assert!(rest.is_empty());
    }
    loop {
        let mut place = vec![0xAA; room()];
        let did = recoder.finish(&mut place);
        if note(&mut out, &place[..did.written], did.status) {
            break;
        }
    }
    assert!(recoder.held().is_empty());
    (out, told)
}

/// What std makes of it, with U+FFFD for each maximal subpart. Of UTF-16 that is a surrogate, half a unit, or both where they end the
/// text.
fn replaced_lossily(from: Encoding, to: Encoding, bytes: &[u8]) -> Vec<u8> {
    if from == Encoding::Utf8 {
        return encoded(to, String::from_utf8_lossy(bytes).chars());
    }
    let mut told = of_encoding(from, bytes, End::OfSlice);
    if let [.., (_, 2, Err(FaultKind::Incomplete)), _] = told[..] {
        told.pop();
    }
    encoded(to, told.into_iter().map(|it| it.2.unwrap_or('\u{FFFD}')))
}

/// Feeds the parts into a vector, and into a string if that is UTF-8.
fn appended_in_parts(recoder: &Recoder, parts: &[&[u8]]) -> Vec<u8> {
    let (mut recoder, mut other) = (recoder.clone(), recoder.clone());
    let (mut out, mut text) = (vec![1, 2], String::from("\u{1}\u{2}"));
    for part in parts {
        let had = out.len();
        let did = recoder.feed_to_vec(part, &mut out);
        assert_eq!((did.read, had + did.written, did.status), (part.len(), out.len(), Status::Done));
        if other.to() == Encoding::Utf8 {
            assert_eq!(other.feed_to_string(part, &mut text), did);
        }
    }
    let did = recoder.finish_to_vec(&mut out);
    assert_eq!((did.read, did.status, recoder.held()), (0, Status::Done, &[][..]));
    if other.to() == Encoding::Utf8 {
        assert_eq!(other.finish_to_string(&mut text), did);
        assert_eq!(text.as_bytes(), out);
    }
    assert_eq!(out[..2], [1, 2]);
    out.split_off(2)
}

fn hold_text(from: Encoding, to: Encoding, bytes: &[u8], chance: &mut Chance) {
    let whole = replaced(from, to, bytes);
    let valid: Vec<u8> = encoded(to, decoded(from, bytes).into_iter().filter_map(|it| it.1.ok()));
    let want = faults(from, bytes);
    assert_eq!(recode(from, to, bytes), whole, "{from} {to} {bytes:x?}");
    assert!(recoded_len_max(from, to, bytes.len()) >= Some(whole.len()));
    assert_eq!(recoded_len(from, to, bytes), whole.len(), "{from} {to} {bytes:x?}");
    let strict = recode_strict(from, to, bytes).map_err(|it| (it.offset(), it.range().len(), it.kind()));
    assert_eq!(strict, want.first().map_or(Ok(whole.clone()), |it| Err(*it)), "{from} {to} {bytes:x?}");
    let first = chance.below(bytes.len() + 1);
    let second = first + chance.below(bytes.len() - first + 1);
    let parts = [&bytes[..first], &bytes[first..second], &bytes[second..]];
    let most = 4 + chance.below(20);
    let rooms = |chance: &mut Chance| if most < 8 { 4 } else { chance.below(most) };
    let (out, told) = recoded_in_parts(Recoder::new(from, to), &parts, || rooms(chance));
    assert!(out == whole && told.is_empty(), "{from} {to} {parts:x?}");
    assert_eq!(appended_in_parts(&Recoder::new(from, to), &parts), whole, "{from} {to} {parts:x?}");
    let lossy = replaced_lossily(from, to, bytes);
    assert_eq!(recode_lossy(from, to, bytes), lossy, "{from} {to} {bytes:x?}");
    let (out, told) = recoded_in_parts(Recoder::lossy(from, to), &parts, || rooms(chance));
    assert!(out == lossy && told.is_empty(), "{from} {to} {parts:x?}");
    assert_eq!(appended_in_parts(&Recoder::lossy(from, to), &parts), lossy, "{from} {to} {parts:x?}");
    let (table, repair) = some_repair(chance);
    let mended = repaired(from, to, bytes, &table);
    assert_eq!(recode_repaired(from, to, bytes, repair), mended, "{from} {to} {repair:?} {bytes:x?}");
    assert!(recoded_len_max(from, to, bytes.len()) >= Some(mended.len()));
    let recoder = Recoder::repair(from, to, repair);
    let (out, told) = recoded_in_parts(recoder.clone(), &parts, || rooms(chance));
    assert!(out == mended && told.is_empty(), "{from} {to} {repair:?} {parts:x?}");
    assert_eq!(appended_in_parts(&recoder, &parts), mended, "{from} {to} {repair:?} {parts:x?}");
    let (out, told) = recoded_in_parts(Recoder::strict(from, to), &parts, || rooms(chance));
    assert_eq!(out, valid, "{from} {to} {parts:x?}");
    let told: Vec<_> = told.iter().map(|it| (it.offset(), it.range().len(), it.kind())).collect();
    assert_eq!(told, want, "{from} {to} {parts:x?}");
}

#[test]
fn random_texts_in_random_parts() {
    let mut chance = Chance(4);
    for _ in 0..8_000 {
        for (from, to) in pairs() {
            let bytes = text_of(from, &mut chance, 16);
            hold_text(from, to, &bytes, &mut chance);
        }
    }
}

#[test]
fn every_cut_of_short_texts() {
    let mut chance = Chance(5);
    for _ in 0..100 {
        for (from, to) in pairs() {
            let bytes = text_of(from, &mut chance, 8);
            let (whole, want) = (replaced(from, to, &bytes), faults(from, &bytes));
            for first in 0..=bytes.len() {
                for second in first..=bytes.len() {
                    for room in [4, 5, 9, 64] {
                        let parts = [&bytes[..first], &bytes[first..second], &bytes[second..]];
                        assert_eq!(recoded_in_parts(Recoder::new(from, to), &parts, || room).0, whole);
                        let (_, told) = recoded_in_parts(Recoder::strict(from, to), &parts, || room);
                        let told: Vec<_> = told.iter().map(|it| (it.offset(), it.range().len(), it.kind())).collect();
                        assert_eq!(told, want, "{from} {to} {parts:x?}");
                    }
                }
            }
        }
    }
}

#[test]
fn long_texts() {
    let mut chance = Chance(6);
    for (from, to) in pairs() {
        let bytes = long_text_of(from, &mut chance, 200_000);
        hold_text(from, to, &bytes[..1000], &mut chance);
        assert!(recode(from, to, &bytes) == replaced(from, to, &bytes), "{from} {to}");
        assert_eq!(recoded_len(from, to, &bytes), replaced(from, to, &bytes).len(), "{from} {to}");
        assert!(recode_lossy(from, to, &bytes) == replaced_lossily(from, to, &bytes), "{from} {to}");
        assert!(appended_in_parts(&Recoder::new(from, to), &[&bytes]) == replaced(from, to, &bytes), "{from} {to}");
        let (table, repair) = some_repair(&mut chance);
        assert!(recode_repaired(from, to, &bytes, repair) == repaired(from, to, &bytes, &table), "{from} {to} {repair:?}");
        let text = encoded(from, "aé€😀".repeat(10_000).chars());
        assert!(recode_strict(from, to, &text) == Ok(replaced(from, to, &text)), "{from} {to}");
    }
}

#[test]
fn texts_become_strings() {
    let mut chance = Chance(9);
    for &encoding in Encoding::ALL {
        for _ in 0..2_000 {
            let bytes = text_of(encoding, &mut chance, 16);
            assert_eq!(decode(encoding, &bytes).as_bytes(), replaced(encoding, Encoding::Utf8, &bytes));
            assert_eq!(decode_lossy(encoding, &bytes).as_bytes(), replaced_lossily(encoding, Encoding::Utf8, &bytes));
            let (table, repair) = some_repair(&mut chance);
            let text = decode_repaired(encoding, &bytes, repair);
            assert_eq!(text.as_bytes(), repaired(encoding, Encoding::Utf8, &bytes, &table), "{repair:?}");
            assert_eq!(decode_repaired(Encoding::Utf8, text.as_bytes(), Repair::DROP), text);
            let fault = faults(encoding, &bytes).first().copied();
            let strict = decode_strict(encoding, &bytes).map_err(|it| (it.offset(), it.range().len(), it.kind()));
            assert_eq!(strict, fault.map_or(Ok(decode(encoding, &bytes)), Err));
        }
    }
}

/// Each byte from 80 on, alone and between letters, by each table.
#[test]
fn each_byte_becomes_what_its_table_has() {
    let mut chance = Chance(21);
    for (table, repair) in some_repairs(&mut chance) {
        for byte in 0x80..=u8::MAX {
            let want = table.of_byte(byte).map_or(String::new(), String::from);
            assert_eq!(repair.char_for(byte), table.of_byte(byte));
            assert_eq!(decode_repaired(Encoding::Utf8, &[byte], repair), want, "{repair:?} {byte:x}");
            assert_eq!(decode_repaired(Encoding::Utf8, &[b'a', byte, b'z'], repair), format!("a{want}z"), "{repair:?} {byte:x}");
        }
        assert!((0..0x80).all(|byte| repair.char_for(byte) == Some(char::from(byte))));
    }
}

/// Invalid bytes, lone surrogates and odd last bytes are counted in each way, also those that are left out; U+FFFD in the text is not.
#[test]
fn what_was_replaced_is_counted() {
    let mut chance = Chance(22);
    for _ in 0..2_000 {
        for (from, to) in pairs() {
            let mut bytes = encoded(from, "\u{FFFD}é".chars());
            bytes.extend(text_of(from, &mut chance, 16));
            let at = chance.below(bytes.len() + 1);
            let (_, repair) = some_repair(&mut chance);
            for mut recoder in [Recoder::repair(from, to, repair), Recoder::lossy(from, to), Recoder::new(from, to)] {
                let mut out = Vec::new();
                for part in [&bytes[..at], &bytes[at..]] {
                    assert_eq!(recoder.feed_to_vec(part, &mut out).status, Status::Done);
                }
                let _ = recoder.finish_to_vec(&mut out);
                assert_eq!(recoder.replaced(), faults(from, &bytes).len() as u64, "{recoder:?} {repair:?} {bytes:x?}");
            }
        }
    }
}

/// A table is asked for each byte once, in order, and one with a character above U+FFFF is none.
#[test]
fn tables_are_made() {
    let mut asked = Vec::new();
    let made = Repair::from_fn(|byte| {
        asked.push(byte);
        Some('\u{FFFF}')
    });
    assert!(asked.into_iter().eq(0x80..=u8::MAX));
    assert_eq!(decode_repaired(Encoding::Utf8, b"\xFF", made.expect("no character is above U+FFFF")), "\u{FFFF}");
    let mut chars = [None; 128];
    (chars[5], chars[6]) = (Some('\u{10000}'), Some('\u{10FFFF}'));
    let error = Repair::from_table(&chars).expect_err("a character is above U+FFFF");
    assert_eq!((error.byte(), error.char()), (0x85, '\u{10000}'));
    chars = [None; 128];
    chars[0x69] = Some('é');
    let only = Repair::from_table(&chars).expect("no character is above U+FFFF");
    assert_eq!(decode_repaired(Encoding::Utf8, b"\xE9\xEA", only), "é");
    // (equal is what writes the same)
    assert_eq!(Repair::from_fn(|byte| Some(char::from(byte))), Ok(Repair::LATIN_1));
    assert_ne!(Repair::from_fn(|byte| Some(char::from(byte))), Ok(Repair::WINDOWS_1252));
    assert_ne!(Repair::from_fn(|_| None), Ok(Repair::DROP));
    // (a table that has nothing is a table: only DROP leaves surrogates out)
    let nothing = Repair::from_table(&[None; 128]).expect("no character is above U+FFFF");
    assert_eq!(decode_repaired(Encoding::Utf16Be, b"\xD8\0\0a\0", nothing), "\u{FFFD}a\u{FFFD}");
    assert_eq!(
        format!("{:?} {only:?}", [Repair::DROP, Repair::WINDOWS_1252, Repair::LATIN_1]),
        "[Repair::DROP, Repair::WINDOWS_1252, Repair::LATIN_1] {233: 'é'}"
    );
}

/// Stored rows, whose results are those of Python's codec for the bytes that are not UTF-8.
#[test]
fn mixed_encodings() {
    let bytes = b"\x93Caf\xE9\x94 \xE2\x82\xAC 10, \x80 10, na\xC3\xAFve na\xEFve \x81";
    let (windows, latin) = ("“Café” € 10, € 10, naïve naïve \u{81}", "\u{93}Café\u{94} € 10, \u{80} 10, naïve naïve \u{81}");
    assert_eq!(decode_repaired(Encoding::Utf8, bytes, Repair::WINDOWS_1252), windows);
    assert_eq!(decode_repaired(Encoding::Utf8, bytes, Repair::LATIN_1), latin);
    assert_eq!(decode_repaired(Encoding::Utf8, bytes, Repair::DROP), "Caf € 10,  10, naïve nave ");
}

/// A strict recoder that appends stops at each fault, and goes on with what it did not read.
#[test]
fn strict_recoders_append_up_to_faults() {
    let (mut recoder, mut text) = (Recoder::strict(Encoding::Utf16Be, Encoding::Utf8), String::new());
    let (mut rest, mut told) = (&b"\0a\xDE\0\xD8\0\0b\xD8"[..], Vec::new());
    loop {
        let did = recoder.feed_to_string(rest, &mut text);
        rest = &rest[did.read..];
        match did.status {
            Status::Fault(fault) => told.push(fault.range()),
            status => break assert_eq!((status, rest), (Status::Done, &[][..])),
        }
    }
    while let Status::Fault(fault) = recoder.finish_to_string(&mut text).status {
        told.push(fault.range());
    }
    assert_eq!((told, &text[..]), (vec![2..4, 4..6, 8..9], "ab"));
}

#[test]
#[should_panic(expected = "a string takes UTF-8, and this recoder writes utf16le")]
fn a_string_takes_no_other_encoding() {
    let _ = Recoder::new(Encoding::Utf8, Encoding::Utf16Le).feed_to_string(b"", &mut String::new());
}

/// A strict recoder waits only where what follows decides whether a byte is invalid, or why.
#[test]
fn strict_recoding_waits_for_the_kind() {
    for (part, held) in [(&b"a\xE9"[..], 1), (b"a\xE9\n", 2), (b"a\xF0\x80A", 3), (b"a\xE9\x80", 2)] {
        let (mut recoder, mut room) = (Recoder::strict(Encoding::Utf8, Encoding::Utf8), [0; 9]);
        let did = recoder.feed(part, &mut room);
        assert_eq!((did.read, did.written, did.status), (part.len(), 1, Status::Done), "{part:x?}");
        assert_eq!(recoder.held(), &part[part.len() - held..]);
    }
    let mut recoder = Recoder::strict(Encoding::Utf8, Encoding::Utf8);
    assert_eq!(recoder.feed(b"\xE9\n", &mut [0; 9]).status, Status::Done);
    let Status::Fault(fault) = recoder.feed(b"A", &mut [0; 9]).status else { panic!("a third byte decides") };
    assert_eq!((fault.offset(), fault.kind()), (0, FaultKind::InterruptedSequence));
}

/// A small room and a large part: the strict recoder judges no more of it than fills the room.
#[test]
fn strict_recoding_is_not_quadratic() {
    let text = "aé€😀".repeat(1_000_000);
    let (mut recoder, mut rest, mut written) = (Recoder::strict(Encoding::Utf8, Encoding::Utf8), text.as_bytes(), 0);
    let begun = std::time::Instant::now();
    while !rest.is_empty() {
        let did = recoder.feed(rest, &mut [0; 64]);
        rest = &rest[did.read..];
        written += did.written;
    }
    assert_eq!(written, text.len());
    assert!(begun.elapsed().as_secs() < 20, "{:?}", begun.elapsed());
}

#[test]
fn vectors_of_recodings() {
    for row in rows("recode.txt") {
        let encodings: Vec<Encoding> = row[0].split(' ').map(|it| it.parse().expect("an encoding")).collect();
        assert_eq!(recode(encodings[0], encodings[1], &of_hex(&row[1])), of_hex(&row[2]), "{row:?}");
    }
}

#[test]
fn shards_are_recoded_by_themselves() {
    let mut chance = Chance(7);
    for _ in 0..2_000 {
        for (from, to) in pairs() {
            let bytes = text_of(from, &mut chance, 16);
            let at = chance.below(bytes.len() + 3);
            let end = shard_end(from, &bytes, at);
            assert!(end <= at.min(bytes.len()) && end + 3 >= at.min(bytes.len()));
            let (front, rest) = bytes.split_at(end);
            let joined = [recode(from, to, front), recode(from, to, rest)].concat();
            assert_eq!(joined, recode(from, to, &bytes), "{from} {to} {bytes:x?} at {at}");
            let (table, repair) = some_repair(&mut chance);
            let joined = [recode_repaired(from, to, front, repair), recode_repaired(from, to, rest, repair)].concat();
            assert_eq!(joined, repaired(from, to, &bytes, &table), "{from} {to} {repair:?} {bytes:x?} at {at}");
        }
    }
}

/// All inputs of up to four bytes of each kind: std's lossy text of the shards, joined, is that of the whole, and so is ours. Strictly,
/// the second shard counts if the first has no invalid byte.
#[test]
fn shards_join_in_each_way() {
    assert_eq!([0, 1, 2, 3].map(|at| shard_end(Encoding::Utf8, b"\xE2\x82A", at)), [0, 0, 2, 3]);
    assert_eq!([0, 1, 2, 3].map(|at| shard_end(Encoding::Utf16Le, b"\x3D\xD8A", at)), [0, 0, 0, 3]);
    const BYTES: [u8; 12] = [0x41, 0x80, 0x90, 0xA0, 0xC3, 0xE0, 0xE2, 0xED, 0xF0, 0xF1, 0xF4, 0xFF];
    let strict = |bytes: &[u8]| match recode_strict(Encoding::Utf8, Encoding::Utf16Le, bytes) {
        Ok(out) => (out, bytes.len()),
        Err(fault) => (recode(Encoding::Utf8, Encoding::Utf16Le, &bytes[..fault.offset()]), fault.offset()),
    };
    for number in 0..BYTES.len().pow(4) {
        let digits = [1, 12, 144, 1728].map(|unit| BYTES[number / unit % 12]);
        for (len, at) in (0..=4).flat_map(|len| (0..=len).map(move |at| (len, at))) {
            let bytes = &digits[..len];
            let (front, rest) = bytes.split_at(shard_end(Encoding::Utf8, bytes, at));
            let text = String::from_utf8_lossy(bytes);
            assert_eq!(String::from_utf8_lossy(front) + String::from_utf8_lossy(rest), text, "{bytes:x?} at {at}");
            let joined =
                [recode_lossy(Encoding::Utf8, Encoding::Utf8, front), recode_lossy(Encoding::Utf8, Encoding::Utf8, rest)]
                    .concat();
            assert_eq!(joined, text.as_bytes(), "{bytes:x?} at {at}");
            let (mut out, mut read) = strict(front);
            if read == front.len() {
                let more = strict(rest);
                out.extend(more.0);
                read += more.1;
            }
            assert_eq!((out, read), strict(bytes), "{bytes:x?} at {at}");
        }
    }
}

/// Any bytes in place of some: the pieces that the range leaves out are as they were.
#[test]
fn pieces_outside_of_the_changed_range_stay() {
    let mut chance = Chance(31);
    for _ in 0..30_000 {
        for encoding in [Encoding::Utf8, Encoding::Utf16Le, Encoding::Utf16Be] {
            let old = text_of(encoding, &mut chance, 12);
            let start = chance.below(old.len() + 1);
            let end = start + chance.below(old.len() - start + 1);
            let put = text_of(encoding, &mut chance, 3);
            let new = [&old[..start], &put, &old[end..]].concat();
            let was = changed_range(encoding, &old, start..end);
            let is = changed_range(encoding, &new, start..start + put.len());
            let said = format!("{encoding} {old:x?} {start}..{end} by {put:x?}: {was:?}, {is:?}");
            assert!(was.start <= start && start <= was.start + 6 && end <= was.end && was.end <= end + 6, "{said}");
            for told_at in [End::OfSlice, End::OfParts] {
                let (before, after) = (of_encoding(encoding, &old, told_at), of_encoding(encoding, &new, told_at));
                assert!(before.iter().filter(|it| it.0 < was.start).eq(after.iter().filter(|it| it.0 < is.start)), "{said}");
                if encoding != Encoding::Utf8 && (put.len() + end - start) % 2 == 1 {
                    continue;
                }
                assert_eq!((was.start, was.end + start + put.len()), (is.start, is.end + end), "{said}");
                let before = before.iter().filter(|it| it.0 >= was.end).map(|it| (it.0 - was.end, it.1, it.2));
                assert!(before.eq(after.iter().filter(|it| it.0 >= is.end).map(|it| (it.0 - is.end, it.1, it.2))), "{said}");
            }
        }
    }
}

#[test]
#[allow(clippy::reversed_empty_ranges)]
fn changed_ranges_of_any_offsets() {
    assert_eq!(changed_range(Encoding::Utf8, b"", 0..usize::MAX), 0..0);
    assert_eq!(changed_range(Encoding::Utf8, b"abcdefgh", usize::MAX..usize::MAX), 5..8);
    assert_eq!(changed_range(Encoding::Utf16Be, b"abcdefgh", 7..2), changed_range(Encoding::Utf16Be, b"abcdefgh", 2..2));
}
