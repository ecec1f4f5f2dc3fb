//! The adapters, over readers and writers that give and take little, and that fail.

mod common;

use common::repairs::{repaired, some_repair};
use common::Chance;
use noddychest::io::{RecodingReader, RecodingWriter};
use noddychest::{faults, io, recode, recode_strict, Encoding, Fault, Recoder, Repair};
use std::cell::RefCell;
use std::io::{BufRead, BufReader, Cursor, Error, ErrorKind, Read, Result, Seek, SeekFrom, Write};
use std::panic::{catch_unwind, AssertUnwindSafe};
use std::rc::Rc;

/// Gives and takes a few bytes at a time, and fails now and then.
struct Halting {
    chance: Chance,
    bytes: Vec<u8>,
    place: usize,
}

impl Halting {
    fn new(seed: u64, bytes: Vec<u8>) -> Halting {
        Halting { chance: Chance(seed), bytes, place: 0 }
    }

    fn step(&mut self) -> Result<usize> {
        match self.chance.below(5) {
            0 => Err(ErrorKind::Interrupted.into()),
            1 => Err(ErrorKind::WouldBlock.into()),
            _ => Ok(1 + self.chance.below(5)),
        }
    }
}

impl Read for Halting {
    fn read(&mut self, room: &mut [u8]) -> Result<usize> {
        let count = self.step()?.min(room.len()).min(self.bytes.len() - self.place);
        room[..count].copy_from_slice(&self.bytes[self.place..self.place + count]);
        self.place += count;
        Ok(count)
    }
}

impl Write for Halting {
    fn write(&mut self, part: &[u8]) -> Result<usize> {
        let count = self.step()?.min(part.len());
        self.bytes.extend_from_slice(&part[..count]);
        Ok(count)
    }

    fn flush(&mut self) -> Result<()> {
        self.step().map(|_| ())
    }
}

fn fault_of(error: &Error) -> Option<Fault> {
    error.get_ref().and_then(|it| it.downcast_ref::<Fault>()).copied()
}

/// Whether the call may be made again.
fn is_halt(error: &Error) -> bool {
    matches!(error.kind(), ErrorKind::Interrupted | ErrorKind::WouldBlock)
}

fn read_all(recoder: Recoder, bytes: &[u8], seed: u64) -> (Vec<u8>, Option<Fault>) {
    let mut reader = RecodingReader::new(Halting::new(seed, bytes.to_vec()), recoder);
    let (mut out, mut chance) = (Vec::new(), Chance(seed));
    loop {
        let mut room = vec![0; 1 + chance.below(24)];
        match reader.read(&mut room) {
            Ok(0) => return (out, None),
            Ok(count) => out.extend_from_slice(&room[..count]),
            Err(error) if is_halt(&error) => {}
            Err(error) => return (out, Some(fault_of(&error).expect("a fault"))),
        }
    }
}

fn write_all(recoder: Recoder, bytes: &[u8], seed: u64) -> (Vec<u8>, Option<Fault>) {
    let mut writer = RecodingWriter::new(Halting::new(seed, Vec::new()), recoder);
    let (mut rest, mut chance) = (bytes, Chance(seed));
    let mut fault = None;
    while !rest.is_empty() && fault.is_none() {
        let part = &rest[..rest.len().min(1 + chance.below(9))];
        match writer.write(part) {
            Ok(count) => rest = &rest[count..],
            Err(error) if is_halt(&error) => {}
            Err(error) => fault = Some(fault_of(&error).expect("a fault")),
        }
        if chance.below(3) == 0 && fault.is_none() {
            fault = writer.flush().err().and_then(|error| fault_of(&error));
        }
    }
    while fault.is_none() {
        match writer.finish() {
            Ok(()) => break,
            Err(error) => fault = fault_of(&error),
        }
    }
    while fault.is_some() && writer.flush().is_err() {}
    (writer.into_inner().bytes, fault)
}

#[test]
fn readers_and_writers_recode() {
    let mut chance = Chance(8);
    for seed in 0..6_000 {
        let (from, to) = (Encoding::ALL[chance.below(3)], Encoding::ALL[chance.below(3)]);
        let bytes = match chance.below(2) {
            0 => chance.bytes(60),
            _ => recode(Encoding::Utf8, from, &chance.bytes(60)),
        };
        let whole = recode(from, to, &bytes);
        assert_eq!(read_all(Recoder::new(from, to), &bytes, seed), (whole.clone(), None));
        assert_eq!(write_all(Recoder::new(from, to), &bytes, seed), (whole.clone(), None));
        let (table, repair) = some_repair(&mut chance);
        let mended = repaired(from, to, &bytes, &table);
        assert_eq!(read_all(Recoder::repair(from, to, repair), &bytes, seed), (mended.clone(), None), "{repair:?}");
        assert_eq!(write_all(Recoder::repair(from, to, repair), &bytes, seed), (mended, None), "{repair:?}");
        let want = match recode_strict(from, to, &bytes) {
            Ok(whole) => (whole, None),
            Err(fault) => (recode(from, to, &bytes[..fault.offset()]), Some(fault)),
        };
        assert_eq!(read_all(Recoder::strict(from, to), &bytes, seed), want);
        assert_eq!(write_all(Recoder::strict(from, to), &bytes, seed).1, want.1);
    }
}

#[test]
fn long_texts_go_through_blocks() {
    let text = "aé€😀".repeat(20_000);
    let want: Vec<u8> = text.encode_utf16().flat_map(u16::to_le_bytes).collect();
    let mut out = Vec::new();
    let mut reader = RecodingReader::new(text.as_bytes(), Recoder::strict(Encoding::Utf8, Encoding::Utf16Le));
    assert_eq!(reader.read_to_end(&mut out).expect("no fault"), want.len());
    assert!(out == want);
    let mut writer = RecodingWriter::new(Vec::new(), Recoder::strict(Encoding::Utf16Le, Encoding::Utf8));
    writer.write_all(&want).expect("no fault");
    writer.finish().expect("no fault");
    assert!(writer.into_inner() == text.as_bytes());
}

/// A reader that writes nothing for many blocks has not ended, and all that was left out is counted.
#[test]
fn long_runs_of_invalid_bytes_are_left_out() {
    let bytes = [vec![b'a'], vec![0xFF; 100_000], vec![b'b']].concat();
    let mut reader = RecodingReader::new(&bytes[..], Recoder::repair(Encoding::Utf8, Encoding::Utf8, Repair::DROP));
    let mut text = String::new();
    reader.read_to_string(&mut text).expect("no fault");
    assert_eq!((&text[..], reader.recoder().replaced()), ("ab", 100_000));
    let mut writer = RecodingWriter::new(Vec::new(), Recoder::repair(Encoding::Utf8, Encoding::Utf8, Repair::DROP));
    writer.write_all(&bytes).expect("no fault");
    writer.finish().expect("no fault");
    assert_eq!((&writer.get_ref()[..], writer.recoder().replaced()), (&b"ab"[..], 100_000));
}

#[test]
fn after_a_fault_both_go_on() {
    let mut reader = RecodingReader::new(&b"a\xFFb\xC3"[..], Recoder::strict(Encoding::Utf8, Encoding::Utf8));
    let mut out = Vec::new();
    assert!(reader.read_to_end(&mut out).is_err());
    assert!(reader.read_to_end(&mut out).is_err());
    assert_eq!(reader.read_to_end(&mut out).expect("the end"), 0);
    assert_eq!(out, b"ab");
    let mut writer = RecodingWriter::new(Vec::new(), Recoder::strict(Encoding::Utf8, Encoding::Utf8));
    assert_eq!(writer.write(b"a\xFFb").expect("the front"), 2);
    assert!(writer.write(b"b\xC3").is_err());
    assert_eq!(writer.write(b"b\xC3").expect("all"), 2);
    assert!(writer.finish().is_err());
    writer.finish().expect("no fault");
    assert_eq!(writer.into_inner(), b"ab");
}

/// Keeps what is written where it outlives the writer, up to a number of calls; after these it fails, or panics.
#[derive(Clone)]
struct Shared {
    bytes: Rc<RefCell<Vec<u8>>>,
    calls: usize,
    panics: bool,
}

impl Shared {
    fn new(calls: usize, panics: bool) -> Shared {
        Shared { bytes: Rc::default(), calls, panics }
    }
}

impl Write for Shared {
    fn write(&mut self, part: &[u8]) -> Result<usize> {
        if self.calls == 0 {
            assert!(!self.panics, "no more calls");
            return Err(ErrorKind::BrokenPipe.into());
        }
        self.calls -= 1;
        self.bytes.borrow_mut().extend(part);
        Ok(part.len())
    }

    fn flush(&mut self) -> Result<()> {
        panic!("nobody asked for it");
    }
}

/// What a writer has written of these bytes once it was dropped.
fn dropped(recoder: Recoder, bytes: &[u8]) -> Vec<u8> {
    let shared = Shared::new(9, false);
    let mut writer = RecodingWriter::new(shared.clone(), recoder);
    while writer.write_all(bytes).is_err() {}
    drop(writer);
    shared.bytes.take()
}

#[test]
fn a_dropped_writer_writes_what_it_has() {
    assert_eq!(dropped(Recoder::new(Encoding::Utf8, Encoding::Utf16Le), b"a\xC3\xA9"), b"a\0\xE9\0");
    assert_eq!(dropped(Recoder::new(Encoding::Utf8, Encoding::Utf8), b"a\xE2\x82"), "a\u{FFFD}\u{FFFD}".as_bytes());
    assert_eq!(dropped(Recoder::strict(Encoding::Utf8, Encoding::Utf8), b"ab\xE2\x82"), b"ab");
    let shared = Shared::new(9, false);
    let mut writer = RecodingWriter::new(shared.clone(), Recoder::strict(Encoding::Utf8, Encoding::Utf8));
    assert_eq!(writer.write(b"ab\xFFcd").expect("the front"), 3);
    drop(writer);
    assert_eq!(shared.bytes.take(), b"ab");
}

#[test]
fn a_writer_that_was_taken_apart_or_finished_writes_nothing_when_dropped() {
    let mut writer = RecodingWriter::new(Vec::new(), Recoder::new(Encoding::Utf8, Encoding::Utf8));
    writer.write_all(b"lost\xC3").expect("all");
    assert!(writer.into_inner().is_empty());
    let mut out = Vec::new();
    let mut writer = RecodingWriter::new(&mut out, Recoder::new(Encoding::Utf8, Encoding::Utf8));
    writer.write_all(b"once\xC3").expect("all");
    writer.finish().expect("all");
    drop(writer);
    assert_eq!(out, "once\u{FFFD}".as_bytes());
}

#[test]
fn a_dropped_writer_ignores_errors_and_writes_nothing_after_a_panic_of_the_inner_one() {
    let failing = Shared::new(0, false);
    let mut writer = RecodingWriter::new(failing.clone(), Recoder::new(Encoding::Utf8, Encoding::Utf8));
    writer.write_all(b"gathered").expect("all");
    drop(writer);
    assert!(failing.bytes.take().is_empty());
    let panicking = Shared::new(0, true);
    let mut writer = RecodingWriter::new(panicking.clone(), Recoder::new(Encoding::Utf8, Encoding::Utf8));
    writer.write_all(b"gathered").expect("all");
    // (a second panic, while the first unwinds, would end the process)
    let told = catch_unwind(AssertUnwindSafe(move || writer.flush()));
    assert!(told.is_err());
    assert!(panicking.bytes.take().is_empty());
}

/// Says of each call that it did more than it was asked for.
#[derive(Debug)]
struct Boaster;

impl Read for Boaster {
    fn read(&mut self, room: &mut [u8]) -> Result<usize> {
        Ok(room.len() + 1)
    }
}

impl Write for Boaster {
    fn write(&mut self, part: &[u8]) -> Result<usize> {
        Ok(part.len() + 1)
    }

    fn flush(&mut self) -> Result<()> {
        Ok(())
    }
}

/// One panic says what is wrong. (A second one, of the writer that is dropped while the first goes on, would end the process.)
#[test]
fn a_count_that_cannot_be_panics_once() {
    let mut reader = RecodingReader::new(Boaster, Recoder::new(Encoding::Utf8, Encoding::Utf8));
    for _ in 0..2 {
        let told = catch_unwind(AssertUnwindSafe(|| reader.read(&mut [0; 4]))).unwrap_err();
        assert_eq!(told.downcast_ref(), Some(&"the reader says that it read more than the buffer can hold"));
    }
    let told = catch_unwind(|| {
        let mut writer = RecodingWriter::new(Boaster, Recoder::new(Encoding::Utf8, Encoding::Utf8));
        let _ = writer.write(b"a").and_then(|_| writer.flush());
    });
    assert_eq!(told.unwrap_err().downcast_ref(), Some(&"the writer says that it wrote more than there was"));
}

/// `{:?}` says how much is held, and does not list it.
#[test]
fn what_is_shown_is_short() {
    let reader = format!("{:?}", RecodingReader::new(Boaster, Recoder::new(Encoding::Utf8, Encoding::Utf8)));
    assert!(reader.len() < 500 && reader.contains("part: 0/8192"), "{reader}");
    let writer = format!("{:?}", RecodingWriter::new(Vec::new(), Recoder::new(Encoding::Utf8, Encoding::Utf8)));
    assert!(writer.len() < 500 && writer.contains("made: 0/8192"), "{writer}");
    let mut pieces = noddychest::io::pieces(&b"abc"[..], Encoding::Utf8);
    assert!(pieces.next().is_some());
    let pieces = format!("{pieces:?}");
    assert!(pieces.len() < 300 && pieces.contains("gathered: 2"), "{pieces}");
}

/// Takes as many bytes of each call as its turn says, of turns that come again and again; 0 is none.
struct Sparing<'a> {
    bytes: Vec<u8>,
    turns: std::iter::Cycle<std::slice::Iter<'a, usize>>,
}

impl Sparing<'_> {
    fn new(turns: &[usize]) -> Sparing<'_> {
        Sparing { bytes: Vec::new(), turns: turns.iter().cycle() }
    }
}

impl Write for Sparing<'_> {
    fn write(&mut self, part: &[u8]) -> Result<usize> {
        let count = part.len().min(*self.turns.next().unwrap_or(&0));
        self.bytes.extend_from_slice(&part[..count]);
        Ok(count)
    }

    fn flush(&mut self) -> Result<()> {
        Ok(())
    }
}

/// A writer that takes a byte or none: what it rejected is written when it is asked again.
#[test]
fn a_writer_that_takes_nothing_is_an_error_and_nothing_is_lost() {
    let text = "aé€😀".repeat(3_000);
    let want = recode(Encoding::Utf8, Encoding::Utf16Be, text.as_bytes());
    for turns in [&[1][..], &[1, 0], &[0, 0, 7, 1], &[9_000, 0]] {
        let mut writer = RecodingWriter::new(Sparing::new(turns), Recoder::new(Encoding::Utf8, Encoding::Utf16Be));
        let mut rest = text.as_bytes();
        while !rest.is_empty() {
            match writer.write(rest) {
                Ok(count) => rest = &rest[count..],
                Err(error) => assert_eq!(error.kind(), ErrorKind::WriteZero),
            }
        }
        while let Err(error) = writer.finish() {
            assert_eq!(error.kind(), ErrorKind::WriteZero);
        }
        assert!(writer.get_ref().bytes == want, "{turns:?}");
        assert_eq!(writer.recoder().held(), b"");
    }
}

/// `io::copy` through both, in whatever parts they give and take.
#[test]
fn copied_through_both() {
    let text = "naïve 😀 ".repeat(5_000).into_bytes();
    let mut reader = RecodingReader::new(&text[..], Recoder::new(Encoding::Utf8, Encoding::Utf16Be));
    let mut writer = RecodingWriter::new(Sparing::new(&[3, 4_096, 1]), Recoder::strict(Encoding::Utf16Be, Encoding::Utf8));
    let count = std::io::copy(&mut reader, &mut writer).expect("no fault");
    writer.finish().expect("no fault");
    assert_eq!(count as usize, recode(Encoding::Utf8, Encoding::Utf16Be, &text).len());
    assert!(writer.into_inner().bytes == text);
}

/// An empty buffer reads nothing of the reader, and an empty part writes nothing.
#[test]
fn nothing_is_asked_for_nothing() {
    let mut reader = RecodingReader::new(Cursor::new(b"a\xFF"), Recoder::strict(Encoding::Utf8, Encoding::Utf8));
    assert_eq!(reader.read(&mut []).expect("nothing"), 0);
    assert_eq!(reader.get_ref().position(), 0);
    assert_eq!(reader.read(&mut [0; 8]).expect("the front"), 1);
    // (the fault waits for a call that asks for something)
    assert_eq!(reader.read(&mut []).expect("nothing"), 0);
    assert!(reader.read(&mut [0; 8]).is_err());
    let mut writer = RecodingWriter::new(Sparing::new(&[0]), Recoder::new(Encoding::Utf8, Encoding::Utf8));
    assert_eq!(writer.write(b"").expect("nothing"), 0);
    writer.flush().expect("nothing");
}

/// The reader may be moved: what was read of it before still comes, and then what it gives from there.
#[test]
fn a_reader_that_was_moved() {
    let mut reader = RecodingReader::new(Cursor::new(b"ab".to_vec()), Recoder::new(Encoding::Utf8, Encoding::Utf8));
    let mut room = [0; 1];
    assert_eq!(reader.read(&mut room).expect("a byte"), 1);
    reader.get_mut().seek(SeekFrom::Start(0)).expect("its start");
    let mut rest = String::new();
    reader.read_to_string(&mut rest).expect("the rest");
    assert_eq!((&room, &*rest), (b"a", "bab"));
    let mut pieces = io::pieces(BufReader::new(Cursor::new(b"a\xE9b".to_vec())), Encoding::Utf8);
    assert_eq!(pieces.next().expect("a piece").expect("no error").char(), Some('a'));
    pieces.get_mut().seek(SeekFrom::Start(0)).expect("its start");
    let rest: Vec<_> = pieces.map(|it| it.map(|it| (it.offset, it.char())).expect("no error")).collect();
    assert_eq!(rest, [(1, None), (2, Some('b')), (3, Some('a')), (4, None), (5, Some('b'))]);
}

/// Reads the rest of a reader by calls of all sorts, in any order: the bytes read, and the faults that were reported.
fn taken(mut reader: impl BufRead, chance: &mut Chance) -> (Vec<u8>, Vec<Fault>) {
    let (mut out, mut faults) = (Vec::new(), Vec::new());
    loop {
        let told = match chance.below(7) {
            0 => {
                let mut room = vec![0; 1 + chance.below(24)];
                reader.read(&mut room).map(|count| out.extend_from_slice(&room[..count]))
            }
            1 => reader.read_until(b'a', &mut out).map(|_| ()),
            2 => reader.read_to_end(&mut out).map(|_| ()),
            3 => reader.read(&mut []).map(|_| ()),
            _ => reader.fill_buf().map(<[u8]>::to_vec).map(|there| {
                // some of it, none, all, or more than is there
                let count = [chance.below(there.len() + 1), 0, there.len(), there.len() + 1, usize::MAX][chance.below(5)];
                out.extend_from_slice(&there[..count.min(there.len())]);
                reader.consume(count);
            }),
        };
        match told {
            Ok(()) => {}
            Err(error) if is_halt(&error) => continue,
            Err(error) => faults.push(fault_of(&error).expect("a fault")),
        }
        loop {
            match reader.fill_buf() {
                Ok([]) => return (out, faults),
                Ok(_) => break,
                Err(error) if is_halt(&error) => {}
                Err(error) => faults.push(fault_of(&error).expect("a fault")),
            }
        }
    }
}

/// `read`, `fill_buf`, `consume` and what std makes of them, by turns, over a reader that halts: each byte and each fault comes once.
#[test]
fn buffers_and_reads_by_turns() {
    let mut chance = Chance(15);
    for seed in 0..4_000 {
        let (from, to) = (Encoding::ALL[chance.below(3)], Encoding::ALL[chance.below(3)]);
        let bytes = recode(Encoding::Utf8, from, &chance.bytes(60));
        let whole = recode(from, to, &bytes);
        let reader = RecodingReader::new(Halting::new(seed, bytes.clone()), Recoder::new(from, to));
        assert_eq!(taken(reader, &mut chance), (whole, Vec::new()));
        let bytes = chance.bytes(60);
        let text: String = noddychest::pieces(&bytes).filter_map(|piece| piece.char()).collect();
        let reader = RecodingReader::new(Halting::new(seed, bytes.clone()), Recoder::strict(Encoding::Utf8, to));
        assert_eq!(taken(reader, &mut chance), (recode(Encoding::Utf8, to, text.as_bytes()), faults(&bytes).collect()));
    }
    for seed in 0..20 {
        let bytes = "aé€😀 ".repeat(4_000).into_bytes();
        let reader = RecodingReader::new(Halting::new(seed, bytes.clone()), Recoder::new(Encoding::Utf8, Encoding::Utf16Le));
        assert!(taken(reader, &mut chance).0 == recode(Encoding::Utf8, Encoding::Utf16Le, &bytes));
    }
}

/// What was not given cannot be passed: before anything is read, after an error, at the end, and more than there is.
#[test]
fn consuming_more_than_there_is_loses_nothing() {
    let mut reader = RecodingReader::new(&b"ab\xFFcd"[..], Recoder::strict(Encoding::Utf8, Encoding::Utf8));
    reader.consume(1);
    reader.consume(usize::MAX);
    assert_eq!(reader.fill_buf().expect("the front"), b"ab");
    reader.consume(1);
    assert_eq!(reader.fill_buf().expect("the rest of it"), b"b");
    reader.consume(2);
    reader.consume(usize::MAX);
    let error = reader.fill_buf().unwrap_err();
    assert_eq!(fault_of(&error).map(|fault| fault.offset()), Some(2));
    reader.consume(9);
    assert_eq!(reader.fill_buf().expect("what follows"), b"cd");
    reader.consume(usize::MAX - 1);
    assert_eq!(reader.fill_buf().expect("the end"), b"");
    reader.consume(1);
    assert_eq!(reader.fill_buf().expect("the end"), b"");
}

/// Counts the calls, fails in some of them, and panics in one.
struct Counting {
    calls: usize,
}

impl Read for Counting {
    fn read(&mut self, room: &mut [u8]) -> Result<usize> {
        self.calls += 1;
        match self.calls {
            1 | 4 => Err(ErrorKind::Interrupted.into()),
            2 => Err(ErrorKind::TimedOut.into()),
            5 => panic!("the reader breaks off"),
            3 | 6 => {
                room[..2].copy_from_slice(b"\xC3\xA9");
                Ok(2)
            }
            7 => Ok(0),
            _ => panic!("nobody may ask after the end"),
        }
    }
}

/// A buffer that was given is given again, and the reader is not asked for more before it was passed, nor after its end. An error or a panic
/// of the reader loses nothing.
#[test]
fn a_buffer_stays_until_it_is_passed() {
    let mut reader = RecodingReader::new(Counting { calls: 0 }, Recoder::strict(Encoding::Utf8, Encoding::Utf16Be));
    assert_eq!(reader.fill_buf().unwrap_err().kind(), ErrorKind::Interrupted);
    assert_eq!(reader.fill_buf().unwrap_err().kind(), ErrorKind::TimedOut);
    let first = reader.fill_buf().expect("a character").as_ptr();
    assert_eq!(reader.fill_buf().expect("a character").as_ptr(), first);
    assert_eq!(reader.fill_buf().expect("a character"), b"\0\xE9");
    reader.consume(1);
    assert_eq!(reader.fill_buf().expect("half of it"), b"\xE9");
    assert_eq!(reader.get_ref().calls, 3);
    reader.consume(1);
    assert_eq!(reader.fill_buf().unwrap_err().kind(), ErrorKind::Interrupted);
    assert!(catch_unwind(AssertUnwindSafe(|| reader.fill_buf().map(<[u8]>::len))).is_err());
    assert_eq!(reader.fill_buf().expect("a character"), b"\0\xE9");
    reader.consume(2);
    for _ in 0..3 {
        assert_eq!(reader.fill_buf().expect("the end"), b"");
    }
    assert_eq!(reader.get_ref().calls, 7);
    let mut boaster = RecodingReader::new(Boaster, Recoder::new(Encoding::Utf8, Encoding::Utf8));
    assert!(catch_unwind(AssertUnwindSafe(|| boaster.fill_buf().map(<[u8]>::len))).is_err());
}

/// Lines of UTF-16; and what is before a fault in its line is in the caller's string.
#[test]
fn lines_of_a_reader() {
    let text = "one\r\ntwo é\n\nthree";
    let file = recode(Encoding::Utf8, Encoding::Utf16Be, text.as_bytes());
    let lines = RecodingReader::new(&file[..], Recoder::strict(Encoding::Utf16Be, Encoding::Utf8)).lines();
    assert!(lines.map(|it| it.expect("no fault")).eq(text.lines()));
    let mut reader = RecodingReader::new(&b"a\nbc\xFFd\ne"[..], Recoder::strict(Encoding::Utf8, Encoding::Utf8));
    let (mut line, mut seen) = (String::new(), Vec::new());
    loop {
        match reader.read_line(&mut line) {
            Ok(0) => break,
            Ok(_) => seen.push(std::mem::take(&mut line)),
            Err(error) => seen.push(format!("{line}<{}>", fault_of(&error).expect("a fault").offset())),
        }
    }
    assert_eq!(seen, ["a\n", "bc<4>", "bcd\n", "e"]);
    let pieces = io::pieces(RecodingReader::new(&file[..], Recoder::new(Encoding::Utf16Be, Encoding::Utf8)), Encoding::Utf8);
    assert_eq!(pieces.map(|it| it.expect("no fault").char()).collect::<Option<String>>().as_deref(), Some(text));
}
