//! What a `RecodingWriter` does that is dropped, or whose writer fails.
#![cfg(feature = "std")]

use noddychest::io::RecodingWriter;
use noddychest::{Encoding, Recoder};
use std::cell::RefCell;
use std::io::{self, Write};
use std::panic::{catch_unwind, AssertUnwindSafe};
use std::rc::Rc;

#[derive(Clone, Default)]
struct Shared {
    written: Rc<RefCell<Vec<u8>>>,
    calls: Rc<RefCell<usize>>,
    panics: bool,
}

impl Write for Shared {
    fn write(&mut self, part: &[u8]) -> io::Result<usize> {
        *self.calls.borrow_mut() += 1;
        assert!(!self.panics, "the writer breaks off");
        self.written.borrow_mut().extend_from_slice(part);
        Ok(part.len())
    }

    fn flush(&mut self) -> io::Result<()> {
        Ok(())
    }
}

fn of(shared: &Shared, recoder: Recoder) -> RecodingWriter<Shared> {
    RecodingWriter::new(shared.clone(), recoder)
}

#[test]
fn writes_what_it_has() {
    let shared = Shared::default();
    of(&shared, Recoder::new(Encoding::Utf8, Encoding::Utf8)).write_all(b"caf\xC3").unwrap();
    assert_eq!(*shared.written.borrow(), "caf\u{FFFD}".as_bytes());
}

#[test]
fn a_strict_one_writes_what_stands_before_the_fault() {
    let shared = Shared::default();
    of(&shared, Recoder::strict(Encoding::Utf8, Encoding::Utf16Be)).write_all(b"ok\xE2\x82").unwrap();
    assert_eq!(*shared.written.borrow(), b"\0o\0k");
}

#[test]
fn one_that_is_finished_or_taken_writes_no_more() {
    let shared = Shared::default();
    let mut writer = of(&shared, Recoder::new(Encoding::Utf8, Encoding::Utf8));
    writer.write_all(b"a").unwrap();
    writer.finish().unwrap();
    drop(writer);
    assert_eq!((*shared.written.borrow()).clone(), b"a");
    let mut writer = of(&shared, Recoder::new(Encoding::Utf8, Encoding::Utf8));
    writer.write_all(b"b").unwrap();
    drop(writer.into_inner());
    assert_eq!((*shared.written.borrow()).clone(), b"a");
}

#[test]
fn a_writer_that_panics_is_not_called_again() {
    let shared = Shared { panics: true, ..Shared::default() };
    let mut writer = of(&shared, Recoder::new(Encoding::Utf8, Encoding::Utf8));
    writer.write_all(b"a").unwrap();
    assert!(catch_unwind(AssertUnwindSafe(|| writer.finish())).is_err());
    drop(writer);
    assert_eq!(*shared.calls.borrow(), 1);
}
