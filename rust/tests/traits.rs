//! What the types are, and what they show.

use noddychest::encode_unicode::{error, iterator, Utf8Char};
use noddychest::parts::{Span, SplitAscii, SplitLines};
use noddychest::{
    io, units, AllocError, BufferBytes, BufferPieces, Change, Counts, Decoder, Encoding, Fault, FaultKind, Faults, Guess,
    Guesses, NonBmpChar, Piece, PieceTable, Pieces, Progress, Recoder, Repair, Status, Survey, Surveyor, TablePieces, TextBuffer,
    UnitCounts, UnknownEncoding, Utf8Counts,
};
use std::collections::{BTreeSet, HashSet};
use std::error::Error;
use std::fmt::Debug;
use std::hash::Hash;
use std::io::{BufRead, ErrorKind};
use std::iter::FusedIterator;

fn is_shared<T: Send + Sync + Clone + Debug>() {}
fn is_value<T: Send + Sync + Copy + Debug + Eq + Hash>() {}
fn goes_both_ways<T: DoubleEndedIterator<Item = Piece> + FusedIterator>() {}
fn is_ordered<T: Ord + Hash>() {}
fn starts_empty<T: Default + Copy + Eq + Hash + Debug>() {}
fn is_compared<T: Eq + Clone + Debug>() {}
fn gives_faults_both_ways<T: DoubleEndedIterator<Item = Fault> + FusedIterator + Clone>() {}
fn is_buffered<T: BufRead>() {}
fn ends<T: Iterator + FusedIterator>() {}
fn is_error<T: Error + Send + Sync + 'static>() {}
fn is_error_of_upstream<T: Error + Send + Sync + Copy + Eq + 'static>() {}
fn is_counted<T: ExactSizeIterator + FusedIterator>() {}
fn gives_spans<T: DoubleEndedIterator<Item = Span<'static>> + FusedIterator + Clone + Send + Sync + Debug>() {}
fn is_sent<T: Send + Sync + Debug>() {}

#[test]
fn types_have_their_traits() {
    is_shared::<Pieces<'static>>();
    is_shared::<units::Pieces<'static>>();
    is_shared::<Faults<'static>>();
    is_shared::<units::Faults<'static>>();
    is_shared::<Decoder>();
    is_shared::<Recoder>();
    is_value::<Piece>();
    is_value::<Piece<u64>>();
    is_value::<Fault>();
    is_value::<Fault<u64>>();
    is_value::<FaultKind>();
    is_value::<Encoding>();
    is_value::<Repair>();
    is_value::<NonBmpChar>();
    is_value::<Status>();
    is_value::<Progress>();
    goes_both_ways::<Pieces<'static>>();
    goes_both_ways::<units::Pieces<'static>>();
    gives_faults_both_ways::<Faults<'static>>();
    gives_faults_both_ways::<units::Faults<'static>>();
    is_ordered::<Fault>();
    is_ordered::<Fault<u64>>();
    is_ordered::<Piece>();
    is_ordered::<Piece<u64>>();
    is_ordered::<FaultKind>();
    is_ordered::<Guess>();
    is_value::<Guess>();
    is_value::<Survey>();
    is_value::<Utf8Counts>();
    is_value::<UnitCounts>();
    is_shared::<Guesses>();
    is_shared::<Surveyor>();
    starts_empty::<Counts>();
    starts_empty::<Change>();
    is_compared::<TextBuffer>();
    is_compared::<PieceTable>();
    is_buffered::<io::RecodingReader<std::io::Stdin>>();
    ends::<io::Pieces<&[u8]>>();
    ends::<io::Faults<&[u8]>>();
    ends::<iterator::Utf8CharDecoder<'static>>();
    ends::<iterator::Utf16CharDecoder<'static>>();
    ends::<iterator::Utf8CharIndices<'static>>();
    ends::<iterator::Utf8Chars<'static>>();
    ends::<iterator::Utf16CharIndices<'static>>();
    ends::<iterator::Utf16Chars<'static>>();
    ends::<iterator::Utf8Iterator>();
    ends::<iterator::Utf16Iterator>();
    is_error::<Fault>();
    is_error::<Fault<u64>>();
    is_error::<UnknownEncoding>();
    is_error::<AllocError>();
    is_error::<NonBmpChar>();
    is_error_of_upstream::<error::CodepointError>();
    is_error_of_upstream::<error::EmptyStrError>();
    is_error_of_upstream::<error::FromStrError>();
    is_error_of_upstream::<error::NonAsciiError>();
    is_error_of_upstream::<error::NonBmpError>();
    is_error_of_upstream::<error::Utf16ArrayError>();
    is_error_of_upstream::<error::Utf16FirstUnitError>();
    is_error_of_upstream::<error::Utf16PairError>();
    is_error_of_upstream::<error::Utf16SliceError>();
    is_error_of_upstream::<error::Utf16TupleError>();
    is_error_of_upstream::<error::Utf8Error>();
    is_shared::<PieceTable>();
    is_shared::<TextBuffer>();
    is_shared::<Change>();
    is_shared::<Counts>();
    is_shared::<BufferBytes<'static>>();
    is_shared::<BufferPieces<'static>>();
    is_shared::<Span<'static>>();
    is_shared::<iterator::Utf8CharMerger<u8, std::vec::IntoIter<u8>>>();
    is_shared::<iterator::Utf16CharMerger<u16, std::vec::IntoIter<u16>>>();
    is_shared::<iterator::Utf8CharSplitter<Utf8Char, std::vec::IntoIter<Utf8Char>>>();
    goes_both_ways::<TablePieces<'static>>();
    is_counted::<TablePieces<'static>>();
    is_counted::<iterator::Utf8Iterator>();
    is_counted::<iterator::Utf16Iterator>();
    ends::<BufferBytes<'static>>();
    gives_spans::<SplitAscii<'static>>();
    gives_spans::<SplitLines<'static>>();
    is_sent::<io::RecodingReader<std::io::Stdin>>();
    is_sent::<io::RecodingWriter<Vec<u8>>>();
    is_sent::<io::Pieces<std::io::BufReader<std::io::Stdin>>>();
    is_sent::<io::Faults<std::io::BufReader<std::fs::File>>>();
}

/// Asked as any error, it has the text that it has of its own.
#[test]
#[allow(deprecated)]
fn errors_describe_themselves() {
    let errors: [(&dyn Error, &str); 7] = [
        (&error::EmptyStrError, error::EmptyStrError.description()),
        (&error::NonAsciiError, "not an ASCII character"),
        (&error::NonBmpError, error::NonBmpError.description()),
        (&error::FromStrError::Empty, "is empty"),
        (&error::CodepointError::TooHigh, "is higher than the highest codepoint"),
        (&error::Utf16PairError::Incomplete, error::Utf16PairError::Incomplete.description()),
        (&Utf8Char::from_slice_start(b"").unwrap_err(), "too few bytes"),
    ];
    for (error, text) in errors {
        assert_eq!(error.description(), text);
        assert_eq!(error.to_string(), text);
    }
}

#[test]
fn kinds_are_named_as_the_programs_name_them() {
    let names: HashSet<&str> = FaultKind::ALL.iter().map(|kind| kind.name()).collect();
    assert_eq!(names.len(), 10);
    for &kind in FaultKind::ALL {
        assert_eq!(kind.name(), format!("{kind:?}"));
    }
}

/// More may come: how many there are is in no type.
#[test]
fn all_are_slices() {
    const KINDS: &[FaultKind] = FaultKind::ALL;
    const FORMS: &[Encoding] = Encoding::ALL;
    assert_eq!((KINDS[9], FORMS[2]), (FaultKind::Incomplete, Encoding::Utf16Be));
}

/// By offset, then by length; at one offset and length a character is before a fault, and a fault goes by its kind.
#[test]
fn pieces_and_faults_are_ordered() {
    let all: Vec<Piece> = noddychest::pieces(b"a\xC3\xA9\xFF\xE2\x82A\xC0").collect();
    assert!(all.windows(2).all(|it| it[0] < it[1]));
    let mut turned: Vec<Piece> = all.iter().rev().copied().collect();
    turned.sort_unstable();
    assert_eq!(turned, all);
    let faults: BTreeSet<Fault> = noddychest::faults(b"\xFFa\xFF").chain(noddychest::faults(b"\xFFa\xFF")).collect();
    assert_eq!(faults.iter().map(Fault::offset).collect::<Vec<_>>(), [0, 2]);
    let fault = |offset: u64, kind| Fault::new(offset, 1, kind);
    assert!(fault(1, FaultKind::NonUtf8Byte) < fault(2, FaultKind::TooFewBytes));
    assert!(fault(1, FaultKind::TooFewBytes) < fault(1, FaultKind::NonUtf8Byte));
    assert!(Piece::new(1, 1, Ok('\u{10FFFF}')) < Piece::new(1, 1, Err(fault(1, FaultKind::TooFewBytes))));
}

/// What another crate makes is what this one makes.
#[test]
fn values_are_made() {
    assert_eq!(noddychest::faults(b"a\xFF").next(), Some(Fault::new(1, 1, FaultKind::NonUtf8Byte)));
    let mut pieces = noddychest::pieces("é!".as_bytes());
    assert_eq!((pieces.next(), pieces.next()), (Some(Piece::new(0, 2, Ok('é'))), Some(Piece::new(2, 1, Ok('!')))));
    let fault = Fault::new(0, 2, FaultKind::Incomplete);
    let mut room = [Piece::default(); 2];
    let mut decoder = Decoder::new(Encoding::Utf16Le);
    assert_eq!(decoder.feed(b"\x3D\xD8", &mut room), Progress::new(2, 0, Status::Done));
    assert_eq!(decoder.finish(&mut room), Progress::new(0, 1, Status::Done));
    assert_eq!(room[0], Piece::new(0, 2, Err(fault)));
    assert_eq!((fault.range(), room[0].range()), (0..2, 0..2));
    assert_eq!((Counts::default(), Change::default().come), (Counts::of(b""), Counts::of(b"")));
    let mut counts = HashSet::from([Counts::default()]);
    assert!(counts.insert(Counts::of(b"a")) && !counts.insert(TextBuffer::new(b"b").counts()));
    let mut changes = HashSet::from([TextBuffer::new(b"ab").remove(0..1)]);
    assert!(!changes.insert(TextBuffer::new(b"cb").remove(0..1)) && changes.insert(TextBuffer::new(b"ab").insert(1, b"c")));
}

/// A function over files passes a fault on by `?`; who gets the error finds the fault in it.
#[test]
fn faults_are_errors_of_files() {
    fn converted(bytes: &[u8]) -> std::io::Result<Vec<u8>> {
        Ok(noddychest::recode_strict(Encoding::Utf8, Encoding::Utf16Le, bytes)?)
    }
    assert_eq!(converted(b"ok").expect("no fault"), b"o\0k\0");
    let error = converted(b"ok\xFF").unwrap_err();
    assert_eq!((error.kind(), &*error.to_string()), (ErrorKind::InvalidData, "invalid UTF-8 at offset 2: NonUtf8Byte"));
    assert_eq!(error.get_ref().and_then(|it| it.downcast_ref()), Some(&Fault::new(2_usize, 1, FaultKind::NonUtf8Byte)));
    let error = noddychest::try_recode(Encoding::Utf8, Encoding::Utf8, b"a").map_err(std::io::Error::from);
    assert_eq!(error.expect("memory"), b"a");
    let error = std::io::Error::from(Fault::new(u64::MAX, 1, FaultKind::TooFewBytes));
    assert_eq!(error.kind(), ErrorKind::InvalidData);
    let fault = *error.into_inner().expect("the fault").downcast::<Fault<u64>>().expect("a fault");
    assert_eq!((fault.offset(), fault.kind()), (u64::MAX, FaultKind::TooFewBytes));
}

#[test]
fn clones_go_on_by_themselves() {
    let mut pieces = noddychest::pieces(b"ab");
    let other = pieces.clone();
    pieces.next();
    assert_eq!((pieces.count(), other.count()), (1, 2));
    let mut recoder = Recoder::new(Encoding::Utf8, Encoding::Utf8);
    assert_eq!(recoder.feed(b"\xC3", &mut [0; 4]).written, 0);
    let mut other = recoder.clone();
    let mut room = [0; 4];
    assert_eq!(recoder.feed(b"\xA9", &mut room).written, 2);
    assert_eq!(&room[..2], "é".as_bytes());
    assert_eq!(other.finish(&mut room).written, 3);
}

/// The labels of the Encoding Standard (encoding.spec.whatwg.org, "Names and labels"), in any case, and the names of the programs.
#[test]
fn encodings_have_labels() {
    let labels = [
        ("utf8 utf-8 UTF-8 Utf8 unicode-1-1-utf-8 unicode11utf8 unicode20utf8 x-unicode20utf8", Encoding::Utf8),
        ("utf16le utf-16le UTF-16LE UTF-16 unicode unicodefeff csUnicode ISO-10646-UCS-2 ucs-2", Encoding::Utf16Le),
        ("utf16be UTF-16BE unicodeFFFE", Encoding::Utf16Be),
    ];
    for (names, encoding) in labels {
        for name in names.split(' ') {
            assert_eq!(name.parse(), Ok(encoding), "{name}");
            assert_eq!(format!("\t {name}\n").parse(), Ok(encoding), "{name}");
        }
    }
    for name in ["", " ", "utf", "utf-", "utf 8", "latin1", "utf-32", "utf8\u{a0}", "ut\u{17f}8"] {
        assert!(name.parse::<Encoding>().is_err(), "{name}");
    }
}

#[test]
fn marks_tell_the_encoding() {
    let marks: [(&[u8], Encoding); 3] =
        [(b"\xEF\xBB\xBF", Encoding::Utf8), (b"\xFF\xFE", Encoding::Utf16Le), (b"\xFE\xFF", Encoding::Utf16Be)];
    for (mark, encoding) in marks {
        assert_eq!(noddychest::encoding_of_bom(mark), Some((encoding, mark.len())));
        assert_eq!(noddychest::encoding_of_bom(&[mark, &b"\0\0a"[..]].concat()), Some((encoding, mark.len())), "{encoding}");
        assert_eq!(noddychest::encoding_of_bom(&[mark, mark].concat()), Some((encoding, mark.len())), "{encoding}");
        assert_eq!(noddychest::encoding_of_bom(&mark[..mark.len() - 1]), None, "{encoding}");
        assert_eq!(noddychest::encoding_of_bom(&[&b"a"[..], mark].concat()), None, "{encoding}");
    }
    for other in [&b""[..], b"a", b"\xEF\xBB\xBE", b"\xEF\xBF\xBB", b"\xFF\xFF", b"\xFE\xFE", b"\0\0\xFE\xFF", b"+/v8"] {
        assert_eq!(noddychest::encoding_of_bom(other), None, "{other:x?}");
    }
}
