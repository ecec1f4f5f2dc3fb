//! Both ends of the decoder of a slice, compared.
//!
//! `next_back` of the Rust crate has two bugs, which docs/DIFFERENCES.md lists. They are fixed before the
//! results are compared, and the walks that have one are counted.

use crate::inputs::{self, Random, FROM_BACK};
use crate::numbers::{Answers, NOTHING};
use crate::tally::Kind;
use crate::{library, ours};
use encode_unicode::error::Utf8Error;
use encode_unicode::iterator::Utf8CharDecoder;
use encode_unicode::Utf8Char;
use std::panic::{self, AssertUnwindSafe};

type Item = (usize, Result<Utf8Char, Utf8Error>, usize);

/// In how many walks the Rust crate has each slip.
#[derive(Default)]
pub struct Slips {
    /// It panics where only continuation bytes are left.
    panicked: u64,
    /// It gives an error from the end one place too low.
    too_low: u64,
}

impl Slips {
    pub fn print(&self) {
        let Slips { panicked, too_low } = self;
        println!("meant to differ: the Rust crate panics on continuation bytes alone: {panicked} walks");
        println!("meant to differ: it gives an error from the back one place too low: {too_low} walks");
    }
}

/// Bytes of every class: for lead bytes with a restricted second byte, two of these.
const BYTES: [u8; 10] = [0x41, 0x80, 0x90, 0xa0, 0xc1, 0xc3, 0xe0, 0xed, 0xf0, 0xf4];

/// Each list of bytes by words of calls.
pub fn walks(seed: u64, count: usize) -> (Vec<Kind>, Slips) {
    let hook = panic::take_hook();
    panic::set_hook(Box::new(|_| {}));
    let random = &mut Random::new(seed);
    let mut slips = Slips::default();
    let kinds = vec![
        walk_kind(
            "lists of up to three edge bytes, words of five",
            &mut slips,
            beside(inputs::short_lists(), &inputs::words(5)),
        ),
        walk_kind(
            "lists of up to four of ten bytes, words of six",
            &mut slips,
            beside((0..=4).flat_map(lists_of), &inputs::words(6)),
        ),
        walk_kind(
            "lists of five of ten bytes, words of five",
            &mut slips,
            beside(lists_of(5), &inputs::words(5)),
        ),
        walk_kind(
            "lists of 4 to 40 bytes, random words",
            &mut slips,
            (0..count).map(|number| (random_bytes(random, number), inputs::word(random))),
        ),
    ];
    panic::set_hook(hook);
    (kinds, slips)
}

// All lists of `len` of the ten bytes.
fn lists_of(len: u32) -> impl Iterator<Item = Vec<u8>> {
    (0..BYTES.len().pow(len)).map(move |number| {
        (0..len)
            .map(|digit| BYTES[number / BYTES.len().pow(digit) % BYTES.len()])
            .collect()
    })
}

// Random bytes, edge bytes and damaged texts in turn.
fn random_bytes(random: &mut Random, number: usize) -> Vec<u8> {
    match number % 3 {
        0 => inputs::random_list(random),
        1 => inputs::random_edges(random),
        _ => inputs::damaged_text(random),
    }
}

// Each list with each word.
fn beside<'a>(
    lists: impl IntoIterator<Item = Vec<u8>> + 'a,
    words: &'a [Vec<u8>],
) -> impl Iterator<Item = (Vec<u8>, Vec<u8>)> + 'a {
    lists
        .into_iter()
        .flat_map(move |list| words.iter().map(move |word| (list.clone(), word.clone())))
}

pub(crate) fn walk_kind(
    name: &'static str,
    slips: &mut Slips,
    walks: impl Iterator<Item = (Vec<u8>, Vec<u8>)>,
) -> Kind {
    let mut kind = Kind::new(name);
    for (list, word) in walks {
        let input = || format!("{list:02x?} by {}", String::from_utf8_lossy(&word));
        let ours = ours::ends(&list, &word).and(library::ends(&list, &word));
        kind.compare(input, &ours, &judged(slips, &list, &word));
    }
    kind
}

// The results of the Rust crate, its bugs fixed: once with what `as_slice` has, and once only the items.
fn judged(slips: &mut Slips, list: &[u8], word: &[u8]) -> Answers {
    let (mut to, mut items) = (Answers::default(), Answers::default());
    let mut walk = Walk::new(list);
    to.put_front("from_slice_end", last_of(list));
    for letter in word {
        to.put_size("as_slice().len()", walk.decoder.as_slice().len());
        let item = match *letter {
            FROM_BACK => walk.next_back(),
            _ => walk.decoder.next(),
        };
        put_item(&mut to, item);
        put_item(&mut items, item);
    }
    slips.panicked += u64::from(walk.panicked);
    slips.too_low += u64::from(walk.too_low);
    to.and(items)
}

// The Rust crate has no `from_slice_end`. Its decoder's last item is the judge.
fn last_of(list: &[u8]) -> Result<(Utf8Char, usize), Utf8Error> {
    match Walk::new(list).next_back() {
        Some((_, Ok(c), len)) => Ok((c, len)),
        Some((_, Err(error), _)) => Err(error),
        None => Err(error_at_front(list)),
    }
}

fn error_at_front(list: &[u8]) -> Utf8Error {
    Utf8Char::from_slice_start(list).expect_err("no character begins it")
}

fn put_item(to: &mut Answers, item: Option<Item>) {
    match item {
        Some((offset, answer, len)) => to.put_item(offset, answer, len),
        None => to.put("no item", NOTHING),
    }
}

// The Rust crate's decoder, and where it slipped.
struct Walk<'a> {
    list: &'a [u8],
    decoder: Utf8CharDecoder<'a>,
    // How many bytes the calls from the end have left of the list.
    back: usize,
    panicked: bool,
    too_low: bool,
}

impl<'a> Walk<'a> {
    fn new(list: &'a [u8]) -> Walk<'a> {
        Walk {
            list,
            decoder: Utf8CharDecoder::from(list),
            back: list.len(),
            panicked: false,
            too_low: false,
        }
    }

    // One call, mended.
    fn next_back(&mut self) -> Option<Item> {
        let called = panic::catch_unwind(AssertUnwindSafe(|| self.decoder.next_back()));
        match called {
            Ok(None) => None,
            Ok(Some((offset, Ok(c), len))) => {
                self.back -= len;
                Some((offset, Ok(c), len))
            }
            Ok(Some((offset, Err(error), len))) => {
                self.back -= len;
                self.too_low = true;
                Some((offset.wrapping_add(1), Err(error), len))
            }
            Err(_) => Some(self.without_last()),
        }
    }

    // After a panic: all bytes that the decoder keeps are continuation bytes. It is made anew without the last
    // of them, and asked from the front as often as it has been.
    fn without_last(&mut self) -> Item {
        self.panicked = true;
        let left = self.decoder.as_slice().len() - 1;
        self.back -= 1;
        let kept = &self.list[..self.back];
        assert!(kept.iter().all(|byte| byte & 0xc0 == 0x80));
        self.decoder = Utf8CharDecoder::from(kept);
        for _ in left..kept.len() {
            self.decoder.next();
        }
        (self.back, Err(error_at_front(&self.list[self.back..=self.back])), 1)
    }
}
