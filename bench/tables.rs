//! `tables KIB ..`: what edits and look-ups cost in a `TextBuffer` and in a `PieceTable`, compared with decoding all again. For each the median
//! and the worst, in microseconds; then what the buffer takes to be made, and its memory.

use noddychest::{pieces, PieceTable, TextBuffer};
use std::alloc::{GlobalAlloc, Layout, System};
use std::hint::black_box;
use std::ops::Range;
use std::sync::atomic::{AtomicUsize, Ordering::Relaxed};
use std::time::Instant;

/// The allocator of the system, which counts how many bytes are taken.
struct Counted;
static TAKEN: AtomicUsize = AtomicUsize::new(0);

unsafe impl GlobalAlloc for Counted {
    unsafe fn alloc(&self, layout: Layout) -> *mut u8 {
        TAKEN.fetch_add(layout.size(), Relaxed);
        System.alloc(layout)
    }

    unsafe fn dealloc(&self, at: *mut u8, layout: Layout) {
        TAKEN.fetch_sub(layout.size(), Relaxed);
        System.dealloc(at, layout)
    }
}

#[global_allocator]
static ALLOCATOR: Counted = Counted;

/// Steps of splitmix64.
struct Chance(u64);

impl Chance {
    fn next(&mut self) -> u64 {
        self.0 = self.0.wrapping_add(0x9E37_79B9_7F4A_7C15);
        let mut z = self.0;
        z = (z ^ (z >> 30)).wrapping_mul(0xBF58_476D_1CE4_E5B9);
        z = (z ^ (z >> 27)).wrapping_mul(0x94D0_49BB_1331_11EB);
        z ^ (z >> 31)
    }

    fn below(&mut self, end: usize) -> usize {
        (self.next() % end as u64) as usize
    }

    fn text(&mut self, len: usize) -> Vec<u8> {
        const SOME: [&str; 8] = ["e", "the ", "é", "Ж", "語", "😀", "\n", " and so "];
        let mut out = Vec::with_capacity(len + 8);
        while out.len() < len {
            match self.below(100) {
                0 => out.push(0x80 | self.next() as u8),
                _ => out.extend_from_slice(SOME[self.below(SOME.len())].as_bytes()),
            }
        }
        out.truncate(len);
        out
    }
}

/// The time of each turn of a work: the median and the worst, in microseconds.
fn timed(count: usize, mut work: impl FnMut()) -> (f64, f64) {
    let mut times: Vec<f64> = (0..count)
        .map(|_| {
            let start = Instant::now();
            work();
            start.elapsed().as_secs_f64() * 1e6
        })
        .collect();
    times.sort_by(f64::total_cmp);
    (times[count / 2], times[count - 1])
}

fn say(kib: usize, what: &str, (median, worst): (f64, f64)) {
    println!("{kib:>8} {what:<22} {median:>12.2} {worst:>12.1}");
}

/// Edits at random offsets, in turn.
fn edits(count: usize, len: impl Fn() -> usize, chance: &mut Chance, mut replace: impl FnMut(Range<usize>, &[u8])) -> (f64, f64) {
    let steps: Vec<(u64, usize, Vec<u8>)> =
        (0..count).map(|_| (chance.next(), chance.below(9), chance.bytes_of_edit())).collect();
    let mut steps = steps.into_iter();
    timed(count, || {
        let (place, gone, new) = steps.next().expect("one for each turn");
        let start = (place % (len() as u64 - 8)) as usize;
        replace(start..start + gone, &new);
    })
}

impl Chance {
    fn bytes_of_edit(&mut self) -> Vec<u8> {
        let len = self.below(9);
        self.text(len)
    }
}

fn measure(kib: usize) {
    const TURNS: usize = 10_000;
    let chance = &mut Chance(kib as u64);
    let bytes = chance.text(kib << 10);
    let made = timed(5, || { black_box(TextBuffer::new(&bytes)); });
    let before = TAKEN.load(Relaxed);
    let text = std::cell::RefCell::new(TextBuffer::new(&bytes));
    let memory = TAKEN.load(Relaxed) - before;
    let len = || text.borrow().len();
    say(kib, "buffer: edit", edits(TURNS, len, chance, |range, new| { black_box(text.borrow_mut().replace(range, new)); }));
    let text = text.into_inner();
    let (size, count) = (text.len(), text.counts().pieces);
    say(kib, "buffer: piece", timed(TURNS, || { black_box(text.piece(chance.below(count))); }));
    say(kib, "buffer: number_of", timed(TURNS, || { black_box(text.number_of(chance.below(size))); }));
    say(kib, "buffer: line_of", timed(TURNS, || { black_box(text.line_of(chance.below(size))); }));
    say(kib, "buffer: next_fault", timed(TURNS, || { black_box(text.next_fault(chance.below(size))); }));
    if kib <= 16_384 {
        let table = std::cell::RefCell::new(PieceTable::new(&bytes));
        let len = || table.borrow().bytes().len();
        let turns = if kib <= 1_024 { TURNS } else { 300 };
        say(kib, "table: edit", edits(turns, len, chance, |range, new| table.borrow_mut().replace(range, new)));
    }
    say(kib, "all decoded again", timed(5, || { black_box(pieces(&bytes).filter(|it| it.char().is_none()).count()); }));
    println!("{kib:>8} buffer: made, ns a byte: {:.2}; memory for each byte: {:.2}", made.0 * 1e3 / bytes.len() as f64, memory as f64 / bytes.len() as f64);
}

fn main() {
    println!("{:>8} {:<22} {:>12} {:>12}", "KiB", "", "median, us", "worst, us");
    std::env::args().skip(1).for_each(|it| measure(it.parse().expect("a number")));
}
