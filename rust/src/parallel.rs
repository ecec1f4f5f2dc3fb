//! Large inputs in several threads: the input is cut into shards, and their outputs are concatenated in order. The results are those of
//! one thread.
//!
//! `jobs` is the number of threads, with the one that calls; `None` is one for each CPU. If the system gives fewer, those do all the
//! work. Each job needs the memory of the output of one shard, which has 128 KiB.
//!
//! ```
//! use noddychest::{parallel, Encoding};
//! let bytes = "naïve ".repeat(100_000).into_bytes();
//! assert_eq!(parallel::recode(Encoding::Utf8, Encoding::Utf16Le, &bytes, None).len(), 1_200_000);
//! assert_eq!(parallel::check(Encoding::Utf8, &bytes, None), []);
//! ```

use crate::recode::append_recoded;
use crate::table::granted;
use crate::{faults, io, recoded_len_max, shard_end, Encoding, Fault, Recoder, Repair};
use std::num::NonZeroUsize;
use std::sync::{Condvar, Mutex, MutexGuard, PoisonError};
use std::thread;

#[cfg(test)]
mod tests;

/// The approximate size of a shard: small enough to stay in the cache together with its output.
const SHARD: usize = 128 * 1024;
/// The bytes after a shard that decide why its last ones are invalid.
const AHEAD: usize = 3;

/// [`recode`](crate::recode), in several threads.
///
/// It allocates the longest possible output first, as [`recode`](crate::recode) does, and then shrinks it.
///
/// ```
/// use noddychest::{parallel, Encoding};
/// use std::num::NonZeroUsize;
/// let made = parallel::recode(Encoding::Utf8, Encoding::Utf16Be, b"a\xFF", NonZeroUsize::new(4));
/// assert_eq!(made, b"\0a\xFF\xFD");
/// ```
#[must_use]
pub fn recode(from: Encoding, to: Encoding, bytes: &[u8], jobs: Option<NonZeroUsize>) -> Vec<u8> {
    recode_by(from, to, bytes, jobs, SHARD, |shard, out| granted(append_recoded(from, to, shard, out)))
}

/// [`recode_repaired`](crate::recode_repaired), in several threads.
///
/// ```
/// use noddychest::{parallel, Encoding, Repair};
/// let made = parallel::recode_repaired(Encoding::Utf8, Encoding::Utf8, b"caf\xE9", Repair::WINDOWS_1252, None);
/// assert_eq!(made, "café".as_bytes());
/// ```
#[must_use]
pub fn recode_repaired(from: Encoding, to: Encoding, bytes: &[u8], repair: Repair, jobs: Option<NonZeroUsize>) -> Vec<u8> {
    recode_by(from, to, bytes, jobs, SHARD, repairing(from, to, repair))
}

/// What appends a shard, repaired.
fn repairing(from: Encoding, to: Encoding, repair: Repair) -> impl Fn(&[u8], &mut Vec<u8>) + Sync {
    let fresh = Recoder::repair(from, to, repair);
    move |shard, out| {
        let mut recoder = fresh.clone();
        let _ = recoder.feed_to_vec(shard, out);
        let _ = recoder.finish_to_vec(out);
    }
}

/// `append` appends what a shard becomes.
fn recode_by(
    from: Encoding,
    to: Encoding,
    bytes: &[u8],
    jobs: Option<NonZeroUsize>,
    size: usize,
    append: impl Fn(&[u8], &mut Vec<u8>) + Sync,
) -> Vec<u8> {
    // (what a system gives filled with zeros takes no memory before it is written)
    let mut out = vec![0; recoded_len_max(from, to, bytes.len()).expect("there is memory for what comes of it")];
    let most = out.len();
    let line = Line::new(from, bytes, size, &mut out[..]);
    at_once(some_jobs(jobs, bytes.len(), size), || recode_shards(&line, &append));
    let left = line.end().len();
    out.truncate(most - left);
    out.shrink_to_fit();
    out
}

/// Transcodes shards until none is left. Each output gets its place in turn, and is copied there in parallel.
fn recode_shards<'a>(line: &Line<'_, &'a mut [u8]>, append: impl Fn(&[u8], &mut Vec<u8>)) {
    let mut made = Vec::new();
    while let Some(shard) = line.take() {
        made.clear();
        append(shard.bytes(), &mut made);
        let place = shard.in_turn(|buffer: &mut &'a mut [u8]| {
            let (place, rest) = std::mem::take(buffer).split_at_mut(made.len());
            *buffer = rest;
            place
        });
        place.copy_from_slice(&made);
    }
}

/// All invalid bytes, in order, in several threads. For UTF-8 they are those of [`faults`](crate::faults()), and for UTF-16 those of
/// [`io::faults`](crate::io::faults()). There are none if the bytes are valid.
///
/// ```
/// use noddychest::{parallel, Encoding};
/// let found = parallel::check(Encoding::Utf16Le, b"a\0\0\xDE!", None);
/// assert_eq!(found.iter().map(|fault| fault.range()).collect::<Vec<_>>(), [2..4, 4..5]);
/// ```
#[must_use]
pub fn check(encoding: Encoding, bytes: &[u8], jobs: Option<NonZeroUsize>) -> Vec<Fault> {
    check_by(encoding, bytes, jobs, SHARD)
}

fn check_by(encoding: Encoding, bytes: &[u8], jobs: Option<NonZeroUsize>, size: usize) -> Vec<Fault> {
    let line = Line::new(encoding, bytes, size, Vec::new());
    at_once(some_jobs(jobs, bytes.len(), size), || check_shards(&line));
    line.end()
}

fn check_shards(line: &Line<'_, Vec<Fault>>) {
    let mut found = Vec::new();
    while let Some(shard) = line.take() {
        shard.find(line.encoding, &mut found);
        shard.in_turn(|all| all.append(&mut found));
    }
}

/// The number of jobs, at most the number of shards.
fn some_jobs(jobs: Option<NonZeroUsize>, len: usize, size: usize) -> usize {
    let jobs = jobs.map_or_else(|| thread::available_parallelism().map_or(1, NonZeroUsize::get), NonZeroUsize::get);
    jobs.min(len.div_ceil(size))
}

/// Does some work in several threads, of which this is one.
fn at_once(jobs: usize, work: impl Fn() + Sync) {
    thread::scope(|scope| {
        for _ in 1..jobs {
            if thread::Builder::new().spawn_scoped(scope, &work).is_err() {
                break;
            }
        }
        work();
    });
}

/// Shards in a line: threads take them in order, and in that order add to what is put together.
#[derive(Debug)]
struct Line<'a, T> {
    encoding: Encoding,
    bytes: &'a [u8],
    size: usize,
    state: Mutex<State<T>>,
    changed: Condvar,
}

#[derive(Debug)]
struct State<T> {
    /// Where the next shard begins, and its number.
    begin: usize,
    next: usize,
    /// Whose turn it is.
    turn: usize,
    /// A thread ended in the middle.
    is_broken: bool,
    whole: T,
}

impl<'a, T> Line<'a, T> {
    fn new(encoding: Encoding, bytes: &'a [u8], size: usize, whole: T) -> Line<'a, T> {
        let state = Mutex::new(State { begin: 0, next: 0, turn: 0, is_broken: false, whole });
        Line { encoding, bytes, size, state, changed: Condvar::new() }
    }

    fn lock(&self) -> MutexGuard<'_, State<T>> {
        self.state.lock().unwrap_or_else(PoisonError::into_inner)
    }

    /// The next shard, or `None` if none is left.
    fn take(&self) -> Option<Shard<'_, 'a, T>> {
        let mut state = self.lock();
        let (begin, number) = (state.begin, state.next);
        if begin == self.bytes.len() || state.is_broken {
            return None;
        }
        let end = begin + shard_len(self.encoding, &self.bytes[begin..], self.size);
        (state.begin, state.next) = (end, number + 1);
        Some(Shard { line: self, number, begin, end, is_added: false })
    }

    /// What was put together.
    fn end(self) -> T {
        self.state.into_inner().unwrap_or_else(PoisonError::into_inner).whole
    }
}

/// The length of the shard at the front of these bytes: about `size`, and at least one character.
fn shard_len(encoding: Encoding, bytes: &[u8], size: usize) -> usize {
    let least = size.max(2 * AHEAD);
    shard_end(encoding, bytes, least)
}

#[derive(Debug)]
struct Shard<'l, 'a, T> {
    line: &'l Line<'a, T>,
    number: usize,
    begin: usize,
    end: usize,
    /// Its results were added to what is put together.
    is_added: bool,
}

impl<'a, T> Shard<'_, 'a, T> {
    fn bytes(&self) -> &'a [u8] {
        &self.line.bytes[self.begin..self.end]
    }

    /// Adds to what is put together, after all shards before this one.
    fn in_turn<A>(mut self, add: impl FnOnce(&mut T) -> A) -> A {
        let state = self.line.lock();
        let mut state = self
            .line
            .changed
            .wait_while(state, |it| it.turn != self.number && !it.is_broken)
            .unwrap_or_else(PoisonError::into_inner);
        assert!(!state.is_broken, "another thread ended in the middle");
        let answer = add(&mut state.whole);
        state.turn += 1;
        self.is_added = true;
        self.line.changed.notify_all();
        answer
    }

    /// Finds its invalid bytes, with their offsets in all of the bytes and the kinds that they have there.
    fn find(&self, encoding: Encoding, found: &mut Vec<Fault>) {
        let bytes = &self.line.bytes[self.begin..self.line.bytes.len().min(self.end + AHEAD)];
        let len = self.end - self.begin;
        let moved = |offset: usize, fault_len: usize, kind| Fault::new(self.begin + offset, fault_len as u8, kind);
        if encoding == Encoding::Utf8 {
            let mine = faults(bytes).take_while(|it| it.offset() < len);
            found.extend(mine.map(|it| moved(it.offset(), 1, it.kind())));
        } else {
            let all = io::faults(bytes, encoding).map(|it| it.expect("a slice gives its bytes"));
            let mine = all.take_while(|it| it.offset() < len as u64);
            found.extend(mine.map(|it| moved(it.offset() as usize, it.range().count(), it.kind())));
        }
    }
}

/// A thread that ends in the middle lets the others end too. (`thread::panicking()` is also true in a destructor that a panic runs, where a
/// call has to go on.)
impl<T> Drop for Shard<'_, '_, T> {
    fn drop(&mut self) {
        if !self.is_added {
            self.line.lock().is_broken = true;
            self.line.changed.notify_all();
        }
    }
}
