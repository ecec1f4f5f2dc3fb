//! What was compared, and what differed.

use crate::numbers::{Answers, RANGE_START};
use std::fmt::Debug;

/// How many differences of a kind are shown.
const SHOWN: usize = 5;

/// A difference that docs/DIFFERENCES.md has, under "Behaviour".
const RANGE_MEANT: &str = "CodepointError::TooHigh.error_range() begins one higher here";

// Whether the two numbers of that name may differ so.
fn is_meant(name: &str, ours: u64, theirs: u64) -> bool {
    name == RANGE_START && theirs == 0x10_ffff && ours == 0x11_0000
}

/// One kind of inputs.
pub struct Kind {
    name: &'static str,
    cases: u64,
    differ: u64,
    meant: u64,
    shown: Vec<String>,
}

impl Kind {
    pub fn new(name: &'static str) -> Kind {
        Kind {
            name,
            cases: 0,
            differ: 0,
            meant: 0,
            shown: Vec::new(),
        }
    }

    pub fn cases(&self) -> u64 {
        self.cases
    }

    pub fn differ(&self) -> u64 {
        self.differ
    }

    /// What differed first, if something did.
    pub fn first(&self) -> Option<String> {
        let Kind { name, shown, .. } = self;
        shown.first().map(|difference| format!("{name}: {difference}"))
    }

    /// How many cases differed and were meant to, if there are any.
    pub fn print_meant(&self) {
        if self.meant > 0 {
            println!("meant to differ: {RANGE_MEANT}: {} cases", self.meant);
        }
    }

    /// Compares the results for one input.
    pub fn compare(&mut self, input: impl FnOnce() -> String, ours: &Answers, theirs: &Answers) {
        self.cases += 1;
        if ours.numbers == theirs.numbers {
            return;
        }
        match first_difference(&ours.numbers, theirs) {
            Some(difference) => self.note(|| format!("{}: {difference}", input())),
            None => self.meant += 1,
        }
    }

    /// Compares two results by equality.
    pub fn compare_equal<T: PartialEq + Debug>(&mut self, input: impl FnOnce() -> String, ours: &T, theirs: &T) {
        self.cases += 1;
        if ours != theirs {
            self.note(|| format!("{}: ours {ours:02x?}, theirs {theirs:02x?}", input()));
        }
    }

    /// Compares two texts.
    pub fn compare_texts(&mut self, input: impl FnOnce() -> String, ours: &str, theirs: &str) {
        self.cases += 1;
        let mut lines = ours.lines().zip(theirs.lines());
        match lines.find(|(ours, theirs)| ours != theirs) {
            _ if ours == theirs => {}
            Some((ours, theirs)) => {
                self.note(|| format!("{}: ours {ours:?}, theirs {theirs:?}", input()));
            }
            None => {
                let (ours, theirs) = (ours.len(), theirs.len());
                self.note(|| format!("{}: ours {ours} bytes, theirs {theirs}", input()));
            }
        }
    }

    fn note(&mut self, difference: impl FnOnce() -> String) {
        self.differ += 1;
        if self.shown.len() < SHOWN {
            self.shown.push(difference());
        }
    }

    pub fn print(&self) {
        let Kind {
            name,
            cases,
            differ,
            ..
        } = self;
        println!("{name:<58} {cases:>9} cases {differ:>7} differ");
        for difference in &self.shown {
            println!("    {difference}");
        }
    }
}

// The first place where the numbers differ and are not meant to.
fn first_difference(ours: &[u64], theirs: &Answers) -> Option<String> {
    let numbers = ours.iter().zip(&theirs.numbers).zip(&theirs.names);
    let differ = |((ours, theirs), name): &((&u64, &u64), &&str)| {
        ours != theirs && !is_meant(name, **ours, **theirs)
    };
    let (our_count, their_count) = (ours.len(), theirs.numbers.len());
    match numbers.into_iter().find(differ) {
        Some(((ours, theirs), name)) => Some(format!("{name}: ours {ours:#x}, theirs {theirs:#x}")),
        None if our_count == their_count => None,
        None => Some(format!("ours {our_count} numbers, theirs {their_count}")),
    }
}
