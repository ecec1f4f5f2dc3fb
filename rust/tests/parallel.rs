//! Several threads over texts of several shards, compared with what std makes of the whole.

mod common;

use common::repairs::{repaired, some_repair};
use common::{encoded, long_text_of, of_encoding, Chance, End};
use noddychest::{parallel, recode, recode_repaired, Encoding, Repair};
use std::num::NonZeroUsize;
use std::panic::{catch_unwind, AssertUnwindSafe};

#[test]
fn long_texts_are_recoded_and_checked() {
    let mut chance = Chance(18);
    for &from in Encoding::ALL {
        let bytes = long_text_of(from, &mut chance, 400_000);
        let told = of_encoding(from, &bytes, End::OfSlice);
        for jobs in [2, 5] {
            let jobs = NonZeroUsize::new(jobs);
            for &to in Encoding::ALL {
                let want = encoded(to, told.iter().map(|it| it.2.unwrap_or('\u{FFFD}')));
                assert!(parallel::recode(from, to, &bytes, jobs) == want, "{from} {to} {jobs:?}");
                let (table, repair) = some_repair(&mut chance);
                let made = parallel::recode_repaired(from, to, &bytes, repair, jobs);
                assert!(made == repaired(from, to, &bytes, &table), "{from} {to} {repair:?} {jobs:?}");
            }
            let found = parallel::check(from, &bytes, jobs).into_iter().map(|it| (it.range(), it.kind()));
            let want = told.iter().filter_map(|(at, len, answer)| Some((*at..at + len, answer.err()?)));
            assert!(found.eq(want), "{from} {jobs:?}");
        }
    }
}

#[test]
fn nothing_and_little() {
    for bytes in [&b""[..], b"\xFF", b"a", b"\xE2\x82"] {
        for jobs in [None, NonZeroUsize::new(1), NonZeroUsize::new(99)] {
            let made = parallel::recode(Encoding::Utf8, Encoding::Utf16Le, bytes, jobs);
            assert_eq!(made, recode(Encoding::Utf8, Encoding::Utf16Le, bytes));
            let made = parallel::recode_repaired(Encoding::Utf8, Encoding::Utf16Le, bytes, Repair::LATIN_1, jobs);
            assert_eq!(made, recode_repaired(Encoding::Utf8, Encoding::Utf16Le, bytes, Repair::LATIN_1));
            assert_eq!(parallel::check(Encoding::Utf8, bytes, jobs), noddychest::faults(bytes).collect::<Vec<_>>());
        }
    }
}

/// What was asked for and not filled is given back.
#[test]
fn no_room_is_kept() {
    let text = "a".repeat(1_000_000);
    let made = parallel::recode(Encoding::Utf8, Encoding::Utf8, text.as_bytes(), None);
    assert!(made == text.as_bytes() && made.capacity() < 1_100_000, "{}", made.capacity());
}

/// In a destructor that a panic runs, nothing is left out.
#[test]
fn a_panic_of_the_caller_shortens_nothing() {
    struct Last<'a>(&'a [u8], Option<NonZeroUsize>, &'a mut Vec<(usize, usize)>);
    impl Drop for Last<'_> {
        fn drop(&mut self) {
            let made = parallel::recode(Encoding::Utf8, Encoding::Utf8, self.0, self.1);
            self.2.push((made.len(), parallel::check(Encoding::Utf8, self.0, self.1).len()));
        }
    }
    let (bytes, mut found) = (b"a\xFF".repeat(200_000), Vec::new());
    for jobs in [1, 3] {
        let call = || {
            let _last = Last(&bytes, NonZeroUsize::new(jobs), &mut found);
            panic!("of the caller");
        };
        assert!(catch_unwind(AssertUnwindSafe(call)).is_err());
    }
    assert_eq!(found, [(800_000, 200_000); 2]);
}
