//! Which of the two copies of the proved text goes over a long input: on x86-64 with std, if the CPU has AVX2 and what came with
//! it (x86-64-v3), the one that is compiled for that. Compiled with `--cfg noddychest_narrow`, there is only one copy, for tests of it.

/// Whether the CPU has what the copy for x86-64-v3 takes: it is asked once.
#[cfg(all(target_arch = "x86_64", target_feature = "sse2", feature = "std", not(noddychest_narrow)))]
#[inline(always)]
pub(crate) fn is_wide() -> bool {
    use core::sync::atomic::{AtomicU8, Ordering};
    const NO: u8 = 1;
    const YES: u8 = 2;
    static ANSWER: AtomicU8 = AtomicU8::new(0);

    #[cold]
    #[inline(never)]
    fn ask() -> bool {
        use std::arch::is_x86_feature_detected as has;
        let is_wide = has!("avx2") && has!("bmi1") && has!("bmi2") && has!("lzcnt") && has!("popcnt");
        ANSWER.store(if is_wide { YES } else { NO }, Ordering::Relaxed);
        is_wide
    }

    match ANSWER.load(Ordering::Relaxed) {
        0 => ask(),
        answer => answer == YES,
    }
}

#[cfg(not(all(target_arch = "x86_64", target_feature = "sse2", feature = "std", not(noddychest_narrow))))]
pub(crate) fn is_wide() -> bool {
    false
}

/// The fewest bytes for which the CPU is asked.
pub(crate) const LONG: usize = 64;

/// In a function: if the input is long and the CPU supports it, returns the result of the function's copy for x86-64-v3.
macro_rules! wide {
    ($len:expr, $answer:expr) => {
        #[cfg(all(target_arch = "x86_64", target_feature = "sse2", feature = "std", not(noddychest_narrow)))]
        {
            if crate::support::processor::LONG <= $len && crate::support::processor::is_wide() {
                return $answer;
            }
        }
    };
}
pub(crate) use wide;

/// A call of what is compiled for that CPU.
#[cfg(all(target_arch = "x86_64", target_feature = "sse2", feature = "std", not(noddychest_narrow)))]
macro_rules! apart {
    ($call:expr) => {
        // SAFETY: what it calls is compiled for AVX2. Only the copy of the proved text for such a CPU has such calls, and each call that
        // leads into that copy asks the CPU first, by the macro `wide!`.
        unsafe { $call }
    };
}
#[cfg(all(target_arch = "x86_64", target_feature = "sse2", feature = "std", not(noddychest_narrow)))]
pub(crate) use apart;

/// Whether the library for C runs on this CPU: always.
#[cfg(feature = "c")]
#[export_name = "nody_supported"]
extern "C" fn supported() -> i32 {
    1
}

/// The vector width, in lanes, of the calls that validate, count and transcode.
#[cfg(feature = "c")]
#[export_name = "nody_lanes"]
extern "C" fn lanes() -> i32 {
    if is_wide() {
        32
    } else {
        16
    }
}
