//! Sixteen bytes at a time on x86-64, whose every CPU has SSE2, if the target uses it. One call needs SSSE3, which those since
//! 2006 have: where this is not compiled for it, std asks the CPU; without std that call goes lane by lane.
//!
//! Each `unsafe` here calls an instruction that the CPU has.
use core::arch::x86_64::*;
#[cfg(all(feature = "std", not(target_feature = "ssse3")))]
use core::sync::atomic::{AtomicBool, Ordering::Relaxed};

pub(crate) type Block = __m128i;

instructions! {
    and = _mm_and_si128;
    or = _mm_or_si128;
    xor = _mm_xor_si128;
    add = _mm_add_epi8;
    sub_or_0 = _mm_subs_epu8;
    max = _mm_max_epu8;
    eq = _mm_cmpeq_epi8;
    low_by_turns = _mm_unpacklo_epi8;
    high_by_turns = _mm_unpackhi_epi8;
}

others_of_x86!(_mm_andnot_si128, _mm_movemask_epi8, _mm_set1_epi8, _mm_sll_epi16, _mm_srl_epi16);

#[cfg(target_feature = "ssse3")]
#[inline(always)]
pub(crate) fn at(a: Block, places: Block) -> Block {
    // SAFETY: an instruction of SSSE3 on two registers, and all is compiled for CPUs with SSSE3.
    unsafe { _mm_shuffle_epi8(a, places) }
}

#[cfg(not(target_feature = "ssse3"))]
#[inline(always)]
pub(crate) fn at(a: Block, places: Block) -> Block {
    #[cfg(feature = "std")]
    if HAS_SSSE3.load(Relaxed) {
        // SAFETY: the CPU was asked for SSSE3, and has it.
        unsafe { at_by_ssse3(a, places) }
    } else {
        at_otherwise(a, places)
    }
    #[cfg(not(feature = "std"))]
    at_one_by_one(a, places)
}

/// Whether the CPU was asked for SSSE3, and has it.
#[cfg(all(feature = "std", not(target_feature = "ssse3")))]
static HAS_SSSE3: AtomicBool = AtomicBool::new(false);

/// Asks the CPU. Outlined: inlined at each call, the question costs compile time and instructions.
#[cfg(all(feature = "std", not(target_feature = "ssse3")))]
#[cold]
#[inline(never)]
fn at_otherwise(a: Block, places: Block) -> Block {
    if std::arch::is_x86_feature_detected!("ssse3") {
        HAS_SSSE3.store(true, Relaxed);
        // SAFETY: the CPU was asked for SSSE3, and has it.
        return unsafe { at_by_ssse3(a, places) };
    }
    at_one_by_one(a, places)
}

/// # Safety
///
/// The CPU has SSSE3.
#[cfg(all(feature = "std", not(target_feature = "ssse3")))]
#[inline(always)]
unsafe fn at_by_ssse3(a: Block, places: Block) -> Block {
    let mut out = a;
    // SAFETY: the CPU has this instruction, which writes this register alone. (As a function for SSSE3 it would be called each
    // time, and in no register.)
    unsafe {
        core::arch::asm!("pshufb {}, {}", inout(xmm_reg) out, in(xmm_reg) places, options(pure, nomem, nostack, preserves_flags));
    }
    out
}

#[cfg(any(test, not(target_feature = "ssse3")))]
#[inline(never)]
pub(crate) fn at_one_by_one(a: Block, places: Block) -> Block {
    let out = super::lane_by_lane::at(bytes_of(a), bytes_of(places));
    super::block_of(&out)
}

#[cfg(any(test, not(target_feature = "ssse3")))]
fn bytes_of(a: Block) -> [u8; 16] {
    let mut out = [0; 16];
    // SAFETY: the array has room for the sixteen bytes that an instruction of SSE2 writes, at any address.
    unsafe { _mm_storeu_si128(out.as_mut_ptr().cast(), a) };
    out
}

#[inline(always)]
pub(crate) fn evens(a: Block, b: Block) -> Block {
    // SAFETY: instructions of SSE2, which each x86-64 has, on registers alone.
    unsafe {
        let low = _mm_set1_epi16(0xFF);
        _mm_packus_epi16(_mm_and_si128(a, low), _mm_and_si128(b, low))
    }
}

#[inline(always)]
pub(crate) fn odds(a: Block, b: Block) -> Block {
    // SAFETY: instructions of SSE2, which each x86-64 has, on registers alone.
    unsafe { _mm_packus_epi16(_mm_srli_epi16::<8>(a), _mm_srli_epi16::<8>(b)) }
}
