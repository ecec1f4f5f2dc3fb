//! Thirty-two bytes at a time on x86-64, by AVX2.
//!
//! Each `unsafe` here calls an instruction of AVX2, or of SSSE3, which each CPU with AVX2 has. Who calls a function of this module
//! has asked whether the CPU has it: only the copy of the proved text for such a CPU does, and the tests.
use core::arch::x86_64::*;

pub(crate) type Block = __m256i;

instructions! {
    and = _mm256_and_si256;
    or = _mm256_or_si256;
    xor = _mm256_xor_si256;
    add = _mm256_add_epi8;
    sub_or_0 = _mm256_subs_epu8;
    max = _mm256_max_epu8;
    eq = _mm256_cmpeq_epi8;
    at = _mm256_shuffle_epi8;
}

others_of_x86!(_mm256_andnot_si256, _mm256_movemask_epi8, _mm256_set1_epi8, _mm256_sll_epi16, _mm256_srl_epi16);

/// What sixteen bytes have at sixteen places.
#[inline(always)]
pub(crate) fn at_16(a: __m128i, places: __m128i) -> __m128i {
    // SAFETY: an instruction of SSSE3 on two registers. Each CPU with AVX2 has it, and who calls this module has asked for that.
    unsafe { _mm_shuffle_epi8(a, places) }
}
