//! Sixteen bytes at a time on ARM64, whose every CPU has NEON. (Little-endian alone.)
//!
//! Each `unsafe` here calls an instruction that the CPU has.
use core::arch::aarch64::*;

pub(crate) type Block = uint8x16_t;

instructions! {
    and = vandq_u8;
    or = vorrq_u8;
    xor = veorq_u8;
    add = vaddq_u8;
    sub_or_0 = vqsubq_u8;
    max = vmaxq_u8;
    eq = vceqq_u8;
    low_by_turns = vzip1q_u8;
    high_by_turns = vzip2q_u8;
    at = vqtbl1q_u8;
    evens = vuzp1q_u8;
    odds = vuzp2q_u8;
}

#[inline(always)]
pub(crate) fn select(mask: Block, a: Block, b: Block) -> Block {
    // SAFETY: NEON, which each ARM64 has; this instruction reads registers alone.
    unsafe { vbslq_u8(mask, a, b) }
}

#[inline(always)]
pub(crate) fn high_bits(a: Block) -> u64 {
    const PLACES: [i8; 16] = [0, 1, 2, 3, 4, 5, 6, 7, 0, 1, 2, 3, 4, 5, 6, 7];
    // SAFETY: NEON, which each ARM64 has. One instruction reads memory: sixteen bytes, as many as `PLACES` has.
    unsafe {
        let each = vshlq_u8(vshrq_n_u8::<7>(a), vld1q_s8(PLACES.as_ptr()));
        u64::from(vaddv_u8(vget_low_u8(each))) | u64::from(vaddv_u8(vget_high_u8(each))) << 8
    }
}

#[inline(always)]
pub(crate) fn splat(a: u8) -> Block {
    // SAFETY: NEON, which each ARM64 has; this instruction fills a register.
    unsafe { vdupq_n_u8(a) }
}

#[inline(always)]
pub(crate) fn right(a: Block, n: u8) -> Block {
    // SAFETY: NEON, which each ARM64 has; these instructions read registers alone, and any number may be given.
    unsafe { vshlq_u8(a, vdupq_n_s8(-(n as i8))) }
}

#[inline(always)]
pub(crate) fn left(a: Block, n: u8) -> Block {
    // SAFETY: NEON, which each ARM64 has; these instructions read registers alone, and any number may be given.
    unsafe { vshlq_u8(a, vdupq_n_s8(n as i8)) }
}
