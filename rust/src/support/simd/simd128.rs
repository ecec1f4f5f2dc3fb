//! Sixteen bytes at a time on WebAssembly with simd128: this module exists if it is compiled for that.
use core::arch::wasm32::*;

pub(crate) type Block = v128;

macro_rules! each {
    ($($name:ident = $by:ident;)*) => { $(
        #[inline(always)]
        pub(crate) fn $name(a: Block, b: Block) -> Block {
            $by(a, b)
        }
    )* };
}

each! {
    and = v128_and;
    or = v128_or;
    xor = v128_xor;
    add = u8x16_add;
    sub_or_0 = u8x16_sub_sat;
    max = u8x16_max;
    eq = u8x16_eq;
    at = u8x16_swizzle;
}

#[inline(always)]
pub(crate) fn low_by_turns(a: Block, b: Block) -> Block {
    u8x16_shuffle::<0, 16, 1, 17, 2, 18, 3, 19, 4, 20, 5, 21, 6, 22, 7, 23>(a, b)
}

#[inline(always)]
pub(crate) fn high_by_turns(a: Block, b: Block) -> Block {
    u8x16_shuffle::<8, 24, 9, 25, 10, 26, 11, 27, 12, 28, 13, 29, 14, 30, 15, 31>(a, b)
}

#[inline(always)]
pub(crate) fn select(mask: Block, a: Block, b: Block) -> Block {
    v128_bitselect(a, b, mask)
}

#[inline(always)]
pub(crate) fn high_bits(a: Block) -> u64 {
    u64::from(u8x16_bitmask(a))
}

#[inline(always)]
pub(crate) fn splat(a: u8) -> Block {
    u8x16_splat(a)
}

#[inline(always)]
pub(crate) fn right(a: Block, n: u8) -> Block {
    u8x16_shr(a, u32::from(n))
}

#[inline(always)]
pub(crate) fn left(a: Block, n: u8) -> Block {
    u8x16_shl(a, u32::from(n))
}

#[inline(always)]
pub(crate) fn evens(a: Block, b: Block) -> Block {
    u8x16_shuffle::<0, 2, 4, 6, 8, 10, 12, 14, 16, 18, 20, 22, 24, 26, 28, 30>(a, b)
}

#[inline(always)]
pub(crate) fn odds(a: Block, b: Block) -> Block {
    u8x16_shuffle::<1, 3, 5, 7, 9, 11, 13, 15, 17, 19, 21, 23, 25, 27, 29, 31>(a, b)
}
