//! SIMD vectors, as Rattle's `std::simd` has them, on stable Rust.
//!
//! A vector is an array, and a call scans it in blocks of sixteen bytes: through the vectors of the CPU, if the target has those
//! that are needed, and otherwise lane by lane, as in kernels, which are compiled without vector registers. The calls that the proofs need
//! are those of Rattle's std, under the conditions that are asserted here in debug: all lanes are shifted by the same number, and an index of
//! sixteen is below 16 or from 128 on.
//!
//! On x86-64 there is a second set of these types, in `wide`, whose calls use blocks of thirty-two bytes if a vector is long enough: for the
//! copy of the proved text that runs if the CPU has AVX2.
#![allow(non_camel_case_types)]
use core::ops::{Add, BitAnd, BitOr, BitXor, Shl, Shr};

// Functions of the modules below, each inlined: the parameters, and the result.
#[cfg(any(test, not(target_arch = "wasm32"), not(target_feature = "simd128")))]
macro_rules! calls {
    ($($(#[$doc:meta])* $name:ident($($a:ident: $kind:ty),*) -> $out:ty = $made:expr;)*) => { $(
        $(#[$doc])*
        #[inline(always)]
        pub(crate) fn $name($($a: $kind),*) -> $out {
            $made
        }
    )* };
}

// Calls of two blocks, of which each is one instruction.
#[cfg(any(
    all(target_arch = "x86_64", target_feature = "sse2"),
    all(target_arch = "aarch64", target_feature = "neon", target_endian = "little")
))]
macro_rules! instructions {
    ($($name:ident = $by:ident;)*) => {
        calls! { $(
            $name(a: Block, b: Block) -> Block = {
                // SAFETY: an instruction on two registers: of SSE2, which each x86-64 has, of NEON, which each ARM64 has, or of AVX2 in the
                // module that only code calls which has asked the CPU.
                unsafe { $by(a, b) }
            };
        )* }
    };
}

// The other calls, at either width of x86-64: by these instructions.
#[cfg(all(target_arch = "x86_64", target_feature = "sse2"))]
macro_rules! others_of_x86 {
    ($and_not:ident, $high_bits:ident, $splat:ident, $left:ident, $right:ident) => {
        calls! {
            select(mask: Block, a: Block, b: Block) -> Block = or(and(mask, a), and_not(mask, b));
            // SAFETY: an instruction on a register: of SSE2, which each x86-64 has, or of AVX2 in the module that only code calls which has asked
            // the CPU.
            high_bits(a: Block) -> u64 = u64::from(unsafe { $high_bits(a) } as u32);
            // SAFETY: an instruction that fills a register: of SSE2, which each x86-64 has, or of AVX2 in the module that only code calls which has
            // asked the CPU.
            splat(a: u8) -> Block = unsafe { $splat(a as i8) };
            // SAFETY: a shift of a register, by any number: of SSE2, which each x86-64 has, or of AVX2 in the module that only code calls which has
            // asked the CPU.
            right(a: Block, n: u8) -> Block = and(unsafe { $right(a, _mm_cvtsi32_si128(i32::from(n))) }, splat((0xFF_u32 >> n) as u8));
            // SAFETY: a shift of a register, by any number: of SSE2, which each x86-64 has, or of AVX2 in the module that only code calls which has
            // asked the CPU.
            left(a: Block, n: u8) -> Block = and(unsafe { $left(a, _mm_cvtsi32_si128(i32::from(n))) }, splat((0xFF_u32 << n) as u8));
        }
        instructions! {
            and_not = $and_not;
        }
    };
}

#[cfg(all(target_arch = "x86_64", target_feature = "sse2"))]
mod avx2;
#[cfg(any(
    test,
    all(target_arch = "x86_64", target_feature = "sse2", not(target_feature = "ssse3")),
    not(any(
        all(target_arch = "x86_64", target_feature = "sse2"),
        all(target_arch = "aarch64", target_feature = "neon", target_endian = "little"),
        all(target_arch = "wasm32", target_feature = "simd128")
    ))
))]
mod lane_by_lane;
#[cfg(all(target_arch = "aarch64", target_feature = "neon", target_endian = "little"))]
mod neon;
#[cfg(all(target_arch = "wasm32", target_feature = "simd128"))]
mod simd128;
#[cfg(all(target_arch = "x86_64", target_feature = "sse2"))]
mod sse2;
#[cfg(test)]
mod tests;

#[cfg(not(any(
    all(target_arch = "x86_64", target_feature = "sse2"),
    all(target_arch = "aarch64", target_feature = "neon", target_endian = "little"),
    all(target_arch = "wasm32", target_feature = "simd128")
)))]
use lane_by_lane as by;
#[cfg(all(target_arch = "aarch64", target_feature = "neon", target_endian = "little"))]
use neon as by;
#[cfg(all(target_arch = "wasm32", target_feature = "simd128"))]
use simd128 as by;
#[cfg(all(target_arch = "x86_64", target_feature = "sse2"))]
use sse2 as by;
// Elsewhere no type is of the second set, and its blocks are only named.
#[cfg(all(target_arch = "x86_64", target_feature = "sse2"))]
use avx2 as by_32;
#[cfg(not(all(target_arch = "x86_64", target_feature = "sse2")))]
use by as by_32;

macro_rules! names {
    ($by_32:literal) => {
        pub type u8x4 = super::Simd<u8, 4, $by_32>;
        pub type u8x8 = super::Simd<u8, 8, $by_32>;
        pub type u8x16 = super::Simd<u8, 16, $by_32>;
        pub type u8x32 = super::Simd<u8, 32, $by_32>;
        pub type u8x64 = super::Simd<u8, 64, $by_32>;
        pub type u16x8 = super::Simd<u16, 8, $by_32>;
        pub type Simd<T, const N: usize> = super::Simd<T, N, $by_32>;
    };
}

pub(crate) mod prelude {
    names!(false);
}

/// The second set, with the same names.
pub(crate) mod wide {
    names!(true);
}

/// A vector of `N` lanes. `BY_32` is true in the second set of types.
#[derive(Clone, Copy)]
#[repr(transparent)]
pub struct Simd<T, const N: usize, const BY_32: bool = false>([T; N]);

/// All bits of a lane, or none.
#[derive(Clone, Copy)]
#[repr(transparent)]
pub struct Mask<T, const N: usize, const BY_32: bool = false>([T; N]);

use by::Block;
use by_32::Block as Block32;

const _: () = assert!(size_of::<Block>() == 16);

/// What a lane may be.
///
/// # Safety
///
/// Any bits are a value of the type, and each of its bytes has a value: none is padding.
pub unsafe trait Lane: Copy {}

// SAFETY: any eight bits are a `u8`.
unsafe impl Lane for u8 {}
// SAFETY: any sixteen bits are a `u16`.
unsafe impl Lane for u16 {}
// SAFETY: any bits are sixteen bytes, which lie beside one another.
unsafe impl Lane for [u8; 16] {}

#[inline(always)]
fn block_of(bytes: &[u8; 16]) -> Block {
    // SAFETY: the array has sixteen bytes, a block has as many and takes any bits, and the address need not be aligned.
    unsafe { bytes.as_ptr().cast::<Block>().read_unaligned() }
}

/// Tests that all lanes are shifted by the same number, below `end`. (The test is outlined, since each shift has this call.)
#[inline(always)]
fn is_one_shift<T: Copy + PartialEq + Into<u32>>(by: &[T], end: u32) {
    #[inline(never)]
    fn test<T: Copy + PartialEq + Into<u32>>(by: &[T], end: u32) {
        assert!(by.iter().all(|n| *n == by[0] && (*n).into() < end));
    }
    if cfg!(debug_assertions) {
        test(by, end);
    }
}

/// What is there, as the proofs say of each slice that a vector is taken of or put in: so it is not tested in the trusted mode.
#[inline(always)]
fn surely<T>(it: Option<T>) -> T {
    #[cfg(noddychest_trusted)]
    return crate::support::trust::ByProof::by_proof(it);
    #[cfg(not(noddychest_trusted))]
    it.unwrap()
}

/// That each place is below 16, or from 128 on.
#[inline(always)]
fn are_places(places: &[u8]) {
    #[inline(never)]
    fn test(places: &[u8]) {
        assert!(places.iter().all(|place| *place < 16 || 128 <= *place));
    }
    if cfg!(debug_assertions) {
        test(places);
    }
}

/// Places of lanes, as a type: so what shuffles by them is known when it is compiled.
pub trait Places<const M: usize> {
    const LIST: [usize; M];
}

pub struct Rotated<const N: usize, const K: usize>;

impl<const N: usize, const K: usize> Places<N> for Rotated<N, K> {
    const LIST: [usize; N] = {
        let mut places = [0; N];
        let mut k = 0;
        while k < N {
            places[k] = (k + N - K) % N;
            k += 1;
        }
        places
    };
}

struct Rows<const M: usize, const N: usize, P>(P);

// Sixteen lanes that are made of one block of each of two vectors by an instruction that each CPU has, so that none is looked up.
#[derive(Clone, Copy)]
enum Paired {
    LowByTurns,
    HighByTurns,
    Evens,
    Odds,
}

impl Paired {
    // Which lane goes to an index, as an index in both blocks.
    const fn place(self, k: usize) -> usize {
        match self {
            Paired::LowByTurns => k % 2 * 16 + k / 2,
            Paired::HighByTurns => k % 2 * 16 + k / 2 + 8,
            Paired::Evens => 2 * k,
            Paired::Odds => 2 * k + 1,
        }
    }
}

// For each sixteen lanes that are made, and each sixteen of the two vectors: which of the latter go where.
impl<const M: usize, const N: usize, P: Places<M>> Rows<M, N, P> {
    const SOME: [[bool; 8]; 4] = Self::BOTH.0;
    const ROWS: [[[u8; 16]; 8]; 4] = Self::BOTH.1;
    const BOTH: ([[bool; 8]; 4], [[[u8; 16]; 8]; 4]) = {
        let (mut some, mut rows) = ([[false; 8]; 4], [[[128; 16]; 8]; 4]);
        let list = P::LIST;
        let half = N.div_ceil(16);
        let mut k = 0;
        while k < M {
            let (side, place) = if list[k] < N { (0, list[k]) } else { (half, list[k] - N) };
            rows[k / 16][side + place / 16][k % 16] = (place % 16) as u8;
            some[k / 16][side + place / 16] = true;
            k += 1;
        }
        (some, rows)
    };
    // Whether thirty-two lanes are made of as many, and each sixteen of the sixteen in the same place; and then the places for both vectors.
    const WITHIN: bool = M == 32 && N == 32 && !(Self::SOME[0][1] || Self::SOME[0][3] || Self::SOME[1][0] || Self::SOME[1][2]);
    const BOTH_32: [[[u8; 16]; 2]; 2] = [[Self::ROWS[0][0], Self::ROWS[1][1]], [Self::ROWS[0][2], Self::ROWS[1][3]]];
    // Whether sixteen lanes are so made of the blocks `from` of both vectors.
    const fn is_paired(how: Paired, to: usize, from: usize) -> bool {
        let (list, mut k) = (P::LIST, 0);
        if N % 16 != 0 || N / 16 <= from || M / 16 <= to {
            return false;
        }
        while k < 16 {
            let place = how.place(k);
            if list[16 * to + k] != place / 16 * N + 16 * from + place % 16 {
                return false;
            }
            k += 1;
        }
        true
    }
    // Whether one vector is put after the other, once or again and again: that moves bytes, and looks none up.
    const JOINS: bool = {
        let (list, mut k) = (P::LIST, 0);
        while k < M && list[k] == k % (2 * N) {
            k += 1;
        }
        k == M && M % (2 * N) == 0
    };
}

// The blocks of a vector; what a block has past the end of the vector is 0.
impl<T: Lane, const N: usize, const BY_32: bool> Simd<T, N, BY_32> {
    #[inline(always)]
    fn block<const K: usize>(&self) -> Block {
        assert!(const { K < Self::BLOCKS });
        if const { K < Self::WHOLE_BLOCKS } {
            // SAFETY: the lanes have `WHOLE_BLOCKS` times sixteen bytes, of which sixteen begin at `16 * K`; each has a value (`Lane`), a block takes
            // any bits, and the address need not be aligned.
            unsafe { self.0.as_ptr().cast::<Block>().add(K).read_unaligned() }
        } else {
            let mut few = [0u8; 16];
            // SAFETY: the lanes have more than `16 * K` bytes since `K` is below `BLOCKS`, and fewer than sixteen after that many; each has a value
            // (`Lane`). The array on the stack is apart from the lanes, and has room for sixteen.
            unsafe {
                core::ptr::copy_nonoverlapping(
                    self.0.as_ptr().cast::<Block>().add(K).cast::<u8>(),
                    few.as_mut_ptr(),
                    Self::SIZE % 16,
                )
            };
            block_of(&few)
        }
    }

    #[inline(always)]
    fn put<const K: usize>(&mut self, block: Block) {
        assert!(const { K < Self::BLOCKS });
        if const { K < Self::WHOLE_BLOCKS } {
            // SAFETY: the lanes have `WHOLE_BLOCKS` times sixteen bytes, of which sixteen begin at `16 * K`; lanes take any bits (`Lane`), and the
            // address need not be aligned.
            unsafe { self.0.as_mut_ptr().cast::<Block>().add(K).write_unaligned(block) }
        } else {
            // SAFETY: the lanes have more than `16 * K` bytes since `K` is below `BLOCKS`, and fewer than sixteen after that many; lanes take any bits
            // (`Lane`). The block is apart from the lanes, and has sixteen bytes.
            unsafe {
                core::ptr::copy_nonoverlapping(
                    core::ptr::addr_of!(block).cast::<u8>(),
                    self.0.as_mut_ptr().cast::<Block>().add(K).cast::<u8>(),
                    Self::SIZE % 16,
                )
            }
        }
    }

    const SIZE: usize = size_of::<[T; N]>();

    // The last block may have fewer than sixteen bytes.
    const BLOCKS: usize = Self::SIZE.div_ceil(16);
    const WHOLE_BLOCKS: usize = Self::SIZE / 16;

    // How many blocks of thirty-two bytes a vector is: none if it uses blocks of sixteen.
    const BLOCKS_32: usize = if BY_32 && Self::SIZE % size_of::<Block32>() == 0 { Self::SIZE / size_of::<Block32>() } else { 0 };

    #[inline(always)]
    fn block_32<const K: usize>(&self) -> Block32 {
        assert!(const { K < Self::BLOCKS_32 });
        debug_assert!(crate::support::processor::is_wide());
        // SAFETY: the lanes have `BLOCKS_32` blocks, and `K` is below that; each byte has a value (`Lane`), a block takes any bits, and the address
        // need not be aligned.
        unsafe { self.0.as_ptr().cast::<Block32>().add(K).read_unaligned() }
    }

    #[inline(always)]
    fn put_32<const K: usize>(&mut self, block: Block32) {
        assert!(const { K < Self::BLOCKS_32 });
        debug_assert!(crate::support::processor::is_wide());
        // SAFETY: the lanes have `BLOCKS_32` blocks, and `K` is below that; lanes take any bits (`Lane`), and the address need not be aligned.
        unsafe { self.0.as_mut_ptr().cast::<Block32>().add(K).write_unaligned(block) }
    }

    #[inline(always)]
    pub fn from_array(lanes: [T; N]) -> Self {
        Simd(lanes)
    }

    #[inline(always)]
    pub fn to_array(self) -> [T; N] {
        self.0
    }

    #[inline(always)]
    pub fn splat(lane: T) -> Self {
        Simd([lane; N])
    }

    #[inline(always)]
    pub fn from_slice(slice: &[T]) -> Self {
        Simd(*surely(slice.first_chunk::<N>()))
    }

    #[inline(always)]
    pub fn copy_to_slice(self, slice: &mut [T]) {
        *surely(slice.first_chunk_mut::<N>()) = self.0;
    }
}

// What is done for each block of a vector, at either width; it names the number of the block `K`. There is no loop, and each condition is a
// constant: so rustc leaves out what is not for this vector, and LLVM, which gets a copy of each call, has nothing to unroll. (No closure: it
// would be compiled for any CPU.)
macro_rules! in_blocks {
    ($by_32:block, $by_16:block) => {
        in_blocks!(BLOCKS_32 of $by_32: 0 1);
        if const { Self::BLOCKS_32 == 0 } {
            in_blocks!(BLOCKS of $by_16: 0 1 2 3);
        }
    };
    ($blocks:ident of $done:block: $($k:literal)*) => { $(
        if const { $k < Self::$blocks } {
            const K: usize = $k;
            $done
        }
    )* };
}

// A vector of what is said of the blocks of two, at either width.
macro_rules! each {
    ($one:expr, $two:expr, |$a:ident, $b:ident| $made:expr) => {{
        let (one, two) = ($one, $two);
        let mut out = one;
        in_blocks!(
            {
                use by_32::*;
                let ($a, $b) = (one.block_32::<K>(), two.block_32::<K>());
                out.put_32::<K>($made);
            },
            {
                use by::*;
                let ($a, $b) = (one.block::<K>(), two.block::<K>());
                out.put::<K>($made);
            }
        );
        out
    }};
}

macro_rules! by_bits {
    ($($tr:ident $call:ident $by:ident),*) => { $(
        impl<T: Lane, const N: usize, const BY_32: bool> $tr for Simd<T, N, BY_32> {
            type Output = Self;
            #[inline(always)]
            fn $call(self, other: Self) -> Self {
                each!(self, other, |a, b| $by(a, b))
            }
        }
    )* };
}
by_bits!(BitAnd bitand and, BitOr bitor or, BitXor bitxor xor);

impl<const N: usize, const BY_32: bool> Add for Simd<u8, N, BY_32> {
    type Output = Self;
    #[inline(always)]
    fn add(self, other: Self) -> Self {
        each!(self, other, |a, b| add(a, b))
    }
}

// All lanes are shifted by the same number, which is below eight: no other shift occurs.
macro_rules! shifts {
    ($($tr:ident $call:ident $by:ident),*) => { $(
        impl<const N: usize, const BY_32: bool> $tr for Simd<u8, N, BY_32> {
            type Output = Self;
            #[inline(always)]
            fn $call(self, by: Self) -> Self {
                is_one_shift(&by.0, 8);
                let n = by.0[0];
                each!(self, self, |a, _b| $by(a, n))
            }
        }
    )* };
}
shifts!(Shr shr right, Shl shl left);

// Calls of two vectors, which make one or a mask of what is said of their blocks.
macro_rules! of_two {
    ($($name:ident -> $of:ident: |$a:ident, $b:ident| $made:expr;)*) => { $(
        #[inline(always)]
        pub fn $name(self, other: Self) -> $of<u8, N, BY_32> {
            $of(each!(self, other, |$a, $b| $made).0)
        }
    )* };
}

impl<const N: usize, const BY_32: bool> Simd<u8, N, BY_32> {
    of_two! {
        saturating_sub -> Simd: |a, b| sub_or_0(a, b);
        simd_max -> Simd: |a, b| max(a, b);
        simd_eq -> Mask: |a, b| eq(a, b);
        simd_ne -> Mask: |a, b| xor(eq(a, b), splat(255));
        simd_ge -> Mask: |a, b| eq(max(a, b), a);
        simd_lt -> Mask: |a, b| xor(eq(max(a, b), a), splat(255));
    }

    /// The byte at each index below 16, and 0 for an index of 128 or more. No index is from 16 to 127.
    #[inline(always)]
    pub fn swizzle_dyn(self, places: Self) -> Self {
        const { assert!(N == 16) };
        are_places(&places.0);
        let mut out = self;
        out.put::<0>(Self::at(self.block::<0>(), places.block::<0>()));
        out
    }

    /// `swizzle_dyn` within each 16 lanes.
    #[inline(always)]
    pub fn swizzle_dyn_within<const K: usize>(self, places: Self) -> Self {
        const { assert!(K == 16) };
        are_places(&places.0);
        each!(self, places, |a, b| at(a, b))
    }

    // What sixteen bytes have at sixteen places.
    #[inline(always)]
    fn at(a: Block, places: Block) -> Block {
        #[cfg(all(target_arch = "x86_64", target_feature = "sse2"))]
        if BY_32 {
            debug_assert!(crate::support::processor::is_wide());
            return by_32::at_16(a, places);
        }
        by::at(a, places)
    }

    #[inline(always)]
    fn picked<const M: usize, P: Places<M>>(self, other: Self) -> Simd<u8, M, BY_32> {
        if const { Rows::<M, N, P>::JOINS } {
            return Simd(*[self.0, other.0, self.0, other.0].as_flattened().first_chunk().unwrap());
        }
        let mut out = Simd([0u8; M]);
        #[cfg(all(target_arch = "x86_64", target_feature = "sse2"))]
        if const { BY_32 && Rows::<M, N, P>::WITHIN } {
            let first = Simd::<[u8; 16], 2, true>(const { Rows::<M, N, P>::BOTH_32[0] }).block_32::<0>();
            let second = Simd::<[u8; 16], 2, true>(const { Rows::<M, N, P>::BOTH_32[1] }).block_32::<0>();
            out.put_32::<0>(by_32::or(by_32::at(self.block_32::<0>(), first), by_32::at(other.block_32::<0>(), second)));
            return out;
        }
        macro_rules! put_rows {
            ($($k:literal)*) => { $(
                if const { $k < M.div_ceil(16) } {
                    out.put::<$k>(self.row::<$k, M, P>(&other));
                }
            )* };
        }
        put_rows!(0 1 2 3);
        out
    }

    // Sixteen of the lanes that are picked: those of block `TO`.
    #[inline(always)]
    fn row<const TO: usize, const M: usize, P: Places<M>>(&self, other: &Self) -> Block {
        macro_rules! paired {
            ($($call:ident $how:ident: $($k:literal)*;)*) => { $( $(
                if const { Rows::<M, N, P>::is_paired(Paired::$how, TO, $k) } {
                    return by::$call(self.block::<$k>(), other.block::<$k>());
                }
            )* )* };
        }
        paired! {
            low_by_turns LowByTurns: 0 1;
            high_by_turns HighByTurns: 0 1;
            evens Evens: 0 1;
            odds Odds: 0 1;
        }
        let mut made = by::splat(0);
        macro_rules! add_those_of {
            ($vector:ident from $first:expr; $($k:literal)*) => { $(
                if const { $k < N.div_ceil(16) && Rows::<M, N, P>::SOME[TO][$first + $k] } {
                    let places = block_of(&const { Rows::<M, N, P>::ROWS[TO][$first + $k] });
                    made = by::or(made, Self::at($vector.block::<$k>(), places));
                }
            )* };
        }
        add_those_of!(self from 0; 0 1 2 3);
        add_those_of!(other from N.div_ceil(16); 0 1 2 3);
        made
    }

    #[inline(always)]
    pub fn shuffle<const M: usize, P: Places<M>>(self, other: Self, _: P) -> Simd<u8, M, BY_32> {
        self.picked::<M, P>(other)
    }

    #[inline(always)]
    pub fn swizzle<const M: usize, P: Places<M>>(self, _: P) -> Simd<u8, M, BY_32> {
        self.picked::<M, P>(self)
    }

    #[inline(always)]
    pub fn interleave(self, other: Self) -> (Self, Self) {
        const { assert!(N == 16 || N == 32 || N == 64) };
        let (mut first, mut second) = (self, self);
        macro_rules! put {
            ($($to:ident $k:literal = $call:ident $from:literal;)*) => { $(
                $to.put::<$k>(by::$call(self.block::<$from>(), other.block::<$from>()));
            )* };
        }
        if const { N == 16 } {
            put! { first 0 = low_by_turns 0; second 0 = high_by_turns 0; }
        } else if const { N == 32 } {
            put! { first 0 = low_by_turns 0; first 1 = high_by_turns 0; second 0 = low_by_turns 1; second 1 = high_by_turns 1; }
        } else {
            put! { first 0 = low_by_turns 0; first 1 = high_by_turns 0; first 2 = low_by_turns 1; first 3 = high_by_turns 1; }
            put! { second 0 = low_by_turns 2; second 1 = high_by_turns 2; second 2 = low_by_turns 3; second 3 = high_by_turns 3; }
        }
        (first, second)
    }

    #[inline(always)]
    pub fn deinterleave(self, other: Self) -> (Self, Self) {
        const { assert!(N == 16) };
        let (mut even, mut odd) = (self, self);
        even.put::<0>(by::evens(self.block::<0>(), other.block::<0>()));
        odd.put::<0>(by::odds(self.block::<0>(), other.block::<0>()));
        (even, odd)
    }

    #[inline(always)]
    pub fn rotate_elements_right<const K: usize>(self) -> Self {
        self.picked::<N, Rotated<N, K>>(self)
    }

    #[inline(always)]
    pub fn extract<const START: usize, const LEN: usize>(self) -> Simd<u8, LEN, BY_32> {
        Simd(*self.0[START..].first_chunk::<LEN>().unwrap())
    }
}

/// What lanes of more than a byte are in memory.
pub(crate) trait ToBytes {
    type Bytes;

    fn to_le_bytes(self) -> Self::Bytes;
}

impl<const BY_32: bool> ToBytes for Simd<u16, 8, BY_32> {
    type Bytes = Simd<u8, 16, BY_32>;

    #[inline(always)]
    fn to_le_bytes(self) -> Self::Bytes {
        #[cfg(target_endian = "little")]
        let bytes = self.0;
        #[cfg(target_endian = "big")]
        let bytes = self.0.map(u16::to_le);
        // SAFETY: eight lanes of two bytes are sixteen bytes, each of which has a value, and a byte takes any bits.
        Simd(unsafe { core::mem::transmute::<[u16; 8], [u8; 16]>(bytes) })
    }
}

impl<T: Lane, const N: usize, const BY_32: bool> Mask<T, N, BY_32> {
    const BLOCKS: usize = Simd::<T, N, BY_32>::BLOCKS;
    const BLOCKS_32: usize = Simd::<T, N, BY_32>::BLOCKS_32;

    #[inline(always)]
    pub fn select(self, yes: Simd<T, N, BY_32>, no: Simd<T, N, BY_32>) -> Simd<T, N, BY_32> {
        let mask = Simd::<T, N, BY_32>(self.0);
        let mut out = yes;
        in_blocks!(
            {
                out.put_32::<K>(by_32::select(mask.block_32::<K>(), yes.block_32::<K>(), no.block_32::<K>()));
            },
            {
                out.put::<K>(by::select(mask.block::<K>(), yes.block::<K>(), no.block::<K>()));
            }
        );
        out
    }

    /// A bit for each lane.
    #[inline(always)]
    pub fn to_bitmask(self) -> u64 {
        let lanes = Simd::<T, N, BY_32>(self.0);
        let mut all = 0;
        in_blocks!(
            {
                all |= by_32::high_bits(lanes.block_32::<K>()) << (32 * K);
            },
            {
                all |= by::high_bits(lanes.block::<K>()) << (16 * K);
            }
        );
        all
    }
}
