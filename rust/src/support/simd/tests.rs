//! The blocks of this CPU compared with those lane by lane: each call, on all values of a byte, all places and all shifts.
use super::{block_of, by, lane_by_lane, Simd, ToBytes};

fn bytes_of(block: by::Block) -> [u8; 16] {
    let mut out: Simd<u8, 16> = Simd([0; 16]);
    out.put::<0>(block);
    out.0
}

/// Sixteen bytes, by steps of splitmix64.
fn some(seed: &mut u64) -> [u8; 16] {
    core::array::from_fn(|_| {
        *seed = seed.wrapping_add(0x9E37_79B9_7F4A_7C15);
        let z = (*seed ^ (*seed >> 30)).wrapping_mul(0xBF58_476D_1CE4_E5B9);
        (z >> 32) as u8
    })
}

#[test]
fn calls_on_all_pairs_of_bytes() {
    for a in 0..=255u8 {
        for b in (0..=255u8).step_by(16) {
            let (x, y) = ([a; 16], core::array::from_fn(|k| b + k as u8));
            macro_rules! same {
                ($($name:ident),*) => { $(
                    let (is, want) = (bytes_of(by::$name(block_of(&x), block_of(&y))), lane_by_lane::$name(x, y));
                    assert_eq!(is, want, concat!(stringify!($name), " of {:x} and {:x}"), a, b);
                )* };
            }
            same!(and, or, xor, add, sub_or_0, max, eq, low_by_turns, high_by_turns, evens, odds);
            assert_eq!(bytes_of(by::splat(a)), lane_by_lane::splat(a));
        }
    }
}

/// A block that a vector has not is neither read nor written.
#[test]
fn blocks_are_those_of_the_vector() {
    fn is_refused<const N: usize, const K: usize>() -> bool {
        let mut it = Simd::<u8, N>([0; N]);
        let is_read = std::panic::catch_unwind(|| it.block::<K>()).is_ok();
        let is_written = std::panic::catch_unwind(std::panic::AssertUnwindSafe(|| it.put::<K>(block_of(&[255; 16])))).is_ok();
        assert_eq!((is_read, it.0), (is_written, [0; N]));
        !is_read
    }
    const MOST: usize = usize::MAX;
    let all =
        [is_refused::<8, 1>(), is_refused::<8, MOST>(), is_refused::<16, 1>(), is_refused::<16, 2>(), is_refused::<16, MOST>()];
    let more =
        [is_refused::<20, 2>(), is_refused::<20, MOST>(), is_refused::<32, 2>(), is_refused::<32, 3>(), is_refused::<32, MOST>()];
    assert_eq!((all, more), ([true; 5], [true; 5]));
    assert_eq!(
        (bytes_of(Simd::<u8, 16>([7; 16]).block::<0>()), bytes_of(Simd::<u8, 20>([7; 20]).block::<1>())[3..5].to_vec()),
        ([7; 16], vec![7, 0])
    );
}

#[test]
fn calls_on_other_bytes() {
    let mut seed = 1;
    for _ in 0..20_000 {
        let (x, mut y) = (some(&mut seed), some(&mut seed));
        for k in 0..16 {
            if y[k] % 3 == 0 {
                y[k] = x[k];
            }
        }
        let mask = x.map(|it| if it % 2 == 0 { 255 } else { 0 });
        let (a, b) = (block_of(&x), block_of(&y));
        assert_eq!(bytes_of(by::eq(a, b)), lane_by_lane::eq(x, y));
        assert_eq!(bytes_of(by::low_by_turns(a, b)), lane_by_lane::low_by_turns(x, y));
        assert_eq!(bytes_of(by::high_by_turns(a, b)), lane_by_lane::high_by_turns(x, y));
        assert_eq!(bytes_of(by::evens(a, b)), lane_by_lane::evens(x, y));
        assert_eq!(bytes_of(by::odds(a, b)), lane_by_lane::odds(x, y));
        assert_eq!(bytes_of(by::select(block_of(&mask), a, b)), lane_by_lane::select(mask, x, y));
        assert_eq!(by::high_bits(a), lane_by_lane::high_bits(x));
    }
}

#[test]
fn bytes_of_units() {
    let mut seed = 4;
    for _ in 0..2_000 {
        let x = some(&mut seed);
        let units = core::array::from_fn(|k| u16::from_le_bytes([x[2 * k], x[2 * k + 1]]));
        assert_eq!(Simd::<u16, 8>::from_array(units).to_le_bytes().to_array(), x);
    }
}

#[test]
fn all_places() {
    let mut seed = 2;
    for place in (0..16).chain(128..=255) {
        for lane in 0..16 {
            let x = some(&mut seed);
            let places = core::array::from_fn(|k| if k == lane { place } else { k as u8 });
            assert_eq!(bytes_of(by::at(block_of(&x), block_of(&places))), lane_by_lane::at(x, places));
            #[cfg(all(target_arch = "x86_64", target_feature = "sse2"))]
            assert_eq!(bytes_of(by::at_one_by_one(block_of(&x), block_of(&places))), lane_by_lane::at(x, places));
        }
    }
}

#[test]
fn all_shifts() {
    for byte in 0..=255u8 {
        let x = core::array::from_fn(|k| byte.wrapping_mul(k as u8 + 1));
        for n in 0..8 {
            assert_eq!(bytes_of(by::right(block_of(&x), n)), lane_by_lane::right(x, n));
            assert_eq!(bytes_of(by::left(block_of(&x), n)), lane_by_lane::left(x, n));
        }
    }
}

/// The second set of vectors compared with the first, on each call and width that the proved text takes.
#[cfg(all(target_arch = "x86_64", target_feature = "sse2", feature = "std", not(noddychest_narrow)))]
mod both_sets {
    use super::super::{Places, Simd};
    use super::some;

    type Wide<const N: usize> = Simd<u8, N, true>;
    type Narrow<const N: usize> = Simd<u8, N>;

    fn lanes<const N: usize>(seed: &mut u64) -> [u8; N] {
        let mut out = [0; N];
        for part in out.chunks_mut(16) {
            part.copy_from_slice(&some(seed)[..part.len()]);
        }
        out
    }

    fn calls<const N: usize>(seed: &mut u64) {
        let (x, mut y) = (lanes::<N>(seed), lanes::<N>(seed));
        for k in 0..N {
            if y[k] % 3 == 0 {
                y[k] = x[k];
            }
        }
        let (a, b, c, d) = (Wide::from_array(x), Wide::from_array(y), Narrow::from_array(x), Narrow::from_array(y));
        macro_rules! same {
            ($($made:expr, $want:expr;)*) => { $( assert_eq!($made.to_array(), $want.to_array(), stringify!($made)); )* };
        }
        same! {
            a & b, c & d;
            a | b, c | d;
            a ^ b, c ^ d;
            a + b, c + d;
            a.saturating_sub(b), c.saturating_sub(d);
            a.simd_max(b), c.simd_max(d);
            a.simd_eq(b).select(a, b), c.simd_eq(d).select(c, d);
        }
        assert_eq!(a.simd_eq(b).to_bitmask(), c.simd_eq(d).to_bitmask());
        assert_eq!(a.simd_ne(b).to_bitmask(), c.simd_ne(d).to_bitmask());
        assert_eq!(a.simd_ge(b).to_bitmask(), c.simd_ge(d).to_bitmask());
        assert_eq!(a.simd_lt(b).to_bitmask(), c.simd_lt(d).to_bitmask());
        for n in 0..8 {
            same! {
                a >> Wide::splat(n), c >> Narrow::splat(n);
                a << Wide::splat(n), c << Narrow::splat(n);
            }
        }
        let places = y.map(|it| if it < 128 { it % 16 } else { it });
        same!(a.swizzle_dyn_within::<16>(Wide::from_array(places)), c.swizzle_dyn_within::<16>(Narrow::from_array(places)););
        let ((first, second), (third, fourth)) = (a.interleave(b), c.interleave(d));
        same!(first, third; second, fourth;);
        same!(a.rotate_elements_right::<1>(), c.rotate_elements_right::<1>(););
    }

    /// Places of which each sixteen are of the sixteen in the same place, and places that are anywhere.
    struct Within;
    struct Anywhere;

    const fn places(is_within: bool) -> [usize; 32] {
        let (mut out, mut k) = ([0; 32], 0);
        while k < 32 {
            let (side, lane) = (if k % 3 == 0 { 32 } else { 0 }, k * 7 % 16);
            out[k] = if is_within { side + k / 16 * 16 + lane } else { k * 37 % 64 };
            k += 1;
        }
        out
    }

    impl Places<32> for Within {
        const LIST: [usize; 32] = places(true);
    }
    impl Places<32> for Anywhere {
        const LIST: [usize; 32] = places(false);
    }

    #[test]
    fn same_answers() {
        if !crate::support::processor::is_wide() {
            return;
        }
        let mut seed = 3;
        for _ in 0..2_000 {
            calls::<16>(&mut seed);
            calls::<32>(&mut seed);
            calls::<64>(&mut seed);
            let (x, y) = (lanes::<32>(&mut seed), lanes::<32>(&mut seed));
            let (a, b, c, d) = (Wide::from_array(x), Wide::from_array(y), Narrow::from_array(x), Narrow::from_array(y));
            assert_eq!(a.shuffle(b, Within).to_array(), c.shuffle(d, Within).to_array());
            assert_eq!(a.shuffle(b, Anywhere).to_array(), c.shuffle(d, Anywhere).to_array());
            assert_eq!(a.extract::<16, 16>().to_array(), c.extract::<16, 16>().to_array());
            let want: [u8; 32] =
                core::array::from_fn(|k| if Within::LIST[k] < 32 { x[Within::LIST[k]] } else { y[Within::LIST[k] - 32] });
            assert_eq!(a.shuffle(b, Within).to_array(), want);
        }
    }
}
