//! Sixteen bytes at a time, lane by lane: for any CPU, and what the other modules are compared with.

pub(crate) type Block = [u8; 16];

macro_rules! each {
    ($($name:ident = |$a:ident, $b:ident| $by:expr;)*) => {
        calls! { $(
            $name(x: Block, y: Block) -> Block = core::array::from_fn(|k| {
                let ($a, $b) = (x[k], y[k]);
                $by
            });
        )* }
    };
}

each! {
    and = |a, b| a & b;
    or = |a, b| a | b;
    xor = |a, b| a ^ b;
    add = |a, b| a.wrapping_add(b);
    sub_or_0 = |a, b| a.saturating_sub(b);
    max = |a, b| a.max(b);
    // (all bits if the bytes are equal, and none if not)
    eq = |a, b| if a == b { 255 } else { 0 };
}

calls! {
    /// The first eight bytes of both, by turns.
    low_by_turns(a: Block, b: Block) -> Block = core::array::from_fn(|k| if k % 2 == 0 { a[k / 2] } else { b[k / 2] });
    /// The last eight bytes of both, by turns.
    high_by_turns(a: Block, b: Block) -> Block = core::array::from_fn(|k| if k % 2 == 0 { a[8 + k / 2] } else { b[8 + k / 2] });
    /// The bytes at even indices, of the first and then of the second.
    evens(a: Block, b: Block) -> Block = core::array::from_fn(|k| if k < 8 { a[2 * k] } else { b[2 * k - 16] });
    /// The bytes at odd indices.
    odds(a: Block, b: Block) -> Block = core::array::from_fn(|k| if k < 8 { a[2 * k + 1] } else { b[2 * k - 15] });
    /// The byte at each index below 16, and 0 for indices from 128 on. No other index occurs.
    at(a: Block, places: Block) -> Block = places.map(|place| if place < 128 { a[(place & 15) as usize] } else { 0 });
    /// The first if the mask has all bits, and the second if it has none.
    select(mask: Block, a: Block, b: Block) -> Block = core::array::from_fn(|k| mask[k] & a[k] | !mask[k] & b[k]);
    /// The highest bit of each byte.
    high_bits(a: Block) -> u64 = a.iter().enumerate().fold(0, |all, (k, byte)| all | u64::from(byte >> 7) << k);
    /// That byte sixteen times.
    splat(a: u8) -> Block = [a; 16];
    /// Shifts each byte by `n` bits, fewer than eight.
    right(a: Block, n: u8) -> Block = a.map(|it| it >> n);
    /// Shifts each byte to the left.
    left(a: Block, n: u8) -> Block = a.map(|it| it << n);
}
