//! Least and most, modulo 2^64.

pub type Sums = [u64; 2];

pub fn plus(a: Sums, b: Sums) -> Sums {
    [a[0].wrapping_add(b[0]), a[1].wrapping_add(b[1])]
}

/// Of two arms: the smaller least and the larger most.
pub fn hull(a: Sums, b: Sums) -> Sums {
    [a[0].min(b[0]), a[1].max(b[1])]
}
