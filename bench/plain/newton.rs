//! The sum of a closed loop's trips from the first ones, by Newton's forward differences, modulo 2^64.

/// Least and most of n trips, of which the first `known`, at most four, are given; the others are not looked at.
pub fn sums(n: u64, known: u64, visited: &[[u64; 2]; 4]) -> [u64; 2] {
    if known <= 1 {
        return visited[0].map(|first| n.wrapping_mul(first));
    }
    let two = n * (n - 1) / 2;
    let three = if known < 3 { 0 } else { two * (n - 2) / 3 };
    let four = if known < 4 { 0 } else { three * (n - 3) / 4 };
    [0, 1].map(|figure| sum([n, two, three, four], visited.map(|trip| trip[figure])))
}

/// The forward differences at the first of four values, modulo 2^64.
pub fn differences(v: [u64; 4]) -> [u64; 4] {
    let first_difference = v[1].wrapping_sub(v[0]);
    let next_first = v[2].wrapping_sub(v[1]);
    let last_first = v[3].wrapping_sub(v[2]);
    let second_difference = next_first.wrapping_sub(first_difference);
    let third_difference = last_first.wrapping_sub(next_first).wrapping_sub(second_difference);
    [v[0], first_difference, second_difference, third_difference]
}

fn sum(weights: [u64; 4], v: [u64; 4]) -> u64 {
    let terms = differences(v);
    (0..4).fold(0, |sum: u64, k| sum.wrapping_add(weights[k].wrapping_mul(terms[k])))
}
