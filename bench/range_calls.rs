//! The calls over a range that are compared: the proved one; the proved call for figures, one value after another; the same by plain Rust.
use crate::calls::{Answer, PLAIN, PROVED};
use crate::plain::LARGEST_BUDGET;
use crate::pumdalin::{self, Extreme, Extremes, ParameterRange};

#[derive(Clone, Copy)]
pub struct RangeCall {
    pub name: &'static str,
    pub extremes: fn(&[u8], [i16; 4], u32, ParameterRange) -> Result<Extremes, u32>,
}

pub const ALL: [RangeCall; 3] = [
    RangeCall { name: "proved", extremes: pumdalin::extremes },
    RangeCall { name: "singly", extremes: |sheet, p, budget, range| one_by_one(PROVED.figures, sheet, p, budget, range) },
    RangeCall { name: PLAIN[0].name, extremes: |sheet, p, budget, range| one_by_one(PLAIN[0].figures, sheet, p, budget, range) },
];

const MOST_VALUES: i32 = 256;

/// As one would write it by hand: a loop over the values that keeps the extremes. A value after the budget is spent may still be refused.
fn one_by_one(
    figures: impl Fn(&[u8], [i16; 4], u32) -> Answer,
    sheet: &[u8],
    mut p: [i16; 4],
    budget: u32,
    ParameterRange { number, first, last }: ParameterRange,
) -> Result<Extremes, u32> {
    let count = i32::from(last) - i32::from(first) + 1;
    if !(1..=4).contains(&number) || !(1..=MOST_VALUES).contains(&count) {
        return Err(11);
    }
    if !(1..=LARGEST_BUDGET).contains(&budget) {
        return Err(7);
    }
    let (mut left, mut is_passed) = (budget, false);
    let mut least = Extreme { cycles: u64::MAX, value: first };
    let mut most = Extreme { cycles: 0, value: first };
    for value in first..=last {
        p[number as usize - 1] = value;
        match figures(sheet, p, left.max(1)) {
            Ok(answered) if answered[2] <= u64::from(left) => {
                left -= answered[2] as u32;
                least = if answered[0] < least.cycles { Extreme { cycles: answered[0], value } } else { least };
                most = if answered[1] > most.cycles { Extreme { cycles: answered[1], value } } else { most };
            }
            Ok(_) | Err(8) => (left, is_passed) = (0, true),
            Err(number) => return Err(number),
        }
    }
    if is_passed {
        return Err(8);
    }
    Ok(Extremes { least, most, visits: u64::from(budget - left) })
}
