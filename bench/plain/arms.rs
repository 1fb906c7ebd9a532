//! The arms kept of the ranked loop that is open, and whether its first trips settle which of them is the slowest and which the fastest.
use super::filled::Filled;
use super::newton;
use super::plan::{DEEPEST, MOST_RECORDS};
use super::sums::Sums;

/// A choice takes a record more than it has arms, the loop around it and each of three loops in it two; four trips are kept.
const MOST_ARMS: usize = 4 * (MOST_RECORDS - 9);

#[derive(Clone, Copy)]
struct Arm {
    sums: Sums,
    /// Whether it is the first arm of its choice.
    is_first: bool,
}

/// In the order in which they were passed, trip after trip. No two ranked loops are open together.
pub struct Arms {
    passed: Filled<Arm, MOST_ARMS>,
}

/// The largest coefficients so far, and whether one arm has them all.
#[derive(Clone, Copy)]
struct Lead {
    largest: [i64; DEEPEST],
    is_attained: bool,
}

impl Lead {
    const NONE: Lead = Lead { largest: [i64::MIN; DEEPEST], is_attained: true };

    fn with(self, arm: [i64; DEEPEST]) -> Lead {
        let above = (0..DEEPEST).all(|k| arm[k] >= self.largest[k]);
        let below = (0..DEEPEST).all(|k| arm[k] <= self.largest[k]);
        let mut largest = self.largest;
        for k in 0..DEEPEST {
            largest[k] = largest[k].max(arm[k]);
        }
        Lead { largest, is_attained: above || (self.is_attained && below) }
    }
}

impl Arms {
    pub fn new() -> Arms {
        Arms { passed: Filled::new() }
    }

    pub fn keep(&mut self, sums: Sums, is_first: bool) {
        self.passed.push(Arm { sums, is_first });
    }

    pub fn clear(&mut self) {
        self.passed.clear();
    }

    /// The coefficients of an arm's Newton series, from so many trips: of its most, and of its least with the other sign.
    fn series(&self, arm: usize, trips: usize) -> [[i64; DEEPEST]; 2] {
        let arms = self.passed.len() / trips;
        [1, 0].map(|figure| {
            let mut values = [0; DEEPEST];
            for trip in 0..trips {
                values[trip] = self.passed[trip * arms + arm].sums[figure];
            }
            let mut terms = newton::differences(values).map(|term| term as i64);
            terms[trips..].fill(0);
            if figure == 1 { terms } else { terms.map(|term| -term) }
        })
    }

    /// Whether in each choice one arm's most is nowhere below another's by its coefficients, and one arm's least nowhere above.
    pub fn are_settled(&self, trips: u64) -> bool {
        let trips = trips as usize;
        let mut leads = [Lead::NONE; 2];
        for arm in 0..self.passed.len() / trips {
            if self.passed[arm].is_first {
                if !leads.iter().all(|lead| lead.is_attained) {
                    return false;
                }
                leads = [Lead::NONE; 2];
            }
            let series = self.series(arm, trips);
            leads = [leads[0].with(series[0]), leads[1].with(series[1])];
        }
        leads.iter().all(|lead| lead.is_attained)
    }
}
