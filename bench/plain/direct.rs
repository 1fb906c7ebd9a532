//! The figures by recursion over the records, with no stages: each entry of a loop works through the trips to be visited.
use super::arms::Arms;
use super::newton;
use super::plan::{Class, Plan, Refused, CHOICE, DEEPEST, LOOP, WORK};
use super::sums::{hull, plus, Sums};

struct Walk<'a> {
    plan: &'a Plan,
    counters: [i64; DEEPEST],
    visits: u64,
    budget: u64,
    arms: Arms,
}

impl Walk<'_> {
    /// The records up to the sheet's end, or to the end or next arm that closes them; and where that stands.
    fn body(&mut self, mut at: usize) -> (Sums, usize) {
        let mut sums = [0; 2];
        while at < self.plan.records.len() {
            let record = &self.plan.records[at];
            let (passed, last) = match record.kind {
                WORK => (record.costs.map(u64::from), at),
                LOOP => (self.entry(at), record.partner as usize),
                CHOICE => (self.arms(at), record.partner as usize),
                _ => break,
            };
            sums = plus(sums, passed);
            at = last + 1;
        }
        (sums, at)
    }

    /// One entry of a loop. Once the visits pass the budget it ends at once, since no figure is asked for then.
    fn entry(&mut self, at: usize) -> Sums {
        let entered = &self.plan.loops[self.plan.records[at].number as usize];
        let trips = entered.trips(&self.counters);
        let first = entered.first_trips(trips);
        let mut total = [entered.entry_cost(self.plan.records[at].costs[0], trips); 2];
        let mut visited = [[0; 2]; DEEPEST];
        for counter in 0..first {
            match self.trip(at, counter) {
                Some(trip) => visited[counter as usize] = trip,
                None => return total,
            }
        }
        if self.is_summed(entered.class, first) {
            return plus(total, newton::sums(trips, first, &visited));
        }
        total = visited[..first as usize].iter().fold(total, |sum, trip| plus(sum, *trip));
        for counter in first..trips {
            match self.trip(at, counter) {
                Some(trip) => total = plus(total, trip),
                None => return total,
            }
        }
        total
    }

    /// A visit; nothing where it is one too many.
    fn trip(&mut self, at: usize, counter: u64) -> Option<Sums> {
        self.visits += 1;
        if self.visits > self.budget {
            return None;
        }
        let [_, step] = self.plan.records[at].costs;
        self.counters[self.plan.loops[self.plan.records[at].number as usize].depth] = counter as i64;
        Some(plus(self.body(at + 1).0, [u64::from(step); 2]))
    }

    /// Whether the trips after the first ones follow from these.
    fn is_summed(&mut self, class: Class, first: u64) -> bool {
        if class != Class::Ranked || first == 0 {
            return class == Class::Closed;
        }
        let settled = self.arms.are_settled(first);
        self.arms.clear();
        settled
    }

    fn arms(&mut self, at: usize) -> Sums {
        let choice = &self.plan.records[at];
        let keeps = self.plan.keeps_arms(choice, &self.counters);
        let (mut sums, mut last) = self.body(at + 1);
        if keeps {
            self.arms.keep(sums, true);
        }
        while last < choice.partner as usize {
            let (arm, next) = self.body(last + 1);
            if keeps {
                self.arms.keep(arm, false);
            }
            sums = hull(sums, arm);
            last = next;
        }
        sums
    }
}

pub fn figures(sheet: &[u8], parameters: [i16; 4], budget: u32) -> Result<[u64; 3], Refused> {
    let mut plan = Plan::new();
    plan.fill(sheet, parameters, budget)?;
    let mut walk = Walk { plan: &plan, counters: [0; DEEPEST], visits: 0, budget: budget as u64, arms: Arms::new() };
    let ([least, most], _) = walk.body(0);
    if walk.visits > budget as u64 {
        return Err((8, 0));
    }
    Ok([least, most, walk.visits])
}

/// Least and most with every loop walked: no differences.
pub fn trip_by_trip(sheet: &[u8], parameters: [i16; 4]) -> Result<Sums, Refused> {
    let mut plan = Plan::new();
    plan.fill(sheet, parameters, 1)?;
    plan.loops.iter_mut().for_each(|l| l.class = Class::Walked);
    Ok(Walk { plan: &plan, counters: [0; DEEPEST], visits: 0, budget: u64::MAX, arms: Arms::new() }.body(0).0)
}
