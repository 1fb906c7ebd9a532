//! The figures by stages, each from the start of one visit to the start of the next, as document 01 has them:
//! with the state by value, or changed in its place. The kept arms stand beside it.
use super::arms::Arms;
use super::newton;
use super::plan::{Class, Loop, Plan, Record, Refused, CHOICE, DEEPEST, LOOP, MOST_OPEN, NEXT_ARM, WORK};
use super::sums::{hull, plus, Sums};

#[derive(Clone, Copy, Default)]
struct Frame {
    around: Sums,
    /// The hull of the arms passed, or the sum of a walked loop's trips.
    passed: Sums,
    any_arm: bool,
}

#[derive(Clone, Copy, Default)]
struct State {
    at: usize,
    sums: Sums,
    visits: u64,
    counters: [i64; DEEPEST],
    frames: [Frame; MOST_OPEN],
    /// The trips kept of a closed loop: three of an outermost one, two of one inside that, one of the next.
    kept: [Sums; 6],
}

/// Where the kept trips of a loop begin, by the number of loops around it.
const KEPT_FROM: [usize; DEEPEST] = [0, 3, 5, 6];

impl State {
    fn begin(&mut self, at: usize) {
        self.sums = [0; 2];
        self.visits += 1;
        self.at = at;
    }

    fn open(&mut self, frame: u8) {
        self.frames[frame as usize] = Frame { around: self.sums, passed: [0; 2], any_arm: false };
        self.sums = [0; 2];
    }

    fn pass_arm(&mut self, plan: &Plan, choice: &Record, arms: &mut Arms) {
        let f = &mut self.frames[choice.opened as usize];
        if plan.keeps_arms(choice, &self.counters) {
            arms.keep(self.sums, !f.any_arm);
        }
        f.passed = if f.any_arm { hull(f.passed, self.sums) } else { self.sums };
        f.any_arm = true;
        self.sums = [0; 2];
    }

    fn leave_choice(&mut self, plan: &Plan, choice: &Record, arms: &mut Arms) {
        self.pass_arm(plan, choice, arms);
        let f = &self.frames[choice.opened as usize];
        self.sums = plus(f.around, f.passed);
    }

    /// A loop's record; whether a visit begins.
    fn enter(&mut self, plan: &Plan, record: &Record) -> bool {
        let entered = &plan.loops[record.number as usize];
        let trips = entered.trips(&self.counters);
        self.sums = plus(self.sums, [entered.entry_cost(record.costs[0], trips); 2]);
        if trips == 0 {
            self.at = record.partner as usize + 1;
            return false;
        }
        self.open(record.opened);
        self.counters[entered.depth] = 0;
        self.begin(self.at + 1);
        true
    }

    /// The end of a trip of the loop whose record this is; whether another begins.
    fn end_trip(&mut self, plan: &Plan, opener: usize, arms: &mut Arms) -> bool {
        let record = &plan.records[opener];
        let open = &plan.loops[record.number as usize];
        self.sums = plus(self.sums, [record.costs[1] as u64; 2]);
        let trips = open.trips(&self.counters);
        let ended = self.counters[open.depth] as u64 + 1;
        let first = open.first_trips(trips);
        if ended < first {
            self.kept[KEPT_FROM[open.depth] + ended as usize - 1] = self.sums;
        } else if ended == first && self.sum_up(open, trips, first, record.opened, arms) {
            self.leave_loop(record.opened);
            return false;
        } else if ended > first {
            let frame = &mut self.frames[record.opened as usize];
            frame.passed = plus(frame.passed, self.sums);
        }
        if ended < trips {
            self.counters[open.depth] += 1;
            self.begin(opener + 1);
            return true;
        }
        self.leave_loop(record.opened);
        false
    }

    fn leave_loop(&mut self, frame: u8) {
        let f = &self.frames[frame as usize];
        self.sums = plus(f.around, f.passed);
        self.at += 1;
    }

    /// At the end of the last of the first trips: the sum of all trips, or of these where a ranked loop is not settled; whether it is of all.
    fn sum_up(&mut self, open: &Loop, trips: u64, first: u64, frame: u8, arms: &mut Arms) -> bool {
        let held = first as usize - 1;
        let mut visited = [self.sums; DEEPEST];
        visited[..held].copy_from_slice(&self.kept[KEPT_FROM[open.depth]..][..held]);
        let is_summed = open.class == Class::Closed || arms.are_settled(first);
        if open.class == Class::Ranked {
            arms.clear();
        }
        self.frames[frame as usize].passed = if is_summed {
            newton::sums(trips, first, &visited)
        } else {
            visited[..first as usize].iter().fold([0; 2], |sum, trip| plus(sum, *trip))
        };
        is_summed
    }
}

/// From the start of one visit to the start of the next, or to the sheet's end.
fn stage(plan: &Plan, s: &mut State, arms: &mut Arms) {
    while s.at < plan.records.len() {
        let record = &plan.records[s.at];
        // What an end or a next arm belongs to; looked up for these alone.
        let opener = || &plan.records[record.partner as usize];
        match record.kind {
            WORK => s.sums = plus(s.sums, record.costs.map(u64::from)),
            LOOP => {
                if s.enter(plan, record) {
                    return;
                }
                continue;
            }
            CHOICE => s.open(record.opened),
            NEXT_ARM => s.pass_arm(plan, opener(), arms),
            _ if opener().kind == CHOICE => s.leave_choice(plan, opener(), arms),
            _ => {
                if s.end_trip(plan, record.partner as usize, arms) {
                    return;
                }
                continue;
            }
        }
        s.at += 1;
    }
}

/// The same as a function from a state by value to the next, which is a call of its own as in a library.
#[inline(never)]
fn next_state(plan: &Plan, mut s: State, arms: &mut Arms) -> State {
    stage(plan, &mut s, arms);
    s
}

fn figures(sheet: &[u8], parameters: [i16; 4], budget: u32, next: impl Fn(&Plan, &mut State, &mut Arms)) -> Result<[u64; 3], Refused> {
    let mut plan = Plan::new();
    plan.fill(sheet, parameters, budget)?;
    let mut s = State::default();
    let mut arms = Arms::new();
    while s.at < plan.records.len() && s.visits <= budget as u64 {
        next(&plan, &mut s, &mut arms);
    }
    if s.visits > budget as u64 {
        return Err((8, 0));
    }
    Ok([s.sums[0], s.sums[1], s.visits])
}

pub fn by_value(sheet: &[u8], parameters: [i16; 4], budget: u32) -> Result<[u64; 3], Refused> {
    figures(sheet, parameters, budget, |plan, s, arms| *s = next_state(plan, *s, arms))
}

pub fn in_place(sheet: &[u8], parameters: [i16; 4], budget: u32) -> Result<[u64; 3], Refused> {
    figures(sheet, parameters, budget, stage)
}
