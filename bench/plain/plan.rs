//! The records and the loops of a sheet at given parameters, or refusals 1 to 7, by one pass over its bytes.
use super::filled::Filled;
use super::form::{number, Form};

/// A refusal's number and place.
pub type Refused = (u32, usize);

pub const WORK: u8 = 1;
pub const LOOP: u8 = 2;
pub const END: u8 = 3;
pub const CHOICE: u8 = 4;
pub const NEXT_ARM: u8 = 5;
/// In a sheet alone: a record of it is a loop with a skip.
const SKIP_LOOP: u8 = 6;

pub const MOST_RECORDS: usize = 128;
pub const MOST_OPEN: usize = 8;
pub const DEEPEST: usize = 4;
/// A loop's body before its skip.
const LOOP_LENGTH: usize = 24;
const MOST_CYCLES: u16 = 4095;
const LARGEST_STRIDE: i64 = 1000;
const MOST_TRIPS: i64 = 2048;
pub const LARGEST_BUDGET: u32 = 1_000_000;

#[derive(Clone, Copy)]
pub struct Record {
    pub kind: u8,
    /// How many records are open around it: the number of its frame, where it opens one.
    pub opened: u8,
    /// The record that opened what this one closes, or the end of what it opens.
    pub partner: u8,
    /// Of a loop: its number among the loops. Of a choice: that of the loop in which it stands directly, or `NO_LOOP`.
    pub number: u8,
    /// A work's least and most, a loop's start and step.
    pub costs: [u16; 2],
}

const NO_LOOP: u8 = u8::MAX;

/// Each is further from being summed than the one before.
#[derive(Clone, Copy, PartialEq, Eq, PartialOrd, Ord)]
pub enum Class {
    Closed,
    Ranked,
    Walked,
}

#[derive(Clone, Copy)]
pub struct Loop {
    /// How many loops are open around it.
    pub depth: usize,
    /// What it costs in place of its start where it makes no trip.
    pub skip: u16,
    /// The size of its stride: which way it counts is in `base` and `pushes`.
    pub stride_size: i64,
    /// From its start to its end, in its direction, where all counters are 0.
    pub base: i64,
    /// What a trip of each loop around adds to it.
    pub pushes: [i64; 3],
    pub class: Class,
    /// Height + 1: so many trips a closed loop visits at most, and a ranked one before it decides.
    pub limit: u64,
}

impl Loop {
    pub fn trips(&self, counters: &[i64; DEEPEST]) -> u64 {
        let pushed: i64 = (0..3).map(|m| self.pushes[m] * counters[m]).sum();
        match self.base + pushed {
            d if d < 0 => 0,
            d if self.stride_size == 1 => d as u64 + 1,
            d => d as u64 / self.stride_size as u64 + 1,
        }
    }

    /// What entering it costs, given its trips.
    pub fn entry_cost(&self, start: u16, trips: u64) -> u64 {
        if trips == 0 { self.skip as u64 } else { start as u64 }
    }

    /// Of how many trips its sum is taken by differences; 0 for a walked loop.
    pub fn first_trips(&self, trips: u64) -> u64 {
        if self.class == Class::Walked { 0 } else { trips.min(self.limit) }
    }
}

pub struct Plan {
    pub records: Filled<Record, MOST_RECORDS>,
    pub loops: Filled<Loop, MOST_RECORDS>,
}

/// What is known of the open loops, by depth.
struct Around {
    numbers: [usize; DEEPEST],
    /// The indexes' ranges, and their values where all counters are 0.
    lo: [i64; DEEPEST],
    hi: [i64; DEEPEST],
    start: [i64; DEEPEST],
    /// What a trip of each loop adds to the index of each deeper one.
    pushes: [[i64; DEEPEST]; DEEPEST],
}

impl Around {
    const NONE: Around = Around {
        numbers: [0; DEEPEST],
        lo: [0; DEEPEST],
        hi: [0; DEEPEST],
        start: [0; DEEPEST],
        pushes: [[0; DEEPEST]; DEEPEST],
    };

    /// Enters a loop at this depth: the loop, and the smallest and the largest distance from its start to its end.
    fn enter(&mut self, depth: usize, number: usize, stride: i64, lower: &Form, upper: &Form) -> (Loop, i64, i64) {
        let (difference, lo, hi) = if stride > 0 {
            let (lo, _) = lower.range(&self.lo, &self.hi);
            (upper.minus(lower), lo, lo.max(upper.range(&self.lo, &self.hi).1))
        } else {
            let (_, hi) = lower.range(&self.lo, &self.hi);
            (lower.minus(upper), hi.min(upper.range(&self.lo, &self.hi).0), hi)
        };
        let (smallest, largest) = difference.range(&self.lo, &self.hi);
        let base = difference.constant + difference.dot(&self.start);
        let mut pushes = [0; 3];
        let start = lower.constant + lower.dot(&self.start);
        for m in 0..depth {
            pushes[m] = difference.dot(&self.pushes[m]);
            self.pushes[m][depth] = lower.dot(&self.pushes[m]);
        }
        self.numbers[depth] = number;
        self.lo[depth] = lo;
        self.hi[depth] = hi;
        self.start[depth] = start;
        self.pushes[depth] = [0; DEEPEST];
        self.pushes[depth][depth] = stride;
        (Loop { depth, skip: 0, stride_size: stride.abs(), base, pushes, class: Class::Closed, limit: 1 }, smallest, largest)
    }

    /// What a loop means for the loops around it: it keeps them from being closed or ranked, and they may visit a trip more for it.
    fn limit_outer(&self, inner: &Loop, start: u16, smallest: i64, barred: Barred, loops: &mut [Loop]) {
        let asked = if inner.skip == start { -inner.stride_size } else { 0 };
        let mut even = smallest >= asked;
        for depth in (0..inner.depth).rev() {
            even = even && (inner.stride_size == 1 || inner.pushes[depth] % inner.stride_size == 0);
            let outer = &mut loops[self.numbers[depth]];
            let class = if !even || depth < barred.from_ranking {
                Class::Walked
            } else if depth < barred.from_closing {
                Class::Ranked
            } else {
                Class::Closed
            };
            outer.class = outer.class.max(class);
            outer.limit = outer.limit.max((inner.depth - depth + 1) as u64);
        }
    }
}

/// How many of the loops around, from the outermost on, the innermost choice bars if it holds a loop.
#[derive(Clone, Copy)]
struct Barred {
    from_closing: usize,
    /// All but the loop in which it stands directly.
    from_ranking: usize,
}

#[derive(Clone, Copy)]
struct Open {
    record: usize,
    is_loop: bool,
    barred: Barred,
}

struct Reader<'a> {
    plan: &'a mut Plan,
    parameters: [i16; 4],
    around: Around,
    open: Filled<Open, MOST_OPEN>,
    depth: usize,
    /// The first loop that may make too many trips.
    over_ceiling: Option<usize>,
}

impl Reader<'_> {
    fn opens(&mut self, kind: u8, barred: Barred) -> Result<(), u32> {
        if self.open.len() == MOST_OPEN || (kind == LOOP && self.depth == DEEPEST) {
            return Err(5);
        }
        self.open.push(Open { record: self.plan.records.len(), is_loop: kind == LOOP, barred });
        Ok(())
    }

    /// The number of the loop that is the innermost open record.
    fn loop_directly_around(&self) -> u8 {
        match self.open.last() {
            Some(open) if open.is_loop => self.plan.records[open.record].number,
            _ => NO_LOOP,
        }
    }

    /// The record that an end or a next arm belongs to.
    fn closes(&mut self, kind: u8) -> Result<u8, u32> {
        let opener = *self.open.last().ok_or(5u32)?;
        if kind == NEXT_ARM && opener.is_loop {
            return Err(5);
        }
        if kind == END {
            self.plan.records[opener.record].partner = self.plan.records.len() as u8;
            self.open.pop();
            self.depth -= opener.is_loop as usize;
        }
        Ok(opener.record as u8)
    }

    fn enters(&mut self, body: &[u8], costs: [u16; 2], barred: Barred, at: usize) -> Result<(), u32> {
        let stride = number(&body[4..]) as i16 as i64;
        let lower = Form::read(&body[6..15], self.parameters);
        let upper = Form::read(&body[15..24], self.parameters);
        let skip = if body.len() > LOOP_LENGTH { number(&body[LOOP_LENGTH..]) } else { costs[0] };
        let enclosed = lower.enclosed_by(self.depth) && upper.enclosed_by(self.depth);
        let cheap = costs[0] <= MOST_CYCLES && costs[1] <= MOST_CYCLES && skip <= MOST_CYCLES;
        if !cheap || !(1..=LARGEST_STRIDE).contains(&stride.abs()) || !enclosed {
            return Err(3);
        }
        self.opens(LOOP, barred)?;
        let (mut entered, smallest, largest) = self.around.enter(self.depth, self.plan.loops.len(), stride, &lower, &upper);
        entered.skip = skip;
        if largest >= MOST_TRIPS * entered.stride_size && self.over_ceiling.is_none() {
            self.over_ceiling = Some(at);
        }
        self.around.limit_outer(&entered, costs[0], smallest, barred, &mut self.plan.loops);
        self.plan.loops.push(entered);
        self.depth += 1;
        Ok(())
    }

    fn record(&mut self, kind: u8, body: &[u8], at: usize) -> Result<(), u32> {
        let opened = self.open.len() as u8;
        let barred = self.open.last().map_or(Barred { from_closing: 0, from_ranking: 0 }, |o| o.barred);
        let mut record = Record { kind, opened, partner: 0, number: self.plan.loops.len() as u8, costs: [0; 2] };
        match kind {
            WORK => {
                record.costs = [number(body), number(&body[2..])];
                if record.costs[0] > record.costs[1] || record.costs[1] > MOST_CYCLES {
                    return Err(3);
                }
            }
            LOOP | SKIP_LOOP => {
                record.kind = LOOP;
                record.costs = [number(body), number(&body[2..])];
                self.enters(body, record.costs, barred, at)?;
            }
            CHOICE => {
                record.number = self.loop_directly_around();
                let from_ranking = self.depth - (record.number != NO_LOOP) as usize;
                self.opens(CHOICE, Barred { from_closing: self.depth, from_ranking })?;
            }
            _ => record.partner = self.closes(kind)?,
        }
        self.plan.records.push(record);
        Ok(())
    }
}

fn body_length(kind: u8) -> Option<usize> {
    match kind {
        WORK => Some(4),
        LOOP => Some(LOOP_LENGTH),
        SKIP_LOOP => Some(LOOP_LENGTH + 2),
        END | CHOICE | NEXT_ARM => Some(0),
        _ => None,
    }
}

impl Plan {
    pub fn new() -> Plan {
        Plan { records: Filled::new(), loops: Filled::new() }
    }

    /// Whether the arms of this choice are kept: it stands directly in one of the first trips of a ranked loop.
    pub fn keeps_arms(&self, choice: &Record, counters: &[i64; DEEPEST]) -> bool {
        match self.loops.get(choice.number as usize) {
            Some(open) => open.class == Class::Ranked && (counters[open.depth] as u64) < open.limit,
            None => false,
        }
    }

    pub fn fill(&mut self, sheet: &[u8], parameters: [i16; 4], budget: u32) -> Result<(), Refused> {
        if budget == 0 || budget > LARGEST_BUDGET {
            return Err((7, 0));
        }
        let mut reader =
            Reader { plan: self, parameters, around: Around::NONE, open: Filled::new(), depth: 0, over_ceiling: None };
        let mut at = 0;
        while at < sheet.len() {
            if reader.plan.records.len() == MOST_RECORDS {
                return Err((4, at));
            }
            let kind = sheet[at];
            let length = body_length(kind).ok_or((2, at))?;
            let body = sheet.get(at + 1..at + 1 + length).ok_or((1, at))?;
            reader.record(kind, body, at).map_err(|number| (number, at))?;
            at += 1 + length;
        }
        if !reader.open.is_empty() {
            return Err((5, at));
        }
        reader.over_ceiling.map_or(Ok(()), |place| Err((6, place)))
    }
}
