//! Times of calls, in nanoseconds.
use crate::calls::{self, Call};
use crate::plain::{direct, LARGEST_BUDGET};
use crate::range_calls::{self, RangeCall};
use crate::range_sheets::Ranged;
use crate::sheets::Given;
use std::arch::asm;
use std::time::Instant;

const ROUNDS: usize = 15;
const NANOSECONDS_A_ROUND: u128 = 30_000_000;

/// The value, which the compiler has to take for read and changed here: `std::hint::black_box`, which Rust has from 1.66 on.
fn opaque<T>(mut value: T) -> T {
    // SAFETY: it has no instruction; its operand is the address of a value that is there.
    unsafe { asm!("/* {} */", in(reg) std::ptr::addr_of_mut!(value), options(nostack, preserves_flags)) };
    value
}

/// How often a call fits into a round, by one call after an untimed one.
fn repeats(call: &impl Fn()) -> u128 {
    call();
    let started = Instant::now();
    call();
    (NANOSECONDS_A_ROUND / started.elapsed().as_nanos().max(1)).clamp(1, 1_000_000)
}

/// The best time of each call among the rounds. The calls take turns, so that a slow moment of the machine meets all of them.
fn best(calls: &[impl Fn()]) -> Vec<f64> {
    let repeats: Vec<u128> = calls.iter().map(repeats).collect();
    let mut least = vec![f64::MAX; calls.len()];
    for _ in 0..ROUNDS {
        for (i, call) in calls.iter().enumerate() {
            let started = Instant::now();
            for _ in 0..repeats[i] {
                call();
            }
            least[i] = least[i].min(started.elapsed().as_nanos() as f64 / repeats[i] as f64);
        }
    }
    least
}

/// The calls, one after another, of which the compiler can drop nothing.
pub fn run(call: Call, given: &[Given], budget: u32) -> impl Fn() + '_ {
    move || {
        for (sheet, p) in given {
            let _ = opaque((call.figures)(opaque(sheet), *p, budget));
        }
    }
}

/// The proved call's time, and those of the plain ones.
pub fn of_calls(given: &[Given]) -> Vec<f64> {
    best(&calls::all().map(|call| run(call, given, LARGEST_BUDGET)))
}

/// The same of one stage. A call with budget 1 stops after two, so that the difference of two calls is that of the others alone.
pub fn of_stages(given: &[Given], visits: u64) -> Vec<f64> {
    let runs: Vec<_> = calls::all().iter().flat_map(|call| [LARGEST_BUDGET, 1].map(|budget| run(*call, given, budget))).collect();
    best(&runs).chunks(2).map(|times| (times[0] - times[1]) / (visits - 1) as f64).collect()
}

/// A call over a range, in the same way.
pub fn run_range(call: RangeCall, given: &Ranged) -> impl Fn() + '_ {
    move || {
        let _ = opaque((call.extremes)(opaque(&given.sheet), [0; 4], LARGEST_BUDGET, given.range));
    }
}

pub fn of_ranges(given: &Ranged) -> Vec<f64> {
    best(&range_calls::ALL.map(|call| run_range(call, given)))
}

/// Plain Rust that goes over every trip.
pub fn of_every_trip(given: &[Given]) -> f64 {
    let walk = || {
        for (sheet, p) in given {
            let _ = opaque(direct::trip_by_trip(opaque(sheet), *p));
        }
    };
    best(&[walk])[0]
}
