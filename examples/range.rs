//! Calls pumdalin_range from Rust: whether a tick holds for every number of colorants, ranges of
//! each parameter, and the refusals in their order. A wrong number, or a wrong byte anywhere in the
//! answer area or before it, makes the exit status 1; the sheet lies in read-only memory, and a byte
//! read or written past the end of sheet or area ends the program.
mod guarded;
mod pumdalin;
mod records;

use guarded::{Guarded, ReadOnly};
use pumdalin::{extremes, fill_range, Extreme, Extremes, ParameterRange, RANGE_AREA_LENGTH};
use records::{a_loop, constant, dispense, form, nest, parameter_1, work, CHOICE, END};
use std::process::ExitCode;

/// Least and most of the code of dispense.listing, trip by trip.
fn dispensed(colorants: i16) -> [u64; 2] {
    let pulses = |i: i16, pulse: u64| 2 + (i..=colorants).map(|_| pulse + 2).sum::<u64>();
    let taken = |pulse: u64, report: u64| 2 + (1..=colorants).map(|i| 6 + pulses(i, pulse) + report + 3).sum::<u64>();
    [12 + taken(4, 3), 15 + taken(7, 35)]
}

/// One trip of each loop with one colorant; with more the outer loop visits two, and the inner one visits one in each.
fn dispense_visits(colorants: i16) -> u64 {
    match colorants {
        i16::MIN..=0 => 0,
        1 => 2,
        _ => 4,
    }
}

/// The extremes of the code of dispense.listing over so many colorants, trip by trip.
fn dispense_extremes(first: i16, last: i16) -> Extremes {
    let of = |figure: usize| (first..=last).map(move |value| Extreme { cycles: dispensed(value)[figure], value });
    // Of equals the first is taken for the smallest, and the last for the largest.
    let least = of(0).min_by_key(|extreme| extreme.cycles).expect("a value");
    let most = of(1).rev().max_by_key(|extreme| extreme.cycles).expect("a value");
    Extremes { least, most, visits: (first..=last).map(dispense_visits).sum() }
}

fn plain(lower: Vec<u8>, upper: Vec<u8>, body: Vec<u8>) -> Vec<u8> {
    nest(&[a_loop([0, 0], 1, lower, upper)], body)
}

/// As many trips as parameter 1 says, of one cycle each; none below 1.
fn up_to() -> Vec<u8> {
    plain(constant(1), parameter_1(), work(1, 1))
}

/// A valve turned by so many notches, one way below 0 and the other way above; it takes a visit unless that is 0.
fn either_way() -> Vec<u8> {
    [plain(parameter_1(), constant(-1), work(1, 2)), plain(constant(1), parameter_1(), work(1, 2))].concat()
}

/// p1 + 2 p2 + 4 p3 - p4 trips of one cycle each.
fn all_parameters() -> Vec<u8> {
    plain(constant(1), form(0, [0; 3], [1, 2, 4, -1]), work(1, 1))
}

struct Call {
    tells: &'static str,
    sheet: Vec<u8>,
    parameters: [i16; 4],
    budget: u32,
    range: ParameterRange,
    area_length: usize,
    answer: Result<Extremes, u32>,
}

/// A range of parameter 1.
fn call(tells: &'static str, sheet: Vec<u8>, first: i16, last: i16, answer: Result<Extremes, u32>) -> Call {
    let range = ParameterRange { number: 1, first, last };
    Call { tells, sheet, parameters: [0; 4], budget: 1000, range, area_length: RANGE_AREA_LENGTH, answer }
}

/// Least and most, each with its value, and the visits.
fn found(least: (u64, i16), most: (u64, i16), visits: u64) -> Result<Extremes, u32> {
    let extreme = |(cycles, value)| Extreme { cycles, value };
    Ok(Extremes { least: extreme(least), most: extreme(most), visits })
}

fn dispensing(tells: &'static str, first: i16, last: i16) -> Call {
    call(tells, dispense(), first, last, Ok(dispense_extremes(first, last)))
}

/// The values 1 to 3 of a parameter; with the others the third sheet makes 8 + 8 + 8 - 1 trips.
fn of_parameter(number: u32, tells: &'static str, answer: Result<Extremes, u32>) -> Call {
    let range = ParameterRange { number, first: 1, last: 3 };
    Call { range, parameters: [8, 4, 2, 1], ..call(tells, all_parameters(), 1, 3, answer) }
}

fn answered_calls() -> Vec<Call> {
    vec![
        dispensing("dispense, 1 to 16 colorants", 1, 16),
        dispensing("one value", 16, 16),
        dispensing("-3 to 2 colorants", -3, 2),
        dispensing("256 values", -200, 55),
        Call { parameters: [30_000, 0, 0, 0], ..dispensing("30,000 for the parameter with the range", 1, 2) },
        Call { budget: 2 + 15 * 4, ..dispensing("62 visits, budget 62", 1, 16) },
        Call { area_length: 48, ..dispensing("an area of 48 bytes", 1, 16) },
        call("a least between the ends, the most at both", either_way(), -3, 3, found((0, 0), (6, -3), 6)),
        of_parameter(1, "parameter 1", found((16, 1), (18, 3), 3)),
        of_parameter(2, "parameter 2", found((17, 1), (21, 3), 3)),
        of_parameter(3, "parameter 3", found((19, 1), (27, 3), 3)),
        of_parameter(4, "parameter 4, with which the figures fall", found((21, 3), (23, 1), 3)),
        call("the smallest values", up_to(), -32768, -32513, found((0, -32768), (0, -32768), 0)),
        call("2,048 trips at the last value", up_to(), 2047, 2048, found((2047, 2047), (2048, 2048), 2)),
        call("empty sheet", vec![], 5, 9, found((0, 5), (0, 5), 0)),
    ]
}

fn refused_calls() -> Vec<Call> {
    let refused = |tells: &'static str, number: u32| call(tells, up_to(), 1, 3, Err(number));
    let parameter = |number: u32| ParameterRange { number, first: 1, last: 3 };
    let left_open = up_to()[..up_to().len() - 1].to_vec();
    let records_129 = [[CHOICE, END].concat().repeat(64), CHOICE.to_vec()].concat();
    vec![
        Call { area_length: 39, ..refused("an area of 39 bytes", 9) },
        Call { area_length: 0, range: parameter(5), ..refused("no area, before 11", 9) },
        Call { range: parameter(0), ..refused("parameter 0", 11) },
        Call { range: parameter(5), budget: 0, ..refused("parameter 5, before 7", 11) },
        call("3 to 2", up_to(), 3, 2, Err(11)),
        call("257 values", up_to(), -128, 128, Err(11)),
        call("all values", up_to(), i16::MIN, i16::MAX, Err(11)),
        call("all values, from the last to the first", up_to(), i16::MAX, i16::MIN, Err(11)),
        Call { budget: 0, sheet: vec![7], ..refused("budget 0, before 2", 7) },
        Call { budget: 1_000_001, ..refused("budget 1,000,001", 7) },
        Call { sheet: up_to()[..20].to_vec(), ..refused("a loop cut off", 1) },
        Call { sheet: vec![7], ..refused("kind 7", 2) },
        Call { sheet: work(5, 3), ..refused("a least above its most", 3) },
        Call { sheet: records_129, ..refused("129 records", 4) },
        Call { sheet: left_open, ..refused("a loop left open", 5) },
        call("2,049 trips at the last value", up_to(), 2047, 2049, Err(6)),
        Call { budget: 1, ..call("the same with the budget passed before", up_to(), 2047, 2049, Err(6)) },
        Call { budget: 1, ..call("2,048 trips at the last value, with a budget of 1", up_to(), 2047, 2048, Err(8)) },
        Call { budget: 61, answer: Err(8), ..dispensing("62 visits, budget 61", 1, 16) },
    ]
}

/// What the call has to store.
fn stored(answer: Result<Extremes, u32>) -> Vec<u8> {
    let extreme = |extreme: Extreme| [extreme.cycles.to_le_bytes(), i64::from(extreme.value).to_le_bytes()].concat();
    answer.map_or(vec![], |e| [extreme(e.least), extreme(e.most), e.visits.to_le_bytes().to_vec()].concat())
}

/// The call into a guarded area, and once more by the wrapper that has its own.
fn made_as_expected(call: &Call) -> bool {
    let sheet = ReadOnly::copy_of(&call.sheet);
    let mut area = Guarded::new(call.area_length);
    let number = fill_range(sheet.bytes(), call.parameters, call.budget, call.range, area.bytes_mut());
    let mut good = number == call.answer.err().unwrap_or(0) && area.holds_only(&stored(call.answer));
    if call.answer != Err(9) {
        good &= extremes(sheet.bytes(), call.parameters, call.budget, call.range) == call.answer;
    }
    println!("{} {}: {number}", if good { "good " } else { "WRONG" }, call.tells);
    good
}

const TICK: u64 = 2000;

/// Whether the valve tick is long enough for recipes of 1 to so many colorants, or the number of the
/// refusal.
fn tick_holds(last: i16) -> Result<bool, u32> {
    let colorants = ParameterRange { number: 1, first: 1, last };
    let Extremes { least, most, .. } = extremes(&dispense(), [0; 4], 100, colorants)?;
    print!("      1 to {last} colorants: from {} cycles with {}", least.cycles, least.value);
    println!(" to {} with {}", most.cycles, most.value);
    Ok(most.cycles <= TICK)
}

/// It is for 16 colorants, and with one more it is not.
fn tick_as_expected() -> bool {
    let good = tick_holds(16) == Ok(true) && tick_holds(17) == Ok(false);
    println!("{} a tick of {TICK} cycles", if good { "good " } else { "WRONG" });
    good
}

fn main() -> ExitCode {
    let calls = [answered_calls(), refused_calls()];
    let count = calls.iter().flatten().count() + 1;
    let good = tick_as_expected() as usize + calls.iter().flatten().filter(|call| made_as_expected(call)).count();
    println!("{good} of {count} as expected");
    if good == count {
        ExitCode::SUCCESS
    } else {
        ExitCode::FAILURE
    }
}
