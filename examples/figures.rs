//! Calls pumdalin_figures from Rust on the sheets with known figures, and once for
//! each refusal. A wrong number, or a wrong byte anywhere in the answer area or before it, makes the
//! exit status 1; the sheet lies in read-only memory, and a byte read or written past the end of
//! sheet or area ends the program.
mod guarded;
mod pumdalin;
mod records;

use guarded::{Guarded, ReadOnly};
use pumdalin::{figures, figures_in, fill, Figures, AREA_LENGTH};
use records::{a_loop, constant, form, index_i, nest, parameter_1, skip_loop, work, CHOICE, END, NEXT_ARM};
use std::process::ExitCode;

/// A loop without costs that goes up by 1.
fn plain(lower: Vec<u8>, upper: Vec<u8>) -> Vec<u8> {
    by(1, lower, upper)
}

fn by(stride: i16, lower: Vec<u8>, upper: Vec<u8>) -> Vec<u8> {
    a_loop([0, 0], stride, lower, upper)
}

struct Call {
    tells: &'static str,
    sheet: Vec<u8>,
    p1: i16,
    budget: u32,
    area_length: usize,
    answer: Result<Figures, u32>,
}

fn call(tells: &'static str, sheet: Vec<u8>, answer: Result<Figures, u32>) -> Call {
    Call { tells, sheet, p1: 0, budget: 100, area_length: AREA_LENGTH, answer }
}

fn answered(tells: &'static str, sheet: Vec<u8>, least: u64, most: u64, visits: u64) -> Call {
    call(tells, sheet, Ok(Figures { least, most, visits }))
}

fn refused(tells: &'static str, sheet: Vec<u8>, number: u32) -> Call {
    call(tells, sheet, Err(number))
}

fn costs() -> Vec<u8> {
    nest(&[a_loop([2, 1], 1, constant(0), constant(9))], work(3, 5))
}

fn triangle() -> Vec<u8> {
    nest(&[plain(constant(0), constant(9)), plain(constant(0), index_i(-1))], work(1, 1))
}

fn uneven() -> Vec<u8> {
    nest(&[plain(constant(0), constant(9)), by(2, constant(0), index_i(0))], work(1, 1))
}

/// From the last nozzle to the first, each with as many pulses as its number; N is parameter 1.
fn flush() -> Vec<u8> {
    nest(&[by(-1, parameter_1(), constant(1)), by(-1, index_i(0), constant(1))], work(4, 7))
}

fn parameter() -> Vec<u8> {
    nest(&[plain(constant(1), parameter_1()), plain(index_i(0), parameter_1())], work(1, 1))
}

fn loop_in_arm() -> Vec<u8> {
    let arm = nest(&[plain(constant(0), index_i(-1))], work(1, 1));
    let choice = [&CHOICE[..], &arm, &NEXT_ARM, &work(4, 4), &END].concat();
    nest(&[plain(constant(0), constant(9))], choice)
}

/// A loop that makes no trip.
fn skipped(skip: u16) -> Vec<u8> {
    nest(&[skip_loop([5, 1], 1, constant(0), constant(-1), skip)], work(1, 1))
}

fn up_to(last: i16) -> Vec<u8> {
    nest(&[plain(constant(0), constant(last))], work(1, 1))
}

/// Four loops of 2,048 trips, 2^44 in all, over 120 works: 128 records. The most is above 2^62.
fn long_and_deep() -> Vec<u8> {
    let loops = vec![plain(constant(0), constant(2047)); 4];
    nest(&loops, work(1, 4095).repeat(120))
}

fn answered_calls() -> Vec<Call> {
    let partly_empty = [plain(constant(1), constant(7)), plain(index_i(0), constant(2))];
    let even = [by(2, constant(0), constant(18)), by(2, constant(0), index_i(0))];
    let three_deep = [
        plain(constant(0), constant(9)),
        plain(index_i(0), constant(10)),
        plain(index_i(-3), form(7, [0, 1, 0], [0; 4])),
    ];
    let no_trip = [by(3, constant(0), constant(-1))];
    let first_skipped = [plain(constant(0), constant(9)), skip_loop([4, 0], 1, constant(0), index_i(-1), 1)];
    let uneven_down = [by(-1, constant(9), constant(0)), by(-2, index_i(0), constant(0))];
    vec![
        answered("empty sheet", vec![], 0, 0, 0),
        answered("start 2, step 1, i 0 to 9, work 3 to 5", costs(), 42, 62, 1),
        answered("i 0 to 9, j 0 to i - 1", triangle(), 45, 45, 3),
        answered("i 1 to 7, j i to 2", nest(&partly_empty, work(1, 1)), 3, 3, 9),
        answered("i 0 to 9, j 0 to i by 2", uneven(), 30, 30, 20),
        answered("i 0 to 18 by 2, j 0 to i by 2", nest(&even, work(1, 1)), 55, 55, 4),
        answered("i 0 to 9, j i to 10, k i - 3 to j + 7", nest(&three_deep, work(1, 1)), 935, 935, 15),
        Call { p1: 100, ..answered("i 1 to N, j i to N, N 100", parameter(), 5050, 5050, 4) },
        answered("i 1 to N, j i to N, N 0", parameter(), 0, 0, 0),
        answered("a choice of j 0 to i - 1 and work 4", loop_in_arm(), 30, 55, 19),
        answered("i 0 to -1 by 3", nest(&no_trip, work(1, 1)), 0, 0, 0),
        answered("i 0 to 2,047", up_to(2047), 2048, 2048, 1),
        answered("start 5, skip 2, i 0 to -1", skipped(2), 2, 2, 0),
        answered("i 0 to 9, j 0 to i - 1 with start 4, skip 1", nest(&first_skipped, work(1, 1)), 82, 82, 19),
        Call { p1: 16, ..answered("i N to 1 by -1, j i to 1 by -1, work 4 to 7, N 16", flush(), 544, 952, 4) },
        answered("i N to 1 by -1, j i to 1 by -1, work 4 to 7, N 0", flush(), 0, 0, 0),
        answered("i 9 to 0 by -1, j i to 0 by -2", nest(&uneven_down, work(1, 1)), 30, 30, 20),
        Call { budget: 20, ..answered("20 visits, budget 20", uneven(), 30, 30, 20) },
        answered("65 works of 1 to 2", work(1, 2).repeat(65), 65, 130, 0),
        answered("128 works of 1 to 2", work(1, 2).repeat(128), 128, 256, 0),
        answered("2^44 trips over 120 works of 1 to 4,095", long_and_deep(), 120 << 44, (120 * 4095) << 44, 64),
        Call { area_length: 32, ..answered("an area of 32 bytes", costs(), 42, 62, 1) },
    ]
}

fn refused_calls() -> Vec<Call> {
    let left_open = costs()[..costs().len() - 1].to_vec();
    let records_129 = [[CHOICE, END].concat().repeat(64), CHOICE.to_vec()].concat();
    vec![
        refused("a loop cut off", triangle()[..20].to_vec(), 1),
        refused("a loop with a skip, cut off", skipped(2)[..26].to_vec(), 1),
        refused("kind 7", vec![7], 2),
        refused("a skip of 4,096", skipped(4096), 3),
        refused("a stride of 0", nest(&[by(0, constant(9), constant(0))], vec![]), 3),
        refused("a stride of -1,001", nest(&[by(-1001, constant(9), constant(0))], vec![]), 3),
        refused("a least above its most", work(5, 3), 3),
        refused("129 records", records_129, 4),
        refused("a loop left open", left_open, 5),
        refused("i 0 to 2,048", up_to(2048), 6),
        Call { budget: 0, ..refused("budget 0", costs(), 7) },
        Call { budget: 1_000_001, ..refused("budget 1,000,001", costs(), 7) },
        Call { budget: 19, ..refused("20 visits, budget 19", uneven(), 8) },
        Call { area_length: 23, ..refused("an area of 23 bytes", costs(), 9) },
        Call { area_length: 0, ..refused("no area", costs(), 9) },
    ]
}

/// What the call has to store.
fn stored(answer: Result<Figures, u32>) -> Vec<u8> {
    answer.map_or(vec![], |figures| [figures.least, figures.most, figures.visits].map(u64::to_le_bytes).concat())
}

/// What the call answered, as the wrapper says it.
fn answer_in(number: u32, area: &[u8]) -> Result<Figures, u32> {
    match <&[u8; AREA_LENGTH]>::try_from(&area[..area.len().min(AREA_LENGTH)]) {
        Ok(first) if number == 0 => Ok(figures_in(first)),
        _ => Err(number),
    }
}

/// The call into a guarded area, and once more by the wrapper that has its own.
fn made_as_expected(call: &Call) -> bool {
    let sheet = ReadOnly::copy_of(&call.sheet);
    let mut area = Guarded::new(call.area_length);
    let parameters = [call.p1, 0, 0, 0];
    let number = fill(sheet.bytes(), parameters, call.budget, area.bytes_mut());
    let answer = answer_in(number, area.bytes());
    let mut good = answer == call.answer && area.holds_only(&stored(call.answer));
    if call.area_length >= AREA_LENGTH {
        good &= figures(sheet.bytes(), parameters, call.budget) == call.answer;
    }
    println!("{} {}: {answer:?}", if good { "good " } else { "WRONG" }, call.tells);
    good
}

fn main() -> ExitCode {
    let calls = [answered_calls(), refused_calls()];
    let count = calls.iter().flatten().count();
    let good = calls.iter().flatten().filter(|call| made_as_expected(call)).count();
    println!("{good} of {count} calls as expected");
    if good == count {
        ExitCode::SUCCESS
    } else {
        ExitCode::FAILURE
    }
}
