//! Calls pumdalin_with_skips and pumdalin_without_skips from Rust: sheets converted to loops of
//! kind 6 and of kind 2, there and back, and the refusals in their order. A wrong number, or a wrong
//! byte anywhere in the buffer or the area or before them, makes the exit status 1; the sheet lies in
//! read-only memory, and a byte read or written past the end of what is lent ends the program.
mod guarded;
mod pumdalin;
mod records;

use guarded::{Guarded, ReadOnly};
use pumdalin::Loops::{WithSkips, WithoutSkips};
use pumdalin::{convert, converted, figures, Loops, LENGTH_AREA_LENGTH, SHEET_LENGTH};
use records::{a_loop, constant, index_i, nest, parameter_1, skip_loop, work};
use std::process::ExitCode;

/// Start and step.
const OUTER: [u16; 2] = [4, 1];
const INNER: [u16; 2] = [7, 0];

/// A nest of two loops of kind 2.
fn kind_2() -> Vec<u8> {
    nest(&[a_loop(OUTER, 1, constant(0), constant(9)), a_loop(INNER, 2, index_i(0), parameter_1())], work(3, 5))
}

/// The same with loops of kind 6, the inner one with this skip.
fn kind_6(skip: u16) -> Vec<u8> {
    let outer = skip_loop(OUTER, 1, constant(0), constant(9), OUTER[0]);
    nest(&[outer, skip_loop(INNER, 2, index_i(0), parameter_1(), skip)], work(3, 5))
}

/// The same with one of each kind.
fn both_kinds() -> Vec<u8> {
    let outer = a_loop(OUTER, 1, constant(0), constant(9));
    nest(&[outer, skip_loop(INNER, 2, index_i(0), parameter_1(), INNER[0])], work(3, 5))
}

/// A loop that counts down, of kind 2 and of kind 6: the stride keeps its sign.
fn down() -> [Vec<u8>; 2] {
    let kind_2 = a_loop(OUTER, -1, parameter_1(), constant(1));
    let kind_6 = skip_loop(OUTER, -1, parameter_1(), constant(1), OUTER[0]);
    [kind_2, kind_6].map(|outer| nest(&[outer], work(3, 5)))
}

/// So many loops around nothing, each with its end, of kind 2 and of kind 6.
fn empty_loops(count: usize) -> [Vec<u8>; 2] {
    let kind_2 = a_loop(OUTER, 1, constant(0), constant(9));
    let kind_6 = skip_loop(OUTER, 1, constant(0), constant(9), OUTER[0]);
    [kind_2, kind_6].map(|outer| nest(&[outer], vec![]).repeat(count))
}

struct Call {
    tells: &'static str,
    sheet: Vec<u8>,
    to: Loops,
    room: usize,
    area_length: usize,
    answer: Result<Vec<u8>, u32>,
}

fn call(tells: &'static str, sheet: Vec<u8>, to: Loops, answer: Result<Vec<u8>, u32>) -> Call {
    Call { tells, sheet, to, room: SHEET_LENGTH, area_length: LENGTH_AREA_LENGTH, answer }
}

fn calls() -> Vec<Call> {
    let (plain, skips, other) = (kind_2(), kind_6(INNER[0]), kind_6(2));
    let left_open = plain[..plain.len() - 1].to_vec();
    let cut_off = skips[..26].to_vec();
    let [down_2, down_6] = down();
    let [most_loops, most_skips] = empty_loops(64);
    let [records_65, skips_65] = empty_loops(32).map(|loops| [work(3, 5), loops].concat());
    let records_129 = [most_loops.clone(), work(3, 5)].concat();
    vec![
        call("kind 2 to 6", plain.clone(), WithSkips, Ok(skips.clone())),
        call("both kinds to 6", both_kinds(), WithSkips, Ok(skips.clone())),
        call("another skip to 6", other.clone(), WithSkips, Ok(other.clone())),
        call("kind 6 to 2", skips.clone(), WithoutSkips, Ok(plain.clone())),
        call("both kinds to 2", both_kinds(), WithoutSkips, Ok(plain.clone())),
        call("counting down, to 6", down_2.clone(), WithSkips, Ok(down_6.clone())),
        call("counting down, to 2", down_6, WithoutSkips, Ok(down_2)),
        call("65 records to 6", records_65.clone(), WithSkips, Ok(skips_65.clone())),
        call("65 records to 2", skips_65, WithoutSkips, Ok(records_65)),
        call("128 records to 6", most_loops.clone(), WithSkips, Ok(most_skips.clone())),
        call("128 records to 2", most_skips, WithoutSkips, Ok(most_loops)),
        Call { room: skips.len(), area_length: 9, ..call("just enough room", plain.clone(), WithSkips, Ok(skips.clone())) },
        Call { room: 0, ..call("empty sheet", vec![], WithSkips, Ok(vec![])) },
        call("a loop cut off", cut_off, WithSkips, Err(1)),
        call("kind 7", vec![7], WithSkips, Err(2)),
        call("a skip of 4,096", kind_6(4096), WithoutSkips, Err(3)),
        Call { room: 0, area_length: 0, ..call("129 records, nothing lent", records_129, WithSkips, Err(4)) },
        Call { room: 0, area_length: 0, ..call("a loop left open, nothing lent", left_open, WithSkips, Err(5)) },
        call("another skip to 2", other.clone(), WithoutSkips, Err(10)),
        Call { room: 0, area_length: 0, ..call("another skip to 2, nothing lent", other, WithoutSkips, Err(10)) },
        Call { room: skips.len() - 1, ..call("a byte too little room", plain.clone(), WithSkips, Err(9)) },
        Call { area_length: 7, ..call("an area of 7 bytes", plain, WithSkips, Err(9)) },
    ]
}

/// The call into a guarded buffer and a guarded area, and once more by the wrapper that has its own.
fn made_as_expected(call: &Call) -> bool {
    let sheet = ReadOnly::copy_of(&call.sheet);
    let (mut buffer, mut area) = (Guarded::new(call.room), Guarded::new(call.area_length));
    let number = convert(sheet.bytes(), call.to, buffer.bytes_mut(), area.bytes_mut());
    let (new_sheet, length) = match &call.answer {
        Ok(made) => (&made[..], (made.len() as u64).to_le_bytes().to_vec()),
        Err(_) => (&[][..], vec![]),
    };
    let mut good = number == *call.answer.as_ref().err().unwrap_or(&0);
    good &= buffer.holds_only(new_sheet) && area.holds_only(&length);
    if call.answer != Err(9) {
        good &= converted(sheet.bytes(), call.to) == call.answer;
    }
    println!("{} {}: {number}", if good { "good " } else { "WRONG" }, call.tells);
    good
}

/// A sheet without kind 6, to kind 6 and back: the same figures on the way, and the same bytes in the end.
fn there_and_back() -> bool {
    let old = kind_2();
    let good = converted(&old, WithSkips).map_or(false, |new| {
        let asked = |sheet: &[u8]| figures(sheet, [9, 0, 0, 0], 100);
        asked(&new).is_ok() && asked(&new) == asked(&old) && converted(&new, WithoutSkips) == Ok(old)
    });
    println!("{} there and back", if good { "good " } else { "WRONG" });
    good
}

fn main() -> ExitCode {
    let calls = calls();
    let good = calls.iter().filter(|call| made_as_expected(call)).count() + there_and_back() as usize;
    println!("{good} of {} as expected", calls.len() + 1);
    if good == calls.len() + 1 {
        ExitCode::SUCCESS
    } else {
        ExitCode::FAILURE
    }
}
