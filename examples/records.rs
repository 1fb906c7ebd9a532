//! Sheets, record by record.
#![allow(dead_code)] // a program may use a part of it

pub const END: [u8; 1] = [3];
pub const CHOICE: [u8; 1] = [4];
pub const NEXT_ARM: [u8; 1] = [5];

pub fn work(least: u16, most: u16) -> Vec<u8> {
    [&[1][..], &least.to_le_bytes(), &most.to_le_bytes()].concat()
}

/// A form with factors of the indexes i, j and k and of the parameters.
pub fn form(constant: i16, indexes: [i8; 3], parameters: [i8; 4]) -> Vec<u8> {
    let (indexes, parameters) = (indexes.map(|factor| factor as u8), parameters.map(|factor| factor as u8));
    [&constant.to_le_bytes()[..], &indexes, &parameters].concat()
}

pub fn constant(value: i16) -> Vec<u8> {
    form(value, [0; 3], [0; 4])
}

pub fn index_i(plus: i16) -> Vec<u8> {
    form(plus, [1, 0, 0], [0; 4])
}

pub fn parameter_1() -> Vec<u8> {
    form(0, [0; 3], [1, 0, 0, 0])
}

/// A loop from its lower to its upper form; one with a negative stride counts down.
pub fn a_loop([start, step]: [u16; 2], stride: i16, lower: Vec<u8>, upper: Vec<u8>) -> Vec<u8> {
    let numbers = [start.to_le_bytes(), step.to_le_bytes(), stride.to_le_bytes()].concat();
    [vec![2], numbers, lower, upper].concat()
}

/// A loop of kind 6.
pub fn skip_loop(costs: [u16; 2], stride: i16, lower: Vec<u8>, upper: Vec<u8>, skip: u16) -> Vec<u8> {
    let mut record = [a_loop(costs, stride, lower, upper), skip.to_le_bytes().to_vec()].concat();
    record[0] = 6;
    record
}

/// Loops one in the other, the innermost over this body.
pub fn nest(loops: &[Vec<u8>], body: Vec<u8>) -> Vec<u8> {
    [loops.concat(), body, END.repeat(loops.len())].concat()
}

/// The sheet of dispense.listing; parameter 1 is the number of colorants.
pub fn dispense() -> Vec<u8> {
    let pulses = nest(&[a_loop([2, 2], 1, index_i(0), parameter_1())], work(4, 7));
    let report = [&CHOICE[..], &work(20, 35), &NEXT_ARM, &work(3, 3), &END].concat();
    let colorants = a_loop([2, 3], 1, constant(1), parameter_1());
    [work(12, 15), nest(&[colorants], [work(6, 6), pulses, report].concat())].concat()
}
