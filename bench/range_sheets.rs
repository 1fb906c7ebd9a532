//! The calls over a range that are timed.
use crate::pumdalin::ParameterRange;
use crate::records::{a_loop, constant, dispense, form, index_i, nest, parameter_1, work};

pub struct Ranged {
    pub name: &'static str,
    pub sheet: Vec<u8>,
    pub range: ParameterRange,
}

/// The values of parameter 1 from 1 on.
fn up_to(last: i16, name: &'static str, sheet: Vec<u8>) -> Ranged {
    Ranged { name, sheet, range: ParameterRange { number: 1, first: 1, last } }
}

fn plain(stride: i16, lower: Vec<u8>, upper: Vec<u8>) -> Vec<u8> {
    a_loop([2, 1], stride, lower, upper)
}

/// Four loops of as many trips as the parameter and so many more, each starting where the one around it stands.
fn slanted(more: i16) -> Vec<Vec<u8>> {
    let factors = [[0, 0, 0], [1, 0, 0], [0, 1, 0], [0, 0, 1]];
    factors.map(|f| plain(1, form(0, f, [0; 4]), form(more - 1, f, [1, 0, 0, 0]))).to_vec()
}

pub fn ranged() -> Vec<Ranged> {
    let rows = plain(1, constant(1), parameter_1());
    let halves = nest(&[rows.clone(), plain(2, constant(1), index_i(0))], work(3, 5));
    vec![
        up_to(256, "empty sheet", vec![]),
        up_to(256, "one loop", nest(&[rows.clone()], work(3, 5))),
        up_to(256, "triangle", nest(&[rows, plain(1, index_i(0), parameter_1())], work(3, 5))),
        up_to(256, "dispense", dispense()),
        up_to(256, "64 records, four deep", nest(&slanted(0), work(3, 5).repeat(56))),
        up_to(256, "128 records, plan only", nest(&slanted(-256), vec![]).repeat(16)),
        up_to(100, "walked nest", halves),
    ]
}
