//! The calls that are compared: the proved one, and the same by plain Rust.
use crate::plain::{direct, stages};
use crate::pumdalin;

/// Least, most and visits, or a refusal's number.
pub type Answer = Result<[u64; 3], u32>;

#[derive(Clone, Copy)]
pub struct Call {
    pub name: &'static str,
    pub figures: fn(&[u8], [i16; 4], u32) -> Answer,
}

pub const PROVED: Call = Call { name: "proved", figures: proved };

/// Recursion with no stages; stages that change the state in its place; stages that take and return it by value.
pub const PLAIN: [Call; 3] = [
    Call { name: "direct", figures: |sheet, p, budget| direct::figures(sheet, p, budget).map_err(|r| r.0) },
    Call { name: "in place", figures: |sheet, p, budget| stages::in_place(sheet, p, budget).map_err(|r| r.0) },
    Call { name: "by value", figures: |sheet, p, budget| stages::by_value(sheet, p, budget).map_err(|r| r.0) },
];

fn proved(sheet: &[u8], p: [i16; 4], budget: u32) -> Answer {
    pumdalin::figures(sheet, p, budget).map(|f| [f.least, f.most, f.visits])
}

/// The proved call and the plain ones, in the order of the columns.
pub fn all() -> [Call; 4] {
    let [direct, in_place, by_value] = PLAIN;
    [PROVED, direct, in_place, by_value]
}
