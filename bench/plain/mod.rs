//! The same answers by plain Rust, as one would write it by hand for speed: fixed arrays of which only what the sheet has is filled.
mod arms;
pub mod direct;
mod filled;
mod form;
mod newton;
mod plan;
pub mod stages;
mod sums;

pub use plan::LARGEST_BUDGET;
