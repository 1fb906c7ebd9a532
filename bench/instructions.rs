//! Instructions of a call, counted by callgrind: the same in every run, whatever else the machine does.
use crate::calls;
use crate::plain::LARGEST_BUDGET;
use crate::range_calls;
use crate::range_sheets::ranged;
use crate::sheets::timed;
use crate::timing;
use std::process::Command;

/// The arguments by which this program runs what is timed so often and does nothing else: a call, or one over a range.
pub const ONLY_CALLS: &str = "--only-calls";
pub const ONLY_RANGES: &str = "--only-ranges";

fn repeat(count: usize, call: impl Fn()) {
    for _ in 0..count {
        call();
    }
}

/// Runs what the words after one of these arguments name: how often, which of what is timed, by which of the calls.
pub fn run_only(what: &str, words: &[String]) {
    let numbers: Vec<usize> = words.iter().map(|word| word.parse().expect("a number")).collect();
    let (count, number, call) = (numbers[0], numbers[1], numbers[2]);
    if what == ONLY_RANGES {
        repeat(count, timing::run_range(range_calls::ALL[call], &ranged()[number]));
    } else {
        repeat(count, timing::run(calls::all()[call], &timed()[number].given, LARGEST_BUDGET));
    }
}

/// Has the C library clear and copy by vectors: callgrind would count each byte of a string instruction.
const NO_STRING_INSTRUCTIONS: &str = "glibc.cpu.x86_rep_stosb_threshold=1048576:glibc.cpu.x86_rep_movsb_threshold=1048576";

/// The instructions of a whole run of this program.
fn of_run(what: &str, count: usize, number: usize, call: usize) -> Option<u64> {
    let program = std::env::current_exe().expect("this program");
    let words = [count, number, call].map(|number| number.to_string());
    let run = Command::new("valgrind")
        .env("GLIBC_TUNABLES", NO_STRING_INSTRUCTIONS)
        .args(["--tool=callgrind", "--callgrind-out-file=/dev/null"])
        .arg(program)
        .arg(what)
        .args(words)
        .output()
        .ok()?;
    let output = String::from_utf8_lossy(&run.stderr).into_owned();
    output.split("Collected : ").nth(1)?.split_whitespace().next()?.parse().ok()
}

/// Those of one call: a run of two calls less a run of one. None where there is no valgrind.
pub fn of_call(what: &str, number: usize, call: usize) -> Option<f64> {
    Some((of_run(what, 2, number, call)? - of_run(what, 1, number, call)?) as f64)
}
