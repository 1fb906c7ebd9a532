//! Times the proved calls against plain Rust, in one run, after all have agreed on the stored cases.
mod calls;
mod instructions;
mod plain;
#[path = "../examples/pumdalin.rs"]
mod pumdalin;
mod range_calls;
mod range_sheets;
#[path = "../examples/records.rs"]
mod records;
mod sheets;
mod timing;

use calls::{PLAIN, PROVED};
use instructions::{ONLY_CALLS, ONLY_RANGES};
use plain::{direct, LARGEST_BUDGET};
use pumdalin::ParameterRange;
use range_sheets::{ranged, Ranged};
use sheets::{timed, Given};

/// The calls over a range against each other: five values around the one given for a parameter, which takes turns.
fn agree_over_range(sheet: &[u8], p: [i16; 4], budget: u32, count: usize) {
    let given = p[count % 4];
    let range = ParameterRange { number: count as u32 % 4 + 1, first: given.saturating_sub(2), last: given.saturating_add(2) };
    let [proved, others @ ..] = range_calls::ALL;
    let answer = (proved.extremes)(sheet, p, budget, range);
    for call in others {
        assert_eq!(answer, (call.extremes)(sheet, p, budget, range), "case {count} over a range, {}", call.name);
    }
}

/// All calls against each other on the stored cases.
fn agree(path: &str) -> usize {
    let data = std::fs::read(path).expect("the stored cases");
    let (mut at, mut count) = (0, 0);
    while at < data.len() {
        let number = |i: usize| u16::from_le_bytes([data[i], data[i + 1]]);
        let length = number(at + 2) as usize;
        let sheet = &data[at + 12..at + 12 + length];
        let given = at + 12 + length;
        let p = [0, 2, 4, 6].map(|i| number(given + i) as i16);
        let budget = u32::from_le_bytes(data[given + 8..given + 12].try_into().unwrap());
        let answer = (PROVED.figures)(sheet, p, budget);
        for call in PLAIN {
            assert_eq!(answer, (call.figures)(sheet, p, budget), "case {count}, {}", call.name);
        }
        if let Ok([least, most, _]) = answer {
            if most < 1 << 30 {
                assert_eq!(direct::trip_by_trip(sheet, p), Ok([least, most]), "case {count}, trip by trip");
            }
        }
        agree_over_range(sheet, p, budget, count);
        at = given + 36;
        count += 1;
    }
    count
}

fn visits_of(given: &[Given]) -> u64 {
    given.iter().map(|(sheet, p)| (PROVED.figures)(sheet, *p, LARGEST_BUDGET).expect("figures")[2]).sum()
}

/// The proved call's name, then each of the others.
fn print_head(what: &str, names: &[&str]) {
    print!("\n{what:34} {:>11}", names[0]);
    for other in &names[1..] {
        print!(" {other:>11} {:>6}", "ratio");
    }
}

/// The proved call's number, then each of the others with the ratio to it.
fn print_numbers(name: &str, numbers: &[f64], decimals: usize) {
    print!("{name:34} {:11.decimals$}", numbers[0]);
    for other in &numbers[1..] {
        print!(" {other:11.decimals$} {:6.2}", numbers[0] / other);
    }
}

fn print_calls() {
    print_head("a call, ns", &calls::all().map(|call| call.name));
    println!(" {:>13} {:>7}", "trip by trip", "visits");
    for t in timed() {
        print_numbers(t.name, &timing::of_calls(&t.given), 0);
        let trips = if t.few_trips { format!("{:.0}", timing::of_every_trip(&t.given)) } else { "-".to_string() };
        println!(" {trips:>13} {:7}", visits_of(&t.given));
    }
}

fn print_stages() {
    print_head("a stage, ns", &calls::all().map(|call| call.name));
    println!();
    for t in timed() {
        let visits = visits_of(&t.given);
        if visits >= 10 && t.given.len() == 1 {
            print_numbers(t.name, &timing::of_stages(&t.given, visits), 1);
            println!();
        }
    }
}

fn visits_over(given: &Ranged) -> u64 {
    pumdalin::extremes(&given.sheet, [0; 4], LARGEST_BUDGET, given.range).expect("extremes").visits
}

fn print_ranges() {
    print_head("a range, ns", &range_calls::ALL.map(|call| call.name));
    println!(" {:>7} {:>7}", "values", "visits");
    for t in ranged() {
        print_numbers(t.name, &timing::of_ranges(&t), 0);
        println!(" {:7} {:7}", t.range.last - t.range.first + 1, visits_over(&t));
    }
}

/// Of each of what is timed by this argument, by all of these calls.
fn print_instructions(head: &str, what: &str, names: &[&str], timed: &[&str]) {
    print_head(head, names);
    println!();
    for (number, name) in timed.iter().enumerate() {
        let counts: Option<Vec<f64>> = (0..names.len()).map(|call| instructions::of_call(what, number, call)).collect();
        match counts {
            Some(counts) => print_numbers(name, &counts, 0),
            None => return println!("not counted: there is no valgrind"),
        }
        println!();
    }
}

fn print_all_instructions() {
    let calls: Vec<&str> = timed().iter().map(|t| t.name).collect();
    print_instructions("a call, instructions", ONLY_CALLS, &calls::all().map(|call| call.name), &calls);
    let ranges: Vec<&str> = ranged().iter().map(|t| t.name).collect();
    print_instructions("a range, instructions", ONLY_RANGES, &range_calls::ALL.map(|call| call.name), &ranges);
}

fn main() {
    let words: Vec<String> = std::env::args().skip(1).collect();
    match words.first().map(String::as_str) {
        Some(what @ (ONLY_CALLS | ONLY_RANGES)) => instructions::run_only(what, &words[1..]),
        Some(path) => {
            println!("{} stored cases: all agree; the rest takes about two minutes", agree(path));
            print_calls();
            print_stages();
            print_ranges();
            print_all_instructions();
        }
        None => panic!("the file of stored cases is missing"),
    }
}
