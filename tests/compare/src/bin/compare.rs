//! compare SEED ROUNDS: all sides on small timetables in so many rounds, then the library and the
//! fast implementation on timetables of any size in as many. Each call on each side is a test,
//! and so is each answer that an operation has: it must have been seen.

use compare::harness::{Sizes, Tester};
use compare::sides::{FAST, LIBRARY, SENTENCES};
use std::process::ExitCode;

/// Connections of a small timetable.
const SMALL: usize = 12;

fn main() -> ExitCode {
    let args: Vec<String> = std::env::args().skip(1).collect();
    let numbers: Result<Vec<u64>, _> = args.iter().map(|a| a.parse()).collect();
    let Ok([seed, rounds]) = numbers.as_deref() else {
        eprintln!("usage: compare SEED ROUNDS");
        return ExitCode::from(2);
    };
    let mut passed = 0;
    let mut failed = 0;
    let parts = [
        (
            "library, Rust and sentences, small timetables",
            Tester::new(&[&LIBRARY, &FAST, &SENTENCES]),
            Sizes::Small(SMALL),
        ),
        (
            "library and Rust, any timetables",
            Tester::new(&[&LIBRARY, &FAST]),
            Sizes::Any(2000),
        ),
    ];
    for (name, mut t, sizes) in parts {
        for round in 0..*rounds {
            let seed = seed.wrapping_mul(1_000_000_007).wrapping_add(round);
            t.round(seed, sizes);
            t.conversions(seed, sizes);
        }
        t.count_answers();
        println!("{name}: answers seen, as number:times with 0 for accepted");
        println!("{}", t.answers().join("\n"));
        let [none, one, largest, lowest] = t.told;
        println!(
            "why of runs: no notice {none}, one {one}, largest delay of several {largest}, several with it {lowest}"
        );
        for note in &t.notes {
            println!("MISMATCH {note}");
        }
        passed += t.passed;
        failed += t.failed;
    }
    println!("{passed} passed, {failed} failed");
    ExitCode::from(u8::from(failed > 0))
}
