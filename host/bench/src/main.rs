//! Measures the exports against plain Rust on the same input, in one run.
//!
//!     bench [NAME..]                      times, each the least of many rounds, of all cases or the named ones
//!     bench --list                        the cases' names
//!     bench --one NAME SIDE --times N     one side of one case, to count its instructions: ours, same or reference
//!     bench --desk [--hold]               the smallest capacity as the desk asks for it, beside a program that tries
//!                                         capacities upward; held, it ends with 1 where a ratio is above its aim
//!
//! All sides are compiled at level 3 for generic x86-64, with no optimisation across the border of the
//! library. `same` is plain Rust behind the library's interface, where plans and states cross by value;
//! `reference` is plain Rust as it is usually written, by reference and in place. In the cases `in-place` both are
//! that, beside the library's calls in place. In the cases `amended-by-parts` one call of the library stands beside its
//! parts: `same` is those by the library's own calls, `reference` by plain Rust's. The desk's cases are no part of all
//! cases, since some last for seconds; `--one` takes them too.
#![forbid(unsafe_code)]

mod cases;
mod desk;
mod inputs;
mod measure;

use cases::{Case, SIDES};
use measure::measure;
use std::process::ExitCode;

fn main() -> ExitCode {
    let words: Vec<String> = std::env::args().skip(1).collect();
    let words: Vec<&str> = words.iter().map(String::as_str).collect();
    let code = match words[..] {
        ["--list"] => list(),
        ["--one", name, side, "--times", times] => one(name, side, times),
        ["--desk"] => desk(false),
        ["--desk", "--hold"] => desk(true),
        [first, ..] if first.starts_with('-') => None,
        _ => table(&words),
    };
    code.unwrap_or_else(|| {
        let one = "--one NAME ours|same|reference --times N";
        eprintln!("usage: bench [NAME.. | --list | {one} | --desk [--hold]]");
        ExitCode::from(2)
    })
}

fn desk(hold: bool) -> Option<ExitCode> {
    match desk::table() || !hold {
        true => Some(ExitCode::SUCCESS),
        false => Some(ExitCode::FAILURE),
    }
}

fn table(names: &[&str]) -> Option<ExitCode> {
    println!(
        "{:<30} {:>14} {:>14} {:>7} {:>14} {:>7} {:>5}",
        "case", "ours ns", "same ns", "ratio", "reference ns", "ratio", "aim"
    );
    let wanted = |case: &Case| names.is_empty() || names.contains(&case.name);
    for mut case in cases::all().into_iter().filter(wanted) {
        let [ours, same, reference] = measure(case.name, &mut case.sides);
        println!(
            "{:<30} {ours:>14.1} {same:>14.1} {:>7.2} {reference:>14.1} {:>7.2} {:>5}",
            case.name,
            ours / same,
            ours / reference,
            case.aim
        );
    }
    Some(ExitCode::SUCCESS)
}

fn list() -> Option<ExitCode> {
    for case in cases::all() {
        println!("{}", case.name);
    }
    Some(ExitCode::SUCCESS)
}

/// Works one side of one case, or of one of the desk's, so many times.
fn one(name: &str, side: &str, times: &str) -> Option<ExitCode> {
    let desks = cases::desk::all().into_iter().map(|asked| asked.case);
    let mut all = cases::all().into_iter().chain(desks);
    let mut case = all.find(|case| case.name == name)?;
    let side = SIDES.iter().position(|known| *known == side)?;
    for _ in 0..times.parse().ok()? {
        (case.sides[side])();
    }
    Some(ExitCode::SUCCESS)
}
