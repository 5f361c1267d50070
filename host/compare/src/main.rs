//! Compares every export of the library with the reference.
//!
//!     compare [--seconds N] [--seed S] [--planview PROGRAM]
//!
//! It prints what it compared, by export and by refusal, the smallest input it can find for which
//! the two sides differ, and last `N passed, M failed`. It ends with 1 if anything failed.
#![forbid(unsafe_code)]

#[cfg(not(feature = "self-check"))]
mod product;

use compare::planview;
use compare::session::Session;
use std::process::ExitCode;
use std::time::{Duration, SystemTime, UNIX_EPOCH};

#[cfg(not(feature = "self-check"))]
use product::PRODUCT as SUBJECT;

#[cfg(feature = "self-check")]
use compare::side::REFERENCE as SUBJECT;

/// What the subject is, for the report.
const SUBJECT_NAME: &str = if cfg!(feature = "self-check") {
    "the reference itself"
} else {
    "the library"
};

struct Arguments {
    seconds: u64,
    seed: u64,
    planview: Option<String>,
}

fn main() -> ExitCode {
    let Some(arguments) = arguments() else {
        eprintln!("usage: compare [--seconds N] [--seed S] [--planview PROGRAM]");
        return ExitCode::from(2);
    };
    println!("comparing {SUBJECT_NAME} with the reference");
    println!("seed {}, {} seconds", arguments.seed, arguments.seconds);
    let mut session = Session::new(SUBJECT, arguments.seed);
    session.scans = cfg!(feature = "self-check");
    if let Some(program) = &arguments.planview
        && let Err(error) = planview::compare(&mut session, program)
    {
        eprintln!("{program}: {error}");
        session.note("planview", false);
    }
    compare::everything(&mut session, Duration::from_secs(arguments.seconds));
    match session.report() {
        true => ExitCode::SUCCESS,
        false => ExitCode::FAILURE,
    }
}

fn arguments() -> Option<Arguments> {
    let now = SystemTime::now().duration_since(UNIX_EPOCH).ok()?;
    let mut arguments = Arguments {
        seconds: 60,
        seed: now.as_secs(),
        planview: None,
    };
    let mut words = std::env::args().skip(1);
    while let Some(word) = words.next() {
        let value = words.next()?;
        match word.as_str() {
            "--seconds" => arguments.seconds = value.parse().ok()?,
            "--seed" => arguments.seed = value.parse().ok()?,
            "--planview" => arguments.planview = Some(value),
            _ => return None,
        }
    }
    Some(arguments)
}
