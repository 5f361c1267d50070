//! A session: what was compared, and what differed.

mod seen;

use crate::call::{Call, EXPORTS, Outcome};
use crate::random::Random;
use crate::show;
use crate::shrink::shrink;
use crate::side::{REFERENCE, Side};

/// The numbers of document 01's refusals and document 02's as far as it has landed, and 0 for none.
const NUMBERS: usize = 24;

/// Verdicts, and kinds of answers, and 0 for none.
const KINDS: usize = 5;

pub struct Session {
    pub(crate) random: Random,
    pub(crate) subject: Side,
    /// Whether the subject scans for a capacity, and so cannot be asked for one among a million.
    pub scans: bool,
    seen: [[u64; NUMBERS]; EXPORTS.len()],
    kinds: [[u64; KINDS]; EXPORTS.len()],
    different: [u64; EXPORTS.len()],
    /// How often a pair of a sheet was answered by each number.
    answers: [u64; NUMBERS],
    /// How often a companion answer gave each number of the plan, and of the sheet.
    located: [[u64; NUMBERS]; 2],
    /// How often the first block of a log that was passed over was so by each number, 0 where none was.
    passed: [u64; NUMBERS],
    /// How often a block of a damaged plan file was dropped by each number, 0 where it was kept.
    fates: [u64; NUMBERS],
    /// Checks that are not one call: their name, how often they held, how often not.
    others: Vec<(&'static str, u64, u64)>,
    /// What else is worth knowing; it is printed, and counts neither as passed nor as failed.
    facts: Vec<(&'static str, u64)>,
}

impl Session {
    pub fn new(subject: Side, seed: u64) -> Session {
        Session {
            random: Random::new(seed),
            subject,
            scans: false,
            seen: [[0; NUMBERS]; EXPORTS.len()],
            kinds: [[0; KINDS]; EXPORTS.len()],
            different: [0; EXPORTS.len()],
            answers: [0; NUMBERS],
            located: [[0; NUMBERS]; 2],
            passed: [0; NUMBERS],
            fates: [0; NUMBERS],
            others: Vec::new(),
            facts: Vec::new(),
        }
    }

    /// Compares both sides on one call, and gives the reference's outcome.
    pub(crate) fn compare(&mut self, call: Call) -> Outcome {
        let expected = call.on(&REFERENCE);
        let export = call.export();
        if call.on(&self.subject) == expected {
            self.count_outcome(&call, &expected);
        } else {
            self.different[export] += 1;
            if self.different[export] == 1 {
                let subject = &self.subject;
                let smallest = shrink(&call, |call| call.on(subject) != call.on(&REFERENCE));
                show::difference(&smallest, subject);
            }
        }
        expected
    }

    /// Counts the numbers of an outcome that both sides gave.
    fn count_outcome(&mut self, call: &Call, outcome: &Outcome) {
        let export = call.export();
        self.seen[export][outcome.number() as usize] += 1;
        self.kinds[export][outcome.kind() as usize] += 1;
        for answer in call.answers(outcome) {
            self.answers[*answer as usize] += 1;
        }
        match outcome {
            Outcome::Located(located) => {
                self.located[located.sheet as usize][located.number as usize] += 1;
            }
            Outcome::Stated(stated) if stated.refusal.number == 0 => {
                self.passed[stated.number as usize] += 1;
            }
            Outcome::Salvaged(salvaged, _) => {
                for fate in salvaged.list() {
                    self.fates[fate.number as usize] += 1;
                }
            }
            _ => (),
        }
    }

    /// Notes a check that is not one call; tells whether it is the first of its name to fail.
    pub fn note(&mut self, name: &'static str, held: bool) -> bool {
        let (_, right, wrong) = self.other(name);
        if held {
            *right += 1;
        } else {
            *wrong += 1;
        }
        !held && *wrong == 1
    }

    /// Notes that a check held some number of times.
    pub(crate) fn note_many(&mut self, name: &'static str, times: u64) {
        self.other(name).1 += times;
    }

    /// Whether no call differed and no check failed so far.
    pub fn found_nothing(&self) -> bool {
        self.totals().1 == 0
    }

    /// Whether a check that is not one call held each time.
    pub fn held(&self, name: &str) -> bool {
        let mut others = self.others.iter().filter(|other| other.0 == name);
        others.any(|(_, right, wrong)| *right > 0 && *wrong == 0)
    }

    /// Adds to a fact that is no check.
    pub(crate) fn count(&mut self, name: &'static str, times: u64) {
        match self.facts.iter_mut().find(|fact| fact.0 == name) {
            Some(fact) => fact.1 += times,
            None => self.facts.push((name, times)),
        }
    }

    fn other(&mut self, name: &'static str) -> &mut (&'static str, u64, u64) {
        let at = match self.others.iter().position(|other| other.0 == name) {
            Some(at) => at,
            None => {
                self.others.push((name, 0, 0));
                self.others.len() - 1
            }
        };
        &mut self.others[at]
    }

    /// Prints what was compared; tells whether all is well.
    pub fn report(&mut self) -> bool {
        self.each_number_seen();
        self.print_calls();
        for (name, right, wrong) in &self.others {
            println!("{name:<28} {right:>10}{}", failures(*wrong));
        }
        for (name, times) in &self.facts {
            println!("{name:<28} {times:>10}  (no check)");
        }
        let (passed, failed) = self.totals();
        println!("{passed} passed, {failed} failed");
        failed == 0
    }

    fn print_calls(&self) {
        println!("export                         compared  by refusal (0 is none)");
        for (export, name) in EXPORTS.iter().enumerate() {
            let compared: u64 = self.seen[export].iter().sum();
            let each = counts(&self.seen[export], 0);
            let wrong = failures(self.different[export]);
            println!("{name:<28} {compared:>10}  {each}{wrong}");
        }
        let each = counts(&self.answers, 0);
        println!("{:<39}  {each}", "pairs of sheets by answer");
        for (name, numbers) in [
            ("companion of the plan", &self.located[0]),
            ("companion of the sheet", &self.located[1]),
            ("logs by first block passed over", &self.passed),
            ("blocks of files by fate", &self.fates),
        ] {
            println!("{name:<39}  {}", counts(numbers, 0));
        }
        println!("export                                    by verdict, or kind of answer");
        for (export, name) in EXPORTS.iter().enumerate() {
            let each = counts(&self.kinds[export], 1);
            if !each.is_empty() {
                println!("{name:<39}  {each}");
            }
        }
    }

    fn totals(&self) -> (u64, u64) {
        let others = self.others.iter();
        let (held, broken) = others.fold((0, 0), |sum, other| (sum.0 + other.1, sum.1 + other.2));
        let same: u64 = self.seen.iter().flatten().sum();
        let different: u64 = self.different.iter().sum();
        (held + same, broken + different)
    }
}

/// The counts that are not zero, from a first place on.
fn counts(of: &[u64], first: usize) -> String {
    let each: Vec<String> = (first..of.len())
        .filter(|at| of[*at] > 0)
        .map(|at| format!("{at}: {}", of[at]))
        .collect();
    each.join(", ")
}

fn failures(wrong: u64) -> String {
    match wrong {
        0 => String::new(),
        _ => format!("  FAILED {wrong} times"),
    }
}
