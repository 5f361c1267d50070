//! The numbers that a session must have seen, so that what it compared was enough.

use super::Session;
use crate::call::EXPORTS;
use std::ops::RangeInclusive;

/// The numbers that whole calls are refused by; 19 is given of a log's block alone.
const REFUSALS: [RangeInclusive<usize>; 2] = [1..=18, 20..=23];

/// The numbers that a pair of a sheet is answered by.
const ANSWERS: [usize; 6] = [0, 7, 8, 9, 10, 17];

/// The numbers that the companion answer gives of the plan, and of the sheet, of a plan with amendments.
const LOCATED: [(&str, [usize; 8]); 2] = [
    ("plan", [0, 1, 2, 3, 4, 5, 6, 7]),
    ("sheet", [0, 1, 2, 3, 4, 5, 6, 16]),
];

/// The exports that judge a plan with amendments, and what each gives beside the refusals of the two.
const AMENDED: [(usize, &[usize]); 4] = [(14, &[7]), (15, &[7, 8]), (16, &[]), (17, &[7, 11])];

/// The exports of a log, and what each gives.
const LOGGED: [(usize, &[usize]); 2] = [(18, &[0, 1, 2, 3, 4, 5, 6, 14]), (19, &[0, 12, 18])];

/// The numbers that a log's first block passed over has, and 0 where none is.
const PASSED: [usize; 8] = [0, 2, 3, 5, 7, 8, 18, 19];

/// The export that salvages, what it gives, and the numbers that a block of the file has, 0 where it is kept.
const SALVAGE: usize = 20;
const SALVAGED: [usize; 4] = [0, 1, 12, 20];
const FATES: [usize; 6] = [0, 2, 3, 4, 5, 6];

/// The export that proposes an order, and what it gives.
const ORDER: usize = 21;
const ORDERED: [usize; 7] = [0, 1, 4, 6, 7, 21, 22];

/// The export that converts, and what it gives.
const CONVERT: usize = 22;
const CONVERTED: [usize; 8] = [0, 1, 2, 3, 4, 5, 6, 12];

/// The export that chooses the least capacities, and what it gives of Periodic guests.
const CHOICE: usize = 23;
const CHOSEN: [usize; 5] = [0, 1, 4, 6, 11];

/// The exports that a Deferrable guest must not be handed to, and the number that they refuse it by.
const NO_DEFERRABLE: [usize; 3] = [2, 8, CHOICE];
const IS_DEFERRABLE: usize = 23;

impl Session {
    /// Notes for each number whether it was seen, and prints those that were not.
    pub(super) fn each_number_seen(&mut self) {
        for number in REFUSALS.into_iter().flatten() {
            let seen = self.seen.iter().any(|numbers| numbers[number] > 0);
            self.demand("each refusal number seen", seen, || {
                format!("refusal {number} was not seen")
            });
        }
        for number in ANSWERS {
            let seen = self.answers[number] > 0;
            self.demand("each pair's answer seen", seen, || {
                format!("no pair of a sheet was answered by {number}")
            });
        }
        self.each_amended_number_seen();
        self.each_number_of_logs_seen();
        self.each_number_of_files_seen();
        for number in ORDERED {
            self.demand_of(ORDER, number, "each number of orders seen");
        }
        for number in CONVERTED {
            self.demand_of(CONVERT, number, "each old plan's number seen");
        }
        for number in CHOSEN {
            self.demand_of(CHOICE, number, "each number of choices seen");
        }
        for export in NO_DEFERRABLE {
            self.demand_of(export, IS_DEFERRABLE, "each old plan's number seen");
        }
    }

    fn each_amended_number_seen(&mut self) {
        for (whose, (name, numbers)) in LOCATED.into_iter().enumerate() {
            for number in numbers {
                let seen = self.located[whose][number] > 0;
                self.demand("each number of both seen", seen, || {
                    format!("no companion answer gave {number} of the {name}")
                });
            }
        }
        for (export, own) in AMENDED {
            for number in LOCATED[1].1.iter().chain(own) {
                self.demand_of(export, *number, "each number of both seen");
            }
        }
    }

    fn each_number_of_logs_seen(&mut self) {
        for (export, numbers) in LOGGED {
            for number in numbers {
                self.demand_of(export, *number, "each number of logs seen");
            }
        }
        for number in PASSED {
            let seen = self.passed[number] > 0;
            self.demand("each number of logs seen", seen, || {
                format!("no log had {number} as its first block's passed over")
            });
        }
    }

    fn each_number_of_files_seen(&mut self) {
        for number in SALVAGED {
            self.demand_of(SALVAGE, number, "each number of files seen");
        }
        for number in FATES {
            let seen = self.fates[number] > 0;
            self.demand("each number of files seen", seen, || {
                format!("no block of a file had {number} as its fate")
            });
        }
    }

    /// Demands that an export gave a number.
    fn demand_of(&mut self, export: usize, number: usize, name: &'static str) {
        let seen = self.seen[export][number] > 0;
        self.demand(name, seen, || {
            format!("{} did not give {number}", EXPORTS[export])
        });
    }

    fn demand(&mut self, name: &'static str, seen: bool, missing: impl Fn() -> String) {
        self.note(name, seen);
        if !seen {
            println!("{}", missing());
        }
    }
}
