//! Small inputs with Deferrable guests, all of them: blocks and records, verdicts below them, and what is refused since
//! such guests are written and started no more.

mod refused;

use crate::bound::{put, read_and_find, written};
use crate::call::Call;
use crate::exhaustive::{every_call, flipped_bits, servers, tasks};
use crate::random_calls::every_verdict;
use crate::session::Session;
use reference::dispatcher::Dispatcher;
use reference::plan::{Guest, Plan, blocks_of};
use reference::samples::{deferrable, plan_a, plan_a_bound};

/// Numbers of a record's kind: Periodic, and several that say Deferrable.
const NUMBERS: [u32; 8] = [0, 1, 2, 255, 256, 65_536, 0x8000_0000, u32::MAX];

/// The kinds of two guests of which at least one is Deferrable.
const TWO_KINDS: [[u32; 2]; 3] = [[1, 0], [0, 1], [1, 1]];

pub fn compare(session: &mut Session) {
    for marks in 0..4 {
        for kinds in TWO_KINDS {
            every_verdict(session, &of_kinds(plan_a_bound(marks), &kinds));
        }
    }
    every_verdict(session, &deferrable(plan_a()));
    flipped_bits(session, &deferrable(plan_a()));
    flipped_bits(session, &of_kinds(plan_a_bound(2), &[0, 1]));
    bytes_of_blocks(session);
    numbers_of_records(session);
    plans_of_two_guests(session);
    plans_of_three_guests(session);
    refused::compare(session);
}

/// The plan with these kinds of its first guests.
fn of_kinds(mut plan: Plan, kinds: &[u32]) -> Plan {
    for (guest, kind) in plan.guests.iter_mut().zip(kinds) {
        guest.deferrable = *kind;
    }
    plan
}

/// Blocks of each kind with marks or none, live ones or one past the tasks, every value of byte 22, and something in
/// byte 23 or not.
fn bytes_of_blocks(session: &mut Session) {
    let right = blocks_of(&Plan::new(&[Guest::new(5, 2, 4, &[[1, 40, 40]; 2])]));
    for kind in [0, 1, 2, 3, 258] {
        for marks in [0, 1, 3, 4, 0x8000] {
            for server in 0..=u8::MAX {
                for beside in [0, 1, 7, 255] {
                    let mut block = right.clone();
                    put(&mut block, 0, kind);
                    put(&mut block, 20, marks);
                    put(&mut block, 22, u16::from_le_bytes([server, beside]));
                    read_and_find(session, &mut block);
                }
            }
        }
    }
}

/// Records with each of some numbers for the kind and each marks, past the tasks too, in each call that takes them.
fn numbers_of_records(session: &mut Session) {
    for number in NUMBERS {
        for marks in 0..8 {
            let mut plan = plan_a_bound(marks);
            plan.guests[1].deferrable = number;
            written(session, plan.guests[1]);
            every_verdict(session, &plan);
            session.compare(Call::Read(blocks_of(&plan)));
            plan.guests[0].deferrable = number;
            every_verdict(session, &plan);
            every_call(session, &Dispatcher::with(plan));
            plan.guests[1].capacity = 21;
            every_verdict(session, &plan);
        }
    }
}

fn plans_of_two_guests(session: &mut Session) {
    for [above, long] in servers(5) {
        let upper = Guest::new(1, above, long, &[[1, 9, 9]]);
        for [capacity, period] in servers(5) {
            for lower in tasks(2, 8) {
                let both = [[1, 6, 6], lower];
                let plan = Plan::new(&[upper, Guest::new(2, capacity, period, &both)]);
                for kinds in TWO_KINDS {
                    two_guests(session, of_kinds(plan, &kinds));
                }
            }
        }
    }
}

fn two_guests(session: &mut Session, plan: Plan) {
    session.compare(Call::GuestVerdict(Box::new(plan), 2));
    session.compare(Call::TaskVerdict(Box::new(plan), 2, 2));
    session.compare(Call::SmallestCapacity(Box::new(plan), 2));
    session.compare(Call::Accept(Box::new(plan)));
}

/// Two guests above a third, in each mix of kinds.
fn plans_of_three_guests(session: &mut Session) {
    for [first, first_period] in servers(4) {
        for [second, second_period] in servers(4) {
            for period in 5..=14 {
                let plan = Plan::new(&[
                    Guest::new(1, first, first_period, &[[1, 9, 9]]),
                    Guest::new(2, second, second_period, &[[1, 9, 9]]),
                    Guest::new(3, 1, period, &[[2, 60, 40]]),
                ]);
                for mix in 1..8 {
                    let kinds = [mix & 1, mix >> 1 & 1, mix >> 2];
                    every_verdict(session, &of_kinds(plan, &kinds));
                }
            }
        }
    }
}
