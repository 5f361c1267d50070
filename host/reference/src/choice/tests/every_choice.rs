//! Small plans with all choices of capacities: what is chosen is the least that is accepted, in every place at once.

use super::*;

/// One of the choices of capacities for a plan's guests, by its number from 0.
fn numbered(plan: &Plan, number: u32) -> Plan {
    let mut choice = *plan;
    let mut rest = number;
    for guest in &mut choice.guests[..plan.listed().len()] {
        guest.capacity = rest % guest.period + 1;
        rest /= guest.period;
    }
    choice
}

/// The choices at which a plan is accepted.
fn accepted(plan: &Plan) -> Vec<Plan> {
    let count = plan.listed().iter().map(|guest| guest.period).product();
    let all = (0..count).map(|number| numbered(plan, number));
    all.filter(|choice| accept(choice).verdict == YES).collect()
}

/// Whether no guest of a plan has less than in another.
fn no_less(plan: &Plan, than: &Plan) -> bool {
    let mut pairs = plan.listed().iter().zip(than.listed());
    pairs.all(|(one, other)| one.capacity >= other.capacity)
}

/// The plan with its first guests alone.
fn first(plan: &Plan, count: u32) -> Plan {
    Plan { count, ..*plan }
}

/// Holds what is chosen to all choices; tells whether something was.
fn held_to_all_choices(plan: &Plan) -> bool {
    let accepted_of = |count| accepted(&first(plan, count));
    let Chosen {
        refusal,
        plan: chosen,
    } = least_capacities(plan);
    if refusal.number != 0 {
        assert_eq!(refusal.number, 11, "{plan:?}");
        assert!(accepted_of(plan.count).is_empty(), "{plan:?}");
        assert!(accepted_of(refusal.place + 1).is_empty(), "{plan:?}");
        assert!(refusal.place == 0 || !accepted_of(refusal.place).is_empty());
        return false;
    }
    let all = accepted_of(plan.count);
    assert!(all.contains(&chosen), "{plan:?}");
    assert!(all.iter().all(|one| no_less(one, &chosen)), "{plan:?}");
    true
}

/// Guests with a period: of one task and of two, with a charge, and with bound tasks.
fn guests(id: u32, period: u32) -> [Guest; 8] {
    let of = |tasks: &[[u32; 3]]| Guest::new(id, 1, period, tasks);
    let (twice, thrice) = (2 * period, 3 * period);
    [
        of(&[[1, 6, 6]]),
        of(&[[2, 9, 8]]),
        of(&[[1, 4, 3]]),
        of(&[[1, 8, 5], [1, 12, 12]]),
        of(&[[1, 15, 15], [3, 20, 18]]),
        Guest {
            charge: 1,
            ..of(&[[1, 16, 13]])
        },
        Guest {
            marks: 1,
            ..of(&[[1, twice, twice]])
        },
        Guest {
            marks: 2,
            ..of(&[[1, 14, 11], [2, thrice, thrice]])
        },
    ]
}

/// Holds each of some plans, of which many must have a choice and many none.
fn held_all(plans: &[Plan]) {
    let mut seen = [0; 2];
    for plan in plans {
        seen[usize::from(held_to_all_choices(plan))] += 1;
    }
    assert!(seen.iter().all(|seen| *seen > 100), "{seen:?}");
}

#[test]
fn of_two_guests() {
    let of = |id| (1..=6).flat_map(move |period| guests(id, period));
    let mut plans = Vec::new();
    for upper in of(1) {
        for lower in of(2) {
            plans.push(Plan::new(&[upper, lower]));
        }
    }
    held_all(&plans);
}

#[test]
fn of_three_guests() {
    let of = |id, periods: [u32; 2]| {
        let some = move |period| guests(id, period).into_iter().step_by(2);
        periods.into_iter().flat_map(some)
    };
    let mut plans = Vec::new();
    for upper in of(1, [3, 5]) {
        for middle in of(2, [4, 6]) {
            for lower in of(3, [4, 5]) {
                plans.push(Plan::new(&[upper, middle, lower]));
            }
        }
    }
    held_all(&plans);
}
