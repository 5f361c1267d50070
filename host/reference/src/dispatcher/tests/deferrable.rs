//! Deferrable guests, which are started no more: P13 of document 02.

use super::*;

/// Plan A with these numbers for the kinds of its guests.
fn of_kinds(kinds: [u32; 2]) -> Plan {
    let mut plan = plan_a();
    plan.guests[0].deferrable = kinds[0];
    plan.guests[1].deferrable = kinds[1];
    plan
}

/// The refusal of a start, which gives a state that is zero throughout.
fn refused_start(plan: &Plan) -> Refusal {
    let start = fresh(plan);
    assert_eq!(start.dispatcher, Dispatcher::with(Plan::default()));
    start.refusal
}

#[test]
fn a_deferrable_guest_is_not_started() {
    for number in [1, 2, 256, u32::MAX] {
        for kinds in [[number, 0], [0, number], [number, number]] {
            assert_eq!(refused_start(&of_kinds(kinds)), Refusal::new(23, 0));
        }
    }
}

#[test]
fn refusal_23_comes_after_the_records_order() {
    let mut plan = of_kinds([1, 0]);
    plan.guests[1].id = 7;
    assert_eq!(refused_start(&plan), Refusal::new(4, 1));
    plan.guests[1].id = 9;
    plan.guests[1].run[1] = 0;
    assert_eq!(refused_start(&plan), Refusal::new(6, 1));
    for count in [0, 9, u32::MAX] {
        assert_eq!(refused_start(&Plan { count, ..plan }), Refusal::new(1, 0));
    }
    plan.guests[1].run[1] = 8;
    assert_eq!(refused_start(&plan), Refusal::new(23, 0));
}

#[test]
fn guests_past_the_count_are_not_looked_at() {
    let mut plan = plan_a();
    for guest in &mut plan.guests[2..] {
        guest.deferrable = 1;
    }
    let state = taken(&started(&plan), 9, 1);
    assert_eq!(state.plan, plan);
    assert_eq!(run(&state, 1000).answer, finished(9, 1, 24, 26));
    let one = Plan {
        count: 1,
        ..of_kinds([0, 1])
    };
    assert_eq!(after(&started(&one), 3).plan, one);
}

/// Each call refuses the state as 14, before it looks at anything else, and changes nothing.
fn refused_in_each_call(state: &Dispatcher) {
    let (refusal, dispatcher) = (Refusal::new(14, 0), *state);
    let refused = Released {
        refusal,
        dispatcher,
    };
    for (id, task) in [(9, 1), (7, 1), (9, 3), (8, 0)] {
        assert_eq!(release(state, id, task), refused);
    }
    for count in [0, 1, 257] {
        let mut answers = [0xA5; 2];
        let pairs = vec![pair(9, 1); count];
        assert_eq!(sheet(state, &pairs, &mut answers), refused);
        assert_eq!(answers, [0xA5; 2]);
    }
    let answer = Answer::default();
    let ticked = Ticked {
        refusal,
        answer,
        dispatcher,
    };
    assert_eq!(tick(state), ticked);
    for ticks in [0, 1, 1_000_001] {
        let done = 0;
        let refused = Run {
            refusal,
            done,
            answer,
            dispatcher,
        };
        assert_eq!(run(state, ticks), refused);
    }
}

#[test]
fn a_state_with_a_deferrable_guest_is_refused_in_each_call() {
    let busy = after(&taken(&started(&plan_a()), 9, 1), 3);
    for number in [1, 2, 256, u32::MAX] {
        for kinds in [[number, 0], [0, number], [number, number]] {
            let plan = of_kinds(kinds);
            refused_in_each_call(&Dispatcher { plan, ..busy });
            refused_in_each_call(&Dispatcher::with(plan));
        }
    }
}
