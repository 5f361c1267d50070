use super::*;
use crate::plan::{BLOCK, blocks_of};
use crate::samples::plan_a;

#[test]
fn the_text_of_plan_a() {
    let lines = "guest 7 fitted 2\ntask 1 met 4\nguest 9 fitted 14\ntask 1 met 36\ntask 2 met 80\nplan accepted\n";
    assert_eq!(text(&blocks_of(&plan_a())), lines);
}

#[test]
fn an_unfit_guest() {
    let plan = Plan::new(&[
        Guest::new(1, 2, 5, &[[1, 100, 3]]),
        Guest::new(2, 4, 6, &[[1, 100, 100]]),
    ]);
    let lines =
        "guest 1 fitted 2\ntask 1 unmet 4\nguest 2 unfit\ntask 1 unjudged\nplan not accepted\n";
    assert_eq!(text(&blocks_of(&plan)), lines);
}

#[test]
fn refused_plans() {
    assert_eq!(text(&[0; BLOCK]), "refused 3 block 0\n");
    assert_eq!(text(&[]), "refused 1 block 0\n");
    assert_eq!(text(&[0; 5000]), "refused 1 block 0\n");
}
