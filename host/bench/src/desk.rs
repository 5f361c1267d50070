//! The desk's table: the library's search beside the simple program that tries capacities upward, behind the same
//! interface.

use crate::cases::desk::{Asked, SMALL, all};
use crate::measure::measure_apart;

/// A row's name and its ratio.
type Worst = (&'static str, f64);

/// Prints the table; gives whether every ratio is within its aim.
pub fn table() -> bool {
    println!(
        "{:<26} {:>8} {:>14} {:>16} {:>8} {:>5}",
        "case", "answer", "ours ns", "upward ns", "ratio", "aim"
    );
    let mut held = true;
    let mut worst: Worst = ("", 0.0);
    for Asked { answer, case } in all() {
        let [ours, upward, _] = case.sides;
        let [ours, upward] = measure_apart(case.name, &mut [ours, upward]);
        let ratio = ours / upward;
        let above = ratio > case.aim;
        println!(
            "{:<26} {:>8} {ours:>14.1} {upward:>16.1} {ratio:>8.4} {:>5}{}",
            case.name,
            answer.map_or("none".to_string(), |answer| answer.to_string()),
            case.aim,
            if above { " above" } else { "" },
        );
        held &= !above;
        if answer.is_some_and(|answer| answer <= SMALL) && ratio > worst.1 {
            worst = (case.name, ratio);
        }
    }
    let (name, ratio) = worst;
    println!("worst of the answers up to {SMALL}: {name} with {ratio:.4}");
    held
}
