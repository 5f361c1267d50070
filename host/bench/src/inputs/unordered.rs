//! Plans whose lowest guest's tasks are handed in from the latest deadline on.

use super::{blocks, full, growing_task};
use plain::Guest;

/// Plan A with guest 9's tasks exchanged.
pub fn plan_a_exchanged() -> Vec<u8> {
    blocks(&[
        Guest::new(7, 2, 5, &[[1, 20, 20]]),
        Guest::new(9, 8, 20, &[[8, 100, 100], [10, 50, 50]]),
    ])
}

/// The growing plan with each guest's tasks the other way about: each recurrence has many turns.
pub fn descending() -> Vec<u8> {
    full(|guest, task| growing_task(guest, 15 - task))
}

/// The same with a run for the very last task by deadline that it is not met with.
pub fn no_order() -> Vec<u8> {
    full(|guest, task| {
        let [run, every, deadline] = growing_task(guest, 15 - task);
        let longer = if guest == 7 && task == 0 { 60_000 } else { run };
        [longer, every, deadline]
    })
}
