//! The least capacities of a plan, as Rust has them.

use crate::{Plan, Refusal, exports};

impl Plan {
    /// The plan with the least capacities at which it is accepted: from the highest guest down, each guest's is the
    /// smallest from 1 to its period at which the guest is fitted and all its tasks are met, the guests above having
    /// theirs. They are least in every place at once: in any choice of capacities at which the plan is accepted no
    /// guest has less. Nothing else changes, and of the capacities that it has only the ranges are looked at.
    /// It is refused by 23 if a guest is Deferrable, and by 11, with the place of the first guest at which no capacity
    /// works, exactly if the plan is accepted at no choice of capacities.
    ///
    /// ```
    /// use coreshare::{Guest, Plan, Refusal};
    ///
    /// let tasks = [[10, 50, 50], [8, 100, 100]];
    /// let of = |seven, nine| {
    ///     Plan::new(&[Guest::new(7, seven, 5, &[[1, 20, 20]]), Guest::new(9, nine, 20, &tasks)])
    /// };
    /// assert_eq!(of(2, 8).smallest_capacity(9), Ok(7));
    ///
    /// let chosen = of(2, 8).least_capacities()?;
    /// assert_eq!(chosen, of(1, 6));
    /// assert_eq!(chosen.accepted(), Ok(true));
    ///
    /// let mut none = of(2, 8);
    /// none.guests[1].deadline[0] = 9;
    /// assert_eq!(none.least_capacities(), Err(Refusal { number: 11, place: 1 }));
    /// none.guests[0].deferrable = 1;
    /// assert_eq!(none.least_capacities(), Err(Refusal { number: 23, place: 0 }));
    /// # Ok::<(), coreshare::Refusal>(())
    /// ```
    pub fn least_capacities(&self) -> Result<Plan, Refusal> {
        let outcome = exports::least_capacities(self);
        outcome.refusal.or(outcome.plan)
    }
}
