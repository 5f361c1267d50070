//! An order for a guest's tasks, as Rust has it.

use crate::{Plan, Refusal, exports};

impl Plan {
    /// The plan with the tasks of the guest with this id in an order in which every one of them is met, the guests
    /// above being as given: by deadline, equals as handed in. Nothing else changes, and guests below are not judged.
    /// It is refused by 21 if the guest is Deferrable or a task of it is bound, and by 22 exactly if no order works.
    ///
    /// ```
    /// use coreshare::{Guest, Plan, TaskVerdict};
    ///
    /// let above = Guest::new(7, 2, 5, &[[1, 20, 20]]);
    /// let plan = Plan::new(&[above, Guest::new(9, 8, 20, &[[8, 100, 100], [10, 50, 50]])]);
    /// assert_eq!(plan.task_verdict(9, 2), Ok(TaskVerdict::Unmet));
    ///
    /// let ordered = plan.ordered(9)?;
    /// let nine = Guest::new(9, 8, 20, &[[10, 50, 50], [8, 100, 100]]);
    /// assert_eq!(ordered, Plan::new(&[above, nine]));
    /// assert_eq!(ordered.accepted(), Ok(true));
    ///
    /// let none = Plan::new(&[above, Guest::new(9, 8, 20, &[[8, 100, 100], [10, 50, 35]])]);
    /// assert_eq!(none.ordered(9).unwrap_err().number, 22);
    /// let deferrable = Plan::new(&[above, Guest { deferrable: 1, ..nine }]);
    /// assert_eq!(deferrable.ordered(9).unwrap_err().number, 21);
    /// # Ok::<(), coreshare::Refusal>(())
    /// ```
    pub fn ordered(&self, id: u32) -> Result<Plan, Refusal> {
        let mut plan = *self;
        exports::order_in(&mut plan, id).or(plan)
    }
}
