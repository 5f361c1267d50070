//! The least capacities of a plan: guest by guest from the highest down, by the search for the smallest one.

use crate::capacity::smallest;
use crate::{Plan, Refusal};

impl Plan {
    /// The plan with each guest's smallest capacity under those above at theirs, who are then fitted.
    pub fn least_capacities(&self) -> Result<Plan, Refusal> {
        self.check()?;
        if self.has_deferrable() {
            return Err(Refusal::new(23, 0));
        }
        let mut chosen = *self;
        for guest in 0..self.listed().len() {
            let (above, own) = (&chosen.guests[..guest], &chosen.guests[guest]);
            let found = smallest(above, own).ok_or(Refusal::new(11, guest as u32))?;
            chosen.guests[guest].capacity = found;
        }
        Ok(chosen)
    }
}
