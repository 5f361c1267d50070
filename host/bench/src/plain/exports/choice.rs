//! The least capacities of a plan, behind the library's interface.

use crate::{Plan, Refusal};

#[repr(C)]
pub struct Chosen {
    pub refusal: Refusal,
    pub plan: Plan,
}

#[inline(never)]
pub extern "C" fn least_capacities(plan: Plan) -> Chosen {
    let result = plan.least_capacities();
    Chosen {
        refusal: result.err().unwrap_or_default(),
        plan: result.unwrap_or(plan),
    }
}
