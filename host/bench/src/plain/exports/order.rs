//! An order for a guest's tasks, behind the library's interface.

use crate::{Plan, Refusal};

#[repr(C)]
pub struct Ordered {
    pub refusal: Refusal,
    pub plan: Plan,
}

#[inline(never)]
pub extern "C" fn order(mut plan: Plan, id: u32) -> Ordered {
    let refusal = plan.order(id).err().unwrap_or_default();
    Ordered { refusal, plan }
}
