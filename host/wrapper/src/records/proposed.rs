//! The structs of what is proposed for a plan, as they cross the C interface.

use crate::{Plan, Refusal};

/// What is proposed as the order of a guest's tasks. The plan of a refused call is unchanged.
#[repr(C)]
#[derive(Clone, Copy, Debug, Default, PartialEq, Eq)]
pub struct Ordered {
    pub refusal: Refusal,
    pub plan: Plan,
}

/// What is chosen as the capacities of a plan's guests. The plan of a refused call is unchanged.
#[repr(C)]
#[derive(Clone, Copy, Debug, Default, PartialEq, Eq)]
pub struct Chosen {
    pub refusal: Refusal,
    pub plan: Plan,
}
