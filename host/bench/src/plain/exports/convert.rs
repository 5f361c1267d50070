//! An old plan converted, behind the library's interface.
#![allow(improper_ctypes_definitions)] // slices, as the library takes them: a pointer and a length

use crate::{Refusal, convert};

#[inline(never)]
pub extern "C" fn convert(plan: &[u8], out: &mut [u8]) -> Refusal {
    convert::convert(plan, out).err().unwrap_or_default()
}
