//! The kinds of guests: Periodic, or Deferrable by any number but 0.

use crate::random::Random;

/// The number of a guest's kind: mostly Periodic, or Deferrable by 1 or by another number.
pub fn some(random: &mut Random) -> u32 {
    match random.below(6) {
        0..=2 => 0,
        3 | 4 => 1,
        _ => random.edge(),
    }
}
