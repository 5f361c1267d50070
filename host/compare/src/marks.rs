//! Marks of a guest's tasks: those that are well formed, and those that are not.

use crate::random::Random;
use reference::plan::Guest;

/// Marks for so many tasks: often none, or for all of them, or for some.
pub fn some(random: &mut Random, tasks: u32) -> u16 {
    let all = u16::MAX >> (16 - tasks);
    match random.below(6) {
        0..=2 => 0,
        3 => all,
        4 => 1 << random.below(tasks as usize),
        _ => random.next() as u16 & all,
    }
}

/// A period for a bound task: a multiple of its guest's, and at most `most`, which is no shorter.
pub fn multiple(random: &mut Random, period: u32, most: u32) -> u32 {
    period * random.from(1, most / period)
}

/// Any marks past so many tasks.
pub fn past(random: &mut Random, tasks: usize) -> u16 {
    let first = u32::from(u16::MAX) << tasks;
    random.next() as u16 & first as u16
}

/// Takes the marks of tasks away that cannot be bound, after the guest's period was changed.
pub fn keep_multiples(guest: &mut Guest) {
    for task in guest.places() {
        if !guest.every[task].is_multiple_of(guest.period) {
            guest.marks &= !(1 << task);
        }
    }
}

/// Binds a task whose period is next to a multiple of its guest's, and mostly none.
pub fn no_multiple(guest: &mut Guest, task: usize) {
    guest.marks |= 1 << task;
    let multiple = guest.every[task] - guest.every[task] % guest.period.max(1);
    guest.every[task] = multiple.wrapping_add(1);
}
