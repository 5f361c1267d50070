//! The calls of a history: one guest's own releases, and what else is tried among them.

use super::view::is_own;
use crate::random::Random;
use crate::sheets;
use crate::tries::{Script, Tried, refused_whole};
use reference::dispatcher::{pair, parts};
use reference::plan::{Guest, Plan};

/// The guest's own releases before each of some ticks: seldom or often, mostly of tasks that it has.
pub fn own_releases(random: &mut Random, guest: &Guest) -> Vec<Vec<u64>> {
    let seldom = random.pick(&[1, 2, 8]);
    let mut releases = Vec::new();
    for _ in 0..random.from(40, 300) {
        let count = match random.once_in(seldom) {
            true => random.from(1, 3),
            false => 0,
        };
        let task = |_| match random.below(16) {
            0 => random.pick(&[0, guest.tasks + 1]),
            _ => random.from(1, guest.tasks),
        };
        let tasks = (0..count).map(task);
        releases.push(tasks.map(|task| pair(guest.id, task as u16)).collect());
    }
    releases
}

/// The guest's own releases in a history of a plan, with whatever else is tried, nothing or a lot.
pub fn filled(random: &mut Random, plan: &Plan, id: u32, own: &[Vec<u64>]) -> Script {
    let most = random.pick(&[0, 1, 4, 12]);
    let mut script = Vec::new();
    for own in own {
        let count = random.below(most + 1);
        let mut others = sheets::pairs(random, plan, count);
        others.retain(|pair| !is_own(*pair, id));
        let mut pairs = own.clone();
        for other in others {
            pairs.insert(random.below(pairs.len() + 1), other);
        }
        script.push(handed_over(random, &pairs));
    }
    script
}

/// Pairs one by one and in sheets, in their order. Now and then a sheet that is refused whole comes between.
fn handed_over(random: &mut Random, pairs: &[u64]) -> Vec<Tried> {
    let mut tries = Vec::new();
    let mut rest = pairs;
    while let Some(first) = rest.first() {
        if random.once_in(16) {
            tries.push(refused_whole(random, rest));
        }
        let is_id = parts(*first).0 <= u64::from(u32::MAX);
        let count = random.from(1, rest.len() as u32) as usize;
        let (now, later) = match is_id && random.once_in(2) {
            true => (Tried::Single(*first), 1),
            false => {
                let room = count + random.below(3);
                (Tried::Sheet(rest[..count].to_vec(), room), count)
            }
        };
        tries.push(now);
        rest = &rest[later..];
    }
    tries
}
