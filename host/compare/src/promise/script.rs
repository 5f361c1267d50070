//! Makes the releases that are tried against the promise.

use super::play::Quoted;
use crate::random::Random;
use crate::session::Session;
use crate::side::Side;
use crate::tries::{Script, Tried, refused_whole};
use reference::dispatcher::pair;
use reference::plan::{Guest, Plan};

/// Releases that hurt: the tasks of a guest begin together, mostly when that hurts a quoted task, and then come as soon
/// as they are due, or at random; one by one, or in sheets.
pub fn script(session: &mut Session, plan: &Plan, quoted: &[Quoted]) -> Script {
    let longest = plan.listed().iter().map(longest_period).max();
    let horizon = (6 * longest.unwrap_or(1)).clamp(40, 400);
    let used_up = used_up(&session.subject, plan, horizon / 2);
    let random = &mut session.random;
    let seldom = random.pick(&[1, 1, 1, 2, 5]);
    let often_aside = random.pick(&[4, 4, 1000]);
    let mut releases = vec![Vec::new(); horizon as usize];
    let begins = begins(random, plan, quoted, &used_up, horizon / 2);
    for (own, begin) in plan.listed().iter().zip(begins) {
        for task in 1..=own.tasks as u16 {
            let aside = if random.once_in(often_aside) {
                random.from(0, own.period)
            } else {
                0
            };
            let begin = (begin + aside) as usize;
            for releases in releases.iter_mut().skip(begin) {
                if random.once_in(seldom) {
                    releases.push(pair(own.id, task));
                }
            }
        }
    }
    handed_over(random, releases)
}

/// The same releases, all one by one, all in sheets, or before each tick in one of the two ways.
fn handed_over(random: &mut Random, releases: Vec<Vec<u64>>) -> Script {
    let (some, of) = random.pick(&[(0, 1), (1, 1), (1, 2)]);
    let mut script = Vec::new();
    for pairs in releases {
        script.push(match random.below(of) < some {
            true => in_sheets(random, pairs),
            false => pairs.into_iter().map(Tried::Single).collect(),
        });
    }
    script
}

/// Pairs as a sheet, repeated ones and foreign ones among them. Now and then a sheet that is refused
/// whole goes before.
fn in_sheets(random: &mut Random, mut pairs: Vec<u64>) -> Vec<Tried> {
    if pairs.is_empty() {
        return Vec::new();
    }
    for _ in 0..random.pick(&[0, 0, 1, 3]) {
        let one = random.pick(&pairs);
        let other = random.pick(&[one, one + (1 << 48), one - one % 65_536]);
        pairs.insert(random.below(pairs.len() + 1), other);
    }
    let mut tries = Vec::new();
    if random.once_in(8) {
        tries.push(refused_whole(random, &pairs));
    }
    let room = pairs.len() + random.below(3);
    tries.push(Tried::Sheet(pairs, room));
    tries
}

/// The longest period of a guest's tasks.
fn longest_period(guest: &Guest) -> u32 {
    guest.every[guest.places()]
        .iter()
        .copied()
        .max()
        .unwrap_or(1)
}

/// When the tasks of each guest begin: just after it used up its capacity, for a quoted task's guest when that hurts
/// the task, and for any now and then at another time up to the last.
fn begins(
    random: &mut Random,
    plan: &Plan,
    quoted: &[Quoted],
    used_up: &[Vec<u32>],
    last: u32,
) -> Vec<u32> {
    let hurt = random.pick(quoted);
    let mut begins = Vec::new();
    for (guest, times) in used_up.iter().enumerate() {
        let time = random.pick(times);
        begins.push(match random.below(6) {
            0 => random.from(0, last),
            _ if guest == hurt.guest => hurting(plan, hurt, time),
            _ => time,
        });
    }
    begins
}

/// When a quoted task is hurt by its release, its guest having used up its capacity: at once, or with the next period
/// if it is bound.
fn hurting(plan: &Plan, hurt: Quoted, used_up: u32) -> u32 {
    let own = &plan.guests[hurt.guest];
    match own.is_bound(hurt.task) {
        true => used_up.next_multiple_of(own.period),
        false => used_up,
    }
}

/// For each guest the times up to a horizon at which it has just used up its capacity, and 0.
fn used_up(side: &Side, plan: &Plan, horizon: u32) -> Vec<Vec<u32>> {
    let mut used_up = vec![vec![0]; plan.listed().len()];
    let mut state = (side.fresh)(plan).dispatcher;
    for time in 0..horizon {
        let ticked = (side.tick)(&state);
        state = ticked.dispatcher;
        for (guest, times) in used_up.iter_mut().enumerate() {
            let had_it = ticked.answer.guest == plan.guests[guest].id;
            if had_it && state.left[guest] == 0 {
                times.push(time + 1);
            }
        }
    }
    used_up
}
