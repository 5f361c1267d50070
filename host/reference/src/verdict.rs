//! Verdicts for guests and tasks, and the smallest capacity.

#[cfg(test)]
mod tests;

use crate::plan::{Guest, Plan, Refusal, task_place, well_formed};

/// A guest is fitted, with its response; or a task is met; or the plan is accepted; or a capacity works.
pub const YES: u32 = 1;

/// A guest is unfit; or a task is unmet, with its response if that is at most its period; or the plan is not accepted.
pub const NO: u32 = 2;

/// A task is unjudged.
pub const UNJUDGED: u32 = 3;

/// A verdict with its ticks; verdict and ticks are 0 on a refusal.
#[derive(Clone, Copy, Debug, Default, PartialEq, Eq)]
pub struct Verdict {
    pub number: u32,
    pub place: u32,
    pub verdict: u32,
    pub ticks: u32,
}

impl Verdict {
    const fn new(verdict: u32, ticks: u32) -> Verdict {
        Verdict {
            number: 0,
            place: 0,
            verdict,
            ticks,
        }
    }

    pub(crate) fn of(result: Result<Verdict, Refusal>) -> Verdict {
        result.unwrap_or_else(|refusal| Verdict {
            number: refusal.number,
            place: refusal.place,
            ..Verdict::default()
        })
    }
}

/// Verdict of a guest: the records' order, then 7.
pub fn guest_verdict(plan: &Plan, id: u32) -> Verdict {
    Verdict::of(judge_guest(plan, id))
}

/// Verdict of a task, by its number from 1: the records' order, then 7, then 8.
pub fn task_verdict(plan: &Plan, id: u32, task: u32) -> Verdict {
    Verdict::of(judge_task(plan, id, task))
}

/// Plan acceptance: the records' order.
pub fn accept(plan: &Plan) -> Verdict {
    Verdict::of(judge_plan(plan))
}

/// Smallest capacity: the records' order, then 7, then 11.
pub fn smallest_capacity(plan: &Plan, id: u32) -> Verdict {
    Verdict::of(search_capacity(plan, id))
}

fn judge_guest(plan: &Plan, id: u32) -> Result<Verdict, Refusal> {
    well_formed(plan)?;
    let guest = plan.place_of(id)?;
    Ok(match guest_response(plan, guest) {
        Some(x) => Verdict::new(YES, x),
        None => Verdict::new(NO, 0),
    })
}

fn judge_task(plan: &Plan, id: u32, task: u32) -> Result<Verdict, Refusal> {
    well_formed(plan)?;
    let guest = plan.place_of(id)?;
    let task = task_place(&plan.guests[guest], task)?;
    if !judged(plan, guest) {
        return Ok(Verdict::new(UNJUDGED, 0));
    }
    Ok(match task_response(plan, guest, task) {
        Some(r) if r <= plan.guests[guest].deadline[task] => Verdict::new(YES, r),
        Some(r) => Verdict::new(NO, r),
        None => Verdict::new(NO, 0),
    })
}

fn judge_plan(plan: &Plan) -> Result<Verdict, Refusal> {
    well_formed(plan)?;
    let places = 0..plan.listed().len();
    let all_fitted = places.clone().all(|guest| fitted(plan, guest));
    let accepted = all_fitted && places.clone().all(|guest| all_met(plan, guest));
    Ok(Verdict::new(if accepted { YES } else { NO }, 0))
}

fn search_capacity(plan: &Plan, id: u32) -> Result<Verdict, Refusal> {
    well_formed(plan)?;
    let guest = plan.place_of(id)?;
    (1..=plan.guests[guest].period)
        .find(|capacity| works(plan, guest, *capacity))
        .map(|capacity| Verdict::new(YES, capacity))
        .ok_or(Refusal::new(11, 0))
}

/// Whether, all else unchanged, the guest is fitted and all its tasks are met at this capacity.
pub fn works(plan: &Plan, guest: usize, capacity: u32) -> bool {
    let mut changed = *plan;
    changed.guests[guest].capacity = capacity;
    judged(&changed, guest) && all_met(&changed, guest)
}

/// Whether all tasks of a guest that is judged are met.
pub(crate) fn all_met(plan: &Plan, guest: usize) -> bool {
    let mut tasks = plan.guests[guest].places();
    tasks.all(|task| is_met(plan, guest, task))
}

/// Whether a task of a guest that is judged is met.
pub(crate) fn is_met(plan: &Plan, guest: usize, task: usize) -> bool {
    let deadline = plan.guests[guest].deadline[task];
    task_response(plan, guest, task).is_some_and(|r| r <= deadline)
}

/// A task is unjudged if its own guest or any guest above is unfit.
pub(crate) fn judged(plan: &Plan, guest: usize) -> bool {
    (0..=guest).all(|at| fitted(plan, at))
}

fn fitted(plan: &Plan, guest: usize) -> bool {
    guest_response(plan, guest).is_some()
}

/// The least x from 1 to T with x = C + the sum over guests above of ((x + their jitter) / their period, rounded up)
/// times their capacity.
pub fn guest_response(plan: &Plan, guest: usize) -> Option<u32> {
    let above = &plan.guests[..guest];
    let Guest {
        capacity, period, ..
    } = plan.guests[guest];
    (1..=period).find(|x| u128::from(*x) == u128::from(capacity) + taken_above(above, (*x).into()))
}

/// The least w of at least 1 that solves the equation with w + J at most the task's period, as w + J.
pub fn task_response(plan: &Plan, guest: usize, task: usize) -> Option<u32> {
    let above = &plan.guests[..guest];
    let own = &plan.guests[guest];
    let gap = gap(own, task);
    (1..)
        .take_while(|w| w + gap <= own.every[task])
        .find(|w| u128::from(*w) == right_side(above, own, task, u128::from(*w)))
        .map(|w| w + gap)
}

/// load + (n - 1)(T - C) + the sum over guests above of ((max(0, w - (n - 1)T) + their jitter) / their period,
/// rounded up) times their capacity.
fn right_side(above: &[Guest], own: &Guest, task: usize, w: u128) -> u128 {
    let (capacity, period) = (u128::from(own.capacity), u128::from(own.period));
    let load = load(own, task, w);
    let n = rounded_up(load, capacity);
    let last = w.saturating_sub((n - 1) * period);
    load + (n - 1) * (period - capacity) + taken_above(above, last)
}

/// J of a task: 0 where it is bound, else T - C of its guest.
fn gap(own: &Guest, task: usize) -> u32 {
    match own.is_bound(task) {
        true => 0,
        false => own.period - own.capacity,
    }
}

/// The task's charged run plus, for each task above it in the guest, ((w + that task's J) / its period,
/// rounded up) times its charged run.
fn load(own: &Guest, task: usize, w: u128) -> u128 {
    let charged = |task: usize| u128::from(own.charged_run(task));
    let released = |at: usize| rounded_up(w + u128::from(gap(own, at)), own.every[at].into());
    let tasks_above: u128 = (0..task).map(|at| released(at) * charged(at)).sum();
    charged(task) + tasks_above
}

/// The sum over guests above of ((window + their jitter) / their period, rounded up) times their capacity.
fn taken_above(above: &[Guest], window: u128) -> u128 {
    let served = |guest: &Guest| rounded_up(window + jitter(guest), guest.period.into());
    above
        .iter()
        .map(|guest| served(guest) * u128::from(guest.capacity))
        .sum()
}

/// A Deferrable guest above counts with jitter T - C, a Periodic one with none.
fn jitter(above: &Guest) -> u128 {
    match above.is_deferrable() {
        true => (above.period - above.capacity).into(),
        false => 0,
    }
}

/// The least whole number not below a / b.
fn rounded_up(a: u128, b: u128) -> u128 {
    a.div_ceil(b)
}
