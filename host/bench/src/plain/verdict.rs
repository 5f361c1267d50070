//! Verdicts by the plain recurrence.

use crate::{Guest, Plan, Refusal};

#[derive(Clone, Copy, Debug, PartialEq, Eq)]
pub enum TaskVerdict {
    Met(u32),
    UnmetAt(u32),
    Unmet,
    Unjudged,
}

impl Plan {
    /// The response of a fitted guest.
    pub fn guest_verdict(&self, id: u32) -> Result<Option<u32>, Refusal> {
        self.check()?;
        Ok(self.response(self.place_of(id)?))
    }

    pub fn task_verdict(&self, id: u32, task: u32) -> Result<TaskVerdict, Refusal> {
        self.check()?;
        let guest = self.place_of(id)?;
        let task = self.guests[guest].task_place(task)?;
        if !self.judged(guest) {
            return Ok(TaskVerdict::Unjudged);
        }
        let (above, own) = (&self.guests[..guest], &self.guests[guest]);
        let gaps = gaps(own, own.capacity);
        let found = task_response(above, own, own.capacity, &gaps, task, own.every[task]);
        Ok(match found {
            Some(response) if response <= own.deadline[task] => TaskVerdict::Met(response),
            Some(response) => TaskVerdict::UnmetAt(response),
            None => TaskVerdict::Unmet,
        })
    }

    pub fn accepted(&self) -> Result<bool, Refusal> {
        self.check()?;
        let count = self.count as usize;
        let all_fitted = (0..count).all(|guest| self.response(guest).is_some());
        let accepted = all_fitted
            && (0..count).all(|guest| {
                let (above, own) = (&self.guests[..guest], &self.guests[guest]);
                all_met(above, own, own.capacity)
            });
        Ok(accepted)
    }

    /// Whether the guest and all guests above are fitted.
    pub(crate) fn judged(&self, guest: usize) -> bool {
        (0..=guest).all(|at| self.response(at).is_some())
    }

    fn response(&self, guest: usize) -> Option<u32> {
        let own = &self.guests[guest];
        guest_response(&self.guests[..guest], own.capacity, own.period)
    }
}

/// The least solution of the guest's equation, if it is within the period.
pub fn guest_response(above: &[Guest], capacity: u32, period: u32) -> Option<u32> {
    let mut x = capacity;
    loop {
        let next = capacity + interference(above, x);
        if next > period {
            return None;
        }
        if next == x {
            return Some(x);
        }
        x = next;
    }
}

/// Whether all tasks of a judged guest are met at this capacity.
pub fn all_met(above: &[Guest], own: &Guest, capacity: u32) -> bool {
    let gaps = gaps(own, capacity);
    (0..own.tasks as usize)
        .all(|task| task_response(above, own, capacity, &gaps, task, own.deadline[task]).is_some())
}

/// Whether one task of a judged guest is met at this capacity.
pub fn met(above: &[Guest], own: &Guest, capacity: u32, task: usize) -> bool {
    let gaps = gaps(own, capacity);
    task_response(above, own, capacity, &gaps, task, own.deadline[task]).is_some()
}

/// What a release of each task may wait for its guest's first tick at this capacity: nothing where it is bound.
fn gaps(own: &Guest, capacity: u32) -> [u32; 16] {
    let gap = own.period - capacity;
    std::array::from_fn(|task| if own.is_bound(task) { 0 } else { gap })
}

/// The response of a task of a judged guest at this capacity, at most `most`: the recurrence from 1 on,
/// cut off where no solution can be within it.
fn task_response(
    above: &[Guest],
    own: &Guest,
    capacity: u32,
    gaps: &[u32; 16],
    task: usize,
    most: u32,
) -> Option<u32> {
    let period = own.period;
    let limit = most.checked_sub(gaps[task])?;
    let mut w = 1;
    while w <= limit {
        let load = load(own, gaps, task, w);
        if load > u64::from(limit) {
            return None;
        }
        let load = load as u32;
        let full = (load - 1) / capacity;
        if full > limit / period {
            return None;
        }
        let between = full * (period - capacity);
        let next = load + between + interference(above, w.saturating_sub(full * period));
        if next == w {
            return Some(w + gaps[task]);
        }
        w = next;
    }
    None
}

/// What the task and those above it ask of a window, to which the gap of each one above is added.
fn load(own: &Guest, gaps: &[u32; 16], task: usize, window: u32) -> u64 {
    let above = own.run[..task].iter().zip(&own.every[..task]).zip(gaps);
    let charge = 2 * u32::from(own.charge);
    above.fold(
        u64::from(own.charged_run(task)),
        |sum, ((run, every), gap)| {
            sum + u64::from((window + gap).div_ceil(*every)) * u64::from(run + charge)
        },
    )
}

/// What guests above take of a window of at most 1,000,000 ticks.
fn interference(above: &[Guest], window: u32) -> u32 {
    above
        .iter()
        .map(|guest| (window + guest.jitter()).div_ceil(guest.period) * guest.capacity)
        .sum()
}
