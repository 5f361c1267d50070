//! Random plans: well formed ones of several sizes, and hostile ones.

use crate::kinds;
use crate::marks;
use crate::random::Random;
use reference::plan::{Guest, MOST_GUESTS, MOST_TASKS, Plan};

/// How large the numbers of a plan may be.
#[derive(Clone, Copy)]
pub struct Size {
    pub guests: u32,
    pub tasks: u32,
    pub period: u32,
    pub every: u32,
}

pub const TINY: Size = Size {
    guests: 2,
    tasks: 2,
    period: 6,
    every: 14,
};

pub const SMALL: Size = Size {
    guests: 4,
    tasks: 4,
    period: 15,
    every: 80,
};

/// All guests and tasks that a plan can have, with small numbers.
pub const FULL: Size = Size {
    guests: 8,
    tasks: 16,
    period: 30,
    every: 300,
};

pub const MEDIUM: Size = Size {
    guests: 4,
    tasks: 4,
    period: 200,
    every: 2_000,
};

pub const LARGE: Size = Size {
    guests: 8,
    tasks: 16,
    period: 1_000_000,
    every: 1_000_000,
};

/// A well-formed plan, now and then with anything past its counts.
pub fn plan(random: &mut Random, size: Size) -> Plan {
    let mut plan = clean(random, size);
    if random.once_in(4) {
        fill_past_the_counts(random, &mut plan);
    }
    plan
}

/// A well-formed plan that is zero past its counts.
pub fn clean(random: &mut Random, size: Size) -> Plan {
    let count = random.from(1, size.guests);
    let mut plan = Plan {
        count,
        ..Plan::default()
    };
    // What the guests ask of the core together, in percent: mostly something that fits.
    let share = random.from(20, 110) / count;
    for at in 0..count as usize {
        let id = fresh_id(random, &plan.guests[..at]);
        plan.guests[at] = guest(random, size, id, share);
    }
    if count > 2 && random.once_in(4) {
        squeeze(random, &mut plan);
    }
    plan
}

/// Makes a guest in the middle ask little and yet be unfit: its period is too short for those above.
fn squeeze(random: &mut Random, plan: &mut Plan) {
    let at = random.from(1, plan.count - 2) as usize;
    let above: u32 = plan.guests[..at].iter().map(|guest| guest.capacity).sum();
    let guest = &mut plan.guests[at];
    guest.capacity = 1;
    guest.period = random.from(1, guest.period.min(above));
    marks::keep_multiples(guest);
}

fn fresh_id(random: &mut Random, earlier: &[Guest]) -> u32 {
    loop {
        let id = match random.below(4) {
            0 => random.edge(),
            _ => random.from(1, 20),
        };
        if id != 0 && earlier.iter().all(|guest| guest.id != id) {
            return id;
        }
    }
}

/// A well-formed guest that asks some share of the core, in percent.
pub fn guest(random: &mut Random, size: Size, id: u32, share: u32) -> Guest {
    let period = random.from(1, size.period);
    let capacity = match random.below(8) {
        0 => random.from(1, period),
        1 => period,
        _ => near(random, part(period, share), period),
    };
    let tasks = random.from(1, size.tasks);
    let mut guest = Guest {
        id,
        capacity,
        period,
        tasks,
        charge: charge(random),
        marks: marks::some(random, tasks),
        deferrable: kinds::some(random),
        ..Guest::default()
    };
    for at in 0..tasks as usize {
        let every = match guest.is_bound(at) {
            true => marks::multiple(random, period, size.every),
            false => random.from(period.min(size.every) / 2 + 1, size.every),
        };
        guest.every[at] = every;
        guest.run[at] = match random.below(12) {
            0 => random.from(1, every),
            _ => near(random, part(every, share / tasks), every),
        };
        guest.deadline[at] = match random.below(3) {
            0 => random.from(1, every),
            _ => every,
        };
    }
    guest
}

fn part(of: u32, percent: u32) -> u32 {
    (u64::from(of) * u64::from(percent) / 100) as u32
}

/// A number from 1 to `most`, between half of `number` and a half more.
fn near(random: &mut Random, number: u32, most: u32) -> u32 {
    let low = (number / 2).max(1).min(most);
    let high = (number + number / 2).clamp(low, most);
    random.from(low, high)
}

fn charge(random: &mut Random) -> u16 {
    match random.below(16) {
        0 => random.next() as u16,
        1 => u16::MAX,
        2..=9 => random.from(0, 3) as u16,
        _ => 0,
    }
}

/// Anything in the entries that no call may look at.
fn fill_past_the_counts(random: &mut Random, plan: &mut Plan) {
    for (at, guest) in plan.guests.iter_mut().enumerate() {
        let mut first = guest.tasks as usize;
        if at >= plan.count as usize {
            *guest = any_guest(random);
            first = MOST_TASKS;
        }
        guest.marks |= marks::past(random, first);
        for column in [&mut guest.run, &mut guest.every, &mut guest.deadline] {
            column[first..]
                .iter_mut()
                .for_each(|entry| *entry = random.edge());
        }
    }
}

fn any_guest(random: &mut Random) -> Guest {
    Guest {
        id: random.edge(),
        capacity: random.edge(),
        period: random.edge(),
        tasks: random.edge(),
        charge: random.next() as u16,
        marks: random.next() as u16,
        deferrable: random.edge(),
        run: std::array::from_fn(|_| random.edge()),
        every: std::array::from_fn(|_| random.edge()),
        deadline: std::array::from_fn(|_| random.edge()),
    }
}

/// A plan that is out of range somewhere, or everywhere, or by luck nowhere.
pub fn hostile(random: &mut Random, size: Size) -> Plan {
    if random.once_in(20) {
        return Plan {
            count: random.edge(),
            guests: std::array::from_fn(|_| any_guest(random)),
        };
    }
    let mut changed = plan(random, size);
    for _ in 0..random.from(1, 3) {
        damage(random, &mut changed);
    }
    changed
}

/// Changes one number to an edge.
fn damage(random: &mut Random, plan: &mut Plan) {
    let count = (plan.count as usize).clamp(1, MOST_GUESTS);
    let other = plan.guests[random.below(count)];
    let guest = &mut plan.guests[random.below(count)];
    let task = random.below(guest.tasks.clamp(1, MOST_TASKS as u32) as usize);
    let value = random.edge();
    match random.below(13) {
        0 => plan.count = value,
        1 => guest.id = random.pick(&[0, other.id, value]),
        2 => guest.capacity = random.pick(&[0, guest.period, guest.period.wrapping_add(1), value]),
        3 => guest.period = random.pick(&[guest.capacity.wrapping_sub(1), value]),
        4 => guest.tasks = random.pick(&[0, 16, 17, value]),
        5 => guest.run[task] = value,
        6 => guest.every[task] = random.pick(&[guest.deadline[task].wrapping_sub(1), value]),
        7 => guest.deadline[task] = random.pick(&[guest.every[task].wrapping_add(1), value]),
        8 => guest.run[task] = 0,
        9 => guest.marks = random.next() as u16,
        10 => marks::no_multiple(guest, task),
        11 => guest.deferrable = value,
        _ => guest.charge = value as u16,
    }
}

/// A guest's id in the plan, or now and then another.
pub fn some_id(random: &mut Random, plan: &Plan) -> u32 {
    match random.below(12) {
        0 => random.edge(),
        _ => plan.guests[random.below((plan.count as usize).clamp(1, MOST_GUESTS))].id,
    }
}

/// A task's number in the guest with this id, or now and then another.
pub fn some_task(random: &mut Random, plan: &Plan, id: u32) -> u32 {
    let guest = plan.guests.iter().find(|guest| guest.id == id);
    match guest {
        Some(guest) if !random.once_in(12) => random.from(1, guest.tasks.clamp(1, 16)),
        _ => random.edge(),
    }
}
