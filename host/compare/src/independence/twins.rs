//! Two plans and two histories that agree on what is one guest's own.

use super::calls::{filled, own_releases};
use super::view::{View, is_own, view};
use crate::marks;
use crate::plans::{self, Size};
use crate::random::Random;
use crate::side::Side;
use crate::tries::{Script, Tried, fewest, is_refused_whole};
use reference::plan::{Guest, Plan};
use reference::samples::periodic;

/// Two plans of Periodic guests with the same record of a guest at the same place, below the same capacities and
/// periods, and for each what is tried before each tick, with the same releases of that guest.
#[derive(Clone)]
pub struct Twins {
    place: usize,
    pub plans: [Plan; 2],
    pub scripts: [Script; 2],
}

/// Two such plans that the side takes, and no history yet; or none where an id comes twice.
pub fn twins(random: &mut Random, side: &Side, size: Size) -> Option<Twins> {
    let first = periodic(plans::plan(random, size));
    let mut second = periodic(plans::plan(random, size));
    let places = first.count.min(second.count) as usize;
    let any = random.below(places);
    let place = random.pick(&[any, places - 1]);
    for (above, same) in second.guests[..place].iter_mut().zip(&first.guests) {
        above.capacity = same.capacity;
        above.period = same.period;
        marks::keep_multiples(above);
    }
    second.guests[place] = first.guests[place];
    let plans = [first, second];
    let taken = plans.iter().all(|plan| (side.check)(plan).number == 0);
    taken.then(|| Twins {
        place,
        plans,
        scripts: [Script::new(), Script::new()],
    })
}

impl Twins {
    /// The guest's record, the same in both plans.
    pub fn guest(&self) -> &Guest {
        &self.plans[0].guests[self.place]
    }

    /// Other histories: releases of the guest, and apart for each plan how they are handed over and what
    /// else is tried.
    pub fn call_anew(&mut self, random: &mut Random) {
        let own = own_releases(random, self.guest());
        let id = self.guest().id;
        self.scripts = self.plans.map(|plan| filled(random, &plan, id, &own));
    }

    /// What the guest sees of each history.
    pub fn views(&self, side: &Side) -> [View; 2] {
        let id = self.guest().id;
        [0, 1].map(|history| view(side, &self.plans[history], id, &self.scripts[history]))
    }

    /// The first tick by which the guest tells the histories apart.
    pub fn told_apart(&self, side: &Side) -> Option<usize> {
        let [first, second] = self.views(side);
        first
            .iter()
            .zip(&second)
            .position(|(one, other)| one != other)
    }

    /// As few ticks and calls as are still told apart, the other guests silent in one of the histories if
    /// that is enough.
    pub fn fewest(self, side: &Side) -> Twins {
        let fails = |twins: &Twins| twins.agree() && twins.told_apart(side).is_some();
        let mut best = self;
        let ticks = best.told_apart(side).map_or(0, |time| time + 1);
        for script in &mut best.scripts {
            script.truncate(ticks);
        }
        for history in [0, 1] {
            best = best.or_if(best.with(history, best.silent(history)), fails);
        }
        for time in (0..ticks).rev() {
            for nth in (0..best.own(0)[time].len()).rev() {
                best = best.or_if(best.without_own(time, nth), fails);
            }
        }
        for history in [0, 1] {
            let script = best.scripts[history].clone();
            let fewer = fewest(script, |script| fails(&best.with(history, script.clone())));
            best = best.with(history, fewer);
        }
        best
    }

    /// The other twins if they fail too, else these.
    fn or_if(&self, other: Twins, fails: impl Fn(&Twins) -> bool) -> Twins {
        match fails(&other) {
            true => other,
            false => self.clone(),
        }
    }

    /// The same with another script for one history.
    fn with(&self, history: usize, script: Script) -> Twins {
        let mut other = self.clone();
        other.scripts[history] = script;
        other
    }

    /// Whether the releases of the guest are the same before each tick.
    fn agree(&self) -> bool {
        self.own(0) == self.own(1)
    }

    /// The guest's own releases before each tick; a sheet that is refused whole counts as none.
    fn own(&self, history: usize) -> Vec<Vec<u64>> {
        let id = self.guest().id;
        let own = |tries: &Vec<Tried>| {
            let pairs = tries.iter().flat_map(counted).copied();
            pairs.filter(|pair| is_own(*pair, id)).collect()
        };
        self.scripts[history].iter().map(own).collect()
    }

    /// The guest's own releases one by one, and nothing else.
    fn silent(&self, history: usize) -> Script {
        let own = self.own(history).into_iter();
        own.map(|pairs| pairs.into_iter().map(Tried::Single).collect())
            .collect()
    }

    /// The same without the guest's own release of this number before a tick.
    fn without_own(&self, time: usize, nth: usize) -> Twins {
        let id = self.guest().id;
        let mut other = self.clone();
        for script in &mut other.scripts {
            remove_own(&mut script[time], id, nth);
        }
        other
    }
}

/// The pairs that count as releases.
fn counted(tried: &Tried) -> &[u64] {
    match tried {
        Tried::Single(pair) => std::slice::from_ref(pair),
        Tried::Sheet(pairs, room) if is_refused_whole(pairs.len(), *room) => &[],
        Tried::Sheet(pairs, _) => pairs,
    }
}

/// Takes away the counted release of this number among those of the guest with this id.
fn remove_own(tries: &mut Vec<Tried>, id: u32, nth: usize) {
    let mut places = tries.iter().enumerate().flat_map(|(at, tried)| {
        let pairs = counted(tried).iter().enumerate();
        pairs
            .filter(|(_, pair)| is_own(**pair, id))
            .map(move |(within, _)| (at, within))
    });
    let Some((at, within)) = places.nth(nth) else {
        return;
    };
    match &mut tries[at] {
        Tried::Single(_) => {
            tries.remove(at);
        }
        Tried::Sheet(pairs, _) => {
            pairs.remove(within);
        }
    }
}
