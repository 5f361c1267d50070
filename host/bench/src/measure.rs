//! How a call is measured: the least of many rounds, the sides in turn.

use crate::cases::{SIDES, Work};
use std::time::{Duration, Instant};

/// A sample lasts at least so long, that the clock is exact enough.
const SAMPLE: Duration = Duration::from_micros(300);

/// Rounds of all sides in turn: at least so many, and then until the time is used up.
const ROUNDS: u32 = 8;
const PATIENCE: Duration = Duration::from_millis(900);

/// Where a call lasts so long that even those are too many: so few, and then until this time is used up.
const FEW_ROUNDS: u32 = 2;
const MOST_PATIENCE: Duration = Duration::from_secs(5);

/// The nanoseconds that one call takes on each side. All are called equally often, since some go on from the state that
/// the call before has left.
pub fn measure<const N: usize>(name: &str, sides: &mut [Work; N]) -> [f64; N] {
    same_outcome(name, sides);
    let times = times_for_all(sides);
    let least = least(sides, [times; N]);
    same_outcome(name, sides);
    least
}

/// The same of sides that begin anew with each call, and of which one may take thousands of times as long: each is
/// called as often as its own samples ask for.
pub fn measure_apart<const N: usize>(name: &str, sides: &mut [Work; N]) -> [f64; N] {
    same_outcome(name, sides);
    let times = sides
        .each_mut()
        .map(|side| times_for_all(std::array::from_mut(side)));
    least(sides, times)
}

fn same_outcome<const N: usize>(name: &str, sides: &mut [Work; N]) {
    let outcomes = sides.each_mut().map(|side| side());
    for (outcome, side) in outcomes.iter().zip(SIDES) {
        assert_eq!(*outcome, outcomes[0], "{name}: {side} differs");
    }
}

/// How often to call so that the samples of each of these sides last long enough.
fn times_for_all<const N: usize>(sides: &mut [Work; N]) -> u32 {
    let mut times = 1;
    loop {
        let samples = sides.each_mut().map(|side| sample(side, times));
        if samples.into_iter().all(|sample| sample >= SAMPLE) {
            return times;
        }
        times *= 2;
    }
}

/// The nanoseconds of one call on each side, the least of many rounds.
fn least<const N: usize>(sides: &mut [Work; N], times: [u32; N]) -> [f64; N] {
    let mut least = [Duration::MAX; N];
    let begin = Instant::now();
    let mut rounds = 0;
    while !enough(rounds, begin.elapsed()) {
        for ((least, side), times) in least.iter_mut().zip(&mut *sides).zip(times) {
            *least = sample(side, times).min(*least);
        }
        rounds += 1;
    }
    std::array::from_fn(|side| least[side].as_nanos() as f64 / f64::from(times[side]))
}

fn enough(rounds: u32, elapsed: Duration) -> bool {
    (rounds >= ROUNDS && elapsed >= PATIENCE) || (rounds >= FEW_ROUNDS && elapsed >= MOST_PATIENCE)
}

fn sample(work: &mut Work, times: u32) -> Duration {
    let begin = Instant::now();
    for _ in 0..times {
        work();
    }
    begin.elapsed()
}
