//! Compares a side, one function for each export, with the reference.
#![forbid(unsafe_code)]

pub mod amendments;
mod blocks;
pub mod bound;
mod call;
pub mod choice;
pub mod convert;
pub mod deferrable;
mod exhaustive;
mod histories;
pub mod independence;
mod kinds;
mod marks;
pub mod order;
mod pairs;
mod plans;
pub mod planview;
mod promise;
mod random;
mod random_calls;
pub mod salvage;
pub mod session;
mod sheets;
mod show;
mod shrink;
pub mod side;
pub mod statements;
mod states;
mod tries;

use session::Session;
use std::time::{Duration, Instant};

/// Small inputs, all of them; then random ones until the time is used up.
pub fn everything(session: &mut Session, budget: Duration) {
    exhaustive::compare(session);
    bound::compare(session);
    deferrable::compare(session);
    pairs::compare(session);
    amendments::compare(session);
    statements::compare(session);
    salvage::compare(session);
    order::compare(session);
    choice::compare(session);
    convert::compare(session);
    let end = Instant::now() + budget;
    while Instant::now() < end {
        random_calls::round(session);
        amendments::round(session);
        statements::round(session);
        salvage::round(session);
        order::round(session);
        choice::round(session);
        convert::round(session);
        histories::history(session);
        promise::histories(session);
        independence::histories(session);
    }
}
