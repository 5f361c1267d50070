//! The outcome of a call, whole.

use reference::amendment::Located;
use reference::choice::Chosen;
use reference::dispatcher::{Dispatcher, Released, Run, Start, Ticked};
use reference::order::Ordered;
use reference::plan::{Read, Refusal};
use reference::salvage::Salvaged;
use reference::statement::Stated;
use reference::verdict::Verdict;

/// All that a call gives back: the answer, the next state, and every lent byte and answer place that it may write.
#[derive(Clone, Debug, PartialEq)]
pub enum Outcome {
    Read(Box<Read>),
    Refusal(Refusal),
    Written(Refusal, Vec<u8>),
    Verdict(Verdict),
    Start(Box<Start>),
    Released(Box<Released>),
    Sheet(Box<Released>, Vec<u32>),
    Ticked(Box<Ticked>),
    Run(Box<Run>),
    Located(Located),
    Stated(Box<Stated>),
    Salvaged(Box<Salvaged>, Vec<u8>),
    Ordered(Box<Ordered>),
    Chosen(Box<Chosen>),
}

impl Outcome {
    /// The refusal's number, 0 for none.
    pub fn number(&self) -> u32 {
        match self {
            Outcome::Read(outcome) => outcome.refusal.number,
            Outcome::Refusal(refusal) | Outcome::Written(refusal, _) => refusal.number,
            Outcome::Verdict(verdict) => verdict.number,
            Outcome::Start(outcome) => outcome.refusal.number,
            Outcome::Released(outcome) | Outcome::Sheet(outcome, _) => outcome.refusal.number,
            Outcome::Ticked(outcome) => outcome.refusal.number,
            Outcome::Run(outcome) => outcome.refusal.number,
            Outcome::Located(located) => located.number,
            Outcome::Stated(outcome) => outcome.refusal.number,
            Outcome::Salvaged(outcome, _) => outcome.refusal.number,
            Outcome::Ordered(outcome) => outcome.refusal.number,
            Outcome::Chosen(outcome) => outcome.refusal.number,
        }
    }

    /// The verdict or the answer's kind, where there is one.
    pub fn kind(&self) -> u32 {
        match self {
            Outcome::Verdict(verdict) => verdict.verdict,
            Outcome::Ticked(outcome) => outcome.answer.kind,
            Outcome::Run(outcome) => outcome.answer.kind,
            _ => 0,
        }
    }

    /// The next state, of a dispatcher's call.
    pub fn state(&self) -> Option<&Dispatcher> {
        match self {
            Outcome::Start(outcome) => Some(&outcome.dispatcher),
            Outcome::Released(outcome) | Outcome::Sheet(outcome, _) => Some(&outcome.dispatcher),
            Outcome::Ticked(outcome) => Some(&outcome.dispatcher),
            Outcome::Run(outcome) => Some(&outcome.dispatcher),
            _ => None,
        }
    }
}
