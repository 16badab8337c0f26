//! Counts what lots cut to sixteen bits would change.

use std::collections::BTreeMap;
use std::fmt;

use crate::calls::{refusal, Answer, Call, EntryKind};
use crate::sixteen_bits::{cut_to_good, SIXTEEN_BITS};

#[derive(Default)]
pub struct LotsTally {
    /// Refused with 7, though what would be left of the lots is good; by what
    /// was entered.
    refused: BTreeMap<&'static str, u64>,
    /// Answered lots that don't fit, by what answered them.
    answered: BTreeMap<&'static str, u64>,
    /// Accepted whole or nothing, though what would be left of the fitting lots
    /// is too few.
    pub fitting: u64,
    /// Waiting orders of the most lots, of which one is left.
    pub last_lots: u64,
}

impl LotsTally {
    /// Of "kept", "immediate", "whole", "member", "closing" and "offer".
    pub fn refused(&self, entered: &'static str) -> u64 {
        self.refused.get(entered).copied().unwrap_or(0)
    }

    /// Of "group", "auction" and "session".
    pub fn answered(&self, by: &'static str) -> u64 {
        self.answered.get(by).copied().unwrap_or(0)
    }

    pub fn count_call(&mut self, call: &Call, answer: &Answer) {
        match answer {
            Ok(done) if done.filled >= SIXTEEN_BITS => {
                *self.answered.entry(answering(call)).or_default() += 1;
            }
            Err(refused) if refused.number == refusal::AMOUNT => {
                self.count_refused(call, refused.place);
            }
            _ => {}
        }
    }

    fn count_refused(&mut self, call: &Call, place: u64) {
        if let Some((entered, lots)) = lots_asked(call, place) {
            if cut_to_good(lots) {
                *self.refused.entry(entered).or_default() += 1;
            }
        }
    }

    /// Of an accepted order of kind A.
    pub fn count_fitting(&mut self, lots: u64, fitting: u64) {
        self.fitting += u64::from(fitting % SIXTEEN_BITS < lots);
    }
}

fn answering(call: &Call) -> &'static str {
    match call {
        Call::Group { .. } => "group",
        Call::EndCollecting => "auction",
        Call::EndSession => "session",
        _ => "other",
    }
}

/// The lots that question 7 was about, of a group those of the member at this
/// place from 1. Movements have none.
fn lots_asked(call: &Call, place: u64) -> Option<(&'static str, u64)> {
    match call {
        Call::Enter(entry) => {
            let entered = match entry.kind {
                EntryKind::Kept => "kept",
                EntryKind::Immediate => "immediate",
                EntryKind::FillOrKill => "whole",
            };
            Some((entered, entry.lots))
        }
        Call::Group { members, .. } => {
            let member = members.get((place as usize).checked_sub(1)?)?;
            Some(("member", member.lots))
        }
        Call::EnterClosing(entry) => Some(("closing", entry.lots)),
        Call::EnterOffer(offer) => Some(("offer", offer.lots)),
        _ => None,
    }
}

impl fmt::Display for LotsTally {
    fn fmt(&self, out: &mut fmt::Formatter) -> fmt::Result {
        write!(out, "\n  lots refused that sixteen bits cut to good ones")?;
        for (entered, count) in &self.refused {
            write!(out, " {entered}: {count}")?;
        }
        write!(out, "\n  lots answered beyond sixteen bits")?;
        for (by, count) in &self.answered {
            write!(out, " {by}: {count}")?;
        }
        write!(
            out,
            "; filled whole by fitting ones {}, one left of the most {}",
            self.fitting, self.last_lots
        )
    }
}
