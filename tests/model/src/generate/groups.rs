//! Linked groups that a trial run accepts, or accepts in part.

use super::day::Day;
use super::single::free_and_need;
use crate::calls::{Call, Entry, EntryKind, Member, Side, WaitingKind};
use crate::engine::{Engine, LOTS_LIMIT};

fn entry_of(participant: u64, member: &Member) -> Entry {
    Entry {
        participant,
        side: member.side,
        security: member.security,
        price: member.price,
        lots: member.lots,
        kind: EntryKind::FillOrKill,
    }
}

impl Day {
    pub(super) fn write_group(&mut self) {
        let call = self.group();
        self.add(call);
    }

    /// Members that a trial run accepts where possible; at times one of them
    /// is then spoiled, so that the earlier ones must be undone.
    pub(super) fn group(&mut self) -> Call {
        let participant = self.participant();
        let count = self.random.within(2, 8);
        let keeps_unfit = self.random.chance(15);
        let mut trial = self.engine.clone();
        let mut members = Vec::new();
        for _ in 0..count {
            let (member, accepted) = self.member(participant, &mut trial);
            if accepted || keeps_unfit || members.len() < 2 {
                members.push(member);
            }
        }
        if self.random.chance(20) {
            let place = self.random.index(members.len());
            self.spoil_member(&mut members[place]);
        }
        if self.random.chance(2) {
            let size = self.random.pick(&[0, 1, 9, 10]);
            members.resize(size, members[0]);
        }
        Call::Group {
            participant,
            members,
        }
    }

    /// Members of which one meets a reserve that hardly suffices, or lacks a
    /// unit, on the state that its predecessors leave.
    pub(super) fn write_tight_group(&mut self) {
        let participant = self.participant();
        let count = self.random.within(2, 4) as usize;
        let tight = self.random.index(count);
        let mut trial = self.engine.clone();
        let mut members = Vec::new();
        let mut free = 0;
        for place in 0..count {
            let before = trial.clone();
            let (member, _) = self.member(participant, &mut trial);
            if place == tight {
                free = free_and_need(&before, &entry_of(participant, &member)).0;
            }
            members.push(member);
        }
        let entry = entry_of(participant, &members[tight]);
        let (_, need) = free_and_need(&self.engine, &entry);
        let call = Call::Group {
            participant,
            members,
        };
        self.squeeze(&entry, free, need, call);
    }

    /// A member, and whether the trial run accepted it.
    pub(super) fn member(&mut self, participant: u64, trial: &mut Engine) -> (Member, bool) {
        let mut member = self.fitting_member(trial);
        for _ in 0..4 {
            let entry = entry_of(participant, &member);
            if trial.enter(&entry, &mut Vec::new()).is_ok() {
                return (member, true);
            }
            member = self.fitting_member(trial);
        }
        (member, false)
    }

    /// Meets an order that waits in the trial run, if any does.
    pub(super) fn fitting_member(&mut self, trial: &Engine) -> Member {
        let waiting = trial.waiting();
        let mut entry = self.entry();
        if !waiting.is_empty() {
            let order = waiting[self.random.index(waiting.len())];
            entry.security = order.security as u64;
            entry.side = match order.side {
                Side::Buy => Side::Sell,
                Side::Sell => Side::Buy,
            };
            entry.price = self.price(entry.side, entry.security);
            if let WaitingKind::Kept(price) = order.kind {
                entry.price = price;
            }
        }
        let fitting = self.fitting(trial, &entry).clamp(1, LOTS_LIMIT);
        let part = self.random.within(1, fitting.min(20));
        Member {
            side: entry.side,
            security: entry.security,
            price: entry.price,
            lots: self.random.pick(&[fitting, part, part]),
        }
    }
}
