//! Sensible orders, cancels and movements, some of them aimed at exact amounts.

use super::day::{highest_steps, Day};
use crate::calls::{Call, ClosingEntry, Entry, EntryKind, Movement, Side};
use crate::engine::{Engine, LOTS_LIMIT, MONEY_LIMIT, PIECES_LIMIT};

/// How far prices lie from their base.
const FURTHEST_STEPS: u64 = 4;

/// Seven of them are more than sixteen bits hold; the last leaves one lot of the
/// others.
const LARGE_LOTS: [u64; 4] = [LOTS_LIMIT, LOTS_LIMIT, LOTS_LIMIT, LOTS_LIMIT - 1];

/// What an order is asked for: the free amount, and what is to be blocked.
pub(super) fn free_and_need(engine: &Engine, entry: &Entry) -> (u64, u64) {
    let participant = entry.participant as usize;
    let security = entry.security as usize;
    let line = engine.securities()[security];
    match entry.side {
        Side::Buy => {
            let position = engine.money(participant, line.currency as usize);
            let need = engine.buy_need(security, entry.price, entry.lots);
            (position.free, need)
        }
        Side::Sell => {
            let position = engine.pieces(participant, security);
            (position.free, entry.lots * line.lot_size)
        }
    }
}

impl Day {
    pub(super) fn participant(&mut self) -> u64 {
        self.random.below(self.engine.participants() as u64)
    }

    pub(super) fn security(&mut self) -> u64 {
        self.random.below(self.engine.securities().len() as u64)
    }

    pub(super) fn side(&mut self) -> Side {
        if self.random.chance(self.plan.buy_percent) {
            Side::Buy
        } else {
            Side::Sell
        }
    }

    pub(super) fn kind(&mut self) -> EntryKind {
        if self.random.chance(self.plan.kept_percent) {
            return EntryKind::Kept;
        }
        self.random
            .pick(&[EntryKind::Immediate, EntryKind::FillOrKill])
    }

    pub(super) fn lots(&mut self) -> u64 {
        if self.planned(self.plan.large_percent) {
            return self.random.pick(&LARGE_LOTS);
        }
        match self.random.below(50) {
            0 => LOTS_LIMIT,
            1 => self.random.within(1, LOTS_LIMIT),
            _ => self.random.within(1, 20),
        }
    }

    /// On the step, within a few steps of the base. Orders that aren't to
    /// cross keep to their own side of it.
    pub(super) fn price(&mut self, side: Side, security: u64) -> u64 {
        let line = self.engine.securities()[security as usize];
        let base = self.base_steps[security as usize];
        let crosses = self.random.chance(self.plan.crossing_percent);
        let rises = match side {
            _ if crosses => self.random.chance(50),
            Side::Buy => false,
            Side::Sell => true,
        };
        let distance = self.random.below(FURTHEST_STEPS);
        let steps = if rises {
            (base + 1 + distance).min(highest_steps(&line))
        } else {
            base.saturating_sub(distance).max(1)
        };
        steps * line.price_step
    }

    pub(super) fn entry(&mut self) -> Entry {
        let side = self.side();
        let security = self.security();
        Entry {
            participant: self.participant(),
            side,
            security,
            price: self.price(side, security),
            lots: self.lots(),
            kind: self.kind(),
        }
    }

    pub(super) fn write_order(&mut self) {
        let entry = self.entry();
        self.add(Call::Enter(entry));
    }

    /// As many lots as fit, or one more, at times from the whole other side.
    pub(super) fn write_exact_fill(&mut self) {
        let mut entry = self.entry();
        entry.side = self.random.pick(&[Side::Buy, Side::Sell]);
        entry.price = self.price(entry.side, entry.security);
        if self.random.chance(50) {
            entry.price = self.furthest_price(entry.side, entry.security);
        }
        let fitting = self.fitting(&self.engine, &entry);
        let lots = self.random.pick(&[fitting, fitting, fitting + 1]);
        entry.lots = lots.clamp(1, LOTS_LIMIT);
        if self.random.chance(70) {
            entry.kind = EntryKind::FillOrKill;
        }
        self.add(Call::Enter(entry));
    }

    /// A price that every waiting counter order fits.
    pub(super) fn furthest_price(&self, side: Side, security: u64) -> u64 {
        let line = self.engine.securities()[security as usize];
        let base = self.base_steps[security as usize];
        let steps = match side {
            Side::Buy => (base + FURTHEST_STEPS).min(highest_steps(&line)),
            Side::Sell => base.saturating_sub(FURTHEST_STEPS).max(1),
        };
        steps * line.price_step
    }

    pub(super) fn fitting(&self, engine: &Engine, entry: &Entry) -> u64 {
        engine.fitting_lots(entry.side, entry.security as usize, entry.price)
    }

    pub(super) fn write_squeeze(&mut self) {
        let entry = self.entry();
        let (free, need) = free_and_need(&self.engine, &entry);
        self.squeeze(&entry, free, need, Call::Enter(entry));
    }

    pub(super) fn write_tight_closing_order(&mut self) {
        let closing = self.closing_entry();
        let traded = self.engine.traded(closing.security as usize);
        let entry = Entry {
            participant: closing.participant,
            side: closing.side,
            security: closing.security,
            price: traded.closing_price(),
            lots: closing.lots,
            kind: EntryKind::Kept,
        };
        let (free, need) = free_and_need(&self.engine, &entry);
        self.squeeze(&entry, free, need, Call::EnterClosing(closing));
    }

    /// Takes the reserve down to what the order needs, or to one less, makes
    /// the call that enters it and mostly brings the reserve back.
    pub(super) fn squeeze(&mut self, entry: &Entry, free: u64, need: u64, call: Call) {
        let amount = (free + self.random.below(2)).saturating_sub(need);
        let line = self.engine.securities()[entry.security as usize];
        let movement = |asset| Movement {
            participant: entry.participant,
            asset,
            amount,
        };
        let money = movement(line.currency);
        let pieces = movement(entry.security);
        let (down, up) = match entry.side {
            Side::Buy => (Call::MoneyDown(money), Call::MoneyUp(money)),
            Side::Sell => (Call::PiecesDown(pieces), Call::PiecesUp(pieces)),
        };
        self.add(down);
        self.add(call);
        if self.random.chance(70) {
            self.add(up);
        }
    }

    pub(super) fn write_cancel(&mut self) {
        let call = self.cancel();
        self.add(call);
    }

    /// Mostly an order that waits; at times by the code of another participant,
    /// who may have one of his own with it, or any code of his from 0 to one past
    /// his last.
    pub(super) fn cancel(&mut self) -> Call {
        let participant = self.participant();
        let codes_given = self.engine.codes_given(participant as usize);
        let unknown = Call::Cancel {
            participant,
            code: self.random.within(0, codes_given + 1),
        };
        let waiting = self.engine.waiting();
        if waiting.is_empty() || self.random.chance(20) {
            return unknown;
        }
        let order = waiting[self.random.index(waiting.len())];
        let foreign = self.random.chance(25);
        Call::Cancel {
            participant: if foreign {
                participant
            } else {
                order.participant as u64
            },
            code: order.code,
        }
    }

    pub(super) fn write_movement(&mut self) {
        let call = self.movement();
        self.add(call);
    }

    /// Small amounts; down, at times the whole free amount or one more; up,
    /// at times the whole rest of the total or one more.
    pub(super) fn movement(&mut self) -> Call {
        let participant = self.participant();
        let of_money = self.random.chance(50);
        let up = self.random.chance(60);
        let asset = if of_money {
            self.random.below(self.engine.currencies() as u64)
        } else {
            self.security()
        };
        let (free, total, limit) = self.amounts(of_money, participant, asset);
        let most = if up { limit - total } else { free };
        let small = self.random.within(1, 1_000_000);
        let amount = self
            .random
            .pick(&[small, small, small, small, most, most + 1]);
        let movement = Movement {
            participant,
            asset,
            amount,
        };
        match (of_money, up) {
            (true, true) => Call::MoneyUp(movement),
            (true, false) => Call::MoneyDown(movement),
            (false, true) => Call::PiecesUp(movement),
            (false, false) => Call::PiecesDown(movement),
        }
    }

    /// A participant's free amount, the whole total, and its limit.
    pub(super) fn amounts(&self, of_money: bool, participant: u64, asset: u64) -> (u64, u64, u64) {
        let (participant, asset) = (participant as usize, asset as usize);
        let engine = &self.engine;
        if of_money {
            let free = engine.money(participant, asset).free;
            (free, engine.total_money(asset), MONEY_LIMIT)
        } else {
            let free = engine.pieces(participant, asset).free;
            (free, engine.total_pieces(asset), PIECES_LIMIT)
        }
    }

    /// Mostly in a security that has traded.
    pub(super) fn closing_entry(&mut self) -> ClosingEntry {
        let mut security = self.security();
        for _ in 0..3 {
            if self.engine.traded(security as usize).pieces == 0 {
                security = self.security();
            }
        }
        ClosingEntry {
            participant: self.participant(),
            side: self.side(),
            security,
            lots: self.lots(),
        }
    }
}
