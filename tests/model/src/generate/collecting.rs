//! The collecting phase that a script may begin with.

use super::day::{highest_steps, Day};
use super::NEVER;
use crate::calls::{Call, Entry, EntryKind, Phase, Side};
use crate::engine::{LOTS_LIMIT, PRICE_LIMIT};

/// How the kept orders of a collecting phase are drawn, and how long it lasts:
/// up to a length of the text or a number of waiting orders. Few prices and
/// few lots bring ties about; eager orders meet all eager ones of the other
/// side.
#[derive(Clone, Copy, Default)]
pub(super) struct Collecting {
    ends_at: usize,
    most_orders: usize,
    prices: u64,
    most_lots: u64,
    eager_percent: u64,
}

/// So many orders, and so eager, that large lots are more than sixteen bits hold.
fn large(collecting: Collecting) -> Collecting {
    Collecting {
        most_orders: collecting.most_orders.max(30),
        most_lots: LOTS_LIMIT,
        eager_percent: collecting.eager_percent.max(50),
        ..collecting
    }
}

impl Day {
    /// At times begins collecting, or tries to where a code has been given.
    /// Days that plan none take no random number here.
    pub(super) fn begin_collecting(&mut self, percent: u64) {
        let is_open = self.engine.phase() == Phase::Open;
        if percent == 0 || !is_open || !self.random.chance(percent) {
            return;
        }
        match self.random.below(12) {
            0 => self.write_used_code(),
            1 => self.write_empty_auction(),
            _ => {}
        }
        self.collecting = self.any_collecting();
        if self.plan.large_percent > 0 {
            self.collecting = large(self.collecting);
        }
        self.add(Call::StartCollecting);
    }

    /// Mostly leaves a good part of the day, or of what comes before closing,
    /// to continuous trading; some never end.
    fn any_collecting(&mut self) -> Collecting {
        let length = self.text.len();
        let end = self.plan.length.min(self.plan.closing_at);
        let room = end.saturating_sub(length) * 2 / 3;
        let (early, late) = (length + self.random.index(room + 1), length + room);
        let securities = self.engine.securities().len();
        let few_each = securities * self.random.pick(&[2, 3, 4, 5, 6]);
        Collecting {
            ends_at: self.random.pick(&[early, early, late, late, late, NEVER]),
            most_orders: self.random.pick(&[few_each, few_each, 20, 128, NEVER]),
            prices: self.random.pick(&[2, 3, 4, 6, 9, 15, 60, PRICE_LIMIT]),
            most_lots: self.random.pick(&[1, 2, 3, 5, 20]),
            eager_percent: self.random.pick(&[0, 0, 0, 50, 100]),
        }
    }

    pub(super) fn collected(&self) -> bool {
        let Collecting {
            ends_at,
            most_orders,
            ..
        } = self.collecting;
        self.text.len() >= ends_at || self.engine.waiting().len() >= most_orders
    }

    /// A code whose order was dropped or, mostly, cancelled.
    fn write_used_code(&mut self) {
        let mut entry = self.entry();
        entry.kind = self.random.pick(&[EntryKind::Kept, EntryKind::Immediate]);
        self.add(Call::Enter(entry));
        if entry.kind == EntryKind::Kept && self.random.chance(90) {
            self.add(Call::Cancel {
                participant: entry.participant,
                code: 1,
            });
        }
    }

    /// An auction that nobody entered; another may follow.
    fn write_empty_auction(&mut self) {
        self.add(Call::StartCollecting);
        for _ in 0..self.random.below(3) {
            self.write_unfit();
        }
        self.add(Call::EndCollecting);
    }

    pub(super) fn write_collecting(&mut self) {
        let plan = self.plan;
        let weights = [
            plan.orders * 2,
            plan.cancels,
            plan.movements,
            plan.squeezes,
            plan.spoiled,
            6,
            plan.second_parts * 2,
            plan.second_parts / 2,
        ];
        match self.weighted(&weights) {
            0 => {
                let entry = self.collected_entry();
                self.add(Call::Enter(entry));
            }
            1 => self.write_cancel(),
            2 => self.write_movement(),
            3 => self.write_squeeze(),
            4 => self.write_spoiled(),
            5 => self.write_unfit(),
            6 => self.write_second_part(),
            _ => self.write_tight_second_part(),
        }
    }

    fn collected_entry(&mut self) -> Entry {
        let side = self.side();
        let security = self.security();
        let lots = self.lots();
        let few_lots = self.random.within(1, self.collecting.most_lots);
        let any_percent = self.plan.large_percent.max(3);
        Entry {
            participant: self.participant(),
            side,
            security,
            price: self.collected_price(side, security),
            lots: if self.random.chance(any_percent) {
                lots
            } else {
                few_lots
            },
            kind: EntryKind::Kept,
        }
    }

    /// One of the few prices from the base on; an eager buy's is of the upper
    /// half, an eager sell's of the lower.
    fn collected_price(&mut self, side: Side, security: u64) -> u64 {
        let line = self.engine.securities()[security as usize];
        let base = self.base_steps[security as usize];
        let prices = (highest_steps(&line) - base + 1).min(self.collecting.prices);
        let eager = self.random.chance(self.collecting.eager_percent);
        let steps = match side {
            _ if !eager => self.random.below(prices),
            Side::Buy => prices - 1 - self.random.below(prices.div_ceil(2)),
            Side::Sell => self.random.below(prices.div_ceil(2)),
        };
        (base + steps) * line.price_step
    }

    /// What the phase doesn't admit.
    fn write_unfit(&mut self) {
        match self.random.below(10) {
            0..=1 => {
                let mut entry = self.entry();
                entry.kind = self
                    .random
                    .pick(&[EntryKind::Immediate, EntryKind::FillOrKill]);
                self.add(Call::Enter(entry));
            }
            2 => self.write_group(),
            3 => {
                let entry = self.closing_entry();
                self.add(Call::EnterClosing(entry));
            }
            4 => self.add(Call::StartClosing),
            5 => self.add(Call::EndSession),
            6..=7 => self.write_offer(),
            8 => self.write_unfit_day(),
            _ => self.add(Call::StartCollecting),
        }
    }

    /// Of the calls that begin and end collecting, one in any phase.
    pub(super) fn write_phase_call(&mut self) {
        let call = if self.random.chance(60) {
            Call::StartCollecting
        } else {
            Call::EndCollecting
        };
        self.add(call);
    }
}
