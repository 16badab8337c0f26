//! Continuous trading: matching of an entry with the waiting orders.

use super::{Engine, PRICE_LIMIT};
use crate::calls::{
    Answer, Done, Entry, EntryKind, Member, Phase, Refused, Side, Trade, WaitingKind, WaitingOrder,
};

/// A waiting order's price as the entry sees it: the lower, the better, and it
/// fits where it is at most that of the entry's own price.
fn cost(entry_side: Side, price: u64) -> u64 {
    match entry_side {
        Side::Buy => price,
        Side::Sell => PRICE_LIMIT - price,
    }
}

impl Engine {
    /// While collecting the order only waits.
    pub(super) fn admit(&mut self, entry: &Entry, trades: &mut Vec<Trade>) -> Answer {
        let mut order = self.question_entry(entry)?;
        self.block(&order);
        self.give_code(&order);
        let earlier_trades = trades.len();
        if self.state.phase == Phase::Open {
            self.match_order(&mut order, entry.price, trades);
        }
        let filled = entry.lots - order.lots;
        let mut left = 0;
        if order.lots > 0 && entry.kind == EntryKind::Kept {
            left = order.lots;
            self.state.waiting.push(order);
        } else if order.lots > 0 {
            self.unblock(&order);
        }
        Ok(Done {
            code: order.code,
            filled,
            left,
            trades: (trades.len() - earlier_trades) as u64,
        })
    }

    /// Members in list order, each on the state its predecessor left. The first
    /// member's code is the group's.
    pub(super) fn admit_members(
        &mut self,
        participant: u64,
        members: &[Member],
        trades: &mut Vec<Trade>,
    ) -> Answer {
        let mut sum = Done::default();
        for (place, member) in (1..).zip(members) {
            let entry = Entry {
                participant,
                side: member.side,
                security: member.security,
                price: member.price,
                lots: member.lots,
                kind: EntryKind::FillOrKill,
            };
            let done = self
                .admit(&entry, trades)
                .map_err(|refused| Refused { place, ..refused })?;
            if place == 1 {
                sum.code = done.code;
            }
            sum.filled += done.filled;
            sum.trades += done.trades;
        }
        Ok(sum)
    }

    fn match_order(&mut self, order: &mut WaitingOrder, price: u64, trades: &mut Vec<Trade>) {
        while order.lots > 0 {
            let Some((place, waiting_price)) = self.best_counter(order.side, order.security, price)
            else {
                break;
            };
            let counter = self.state.waiting[place];
            let lots = order.lots.min(counter.lots);
            let trade = match order.side {
                Side::Buy => self.settle(order, &counter, waiting_price, lots),
                Side::Sell => self.settle(&counter, order, waiting_price, lots),
            };
            self.count(order.security, waiting_price, lots);
            trades.push(trade);
            order.lots -= lots;
            self.take_lots(place, lots);
        }
    }

    /// T goes by the price, whether or not the sum goes by a nominal too.
    fn count(&mut self, security: usize, price: u64, lots: u64) {
        let pieces = self.pieces_in(security, lots);
        let traded = &mut self.state.traded[security];
        traded.pieces += pieces;
        traded.turnover += price * pieces;
    }

    fn take_lots(&mut self, place: usize, lots: u64) {
        let order = &mut self.state.waiting[place];
        order.lots -= lots;
        if order.lots == 0 {
            self.state.waiting.remove(place);
        }
    }

    /// Place and price of the best fitting counter order. Of equal prices the
    /// first is taken, which arrived earliest.
    fn best_counter(&self, side: Side, security: usize, price: u64) -> Option<(usize, u64)> {
        let mut best = None;
        let mut bound = cost(side, price) + 1;
        for (place, order) in self.state.waiting.iter().enumerate() {
            let WaitingKind::Kept(waiting_price) = order.kind else {
                continue;
            };
            let cost = cost(side, waiting_price);
            if cost < bound && order.security == security && order.side != side {
                bound = cost;
                best = Some((place, waiting_price));
            }
        }
        best
    }

    pub fn fitting_lots(&self, side: Side, security: usize, price: u64) -> u64 {
        let bound = cost(side, price);
        let fits = |order: &&WaitingOrder| match order.kind {
            WaitingKind::Kept(waiting_price) => {
                cost(side, waiting_price) <= bound
                    && order.security == security
                    && order.side != side
            }
            WaitingKind::Closing | WaitingKind::Offer(_) => false,
        };
        let counters = self.state.waiting.iter().filter(fits);
        counters.map(|order| order.lots).sum()
    }
}
