//! Positions: what orders need, block and unblock, and what trades move.

use super::{Engine, Position, NO_NOMINAL};
use crate::calls::{Side, Trade, WaitingKind, WaitingOrder};

/// The rate at which a fee would be the whole sum.
const WHOLE_RATE: u64 = 100_000;

/// The price at which a piece costs its nominal.
const WHOLE_PRICE: u64 = 10_000;

impl Engine {
    pub(super) fn currency(&self, security: usize) -> usize {
        self.market.securities[security].currency as usize
    }

    pub(super) fn pieces_in(&self, security: usize, lots: u64) -> u64 {
        lots * self.market.securities[security].lot_size
    }

    /// What so many lots cost at a price. By a nominal the sum of all lots is
    /// rounded down, once.
    pub fn sum(&self, security: usize, price: u64, lots: u64) -> u64 {
        let value = price * self.pieces_in(security, lots);
        match self.market.securities[security].nominal {
            NO_NOMINAL => value,
            nominal => value * nominal / WHOLE_PRICE,
        }
    }

    /// What each side of a trade of this sum pays.
    fn fee(&self, sum: u64) -> u64 {
        self.market.rate * sum / WHOLE_RATE
    }

    /// What a buy of so many lots needs: their sum, and the fee on that sum as
    /// a whole.
    pub fn buy_need(&self, security: usize, price: u64, lots: u64) -> u64 {
        let sum = self.sum(security, price, lots);
        sum + self.fee(sum)
    }

    /// What an order's remaining lots need blocked.
    pub(super) fn need(&self, order: &WaitingOrder) -> u64 {
        match order.side {
            Side::Buy => self.buy_need(order.security, self.own_price(order), order.lots),
            Side::Sell => self.pieces_in(order.security, order.lots),
        }
    }

    pub(super) fn own_price(&self, order: &WaitingOrder) -> u64 {
        match order.kind {
            WaitingKind::Kept(price) => price,
            WaitingKind::Closing => self.state.traded[order.security].closing_price(),
            WaitingKind::Offer(terms) => terms.price,
        }
    }

    fn position(&mut self, order: &WaitingOrder) -> &mut Position {
        match order.side {
            Side::Buy => {
                let currency = self.currency(order.security);
                &mut self.state.money[order.participant][currency]
            }
            Side::Sell => &mut self.state.pieces[order.participant][order.security],
        }
    }

    pub(super) fn block(&mut self, order: &WaitingOrder) {
        let need = self.need(order);
        let position = self.position(order);
        position.free -= need;
        position.blocked += need;
    }

    pub(super) fn unblock(&mut self, order: &WaitingOrder) {
        let need = self.need(order);
        let position = self.position(order);
        position.blocked -= need;
        position.free += need;
    }

    /// Moves money and pieces of one trade between orders as they stood before
    /// it. The buyer's blocked money falls by the fall in what his order needs;
    /// what sum and fee don't take of it becomes free again.
    pub(super) fn settle(
        &mut self,
        buy: &WaitingOrder,
        sell: &WaitingOrder,
        price: u64,
        lots: u64,
    ) -> Trade {
        let security = buy.security;
        let currency = self.currency(security);
        let pieces = self.pieces_in(security, lots);
        let sum = self.sum(security, price, lots);
        let fee = self.fee(sum);
        let rest = WaitingOrder {
            lots: buy.lots - lots,
            ..*buy
        };
        let unblocked = self.need(buy) - self.need(&rest);
        let state = &mut self.state;
        let buyer_money = &mut state.money[buy.participant][currency];
        buyer_money.blocked -= unblocked;
        buyer_money.free += unblocked - (sum + fee);
        state.money[sell.participant][currency].free += sum - fee;
        state.account[currency] += 2 * fee;
        state.pieces[sell.participant][security].blocked -= pieces;
        state.pieces[buy.participant][security].free += pieces;
        Trade {
            buy_code: buy.code,
            sell_code: sell.code,
            buyer: buy.participant as u64,
            seller: sell.participant as u64,
            security: security as u64,
            price,
            lots,
            sum,
        }
    }
}
