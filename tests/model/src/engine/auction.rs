//! The auction that ends collecting: each security's price, and the pairing of
//! the orders that reach it. No offer waits then: it enters only while open, and
//! once it has a code, collecting doesn't start.

use std::cmp::Reverse;

use super::Engine;
use crate::calls::{Side, Trade, WaitingOrder};

/// Lots wanted by the buys and offered by the sells that reach a price.
#[derive(Clone, Copy)]
struct Interest {
    wanted: u64,
    offered: u64,
}

impl Interest {
    fn traded(self) -> u64 {
        self.wanted.min(self.offered)
    }

    fn gap(self) -> u64 {
        self.wanted.abs_diff(self.offered)
    }
}

impl Engine {
    /// Of the prices written on a security's orders, the one at which most lots
    /// trade; among equals the one with the smaller gap between lots wanted and
    /// offered, then the lower. None where no buy reaches a sell.
    pub fn auction_price(&self, security: usize) -> Option<u64> {
        let orders = self.orders_in(security);
        let prices = orders.map(|order| self.own_price(order));
        prices
            .map(|price| (price, self.interest(security, price)))
            .filter(|(_, interest)| interest.traded() > 0)
            .max_by_key(|(price, interest)| {
                let (least_gap, lowest) = (Reverse(interest.gap()), Reverse(*price));
                (interest.traded(), least_gap, lowest)
            })
            .map(|(price, _)| price)
    }

    fn orders_in(&self, security: usize) -> impl Iterator<Item = &WaitingOrder> {
        let waiting = self.state.waiting.iter();
        waiting.filter(move |order| order.security == security)
    }

    fn interest(&self, security: usize, price: u64) -> Interest {
        let lots_reaching = |side: Side| {
            let of_side = self.orders_in(security).filter(|order| order.side == side);
            let reaching = of_side.filter(|order| self.reaches(order, price));
            reaching.map(|order| order.lots).sum()
        };
        Interest {
            wanted: lots_reaching(Side::Buy),
            offered: lots_reaching(Side::Sell),
        }
    }

    /// A buy at or above the price, a sell at or below it.
    fn reaches(&self, order: &WaitingOrder, price: u64) -> bool {
        match order.side {
            Side::Buy => self.own_price(order) >= price,
            Side::Sell => self.own_price(order) <= price,
        }
    }

    /// Dearest buy with cheapest sell, of equal prices the earlier arrival, as
    /// long as both reach the auction's price. Sorting keeps the order of equals.
    pub(super) fn pair_auction(&mut self, security: usize, trades: &mut Vec<Trade>) {
        let Some(price) = self.auction_price(security) else {
            return;
        };
        let mut buys = self.places_reaching(Side::Buy, security, price);
        let mut sells = self.places_reaching(Side::Sell, security, price);
        buys.sort_by_key(|&place| Reverse(self.own_price(&self.state.waiting[place])));
        sells.sort_by_key(|&place| self.own_price(&self.state.waiting[place]));
        self.pair(&buys, &sells, price, trades);
    }

    fn places_reaching(&self, side: Side, security: usize, price: u64) -> Vec<usize> {
        let mut places = self.places(side, security);
        places.retain(|&place| self.reaches(&self.state.waiting[place], price));
        places
    }
}
