//! What the ends of collecting and of the closing session share: buys and sells
//! that wait are paired at one price, then all orders come off.

use super::Engine;
use crate::calls::{Done, Side, Trade, WaitingOrder};

/// The answer of an end whose trades these are.
pub(super) fn all_paired(written: &[Trade]) -> Done {
    Done {
        filled: written.iter().map(|trade| trade.lots).sum(),
        trades: written.len() as u64,
        ..Done::default()
    }
}

impl Engine {
    /// Places of the orders that wait on one side of a security, oldest first.
    pub(super) fn places(&self, side: Side, security: usize) -> Vec<usize> {
        let waits = |order: &WaitingOrder| order.side == side && order.security == security;
        let waiting = self.state.waiting.iter().enumerate();
        let of_side = waiting.filter(|(_, order)| waits(order));
        of_side.map(|(place, _)| place).collect()
    }

    /// The first buy with the first sell, the smaller count of lots each time,
    /// until one side is used up. Orders without lots left stay in their
    /// places, since the end takes them off with the rest.
    pub(super) fn pair(
        &mut self,
        mut buys: &[usize],
        mut sells: &[usize],
        price: u64,
        trades: &mut Vec<Trade>,
    ) {
        while let ([buy, later_buys @ ..], [sell, later_sells @ ..]) = (buys, sells) {
            let (buy_order, sell_order) = (self.state.waiting[*buy], self.state.waiting[*sell]);
            let lots = buy_order.lots.min(sell_order.lots);
            trades.push(self.settle(&buy_order, &sell_order, price, lots));
            self.state.waiting[*buy].lots -= lots;
            self.state.waiting[*sell].lots -= lots;
            if lots == buy_order.lots {
                buys = later_buys;
            }
            if lots == sell_order.lots {
                sells = later_sells;
            }
        }
    }

    pub(super) fn take_all_off(&mut self) {
        for place in 0..self.state.waiting.len() {
            let order = self.state.waiting[place];
            self.unblock(&order);
        }
        self.state.waiting.clear();
    }
}
