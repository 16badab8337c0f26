//! Lots of waiting orders, as the book has them.

use super::{Book, BookedOrder};
use crate::calls::{Entry, Side, WaitingKind};

impl Book {
    /// Of the orders that the entry meets, all of them added up.
    pub fn fitting_lots(&self, entry: &Entry) -> u64 {
        let fits = |price: u64| match entry.side {
            Side::Buy => price <= entry.price,
            Side::Sell => price >= entry.price,
        };
        let meets = |order: &&BookedOrder| {
            order.side != entry.side
                && order.security as u64 == entry.security
                && matches!(order.kind, WaitingKind::Kept(price) if fits(price))
        };
        let met = self.waiting.iter().filter(meets);
        met.map(|order| order.lots).sum()
    }

    /// What is left of the order, where it waits.
    pub fn lots_left(&self, side: Side, participant: u64, code: u64) -> Option<u64> {
        let named = |order: &&BookedOrder| {
            order.side == side && order.participant as u64 == participant && order.code == code
        };
        self.waiting.iter().find(named).map(|order| order.lots)
    }
}
