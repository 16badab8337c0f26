//! Orders whose lots together are more than sixteen bits hold.

use super::day::Day;
use crate::calls::{Call, Entry, EntryKind, Member, Side};
use crate::engine::LOTS_LIMIT;

fn counter(side: Side) -> Side {
    match side {
        Side::Buy => Side::Sell,
        Side::Sell => Side::Buy,
    }
}

impl Day {
    /// Seven kept orders of the most lots or eight, at a price that hardly meets
    /// one that waits, and then what they fill: an order of kind A, or a group.
    pub(super) fn write_wall(&mut self) {
        let mut entry = self.entry();
        entry.kind = EntryKind::Kept;
        entry.lots = LOTS_LIMIT;
        entry.price = self.furthest_price(counter(entry.side), entry.security);
        let count = self.random.within(7, 8);
        for _ in 0..count {
            entry.participant = self.participant();
            self.add(Call::Enter(entry));
        }
        entry.participant = self.participant();
        entry.side = counter(entry.side);
        entry.lots = self.random.pick(&[LOTS_LIMIT, LOTS_LIMIT, LOTS_LIMIT - 1]);
        entry.kind = EntryKind::FillOrKill;
        if self.random.chance(50) {
            self.add(Call::Enter(entry));
        } else {
            self.add(group_of(&entry, count));
        }
    }
}

/// That many members, each of them this order.
fn group_of(entry: &Entry, count: u64) -> Call {
    let member = Member {
        side: entry.side,
        security: entry.security,
        price: entry.price,
        lots: entry.lots,
    };
    Call::Group {
        participant: entry.participant,
        members: vec![member; count as usize],
    }
}
