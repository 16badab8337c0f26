//! What sixteen bits, in which the engine keeps a waiting order's lots, would
//! leave of a number that doesn't fit them. The model keeps none so.

use crate::engine::LOTS_LIMIT;

/// One more than they hold.
pub const SIXTEEN_BITS: u64 = 1 << 16;

/// Out of range, though what is left of them isn't.
pub fn cut_to_good(lots: u64) -> bool {
    lots >= SIXTEEN_BITS && (1..=LOTS_LIMIT).contains(&(lots % SIXTEEN_BITS))
}
