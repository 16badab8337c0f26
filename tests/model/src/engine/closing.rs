//! Closing session: pairing of the closing orders.

use super::Engine;
use crate::calls::{Side, Trade};

impl Engine {
    /// Oldest buy with oldest sell until one side is used up.
    pub(super) fn pair_closing(&mut self, security: usize, trades: &mut Vec<Trade>) {
        let price = self.state.traded[security].closing_price();
        let buys = self.places(Side::Buy, security);
        let sells = self.places(Side::Sell, security);
        self.pair(&buys, &sells, price, trades);
    }
}
