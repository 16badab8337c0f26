//! Question 1: is the state sound? Asked over the known places only; places
//! past the counts aren't read.

use std::mem::replace;

use super::calendar::LAST_DAY;
use super::questions::term_allowed;
use super::{
    line_in_range, nominal_allowed, price_allowed, Engine, Position, CODE_LIMIT, CURRENCY_LIMIT,
    DEAL_LIMIT, DEAL_RATE_LIMIT, FIRST_SUM_LIMIT, LOTS_LIMIT, MONEY_LIMIT, PARTICIPANT_LIMIT,
    PIECES_LIMIT, PRICE_LIMIT, RATE_LIMIT, SECURITY_LIMIT, TERMS, WAITING_LIMIT,
};
use crate::calls::{Deal, Phase, Side, Terms, WaitingKind, WaitingOrder};

/// Most pieces that one code's order can trade: 10,000 lots of 1,000.
const PIECES_PER_CODE: u64 = 10_000_000;

struct Needs {
    money: [[u64; CURRENCY_LIMIT]; PARTICIPANT_LIMIT],
    pieces: [[u64; SECURITY_LIMIT]; PARTICIPANT_LIMIT],
}

impl Engine {
    /// Each test keeps the numbers of the later ones small enough to reckon
    /// with, so their order matters.
    pub fn is_sound(&self) -> bool {
        self.market_sound()
            && self.codes_sound()
            && self.traded_sound()
            && self.orders_sound()
            && self.deals_sound()
            && self.positions_sound()
    }

    fn market_sound(&self) -> bool {
        let market = &self.market;
        (1..=PARTICIPANT_LIMIT).contains(&market.participants)
            && (1..=CURRENCY_LIMIT).contains(&market.currencies)
            && (1..=SECURITY_LIMIT).contains(&market.securities.len())
            && market
                .securities
                .iter()
                .all(|line| line_in_range(line, market.currencies) && nominal_allowed(line))
            && market.rate <= RATE_LIMIT
    }

    fn codes_sound(&self) -> bool {
        let known = &self.state.codes_given[..self.market.participants];
        known.iter().all(|codes| *codes <= CODE_LIMIT)
    }

    fn traded_sound(&self) -> bool {
        let most_pieces = PIECES_PER_CODE * self.all_codes_given();
        let known = &self.state.traded[..self.market.securities.len()];
        known.iter().all(|traded| {
            traded.pieces <= most_pieces
                && traded.turnover >= traded.pieces
                && traded.turnover <= PRICE_LIMIT * traded.pieces
        })
    }

    /// By rising arrival, and so that each participant's codes rise too.
    fn orders_sound(&self) -> bool {
        let mut last_arrival = 0;
        let mut last_codes = [0; PARTICIPANT_LIMIT];
        self.state.waiting.len() <= WAITING_LIMIT
            && self.state.waiting.iter().all(|order| {
                let rising = order.arrival > last_arrival;
                last_arrival = order.arrival;
                rising
                    && self.order_sound(order)
                    && order.code > replace(&mut last_codes[order.participant], order.code)
            })
    }

    fn order_sound(&self, order: &WaitingOrder) -> bool {
        order.participant < self.market.participants
            && order.code <= self.state.codes_given[order.participant]
            && order.arrival <= self.all_codes_given()
            && order.security < self.market.securities.len()
            && (1..=LOTS_LIMIT).contains(&order.lots)
            && self.kind_sound(order)
    }

    fn kind_sound(&self, order: &WaitingOrder) -> bool {
        match order.kind {
            WaitingKind::Kept(price) => {
                matches!(self.state.phase, Phase::Open | Phase::Collecting)
                    && price_allowed(&self.market.securities[order.security], price)
            }
            WaitingKind::Closing => {
                self.state.phase == Phase::Closing && self.state.traded[order.security].pieces > 0
            }
            WaitingKind::Offer(terms) => {
                self.state.phase == Phase::Open && self.terms_sound(order.security, terms)
            }
        }
    }

    /// Nothing of the date and the first sum: when an offer is met, they are
    /// those of the entry, which was asked.
    fn terms_sound(&self, security: usize, terms: Terms) -> bool {
        price_allowed(&self.market.securities[security], terms.price)
            && terms.rate <= DEAL_RATE_LIMIT
            && TERMS.contains(&terms.term)
    }

    /// The oldest first, so that first days don't fall.
    fn deals_sound(&self) -> bool {
        let mut earlier_day = 0;
        self.state.date <= LAST_DAY
            && self.state.deals.len() <= DEAL_LIMIT
            && self.state.deals.iter().all(|deal| {
                let in_order = deal.first_day >= earlier_day;
                earlier_day = deal.first_day;
                in_order && self.deal_sound(deal)
            })
    }

    fn deal_sound(&self, deal: &Deal) -> bool {
        deal.buyer < self.market.participants
            && deal.seller < self.market.participants
            && deal.security < self.market.securities.len()
            && (1..=LOTS_LIMIT).contains(&deal.lots)
            && self.terms_sound(deal.security, deal.terms)
            && deal.first_day <= self.state.date
            && term_allowed(deal.first_day, deal.terms.term)
            && self.sum(deal.security, deal.terms.price, deal.lots) <= FIRST_SUM_LIMIT
    }

    fn positions_sound(&self) -> bool {
        let needs = self.needs();
        (0..self.market.currencies).all(|currency| self.money_sound(currency, &needs))
            && (0..self.market.securities.len()).all(|security| self.pieces_sound(security, &needs))
    }

    fn needs(&self) -> Needs {
        let mut needs = Needs {
            money: Default::default(),
            pieces: Default::default(),
        };
        for order in &self.state.waiting {
            let need = match order.side {
                Side::Buy => &mut needs.money[order.participant][self.currency(order.security)],
                Side::Sell => &mut needs.pieces[order.participant][order.security],
            };
            *need += self.need(order);
        }
        needs
    }

    /// The total begins with the market's account.
    fn money_sound(&self, currency: usize, needs: &Needs) -> bool {
        let mut total = self.state.account[currency];
        total <= MONEY_LIMIT
            && (0..self.market.participants).all(|participant| {
                let position = self.state.money[participant][currency];
                let need = needs.money[participant][currency];
                position_sound(position, need, MONEY_LIMIT, &mut total)
            })
    }

    fn pieces_sound(&self, security: usize, needs: &Needs) -> bool {
        let mut total = 0;
        (0..self.market.participants).all(|participant| {
            let position = self.state.pieces[participant][security];
            let need = needs.pieces[participant][security];
            position_sound(position, need, PIECES_LIMIT, &mut total)
        })
    }
}

/// Bounds each amount before adding it, so that no sum overflows.
fn position_sound(position: Position, need: u64, limit: u64, total: &mut u64) -> bool {
    if position.blocked != need || position.free > limit || position.blocked > limit {
        return false;
    }
    *total += position.free + position.blocked;
    *total <= limit
}

#[cfg(test)]
mod tests;
