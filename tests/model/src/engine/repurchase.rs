//! Repurchase deals: offers and their first part, the second part, a new day.

use super::calendar::{days_by_year, LAST_DAY};
use super::{ensure, Engine};
use crate::calls::{
    refusal, refused, Answer, Deal, Done, Offer, Phase, Side, Trade, WaitingKind, WaitingOrder,
};

/// The weights that bring days of both kinds of year to a common year, and that
/// year in hundredths of a percent.
const SHORT_DAY_WEIGHT: u64 = 366;
const LONG_DAY_WEIGHT: u64 = 365;
const WHOLE_YEAR: u128 = 365 * 366 * 10_000;

/// The nearest unit, a half going up.
fn nearest(numerator: u128, denominator: u128) -> u128 {
    (2 * numerator + denominator) / (2 * denominator)
}

/// What the first seller pays back of the first sum, the interest in it, which
/// runs to the due day however late the second part comes.
pub fn second_sum(first_sum: u64, deal: &Deal) -> u64 {
    let (short_days, long_days) = days_by_year(deal.first_day, deal.due_day());
    let days = SHORT_DAY_WEIGHT * short_days + LONG_DAY_WEIGHT * long_days;
    let interest = u128::from(first_sum) * u128::from(deal.terms.rate) * u128::from(days);
    first_sum + nearest(interest, WHOLE_YEAR) as u64
}

impl Engine {
    /// A deal's first sum and second sum.
    pub fn sums(&self, deal: &Deal) -> (u64, u64) {
        let first_sum = self.sum(deal.security, deal.terms.price, deal.lots);
        (first_sum, second_sum(first_sum, deal))
    }

    /// Waits, unless a counter offer waits with all named numbers equal.
    pub fn enter_offer(&mut self, offer: &Offer, trades: &mut Vec<Trade>) -> Answer {
        self.ask_soundness()?;
        let order = self.question_offer(offer)?;
        self.block(&order);
        self.give_code(&order);
        let (filled, left) = match self.counter_offer(&order) {
            Some(place) => {
                let counter = self.state.waiting.remove(place);
                trades.push(self.settle_first_part(offer, &order, &counter));
                (order.lots, 0)
            }
            None => {
                self.state.waiting.push(order);
                (0, order.lots)
            }
        };
        Ok(Done {
            code: order.code,
            filled,
            left,
            trades: u64::from(filled > 0),
        })
    }

    /// Place of the oldest counter offer, which stands first.
    fn counter_offer(&self, order: &WaitingOrder) -> Option<usize> {
        self.state.waiting.iter().position(|counter| {
            counter.side != order.side
                && counter.security == order.security
                && counter.lots == order.lots
                && matches!(counter.kind, WaitingKind::Offer(_))
                && counter.kind == order.kind
        })
    }

    /// A trade outside Q and T, and the newest deal.
    fn settle_first_part(
        &mut self,
        offer: &Offer,
        order: &WaitingOrder,
        counter: &WaitingOrder,
    ) -> Trade {
        let (buy, sell) = match order.side {
            Side::Buy => (order, counter),
            Side::Sell => (counter, order),
        };
        self.state.deals.push(Deal {
            buyer: buy.participant,
            seller: sell.participant,
            security: order.security,
            lots: order.lots,
            terms: offer.terms,
            first_day: self.state.date,
        });
        self.settle(buy, sell, offer.terms.price, order.lots)
    }

    /// Each side needs its own amount free, also where both are one
    /// participant.
    pub fn second_part(&mut self, place: u64) -> Answer {
        self.ask_soundness()?;
        let (index, deal) = self
            .open_deal(place)
            .ok_or(refused(refusal::NO_SUCH_ORDER))?;
        ensure(self.state.date >= deal.due_day(), refusal::DATE)?;
        let pieces = self.pieces_in(deal.security, deal.lots);
        let (_, sum) = self.sums(&deal);
        let currency = self.currency(deal.security);
        let state = &mut self.state;
        let covered = state.pieces[deal.buyer][deal.security].free >= pieces
            && state.money[deal.seller][currency].free >= sum;
        ensure(covered, refusal::FREE_FOR_ORDER)?;
        state.pieces[deal.buyer][deal.security].free -= pieces;
        state.pieces[deal.seller][deal.security].free += pieces;
        state.money[deal.seller][currency].free -= sum;
        state.money[deal.buyer][currency].free += sum;
        state.deals.remove(index);
        Ok(Done::default())
    }

    fn open_deal(&self, place: u64) -> Option<(usize, Deal)> {
        let index = usize::try_from(place.checked_sub(1)?).ok()?;
        self.state.deals.get(index).map(|deal| (index, *deal))
    }

    /// Open deals stay, due or not, and positions; nothing waits once closed. All
    /// codes begin anew, and arrivals with them.
    pub fn new_day(&mut self, date: u64) -> Answer {
        self.ask_soundness()?;
        ensure(self.state.phase == Phase::Closed, refusal::PHASE)?;
        let later = date > self.state.date && date <= LAST_DAY;
        ensure(later, refusal::DATE)?;
        self.state.date = date;
        self.state.phase = Phase::Open;
        self.state.traded = Default::default();
        self.state.codes_given = Default::default();
        Ok(Done::default())
    }
}
