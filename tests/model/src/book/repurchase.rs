//! The book's part in repurchase deals: offers and first parts, from which the
//! open deals come, second parts, new days.

use super::{expect, known, sum_of, Book, BookedOrder, BookedTrades, Checked};
use crate::calls::{Deal, Done, Offer, Phase, SecurityLine, Side, Trade, WaitingKind};

/// Days from 1 January 1970 to 31 December 2369.
const TABLE: u64 = 146_097;

const SHORT_YEAR: i128 = 365;
const LONG_YEAR: i128 = 366;

/// Hundredths of a percent in a whole rate.
const FULL_RATE: i128 = 10_000;

/// Every fourth year, but of full centuries only every fourth.
fn length_of(year: i128) -> i128 {
    match (year % 4, year % 100, year % 400) {
        (_, _, 0) => LONG_YEAR,
        (_, 0, _) => SHORT_YEAR,
        (0, _, _) => LONG_YEAR,
        _ => SHORT_YEAR,
    }
}

/// Days in years of 366, from the first day of 1970 to this one, both included,
/// by walking through the years.
fn long_days_up_to(day: u64) -> i128 {
    let mut rest = i128::from(day) + 1;
    let mut long_days = 0;
    let mut year = 1970;
    while rest > 0 {
        let length = length_of(year);
        if length == LONG_YEAR {
            long_days += rest.min(length);
        }
        rest -= length;
        year += 1;
    }
    long_days
}

/// To the first sum comes the interest, a half of a unit or more counting as one.
fn second_sum(first_sum: i128, deal: &Deal) -> i128 {
    let long_days = long_days_up_to(deal.due_day()) - long_days_up_to(deal.first_day);
    let short_days = i128::from(deal.terms.term) - long_days;
    let years = LONG_YEAR * short_days + SHORT_YEAR * long_days;
    let interest = first_sum * i128::from(deal.terms.rate) * years;
    let full = SHORT_YEAR * LONG_YEAR * FULL_RATE;
    let (whole, rest) = (interest / full, interest % full);
    first_sum + whole + i128::from(2 * rest >= full)
}

/// Feeding.
impl Book {
    /// An offer waits like a kept order, until a first part takes its lots off.
    pub(super) fn keep_offer(&mut self, offer: &Offer, code: u64) -> Checked {
        let order = BookedOrder {
            participant: known(offer.participant, self.participants, "participant")?,
            code,
            side: offer.side,
            security: known(offer.security, self.securities.len(), "security")?,
            lots: offer.lots,
            kind: WaitingKind::Offer(offer.terms),
        };
        self.waiting.push(order);
        Ok(())
    }

    /// The deal of an offer and its first part, which book and list put last.
    pub(super) fn open_deal(&mut self, offer: &Offer, trade: &Trade) -> Checked {
        let deal = Deal {
            buyer: known(trade.buyer, self.participants, "buyer")?,
            seller: known(trade.seller, self.participants, "seller")?,
            security: known(trade.security, self.securities.len(), "security")?,
            lots: trade.lots,
            terms: offer.terms,
            first_day: self.date,
        };
        expect(deal.due_day() < TABLE, || {
            format!("{deal:?} is due outside the table")
        })?;
        self.deals.push(deal);
        Ok(())
    }

    /// Pieces go back, and the second sum with them; the deal ends.
    pub(super) fn end_deal(&mut self, place: u64) -> Checked {
        let index = place.checked_sub(1).ok_or("there is no deal at place 0")?;
        let index = known(index, self.deals.len(), "deal")?;
        let deal = self.deals.remove(index);
        expect(self.date >= deal.due_day(), || {
            format!("{deal:?} isn't due on day {}", self.date)
        })?;
        let line = self.securities[deal.security];
        let currency = line.currency as usize;
        let pieces = pieces_of(&deal, line);
        let sum = second_sum(first_sum(&deal, line), &deal);
        self.pieces[deal.buyer][deal.security] -= pieces;
        self.pieces[deal.seller][deal.security] += pieces;
        self.money[deal.seller][currency] -= sum;
        self.money[deal.buyer][currency] += sum;
        Ok(())
    }

    pub(super) fn begin_day(&mut self, date: u64) -> Checked {
        expect(self.date < date && date < TABLE, || {
            format!("day {date} begins after day {}", self.date)
        })?;
        self.date = date;
        self.phase = Phase::Open;
        self.traded.fill(BookedTrades::default());
        Ok(())
    }
}

fn pieces_of(deal: &Deal, line: SecurityLine) -> i128 {
    i128::from(deal.lots) * i128::from(line.lot_size)
}

fn first_sum(deal: &Deal, line: SecurityLine) -> i128 {
    sum_of(i128::from(deal.terms.price) * pieces_of(deal, line), line)
}

/// Answers, reckoning and comparing.
impl Book {
    /// An offer meets the oldest counter offer with all of its numbers, whole,
    /// in one trade; where there is none, it waits.
    pub(super) fn check_offer(&self, offer: &Offer, done: &Done, trades: &[Trade]) -> Checked {
        let counter = self.waiting.iter().find(|order| is_counter(order, offer));
        let due = counter.map(|counter| self.first_part(offer, done.code, counter));
        expect(trades == due.as_slice(), || {
            format!("{offer:?} made {trades:?}, due {due:?}")
        })?;
        let left = due.map_or(offer.lots, |_| 0);
        expect(done.left == left, || {
            format!("{offer:?} leaves {} lots, due {left}", done.left)
        })
    }

    fn first_part(&self, offer: &Offer, code: u64, counter: &BookedOrder) -> Trade {
        let line = self.securities[counter.security];
        let pieces = i128::from(offer.lots) * i128::from(line.lot_size);
        let own = (code, offer.participant);
        let other = (counter.code, counter.participant as u64);
        let (buy, sell) = match offer.side {
            Side::Buy => (own, other),
            Side::Sell => (other, own),
        };
        Trade {
            buy_code: buy.0,
            sell_code: sell.0,
            buyer: buy.1,
            seller: sell.1,
            security: offer.security,
            price: offer.terms.price,
            lots: offer.lots,
            sum: sum_of(i128::from(offer.terms.price) * pieces, line) as u64,
        }
    }

    /// How long the deal at a place has been due.
    pub fn days_late(&self, place: u64) -> Option<u64> {
        let index = usize::try_from(place.checked_sub(1)?).ok()?;
        let deal = self.deals.get(index)?;
        self.date.checked_sub(deal.due_day())
    }

    pub fn open_deals(&self) -> usize {
        self.deals.len()
    }

    pub fn compare_date(&self, date: u64) -> Checked {
        expect(self.date == date, || {
            format!("date: book {}, state {date}", self.date)
        })
    }

    pub fn compare_deals(&self, deals: &[Deal]) -> Checked {
        expect(self.deals == deals, || {
            format!("deals: book {:?}, state {deals:?}", self.deals)
        })
    }

    /// The numbers of a printed deal: its place, buyer, seller, security, lots,
    /// price, rate, first day, due day, first sum and second sum.
    pub fn compare_printed_deal(&self, place: usize, printed: [u64; 11]) -> Checked {
        let deal = &self.deals[place];
        let first_sum = first_sum(deal, self.securities[deal.security]);
        let book = [
            place as i128 + 1,
            deal.buyer as i128,
            deal.seller as i128,
            deal.security as i128,
            i128::from(deal.lots),
            i128::from(deal.terms.price),
            i128::from(deal.terms.rate),
            i128::from(deal.first_day),
            i128::from(deal.due_day()),
            first_sum,
            second_sum(first_sum, deal),
        ];
        expect(printed.map(i128::from) == book, || {
            format!("deal: book {book:?}, printed {printed:?}")
        })
    }
}

fn is_counter(order: &BookedOrder, offer: &Offer) -> bool {
    order.kind == WaitingKind::Offer(offer.terms)
        && order.side != offer.side
        && order.security as u64 == offer.security
        && order.lots == offer.lots
}
