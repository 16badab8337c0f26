//! Offers, second parts and new days, of which only scripts know.

use super::day::{highest_steps, Day};
use super::single::free_and_need;
use super::Plan;
use crate::calls::{
    Call, Deal, Entry, EntryKind, Offer, Phase, Side, Terms, WaitingKind, WaitingOrder,
};
use crate::engine::calendar::{first_day, year_of, LAST_DAY};
use crate::engine::{DEAL_LIMIT, DEAL_RATE_LIMIT, FIRST_SUM_LIMIT, LOTS_LIMIT, TERMS};
use crate::random::Random;

/// Long and short years beside each other, full centuries, the first and the
/// last.
const YEARS: [u64; 16] = [
    1970, 1971, 1972, 1973, 1999, 2000, 2001, 2024, 2025, 2099, 2100, 2101, 2200, 2300, 2368, 2369,
];

/// How often an offer that meets none that waits is the equal of one.
const EQUAL_PERCENT: u64 = 30;

/// What may still be written once the last day is over.
const LAST_LENGTH: usize = 1_000;

/// Days from a year's first to 29 February of a long one.
const LEAP_DAY: u64 = 59;

/// The date of an opening: often near a new year, 29 February or the last day.
/// Days that plan none take no random number here.
pub(super) fn date(random: &mut Random, percent: u64) -> u64 {
    if percent == 0 || !random.chance(percent) {
        return 0;
    }
    let new_year = first_day(random.pick(&YEARS));
    let days = random.below(6);
    let near_the_end = random.pick(&[0, 1, 2, 7, 364, 365, 366, 730]);
    let any_date = random.within(0, LAST_DAY);
    random.pick(&[
        (new_year + days).saturating_sub(3),
        (new_year + days).saturating_sub(3),
        (new_year + LEAP_DAY + days).saturating_sub(3),
        LAST_DAY - near_the_end,
        any_date,
    ])
}

/// The order that blocks what an offer blocks.
fn entry_of(offer: &Offer) -> Entry {
    Entry {
        participant: offer.participant,
        side: offer.side,
        security: offer.security,
        price: offer.terms.price,
        lots: offer.lots,
        kind: EntryKind::Kept,
    }
}

/// Offers.
impl Day {
    pub(super) fn write_offer(&mut self) {
        let offer = self.offer();
        self.add(Call::EnterOffer(offer));
    }

    /// Often the counter of one that waits; else at times its equal, so that only
    /// their arrival decides which of them is met.
    pub(super) fn offer(&mut self) -> Offer {
        match self.waiting_offer() {
            Some((order, terms)) if self.random.chance(self.plan.counter_percent) => {
                self.counter_offer(&order, terms)
            }
            Some((order, terms)) if self.random.chance(EQUAL_PERCENT) => {
                self.equal_offer(&order, terms)
            }
            _ => self.fresh_offer(),
        }
    }

    /// On the same side with all numbers equal, of any participant.
    fn equal_offer(&mut self, order: &WaitingOrder, terms: Terms) -> Offer {
        Offer {
            participant: self.participant(),
            side: order.side,
            security: order.security as u64,
            lots: order.lots,
            terms,
        }
    }

    fn waiting_offer(&mut self) -> Option<(WaitingOrder, Terms)> {
        let waiting = self.engine.waiting().iter();
        let offers = waiting.filter_map(|order| match order.kind {
            WaitingKind::Offer(terms) => Some((*order, terms)),
            _ => None,
        });
        let offers: Vec<(WaitingOrder, Terms)> = offers.collect();
        let place = self.random.index(offers.len());
        offers.get(place).copied()
    }

    /// At times of the same participant, or with one number that isn't equal.
    fn counter_offer(&mut self, order: &WaitingOrder, terms: Terms) -> Offer {
        let other = self.participant();
        let own = self.random.chance(15);
        let mut offer = Offer {
            participant: if own { order.participant as u64 } else { other },
            side: match order.side {
                Side::Buy => Side::Sell,
                Side::Sell => Side::Buy,
            },
            security: order.security as u64,
            lots: order.lots,
            terms,
        };
        if self.random.chance(15) {
            self.change_offer(&mut offer, order.side);
        }
        offer
    }

    fn change_offer(&mut self, offer: &mut Offer, counter_side: Side) {
        let line = self.engine.securities()[offer.security as usize];
        let down = self.random.chance(50);
        let beside = |number: u64| if down { number - 1 } else { number + 1 };
        match self.random.below(6) {
            0 => offer.lots = beside(offer.lots),
            1 => offer.terms.term = beside(offer.terms.term),
            2 if offer.terms.rate > 0 => offer.terms.rate = beside(offer.terms.rate),
            3 => offer.security = self.security(),
            4 => offer.side = counter_side,
            _ if down => offer.terms.price -= line.price_step,
            _ => offer.terms.price += line.price_step,
        }
    }

    /// Of few prices, lots, rates and terms.
    fn fresh_offer(&mut self) -> Offer {
        let side = self.side();
        let security = self.security();
        let price = self.price(side, security);
        let lots = self.lots();
        let any_rate = self.random.within(0, DEAL_RATE_LIMIT);
        let any_term = self.random.within(*TERMS.start(), *TERMS.end());
        Offer {
            participant: self.participant(),
            side,
            security,
            lots: self.random.pick(&[1, 1, 2, 10, lots]),
            terms: Terms {
                price,
                rate: self
                    .random
                    .pick(&[0, 1, 50, 50, 725, 4_999, 5_000, any_rate]),
                term: self.random.pick(&[1, 1, 2, 7, 7, 30, 364, 365, any_term]),
            },
        }
    }

    /// Rate, term or first sum at its limit or just beyond it; at times more
    /// than one, which shows what is asked first.
    pub(super) fn write_offer_edge(&mut self) {
        let mut offer = self.fresh_offer();
        for _ in 0..self.random.pick(&[1, 1, 1, 2, 2, 3]) {
            self.put_at_edge(&mut offer);
        }
        self.add(Call::EnterOffer(offer));
    }

    fn put_at_edge(&mut self, offer: &mut Offer) {
        let (rate, term) = (DEAL_RATE_LIMIT, *TERMS.end());
        match self.random.below(5) {
            0 => offer.terms.rate = self.random.pick(&[rate - 1, rate, rate + 1, rate + 1]),
            1 => offer.terms.term = self.random.pick(&[0, 1, term, term + 1]),
            2 => {
                let to_the_end = LAST_DAY - self.engine.date();
                offer.terms.term = to_the_end + self.random.below(2);
            }
            _ => self.put_first_sum_at_edge(offer),
        }
    }

    /// As many lots at the highest price as the first sum may have, or one more.
    fn put_first_sum_at_edge(&mut self, offer: &mut Offer) {
        let security = offer.security as usize;
        let line = self.engine.securities()[security];
        if self.random.chance(70) {
            offer.terms.price = highest_steps(&line) * line.price_step;
        }
        let lot = self.engine.sum(security, offer.terms.price, 1).max(1);
        let most = FIRST_SUM_LIMIT / lot;
        offer.lots = (most + self.random.below(2)).clamp(1, LOTS_LIMIT);
    }

    pub(super) fn write_tight_offer(&mut self) {
        let offer = self.offer();
        let entry = entry_of(&offer);
        let (free, need) = free_and_need(&self.engine, &entry);
        self.squeeze(&entry, free, need, Call::EnterOffer(offer));
    }
}

/// Second parts.
impl Day {
    pub(super) fn write_second_part(&mut self) {
        let call = self.second_part();
        self.add(call);
    }

    /// Mostly of a deal that is due, where one is; at times of any, or of none.
    pub(super) fn second_part(&mut self) -> Call {
        let count = self.engine.deals().len() as u64;
        let any_place = self.random.within(1, count.max(1));
        let due_place = self.due_deal().map_or(any_place, |(place, _)| place);
        let none = self
            .random
            .pick(&[0, count + 1, count + 2, DEAL_LIMIT as u64 + 1]);
        let place = self.random.pick(&[
            due_place, due_place, due_place, due_place, any_place, any_place, count, none,
        ]);
        Call::SecondPart { place }
    }

    /// With its place; often one that is due today, where there is any.
    fn due_deal(&mut self) -> Option<(u64, Deal)> {
        let today = self.engine.date();
        let deals = (1..).zip(self.engine.deals());
        let due = deals.filter(|(_, deal)| deal.due_day() <= today);
        let mut due: Vec<(u64, Deal)> = due.map(|(place, deal)| (place, *deal)).collect();
        let any_today = due.iter().any(|(_, deal)| deal.due_day() == today);
        if any_today && self.random.chance(60) {
            due.retain(|(_, deal)| deal.due_day() == today);
        }
        let place = self.random.index(due.len());
        due.get(place).copied()
    }

    /// Takes one side's reserve down to what the second part needs, or to one
    /// less.
    pub(super) fn write_tight_second_part(&mut self) {
        let Some((place, deal)) = self.due_deal() else {
            return self.write_second_part();
        };
        let of_money = self.random.chance(50);
        let (participant, side) = match of_money {
            true => (deal.seller, Side::Buy),
            false => (deal.buyer, Side::Sell),
        };
        let entry = Entry {
            participant: participant as u64,
            side,
            security: deal.security as u64,
            price: deal.terms.price,
            lots: deal.lots,
            kind: EntryKind::Kept,
        };
        let (free, pieces) = free_and_need(&self.engine, &entry);
        let need = match of_money {
            true => self.engine.sums(&deal).1,
            false => pieces,
        };
        self.squeeze(&entry, free, need, Call::SecondPart { place });
    }
}

/// New days.
impl Day {
    /// Once closed. An accepted one sets out anew, at times with collecting; on
    /// the last day the text is soon over, as no other follows.
    pub(super) fn write_new_day(&mut self) {
        let call = self.new_day();
        self.add(call);
        let length = self.text.len();
        if self.engine.phase() == Phase::Open {
            self.plan = next_day(&mut self.random, self.plan, length);
            self.begin_collecting(self.plan.collect_percent);
        } else if self.engine.date() == LAST_DAY {
            self.plan.length = self.plan.length.min(length + LAST_LENGTH);
        }
    }

    /// Where the phase doesn't admit it.
    pub(super) fn write_unfit_day(&mut self) {
        let call = self.new_day();
        self.add(call);
    }

    /// Mostly soon, or when a deal is due, or a day off; at times in a later
    /// year, or no later day.
    pub(super) fn new_day(&mut self) -> Call {
        let today = self.engine.date();
        let due_day = self.later_due_day(today);
        let new_year = first_day(year_of(today) + 1);
        let soon = today + self.random.within(1, 40);
        let far = today + self.random.within(1, 800);
        let off = self.random.below(3);
        let wrong = self
            .random
            .pick(&[0, today, today, LAST_DAY + 1, LAST_DAY + 2]);
        let last = self.random.pick(&[far, far, far, LAST_DAY]);
        let date = self.random.pick(&[
            today + 1,
            today + 1,
            soon,
            due_day,
            due_day,
            (due_day + off).saturating_sub(1),
            (new_year + off).saturating_sub(1),
            far,
            last,
            wrong,
        ]);
        Call::NewDay { date }
    }

    /// Of a deal that isn't due yet, or the next day.
    fn later_due_day(&mut self, today: u64) -> u64 {
        let deals = self.engine.deals().iter();
        let days: Vec<u64> = deals
            .map(Deal::due_day)
            .filter(|day| *day > today)
            .collect();
        let place = self.random.index(days.len());
        days.get(place).map_or(today + 1, |day| *day)
    }
}

/// When the day that begins at this length closes and ends.
fn next_day(random: &mut Random, plan: Plan, length: usize) -> Plan {
    let share = plan.day_length as u64;
    let closing_at = length + random.within(share / 2, share) as usize;
    Plan {
        closing_at,
        ending_at: closing_at + random.below(share / 3 + 1) as usize,
        ..plan
    }
}
