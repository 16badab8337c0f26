//! The questions before a call's answer, in their order.

use super::calendar::LAST_DAY;
use super::{
    ensure, price_allowed, Engine, Position, CODE_LIMIT, DEAL_LIMIT, DEAL_RATE_LIMIT,
    FIRST_SUM_LIMIT, LOTS_LIMIT, TERMS, WAITING_LIMIT,
};
use crate::calls::{
    refusal, ClosingEntry, Entry, EntryKind, Movement, Offer, Phase, Refused, Side, WaitingKind,
    WaitingOrder,
};

impl Engine {
    pub(super) fn ask_soundness(&self) -> Result<(), Refused> {
        ensure(!self.asks_soundness || self.is_sound(), refusal::UNSOUND)
    }

    pub(super) fn known_participant(&self, participant: u64) -> Result<usize, Refused> {
        let known = participant < self.market.participants as u64;
        ensure(known, refusal::PARTICIPANT)?;
        Ok(participant as usize)
    }

    pub(super) fn known_security(&self, security: u64) -> Result<usize, Refused> {
        let known = security < self.market.securities.len() as u64;
        ensure(known, refusal::CURRENCY_OR_SECURITY)?;
        Ok(security as usize)
    }

    pub(super) fn known_money(&self, movement: &Movement) -> Result<(usize, usize), Refused> {
        let participant = self.known_participant(movement.participant)?;
        let known = movement.asset < self.market.currencies as u64;
        ensure(known, refusal::CURRENCY_OR_SECURITY)?;
        Ok((participant, movement.asset as usize))
    }

    pub(super) fn known_pieces(&self, movement: &Movement) -> Result<(usize, usize), Refused> {
        let participant = self.known_participant(movement.participant)?;
        let security = self.known_security(movement.asset)?;
        Ok((participant, security))
    }

    /// Questions 4 to 15 of an order; the order as it would wait.
    pub(super) fn question_entry(&self, entry: &Entry) -> Result<WaitingOrder, Refused> {
        let participant = self.known_participant(entry.participant)?;
        let security = self.known_security(entry.security)?;
        ensure(self.phase_admits(entry.kind), refusal::PHASE)?;
        ensure((1..=LOTS_LIMIT).contains(&entry.lots), refusal::AMOUNT)?;
        let line = &self.market.securities[security];
        ensure(price_allowed(line, entry.price), refusal::PRICE)?;
        if entry.kind == EntryKind::Kept {
            ensure(self.state.waiting.len() < WAITING_LIMIT, refusal::BOOK_FULL)?;
        }
        let order = WaitingOrder {
            code: self.next_code(participant)?,
            arrival: self.next_arrival(),
            participant,
            side: entry.side,
            security,
            lots: entry.lots,
            kind: WaitingKind::Kept(entry.price),
        };
        self.ask_reserve(&order)?;
        if entry.kind == EntryKind::FillOrKill {
            let fitting = self.fitting_lots(entry.side, security, entry.price);
            ensure(fitting >= entry.lots, refusal::NOT_FILLABLE)?;
        }
        Ok(order)
    }

    fn phase_admits(&self, kind: EntryKind) -> bool {
        match self.state.phase {
            Phase::Open => true,
            Phase::Collecting => kind == EntryKind::Kept,
            Phase::Closing | Phase::Closed => false,
        }
    }

    /// Questions 4 to 14 of a closing order, which has no price.
    pub(super) fn question_closing(&self, entry: &ClosingEntry) -> Result<WaitingOrder, Refused> {
        let participant = self.known_participant(entry.participant)?;
        let security = self.known_security(entry.security)?;
        ensure(self.state.phase == Phase::Closing, refusal::PHASE)?;
        ensure((1..=LOTS_LIMIT).contains(&entry.lots), refusal::AMOUNT)?;
        let traded = self.state.traded[security];
        ensure(traded.pieces > 0, refusal::NOTHING_TRADED)?;
        ensure(self.state.waiting.len() < WAITING_LIMIT, refusal::BOOK_FULL)?;
        let order = WaitingOrder {
            code: self.next_code(participant)?,
            arrival: self.next_arrival(),
            participant,
            side: entry.side,
            security,
            lots: entry.lots,
            kind: WaitingKind::Closing,
        };
        self.ask_reserve(&order)?;
        Ok(order)
    }

    /// Questions 4 to 14 of an offer; the offer as it would wait.
    pub(super) fn question_offer(&self, offer: &Offer) -> Result<WaitingOrder, Refused> {
        let participant = self.known_participant(offer.participant)?;
        let security = self.known_security(offer.security)?;
        ensure(self.state.phase == Phase::Open, refusal::PHASE)?;
        ensure((1..=LOTS_LIMIT).contains(&offer.lots), refusal::AMOUNT)?;
        let line = &self.market.securities[security];
        let terms = offer.terms;
        ensure(price_allowed(line, terms.price), refusal::PRICE)?;
        ensure(term_allowed(self.state.date, terms.term), refusal::DATE)?;
        let first_sum = self.sum(security, terms.price, offer.lots);
        let allowed = terms.rate <= DEAL_RATE_LIMIT && first_sum <= FIRST_SUM_LIMIT;
        ensure(allowed, refusal::RATE_OR_FIRST_SUM)?;
        ensure(self.state.waiting.len() < WAITING_LIMIT, refusal::BOOK_FULL)?;
        ensure(self.state.deals.len() < DEAL_LIMIT, refusal::DEALS_FULL)?;
        let order = WaitingOrder {
            code: self.next_code(participant)?,
            arrival: self.next_arrival(),
            participant,
            side: offer.side,
            security,
            lots: offer.lots,
            kind: WaitingKind::Offer(terms),
        };
        self.ask_reserve(&order)?;
        Ok(order)
    }

    /// The participant's own, however many the others have.
    fn next_code(&self, participant: usize) -> Result<u64, Refused> {
        let codes_given = self.state.codes_given[participant];
        ensure(codes_given < CODE_LIMIT, refusal::CODES_USED_UP)?;
        Ok(codes_given + 1)
    }

    /// Each code of the day stands for one arrival.
    fn next_arrival(&self) -> u64 {
        self.all_codes_given() + 1
    }

    pub(super) fn all_codes_given(&self) -> u64 {
        let known = &self.state.codes_given[..self.market.participants];
        known.iter().sum()
    }

    pub(super) fn give_code(&mut self, order: &WaitingOrder) {
        self.state.codes_given[order.participant] = order.code;
    }

    fn ask_reserve(&self, order: &WaitingOrder) -> Result<(), Refused> {
        let position = match order.side {
            Side::Buy => self.state.money[order.participant][self.currency(order.security)],
            Side::Sell => self.state.pieces[order.participant][order.security],
        };
        ensure(position.free >= self.need(order), refusal::FREE_FOR_ORDER)
    }

    /// The market's account counts in.
    pub fn total_money(&self, currency: usize) -> u64 {
        let known = &self.state.money[..self.market.participants];
        let sum = |position: Position| position.free + position.blocked;
        let held: u64 = known.iter().map(|row| sum(row[currency])).sum();
        held + self.state.account[currency]
    }

    pub fn total_pieces(&self, security: usize) -> u64 {
        let known = &self.state.pieces[..self.market.participants];
        let sum = |position: Position| position.free + position.blocked;
        known.iter().map(|row| sum(row[security])).sum()
    }
}

/// In range, and due within the table. The range keeps the sum small.
pub(super) fn term_allowed(first_day: u64, term: u64) -> bool {
    TERMS.contains(&term) && first_day + term <= LAST_DAY
}
