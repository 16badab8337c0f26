//! The engine: the state of a trading day and of those after it, and the calls
//! that change it. A refused call changes nothing.

mod auction;
pub mod calendar;
mod closing;
mod pairing;
mod positions;
mod questions;
mod repurchase;
mod soundness;
mod trading;

use std::ops::RangeInclusive;

use calendar::LAST_DAY;
use pairing::all_paired;
pub use repurchase::second_sum;

use crate::calls::{
    refusal, refused, Answer, Call, ClosingEntry, Deal, Done, Entry, Member, Movement, Opening,
    Phase, Refused, SecurityLine, Trade, WaitingOrder,
};

pub const PARTICIPANT_LIMIT: usize = 16;
pub const CURRENCY_LIMIT: usize = 4;
pub const SECURITY_LIMIT: usize = 16;
pub const LOT_SIZE_LIMIT: u64 = 1_000;
pub const PRICE_LIMIT: u64 = 1_000_000;
/// Where prices are hundredths of a percent.
pub const PERCENT_LIMIT: u64 = 20_000;
pub const NO_NOMINAL: u64 = 0;
pub const NOMINALS: RangeInclusive<u64> = 10_000..=500_000;
pub const LOTS_LIMIT: u64 = 10_000;
pub const MONEY_LIMIT: u64 = 1_000_000_000_000_000;
pub const PIECES_LIMIT: u64 = 1_000_000_000_000;
pub const RATE_LIMIT: u64 = 1_000;
pub const WAITING_LIMIT: usize = 128;
/// Of each participant, a day.
pub const CODE_LIMIT: u64 = 62_500;
pub const GROUP_SIZES: RangeInclusive<usize> = 2..=8;
pub const DEAL_LIMIT: usize = 64;
/// Of repurchase deals: hundredths of a percent a year, days, and the first sum.
pub const DEAL_RATE_LIMIT: u64 = 5_000;
pub const TERMS: RangeInclusive<u64> = 1..=365;
pub const FIRST_SUM_LIMIT: u64 = 10_000_000_000;

/// Numbers of the shortest trade list that suffices: 8 for each of 136 trades.
pub const LIST_LENGTH: u64 = 1_088;

#[derive(Clone, Copy, PartialEq, Eq, Debug, Default)]
pub struct Position {
    pub free: u64,
    pub blocked: u64,
}

/// What a security traded while open: Q pieces, and T, the price of each of
/// them added up.
#[derive(Clone, Copy, PartialEq, Eq, Debug, Default)]
pub struct Traded {
    pub pieces: u64,
    pub turnover: u64,
}

impl Traded {
    /// T / Q to the nearest unit, a half going up; 0 where nothing traded,
    /// since no order asks then. Twice T may not fit 64 bits.
    pub fn closing_price(&self) -> u64 {
        if self.pieces == 0 {
            return 0;
        }
        let (whole, rest) = (self.turnover / self.pieces, self.turnover % self.pieces);
        whole + u64::from(rest >= self.pieces - rest)
    }
}

/// What the opening fixes for all days.
#[derive(Clone, PartialEq, Eq, Debug)]
struct Market {
    participants: usize,
    currencies: usize,
    securities: Vec<SecurityLine>,
    rate: u64,
}

/// What the calls change. Waiting orders stand by rising arrival, open deals the
/// oldest first. The account is the market's own, which the fees go to, in each
/// currency. Codes are counted for each participant.
#[derive(Clone, PartialEq, Eq, Debug)]
struct State {
    money: [[Position; CURRENCY_LIMIT]; PARTICIPANT_LIMIT],
    pieces: [[Position; SECURITY_LIMIT]; PARTICIPANT_LIMIT],
    account: [u64; CURRENCY_LIMIT],
    traded: [Traded; SECURITY_LIMIT],
    waiting: Vec<WaitingOrder>,
    codes_given: [u64; PARTICIPANT_LIMIT],
    phase: Phase,
    date: u64,
    deals: Vec<Deal>,
}

#[derive(Clone, PartialEq, Eq, Debug)]
pub struct Engine {
    market: Market,
    state: State,
    asks_soundness: bool,
}

fn ensure(holds: bool, number: u64) -> Result<(), Refused> {
    if holds {
        Ok(())
    } else {
        Err(refused(number))
    }
}

fn line_in_range(line: &SecurityLine, currencies: usize) -> bool {
    line.currency < currencies as u64
        && (1..=LOT_SIZE_LIMIT).contains(&line.lot_size)
        && (1..=PRICE_LIMIT).contains(&line.price_step)
}

fn nominal_allowed(line: &SecurityLine) -> bool {
    line.nominal == NO_NOMINAL || NOMINALS.contains(&line.nominal)
}

/// The highest price of a security, on its step or not.
pub fn highest_price(line: &SecurityLine) -> u64 {
    match line.nominal {
        NO_NOMINAL => PRICE_LIMIT,
        _ => PERCENT_LIMIT,
    }
}

fn price_allowed(line: &SecurityLine, price: u64) -> bool {
    (1..=highest_price(line)).contains(&price) && price.is_multiple_of(line.price_step)
}

fn count_known(count: u64, limit: usize) -> Option<usize> {
    usize::try_from(count)
        .ok()
        .filter(|count| (1..=limit).contains(count))
}

/// Opening, and the parts of the state that others may read.
impl Engine {
    pub fn open(opening: &Opening, asks_soundness: bool) -> Result<Engine, Refused> {
        let counts = refused(refusal::COUNTS);
        let participants = count_known(opening.participants, PARTICIPANT_LIMIT).ok_or(counts)?;
        let currencies = count_known(opening.currencies, CURRENCY_LIMIT).ok_or(counts)?;
        count_known(opening.securities.len() as u64, SECURITY_LIMIT).ok_or(counts)?;
        for (place, line) in (1..).zip(&opening.securities) {
            if !line_in_range(line, currencies) {
                let number = refusal::SECURITY_LINE;
                return Err(Refused { number, place });
            }
        }
        let nominals_allowed = opening.securities.iter().all(nominal_allowed);
        ensure(nominals_allowed, refusal::NOMINAL)?;
        ensure(opening.rate <= RATE_LIMIT, refusal::RATE)?;
        ensure(opening.date <= LAST_DAY, refusal::DATE)?;
        let market = Market {
            participants,
            currencies,
            securities: opening.securities.clone(),
            rate: opening.rate,
        };
        Ok(Engine {
            market,
            state: State::opened(opening.date),
            asks_soundness,
        })
    }

    pub fn participants(&self) -> usize {
        self.market.participants
    }

    pub fn currencies(&self) -> usize {
        self.market.currencies
    }

    pub fn securities(&self) -> &[SecurityLine] {
        &self.market.securities
    }

    pub fn money(&self, participant: usize, currency: usize) -> Position {
        self.state.money[participant][currency]
    }

    pub fn pieces(&self, participant: usize, security: usize) -> Position {
        self.state.pieces[participant][security]
    }

    /// The market's own.
    pub fn account(&self, currency: usize) -> u64 {
        self.state.account[currency]
    }

    pub fn traded(&self, security: usize) -> Traded {
        self.state.traded[security]
    }

    pub fn waiting(&self) -> &[WaitingOrder] {
        &self.state.waiting
    }

    pub fn codes_given(&self, participant: usize) -> u64 {
        self.state.codes_given[participant]
    }

    pub fn phase(&self) -> Phase {
        self.state.phase
    }

    pub fn date(&self) -> u64 {
        self.state.date
    }

    pub fn deals(&self) -> &[Deal] {
        &self.state.deals
    }
}

impl State {
    fn opened(date: u64) -> State {
        State {
            money: Default::default(),
            pieces: Default::default(),
            account: Default::default(),
            traded: Default::default(),
            waiting: Vec::with_capacity(WAITING_LIMIT),
            codes_given: Default::default(),
            phase: Phase::Open,
            date,
            deals: Vec::with_capacity(DEAL_LIMIT),
        }
    }
}

/// The calls. Trades are written after those already in the list, which grows
/// as needed, so that question 2 is about the number lent alone.
impl Engine {
    /// A call that is lent so many numbers for its trades.
    pub fn call_lent(&mut self, call: &Call, lent: u64, trades: &mut Vec<Trade>) -> Answer {
        if lent < LIST_LENGTH && call.writes_trades() {
            self.ask_soundness()?;
            return Err(refused(refusal::LIST_TOO_SHORT));
        }
        self.call(call, trades)
    }

    /// A call that is lent as many numbers as it may need.
    pub fn call(&mut self, call: &Call, trades: &mut Vec<Trade>) -> Answer {
        match call {
            Call::MoneyUp(movement) => self.increase_money(movement),
            Call::MoneyDown(movement) => self.decrease_money(movement),
            Call::PiecesUp(movement) => self.increase_pieces(movement),
            Call::PiecesDown(movement) => self.decrease_pieces(movement),
            Call::Enter(entry) => self.enter(entry, trades),
            Call::Cancel { participant, code } => self.cancel(*participant, *code),
            Call::Group {
                participant,
                members,
            } => self.enter_group(*participant, members, trades),
            Call::StartCollecting => self.start_collecting(),
            Call::EndCollecting => self.end_collecting(trades),
            Call::StartClosing => self.start_closing(),
            Call::EnterClosing(entry) => self.enter_closing(entry),
            Call::EndSession => self.end_session(trades),
            Call::EnterOffer(offer) => self.enter_offer(offer, trades),
            Call::SecondPart { place } => self.second_part(*place),
            Call::NewDay { date } => self.new_day(*date),
        }
    }

    pub fn increase_money(&mut self, movement: &Movement) -> Answer {
        self.ask_soundness()?;
        let (participant, currency) = self.known_money(movement)?;
        ensure(
            (1..=MONEY_LIMIT).contains(&movement.amount),
            refusal::AMOUNT,
        )?;
        let total = self.total_money(currency);
        ensure(total + movement.amount <= MONEY_LIMIT, refusal::TOTAL)?;
        self.state.money[participant][currency].free += movement.amount;
        Ok(Done::default())
    }

    pub fn decrease_money(&mut self, movement: &Movement) -> Answer {
        self.ask_soundness()?;
        let (participant, currency) = self.known_money(movement)?;
        ensure(
            (1..=MONEY_LIMIT).contains(&movement.amount),
            refusal::AMOUNT,
        )?;
        let position = &mut self.state.money[participant][currency];
        ensure(movement.amount <= position.free, refusal::FREE_FOR_DECREASE)?;
        position.free -= movement.amount;
        Ok(Done::default())
    }

    pub fn increase_pieces(&mut self, movement: &Movement) -> Answer {
        self.ask_soundness()?;
        let (participant, security) = self.known_pieces(movement)?;
        ensure(
            (1..=PIECES_LIMIT).contains(&movement.amount),
            refusal::AMOUNT,
        )?;
        let total = self.total_pieces(security);
        ensure(total + movement.amount <= PIECES_LIMIT, refusal::TOTAL)?;
        self.state.pieces[participant][security].free += movement.amount;
        Ok(Done::default())
    }

    pub fn decrease_pieces(&mut self, movement: &Movement) -> Answer {
        self.ask_soundness()?;
        let (participant, security) = self.known_pieces(movement)?;
        ensure(
            (1..=PIECES_LIMIT).contains(&movement.amount),
            refusal::AMOUNT,
        )?;
        let position = &mut self.state.pieces[participant][security];
        ensure(movement.amount <= position.free, refusal::FREE_FOR_DECREASE)?;
        position.free -= movement.amount;
        Ok(Done::default())
    }

    pub fn enter(&mut self, entry: &Entry, trades: &mut Vec<Trade>) -> Answer {
        self.ask_soundness()?;
        self.admit(entry, trades)
    }

    pub fn cancel(&mut self, participant: u64, code: u64) -> Answer {
        self.ask_soundness()?;
        let participant = self.known_participant(participant)?;
        let mut waiting = self.state.waiting.iter();
        let place = waiting
            .position(|order| order.participant == participant && order.code == code)
            .ok_or(refused(refusal::NO_SUCH_ORDER))?;
        let order = self.state.waiting.remove(place);
        self.unblock(&order);
        Ok(Done {
            code,
            ..Done::default()
        })
    }

    pub fn enter_group(
        &mut self,
        participant: u64,
        members: &[Member],
        trades: &mut Vec<Trade>,
    ) -> Answer {
        self.ask_soundness()?;
        ensure(GROUP_SIZES.contains(&members.len()), refusal::GROUP_SIZE)?;
        let earlier = self.state.clone();
        let earlier_trades = trades.len();
        self.admit_members(participant, members, trades)
            .inspect_err(|_| {
                self.state = earlier;
                trades.truncate(earlier_trades);
            })
    }

    /// Whatever became of its order, a code that was given counts, whosoever it
    /// is.
    pub fn start_collecting(&mut self) -> Answer {
        self.ask_soundness()?;
        ensure(self.state.phase == Phase::Open, refusal::PHASE)?;
        ensure(self.all_codes_given() == 0, refusal::CODE_GIVEN)?;
        self.state.phase = Phase::Collecting;
        Ok(Done::default())
    }

    pub fn end_collecting(&mut self, trades: &mut Vec<Trade>) -> Answer {
        self.ask_soundness()?;
        ensure(self.state.phase == Phase::Collecting, refusal::PHASE)?;
        let earlier_trades = trades.len();
        for security in 0..self.market.securities.len() {
            self.pair_auction(security, trades);
        }
        self.take_all_off();
        self.state.phase = Phase::Open;
        Ok(all_paired(&trades[earlier_trades..]))
    }

    pub fn start_closing(&mut self) -> Answer {
        self.ask_soundness()?;
        ensure(self.state.phase == Phase::Open, refusal::PHASE)?;
        self.take_all_off();
        self.state.phase = Phase::Closing;
        Ok(Done::default())
    }

    pub fn enter_closing(&mut self, entry: &ClosingEntry) -> Answer {
        self.ask_soundness()?;
        let order = self.question_closing(entry)?;
        self.block(&order);
        self.give_code(&order);
        self.state.waiting.push(order);
        Ok(Done {
            code: order.code,
            left: order.lots,
            ..Done::default()
        })
    }

    pub fn end_session(&mut self, trades: &mut Vec<Trade>) -> Answer {
        self.ask_soundness()?;
        ensure(self.state.phase == Phase::Closing, refusal::PHASE)?;
        let earlier_trades = trades.len();
        for security in 0..self.market.securities.len() {
            self.pair_closing(security, trades);
        }
        self.take_all_off();
        self.state.phase = Phase::Closed;
        Ok(all_paired(&trades[earlier_trades..]))
    }
}
