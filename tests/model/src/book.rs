//! The book of demand 3. It is fed the opening's arguments and each call's
//! arguments, answer and trades, and nothing from the state.

mod lots;
mod repurchase;

use crate::calls::{
    Answer, Call, ClosingEntry, Deal, Done, Entry, EntryKind, Member, Movement, Opening, Phase,
    SecurityLine, Side, Trade, WaitingKind, WaitingOrder,
};
use crate::engine::{Engine, Position, Traded};

/// The sum on which a fee is the rate itself.
const FULL_SUM: i128 = 100_000;

/// Hundredths of a percent in a whole nominal.
const FULL_NOMINAL: i128 = 10_000;

/// What a check found wrong, in words.
pub type Checked = Result<(), String>;

/// Balances are signed, so that a faulty engine's trades can be booked too.
pub struct Book {
    participants: usize,
    currencies: usize,
    securities: Vec<SecurityLine>,
    rate: i128,
    money: Vec<Vec<i128>>,
    pieces: Vec<Vec<i128>>,
    market: Vec<i128>,
    traded: Vec<BookedTrades>,
    phase: Phase,
    waiting: Vec<BookedOrder>,
    date: u64,
    deals: Vec<Deal>,
}

/// An order as the book has it, without an arrival number, which it isn't fed:
/// its orders stand as they came. Participant and code name one together.
#[derive(Clone, Copy, PartialEq, Eq, Debug)]
pub struct BookedOrder {
    pub participant: usize,
    pub code: u64,
    pub side: Side,
    pub security: usize,
    pub lots: u64,
    pub kind: WaitingKind,
}

impl From<&WaitingOrder> for BookedOrder {
    fn from(order: &WaitingOrder) -> BookedOrder {
        BookedOrder {
            participant: order.participant,
            code: order.code,
            side: order.side,
            security: order.security,
            lots: order.lots,
            kind: order.kind,
        }
    }
}

/// Q and T of one security.
#[derive(Clone, Copy, Default, Debug)]
struct BookedTrades {
    pieces: i128,
    turnover: i128,
}

pub fn expect(holds: bool, fault: impl FnOnce() -> String) -> Checked {
    if holds {
        Ok(())
    } else {
        Err(fault())
    }
}

/// An index that the book knows, from a number that it was fed.
pub fn known(number: u64, count: usize, name: &str) -> Result<usize, String> {
    usize::try_from(number)
        .ok()
        .filter(|&index| index < count)
        .ok_or_else(|| format!("{name} {number} is unknown"))
}

/// Feeding.
impl Book {
    pub fn new(opening: &Opening) -> Book {
        let participants = opening.participants as usize;
        let currencies = opening.currencies as usize;
        let securities = opening.securities.len();
        Book {
            participants,
            currencies,
            securities: opening.securities.clone(),
            rate: i128::from(opening.rate),
            money: vec![vec![0; currencies]; participants],
            pieces: vec![vec![0; securities]; participants],
            market: vec![0; currencies],
            traded: vec![BookedTrades::default(); securities],
            phase: Phase::Open,
            waiting: Vec::new(),
            date: opening.date,
            deals: Vec::new(),
        }
    }

    /// A refused call changes nothing; an accepted one is booked.
    pub fn feed(&mut self, call: &Call, answer: &Answer, trades: &[Trade]) -> Checked {
        let Ok(done) = answer else {
            return expect(trades.is_empty(), || "a refused call wrote trades".into());
        };
        self.check_answer(call, done, trades)?;
        match call {
            Call::MoneyUp(movement) => self.move_money(movement, 1)?,
            Call::MoneyDown(movement) => self.move_money(movement, -1)?,
            Call::PiecesUp(movement) => self.move_pieces(movement, 1)?,
            Call::PiecesDown(movement) => self.move_pieces(movement, -1)?,
            Call::Enter(entry) if entry.kind == EntryKind::Kept => self.keep(entry, done.code)?,
            Call::EnterClosing(entry) => self.keep_closing(entry, done.code)?,
            Call::EnterOffer(offer) => self.keep_offer(offer, done.code)?,
            _ => {}
        }
        for trade in trades {
            self.book_trade(trade)?;
            match call {
                Call::EnterOffer(offer) => self.open_deal(offer, trade)?,
                _ => self.count(trade),
            }
        }
        match call {
            Call::Cancel { participant, code } => self.take_off(*participant, *code),
            Call::StartCollecting => self.phase = Phase::Collecting,
            Call::EndCollecting => self.turn_to(Phase::Open),
            Call::StartClosing => self.turn_to(Phase::Closing),
            Call::EndSession => self.turn_to(Phase::Closed),
            Call::SecondPart { place } => self.end_deal(*place)?,
            Call::NewDay { date } => self.begin_day(*date)?,
            _ => {}
        }
        Ok(())
    }

    fn move_money(&mut self, movement: &Movement, sign: i128) -> Checked {
        let participant = known(movement.participant, self.participants, "participant")?;
        let currency = known(movement.asset, self.currencies, "currency")?;
        self.money[participant][currency] += sign * i128::from(movement.amount);
        Ok(())
    }

    fn move_pieces(&mut self, movement: &Movement, sign: i128) -> Checked {
        let participant = known(movement.participant, self.participants, "participant")?;
        let security = known(movement.asset, self.securities.len(), "security")?;
        self.pieces[participant][security] += sign * i128::from(movement.amount);
        Ok(())
    }

    fn keep(&mut self, entry: &Entry, code: u64) -> Checked {
        let order = BookedOrder {
            participant: known(entry.participant, self.participants, "participant")?,
            code,
            side: entry.side,
            security: known(entry.security, self.securities.len(), "security")?,
            lots: entry.lots,
            kind: WaitingKind::Kept(entry.price),
        };
        self.waiting.push(order);
        Ok(())
    }

    fn keep_closing(&mut self, entry: &ClosingEntry, code: u64) -> Checked {
        let order = BookedOrder {
            participant: known(entry.participant, self.participants, "participant")?,
            code,
            side: entry.side,
            security: known(entry.security, self.securities.len(), "security")?,
            lots: entry.lots,
            kind: WaitingKind::Closing,
        };
        self.waiting.push(order);
        Ok(())
    }

    fn book_trade(&mut self, trade: &Trade) -> Checked {
        let security = known(trade.security, self.securities.len(), "security")?;
        let buyer = known(trade.buyer, self.participants, "buyer")?;
        let seller = known(trade.seller, self.participants, "seller")?;
        let line = self.securities[security];
        let currency = line.currency as usize;
        let pieces = i128::from(trade.lots) * i128::from(line.lot_size);
        let value = i128::from(trade.price) * pieces;
        let sum = i128::from(trade.sum);
        expect(sum == sum_of(value, line), || {
            format!("the sum of {trade:?} is not that of {pieces} pieces at its price")
        })?;
        let fee = self.fee(sum);
        self.money[buyer][currency] -= sum + fee;
        self.money[seller][currency] += sum - fee;
        self.market[currency] += fee + fee;
        self.pieces[seller][security] -= pieces;
        self.pieces[buyer][security] += pieces;
        self.take_lots(Side::Buy, buyer, trade.buy_code, trade.lots)?;
        self.take_lots(Side::Sell, seller, trade.sell_code, trade.lots)
    }

    /// While open a trade, but no first part, adds to Q and T.
    fn count(&mut self, trade: &Trade) {
        if self.phase != Phase::Open {
            return;
        }
        let security = trade.security as usize;
        let pieces = i128::from(trade.lots) * i128::from(self.securities[security].lot_size);
        let traded = &mut self.traded[security];
        traded.pieces += pieces;
        traded.turnover += i128::from(trade.price) * pieces;
    }

    /// Takes a trade's lots off the order, where it waits.
    fn take_lots(&mut self, side: Side, participant: usize, code: u64, lots: u64) -> Checked {
        let waits = |order: &BookedOrder| {
            order.side == side && order.participant == participant && order.code == code
        };
        let Some(place) = self.waiting.iter().position(waits) else {
            return Ok(());
        };
        let order = &mut self.waiting[place];
        expect(lots <= order.lots, || {
            format!("order {code} of {participant} traded more lots than it has")
        })?;
        order.lots -= lots;
        if order.lots == 0 {
            self.waiting.remove(place);
        }
        Ok(())
    }

    fn take_off(&mut self, participant: u64, code: u64) {
        self.waiting
            .retain(|order| order.code != code || order.participant as u64 != participant);
    }

    /// All orders go with the phase that they waited in.
    fn turn_to(&mut self, phase: Phase) {
        self.waiting.clear();
        self.phase = phase;
    }
}

/// An answer beside its own trades.
impl Book {
    fn check_answer(&self, call: &Call, done: &Done, trades: &[Trade]) -> Checked {
        expect(done.trades == trades.len() as u64, || {
            format!("{done:?} with {} trades", trades.len())
        })?;
        let lots: u64 = trades.iter().map(|trade| trade.lots).sum();
        expect(done.filled == lots, || {
            format!("{done:?}, but the trades fill {lots} lots")
        })?;
        match call {
            Call::Group {
                participant,
                members,
            } => check_members(*participant, members, done, trades),
            Call::EnterOffer(offer) => self.check_offer(offer, done, trades),
            Call::SecondPart { .. } | Call::NewDay { .. } => {
                expect(*done == Done::default(), || format!("{done:?}, not zeros"))
            }
            _ => Ok(()),
        }
    }
}

/// An accepted group filled each member whole.
fn check_members(participant: u64, members: &[Member], done: &Done, trades: &[Trade]) -> Checked {
    for (code, member) in (done.code..).zip(members) {
        let of_member = trades.iter().filter(|trade| match member.side {
            Side::Buy => trade.buyer == participant && trade.buy_code == code,
            Side::Sell => trade.seller == participant && trade.sell_code == code,
        });
        let lots: u64 = of_member.map(|trade| trade.lots).sum();
        expect(lots == member.lots, || {
            format!("member {member:?} filled {lots} lots")
        })?;
    }
    Ok(())
}

/// Reckoning and comparing.
impl Book {
    pub fn participants(&self) -> usize {
        self.participants
    }

    pub fn currencies(&self) -> usize {
        self.currencies
    }

    pub fn securities(&self) -> usize {
        self.securities.len()
    }

    pub fn phase(&self) -> Phase {
        self.phase
    }

    pub fn orders_waiting(&self) -> usize {
        self.waiting.len()
    }

    /// Whether a trade takes this waiting order before one that only came later,
    /// but has a lower code of another participant's.
    pub fn precedes_lower_code(&self, side: Side, participant: u64, code: u64) -> bool {
        let named = |order: &BookedOrder| {
            order.side == side && order.participant as u64 == participant && order.code == code
        };
        let Some(place) = self.waiting.iter().position(named) else {
            return false;
        };
        let older = self.waiting[place];
        let younger = &self.waiting[place + 1..];
        younger.iter().any(|order| {
            order.participant != older.participant
                && order.code < older.code
                && stand_equal(order, &older)
        })
    }

    pub fn compare(&self, engine: &Engine) -> Checked {
        self.compare_phase(engine.phase())?;
        let waiting: Vec<BookedOrder> = engine.waiting().iter().map(BookedOrder::from).collect();
        self.compare_waiting(&waiting)?;
        self.check_uncrossed()?;
        for security in 0..self.securities.len() {
            self.compare_traded(security, engine.traded(security))?;
        }
        for currency in 0..self.currencies {
            self.compare_market(currency, engine.account(currency))?;
        }
        self.compare_date(engine.date())?;
        self.compare_deals(engine.deals())?;
        self.compare_positions(engine)
    }

    pub fn compare_phase(&self, phase: Phase) -> Checked {
        expect(self.phase == phase, || {
            format!("phase: book {:?}, state {phase:?}", self.phase)
        })
    }

    pub fn compare_waiting(&self, waiting: &[BookedOrder]) -> Checked {
        expect(self.waiting == waiting, || {
            format!("waiting: book {:?}, state {waiting:?}", self.waiting)
        })
    }

    /// In continuous trading no waiting buy reaches a waiting sell; offers aren't
    /// meant.
    pub fn check_uncrossed(&self) -> Checked {
        if self.phase != Phase::Open {
            return Ok(());
        }
        for security in 0..self.securities.len() {
            let dearest_buy = self.prices(Side::Buy, security).max();
            let cheapest_sell = self.prices(Side::Sell, security).min();
            if let (Some(buy), Some(sell)) = (dearest_buy, cheapest_sell) {
                expect(buy < sell, || {
                    format!("in {security} a buy waits at {buy}, a sell at {sell}")
                })?;
            }
        }
        Ok(())
    }

    /// The prices written on the orders that wait on one side of a security.
    fn prices(&self, side: Side, security: usize) -> impl Iterator<Item = u64> + '_ {
        let waiting = self.waiting.iter();
        let of_side = waiting.filter(move |order| order.side == side && order.security == security);
        of_side.filter_map(|order| match order.kind {
            WaitingKind::Kept(price) => Some(price),
            WaitingKind::Closing | WaitingKind::Offer(_) => None,
        })
    }

    pub fn compare_traded(&self, security: usize, state: Traded) -> Checked {
        let book = self.traded[security];
        let same =
            book.pieces == i128::from(state.pieces) && book.turnover == i128::from(state.turnover);
        expect(same, || {
            format!("Q and T of {security}: book {book:?}, state {state:?}")
        })
    }

    pub fn compare_market(&self, currency: usize, state: u64) -> Checked {
        let book = self.market[currency];
        expect(book == i128::from(state), || {
            format!("the market's account of {currency}: book {book}, state {state}")
        })
    }

    fn compare_positions(&self, engine: &Engine) -> Checked {
        let needs = self.needs();
        for participant in 0..self.participants {
            for currency in 0..self.currencies {
                let position = engine.money(participant, currency);
                self.compare_money(&needs, participant, currency, position)?;
            }
            for security in 0..self.securities.len() {
                let position = engine.pieces(participant, security);
                self.compare_pieces(&needs, participant, security, position)?;
            }
        }
        Ok(())
    }

    pub fn compare_money(
        &self,
        needs: &Needs,
        participant: usize,
        currency: usize,
        position: Position,
    ) -> Checked {
        let balance = self.money[participant][currency];
        let need = needs.money[participant][currency];
        compare_position(balance, need, position)
            .map_err(|fault| format!("money {participant}, {currency}: {fault}"))
    }

    pub fn compare_pieces(
        &self,
        needs: &Needs,
        participant: usize,
        security: usize,
        position: Position,
    ) -> Checked {
        let balance = self.pieces[participant][security];
        let need = needs.pieces[participant][security];
        compare_position(balance, need, position)
            .map_err(|fault| format!("pieces {participant}, {security}: {fault}"))
    }

    /// What the book's waiting orders need, a closing buy at the closing price
    /// reckoned from the book's own Q and T.
    pub fn needs(&self) -> Needs {
        let mut needs = Needs {
            money: vec![vec![0; self.currencies]; self.participants],
            pieces: vec![vec![0; self.securities.len()]; self.participants],
        };
        for order in &self.waiting {
            let line = self.securities[order.security];
            let pieces = i128::from(order.lots) * i128::from(line.lot_size);
            let price = match order.kind {
                WaitingKind::Kept(price) => i128::from(price),
                WaitingKind::Closing => self.closing_price(order.security),
                WaitingKind::Offer(terms) => i128::from(terms.price),
            };
            let currency = line.currency as usize;
            let sum = sum_of(price * pieces, line);
            match order.side {
                Side::Buy => needs.money[order.participant][currency] += sum + self.fee(sum),
                Side::Sell => needs.pieces[order.participant][order.security] += pieces,
            }
        }
        needs
    }
}

impl Book {
    /// The rate for each full 100,000 of the sum, and its part for the rest,
    /// rounded down.
    fn fee(&self, sum: i128) -> i128 {
        sum / FULL_SUM * self.rate + sum % FULL_SUM * self.rate / FULL_SUM
    }

    /// T / Q and a half, rounded down; 0 where nothing traded.
    fn closing_price(&self, security: usize) -> i128 {
        let traded = self.traded[security];
        let halves = 2 * traded.turnover + traded.pieces;
        halves.checked_div(2 * traded.pieces).unwrap_or(0)
    }
}

/// Only arrival decides between them. Of offers the lots must be equal too, as
/// the counter of one isn't the other's.
fn stand_equal(order: &BookedOrder, other: &BookedOrder) -> bool {
    let same_lots = order.lots == other.lots || !matches!(order.kind, WaitingKind::Offer(_));
    order.side == other.side
        && order.security == other.security
        && order.kind == other.kind
        && same_lots
}

/// Of a value in prices: money already, or hundredths of a percent of the
/// nominal, which is taken for each full 10,000 of them, and in part for the
/// rest, rounded down.
fn sum_of(value: i128, line: SecurityLine) -> i128 {
    if line.nominal == 0 {
        return value;
    }
    let nominal = i128::from(line.nominal);
    value / FULL_NOMINAL * nominal + value % FULL_NOMINAL * nominal / FULL_NOMINAL
}

/// Blocked amounts by participant, then currency or security.
pub struct Needs {
    money: Vec<Vec<i128>>,
    pieces: Vec<Vec<i128>>,
}

fn compare_position(balance: i128, need: i128, position: Position) -> Checked {
    let sum = i128::from(position.free) + i128::from(position.blocked);
    expect(sum == balance, || {
        format!("balance {balance}, but {position:?}")
    })?;
    expect(i128::from(position.blocked) == need, || {
        format!("need {need}, but {position:?}")
    })
}
