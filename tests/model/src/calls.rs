//! The words of the trading day: what a call is handed and what it answers.

/// Numbers of the refusals, by the question whose answer was "no".
pub mod refusal {
    pub const UNSOUND: u64 = 1;
    pub const LIST_TOO_SHORT: u64 = 2;
    pub const GROUP_SIZE: u64 = 3;
    pub const PARTICIPANT: u64 = 4;
    pub const CURRENCY_OR_SECURITY: u64 = 5;
    pub const PHASE: u64 = 6;
    pub const AMOUNT: u64 = 7;
    pub const PRICE: u64 = 8;
    pub const TOTAL: u64 = 9;
    pub const FREE_FOR_DECREASE: u64 = 10;
    pub const NOTHING_TRADED: u64 = 11;
    pub const BOOK_FULL: u64 = 12;
    pub const CODES_USED_UP: u64 = 13;
    pub const FREE_FOR_ORDER: u64 = 14;
    pub const NOT_FILLABLE: u64 = 15;
    /// Or no such open deal.
    pub const NO_SUCH_ORDER: u64 = 16;
    pub const COUNTS: u64 = 17;
    pub const SECURITY_LINE: u64 = 18;
    pub const MALFORMED: u64 = 19;
    pub const TEXT_TOO_LONG: u64 = 20;
    pub const CODE_GIVEN: u64 = 21;
    pub const RATE: u64 = 22;
    pub const NOMINAL: u64 = 23;
    pub const DATE: u64 = 24;
    pub const RATE_OR_FIRST_SUM: u64 = 25;
    pub const DEALS_FULL: u64 = 26;
}

#[derive(Clone, Copy, PartialEq, Eq, Debug)]
pub enum Side {
    Buy,
    Sell,
}

#[derive(Clone, Copy, PartialEq, Eq, Debug)]
pub enum EntryKind {
    Kept,
    Immediate,
    FillOrKill,
}

#[derive(Clone, Copy, PartialEq, Eq, Debug)]
pub enum Phase {
    Open,
    Collecting,
    Closing,
    Closed,
}

/// What a repurchase offer names besides its security and lots: the price, the
/// rate in hundredths of a percent a year, and the term in days.
#[derive(Clone, Copy, PartialEq, Eq, Debug)]
pub struct Terms {
    pub price: u64,
    pub rate: u64,
    pub term: u64,
}

/// A closing order alone has no price of its own. An offer waits among the
/// orders, and meets none of them.
#[derive(Clone, Copy, PartialEq, Eq, Debug)]
pub enum WaitingKind {
    Kept(u64),
    Closing,
    Offer(Terms),
}

/// Its code is one of its participant's own. The arrival number is shared by all
/// and decides wherever an order is to be the older one; nobody is told it.
#[derive(Clone, Copy, PartialEq, Eq, Debug)]
pub struct WaitingOrder {
    pub arrival: u64,
    pub code: u64,
    pub participant: usize,
    pub side: Side,
    pub security: usize,
    pub lots: u64,
    pub kind: WaitingKind,
}

/// A repurchase deal whose second part is still to come. Buyer and seller are
/// those of the first part.
#[derive(Clone, Copy, PartialEq, Eq, Debug)]
pub struct Deal {
    pub buyer: usize,
    pub seller: usize,
    pub security: usize,
    pub lots: u64,
    pub terms: Terms,
    pub first_day: u64,
}

impl Deal {
    pub fn due_day(&self) -> u64 {
        self.first_day + self.terms.term
    }
}

#[derive(Clone, Copy, PartialEq, Eq, Debug)]
pub struct SecurityLine {
    pub currency: u64,
    pub lot_size: u64,
    pub price_step: u64,
    /// Of a piece, in minor units, or 0 for none. With one, prices are in
    /// hundredths of a percent of it.
    pub nominal: u64,
}

#[derive(Clone, PartialEq, Eq, Debug)]
pub struct Opening {
    pub participants: u64,
    pub currencies: u64,
    pub securities: Vec<SecurityLine>,
    /// Of the tariff, in hundred-thousandths of a trade's sum.
    pub rate: u64,
    /// In days from 1 January 1970.
    pub date: u64,
}

#[derive(Clone, Copy, PartialEq, Eq, Debug)]
pub struct Entry {
    pub participant: u64,
    pub side: Side,
    pub security: u64,
    pub price: u64,
    pub lots: u64,
    pub kind: EntryKind,
}

#[derive(Clone, Copy, PartialEq, Eq, Debug)]
pub struct ClosingEntry {
    pub participant: u64,
    pub side: Side,
    pub security: u64,
    pub lots: u64,
}

#[derive(Clone, Copy, PartialEq, Eq, Debug)]
pub struct Offer {
    pub participant: u64,
    pub side: Side,
    pub security: u64,
    pub lots: u64,
    pub terms: Terms,
}

/// One order of a linked group; its participant is the group's.
#[derive(Clone, Copy, PartialEq, Eq, Debug)]
pub struct Member {
    pub side: Side,
    pub security: u64,
    pub price: u64,
    pub lots: u64,
}

/// A movement of free money (`asset` is a currency) or of free pieces
/// (`asset` is a security).
#[derive(Clone, Copy, PartialEq, Eq, Debug)]
pub struct Movement {
    pub participant: u64,
    pub asset: u64,
    pub amount: u64,
}

#[derive(Clone, PartialEq, Eq, Debug)]
pub enum Call {
    MoneyUp(Movement),
    MoneyDown(Movement),
    PiecesUp(Movement),
    PiecesDown(Movement),
    Enter(Entry),
    Cancel {
        participant: u64,
        code: u64,
    },
    Group {
        participant: u64,
        members: Vec<Member>,
    },
    StartCollecting,
    EndCollecting,
    StartClosing,
    EnterClosing(ClosingEntry),
    EndSession,
    EnterOffer(Offer),
    /// Of the open deal at this place, from 1.
    SecondPart {
        place: u64,
    },
    NewDay {
        date: u64,
    },
}

impl Call {
    /// Orders, offers, groups, the end of collecting and the session's end are
    /// lent a list for their trades. A closing order writes none, nor does a
    /// second part.
    pub fn writes_trades(&self) -> bool {
        matches!(
            self,
            Call::Enter(_)
                | Call::EnterOffer(_)
                | Call::Group { .. }
                | Call::EndCollecting
                | Call::EndSession
        )
    }
}

#[derive(Clone, Copy, PartialEq, Eq, Debug)]
pub struct Refused {
    pub number: u64,
    pub place: u64,
}

#[derive(Clone, Copy, PartialEq, Eq, Debug, Default)]
pub struct Done {
    pub code: u64,
    pub filled: u64,
    pub left: u64,
    pub trades: u64,
}

pub type Answer = Result<Done, Refused>;

/// A refusal without a place.
pub fn refused(number: u64) -> Refused {
    Refused { number, place: 0 }
}

/// One entry of the trade list, in the list's order of numbers.
#[derive(Clone, Copy, PartialEq, Eq, Debug)]
pub struct Trade {
    pub buy_code: u64,
    pub sell_code: u64,
    pub buyer: u64,
    pub seller: u64,
    pub security: u64,
    pub price: u64,
    pub lots: u64,
    pub sum: u64,
}
