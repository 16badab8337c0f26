//! Feeds the book from a day file or a script and what a program printed for
//! it, so that any engine's output is checked without a look at its state.

use crate::book::{expect, known, Book, BookedOrder, Checked};
use crate::calls::{
    refusal, refused, Answer, Call, Done, Opening, Phase, Refused, Side, Terms, Trade, WaitingKind,
};
use crate::engine::{Engine, Position, Traded, LIST_LENGTH};
use crate::reader::{number, Command, LineReader, TEXT_LIMIT};

/// The printed lines, taken one after another.
struct Printed<'output> {
    rest: &'output [u8],
}

/// One printed line, and the fields after its word.
struct Line<'output, const COUNT: usize> {
    whole: &'output [u8],
    fields: [&'output [u8]; COUNT],
}

impl<'output, const COUNT: usize> Line<'output, COUNT> {
    /// A line with the word due and so many fields after it.
    fn new(whole: &'output [u8], word: &str) -> Result<Self, String> {
        let fields = fields(whole, word).ok_or_else(|| {
            let printed = whole.escape_ascii();
            format!("no {word} line of {COUNT} fields: {printed}")
        })?;
        Ok(Line { whole, fields })
    }

    fn read<Item>(&self, read: impl FnOnce(&Self) -> Option<Item>) -> Result<Item, String> {
        read(self).ok_or_else(|| format!("a wrong field: {}", self.whole.escape_ascii()))
    }

    fn number(&self, place: usize) -> Option<u64> {
        number(self.fields[place])
    }

    /// An index in the book's tables.
    fn index(&self, place: usize) -> Option<usize> {
        usize::try_from(self.number(place)?).ok()
    }

    fn phase(&self, place: usize) -> Option<Phase> {
        match self.fields[place] {
            b"open" => Some(Phase::Open),
            b"collecting" => Some(Phase::Collecting),
            b"closing" => Some(Phase::Closing),
            b"closed" => Some(Phase::Closed),
            _ => None,
        }
    }

    fn side(&self, place: usize) -> Option<Side> {
        match self.fields[place] {
            b"B" => Some(Side::Buy),
            b"L" => Some(Side::Sell),
            _ => None,
        }
    }

    /// A waiting order's kind, with the price in the field after it.
    fn order_kind(&self, place: usize) -> Option<WaitingKind> {
        match (self.fields[place], self.number(place + 1)?) {
            (b"K", price) => Some(WaitingKind::Kept(price)),
            (b"P", 0) => Some(WaitingKind::Closing),
            _ => None,
        }
    }

    /// A waiting offer's, with price, rate and term in the fields after it.
    fn offer_kind(&self, place: usize) -> Option<WaitingKind> {
        let terms = Terms {
            price: self.number(place + 1)?,
            rate: self.number(place + 2)?,
            term: self.number(place + 3)?,
        };
        (self.fields[place] == b"OFFER").then_some(WaitingKind::Offer(terms))
    }

    /// What waits, of the kind that follows the other fields.
    fn waiting_order(&self, kind: fn(&Self, usize) -> Option<WaitingKind>) -> Option<BookedOrder> {
        Some(BookedOrder {
            participant: self.index(0)?,
            code: self.number(1)?,
            side: self.side(2)?,
            security: self.index(3)?,
            lots: self.number(4)?,
            kind: kind(self, 5)?,
        })
    }
}

impl<'output> Printed<'output> {
    /// The next line, without its byte 10.
    fn whole(&mut self) -> Result<&'output [u8], String> {
        let end = self
            .rest
            .iter()
            .position(|&byte| byte == b'\n')
            .ok_or("the output ends too early")?;
        let whole = &self.rest[..end];
        self.rest = &self.rest[end + 1..];
        Ok(whole)
    }

    /// The next line, which must have the word due and so many fields after it.
    fn line<const COUNT: usize>(&mut self, word: &str) -> Result<Line<'output, COUNT>, String> {
        Line::new(self.whole()?, word)
    }

    fn numbers<const COUNT: usize>(&mut self, word: &str) -> Result<[u64; COUNT], String> {
        self.line::<COUNT>(word)?.read(|line| {
            let mut numbers = [0; COUNT];
            for (place, into) in numbers.iter_mut().enumerate() {
                *into = line.number(place)?;
            }
            Some(numbers)
        })
    }

    /// A command's answer, which must carry its line number.
    fn answer(&mut self, line: u64) -> Result<Answer, String> {
        let [printed, refusal, place, code, filled, left, trades] = self.numbers("A")?;
        expect(printed == line, || {
            format!("answer for line {printed}, due for line {line}")
        })?;
        if refusal == 0 {
            return Ok(Ok(Done {
                code,
                filled,
                left,
                trades,
            }));
        }
        expect([code, filled, left, trades] == [0; 4], || {
            format!("line {line} is refused, but its answer isn't zero")
        })?;
        Ok(Err(Refused {
            number: refusal,
            place,
        }))
    }

    fn trades(&mut self, answer: &Answer) -> Result<Vec<Trade>, String> {
        let count = answer.map_or(0, |done| done.trades);
        (0..count).map(|_| self.trade()).collect()
    }

    fn trade(&mut self) -> Result<Trade, String> {
        let [buy_code, sell_code, buyer, seller, security, price, lots, sum] = self.numbers("T")?;
        Ok(Trade {
            buy_code,
            sell_code,
            buyer,
            seller,
            security,
            price,
            lots,
            sum,
        })
    }

    fn position(
        &mut self,
        word: &str,
        participant: usize,
        asset: usize,
    ) -> Result<Position, String> {
        let [printed_participant, printed_asset, free, blocked] = self.numbers(word)?;
        let printed = [printed_participant, printed_asset];
        expect(printed == [participant as u64, asset as u64], || {
            format!("position of {printed:?}, due of {participant}, {asset}")
        })?;
        Ok(Position { free, blocked })
    }

    fn traded(&mut self, security: usize) -> Result<Traded, String> {
        let [printed, pieces, turnover] = self.numbers("TURNOVER")?;
        expect(printed == security as u64, || {
            format!("turnover of {printed}, due of {security}")
        })?;
        Ok(Traded { pieces, turnover })
    }

    fn codes(&mut self, participant: u64) -> Result<u64, String> {
        let [printed, codes] = self.numbers("CODES")?;
        expect(printed == participant, || {
            format!("codes of {printed}, due of {participant}")
        })?;
        Ok(codes)
    }

    fn account(&mut self, currency: usize) -> Result<u64, String> {
        let [printed, amount] = self.numbers("MARKET")?;
        expect(printed == currency as u64, || {
            format!("the market's account of {printed}, due of {currency}")
        })?;
        Ok(amount)
    }

    /// An order, or an offer, whose line has two fields more.
    fn waiting_order(&mut self) -> Result<BookedOrder, String> {
        let whole = self.whole()?;
        match Line::<9>::new(whole, "WAITS") {
            Ok(line) => line.read(|line| line.waiting_order(Line::offer_kind)),
            Err(_) => {
                Line::<7>::new(whole, "WAITS")?.read(|line| line.waiting_order(Line::order_kind))
            }
        }
    }
}

fn fields<'line, const COUNT: usize>(
    line: &'line [u8],
    word: &str,
) -> Option<[&'line [u8]; COUNT]> {
    let mut parts = line.split(|&byte| byte == b',');
    if parts.next()? != word.as_bytes() {
        return None;
    }
    let mut fields = [&line[..0]; COUNT];
    for field in &mut fields {
        *field = parts.next()?;
    }
    parts.next().is_none().then_some(fields)
}

/// The book, and what it doesn't hold: the codes given to each participant, and
/// numbers lent for the trades of the next call.
struct Fed {
    book: Book,
    codes_given: Vec<u64>,
    lent: u64,
}

/// Checks what was printed for a text at its level against the book.
pub fn check_printed<const LEVEL: u8>(text: &[u8], output: &[u8]) -> Checked {
    let mut printed = Printed { rest: output };
    let mut reader = LineReader::<LEVEL>::new(text);
    match accepted_opening(text, &mut reader) {
        Some(opening) => check_day(&opening, &mut reader, &mut printed)?,
        None => {
            let [_, refusal, ..]: [u64; 7] = printed.numbers("A")?;
            expect(refusal != 0, || "a faulty heading is accepted".into())?;
        }
    }
    expect(printed.rest.is_empty(), || "surplus output".into())
}

fn accepted_opening<const LEVEL: u8>(
    text: &[u8],
    reader: &mut LineReader<LEVEL>,
) -> Option<Opening> {
    if text.len() > TEXT_LIMIT {
        return None;
    }
    let opening = reader.heading().ok()?;
    Engine::open(&opening, false).ok()?;
    Some(opening)
}

fn check_day<const LEVEL: u8>(
    opening: &Opening,
    reader: &mut LineReader<LEVEL>,
    printed: &mut Printed,
) -> Checked {
    let book = Book::new(opening);
    let mut fed = Fed {
        codes_given: vec![0; book.participants()],
        book,
        lent: LIST_LENGTH,
    };
    let heading = printed.answer(1)?;
    expect(heading == Ok(Done::default()), || {
        "the heading is refused".into()
    })?;
    while let Some((line, command)) = reader.next_command() {
        check_command::<LEVEL>(&mut fed, line, command, printed)
            .map_err(|fault| format!("line {line}: {fault}"))?;
    }
    check_end::<LEVEL>(&fed, printed)
}

fn check_command<const LEVEL: u8>(
    fed: &mut Fed,
    line: u64,
    command: Result<Command, Refused>,
    printed: &mut Printed,
) -> Checked {
    let answer = printed.answer(line)?;
    let trades = printed.trades(&answer)?;
    match command {
        Ok(Command::Call(call)) => fed.feed(&call, &answer, &trades),
        Ok(Command::Lend(count)) => {
            fed.lent = count;
            expect_answer(&answer, Ok(Done::default()))
        }
        Ok(Command::Show) => {
            expect_answer(&answer, Ok(Done::default()))?;
            check_end::<LEVEL>(fed, printed)
        }
        Err(refused) => expect_answer(&answer, Err(refused)),
    }
}

fn expect_answer(answer: &Answer, due: Answer) -> Checked {
    expect(*answer == due, || format!("{answer:?}, due {due:?}"))
}

impl Fed {
    fn feed(&mut self, call: &Call, answer: &Answer, trades: &[Trade]) -> Checked {
        let too_short = Err(refused(refusal::LIST_TOO_SHORT));
        if self.lent < LIST_LENGTH && call.writes_trades() {
            expect_answer(answer, too_short)?;
        } else {
            expect(*answer != too_short, || "the list lent suffices".into())?;
        }
        if let Ok(done) = answer {
            self.take_codes(call, done.code)?;
        }
        self.book.feed(call, answer, trades)
    }

    /// An accepted order or offer takes its participant's next code, a group one
    /// for each member; a new day begins without any.
    fn take_codes(&mut self, call: &Call, code: u64) -> Checked {
        let (participant, taken) = match call {
            Call::Enter(entry) => (entry.participant, 1),
            Call::EnterClosing(entry) => (entry.participant, 1),
            Call::EnterOffer(offer) => (offer.participant, 1),
            Call::Group {
                participant,
                members,
            } => (*participant, members.len() as u64),
            Call::NewDay { .. } => {
                self.codes_given.fill(0);
                return Ok(());
            }
            _ => return Ok(()),
        };
        let participant = known(participant, self.codes_given.len(), "participant")?;
        let codes_given = &mut self.codes_given[participant];
        expect(code == *codes_given + 1, || {
            format!("code {code} of {participant} after {codes_given}")
        })?;
        *codes_given += taken;
        Ok(())
    }
}

type CheckLines = fn(&Fed, &mut Printed) -> Checked;

/// The lines of the end in their order, each from its level on.
const END: [(u8, CheckLines); 9] = [
    (0, check_money),
    (0, check_pieces),
    (1, check_phase),
    (1, check_turnovers),
    (7, check_codes),
    (1, check_waiting),
    (3, check_market),
    (6, check_date),
    (6, check_deals),
];

fn check_end<const LEVEL: u8>(fed: &Fed, printed: &mut Printed) -> Checked {
    for (level, check) in END {
        if level <= LEVEL {
            check(fed, printed)?;
        }
    }
    Ok(())
}

fn check_money(fed: &Fed, printed: &mut Printed) -> Checked {
    let book = &fed.book;
    let needs = book.needs();
    for participant in 0..book.participants() {
        for currency in 0..book.currencies() {
            let position = printed.position("M", participant, currency)?;
            book.compare_money(&needs, participant, currency, position)?;
        }
    }
    Ok(())
}

fn check_pieces(fed: &Fed, printed: &mut Printed) -> Checked {
    let book = &fed.book;
    let needs = book.needs();
    for participant in 0..book.participants() {
        for security in 0..book.securities() {
            let position = printed.position("Q", participant, security)?;
            book.compare_pieces(&needs, participant, security, position)?;
        }
    }
    Ok(())
}

fn check_phase(fed: &Fed, printed: &mut Printed) -> Checked {
    let phase = printed.line::<1>("PHASE")?.read(|line| line.phase(0))?;
    fed.book.compare_phase(phase)
}

fn check_turnovers(fed: &Fed, printed: &mut Printed) -> Checked {
    for security in 0..fed.book.securities() {
        let traded = printed.traded(security)?;
        fed.book.compare_traded(security, traded)?;
    }
    Ok(())
}

fn check_codes(fed: &Fed, printed: &mut Printed) -> Checked {
    for (participant, codes_given) in (0..).zip(&fed.codes_given) {
        let codes = printed.codes(participant)?;
        expect(codes == *codes_given, || {
            format!("{codes} codes of {participant}, but {codes_given} were answered")
        })?;
    }
    Ok(())
}

fn check_waiting(fed: &Fed, printed: &mut Printed) -> Checked {
    let count = fed.book.orders_waiting();
    let waiting: Result<Vec<BookedOrder>, String> =
        (0..count).map(|_| printed.waiting_order()).collect();
    fed.book.compare_waiting(&waiting?)?;
    fed.book.check_uncrossed()
}

fn check_market(fed: &Fed, printed: &mut Printed) -> Checked {
    for currency in 0..fed.book.currencies() {
        let account = printed.account(currency)?;
        fed.book.compare_market(currency, account)?;
    }
    Ok(())
}

fn check_date(fed: &Fed, printed: &mut Printed) -> Checked {
    let [date] = printed.numbers("DATE")?;
    fed.book.compare_date(date)
}

fn check_deals(fed: &Fed, printed: &mut Printed) -> Checked {
    for place in 0..fed.book.open_deals() {
        let numbers = printed.numbers("DEAL")?;
        fed.book.compare_printed_deal(place, numbers)?;
    }
    Ok(())
}
