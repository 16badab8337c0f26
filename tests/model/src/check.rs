//! Runs the model on a day file or a script with the book beside it.

use crate::book::{expect, Book, Checked};
use crate::calls::{Answer, Call, EntryKind, Opening, Side, Trade};
use crate::dayfile::{run_text, Observer};
use crate::engine::{Engine, LOTS_LIMIT};
use crate::printed::check_printed;
use crate::tally::Tally;

/// Compares the book with the state after every call, up to the first fault.
struct Checker<'tally> {
    book: Option<Book>,
    line: u64,
    fault: Option<String>,
    tally: &'tally mut Tally,
}

impl Observer for Checker<'_> {
    fn opened(&mut self, opening: &Opening) {
        self.book = Some(Book::new(opening));
    }

    fn called(&mut self, line: u64, call: &Call, answer: &Answer, trades: &[Trade]) {
        self.line = line;
        self.tally.count_call(call, answer);
        self.count_second_part(call, answer);
        self.count_by_arrival(call, trades);
        self.count_fitting(call, answer);
        self.count_last_lots(trades);
        if let Some(book) = &mut self.book {
            let fed = book.feed(call, answer, trades);
            self.note(fed);
        }
    }

    fn left(&mut self, engine: &Engine) {
        if let Some(book) = &self.book {
            let compared = book.compare(engine);
            self.note(compared);
        }
    }
}

impl Checker<'_> {
    /// By the book as it is before the call.
    fn count_second_part(&mut self, call: &Call, answer: &Answer) {
        if let (Call::SecondPart { place }, Ok(_), Some(book)) = (call, answer, &self.book) {
            let days_late = book.days_late(*place).unwrap_or(0);
            self.tally.count_second_part(book.phase(), days_late);
        }
    }

    /// The same; each side of a trade that waits counts for itself.
    fn count_by_arrival(&mut self, call: &Call, trades: &[Trade]) {
        let Some(book) = &self.book else {
            return;
        };
        for trade in trades {
            for (side, participant, code) in sides_of(trade) {
                if book.precedes_lower_code(side, participant, code) {
                    self.tally.count_by_arrival(call, book.phase());
                }
            }
        }
    }

    /// The same, of an order of kind A; members of a group don't count.
    fn count_fitting(&mut self, call: &Call, answer: &Answer) {
        if let (Call::Enter(entry), Ok(_), Some(book)) = (call, answer, &self.book) {
            if entry.kind == EntryKind::FillOrKill {
                let fitting = book.fitting_lots(entry);
                self.tally.lots.count_fitting(entry.lots, fitting);
            }
        }
    }

    /// The same; only where one trade took all lots but one.
    fn count_last_lots(&mut self, trades: &[Trade]) {
        let Some(book) = &self.book else {
            return;
        };
        let all_but_one = trades.iter().filter(|trade| trade.lots == LOTS_LIMIT - 1);
        for (side, participant, code) in all_but_one.flat_map(sides_of) {
            let is_of_the_most = book.lots_left(side, participant, code) == Some(LOTS_LIMIT);
            self.tally.lots.last_lots += u64::from(is_of_the_most);
        }
    }

    fn note(&mut self, checked: Checked) {
        if let (Err(fault), None) = (checked, &self.fault) {
            self.fault = Some(format!("line {}: {fault}", self.line));
        }
    }
}

/// With participant and code.
fn sides_of(trade: &Trade) -> [(Side, u64, u64); 2] {
    [
        (Side::Buy, trade.buyer, trade.buy_code),
        (Side::Sell, trade.seller, trade.sell_code),
    ]
}

/// The model's output, once the book agrees with every state and with the
/// output, and the soundness test has changed nothing.
pub fn checked_output<const LEVEL: u8>(text: &[u8], tally: &mut Tally) -> Result<Vec<u8>, String> {
    let mut checker = Checker {
        book: None,
        line: 0,
        fault: None,
        tally,
    };
    let mut output = Vec::new();
    run_text::<LEVEL>(text, false, &mut checker, &mut output);
    if let Some(fault) = checker.fault {
        return Err(format!("book and state differ: {fault}"));
    }
    let mut output_with_soundness = Vec::new();
    run_text::<LEVEL>(text, true, &mut (), &mut output_with_soundness);
    expect(output == output_with_soundness, || {
        "the soundness test changed the output".into()
    })?;
    check_printed::<LEVEL>(text, &output)
        .map_err(|fault| format!("book and output differ: {fault}"))?;
    tally.count_output(&output);
    Ok(output)
}
