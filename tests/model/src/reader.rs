//! Reads a text at its level, a day file or a script: lines, fields, numbers,
//! the heading, commands.

use crate::calls::{
    refusal, refused, Call, ClosingEntry, Entry, EntryKind, Member, Movement, Offer, Opening,
    Refused, SecurityLine, Side, Terms,
};
use crate::engine::GROUP_SIZES;

pub const TEXT_LIMIT: usize = 65_536;
const MOST_DIGITS: usize = 16;
const LENT_LIMIT: u64 = 4_096;

/// The lent text and how far it is read. A copy reads ahead.
#[derive(Clone, Copy)]
pub struct LineReader<'text, const LEVEL: u8> {
    rest: &'text [u8],
    line: u64,
}

/// What a line in good form asks for.
#[derive(Clone, PartialEq, Eq, Debug)]
pub enum Command {
    Call(Call),
    /// From here on each call is lent so many numbers for its trades.
    Lend(u64),
    /// The lines of the end are printed here.
    Show,
}

/// A command's line number, and the command or its refusal.
pub type NumberedCommand = (u64, Result<Command, Refused>);

/// The heading's first fault in form, by its line.
pub struct HeadingFault {
    pub line: u64,
}

impl<'text, const LEVEL: u8> LineReader<'text, LEVEL> {
    pub fn new(text: &'text [u8]) -> Self {
        LineReader {
            rest: text,
            line: 0,
        }
    }

    /// The next line without its byte 10, which the last line may lack.
    fn next_line(&mut self) -> Option<&'text [u8]> {
        if self.rest.is_empty() {
            return None;
        }
        self.line += 1;
        let rest = self.rest;
        match rest.iter().position(|&byte| byte == b'\n') {
            Some(end) => {
                self.rest = &rest[end + 1..];
                Some(&rest[..end])
            }
            None => {
                self.rest = &[];
                Some(rest)
            }
        }
    }

    /// Reads H and the S lines it announces. A missing line counts as
    /// malformed, its number one past the last line's.
    pub fn heading(&mut self) -> Result<Opening, HeadingFault> {
        let [participants, currencies, count, rate, date] =
            self.heading_line(heading_numbers::<LEVEL>)?;
        let mut securities = Vec::new();
        for _ in 0..count {
            securities.push(self.heading_line(security_line::<LEVEL>)?);
        }
        Ok(Opening {
            participants,
            currencies,
            securities,
            rate,
            date,
        })
    }

    fn heading_line<Item>(
        &mut self,
        read: fn(&[u8]) -> Option<Item>,
    ) -> Result<Item, HeadingFault> {
        let line = self.line + 1;
        self.next_line().and_then(read).ok_or(HeadingFault { line })
    }

    pub fn next_command(&mut self) -> Option<NumberedCommand> {
        let bytes = self.next_line()?;
        let line = self.line;
        let command = match bytes.first() {
            Some(b'G') => self.group(bytes).map(Command::Call),
            _ => command::<LEVEL>(bytes).ok_or(refused(refusal::MALFORMED)),
        };
        Some((line, command))
    }

    /// Takes the M lines only if all of them are there and well formed.
    fn group(&mut self, bytes: &[u8]) -> Result<Call, Refused> {
        let malformed = refused(refusal::MALFORMED);
        let (participant, count) = group_line(bytes).ok_or(malformed)?;
        let count = usize::try_from(count)
            .ok()
            .filter(|count| GROUP_SIZES.contains(count))
            .ok_or(refused(refusal::GROUP_SIZE))?;
        let mut ahead = *self;
        let members: Option<Vec<Member>> = (0..count)
            .map(|_| ahead.next_line().and_then(member_line))
            .collect();
        let members = members.ok_or(malformed)?;
        *self = ahead;
        Ok(Call::Group {
            participant,
            members,
        })
    }
}

/// The fields of one line, taken from the left.
struct Fields<'line> {
    rest: Option<&'line [u8]>,
}

impl<'line> Fields<'line> {
    fn new(line: &'line [u8]) -> Self {
        Fields { rest: Some(line) }
    }

    fn next(&mut self) -> Option<&'line [u8]> {
        let rest = self.rest?;
        match rest.iter().position(|&byte| byte == b',') {
            Some(end) => {
                self.rest = Some(&rest[end + 1..]);
                Some(&rest[..end])
            }
            None => {
                self.rest = None;
                Some(rest)
            }
        }
    }

    fn letter(&mut self) -> Option<u8> {
        match self.next()? {
            [letter] => Some(*letter),
            _ => None,
        }
    }

    fn number(&mut self) -> Option<u64> {
        number(self.next()?)
    }

    /// A number that the line may lack, where it counts as 0.
    fn number_or_0(&mut self) -> Option<u64> {
        match self.rest {
            Some(_) => self.number(),
            None => Some(0),
        }
    }

    fn side(&mut self) -> Option<Side> {
        match self.letter()? {
            b'B' => Some(Side::Buy),
            b'L' => Some(Side::Sell),
            _ => None,
        }
    }

    fn kind(&mut self) -> Option<EntryKind> {
        match self.letter()? {
            b'K' => Some(EntryKind::Kept),
            b'I' => Some(EntryKind::Immediate),
            b'A' => Some(EntryKind::FillOrKill),
            _ => None,
        }
    }

    /// How many numbers are lent.
    fn lent(&mut self) -> Option<u64> {
        self.number().filter(|&count| count <= LENT_LIMIT)
    }

    /// Passes what was read, unless a surplus field follows.
    fn end<Item>(&self, item: Item) -> Option<Item> {
        self.rest.is_none().then_some(item)
    }
}

/// 1 to 16 decimal digits without leading zeros; a lone 0 is a number.
pub fn number(digits: &[u8]) -> Option<u64> {
    let leading_zero = digits.len() > 1 && digits[0] == b'0';
    if digits.is_empty() || digits.len() > MOST_DIGITS || leading_zero {
        return None;
    }
    digits.iter().try_fold(0, |number, digit| {
        digit
            .is_ascii_digit()
            .then(|| number * 10 + u64::from(digit - b'0'))
    })
}

/// Fields after a line's letter, if the letter is the one due.
fn fields_after(letter: u8, line: &[u8]) -> Option<Fields<'_>> {
    let mut fields = Fields::new(line);
    (fields.letter()? == letter).then_some(fields)
}

/// Participants, currencies, securities, and from their levels on the rate and
/// the date.
fn heading_numbers<const LEVEL: u8>(line: &[u8]) -> Option<[u64; 5]> {
    let mut fields = fields_after(b'H', line)?;
    let counts = [fields.number()?, fields.number()?, fields.number()?];
    let rate = match LEVEL {
        3.. => fields.number_or_0()?,
        _ => 0,
    };
    let date = match LEVEL {
        6.. => fields.number_or_0()?,
        _ => 0,
    };
    let [participants, currencies, count] = counts;
    fields.end([participants, currencies, count, rate, date])
}

/// Currency, lot size, price step, and the nominal from its level on.
fn security_line<const LEVEL: u8>(line: &[u8]) -> Option<SecurityLine> {
    let mut fields = fields_after(b'S', line)?;
    let security = SecurityLine {
        currency: fields.number()?,
        lot_size: fields.number()?,
        price_step: fields.number()?,
        nominal: match LEVEL {
            5.. => fields.number_or_0()?,
            _ => 0,
        },
    };
    fields.end(security)
}

fn group_line(line: &[u8]) -> Option<(u64, u64)> {
    let mut fields = fields_after(b'G', line)?;
    let counts = (fields.number()?, fields.number()?);
    fields.end(counts)
}

fn member_line(line: &[u8]) -> Option<Member> {
    let mut fields = fields_after(b'M', line)?;
    let member = Member {
        side: fields.side()?,
        security: fields.number()?,
        price: fields.number()?,
        lots: fields.number()?,
    };
    fields.end(member)
}

/// Every line that is a command by itself. H, S and M are out of place here.
/// Each word stands beside the levels that have it, here and below.
fn command<const LEVEL: u8>(line: &[u8]) -> Option<Command> {
    let mut fields = Fields::new(line);
    let command = match (fields.next()?, LEVEL) {
        (b"LENT", 1..) => Command::Lend(fields.lent()?),
        (b"SHOW", 1..) => Command::Show,
        (word, _) => Command::Call(call::<LEVEL>(word, &mut fields)?),
    };
    fields.end(command)
}

fn call<const LEVEL: u8>(word: &[u8], fields: &mut Fields) -> Option<Call> {
    Some(match (word, LEVEL) {
        (b"R", 0..) => Call::MoneyUp(movement(fields)?),
        (b"W", 0..) => Call::MoneyDown(movement(fields)?),
        (b"D", 0..) => Call::PiecesUp(movement(fields)?),
        (b"E", 0..) => Call::PiecesDown(movement(fields)?),
        (b"B", 0..) => Call::Enter(entry(Side::Buy, fields)?),
        (b"L", 0..) => Call::Enter(entry(Side::Sell, fields)?),
        (b"X", 0..) => cancel(fields)?,
        (b"COLLECT", 2..) => Call::StartCollecting,
        (b"AUCTION", 2..) => Call::EndCollecting,
        (b"C", 0..) => Call::StartClosing,
        (b"P", 0..) => Call::EnterClosing(closing_entry(fields)?),
        (b"Z", 0..) => Call::EndSession,
        (b"OFFER", 6..) => Call::EnterOffer(offer(fields)?),
        (b"SECOND", 6..) => Call::SecondPart {
            place: fields.number()?,
        },
        (b"DAY", 6..) => Call::NewDay {
            date: fields.number()?,
        },
        _ => return None,
    })
}

fn cancel(fields: &mut Fields) -> Option<Call> {
    Some(Call::Cancel {
        participant: fields.number()?,
        code: fields.number()?,
    })
}

fn movement(fields: &mut Fields) -> Option<Movement> {
    Some(Movement {
        participant: fields.number()?,
        asset: fields.number()?,
        amount: fields.number()?,
    })
}

fn entry(side: Side, fields: &mut Fields) -> Option<Entry> {
    Some(Entry {
        participant: fields.number()?,
        side,
        security: fields.number()?,
        price: fields.number()?,
        lots: fields.number()?,
        kind: fields.kind()?,
    })
}

fn closing_entry(fields: &mut Fields) -> Option<ClosingEntry> {
    Some(ClosingEntry {
        participant: fields.number()?,
        side: fields.side()?,
        security: fields.number()?,
        lots: fields.number()?,
    })
}

fn offer(fields: &mut Fields) -> Option<Offer> {
    let (participant, side, security) = (fields.number()?, fields.side()?, fields.number()?);
    let (price, lots) = (fields.number()?, fields.number()?);
    Some(Offer {
        participant,
        side,
        security,
        lots,
        terms: Terms {
            price,
            rate: fields.number()?,
            term: fields.number()?,
        },
    })
}
