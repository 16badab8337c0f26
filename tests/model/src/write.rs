//! Writes the heading and calls as lines of a day file or a script.

use crate::calls::{
    Call, ClosingEntry, Entry, EntryKind, Member, Movement, Offer, Opening, SecurityLine, Side,
    Terms,
};

pub fn write_heading(opening: &Opening, text: &mut Vec<u8>) {
    let Opening {
        participants,
        currencies,
        securities,
        rate,
        date,
    } = opening;
    let count = securities.len();
    let counts = format!("H,{participants},{currencies},{count}");
    match date {
        0 => write_longer(&counts, *rate, text),
        _ => line(text, &format!("{counts},{rate},{date}")),
    }
    for security in securities {
        write_security(security, text);
    }
}

fn write_security(security: &SecurityLine, text: &mut Vec<u8>) {
    let SecurityLine {
        currency,
        lot_size,
        price_step,
        nominal,
    } = security;
    let numbers = format!("S,{currency},{lot_size},{price_step}");
    write_longer(&numbers, *nominal, text);
}

/// A line of the heading with one number more. Where this is 0 the line is
/// that of a day file, which doesn't have it.
fn write_longer(written: &str, number: u64, text: &mut Vec<u8>) {
    match number {
        0 => line(text, written),
        _ => line(text, &format!("{written},{number}")),
    }
}

pub fn write_call(call: &Call, text: &mut Vec<u8>) {
    match call {
        Call::MoneyUp(movement) => write_movement('R', movement, text),
        Call::MoneyDown(movement) => write_movement('W', movement, text),
        Call::PiecesUp(movement) => write_movement('D', movement, text),
        Call::PiecesDown(movement) => write_movement('E', movement, text),
        Call::Enter(entry) => write_entry(entry, text),
        Call::Cancel { participant, code } => line(text, &format!("X,{participant},{code}")),
        Call::Group {
            participant,
            members,
        } => write_group(*participant, members, text),
        Call::StartCollecting => line(text, "COLLECT"),
        Call::EndCollecting => line(text, "AUCTION"),
        Call::StartClosing => line(text, "C"),
        Call::EnterClosing(entry) => write_closing_entry(entry, text),
        Call::EndSession => line(text, "Z"),
        Call::EnterOffer(offer) => write_offer(offer, text),
        Call::SecondPart { place } => line(text, &format!("SECOND,{place}")),
        Call::NewDay { date } => line(text, &format!("DAY,{date}")),
    }
}

pub fn line(text: &mut Vec<u8>, written: &str) {
    text.extend_from_slice(written.as_bytes());
    text.push(b'\n');
}

fn side_letter(side: Side) -> char {
    match side {
        Side::Buy => 'B',
        Side::Sell => 'L',
    }
}

fn write_movement(letter: char, movement: &Movement, text: &mut Vec<u8>) {
    let Movement {
        participant,
        asset,
        amount,
    } = movement;
    line(text, &format!("{letter},{participant},{asset},{amount}"));
}

fn write_entry(entry: &Entry, text: &mut Vec<u8>) {
    let Entry {
        participant,
        side,
        security,
        price,
        lots,
        kind,
    } = entry;
    let side = side_letter(*side);
    let kind = match kind {
        EntryKind::Kept => 'K',
        EntryKind::Immediate => 'I',
        EntryKind::FillOrKill => 'A',
    };
    line(
        text,
        &format!("{side},{participant},{security},{price},{lots},{kind}"),
    );
}

fn write_closing_entry(entry: &ClosingEntry, text: &mut Vec<u8>) {
    let ClosingEntry {
        participant,
        side,
        security,
        lots,
    } = entry;
    let side = side_letter(*side);
    line(text, &format!("P,{participant},{side},{security},{lots}"));
}

fn write_offer(offer: &Offer, text: &mut Vec<u8>) {
    let Offer {
        participant,
        side,
        security,
        lots,
        terms: Terms { price, rate, term },
    } = offer;
    let side = side_letter(*side);
    line(
        text,
        &format!("OFFER,{participant},{side},{security},{price},{lots},{rate},{term}"),
    );
}

fn write_group(participant: u64, members: &[Member], text: &mut Vec<u8>) {
    line(text, &format!("G,{participant},{}", members.len()));
    for member in members {
        let Member {
            side,
            security,
            price,
            lots,
        } = member;
        let side = side_letter(*side);
        line(text, &format!("M,{side},{security},{price},{lots}"));
    }
}
