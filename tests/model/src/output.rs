//! The lines that a text prints: answers, trades and the lines of the end.

use crate::calls::{Answer, Deal, Phase, Side, Trade, WaitingKind, WaitingOrder};
use crate::engine::{Engine, Position};

type PrintLines = fn(&Engine, &mut Vec<u8>);

/// The lines of the end in their order, each from its level on.
const END: [(u8, PrintLines); 9] = [
    (0, print_money),
    (0, print_pieces),
    (1, print_phase),
    (1, print_turnovers),
    (7, print_codes),
    (1, print_waiting),
    (3, print_market),
    (6, print_date),
    (6, print_deals),
];

pub fn print_end<const LEVEL: u8>(engine: &Engine, out: &mut Vec<u8>) {
    for (level, print) in END {
        if level <= LEVEL {
            print(engine, out);
        }
    }
}

pub fn print_answer(out: &mut Vec<u8>, line: u64, answer: &Answer) {
    match answer {
        Ok(done) => {
            let numbers = [line, 0, 0, done.code, done.filled, done.left, done.trades];
            print_line(out, b"A", &numbers);
        }
        Err(refused) => {
            let numbers = [line, refused.number, refused.place, 0, 0, 0, 0];
            print_line(out, b"A", &numbers);
        }
    }
}

pub fn print_trade(out: &mut Vec<u8>, trade: &Trade) {
    let numbers = [
        trade.buy_code,
        trade.sell_code,
        trade.buyer,
        trade.seller,
        trade.security,
        trade.price,
        trade.lots,
        trade.sum,
    ];
    print_line(out, b"T", &numbers);
}

fn print_money(engine: &Engine, out: &mut Vec<u8>) {
    for participant in 0..engine.participants() {
        for currency in 0..engine.currencies() {
            let position = engine.money(participant, currency);
            print_position(out, b"M", participant, currency, position);
        }
    }
}

fn print_pieces(engine: &Engine, out: &mut Vec<u8>) {
    for participant in 0..engine.participants() {
        for security in 0..engine.securities().len() {
            let position = engine.pieces(participant, security);
            print_position(out, b"Q", participant, security, position);
        }
    }
}

fn print_position(
    out: &mut Vec<u8>,
    word: &[u8],
    participant: usize,
    asset: usize,
    position: Position,
) {
    let numbers = [
        participant as u64,
        asset as u64,
        position.free,
        position.blocked,
    ];
    print_line(out, word, &numbers);
}

fn phase_word(phase: Phase) -> &'static [u8] {
    match phase {
        Phase::Open => b"open",
        Phase::Collecting => b"collecting",
        Phase::Closing => b"closing",
        Phase::Closed => b"closed",
    }
}

fn print_phase(engine: &Engine, out: &mut Vec<u8>) {
    out.extend_from_slice(b"PHASE,");
    out.extend_from_slice(phase_word(engine.phase()));
    out.push(b'\n');
}

fn print_turnovers(engine: &Engine, out: &mut Vec<u8>) {
    for security in 0..engine.securities().len() {
        let traded = engine.traded(security);
        let numbers = [security as u64, traded.pieces, traded.turnover];
        print_line(out, b"TURNOVER", &numbers);
    }
}

fn print_codes(engine: &Engine, out: &mut Vec<u8>) {
    for participant in 0..engine.participants() {
        let numbers = [participant as u64, engine.codes_given(participant)];
        print_line(out, b"CODES", &numbers);
    }
}

fn print_waiting(engine: &Engine, out: &mut Vec<u8>) {
    for order in engine.waiting() {
        print_waiting_order(out, order);
    }
}

fn print_market(engine: &Engine, out: &mut Vec<u8>) {
    for currency in 0..engine.currencies() {
        let numbers = [currency as u64, engine.account(currency)];
        print_line(out, b"MARKET", &numbers);
    }
}

fn print_date(engine: &Engine, out: &mut Vec<u8>) {
    print_line(out, b"DATE", &[engine.date()]);
}

fn print_deals(engine: &Engine, out: &mut Vec<u8>) {
    for (place, deal) in (1..).zip(engine.deals()) {
        print_deal(out, place, deal, engine.sums(deal));
    }
}

fn print_deal(out: &mut Vec<u8>, place: u64, deal: &Deal, (first_sum, second_sum): (u64, u64)) {
    let numbers = [
        place,
        deal.buyer as u64,
        deal.seller as u64,
        deal.security as u64,
        deal.lots,
        deal.terms.price,
        deal.terms.rate,
        deal.first_day,
        deal.due_day(),
        first_sum,
        second_sum,
    ];
    print_line(out, b"DEAL", &numbers);
}

/// A closing order has no price and prints 0; an offer prints its rate and term
/// after its price.
fn print_waiting_order(out: &mut Vec<u8>, order: &WaitingOrder) {
    let side: &[u8] = match order.side {
        Side::Buy => b",B",
        Side::Sell => b",L",
    };
    out.extend_from_slice(b"WAITS");
    print_fields(out, &[order.participant as u64, order.code]);
    out.extend_from_slice(side);
    print_fields(out, &[order.security as u64, order.lots]);
    match order.kind {
        WaitingKind::Kept(price) => print_kind(out, b",K", &[price]),
        WaitingKind::Closing => print_kind(out, b",P", &[0]),
        WaitingKind::Offer(terms) => {
            print_kind(out, b",OFFER", &[terms.price, terms.rate, terms.term]);
        }
    }
    out.push(b'\n');
}

fn print_kind(out: &mut Vec<u8>, kind: &[u8], numbers: &[u64]) {
    out.extend_from_slice(kind);
    print_fields(out, numbers);
}

pub fn print_line(out: &mut Vec<u8>, word: &[u8], numbers: &[u64]) {
    out.extend_from_slice(word);
    print_fields(out, numbers);
    out.push(b'\n');
}

fn print_fields(out: &mut Vec<u8>, numbers: &[u64]) {
    for &number in numbers {
        out.push(b',');
        print_number(out, number);
    }
}

fn print_number(out: &mut Vec<u8>, mut number: u64) {
    let mut digits = [0; 20];
    let mut start = digits.len();
    loop {
        start -= 1;
        digits[start] = b'0' + (number % 10) as u8;
        number /= 10;
        if number == 0 {
            break;
        }
    }
    out.extend_from_slice(&digits[start..]);
}
