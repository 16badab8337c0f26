//! Each part of "Sound means", broken one at a time, and the questions that no
//! day file or script reaches: 1 and 13.

use crate::calls::{
    refusal, refused, Call, ClosingEntry, Entry, EntryKind, Member, Movement, Offer, Opening,
    Phase, Refused, SecurityLine, Side, Terms, Trade, WaitingKind,
};
use crate::engine::calendar::LAST_DAY;
use crate::engine::{
    Engine, CODE_LIMIT, DEAL_LIMIT, LIST_LENGTH, LOTS_LIMIT, LOT_SIZE_LIMIT, MONEY_LIMIT,
    NO_NOMINAL, PIECES_LIMIT, PRICE_LIMIT, RATE_LIMIT,
};

fn entry(participant: u64, side: Side, price: u64, lots: u64) -> Call {
    Call::Enter(Entry {
        participant,
        side,
        security: 0,
        price,
        lots,
        kind: EntryKind::Kept,
    })
}

fn movement(participant: u64, amount: u64) -> Movement {
    Movement {
        participant,
        asset: 0,
        amount,
    }
}

fn run(engine: &mut Engine, calls: &[Call]) {
    for call in calls {
        run_into(engine, call, &mut Vec::new());
    }
}

fn run_into(engine: &mut Engine, call: &Call, trades: &mut Vec<Trade>) {
    let answer = engine.call(call, trades);
    assert!(answer.is_ok(), "{call:?}: {answer:?}");
}

/// Two securities of lot 10 and step 5, money for 0 and pieces for 1.
fn opened() -> Engine {
    opened_at(0)
}

fn opened_at(rate: u64) -> Engine {
    opened_by(NO_NOMINAL, rate)
}

fn opened_by(nominal: u64, rate: u64) -> Engine {
    let line = SecurityLine {
        currency: 0,
        lot_size: 10,
        price_step: 5,
        nominal,
    };
    let opening = Opening {
        participants: 2,
        currencies: 1,
        securities: vec![line, line],
        rate,
        date: 0,
    };
    let mut engine = Engine::open(&opening, true).expect("the opening is in range");
    let reserves = [
        Call::MoneyUp(movement(0, 1_000_000)),
        Call::PiecesUp(movement(1, 1_000)),
    ];
    run(&mut engine, &reserves);
    engine
}

/// One trade, and two orders waiting.
fn trading() -> Engine {
    trading_at(0)
}

fn trading_at(rate: u64) -> Engine {
    trading_from(opened_at(rate))
}

fn trading_from(mut engine: Engine) -> Engine {
    let calls = [
        entry(1, Side::Sell, 100, 10),
        entry(0, Side::Buy, 100, 12),
        entry(1, Side::Sell, 105, 3),
    ];
    run(&mut engine, &calls);
    engine
}

/// Two orders that cross wait.
fn collecting() -> Engine {
    let mut engine = opened();
    let calls = [
        Call::StartCollecting,
        entry(1, Side::Sell, 95, 10),
        entry(0, Side::Buy, 100, 12),
    ];
    run(&mut engine, &calls);
    engine
}

fn closing() -> Engine {
    let mut engine = trading();
    let order = Call::EnterClosing(ClosingEntry {
        participant: 0,
        side: Side::Buy,
        security: 0,
        lots: 4,
    });
    run(&mut engine, &[Call::StartClosing, order]);
    engine
}

fn assert_unsound(name: &str, mut engine: Engine, break_it: impl Fn(&mut Engine)) {
    assert!(engine.is_sound(), "{name}: sound at first");
    break_it(&mut engine);
    assert!(!engine.is_sound(), "{name}: unsound once broken");
    let before = engine.clone();
    let answer = engine.call(&Call::MoneyUp(movement(0, 1)), &mut Vec::new());
    assert_eq!(answer, Err(refused(refusal::UNSOUND)), "{name}");
    assert!(engine == before, "{name}: a refusal changes nothing");
}

/// What is broken, in words and in deed.
type Break = (&'static str, fn(&mut Engine));

fn assert_each_unsound(start: fn() -> Engine, breaks: &[Break]) {
    for (name, break_it) in breaks {
        assert_unsound(name, start(), break_it);
    }
}

#[test]
fn counts_and_security_table() {
    assert_each_unsound(
        trading,
        &[
            ("no participants", |it| it.market.participants = 0),
            ("17 participants", |it| it.market.participants = 17),
            ("no currencies", |it| it.market.currencies = 0),
            ("5 currencies", |it| it.market.currencies = 5),
            ("no securities", |it| it.market.securities.clear()),
            ("unknown currency", |it| {
                it.market.securities[1].currency = 1
            }),
            ("lot 0", |it| it.market.securities[1].lot_size = 0),
            ("lot 1,001", |it| it.market.securities[1].lot_size = 1_001),
            ("step 0", |it| it.market.securities[1].price_step = 0),
            ("step 1,000,001", |it| {
                it.market.securities[1].price_step = 1_000_001
            }),
        ],
    );
}

#[test]
fn waiting_orders() {
    assert_each_unsound(
        trading,
        &[
            ("arrival 0", |it| it.state.waiting[0].arrival = 0),
            ("equal arrivals", |it| it.state.waiting[0].arrival = 3),
            ("falling arrivals", |it| it.state.waiting.swap(0, 1)),
            ("arrival above all codes given", |it| {
                it.state.waiting[1].arrival = 4
            }),
            ("unknown participant", |it| {
                it.state.waiting[0].participant = 2
            }),
            ("unknown security", |it| it.state.waiting[0].security = 2),
            ("no lots", |it| it.state.waiting[0].lots = 0),
            ("10,001 lots", |it| it.state.waiting[0].lots = 10_001),
            ("price off the step", |it| {
                it.state.waiting[1].kind = WaitingKind::Kept(106)
            }),
            ("price 0", |it| {
                it.state.waiting[1].kind = WaitingKind::Kept(0)
            }),
            ("price too high", |it| {
                it.state.waiting[1].kind = WaitingKind::Kept(1_000_005)
            }),
            ("closing order while open", |it| {
                it.state.waiting[1].kind = WaitingKind::Closing
            }),
            ("kept order while closing", |it| {
                it.state.phase = Phase::Closing
            }),
            ("kept order once closed", |it| {
                it.state.phase = Phase::Closed
            }),
        ],
    );
}

/// The buys of 0 that wait have codes 1, 2 and 3, and the sell of 1 code 2.
fn trading_on() -> Engine {
    let mut engine = trading();
    run(
        &mut engine,
        &[entry(0, Side::Buy, 95, 1), entry(0, Side::Buy, 90, 1)],
    );
    engine
}

/// The counts that stay below their limit keep all codes together at 5.
#[test]
fn codes_of_each_participant() {
    assert_each_unsound(
        trading_on,
        &[
            ("too many codes", |it| {
                it.state.codes_given[0] = CODE_LIMIT + 1
            }),
            ("codes near the greatest number", |it| {
                it.state.codes_given[1] = u64::MAX
            }),
            ("code above those of its participant", |it| {
                it.state.codes_given[..2].copy_from_slice(&[4, 1])
            }),
            ("the same of the other", |it| {
                it.state.codes_given[..2].copy_from_slice(&[2, 3])
            }),
            ("code 0", |it| it.state.waiting[1].code = 0),
            ("equal codes of one", |it| it.state.waiting[2].code = 3),
            ("falling codes of one", |it| {
                it.state.waiting[2].code = 3;
                it.state.waiting[3].code = 2;
            }),
            ("falling codes further apart", |it| {
                it.state.codes_given[0] = 4;
                it.state.waiting[0].code = 4;
            }),
        ],
    );
    let mut engine = trading_on();
    engine.state.codes_given[..2].copy_from_slice(&[CODE_LIMIT; 2]);
    engine.state.waiting[3].arrival = 2 * CODE_LIMIT;
    assert!(engine.is_sound());
}

/// Q, T and codes aren't tied to the phase.
#[test]
fn orders_while_collecting() {
    assert_each_unsound(
        collecting,
        &[
            ("price off the step", |it| {
                it.state.waiting[1].kind = WaitingKind::Kept(101)
            }),
            ("closing order while collecting", |it| {
                it.state.waiting[1].kind = WaitingKind::Closing
            }),
            ("kept orders while closing", |it| {
                it.state.phase = Phase::Closing
            }),
            ("money blocked at another price", |it| {
                it.state.money[0][0].blocked -= 600
            }),
            ("codes below those waiting", |it| {
                it.state.codes_given[0] = 0
            }),
        ],
    );
    let mut engine = trading();
    engine.state.phase = Phase::Collecting;
    assert!(engine.is_sound());
}

/// 1 before 2, 6 and 21, for both calls.
#[test]
fn start_and_end_of_collecting_ask_question_1() {
    let breaks = |engine: &mut Engine| engine.state.money[0][0].blocked += 1;
    for start in [opened, collecting, trading, closing] {
        let mut engine = start();
        breaks(&mut engine);
        let before = engine.clone();
        for call in [Call::StartCollecting, Call::EndCollecting] {
            let answer = engine.call_lent(&call, LIST_LENGTH - 1, &mut Vec::new());
            assert_eq!(answer, Err(refused(refusal::UNSOUND)), "{call:?}");
        }
        assert!(engine == before, "a refusal changes nothing");
    }
}

/// 13 comes after 6 and before 14, while collecting too; the other still enters.
#[test]
fn codes_are_used_up_while_collecting() {
    let mut engine = collecting();
    engine.state.codes_given[1] = CODE_LIMIT;
    run(&mut engine, &[entry(0, Side::Buy, 5, 1)]);
    let unpaid = engine.call(&entry(1, Side::Buy, 1_000_000, 10_000), &mut Vec::new());
    assert_eq!(unpaid, Err(refused(refusal::CODES_USED_UP)));
    let mut trades = Vec::new();
    run_into(&mut engine, &Call::EndCollecting, &mut trades);
    assert_eq!(trades.len(), 1);
    let start = engine.call(&Call::StartCollecting, &mut Vec::new());
    assert_eq!(start, Err(refused(refusal::CODE_GIVEN)));
}

#[test]
fn closing_orders() {
    assert_each_unsound(
        closing,
        &[
            ("closing order where nothing traded", |it| {
                it.state.waiting[0].security = 1
            }),
            ("closing order once closed", |it| {
                it.state.phase = Phase::Closed
            }),
            ("closing order at another closing price", |it| {
                it.state.traded[0].turnover += it.state.traded[0].pieces
            }),
        ],
    );
}

#[test]
fn positions() {
    assert_each_unsound(
        trading,
        &[
            ("money blocked too much", |it| {
                it.state.money[0][0].blocked += 1
            }),
            ("money blocked too little", |it| {
                it.state.money[0][0].blocked -= 1
            }),
            ("money blocked without an order", |it| {
                it.state.money[1][0].blocked = 1
            }),
            ("pieces blocked too much", |it| {
                it.state.pieces[1][0].blocked += 1
            }),
            ("pieces blocked without an order", |it| {
                it.state.pieces[0][1].blocked = 1
            }),
            ("money over its limit", |it| {
                it.state.money[1][0].free = MONEY_LIMIT
            }),
            ("money near the greatest number", |it| {
                it.state.money[1][0].free = u64::MAX
            }),
            ("pieces over their limit", |it| {
                it.state.pieces[0][0].free = PIECES_LIMIT
            }),
        ],
    );
}

/// At 1 % the buy's 2 lots at 100 that wait need 2,020, and the account has
/// 100 from each side of the trade of 10,000.
#[test]
fn tariff() {
    fn taxed() -> Engine {
        trading_at(RATE_LIMIT)
    }
    assert_eq!(taxed().state.money[0][0].blocked, 2_020);
    assert_eq!(taxed().state.account[0], 200);
    assert_each_unsound(
        taxed,
        &[
            ("rate 1,001", |it| it.market.rate = 1_001),
            ("rate near the greatest number", |it| {
                it.market.rate = u64::MAX
            }),
            ("money blocked at another rate", |it| it.market.rate = 999),
            ("money blocked without the fee", |it| {
                it.state.money[0][0].blocked -= 20
            }),
            ("account over the limit", |it| {
                it.state.account[0] = MONEY_LIMIT + 1
            }),
            ("account near the greatest number", |it| {
                it.state.account[0] = u64::MAX
            }),
            ("total over its limit by the account", |it| {
                it.state.money[1][0].free += MONEY_LIMIT - it.total_money(0) + 1
            }),
        ],
    );
}

/// Up to the limit with the account in, and however much of it the account
/// has: sound doesn't tie the account to the trades.
#[test]
fn the_account_up_to_the_limit() {
    let mut engine = trading_at(RATE_LIMIT);
    engine.state.account[0] += MONEY_LIMIT - engine.total_money(0);
    assert!(engine.is_sound());
    let more = engine.call(&Call::MoneyUp(movement(1, 1)), &mut Vec::new());
    assert_eq!(more, Err(refused(refusal::TOTAL)));
    engine.state.account[0] += 1;
    assert!(!engine.is_sound());
}

/// The buy's 2 lots at 100 that wait are 2,469 by the nominal, and 10 lots have
/// cost 12,345.
fn trading_in_percent() -> Engine {
    trading_from(opened_by(12_345, 0))
}

#[test]
fn nominals() {
    let positions = trading_in_percent().state.money;
    assert_eq!(positions[0][0].blocked, 2_469);
    assert_eq!(positions[1][0].free, 12_345);
    assert_each_unsound(
        trading_in_percent,
        &[
            ("nominal 1", |it| it.market.securities[1].nominal = 1),
            ("nominal 9,999", |it| {
                it.market.securities[1].nominal = 9_999
            }),
            ("nominal 500,001", |it| {
                it.market.securities[1].nominal = 500_001
            }),
            ("nominal near the greatest number", |it| {
                it.market.securities[0].nominal = u64::MAX
            }),
            ("money blocked at another nominal", |it| {
                it.market.securities[0].nominal = 12_350
            }),
            ("money blocked without a nominal", |it| {
                it.market.securities[0].nominal = NO_NOMINAL
            }),
            ("money blocked too much", |it| {
                it.state.money[0][0].blocked += 1
            }),
            ("price above 20,000", |it| {
                it.state.waiting[1].kind = WaitingKind::Kept(20_005)
            }),
            ("price off the step", |it| {
                it.state.waiting[1].kind = WaitingKind::Kept(19_999)
            }),
            ("T above 10^6 by Q", |it| {
                it.state.traded[0].turnover = 100_000_001
            }),
        ],
    );
    let mut engine = trading_in_percent();
    engine.state.waiting[1].kind = WaitingKind::Kept(20_000);
    engine.market.securities[1].nominal = NO_NOMINAL;
    assert!(engine.is_sound());
}

/// Sound leaves T its limit of before, so that a closing price may be above
/// 20,000: the greatest sum is 5 x 10^14, with its fee 1 % more.
#[test]
fn the_greatest_need_of_a_sound_state() {
    let mut engine = opened_by(500_000, RATE_LIMIT);
    engine.market.securities[0].lot_size = LOT_SIZE_LIMIT;
    engine.state.phase = Phase::Closing;
    engine.state.codes_given[1] = 1;
    engine.state.traded[0].pieces = 1;
    engine.state.traded[0].turnover = PRICE_LIMIT;
    engine.state.money[0][0].free = 505_000_000_000_000;
    let order = Call::EnterClosing(ClosingEntry {
        participant: 0,
        side: Side::Buy,
        security: 0,
        lots: LOTS_LIMIT,
    });
    run(&mut engine, &[order]);
    let position = engine.state.money[0][0];
    assert_eq!((position.free, position.blocked), (0, 505_000_000_000_000));
    assert!(engine.is_sound());
}

#[test]
fn traded_amounts() {
    assert_each_unsound(
        trading,
        &[
            ("Q above 10^7 by codes", |it| {
                it.state.traded[0].pieces = 30_000_001;
                it.state.traded[0].turnover = 30_000_001;
            }),
            ("T below Q", |it| it.state.traded[0].turnover = 99),
            ("T above 10^6 by Q", |it| {
                it.state.traded[0].turnover = 100_000_001
            }),
            ("T without Q", |it| it.state.traded[1].turnover = 1),
        ],
    );
    let mut engine = trading();
    engine.state.traded[0].pieces = 30_000_000;
    engine.state.traded[0].turnover = 30_000_000;
    assert!(engine.is_sound(), "1 code of 0 and 2 of 1");
}

/// Places past the counts may hold anything.
#[test]
fn unknown_places_are_not_read() {
    let mut engine = trading();
    engine.state.money[2][0].free = u64::MAX;
    engine.state.money[0][1].blocked = 7;
    engine.state.pieces[0][2].blocked = 7;
    engine.state.traded[2].turnover = 7;
    engine.state.codes_given[2] = u64::MAX;
    engine.state.account[1] = u64::MAX;
    assert!(engine.is_sound());
}

#[test]
fn one_order_too_many() {
    let mut engine = trading();
    let calls = vec![entry(0, Side::Buy, 5, 1); 126];
    run(&mut engine, &calls);
    assert_unsound("129 orders", engine, |it| {
        let mut order = it.state.waiting[127];
        order.arrival += 1;
        order.code += 1;
        it.state.codes_given[0] += 1;
        it.state.money[0][0].blocked += 50;
        it.state.waiting.push(order);
    });
}

/// Question 1 comes before question 2.
#[test]
fn an_unsound_state_with_a_short_list() {
    let mut engine = trading();
    let order = entry(0, Side::Buy, 100, 1);
    let short = engine.call_lent(&order, LIST_LENGTH - 1, &mut Vec::new());
    assert_eq!(short, Err(refused(refusal::LIST_TOO_SHORT)));
    engine.state.money[0][0].blocked += 1;
    let unsound = engine.call_lent(&order, LIST_LENGTH - 1, &mut Vec::new());
    assert_eq!(unsound, Err(refused(refusal::UNSOUND)));
}

/// 13 before 14, and only for the participant whose codes are used up.
#[test]
fn codes_are_used_up() {
    let mut engine = trading();
    engine.state.codes_given[0] = CODE_LIMIT - 1;
    let order = entry(0, Side::Buy, 100, 1);
    run(&mut engine, std::slice::from_ref(&order));
    assert_eq!(engine.codes_given(0), CODE_LIMIT);
    let answer = engine.call(&order, &mut Vec::new());
    assert_eq!(answer, Err(refused(refusal::CODES_USED_UP)));
    let unpaid = |participant| entry(participant, Side::Buy, 1_000_000, 10_000);
    let answer = engine.call(&unpaid(0), &mut Vec::new());
    assert_eq!(answer, Err(refused(refusal::CODES_USED_UP)));
    let answer = engine.call(&unpaid(1), &mut Vec::new());
    assert_eq!(answer, Err(refused(refusal::FREE_FOR_ORDER)));
    run(&mut engine, &[entry(1, Side::Sell, 105, 1)]);
    assert_eq!(engine.codes_given(1), 3);
}

/// Members that had a code before the last one was given are undone with it.
#[test]
fn a_group_uses_codes_up() {
    let mut engine = trading();
    engine.state.codes_given[0] = CODE_LIMIT - 1;
    let member = Member {
        side: Side::Buy,
        security: 0,
        price: 105,
        lots: 1,
    };
    let group = |count| Call::Group {
        participant: 0,
        members: vec![member; count],
    };
    let before = engine.clone();
    let answer = engine.call(&group(2), &mut Vec::new());
    let number = refusal::CODES_USED_UP;
    assert_eq!(answer, Err(Refused { number, place: 2 }));
    assert!(engine == before, "a refusal changes nothing");
    engine.state.codes_given[0] = CODE_LIMIT - 2;
    let done = engine.call(&group(2), &mut Vec::new());
    assert_eq!(done.map(|done| done.code), Ok(CODE_LIMIT - 1));
}

/// A closing order asks 13 after 12 and before 14.
#[test]
fn codes_are_used_up_while_closing() {
    let mut engine = closing();
    engine.state.codes_given[0] = CODE_LIMIT;
    let order = |participant, lots| {
        Call::EnterClosing(ClosingEntry {
            participant,
            side: Side::Buy,
            security: 0,
            lots,
        })
    };
    let answer = engine.call(&order(0, LOTS_LIMIT), &mut Vec::new());
    assert_eq!(answer, Err(refused(refusal::CODES_USED_UP)));
    run(&mut engine, &[order(1, 1)]);
}

const TERMS: Terms = Terms {
    price: 100,
    rate: 500,
    term: 7,
};

fn offer(participant: u64, side: Side, lots: u64) -> Call {
    Call::EnterOffer(Offer {
        participant,
        side,
        security: 0,
        lots,
        terms: TERMS,
    })
}

/// A deal of day 1,000, one of day 1,001, and a sell offer waiting.
fn dealing() -> Engine {
    let mut engine = opened();
    engine.state.date = 1_000;
    run(
        &mut engine,
        &[offer(1, Side::Sell, 10), offer(0, Side::Buy, 10)],
    );
    engine.state.date = 1_001;
    let later = [
        offer(0, Side::Buy, 5),
        offer(1, Side::Sell, 5),
        offer(1, Side::Sell, 3),
    ];
    run(&mut engine, &later);
    engine
}

#[test]
fn date_and_deals() {
    assert_each_unsound(
        dealing,
        &[
            ("date after the last", |it| it.state.date = LAST_DAY + 1),
            ("date near the greatest number", |it| {
                it.state.date = u64::MAX
            }),
            ("unknown buyer", |it| it.state.deals[0].buyer = 2),
            ("unknown seller", |it| it.state.deals[1].seller = 2),
            ("unknown security", |it| it.state.deals[0].security = 2),
            ("no lots", |it| it.state.deals[1].lots = 0),
            ("10,001 lots", |it| it.state.deals[0].lots = 10_001),
            ("first day after the date", |it| {
                it.state.deals[1].first_day = 1_002
            }),
            ("first day near the greatest number", |it| {
                it.state.deals[1].first_day = u64::MAX
            }),
            ("falling first days", |it| it.state.deals.swap(0, 1)),
        ],
    );
}

#[test]
fn terms_of_deals() {
    assert_each_unsound(
        dealing,
        &[
            ("price 0", |it| it.state.deals[0].terms.price = 0),
            ("price off the step", |it| {
                it.state.deals[0].terms.price = 101
            }),
            ("price too high", |it| {
                it.state.deals[1].terms.price = 1_000_005
            }),
            ("price above 20,000 by a nominal", |it| {
                it.market.securities[1].nominal = 10_000;
                it.state.deals[1].security = 1;
                it.state.deals[1].terms.price = 20_005;
            }),
            ("rate 5,001", |it| it.state.deals[1].terms.rate = 5_001),
            ("term 0", |it| it.state.deals[0].terms.term = 0),
            ("term 366", |it| it.state.deals[0].terms.term = 366),
            ("term near the greatest number", |it| {
                it.state.deals[1].terms.term = u64::MAX
            }),
            ("due after the last day", |it| {
                it.state.date = LAST_DAY;
                it.state.deals[1].first_day = LAST_DAY - 6;
            }),
            ("first sum above 10^10", |it| {
                it.state.deals[1].terms.price = PRICE_LIMIT;
                it.state.deals[1].lots = 1_001;
            }),
        ],
    );
}

/// At each limit, and with equal first days.
#[test]
fn deals_up_to_their_limits() {
    let mut engine = dealing();
    engine.state.date = LAST_DAY;
    engine.state.deals[0].first_day = LAST_DAY - 7;
    engine.state.deals[1].first_day = LAST_DAY - 7;
    let deal = &mut engine.state.deals[1];
    deal.terms.price = PRICE_LIMIT;
    deal.lots = 1_000;
    deal.terms.rate = 5_000;
    engine.state.deals[0].terms.term = 1;
    engine.state.deals[0].seller = 0;
    assert!(engine.is_sound());
    engine.state.deals[1].first_day -= 358;
    engine.state.deals[0].first_day -= 358;
    engine.state.deals[1].terms.term = 365;
    assert!(engine.is_sound());
    let deal = engine.state.deals[1];
    engine.state.deals.resize(DEAL_LIMIT, deal);
    assert!(engine.is_sound());
    assert_unsound("65 deals", engine, |it| {
        it.state.deals.push(it.state.deals[1])
    });
}

/// The terms of the offer that waits.
fn offered(engine: &mut Engine) -> &mut Terms {
    match &mut engine.state.waiting[0].kind {
        WaitingKind::Offer(terms) => terms,
        kind => panic!("{kind:?} waits"),
    }
}

#[test]
fn waiting_offers() {
    assert_each_unsound(
        dealing,
        &[
            ("price 0", |it| offered(it).price = 0),
            ("price off the step", |it| offered(it).price = 101),
            ("rate 5,001", |it| offered(it).rate = 5_001),
            ("term 0", |it| offered(it).term = 0),
            ("term 366", |it| offered(it).term = 366),
            ("no lots", |it| it.state.waiting[0].lots = 0),
            ("code above those of its participant", |it| {
                it.state.codes_given[..2].copy_from_slice(&[3, 2])
            }),
            ("arrival above all codes given", |it| {
                it.state.waiting[0].arrival = 6
            }),
            ("pieces not blocked", |it| {
                it.state.pieces[1][0].blocked -= 30
            }),
            ("offer while collecting", |it| {
                it.state.phase = Phase::Collecting
            }),
            ("offer while closing", |it| it.state.phase = Phase::Closing),
            ("offer once closed", |it| it.state.phase = Phase::Closed),
        ],
    );
}

/// Of an offer that waits neither the due day nor the first sum is asked; of
/// the one that would meet it both are.
#[test]
fn what_is_asked_of_the_entry_alone() {
    let mut engine = dealing();
    engine.state.date = LAST_DAY;
    offered(&mut engine).price = PRICE_LIMIT;
    engine.state.waiting[0].lots = 1_001;
    engine.state.pieces[1][0].blocked = 10_010;
    assert!(engine.is_sound());
    let Call::EnterOffer(mut counter) = offer(0, Side::Buy, 1_001) else {
        unreachable!("an offer is entered");
    };
    counter.terms.price = PRICE_LIMIT;
    let undue = engine.call(&Call::EnterOffer(counter), &mut Vec::new());
    assert_eq!(undue, Err(refused(refusal::DATE)));
    engine.state.date = LAST_DAY - 7;
    let too_large = engine.call(&Call::EnterOffer(counter), &mut Vec::new());
    assert_eq!(too_large, Err(refused(refusal::RATE_OR_FIRST_SUM)));
}

/// 26 comes before 13, 13 before 14, which the other gets.
#[test]
fn codes_are_used_up_by_offers() {
    let mut engine = dealing();
    engine.state.codes_given[0] = CODE_LIMIT - 1;
    run(&mut engine, &[offer(0, Side::Buy, 1)]);
    let unpaid = offer(0, Side::Buy, 10_000);
    let answer = engine.call(&unpaid, &mut Vec::new());
    assert_eq!(answer, Err(refused(refusal::CODES_USED_UP)));
    let of_other = engine.call(&offer(1, Side::Buy, 10_000), &mut Vec::new());
    assert_eq!(of_other, Err(refused(refusal::FREE_FOR_ORDER)));
    let deal = engine.state.deals[1];
    engine.state.deals.resize(DEAL_LIMIT, deal);
    let answer = engine.call(&unpaid, &mut Vec::new());
    assert_eq!(answer, Err(refused(refusal::DEALS_FULL)));
}

/// 1 before 2 and 4, before 16, and before 6 and 24.
#[test]
fn the_calls_of_deals_ask_question_1() {
    let mut engine = dealing();
    engine.state.money[0][0].blocked += 1;
    let before = engine.clone();
    let calls = [
        offer(2, Side::Buy, 0),
        Call::SecondPart { place: 0 },
        Call::SecondPart { place: 1 },
        Call::NewDay { date: 0 },
        Call::NewDay { date: 2_000 },
    ];
    for call in calls {
        let answer = engine.call_lent(&call, LIST_LENGTH - 1, &mut Vec::new());
        assert_eq!(answer, Err(refused(refusal::UNSOUND)), "{call:?}");
    }
    assert!(engine == before, "a refusal changes nothing");
}
