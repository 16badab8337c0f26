//! The auction's price (T-02) beside a search over every price there is, and
//! its trades beside a pairing written once more; then cases reckoned by hand.

use std::cmp::Reverse;

use model::calls::{Call, Entry, EntryKind, Movement, Opening, Phase, SecurityLine, Side, Trade};
use model::engine::{Engine, MONEY_LIMIT, PIECES_LIMIT, PRICE_LIMIT};
use model::random::Random;

const LISTS: u64 = 400;

const PARTICIPANTS: u64 = 3;

#[derive(Clone, Copy, Debug)]
struct Order {
    participant: u64,
    side: Side,
    price: u64,
    lots: u64,
}

fn buy(price: u64, lots: u64) -> Order {
    Order {
        participant: 0,
        side: Side::Buy,
        price,
        lots,
    }
}

fn sell(price: u64, lots: u64) -> Order {
    Order {
        participant: 1,
        side: Side::Sell,
        price,
        lots,
    }
}

fn call(engine: &mut Engine, call: &Call, trades: &mut Vec<Trade>) {
    let answer = engine.call(call, trades);
    assert!(answer.is_ok(), "{call:?}: {answer:?}");
}

fn opened() -> Engine {
    let line = SecurityLine {
        currency: 0,
        lot_size: 1,
        price_step: 1,
        nominal: 0,
    };
    let opening = Opening {
        participants: PARTICIPANTS,
        currencies: 1,
        securities: vec![line],
        rate: 0,
        date: 0,
    };
    Engine::open(&opening, true).expect("the opening is in range")
}

/// All have an equal share of money and pieces.
fn collecting(orders: &[Order]) -> Engine {
    let share = |participant, limit| Movement {
        participant,
        asset: 0,
        amount: limit / PARTICIPANTS,
    };
    let mut calls = Vec::new();
    for participant in 0..PARTICIPANTS {
        calls.push(Call::MoneyUp(share(participant, MONEY_LIMIT)));
        calls.push(Call::PiecesUp(share(participant, PIECES_LIMIT)));
    }
    calls.push(Call::StartCollecting);
    calls.extend(orders.iter().map(|order| {
        Call::Enter(Entry {
            participant: order.participant,
            side: order.side,
            security: 0,
            price: order.price,
            lots: order.lots,
            kind: EntryKind::Kept,
        })
    }));
    let mut engine = opened();
    for each in &calls {
        call(&mut engine, each, &mut Vec::new());
    }
    engine
}

fn price_of(orders: &[Order]) -> Option<u64> {
    collecting(orders).auction_price(0)
}

fn wanted(orders: &[Order], price: u64) -> u64 {
    let buys = orders.iter().filter(|order| order.side == Side::Buy);
    let reaching = buys.filter(|order| order.price >= price);
    reaching.map(|order| order.lots).sum()
}

fn offered(orders: &[Order], price: u64) -> u64 {
    let sells = orders.iter().filter(|order| order.side == Side::Sell);
    let reaching = sells.filter(|order| order.price <= price);
    reaching.map(|order| order.lots).sum()
}

fn traded(orders: &[Order], price: u64) -> u64 {
    wanted(orders, price).min(offered(orders, price))
}

fn gap(orders: &[Order], price: u64) -> u64 {
    wanted(orders, price).abs_diff(offered(orders, price))
}

/// Prices over the whole range, or some of a few neighbours.
fn small_list(random: &mut Random) -> Vec<Order> {
    let count = random.within(1, 6);
    let prices = random.pick(&[2, 3, 5, 12, PRICE_LIMIT]);
    let lowest = random.within(1, PRICE_LIMIT - prices + 1);
    let most_lots = random.pick(&[1, 2, 3, 10]);
    let mut order = || Order {
        participant: random.below(PARTICIPANTS),
        side: random.pick(&[Side::Buy, Side::Sell]),
        price: lowest + random.below(prices),
        lots: random.within(1, most_lots),
    };
    (0..count).map(|_| order()).collect()
}

/// How often each of the rules had to decide.
#[derive(Default)]
struct Decided {
    by_lots: u64,
    by_gap: u64,
    by_price: u64,
    nothing: u64,
}

/// No price there is trades more lots than the auction's. Of the written ones
/// that trade as many none has a smaller gap, and of those none is lower.
fn check_price(orders: &[Order], price: Option<u64>, decided: &mut Decided) {
    let most = (1..=PRICE_LIMIT).map(|price| traded(orders, price)).max();
    let most = most.expect("there are prices");
    let Some(price) = price else {
        assert_eq!(most, 0, "{orders:?}");
        decided.nothing += 1;
        return;
    };
    assert!(most > 0, "{orders:?}");
    assert_eq!(traded(orders, price), most, "{price} of {orders:?}");
    let mut written: Vec<u64> = orders.iter().map(|order| order.price).collect();
    written.sort();
    written.dedup();
    assert!(written.contains(&price), "{price} of {orders:?}");
    written.retain(|&other| traded(orders, other) == most);
    let by_lots = written.len() == 1;
    let smallest = written.iter().map(|&other| gap(orders, other)).min();
    assert_eq!(Some(gap(orders, price)), smallest, "{price} of {orders:?}");
    written.retain(|&other| Some(gap(orders, other)) == smallest);
    assert_eq!(price, written[0], "{orders:?}");
    match (by_lots, written.len()) {
        (true, _) => decided.by_lots += 1,
        (false, 1) => decided.by_gap += 1,
        _ => decided.by_price += 1,
    }
}

/// Buyer and his code, seller and his code, and lots.
type DueTrade = ([u64; 2], [u64; 2], u64);

/// An order's participant, and its code among those of his.
fn name_of(orders: &[Order], place: usize) -> [u64; 2] {
    let participant = orders[place].participant;
    let up_to_it = orders[..=place].iter();
    let own = up_to_it.filter(|order| order.participant == participant);
    [participant, own.count() as u64]
}

/// The trades that are due at the price. An order's place in the list is its
/// arrival.
fn due_trades(orders: &[Order], price: u64) -> Vec<DueTrade> {
    let mut left: Vec<Order> = orders.to_vec();
    let mut trades = Vec::new();
    loop {
        let buys = left
            .iter()
            .enumerate()
            .filter(|(_, order)| order.side == Side::Buy && order.price >= price && order.lots > 0);
        let dearest = buys.min_by_key(|(arrival, order)| (Reverse(order.price), *arrival));
        let sells = left.iter().enumerate().filter(|(_, order)| {
            order.side == Side::Sell && order.price <= price && order.lots > 0
        });
        let cheapest = sells.min_by_key(|(arrival, order)| (order.price, *arrival));
        let (Some((buy, _)), Some((sell, _))) = (dearest, cheapest) else {
            return trades;
        };
        let lots = left[buy].lots.min(left[sell].lots);
        trades.push((name_of(orders, buy), name_of(orders, sell), lots));
        left[buy].lots -= lots;
        left[sell].lots -= lots;
    }
}

fn check_trades(orders: &[Order], mut engine: Engine, price: Option<u64>) {
    let mut trades = Vec::new();
    call(&mut engine, &Call::EndCollecting, &mut trades);
    let due = price.map_or(Vec::new(), |price| due_trades(orders, price));
    let made = trades.iter().map(|trade| {
        let buy = [trade.buyer, trade.buy_code];
        let sell = [trade.seller, trade.sell_code];
        (buy, sell, trade.lots)
    });
    let made: Vec<DueTrade> = made.collect();
    assert_eq!(made, due, "{orders:?}");
    assert!(trades.iter().all(|trade| Some(trade.price) == price));
    let lots: u64 = trades.iter().map(|trade| trade.lots).sum();
    assert_eq!(lots, price.map_or(0, |price| traded(orders, price)));
    assert!(engine.waiting().is_empty());
    assert_eq!(engine.phase(), Phase::Open);
    assert!(engine.is_sound());
}

#[test]
fn no_other_price_trades_more() {
    let mut random = Random::new(2);
    let mut decided = Decided::default();
    for _ in 0..LISTS {
        let orders = small_list(&mut random);
        let engine = collecting(&orders);
        let price = engine.auction_price(0);
        check_price(&orders, price, &mut decided);
        check_trades(&orders, engine, price);
    }
    for (rule, count) in [
        ("lots", decided.by_lots),
        ("gap", decided.by_gap),
        ("price", decided.by_price),
        ("nothing trades", decided.nothing),
    ] {
        assert!(count >= LISTS / 20, "{rule} decided {count} times");
    }
}

/// 15 are wanted at 95 and at 97, 10 at 100, and 10 are offered at each: of
/// three prices that trade 10 lots only the last leaves no gap.
#[test]
fn a_tie_goes_to_the_smaller_gap() {
    assert_eq!(
        price_of(&[sell(95, 10), buy(97, 5), buy(100, 10)]),
        Some(100)
    );
}

/// The same from the other side: 10 are wanted at each price, and 10, 15 and
/// 15 are offered.
#[test]
fn a_tie_goes_to_the_smaller_gap_of_offers() {
    assert_eq!(
        price_of(&[sell(95, 10), sell(97, 5), buy(100, 10)]),
        Some(95)
    );
}

/// 10 wanted, 10 offered at both.
#[test]
fn a_tie_with_equal_gaps_goes_to_the_lower_price() {
    assert_eq!(price_of(&[buy(100, 10), sell(95, 10)]), Some(95));
}

/// At 100 seven are wanted and five offered, at 101 the other way round.
#[test]
fn gaps_of_either_side_are_equal() {
    let orders = [buy(101, 5), buy(100, 2), sell(100, 5), sell(101, 2)];
    assert_eq!(price_of(&orders), Some(100));
}

/// 3 lots trade at 95 with a gap of 7, 10 at 100 with one of 13.
#[test]
fn more_lots_come_before_the_smaller_gap() {
    assert_eq!(
        price_of(&[sell(95, 3), sell(100, 20), buy(100, 10)]),
        Some(100)
    );
}

#[test]
fn no_buy_reaches_a_sell() {
    assert_eq!(price_of(&[buy(95, 5), sell(100, 5), sell(96, 1)]), None);
}

#[test]
fn only_one_side_waits() {
    assert_eq!(price_of(&[buy(95, 5), buy(100, 5)]), None);
    assert_eq!(price_of(&[sell(95, 5)]), None);
    assert_eq!(price_of(&[]), None);
}

/// At 90 and 96 twelve are wanted, at 100 six; 6 are offered at 90 and 96 and
/// at 100. Only a buy wrote 100, which leaves no gap.
#[test]
fn a_price_that_only_a_buy_wrote() {
    assert_eq!(price_of(&[sell(90, 6), buy(96, 6), buy(100, 6)]), Some(100));
}

/// 5 trade at 90, 10 at 95 and at 100. Only a sell wrote 95, the lower.
#[test]
fn a_price_that_only_a_sell_wrote() {
    assert_eq!(
        price_of(&[sell(90, 5), sell(95, 5), buy(100, 10)]),
        Some(95)
    );
}

/// The ends of the range: everything trades at both, at the lower price.
#[test]
fn the_lowest_and_the_highest_price() {
    assert_eq!(price_of(&[buy(PRICE_LIMIT, 2), sell(1, 2)]), Some(1));
    assert_eq!(price_of(&[buy(1, 2), sell(PRICE_LIMIT, 2)]), None);
}

/// Each trade but the last empties one order, the last one two: 127 trades.
#[test]
fn as_many_trades_as_there_can_be() {
    let mut orders = Vec::new();
    for place in 0..64 {
        let lots = match place {
            0 => 1,
            63 => 3,
            _ => 2,
        };
        orders.push(buy(1_000 - place, 2));
        orders.push(sell(100 + place, lots));
    }
    let engine = collecting(&orders);
    let price = engine.auction_price(0);
    let due = price.map(|price| due_trades(&orders, price).len());
    assert_eq!(due, Some(127));
    check_trades(&orders, engine, price);
}
