//! Codes counted for each participant, and the shared arrival that decides in
//! their place (T-07); outputs reasoned by hand.

mod common;

use model::calls::{
    refusal, refused, Answer, Call, Entry, EntryKind, Member, Movement, Offer, Opening, Refused,
    SecurityLine, Side, Terms,
};
use model::check::checked_output;
use model::dayfile::script_output;
use model::engine::{Engine, CODE_LIMIT};
use model::level::{DAY_FILE, SCRIPT};
use model::printed::check_printed;
use model::tally::Tally;

use common::{assert_refusals, printed};

/// Three participants with money and pieces, lot and step 1: eight lines.
const RESERVES: [&str; 8] = [
    "H,3,1,1",
    "S,0,1,1",
    "R,0,0,1000000",
    "R,1,0,1000000",
    "R,2,0,1000000",
    "D,0,0,1000",
    "D,1,0,1000",
    "D,2,0,1000",
];

/// What the lines after the reserves print before the lines of the end.
fn assert_calls_print(lines: &[&str], expected: &[&str]) {
    let output = printed(&[&RESERVES[..], lines].concat());
    let of_calls = output.lines().take_while(|line| !line.starts_with("M,"));
    let of_lines: Vec<&str> = of_calls.skip(RESERVES.len() - 1).collect();
    assert_eq!(of_lines, expected);
}

/// The lines after the reserves, with the refusal each gets or 0.
fn assert_after_reserves(expected: &[(&str, u64)]) {
    let accepted: Vec<(&str, u64)> = RESERVES[2..].iter().map(|line| (*line, 0)).collect();
    assert_refusals(&RESERVES[..2], &[&accepted[..], expected].concat());
}

/// The lines with this word that the end prints after the reserves and these.
fn shown(word: &str, lines: &[&str]) -> Vec<String> {
    let output = printed(&[&RESERVES[..], lines].concat());
    let of_word = output.lines().filter(|line| line.starts_with(word));
    of_word.map(String::from).collect()
}

/// The paper's day, whose last line names the buyer's first order.
#[test]
fn the_worked_example() {
    let text = "H,2,1,1\nS,0,10,5\nR,0,0,30000\nD,1,0,200\nL,1,0,95,10,K\nB,0,0,100,20,K\n\
                B,0,0,106,1,K\nL,1,0,100,5,A\nX,0,1\n";
    let expected = "A,1,0,0,0,0,0,0\nA,3,0,0,0,0,0,0\nA,4,0,0,0,0,0,0\nA,5,0,0,1,0,10,0\n\
                    A,6,0,0,1,10,10,1\nT,1,1,0,1,0,95,10,9500\nA,7,8,0,0,0,0,0\n\
                    A,8,0,0,2,5,0,1\nT,1,2,0,1,0,100,5,5000\nA,9,0,0,1,0,0,0\n\
                    M,0,0,15500,0\nM,1,0,14500,0\nQ,0,0,150,0\nQ,1,0,50,0\n";
    let output = checked_output::<DAY_FILE>(text.as_bytes(), &mut Tally::default());
    let output = output.expect("book and state agree");
    assert_eq!(String::from_utf8_lossy(&output), expected);
}

/// The sell of 1 waits longer, with code 2, than that of 2 with code 1.
#[test]
fn the_older_sell_with_the_higher_code_trades_first() {
    let lines = [
        "L,1,0,9,1,I",
        "L,1,0,9,1,K",
        "L,2,0,9,1,K",
        "B,0,0,9,1,K",
        "B,0,0,9,2,K",
    ];
    let expected = [
        "A,9,0,0,1,0,0,0",
        "A,10,0,0,2,0,1,0",
        "A,11,0,0,1,0,1,0",
        "A,12,0,0,1,1,0,1",
        "T,1,2,0,1,0,9,1,9",
        "A,13,0,0,2,1,1,1",
        "T,2,1,0,2,0,9,1,9",
    ];
    assert_calls_print(&lines, &expected);
}

/// The same of buys, both met by one sell.
#[test]
fn the_older_buy_with_the_higher_code_trades_first() {
    let lines = ["B,1,0,9,1,I", "B,1,0,9,1,K", "B,2,0,9,1,K", "L,0,0,9,2,A"];
    let expected = [
        "A,9,0,0,1,0,0,0",
        "A,10,0,0,2,0,1,0",
        "A,11,0,0,1,0,1,0",
        "A,12,0,0,1,2,0,2",
        "T,2,1,1,0,0,9,1,9",
        "T,1,1,2,0,0,9,1,9",
    ];
    assert_calls_print(&lines, &expected);
}

#[test]
fn a_better_price_comes_before_an_earlier_arrival() {
    let lines = ["L,1,0,9,1,K", "L,2,0,8,1,K", "B,0,0,9,2,A"];
    let expected = [
        "A,9,0,0,1,0,1,0",
        "A,10,0,0,1,0,1,0",
        "A,11,0,0,1,2,0,2",
        "T,1,1,0,2,0,8,1,8",
        "T,1,1,0,1,0,9,1,9",
    ];
    assert_calls_print(&lines, &expected);
}

/// All at 9: of the buys that of 1 is older and that of 2 has the lower code; of
/// the sells that of 2 is the oldest and those of 0 and 1 have codes 1 and 3.
#[test]
fn the_auction_goes_by_arrival() {
    let lines = [
        "COLLECT",
        "B,1,0,9,1,K",
        "X,1,1",
        "B,1,0,9,2,K",
        "B,2,0,9,2,K",
        "L,2,0,9,1,K",
        "L,0,0,9,1,K",
        "L,1,0,9,1,K",
        "AUCTION",
    ];
    let expected = [
        "A,9,0,0,0,0,0,0",
        "A,10,0,0,1,0,1,0",
        "A,11,0,0,1,0,0,0",
        "A,12,0,0,2,0,2,0",
        "A,13,0,0,1,0,2,0",
        "A,14,0,0,2,0,1,0",
        "A,15,0,0,1,0,1,0",
        "A,16,0,0,3,0,1,0",
        "A,17,0,0,0,3,0,3",
        "T,2,2,1,2,0,9,1,9",
        "T,2,1,1,0,0,9,1,9",
        "T,1,3,2,1,0,9,1,9",
    ];
    assert_calls_print(&lines, &expected);
}

/// Oldest with oldest at the closing price of 9: the buys have codes 3 and 1, the
/// sells 2 and 1, each in the order of arrival.
#[test]
fn the_closing_session_goes_by_arrival() {
    let lines = [
        "L,1,0,9,1,K",
        "B,1,0,9,1,K",
        "C",
        "P,1,B,0,2",
        "P,2,B,0,2",
        "P,2,L,0,1",
        "P,0,L,0,2",
        "Z",
    ];
    let expected = [
        "A,9,0,0,1,0,1,0",
        "A,10,0,0,2,1,0,1",
        "T,2,1,1,1,0,9,1,9",
        "A,11,0,0,0,0,0,0",
        "A,12,0,0,3,0,2,0",
        "A,13,0,0,1,0,2,0",
        "A,14,0,0,2,0,1,0",
        "A,15,0,0,1,0,2,0",
        "A,16,0,0,0,3,0,3",
        "T,3,2,1,2,0,9,1,9",
        "T,3,1,1,0,0,9,1,9",
        "T,1,1,2,0,0,9,1,9",
    ];
    assert_calls_print(&lines, &expected);
}

/// The first names another term; of the equal ones that of 1 is older, with code
/// 2. The same of offers to buy.
#[test]
fn the_oldest_counter_offer_goes_by_arrival() {
    let lines = [
        "OFFER,1,L,0,9,1,0,2",
        "OFFER,1,L,0,9,1,0,1",
        "OFFER,2,L,0,9,1,0,1",
        "OFFER,0,B,0,9,1,0,1",
        "OFFER,0,B,0,9,1,0,1",
        "OFFER,1,B,0,8,1,0,1",
        "OFFER,2,B,0,8,1,0,1",
        "OFFER,0,L,0,8,1,0,1",
    ];
    let expected = [
        "A,9,0,0,1,0,1,0",
        "A,10,0,0,2,0,1,0",
        "A,11,0,0,1,0,1,0",
        "A,12,0,0,1,1,0,1",
        "T,1,2,0,1,0,9,1,9",
        "A,13,0,0,2,1,0,1",
        "T,2,1,0,2,0,9,1,9",
        "A,14,0,0,3,0,1,0",
        "A,15,0,0,2,0,1,0",
        "A,16,0,0,3,1,0,1",
        "T,3,3,1,0,0,8,1,8",
    ];
    assert_calls_print(&lines, &expected);
}

/// Neither by code nor by participant.
#[test]
fn the_waiting_list_stands_by_arrival() {
    let lines = [
        "B,1,0,9,1,I",
        "B,1,0,9,1,K",
        "B,2,0,9,1,K",
        "B,0,0,9,1,K",
        "B,1,0,9,1,K",
    ];
    let expected = [
        "WAITS,1,2,B,0,1,K,9",
        "WAITS,2,1,B,0,1,K,9",
        "WAITS,0,1,B,0,1,K,9",
        "WAITS,1,3,B,0,1,K,9",
    ];
    assert_eq!(shown("WAITS,", &lines), expected);
    let expected = ["CODES,0,1", "CODES,1,3", "CODES,2,1"];
    assert_eq!(shown("CODES,", &lines), expected);
}

/// Both of them wait with code 1; each goes by its own participant.
#[test]
fn equal_codes_are_cancelled_each_by_its_own() {
    let orders = ["B,1,0,9,1,K", "B,2,0,8,3,K"];
    let of_1 = ["WAITS,1,1,B,0,1,K,9"];
    let of_2 = ["WAITS,2,1,B,0,3,K,8"];
    assert_eq!(shown("WAITS,", &[&orders[..], &["X,2,1"]].concat()), of_1);
    assert_eq!(shown("WAITS,", &[&orders[..], &["X,1,1"]].concat()), of_2);
    let lines = [
        (orders[0], 0),
        (orders[1], 0),
        ("X,0,1", 16),
        ("X,2,1", 0),
        ("X,2,1", 16),
        ("X,1,0", 16),
        ("X,1,2", 16),
        ("X,1,1", 0),
        ("X,1,1", 16),
        ("X,3,1", 4),
    ];
    assert_after_reserves(&lines);
}

/// Code 2 waits, but it is the other's: once his own 2 isn't given yet, once it
/// was given and dropped. An offer and a closing order are found in the same way.
#[test]
fn an_equal_code_of_another_is_not_found() {
    let orders = [
        ("B,1,0,9,1,K", 0),
        ("B,1,0,9,1,K", 0),
        ("B,2,0,9,1,K", 0),
        ("X,2,2", 16),
        ("B,2,0,8,1,I", 0),
        ("X,2,2", 16),
        ("X,1,2", 0),
    ];
    assert_after_reserves(&orders);
    let offers = [
        ("OFFER,1,B,0,9,1,0,1", 0),
        ("X,2,1", 16),
        ("OFFER,2,B,0,8,1,0,1", 0),
        ("X,2,1", 0),
        ("X,1,1", 0),
    ];
    assert_after_reserves(&offers);
    let closing_orders = [
        ("L,1,0,9,1,K", 0),
        ("B,1,0,9,1,K", 0),
        ("C", 0),
        ("P,1,B,0,1", 0),
        ("P,2,B,0,1", 0),
        ("X,2,3", 16),
        ("X,1,1", 16),
        ("X,1,3", 0),
        ("X,2,1", 0),
    ];
    assert_after_reserves(&closing_orders);
}

/// Whatever others enter in between: orders of each kind, also without a fill, a
/// group's members, offers and closing orders take a code, refused ones none.
#[test]
fn every_entry_takes_one_of_his_own() {
    let lines = [
        "L,0,0,9,9,K",
        "B,1,0,5,1,I",
        "B,1,0,9,1,A",
        "B,1,0,9,100,A",
        "G,1,2",
        "M,B,0,9,1",
        "M,B,0,9,2",
        "L,0,0,9,1,I",
        "OFFER,1,B,0,9,1,0,1",
        "C",
        "P,2,B,0,1",
        "P,1,B,0,1",
    ];
    let expected = [
        "A,9,0,0,1,0,9,0",
        "A,10,0,0,1,0,0,0",
        "A,11,0,0,2,1,0,1",
        "T,2,1,1,0,0,9,1,9",
        "A,12,15,0,0,0,0,0",
        "A,13,0,0,3,3,0,2",
        "T,3,1,1,0,0,9,1,9",
        "T,4,1,1,0,0,9,2,18",
        "A,16,0,0,2,0,0,0",
        "A,17,0,0,5,0,1,0",
        "A,18,0,0,0,0,0,0",
        "A,19,0,0,1,0,1,0",
        "A,20,0,0,6,0,1,0",
    ];
    assert_calls_print(&lines, &expected);
    let expected = ["CODES,0,2", "CODES,1,6", "CODES,2,1"];
    assert_eq!(shown("CODES,", &lines), expected);
}

/// The refused group's first member traded and had a code, which is undone; the
/// next one begins with the same. Members meet the older of equal sells.
#[test]
fn a_group_answers_his_own_first_code() {
    let lines = [
        "L,2,0,9,1,I",
        "L,2,0,9,1,K",
        "L,1,0,9,2,K",
        "G,0,2",
        "M,B,0,9,1",
        "M,B,0,9,3",
        "G,0,2",
        "M,B,0,9,2",
        "M,B,0,9,1",
        "B,0,0,9,1,K",
        "G,3,2",
        "M,B,0,9,1",
        "M,B,0,9,1",
    ];
    let expected = [
        "A,9,0,0,1,0,0,0",
        "A,10,0,0,2,0,1,0",
        "A,11,0,0,1,0,2,0",
        "A,12,15,2,0,0,0,0",
        "A,15,0,0,1,3,0,3",
        "T,1,2,0,2,0,9,1,9",
        "T,1,1,0,1,0,9,1,9",
        "T,2,1,0,1,0,9,1,9",
        "A,18,0,0,3,0,1,0",
        "A,19,4,1,0,0,0,0",
    ];
    assert_calls_print(&lines, &expected);
}

/// Both trades are of a buy code 1 and a sell code 2, but the buy is the group's in
/// the first, the sell in the second: each member filled one lot.
#[test]
fn members_stand_apart_from_equal_codes_of_others() {
    let lines = [
        "L,1,0,9,1,I",
        "L,1,0,9,1,K",
        "B,2,0,8,1,K",
        "G,0,2",
        "M,B,0,9,1",
        "M,L,0,8,1",
    ];
    let expected = [
        "A,9,0,0,1,0,0,0",
        "A,10,0,0,2,0,1,0",
        "A,11,0,0,1,0,1,0",
        "A,12,0,0,1,2,0,2",
        "T,1,2,0,1,0,9,1,9",
        "T,1,2,2,0,0,8,1,8",
    ];
    assert_calls_print(&lines, &expected);
}

/// On the second day 2 comes before 1, though on the first 1 had come first; all
/// codes begin with 1, and collecting may start again.
#[test]
fn a_new_day_begins_codes_and_arrivals_anew() {
    let lines = [
        "B,1,0,9,1,K",
        "B,1,0,9,1,K",
        "B,2,0,9,1,K",
        "COLLECT",
        "C",
        "Z",
        "DAY,1",
        "COLLECT",
        "B,2,0,9,1,K",
        "B,1,0,9,1,K",
        "L,0,0,9,1,K",
        "AUCTION",
        "B,1,0,9,1,K",
    ];
    let expected = [
        "A,9,0,0,1,0,1,0",
        "A,10,0,0,2,0,1,0",
        "A,11,0,0,1,0,1,0",
        "A,12,21,0,0,0,0,0",
        "A,13,0,0,0,0,0,0",
        "A,14,0,0,0,0,0,0",
        "A,15,0,0,0,0,0,0",
        "A,16,0,0,0,0,0,0",
        "A,17,0,0,1,0,1,0",
        "A,18,0,0,1,0,1,0",
        "A,19,0,0,1,0,1,0",
        "A,20,0,0,0,1,0,1",
        "T,1,1,2,0,0,9,1,9",
        "A,21,0,0,2,0,1,0",
    ];
    assert_calls_print(&lines, &expected);
    assert_eq!(
        shown("CODES,", &lines[..7]),
        ["CODES,0,0", "CODES,1,0", "CODES,2,0"]
    );
}

/// Whosoever it is, and whatever became of its order.
#[test]
fn any_code_keeps_collecting_from_starting() {
    for participant in 0..3 {
        let dropped = format!("B,{participant},0,9,1,I");
        assert_after_reserves(&[(&dropped, 0), ("COLLECT", 21)]);
        let offer = format!("OFFER,{participant},L,0,9,1,0,1");
        let cancelled = format!("X,{participant},1");
        assert_after_reserves(&[(&offer, 0), (&cancelled, 0), ("COLLECT", 21)]);
    }
}

/// The output once one part of it is replaced, where it stands first.
fn altered(text: &str, part: &str, by: &str) -> Result<(), String> {
    let output = script_output(text.as_bytes());
    let output = String::from_utf8_lossy(&output);
    assert!(output.contains(part), "{part} is part of {output}");
    let altered = output.replacen(part, by, 1);
    check_printed::<SCRIPT>(text.as_bytes(), altered.as_bytes())
}

/// Two sells wait with code 1; the buy takes that of 1, and a group takes 2 lots
/// of that of 2 by its members of codes 2 and 3.
const BOOKED: &str = "H,3,1,1\nS,0,1,1\nR,0,0,100\nD,1,0,10\nD,2,0,10\nL,1,0,9,1,K\n\
                      L,2,0,9,3,K\nB,0,0,9,1,K\nG,0,2\nM,B,0,9,1\nM,B,0,9,1\n";

#[test]
fn the_book_finds_orders_by_participant_and_code() {
    assert_eq!(altered(BOOKED, "CODES,0,3\n", "CODES,0,3\n"), Ok(()));
    let faults = [
        ("A,7,0,0,1,0,3,0\n", "A,7,0,0,2,0,3,0\n"),
        ("A,8,0,0,1,1,0,1\n", "A,8,0,0,3,1,0,1\n"),
        ("A,9,0,0,2,2,0,2\n", "A,9,0,0,1,2,0,2\n"),
        ("A,9,0,0,2,2,0,2\n", "A,9,0,0,4,2,0,2\n"),
        ("T,1,1,0,1,0,9,1,9\n", "T,1,1,0,2,0,9,1,9\n"),
        ("T,1,1,0,1,0,9,1,9\n", "T,1,2,0,1,0,9,1,9\n"),
        ("T,3,1,0,2,0,9,1,9\n", "T,3,2,0,2,0,9,1,9\n"),
        ("T,2,1,0,2,0,9,1,9\n", "T,3,1,0,2,0,9,1,9\n"),
        ("T,3,1,0,2,0,9,1,9\n", "T,1,1,0,2,0,9,1,9\n"),
        ("WAITS,2,1,L,0,1,K,9\n", "WAITS,1,1,L,0,1,K,9\n"),
        ("WAITS,2,1,L,0,1,K,9\n", "WAITS,2,2,L,0,1,K,9\n"),
        ("CODES,2,1\n", "CODES,2,2\n"),
        ("CODES,0,3\nCODES,1,1\n", "CODES,1,1\nCODES,0,3\n"),
    ];
    for (part, by) in faults {
        let found = altered(BOOKED, part, by);
        assert!(found.is_err(), "{part} replaced by {by}");
    }
}

/// Waiting orders shown by code, not as they arrived, and an offer that meets the
/// younger one of the lower code.
#[test]
fn the_book_finds_what_goes_by_code() {
    let opened = "H,3,1,1\nS,0,1,1\nR,0,0,100\nD,1,0,10\nD,2,0,10\n";
    let orders = "L,1,0,9,1,I\nL,1,0,9,1,K\nL,2,0,9,1,K\n";
    let by_arrival = "WAITS,1,2,L,0,1,K,9\nWAITS,2,1,L,0,1,K,9\n";
    let by_code = "WAITS,2,1,L,0,1,K,9\nWAITS,1,2,L,0,1,K,9\n";
    let text = [opened, orders].concat();
    assert!(altered(&text, by_arrival, by_code).is_err());
    let offers = "OFFER,1,L,0,8,1,0,1\nOFFER,1,L,0,9,1,0,1\nOFFER,2,L,0,9,1,0,1\n\
                  OFFER,0,B,0,9,1,0,1\n";
    let text = [opened, offers].concat();
    let found = altered(&text, "T,1,2,0,1,0,9,1,9\n", "T,1,1,0,2,0,9,1,9\n");
    let found = found.expect_err("the book objects");
    let due = "due Some(Trade { buy_code: 1, sell_code: 2, buyer: 0, seller: 1,";
    assert!(found.contains(due), "{found}");
}

/// Three participants, of which each has the same money.
fn opened() -> Engine {
    let line = SecurityLine {
        currency: 0,
        lot_size: 1,
        price_step: 1,
        nominal: 0,
    };
    let opening = Opening {
        participants: 3,
        currencies: 1,
        securities: vec![line],
        rate: 0,
        date: 0,
    };
    let mut engine = Engine::open(&opening, false).expect("the opening is in range");
    for participant in 0..3 {
        let movement = Movement {
            participant,
            asset: 0,
            amount: 1_000,
        };
        let answer = engine.increase_money(&movement);
        assert!(answer.is_ok(), "{answer:?}");
    }
    engine
}

fn enter(engine: &mut Engine, participant: u64, kind: EntryKind) -> Answer {
    let entry = Entry {
        participant,
        side: Side::Buy,
        security: 0,
        price: 9,
        lots: 1,
        kind,
    };
    engine.call(&Call::Enter(entry), &mut Vec::new())
}

fn group_of(participant: u64) -> Call {
    let member = Member {
        side: Side::Buy,
        security: 0,
        price: 9,
        lots: 1,
    };
    Call::Group {
        participant,
        members: vec![member; 2],
    }
}

fn offer_of(participant: u64) -> Call {
    Call::EnterOffer(Offer {
        participant,
        side: Side::Buy,
        security: 0,
        lots: 1,
        terms: Terms {
            price: 9,
            rate: 0,
            term: 1,
        },
    })
}

/// Enters orders that are dropped until no code of his is left.
fn use_codes_up(engine: &mut Engine, participant: u64) {
    for code in 1..=CODE_LIMIT {
        let done = enter(engine, participant, EntryKind::Immediate);
        assert_eq!(done.map(|done| done.code), Ok(code));
    }
}

/// 62,500 of one, then of another, while the third still enters with his first;
/// the next day all of them do.
#[test]
fn the_codes_of_one_are_used_up() {
    let mut engine = opened();
    assert_eq!(CODE_LIMIT, 62_500);
    let used_up = Err(refused(refusal::CODES_USED_UP));
    for participant in 0..2 {
        use_codes_up(&mut engine, participant);
        for kind in [EntryKind::Immediate, EntryKind::Kept, EntryKind::FillOrKill] {
            assert_eq!(enter(&mut engine, participant, kind), used_up);
        }
        assert_eq!(
            engine.call(&offer_of(participant), &mut Vec::new()),
            used_up
        );
        let group = engine.call(&group_of(participant), &mut Vec::new());
        let number = refusal::CODES_USED_UP;
        assert_eq!(group, Err(Refused { number, place: 1 }));
    }
    let of_third = enter(&mut engine, 2, EntryKind::Kept);
    assert_eq!(of_third.map(|done| done.code), Ok(1));
    assert_eq!(engine.waiting()[0].arrival, 2 * CODE_LIMIT + 1);
    assert!(engine.is_sound());
    for call in [
        Call::StartClosing,
        Call::EndSession,
        Call::NewDay { date: 1 },
    ] {
        assert!(engine.call(&call, &mut Vec::new()).is_ok(), "{call:?}");
    }
    for participant in 0..3 {
        let done = enter(&mut engine, participant, EntryKind::Kept);
        assert_eq!(done.map(|done| done.code), Ok(1));
    }
}
