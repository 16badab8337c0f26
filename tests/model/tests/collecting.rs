//! Scripts with a collecting phase (T-02), their output reasoned by hand.

mod common;

use model::dayfile::output_of;

use common::{answers, assert_prints, assert_refusals, printed};

/// A buyer with money and a seller with 100 lots: four lines.
const RESERVES: [&str; 4] = ["H,2,1,1", "S,0,10,5", "R,0,0,100000", "D,1,0,1000"];

/// Each line after the reserves, with the refusal it gets or 0.
fn assert_after_reserves(expected: &[(&str, u64)]) {
    let [first, second, reserves @ ..] = RESERVES;
    let accepted = reserves.map(|line| (line, 0));
    assert_refusals(&[first, second], &[&accepted[..], expected].concat());
}

/// Any field after the words is one too many.
#[test]
fn the_words_take_no_field() {
    let lines = [
        ("COLLECT,", 19),
        ("COLLECT,0", 19),
        ("COLLECT ", 19),
        ("collect", 19),
        ("COLLECTS", 19),
        ("COLLECT", 0),
        ("AUCTION,", 19),
        ("AUCTION,1", 19),
        ("auction", 19),
        ("AUCTIO", 19),
        ("AUCTION", 0),
    ];
    assert_after_reserves(&lines);
}

/// 6 in every phase but open, before 21; then 21.
#[test]
fn the_questions_of_the_start() {
    let order = "B,0,0,100,1,K";
    let lines = [
        ("COLLECT", 0),
        ("COLLECT", 6),
        (order, 0),
        ("COLLECT", 6),
        ("AUCTION", 0),
        ("COLLECT", 21),
        ("C", 0),
        ("COLLECT", 6),
        ("Z", 0),
        ("COLLECT", 6),
    ];
    assert_after_reserves(&lines);
}

/// 2 in every phase, before 6; then 6 in every phase but collecting.
#[test]
fn the_questions_of_the_end() {
    let lines = [
        ("AUCTION", 6),
        ("LENT,1087", 0),
        ("AUCTION", 2),
        ("COLLECT", 0),
        ("AUCTION", 2),
        ("LENT,1088", 0),
        ("AUCTION", 0),
        ("AUCTION", 6),
        ("C", 0),
        ("AUCTION", 6),
        ("LENT,0", 0),
        ("AUCTION", 2),
        ("LENT,4096", 0),
        ("Z", 0),
        ("AUCTION", 6),
    ];
    assert_after_reserves(&lines);
}

/// The code stays given where its order was dropped, cancelled, filled, or
/// came off at the auction.
#[test]
fn a_code_given_whatever_became_of_its_order() {
    let dropped = [("B,0,0,100,1,I", 0), ("COLLECT", 21)];
    let cancelled = [("B,0,0,100,1,K", 0), ("X,0,1", 0), ("COLLECT", 21)];
    let filled = [("L,1,0,100,1,K", 0), ("B,0,0,100,1,A", 0), ("COLLECT", 21)];
    let came_off = [
        ("COLLECT", 0),
        ("B,0,0,100,1,K", 0),
        ("AUCTION", 0),
        ("COLLECT", 21),
    ];
    let cancelled_while_collecting = [
        ("COLLECT", 0),
        ("B,0,0,100,1,K", 0),
        ("X,0,1", 0),
        ("AUCTION", 0),
        ("COLLECT", 21),
    ];
    assert_after_reserves(&dropped);
    assert_after_reserves(&cancelled);
    assert_after_reserves(&filled);
    assert_after_reserves(&came_off);
    assert_after_reserves(&cancelled_while_collecting);
}

/// Refused entries give no code, so that collecting may begin after them, and
/// once more after an auction that nobody entered.
#[test]
fn no_code_is_given_by_what_is_refused() {
    let lines = [
        ("B,0,0,106,1,K", 8),
        ("B,0,0,100,1,A", 15),
        ("B,0,0,1000000,10000,K", 14),
        ("COLLECT", 0),
        ("B,0,0,100,1,I", 6),
        ("B,0,0,106,1,K", 8),
        ("AUCTION", 0),
        ("COLLECT", 0),
        ("B,0,0,100,1,K", 0),
        ("AUCTION", 0),
        ("COLLECT", 21),
    ];
    assert_after_reserves(&lines);
}

/// Kept orders wait whole though they cross; other entries meet 4 and 5, then
/// 6, a group's with place 1. The last kept order takes all of the money, to
/// which the cancellation has brought back 4,000.
#[test]
fn what_each_call_answers_while_collecting() {
    let lines = [
        "COLLECT",
        "L,1,0,95,10,K",
        "B,0,0,100,4,K",
        "B,0,0,100,1,I",
        "B,9,0,100,1,I",
        "L,1,0,95,1,A",
        "L,1,9,95,1,A",
        "G,0,2",
        "M,B,0,100,1",
        "M,B,0,100,1",
        "G,9,2",
        "M,B,0,100,1",
        "M,B,0,100,1",
        "G,0,2",
        "M,B,9,0,0",
        "M,B,0,100,1",
        "P,0,B,0,1",
        "C",
        "Z",
        "COLLECT",
        "R,0,0,1",
        "W,0,0,1",
        "D,1,0,1",
        "E,1,0,1",
        "X,0,1",
        "B,0,0,100,0,K",
        "B,0,0,106,1,K",
        "B,0,0,100,100,K",
        "B,0,0,5,1,K",
        "LENT,1087",
        "B,0,0,5,1,K",
        "X,0,2",
    ];
    let expected = [
        "A,3,0,0,0,0,0,0",
        "A,4,0,0,0,0,0,0",
        "A,5,0,0,0,0,0,0",
        "A,6,0,0,1,0,10,0",
        "A,7,0,0,1,0,4,0",
        "A,8,6,0,0,0,0,0",
        "A,9,4,0,0,0,0,0",
        "A,10,6,0,0,0,0,0",
        "A,11,5,0,0,0,0,0",
        "A,12,6,1,0,0,0,0",
        "A,15,4,1,0,0,0,0",
        "A,18,5,1,0,0,0,0",
        "A,21,6,0,0,0,0,0",
        "A,22,6,0,0,0,0,0",
        "A,23,6,0,0,0,0,0",
        "A,24,6,0,0,0,0,0",
        "A,25,0,0,0,0,0,0",
        "A,26,0,0,0,0,0,0",
        "A,27,0,0,0,0,0,0",
        "A,28,0,0,0,0,0,0",
        "A,29,0,0,1,0,0,0",
        "A,30,7,0,0,0,0,0",
        "A,31,8,0,0,0,0,0",
        "A,32,0,0,2,0,100,0",
        "A,33,14,0,0,0,0,0",
        "A,34,0,0,0,0,0,0",
        "A,35,2,0,0,0,0,0",
        "A,36,0,0,2,0,0,0",
    ];
    assert_eq!(answers(&RESERVES, &lines), expected);
}

/// At 90 eight lots trade, at 95 twelve, at 105 ten. The buy at 105 frees 10
/// a piece; the rest of the buy at 95 comes off and frees 7,600. Nothing
/// enters Q and T, so that a closing session would have no price.
#[test]
fn buyers_are_freed_by_the_fall_of_their_own_need() {
    let lines = [
        "H,2,1,1",
        "S,0,10,5",
        "R,0,0,20000",
        "D,1,0,200",
        "COLLECT",
        "B,0,0,105,10,K",
        "B,0,0,95,10,K",
        "L,1,0,95,4,K",
        "L,1,0,90,8,K",
        "SHOW",
        "AUCTION",
        "X,0,2",
        "C",
        "P,0,B,0,1",
    ];
    let collecting = [
        "A,1,0,0,0,0,0,0",
        "A,3,0,0,0,0,0,0",
        "A,4,0,0,0,0,0,0",
        "A,5,0,0,0,0,0,0",
        "A,6,0,0,1,0,10,0",
        "A,7,0,0,2,0,10,0",
        "A,8,0,0,1,0,4,0",
        "A,9,0,0,2,0,8,0",
        "A,10,0,0,0,0,0,0",
        "M,0,0,0,20000",
        "M,1,0,0,0",
        "Q,0,0,0,0",
        "Q,1,0,80,120",
        "PHASE,collecting",
        "TURNOVER,0,0,0",
        "CODES,0,2",
        "CODES,1,2",
        "WAITS,0,1,B,0,10,K,105",
        "WAITS,0,2,B,0,10,K,95",
        "WAITS,1,1,L,0,4,K,95",
        "WAITS,1,2,L,0,8,K,90",
        "MARKET,0,0",
        "DATE,0",
    ];
    let auction = [
        "A,11,0,0,0,12,0,3",
        "T,1,2,0,1,0,95,8,7600",
        "T,1,1,0,1,0,95,2,1900",
        "T,2,1,0,1,0,95,2,1900",
        "A,12,16,0,0,0,0,0",
        "A,13,0,0,0,0,0,0",
        "A,14,11,0,0,0,0,0",
        "M,0,0,8600,0",
        "M,1,0,11400,0",
        "Q,0,0,120,0",
        "Q,1,0,80,0",
        "PHASE,closing",
        "TURNOVER,0,0,0",
        "CODES,0,2",
        "CODES,1,2",
        "MARKET,0,0",
        "DATE,0",
    ];
    assert_prints(&lines, &[&collecting[..], &auction].concat());
}

/// After the auction at 95 only the trade of 3 lots at 105 counts: Q 30 and
/// T 3,150. The closing price is 105, at which the buy needs 1,050.
#[test]
fn trading_and_closing_after_the_auction() {
    let lines = [
        "COLLECT",
        "L,1,0,95,10,K",
        "B,0,0,100,10,K",
        "AUCTION",
        "SHOW",
        "L,1,0,105,3,K",
        "B,0,0,105,3,A",
        "C",
        "P,0,B,0,1",
        "SHOW",
    ];
    let output = printed(&[&RESERVES[..], &lines].concat());
    let after: Vec<&str> = output.lines().skip(6).take(30).collect();
    let expected = [
        "A,8,0,0,0,10,0,1",
        "T,1,1,0,1,0,95,10,9500",
        "A,9,0,0,0,0,0,0",
        "M,0,0,90500,0",
        "M,1,0,9500,0",
        "Q,0,0,100,0",
        "Q,1,0,900,0",
        "PHASE,open",
        "TURNOVER,0,0,0",
        "CODES,0,1",
        "CODES,1,1",
        "MARKET,0,0",
        "DATE,0",
        "A,10,0,0,2,0,3,0",
        "A,11,0,0,2,3,0,1",
        "T,2,2,0,1,0,105,3,3150",
        "A,12,0,0,0,0,0,0",
        "A,13,0,0,3,0,1,0",
        "A,14,0,0,0,0,0,0",
        "M,0,0,86300,1050",
        "M,1,0,12650,0",
        "Q,0,0,130,0",
        "Q,1,0,870,0",
        "PHASE,closing",
        "TURNOVER,0,30,3150",
        "CODES,0,3",
        "CODES,1,2",
        "WAITS,0,3,B,0,1,P,0",
        "MARKET,0,0",
        "DATE,0",
    ];
    assert_eq!(after, expected);
}

/// Nothing trades where no buy reaches a sell, and all the same comes off.
#[test]
fn orders_that_do_not_meet_come_off() {
    let lines = [
        "COLLECT",
        "L,1,0,105,10,K",
        "B,0,0,100,10,K",
        "SHOW",
        "AUCTION",
        "B,0,0,105,1,I",
    ];
    let output = printed(&[&RESERVES[..], &lines].concat());
    let after: Vec<&str> = output.lines().skip(6).collect();
    let expected = [
        "A,8,0,0,0,0,0,0",
        "M,0,0,90000,10000",
        "M,1,0,0,0",
        "Q,0,0,0,0",
        "Q,1,0,900,100",
        "PHASE,collecting",
        "TURNOVER,0,0,0",
        "CODES,0,1",
        "CODES,1,1",
        "WAITS,1,1,L,0,10,K,105",
        "WAITS,0,1,B,0,10,K,100",
        "MARKET,0,0",
        "DATE,0",
        "A,9,0,0,0,0,0,0",
        "A,10,0,0,2,0,0,0",
        "M,0,0,100000,0",
        "M,1,0,0,0",
        "Q,0,0,0,0",
        "Q,1,0,1000,0",
        "PHASE,open",
        "TURNOVER,0,0,0",
        "CODES,0,2",
        "CODES,1,1",
        "MARKET,0,0",
        "DATE,0",
    ];
    assert_eq!(after, expected);
}

/// Security 0 trades first, though its orders came last, each at its own
/// price; a participant meets his own order.
#[test]
fn securities_ascend() {
    let lines = [
        "H,1,2,2",
        "S,1,10,5",
        "S,0,1,1",
        "R,0,0,1000",
        "R,0,1,1000",
        "D,0,0,20",
        "D,0,1,5",
        "COLLECT",
        "L,0,1,7,5,K",
        "B,0,1,9,6,K",
        "L,0,0,15,2,K",
        "B,0,0,25,1,K",
        "AUCTION",
    ];
    let output = printed(&lines);
    let after: Vec<&str> = output.lines().skip(10).collect();
    let expected = [
        "A,13,0,0,0,6,0,2",
        "T,4,3,0,0,0,15,1,150",
        "T,2,1,0,0,1,7,5,35",
        "M,0,0,1000,0",
        "M,0,1,1000,0",
        "Q,0,0,20,0",
        "Q,0,1,5,0",
        "PHASE,open",
        "TURNOVER,0,0,0",
        "TURNOVER,1,0,0",
        "CODES,0,4",
        "MARKET,0,0",
        "MARKET,1,0",
        "DATE,0",
    ];
    assert_eq!(after, expected);
}

/// Of equal prices the earlier arrival trades first; a lot of the later buy is left.
#[test]
fn earlier_arrivals_first() {
    let lines = [
        "COLLECT",
        "B,0,0,100,3,K",
        "B,0,0,100,3,K",
        "B,0,0,105,3,K",
        "L,1,0,100,4,K",
        "L,1,0,100,4,K",
        "AUCTION",
    ];
    let output = printed(&[&RESERVES[..], &lines].concat());
    let trades: Vec<&str> = output
        .lines()
        .filter(|line| line.starts_with("T,"))
        .collect();
    let expected = [
        "T,3,1,0,1,0,100,3,3000",
        "T,1,1,0,1,0,100,1,1000",
        "T,1,2,0,1,0,100,2,2000",
        "T,2,2,0,1,0,100,2,2000",
    ];
    assert_eq!(trades, expected);
}

/// 128 orders wait while collecting; 12 comes after 8 and before 14.
#[test]
fn the_book_is_full() {
    let mut lines = vec![("COLLECT", 0)];
    lines.extend([("B,0,0,5,1,K", 0); 64]);
    lines.extend([("L,1,0,5,1,K", 0); 64]);
    lines.extend([
        ("B,0,0,1000000,10000,K", 12),
        ("B,0,0,6,1,K", 8),
        ("X,1,1", 0),
        ("L,1,0,5,1,K", 0),
        ("L,1,0,5,1,K", 12),
        ("AUCTION", 0),
        ("L,1,0,5,1,K", 0),
    ]);
    assert_after_reserves(&lines);
}

#[test]
fn a_day_file_knows_no_collecting() {
    let output = output_of(b"H,1,1,1\nS,0,10,5\nCOLLECT\nB,0,0,5,1,K\nAUCTION\n");
    let expected = "A,1,0,0,0,0,0,0\nA,3,19,0,0,0,0,0\nA,4,14,0,0,0,0,0\n\
                    A,5,19,0,0,0,0,0\nM,0,0,0,0\nQ,0,0,0,0\n";
    assert_eq!(String::from_utf8_lossy(&output), expected);
}
