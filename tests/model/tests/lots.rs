//! Lots in sixteen bits (T-08); outputs reasoned by hand. No outcome moves: what
//! doesn't fit them is refused, and every sum of lots is as wide as before.

mod common;

use model::check::checked_output;
use model::generate::day_file;
use model::level::DAY_FILE;
use model::tally::Tally;

use common::{assert_ends, assert_refusals, printed};

/// Two participants with money and pieces, lot 10, step 5: six lines.
const RESERVES: [&str; 6] = [
    "H,2,1,1",
    "S,0,10,5",
    "R,0,0,100000000",
    "R,1,0,100000000",
    "D,0,0,1000000",
    "D,1,0,1000000",
];

/// Sixteen bits of them are none, one and the most.
const CUT: [&str; 3] = ["65536", "65537", "75536"];

const SELL: &str = "L,1,0,100,10000,K";

const BUY: &str = "B,0,0,100,10000,K";

fn after_reserves<'line>(lines: &[&'line str]) -> Vec<&'line str> {
    [&RESERVES[..], lines].concat()
}

/// What the lines after the reserves print before the lines of the end.
fn assert_calls_print(lines: &[&str], expected: &[&str]) {
    let output = printed(&after_reserves(lines));
    let of_calls = output.lines().take_while(|line| !line.starts_with("M,"));
    let of_lines: Vec<&str> = of_calls.skip(RESERVES.len() - 1).collect();
    assert_eq!(of_lines, expected);
}

/// The lines with this word that the end prints after the reserves and these.
fn shown(word: &str, lines: &[&str]) -> Vec<String> {
    let output = printed(&after_reserves(lines));
    let of_word = output.lines().filter(|line| line.starts_with(word));
    of_word.map(String::from).collect()
}

/// Seven trades of 10,000 lots at 100, between the buyer's and the seller's codes
/// from this one on.
fn seven_trades(first_code: u64) -> Vec<String> {
    let codes = first_code..first_code + 7;
    let trades = codes.map(|code| format!("T,{code},{code},0,1,0,100,10000,10000000"));
    trades.collect()
}

/// The last answer and its trades.
fn assert_answers_last(lines: &[&str], answer: &str, trades: &[String]) {
    let output = printed(&after_reserves(lines));
    let of_calls = output.lines().take_while(|line| !line.starts_with("M,"));
    let of_calls: Vec<&str> = of_calls.collect();
    let mut expected = vec![answer];
    expected.extend(trades.iter().map(String::as_str));
    assert!(of_calls.ends_with(&expected), "{output}");
}

#[test]
fn the_most_lots_are_as_before() {
    let lines = [
        ("B,0,0,5,10000,K", 0),
        ("B,0,0,5,10001,K", 7),
        ("B,0,0,5,65535,K", 7),
        ("B,0,0,5,65546,K", 7),
        ("L,0,0,10,10000,K", 0),
        ("L,0,0,10,10001,K", 7),
        ("L,0,0,10,4294967297,K", 7),
        ("L,0,0,10,281474976710657,K", 7),
    ];
    let accepted: Vec<(&str, u64)> = RESERVES[2..].iter().map(|line| (*line, 0)).collect();
    assert_refusals(&RESERVES[..2], &[&accepted[..], &lines].concat());
}

/// One or 10,000 of them would trade with the sell.
#[test]
fn an_order_is_not_cut_down() {
    for lots in CUT {
        for kind in ["K", "I", "A"] {
            let buy = format!("B,0,0,100,{lots},{kind}");
            let expected = ["A,7,0,0,1,0,10000,0", "A,8,7,0,0,0,0,0"];
            assert_calls_print(&[SELL, &buy], &expected);
            let waiting = ["WAITS,1,1,L,0,10000,K,100"];
            assert_eq!(shown("WAITS,", &[SELL, &buy]), waiting);
        }
        let sell = format!("L,1,0,100,{lots},K");
        let expected = ["A,7,0,0,0,0,0,0", "A,8,7,0,0,0,0,0"];
        assert_calls_print(&["COLLECT", &sell], &expected);
    }
}

/// The first member's trade is undone.
#[test]
fn a_member_is_not_cut_down() {
    for lots in CUT {
        let member = format!("M,B,0,100,{lots}");
        for (members, place) in [(["M,B,0,100,1", &member], 2), ([&member, "M,B,0,100,1"], 1)] {
            let lines = [&[SELL, "G,0,2"][..], &members].concat();
            let refused = format!("A,8,7,{place},0,0,0,0");
            assert_calls_print(&lines, &["A,7,0,0,1,0,10000,0", &refused]);
            let waiting = ["WAITS,1,1,L,0,10000,K,100"];
            assert_eq!(shown("WAITS,", &lines), waiting);
        }
    }
}

/// A counter offer of what would be left of them waits.
#[test]
fn an_offer_is_not_cut_down() {
    let lines = [
        "OFFER,1,L,0,100,1,500,7",
        "OFFER,1,L,0,100,10000,500,7",
        "OFFER,0,B,0,100,65536,500,7",
        "OFFER,0,B,0,100,65537,500,7",
        "OFFER,0,B,0,100,75536,500,7",
    ];
    let expected = [
        "A,7,0,0,1,0,1,0",
        "A,8,0,0,2,0,10000,0",
        "A,9,7,0,0,0,0,0",
        "A,10,7,0,0,0,0,0",
        "A,11,7,0,0,0,0,0",
    ];
    assert_calls_print(&lines, &expected);
}

#[test]
fn a_closing_order_is_not_cut_down() {
    let lines = [
        "L,1,0,100,1,K",
        "B,0,0,100,1,K",
        "C",
        "P,1,L,0,10000",
        "P,0,B,0,65536",
        "P,0,B,0,65537",
        "P,0,B,0,75536",
        "Z",
    ];
    let expected = [
        "A,7,0,0,1,0,1,0",
        "A,8,0,0,1,1,0,1",
        "T,1,1,0,1,0,100,1,1000",
        "A,9,0,0,0,0,0,0",
        "A,10,0,0,2,0,10000,0",
        "A,11,7,0,0,0,0,0",
        "A,12,7,0,0,0,0,0",
        "A,13,7,0,0,0,0,0",
        "A,14,0,0,0,0,0,0",
    ];
    assert_calls_print(&lines, &expected);
}

/// The lot that is left needs 10 pieces, which the cancellation frees.
#[test]
fn a_sell_is_filled_down_to_one_lot() {
    let lines = [SELL, "B,0,0,100,9999,I", "X,1,1"];
    let expected = [
        "A,7,0,0,1,0,10000,0",
        "A,8,0,0,1,9999,0,1",
        "T,1,1,0,1,0,100,9999,9999000",
        "A,9,0,0,1,0,0,0",
    ];
    assert_calls_print(&lines, &expected);
    let waiting = ["WAITS,1,1,L,0,1,K,100"];
    assert_eq!(shown("WAITS,", &lines[..2]), waiting);
    let pieces = ["Q,0,0,1099990,0", "Q,1,0,900000,10"];
    assert_eq!(shown("Q,", &lines[..2]), pieces);
    assert!(shown("WAITS,", &lines).is_empty());
    let pieces = ["Q,0,0,1099990,0", "Q,1,0,900010,0"];
    assert_eq!(shown("Q,", &lines), pieces);
}

/// The entry itself: at 105 its last lot needs 1,050.
#[test]
fn a_buy_is_filled_down_to_one_lot() {
    let lines = ["L,1,0,100,9999,K", "B,0,0,105,10000,K", "X,0,1"];
    let expected = [
        "A,7,0,0,1,0,9999,0",
        "A,8,0,0,1,9999,1,1",
        "T,1,1,0,1,0,100,9999,9999000",
        "A,9,0,0,1,0,0,0",
    ];
    assert_calls_print(&lines, &expected);
    let waiting = ["WAITS,0,1,B,0,1,K,105"];
    assert_eq!(shown("WAITS,", &lines[..2]), waiting);
    let money = ["M,0,0,89999950,1050", "M,1,0,109999000,0"];
    assert_eq!(shown("M,", &lines[..2]), money);
    let money = ["M,0,0,90001000,0", "M,1,0,109999000,0"];
    assert_eq!(shown("M,", &lines), money);
}

/// 70,000 lots fit, of which sixteen bits are 4,464; then 65,536, of which they
/// are none.
#[test]
fn fitting_lots_are_added_up_whole() {
    let lines = [&[SELL; 7][..], &["B,0,0,100,10000,A"]].concat();
    let trade = ["T,1,1,0,1,0,100,10000,10000000".into()];
    assert_answers_last(&lines, "A,14,0,0,1,10000,0,1", &trade);
    let lines = [&[SELL; 6][..], &["L,1,0,100,5536,K", "B,0,0,100,1,A"]].concat();
    let trade = ["T,1,1,0,1,0,100,1,1000".into()];
    assert_answers_last(&lines, "A,14,0,0,1,1,0,1", &trade);
}

#[test]
fn a_group_answers_70_000_lots() {
    let members = ["M,B,0,100,10000"; 7];
    let lines = [&[SELL; 7][..], &["G,0,7"], &members].concat();
    assert_answers_last(&lines, "A,14,0,0,1,70000,0,7", &seven_trades(1));
    assert_eq!(shown("TURNOVER,", &lines), ["TURNOVER,0,700000,70000000"]);
}

/// At 100, 80,000 lots are wanted and 70,000 offered, of which sixteen bits are
/// 14,464 and 4,464; at 105 it is 10,000 and 70,000. The eighth buy comes off.
#[test]
fn an_auction_answers_70_000_lots() {
    let buys = [&["B,0,0,105,10000,K"][..], &[BUY; 7]].concat();
    let lines = [&["COLLECT"][..], &buys, &[SELL; 7], &["AUCTION"]].concat();
    assert_answers_last(&lines, "A,23,0,0,0,70000,0,7", &seven_trades(1));
    let expected = [
        "M,0,0,30000000,0",
        "M,1,0,170000000,0",
        "Q,0,0,1700000,0",
        "Q,1,0,300000,0",
        "PHASE,open",
        "TURNOVER,0,0,0",
        "CODES,0,8",
        "CODES,1,7",
        "MARKET,0,0",
        "DATE,0",
    ];
    assert_ends(&after_reserves(&lines), &expected);
}

/// At the closing price of 100, which one lot made.
#[test]
fn a_closing_session_answers_70_000_lots() {
    let first = ["L,1,0,100,1,K", "B,0,0,100,1,K", "C"];
    let (sells, buys) = (["P,1,L,0,10000"; 7], ["P,0,B,0,10000"; 7]);
    let lines = [&first[..], &sells, &buys, &["Z"]].concat();
    assert_answers_last(&lines, "A,24,0,0,0,70000,0,7", &seven_trades(2));
    let pieces = ["Q,0,0,1700010,0", "Q,1,0,299990,0"];
    assert_eq!(shown("Q,", &lines), pieces);
}

/// As generated scripts do, but for offers and auctions.
#[test]
fn generated_days_reach_it() -> Result<(), String> {
    let mut tally = Tally::default();
    for seed in 1..=150 {
        checked_output::<DAY_FILE>(&day_file(seed), &mut tally)
            .map_err(|fault| format!("seed {seed}: {fault}"))?;
    }
    let lots = &tally.lots;
    for entered in ["kept", "immediate", "whole", "member", "closing"] {
        assert!(lots.refused(entered) > 0, "lots refused, {entered}");
    }
    for by in ["group", "session"] {
        assert!(lots.answered(by) > 0, "long answers, {by}");
    }
    assert!(lots.fitting > 0, "filled whole");
    assert!(lots.last_lots > 0, "with one lot left");
    Ok(())
}
