//! Scripts with a tariff (T-03), their output reasoned by hand.

mod common;

use model::dayfile::{output_of, script_output};
use model::generate::day_file;
use model::reader::TEXT_LIMIT;

use common::{answers, assert_ends, assert_prints, assert_refusals, printed};

/// Two participants at 1 %, lot 10 and step 5: two lines.
const HEADING: [&str; 2] = ["H,2,1,1,1000", "S,0,10,5"];

/// Any number of 1 to 16 digits is a rate in good form; then 22 above 1,000.
#[test]
fn forms_and_range_of_the_rate() {
    let rates = [
        (",0", 0),
        (",1", 0),
        (",999", 0),
        (",1000", 0),
        (",1001", 22),
        (",9999999999999999", 22),
        (",10000000000000000", 19),
        (",00", 19),
        (",01000", 19),
        (",", 19),
        (", 1", 19),
        (",1 ", 19),
        (",+1", 19),
        (",-1", 19),
        (",1e3", 19),
        (",1000\r", 19),
        (",1000,", 19),
        (",1001,", 19),
    ];
    for (rate, refusal) in rates {
        let heading = format!("H,1,1,1{rate}");
        let answer = format!("A,1,{refusal},0,0,0,0,0");
        let output = printed(&[&heading, "S,0,10,5"]);
        assert_eq!(output.lines().next(), Some(&answer[..]), "{heading}");
        assert_eq!(output.lines().count() == 1, refusal > 0, "{heading}");
    }
}

/// 19 for every form, then 17, 18 on its own line with its place, 22.
#[test]
fn the_rate_is_asked_last() {
    let headings: [(&[&str], &str); 6] = [
        (&["H,17,1,1,1001", "S,0,10,5"], "A,1,17,0,0,0,0,0"),
        (&["H,2,1,0,1001"], "A,1,17,0,0,0,0,0"),
        (&["H,17,1,1,1001", "S,0,0,5"], "A,1,17,0,0,0,0,0"),
        (
            &["H,2,1,2,1001", "S,0,10,5", "S,1,10,5"],
            "A,3,18,2,0,0,0,0",
        ),
        (&["H,2,1,2,1001", "S,0,10,5"], "A,3,19,0,0,0,0,0"),
        (&["H,2,1,1,1001", "S,0,10,5,"], "A,2,19,0,0,0,0,0"),
    ];
    for (heading, answer) in headings {
        assert_prints(heading, &[answer]);
    }
}

/// There a fourth number is a field too many, whatever it says.
#[test]
fn a_day_file_has_no_rate() {
    for rate in ["", "0", "1000", "1001"] {
        let text = format!("H,1,1,1,{rate}\nS,0,10,5\n");
        assert_eq!(output_of(text.as_bytes()), b"A,1,19,0,0,0,0,0\n", "{rate}");
    }
}

/// With rate 0 a script prints what it prints without one, if there is room
/// for the rate.
#[test]
fn rate_0_is_no_rate() {
    for seed in 1..=160 {
        let text = day_file(seed);
        let end = text.iter().position(|&byte| byte == b'\n');
        let (heading, rest) = text.split_at(end.unwrap_or(text.len()));
        let with_rate = [heading, b",0", rest].concat();
        let output = script_output(&text);
        if output.starts_with(b"A,1,0,") && with_rate.len() <= TEXT_LIMIT {
            assert!(script_output(&with_rate) == output, "seed {seed}");
        }
    }
}

/// The buy of 20 at 100 needs 20,000 and 200. 14 comes before 15.
#[test]
fn money_to_the_last_unit() {
    let lines = [
        ("R,0,0,20199", 0),
        ("B,0,0,100,20,K", 14),
        ("B,0,0,100,20,I", 14),
        ("B,0,0,100,20,A", 14),
        ("R,0,0,1", 0),
        ("B,0,0,100,20,A", 15),
        ("B,0,0,100,20,I", 0),
        ("B,0,0,100,20,K", 0),
        ("B,0,0,5,1,K", 14),
        ("W,0,0,1", 10),
    ];
    assert_refusals(&HEADING, &lines);
}

/// The unit is rounded down: at 1 in 100,000 a fee begins with the sum of
/// 100,000, at 999 with that of 101.
#[test]
fn fees_are_rounded_down() {
    let lowest = [
        ("R,0,0,99999", 0),
        ("B,0,0,99999,1,I", 0),
        ("R,0,0,1", 0),
        ("B,0,0,100000,1,I", 14),
        ("R,0,0,1", 0),
        ("B,0,0,100000,1,I", 0),
    ];
    assert_refusals(&["H,1,1,1,1", "S,0,1,1"], &lowest);
    let below_limit = [
        ("R,0,0,100", 0),
        ("B,0,0,100,1,I", 0),
        ("R,0,0,1", 0),
        ("B,0,0,101,1,I", 14),
        ("R,0,0,1", 0),
        ("B,0,0,101,1,I", 0),
    ];
    assert_refusals(&["H,1,1,1,999", "S,0,1,1"], &below_limit);
}

/// The sum is 10^13, its fee 10^11.
#[test]
fn the_largest_order() {
    let lines = [
        ("R,0,0,10099999999999", 0),
        ("B,0,0,1000000,10000,K", 14),
        ("R,0,0,1", 0),
        ("B,0,0,1000000,10000,K", 0),
        ("X,0,1", 0),
        ("W,0,0,10100000000000", 0),
    ];
    assert_refusals(&["H,1,1,1,1000", "S,0,1000,1000000"], &lines);
}

/// Need falls from 20,200 to 10,100; 9,500 and 95 are paid, 505 freed. The
/// trade's own price counts for the fees, and neither its sum nor T has them.
#[test]
fn a_trade_of_10_lots_at_95() {
    let lines = [
        HEADING[0],
        HEADING[1],
        "R,0,0,20200",
        "D,1,0,200",
        "L,1,0,95,10,K",
        "B,0,0,100,20,K",
    ];
    let expected = [
        "A,1,0,0,0,0,0,0",
        "A,3,0,0,0,0,0,0",
        "A,4,0,0,0,0,0,0",
        "A,5,0,0,1,0,10,0",
        "A,6,0,0,1,10,10,1",
        "T,1,1,0,1,0,95,10,9500",
        "M,0,0,505,10100",
        "M,1,0,9405,0",
        "Q,0,0,100,0",
        "Q,1,0,100,0",
        "PHASE,open",
        "TURNOVER,0,100,9500",
        "CODES,0,1",
        "CODES,1,1",
        "WAITS,0,1,B,0,10,K,100",
        "MARKET,0,190",
        "DATE,0",
    ];
    assert_prints(&lines, &expected);
}

/// 198 have a fee of 1, 99 none: the first trade frees the odd unit at once,
/// and nothing reaches the account.
#[test]
fn a_partial_fill_frees_the_odd_unit() {
    let reserves = ["H,2,1,1,1000", "S,0,1,1", "R,0,0,199", "D,1,0,2"];
    let order = ["B,0,0,99,2,K", "L,1,0,99,1,I"];
    let half_filled = [
        "M,0,0,1,99",
        "M,1,0,99,0",
        "Q,0,0,1,0",
        "Q,1,0,1,0",
        "PHASE,open",
        "TURNOVER,0,1,99",
        "CODES,0,1",
        "CODES,1,1",
        "WAITS,0,1,B,0,1,K,99",
        "MARKET,0,0",
        "DATE,0",
    ];
    assert_ends(&[&reserves[..], &order].concat(), &half_filled);
    let rest = ["W,0,0,1", "L,1,0,99,1,I"];
    let filled = [
        "M,0,0,0,0",
        "M,1,0,198,0",
        "Q,0,0,2,0",
        "Q,1,0,0,0",
        "PHASE,open",
        "TURNOVER,0,2,198",
        "CODES,0,1",
        "CODES,1,2",
        "MARKET,0,0",
        "DATE,0",
    ];
    assert_ends(&[&reserves[..], &order, &rest].concat(), &filled);
}

/// The buyer pays 95 for the sum of 9,500 that comes back to him less 95.
#[test]
fn who_meets_himself_pays_both_fees() {
    let lines = [
        HEADING[0],
        HEADING[1],
        "R,0,0,10100",
        "D,0,0,100",
        "L,0,0,95,10,K",
        "B,0,0,100,10,K",
    ];
    let expected = [
        "M,0,0,9910,0",
        "M,1,0,0,0",
        "Q,0,0,100,0",
        "Q,1,0,0,0",
        "PHASE,open",
        "TURNOVER,0,100,9500",
        "CODES,0,2",
        "CODES,1,0",
        "MARKET,0,190",
        "DATE,0",
    ];
    assert_ends(&lines, &expected);
}

/// A sell needs no money, not even for its fee, which comes off the proceeds.
/// It trades at the buy's price, 100: 4,040 of 10,100 go, 3,960 arrive.
#[test]
fn a_sell_meets_a_waiting_buy() {
    let lines = [
        HEADING[0],
        HEADING[1],
        "R,0,0,10100",
        "D,1,0,40",
        "B,0,0,100,10,K",
        "L,1,0,95,4,A",
    ];
    let expected = [
        "T,1,1,0,1,0,100,4,4000",
        "M,0,0,0,6060",
        "M,1,0,3960,0",
        "Q,0,0,40,0",
        "Q,1,0,0,0",
        "PHASE,open",
        "TURNOVER,0,40,4000",
        "CODES,0,1",
        "CODES,1,1",
        "WAITS,0,1,B,0,6,K,100",
        "MARKET,0,80",
        "DATE,0",
    ];
    assert_ends(&lines, &expected);
}

/// A group's sell brings 990 for a sum of 1,000, and they pay for a buy of 98
/// lots at 10 (980 and 9) but not for one of 99 (990 and 9).
#[test]
fn proceeds_less_the_fee_pay_later_members() {
    let heading = ["H,2,1,2,1000", "S,0,1,1", "S,0,1,1"];
    let lines = [
        "D,0,0,100",
        "R,1,0,1010",
        "D,1,1,99",
        "B,1,0,10,100,K",
        "L,1,1,10,99,K",
        "G,0,2",
        "M,L,0,10,100",
        "M,B,1,10,99",
        "G,0,2",
        "M,L,0,10,100",
        "M,B,1,10,98",
        "W,0,0,2",
        "W,0,0,1",
    ];
    let expected = [
        "A,4,0,0,0,0,0,0",
        "A,5,0,0,0,0,0,0",
        "A,6,0,0,0,0,0,0",
        "A,7,0,0,1,0,100,0",
        "A,8,0,0,2,0,99,0",
        "A,9,14,2,0,0,0,0",
        "A,12,0,0,1,198,0,2",
        "A,15,10,0,0,0,0,0",
        "A,16,0,0,0,0,0,0",
    ];
    assert_eq!(answers(&heading, &lines), expected);
}

/// A cancellation, a dropped order, a refused group and the start of closing
/// each give back 10,100, fee and all.
#[test]
fn needs_are_freed_with_their_fees() {
    let order = "B,0,0,100,10,K";
    let lines = [
        ("R,0,0,10100", 0),
        (order, 0),
        ("W,0,0,1", 10),
        ("X,0,1", 0),
        ("B,0,0,100,10,I", 0),
        (order, 0),
        ("C", 0),
        ("W,0,0,10101", 10),
        ("W,0,0,10100", 0),
    ];
    assert_refusals(&HEADING, &lines);
    let group = [
        "R,0,0,10100",
        "D,1,0,100",
        "L,1,0,100,5,K",
        "G,0,2",
        "M,B,0,100,5",
        "M,B,0,100,5",
        "W,0,0,10101",
        "W,0,0,10100",
    ];
    let expected = [
        "A,3,0,0,0,0,0,0",
        "A,4,0,0,0,0,0,0",
        "A,5,0,0,1,0,5,0",
        "A,6,15,2,0,0,0,0",
        "A,9,10,0,0,0,0,0",
        "A,10,0,0,0,0,0,0",
    ];
    assert_eq!(answers(&HEADING, &group), expected);
}

/// The trade of 9,500 moves 190 from the participants to the account. The
/// total stays at its limit, and what is taken out makes room for as much.
#[test]
fn the_total_counts_the_account_in() {
    let lines = [
        ("R,0,0,1000000000000000", 0),
        ("D,1,0,100", 0),
        ("L,1,0,95,10,K", 0),
        ("B,0,0,95,10,K", 0),
        ("R,1,0,1", 9),
        ("R,0,0,190", 9),
        ("W,1,0,5", 0),
        ("R,0,0,6", 9),
        ("R,0,0,5", 0),
    ];
    assert_refusals(&HEADING, &lines);
}

/// The buys need 10,605 and 9,595. Three trades at 95, of 7,600, 1,900 and
/// 1,900, pay 76, 19 and 19 on each side; all the rest comes off.
#[test]
fn the_auction_pays_fees() {
    let lines = [
        HEADING[0],
        HEADING[1],
        "R,0,0,20200",
        "D,1,0,200",
        "COLLECT",
        "B,0,0,105,10,K",
        "B,0,0,95,10,K",
        "W,0,0,1",
        "L,1,0,95,4,K",
        "L,1,0,90,8,K",
        "AUCTION",
    ];
    let expected = [
        "A,8,10,0,0,0,0,0",
        "A,9,0,0,1,0,4,0",
        "A,10,0,0,2,0,8,0",
        "A,11,0,0,0,12,0,3",
        "T,1,2,0,1,0,95,8,7600",
        "T,1,1,0,1,0,95,2,1900",
        "T,2,1,0,1,0,95,2,1900",
        "M,0,0,8686,0",
        "M,1,0,11286,0",
        "Q,0,0,120,0",
        "Q,1,0,80,0",
        "PHASE,open",
        "TURNOVER,0,0,0",
        "CODES,0,2",
        "CODES,1,2",
        "MARKET,0,228",
        "DATE,0",
    ];
    assert_ends(&lines, &expected);
}

/// 9,595 of 12,473 pay for the trade, so that 2,878 are left. The closing
/// price is 95: 3 lots need 2,850 and 28, 2 lots 1,900 and 19, one 950 and 9.
/// The first trade costs the fall in need, 959; the second costs 959 of 960.
/// The rest comes off: 2,878 less 1,918 are free.
#[test]
fn the_closing_session_pays_fees() {
    let lines = [
        HEADING[0],
        HEADING[1],
        "R,0,0,12473",
        "D,1,0,200",
        "L,1,0,95,10,K",
        "B,0,0,95,10,K",
        "C",
        "W,0,0,1",
        "P,0,B,0,3",
        "R,0,0,1",
        "P,0,B,0,3",
        "P,1,L,0,1",
        "P,1,L,0,1",
        "Z",
    ];
    let expected = [
        "A,9,14,0,0,0,0,0",
        "A,10,0,0,0,0,0,0",
        "A,11,0,0,2,0,3,0",
        "A,12,0,0,2,0,1,0",
        "A,13,0,0,3,0,1,0",
        "A,14,0,0,0,2,0,2",
        "T,2,2,0,1,0,95,1,950",
        "T,2,3,0,1,0,95,1,950",
        "M,0,0,960,0",
        "M,1,0,11287,0",
        "Q,0,0,120,0",
        "Q,1,0,80,0",
        "PHASE,closed",
        "TURNOVER,0,100,9500",
        "CODES,0,2",
        "CODES,1,3",
        "MARKET,0,226",
        "DATE,0",
    ];
    assert_ends(&lines, &expected);
}

/// Each currency has an account of its own, printed also where it is empty.
#[test]
fn the_account_of_each_currency() {
    let lines = [
        "H,2,3,2,500",
        "S,2,10,5",
        "S,0,1,1",
        "R,0,2,10000",
        "R,0,0,10000",
        "D,1,0,100",
        "D,1,1,100",
        "L,1,0,90,10,K",
        "B,0,0,95,10,I",
        "L,1,1,39,10,K",
        "B,0,1,39,10,I",
    ];
    let expected = [
        "CODES,0,2",
        "CODES,1,2",
        "MARKET,0,2",
        "MARKET,1,0",
        "MARKET,2,90",
        "DATE,0",
    ];
    assert_ends(&lines, &expected);
}
