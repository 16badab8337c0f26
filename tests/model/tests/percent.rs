//! Scripts with prices in percent of a nominal (T-05), their output reasoned by
//! hand.

mod common;

use model::dayfile::{output_of, script_output};
use model::generate::day_file;
use model::reader::TEXT_LIMIT;

use common::{answers, assert_ends, assert_prints, assert_refusals, printed};

/// Two participants, lot 10 and step 50, where a lot at 100 % is 500,000: two
/// lines.
const HEADING: [&str; 2] = ["H,2,1,1", "S,0,10,50,50000"];

/// Lot 1 and step 1, where a piece at 9,999 is 9,999.9999: two are 19,999 and
/// three 29,999.
const ODD_HEADING: [&str; 2] = ["H,2,1,1", "S,0,1,1,10001"];

/// Any number of 1 to 16 digits is a nominal in good form; then 23 unless it is
/// 0 or from 10,000 to 500,000.
#[test]
fn forms_and_range_of_the_nominal() {
    let nominals = [
        (",0", 0),
        (",1", 23),
        (",9999", 23),
        (",10000", 0),
        (",12345", 0),
        (",500000", 0),
        (",500001", 23),
        (",9999999999999999", 23),
        (",10000000000000000", 19),
        (",00", 19),
        (",010000", 19),
        (",", 19),
        (", 10000", 19),
        (",10000 ", 19),
        (",+10000", 19),
        (",-1", 19),
        (",1e5", 19),
        (",10000\r", 19),
        (",10000,", 19),
        (",9999,", 19),
        (",10000,0", 19),
    ];
    for (nominal, refusal) in nominals {
        let security = format!("S,0,10,5{nominal}");
        let line = if refusal == 19 { 2 } else { 1 };
        let answer = format!("A,{line},{refusal},0,0,0,0,0");
        let output = printed(&["H,1,1,1", &security]);
        assert_eq!(output.lines().next(), Some(&answer[..]), "{security}");
        assert_eq!(output.lines().count() == 1, refusal > 0, "{security}");
    }
}

/// 19 for every form, then 17, 18 on its own line with its place, 23 with place
/// 0 whichever security's nominal it is, 22.
#[test]
fn the_nominal_is_asked_between_line_and_rate() {
    let headings: [(&[&str], &str); 9] = [
        (&["H,17,1,1,1001", "S,0,10,5,9999"], "A,1,17,0,0,0,0,0"),
        (&["H,2,1,1,1001", "S,0,0,5,9999"], "A,2,18,1,0,0,0,0"),
        (
            &["H,2,1,2", "S,0,10,5,9999", "S,1,10,5,10000"],
            "A,3,18,2,0,0,0,0",
        ),
        (&["H,2,1,1,1001", "S,0,10,5,9999"], "A,1,23,0,0,0,0,0"),
        (&["H,2,1,1,1000", "S,0,10,5,500001"], "A,1,23,0,0,0,0,0"),
        (
            &["H,2,1,3", "S,0,10,5", "S,0,10,5,500000", "S,0,10,5,1"],
            "A,1,23,0,0,0,0,0",
        ),
        (&["H,2,1,1,1001", "S,0,10,5,10000"], "A,1,22,0,0,0,0,0"),
        (&["H,2,1,2,1001", "S,0,10,5,9999"], "A,3,19,0,0,0,0,0"),
        (
            &["H,17,1,2,1001", "S,0,10,5,9999", "S,0,10,5,"],
            "A,3,19,0,0,0,0,0",
        ),
    ];
    for (heading, answer) in headings {
        assert_prints(heading, &[answer]);
    }
}

/// There a fourth number is a field too many, whatever it says.
#[test]
fn a_day_file_has_no_nominal() {
    for nominal in ["", "0", "9999", "10000"] {
        let text = format!("H,1,1,1\nS,0,10,5,{nominal}\n");
        let output = output_of(text.as_bytes());
        assert_eq!(output, b"A,2,19,0,0,0,0,0\n", "{nominal}");
    }
}

/// With nominals 0 a script prints what it prints without any, if there is room
/// for them.
#[test]
fn nominal_0_is_no_nominal() {
    for seed in 1..=160 {
        let text = day_file(seed);
        let mut lines: Vec<Vec<u8>> = text.split(|&byte| byte == b'\n').map(Vec::from).collect();
        let after_first = lines.iter_mut().skip(1);
        for security in after_first.take_while(|line| line.starts_with(b"S,")) {
            security.extend_from_slice(b",0");
        }
        let with_nominals = lines.join(&b'\n');
        let output = script_output(&text);
        if output.starts_with(b"A,1,0,") && with_nominals.len() <= TEXT_LIMIT {
            assert!(script_output(&with_nominals) == output, "seed {seed}");
        }
    }
}

/// 8 comes after 7 and before 14.
#[test]
fn prices_up_to_20_000() {
    let heading = ["H,1,1,3", "S,0,1,1,10000", "S,0,1,50,500000", "S,0,1,1"];
    let lines = [
        ("R,0,0,1100000", 0),
        ("B,0,0,0,1,I", 8),
        ("B,0,0,1,1,I", 0),
        ("B,0,0,20000,1,I", 0),
        ("B,0,0,20001,1,I", 8),
        ("B,0,0,1000000,1,I", 8),
        ("B,0,0,20001,0,I", 7),
        ("L,0,0,20001,1,K", 8),
        ("L,0,0,20000,1,K", 14),
        ("B,0,1,20000,1,I", 0),
        ("B,0,1,19999,1,I", 8),
        ("B,0,1,20050,1,I", 8),
        ("B,0,1,9950,1,I", 0),
        ("B,0,1,50,1,I", 0),
        ("B,0,2,20001,1,I", 0),
        ("B,0,2,1000000,1,I", 0),
        ("B,0,2,1000001,1,I", 8),
    ];
    assert_refusals(&heading, &lines);
}

/// The line is in range all the same.
#[test]
fn a_step_above_20_000_leaves_no_price() {
    let lines = [
        ("R,0,0,1000000000", 0),
        ("D,0,0,10", 0),
        ("B,0,0,20000,1,K", 8),
        ("B,0,0,20001,1,K", 8),
        ("L,0,0,20001,1,K", 8),
        ("L,0,0,40002,1,K", 8),
        ("B,0,0,1,1,K", 8),
    ];
    assert_refusals(&["H,1,1,1", "S,0,1,20001,10000"], &lines);
}

/// Nominal, lot size, price and lots, and what they cost: that much money
/// suffices, and a unit less is refused.
#[test]
fn sums_are_rounded_down_once() {
    let sums = [
        (10_000, 1, 1, 1, 1_u64),
        (10_000, 1_000, 20_000, 10_000, 200_000_000_000),
        // 1.2345, 11.1105 and 60.4905
        (12_345, 1, 1, 1, 1),
        (12_345, 1, 3, 3, 11),
        (12_345, 7, 1, 7, 60),
        // 1.9999, and exactly 19,999, of which a piece is 9,999.5
        (19_999, 1, 1, 1, 1),
        (19_999, 1, 5_000, 2, 19_999),
        // 2,999,670.003
        (99_999, 10, 9_999, 3, 2_999_670),
        (100_000, 10, 9_950, 1, 995_000),
        (500_000, 1, 1, 1, 50),
        (500_000, 1_000, 20_000, 10_000, 10_000_000_000_000),
    ];
    for (nominal, lot_size, price, lots, sum) in sums {
        let security = format!("S,0,{lot_size},1,{nominal}");
        let heading = ["H,1,1,2", "S,0,1,1", &security];
        let order = format!("B,0,1,{price},{lots},K");
        let (money, less) = (format!("R,0,0,{sum}"), "W,0,0,1");
        let lines = [(&money[..], 0), (less, 0), (&order[..], 14)];
        assert_refusals(&heading, &lines);
        assert_refusals(&heading, &[(&money[..], 0), (&order[..], 0), (less, 10)]);
    }
}

/// 10 pieces at 99 % of 50,000 are 495,000. Need falls from 1,000,000 to
/// 500,000; 5,000 are freed. T adds the price of each piece.
#[test]
fn a_trade_at_99_percent() {
    let lines = [
        HEADING[0],
        HEADING[1],
        "R,0,0,1000000",
        "D,1,0,100",
        "L,1,0,9900,1,K",
        "B,0,0,10000,2,K",
    ];
    let expected = [
        "A,1,0,0,0,0,0,0",
        "A,3,0,0,0,0,0,0",
        "A,4,0,0,0,0,0,0",
        "A,5,0,0,1,0,1,0",
        "A,6,0,0,1,1,1,1",
        "T,1,1,0,1,0,9900,1,495000",
        "M,0,0,5000,500000",
        "M,1,0,495000,0",
        "Q,0,0,10,0",
        "Q,1,0,90,0",
        "PHASE,open",
        "TURNOVER,0,10,99000",
        "CODES,0,1",
        "CODES,1,1",
        "WAITS,0,1,B,0,1,K,10000",
        "MARKET,0,0",
        "DATE,0",
    ];
    assert_prints(&lines, &expected);
}

/// Need falls from 29,999 to 19,999, to 9,999 and to 0; each trade costs 9,999,
/// so that the first two free a unit, at once.
#[test]
fn partial_fills_free_the_odd_units() {
    let order = ["R,0,0,29999", "D,1,0,3", "B,0,0,9999,3,K", "L,1,0,9999,1,I"];
    let partly_filled = [
        "M,0,0,1,19999",
        "M,1,0,9999,0",
        "Q,0,0,1,0",
        "Q,1,0,2,0",
        "PHASE,open",
        "TURNOVER,0,1,9999",
        "CODES,0,1",
        "CODES,1,1",
        "WAITS,0,1,B,0,2,K,9999",
        "MARKET,0,0",
        "DATE,0",
    ];
    assert_ends(&[&ODD_HEADING[..], &order].concat(), &partly_filled);
    let rest = ["W,0,0,1", "L,1,0,9999,1,I", "W,0,0,1", "L,1,0,1,1,A"];
    let filled = [
        "M,0,0,0,0",
        "M,1,0,29997,0",
        "Q,0,0,3,0",
        "Q,1,0,0,0",
        "PHASE,open",
        "TURNOVER,0,3,29997",
        "CODES,0,1",
        "CODES,1,3",
        "MARKET,0,0",
        "DATE,0",
    ];
    assert_ends(&[&ODD_HEADING[..], &order, &rest].concat(), &filled);
}

/// At 1 % the need is 29,999 and 299, then 19,999 and 199, then 9,999 and 99:
/// it falls by 10,100 twice, and each trade costs 10,098.
#[test]
fn partial_fills_with_a_tariff() {
    let heading = ["H,2,1,1,1000", ODD_HEADING[1]];
    let lines = [
        ("R,0,0,30297", 0),
        ("D,1,0,3", 0),
        ("B,0,0,9999,3,K", 14),
        ("R,0,0,1", 0),
        ("B,0,0,9999,3,K", 0),
        ("W,0,0,1", 10),
        ("L,1,0,9999,1,I", 0),
        ("W,0,0,3", 10),
        ("W,0,0,2", 0),
        ("L,1,0,9000,1,K", 0),
        ("W,0,0,3", 10),
        ("W,0,0,2", 0),
        ("L,1,0,9999,1,A", 0),
        ("W,0,0,1", 10),
        ("W,1,0,29701", 10),
        ("W,1,0,29700", 0),
    ];
    assert_refusals(&heading, &lines);
}

/// 999 hundred-thousandths of 99 are none, of 102 they are 1; of the prices 33
/// and 34 they would be none.
#[test]
fn fees_go_by_the_sum() {
    let lines = [
        ("R,0,0,99", 0),
        ("B,0,0,33,1,I", 0),
        ("R,0,0,3", 0),
        ("B,0,0,34,1,I", 14),
        ("R,0,0,1", 0),
        ("B,0,0,34,1,I", 0),
    ];
    assert_refusals(&["H,1,1,1,999", "S,0,1,1,30000"], &lines);
    let trade = [
        "H,2,1,1,999",
        "S,0,1,1,30000",
        "R,0,0,103",
        "D,1,0,1",
        "L,1,0,34,1,K",
        "B,0,0,34,1,A",
    ];
    let expected = [
        "T,1,1,0,1,0,34,1,102",
        "M,0,0,0,0",
        "M,1,0,101,0",
        "Q,0,0,1,0",
        "Q,1,0,0,0",
        "PHASE,open",
        "TURNOVER,0,1,34",
        "CODES,0,1",
        "CODES,1,1",
        "MARKET,0,2",
        "DATE,0",
    ];
    assert_ends(&trade, &expected);
}

/// Of 10,000 for 100 pieces at 100 the first trade costs 9,000; of 30,000 for
/// as many at 1 % of 30,000 the second costs 27,000.
#[test]
fn both_forms_in_one_day() {
    let lines = [
        "H,2,1,2",
        "S,0,10,5",
        "S,0,10,5,30000",
        "R,0,0,40000",
        "D,1,0,100",
        "D,1,1,100",
        "L,1,0,90,10,K",
        "L,1,1,90,10,K",
        "B,0,0,100,10,K",
        "B,0,1,100,10,K",
    ];
    let expected = [
        "A,9,0,0,1,10,0,1",
        "T,1,1,0,1,0,90,10,9000",
        "A,10,0,0,2,10,0,1",
        "T,2,2,0,1,1,90,10,27000",
        "M,0,0,4000,0",
        "M,1,0,36000,0",
        "Q,0,0,100,0",
        "Q,0,1,100,0",
        "Q,1,0,0,0",
        "Q,1,1,0,0",
        "PHASE,open",
        "TURNOVER,0,100,9000",
        "TURNOVER,1,100,9000",
        "CODES,0,2",
        "CODES,1,2",
        "MARKET,0,0",
        "DATE,0",
    ];
    assert_ends(&lines, &expected);
}

/// One sell of 3 lots brings 29,999, which pay for as much but not for a unit
/// more; sells of 1 and 2 lots bring 9,999 and 19,999.
#[test]
fn proceeds_pay_later_members() {
    let heading = ["H,2,1,2", ODD_HEADING[1], "S,0,1,1"];
    let lines = [
        "D,0,0,3",
        "R,1,0,29999",
        "D,1,1,1",
        "B,1,0,9999,3,K",
        "L,1,1,29999,1,K",
        "G,0,2",
        "M,L,0,9999,3",
        "M,B,1,30000,1",
        "G,0,3",
        "M,L,0,9999,1",
        "M,L,0,9999,2",
        "M,B,1,29999,1",
        "G,0,2",
        "M,L,0,9999,3",
        "M,B,1,29999,1",
        "W,0,0,1",
    ];
    let expected = [
        "A,4,0,0,0,0,0,0",
        "A,5,0,0,0,0,0,0",
        "A,6,0,0,0,0,0,0",
        "A,7,0,0,1,0,3,0",
        "A,8,0,0,2,0,1,0",
        "A,9,14,2,0,0,0,0",
        "A,12,14,3,0,0,0,0",
        "A,16,0,0,1,4,0,2",
        "A,19,10,0,0,0,0,0",
    ];
    assert_eq!(answers(&heading, &lines), expected);
}

/// A cancellation, a dropped order and the start of closing each give 29,999
/// back.
#[test]
fn needs_are_freed_as_they_were_blocked() {
    let order = "B,0,0,9999,3,K";
    let lines = [
        ("R,0,0,29999", 0),
        (order, 0),
        ("W,0,0,1", 10),
        ("X,0,1", 0),
        ("B,0,0,9999,3,I", 0),
        (order, 0),
        ("C", 0),
        ("W,0,0,30000", 10),
        ("W,0,0,29999", 0),
    ];
    assert_refusals(&ODD_HEADING, &lines);
}

/// 3 lots at 9,990, which is also written on an order. Both trades of the
/// dearer buy cost 9,990 (9,990.999) of the 10,001 that its need falls by.
#[test]
fn the_auction_is_in_percent() {
    let lines = [
        ODD_HEADING[0],
        ODD_HEADING[1],
        "R,0,0,29992",
        "D,1,0,5",
        "COLLECT",
        "B,0,0,10000,2,K",
        "B,0,0,9990,1,K",
        "L,1,0,9980,1,K",
        "L,1,0,9990,2,K",
        "W,0,0,1",
        "AUCTION",
    ];
    let expected = [
        "A,10,10,0,0,0,0,0",
        "A,11,0,0,0,3,0,3",
        "T,1,1,0,1,0,9990,1,9990",
        "T,1,2,0,1,0,9990,1,9990",
        "T,2,2,0,1,0,9990,1,9990",
        "M,0,0,22,0",
        "M,1,0,29970,0",
        "Q,0,0,3,0",
        "Q,1,0,2,0",
        "PHASE,open",
        "TURNOVER,0,0,0",
        "CODES,0,2",
        "CODES,1,2",
        "MARKET,0,0",
        "DATE,0",
    ];
    assert_ends(&lines, &expected);
}

/// The trades cost 497,500 and 497,550, T / Q is 199,010 / 20 = 9,950.5, and
/// the closing price is 9,951, at which a lot costs 497,550.
#[test]
fn the_closing_price_is_in_percent() {
    let lines = [
        "H,2,1,1",
        "S,0,10,1,50000",
        "R,0,0,1492599",
        "D,1,0,100",
        "L,1,0,9950,1,K",
        "L,1,0,9951,1,K",
        "B,0,0,9951,2,K",
        "C",
        "P,0,B,0,1",
        "R,0,0,1",
        "P,0,B,0,1",
        "W,0,0,1",
        "P,1,L,0,1",
        "Z",
    ];
    let expected = [
        "A,9,14,0,0,0,0,0",
        "A,10,0,0,0,0,0,0",
        "A,11,0,0,2,0,1,0",
        "A,12,10,0,0,0,0,0",
        "A,13,0,0,3,0,1,0",
        "A,14,0,0,0,1,0,1",
        "T,2,3,0,1,0,9951,1,497550",
        "M,0,0,0,0",
        "M,1,0,1492600,0",
        "Q,0,0,30,0",
        "Q,1,0,70,0",
        "PHASE,closed",
        "TURNOVER,0,20,199010",
        "CODES,0,2",
        "CODES,1,3",
        "MARKET,0,0",
        "DATE,0",
    ];
    assert_ends(&lines, &expected);
}

/// The closing price, 29,950 / 3 = 9,983.33, is on no step of 50, and no
/// question asks for that. A piece costs 9,983.9983, rounded down.
#[test]
fn the_closing_price_needs_no_step() {
    let lines = [
        "H,1,1,1",
        "S,0,1,50,10001",
        "R,0,0,50000",
        "D,0,0,10",
        "L,0,0,9950,1,K",
        "L,0,0,10000,2,K",
        "B,0,0,10000,3,K",
        "C",
        "P,0,B,0,1",
        "P,0,L,0,1",
        "Z",
    ];
    let output = printed(&lines);
    assert!(output.contains("\nT,4,5,0,0,0,9983,1,9983\n"), "{output}");
}

/// A sum of 10^13 and its fee of 10^11, and T of 2 x 10^11.
#[test]
fn the_largest_order() {
    let lines = [
        "H,1,1,1,1000",
        "S,0,1000,20000,500000",
        "R,0,0,10100000000000",
        "D,0,0,10000000",
        "L,0,0,20000,10000,K",
        "B,0,0,20000,10000,A",
    ];
    let expected = [
        "A,6,0,0,2,10000,0,1",
        "T,2,1,0,0,0,20000,10000,10000000000000",
        "M,0,0,9900000000000,0",
        "Q,0,0,10000000,0",
        "PHASE,open",
        "TURNOVER,0,10000000,200000000000",
        "CODES,0,2",
        "MARKET,0,200000000000",
        "DATE,0",
    ];
    assert_ends(&lines, &expected);
}
