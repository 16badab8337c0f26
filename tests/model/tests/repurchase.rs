//! Scripts with repurchase deals (T-06), their output reasoned by hand.

mod common;

use model::dayfile::{output_of, script_output};
use model::generate::day_file;
use model::reader::TEXT_LIMIT;

use common::{answers, assert_ends, assert_prints, assert_refusals, printed};

/// Two participants at 1 % on 1 March 1970, lot 10 and step 5; the buyer has
/// what 20 lots at 100 need, and the seller the pieces: four lines.
const RESERVES: [&str; 4] = ["H,2,1,1,1000,59", "S,0,10,5", "R,0,0,20200", "D,1,0,200"];

/// Two participants without a tariff on 1 January 1970, lot and step 1, with
/// more than enough of both: six lines.
const PLENTY: [&str; 6] = [
    "H,2,1,1",
    "S,0,1,1",
    "R,0,0,100000000",
    "R,1,0,100000000",
    "D,0,0,1000000",
    "D,1,0,1000000",
];

/// What the lines after a heading get, those of the heading being accepted.
fn assert_after(heading: &[&str], expected: &[(&str, u64)]) {
    let accepted: Vec<(&str, u64)> = heading[2..].iter().map(|line| (*line, 0)).collect();
    assert_refusals(&heading[..2], &[&accepted[..], expected].concat());
}

/// The lines of the open deals that a script prints last.
fn deals(lines: &[&str]) -> Vec<String> {
    let output = printed(lines);
    let deals = output.lines().filter(|line| line.starts_with("DEAL,"));
    deals.map(String::from).collect()
}

/// First and second sum of one deal that begins on this date.
fn sums(date: u64, price: u64, lots: u64, rate: u64, term: u64) -> [u64; 2] {
    let heading = format!("H,2,1,1,0,{date}");
    let (money, pieces) = (format!("R,0,0,{}", price * lots), format!("D,1,0,{lots}"));
    let buy = format!("OFFER,0,B,0,{price},{lots},{rate},{term}");
    let sell = format!("OFFER,1,L,0,{price},{lots},{rate},{term}");
    let deals = deals(&[&heading, "S,0,1,1", &money, &pieces, &buy, &sell]);
    let deal = deals.first().expect("the offers meet");
    let mut numbers = deal.rsplit(',').map(|field| field.parse().unwrap_or(0));
    let mut number = || numbers.next().expect("a deal has its sums");
    let (second, first, due_day) = (number(), number(), number());
    assert_eq!(due_day, date + term, "{deal}");
    [first, second]
}

/// The interest of one deal, in full units.
fn interest(date: u64, first_sum: u64, rate: u64, term: u64) -> u64 {
    let [first, second] = sums(date, first_sum, 1, rate, term);
    assert_eq!(first, first_sum);
    second - first
}

/// At 0.5 % a day's interest on 36,500 is half a unit in a year of 365 days,
/// and on 36,600 in one of 366. Day 1,096 is 1 January 1973, day 730 is 1
/// January 1972.
#[test]
fn a_half_goes_up() {
    assert_eq!(interest(1_095, 36_500, 50, 1), 1);
    assert_eq!(interest(1_095, 36_499, 50, 1), 0);
    assert_eq!(interest(729, 36_500, 50, 1), 0);
    assert_eq!(interest(729, 36_599, 50, 1), 0);
    assert_eq!(interest(729, 36_600, 50, 1), 1);
    assert_eq!(interest(1_095, 109_499, 50, 1), 1);
    assert_eq!(interest(1_095, 109_500, 50, 1), 2);
}

/// The first day isn't counted, the due day is: from the last day of a year all
/// falls in the next, from the last but one a day in each.
#[test]
fn terms_over_a_new_year() {
    // 31 December 1971 and 1972: 4,986.3 and 5,000 for 365 days at 50 %.
    assert_eq!(interest(729, 10_000, 5_000, 365), 4_986);
    assert_eq!(interest(1_095, 10_000, 5_000, 365), 5_000);
    // 1 January 1972 to 31 December; 2 January 1972 to 1 January 1973, where
    // 364 days of 366 and 1 of 365 give 498,637.6.
    assert_eq!(interest(730, 10_000, 5_000, 365), 4_986);
    assert_eq!(interest(731, 1_000_000, 5_000, 365), 498_638);
    // 5 days of 366 and 5 of 365: 13,679.9; 4 of 365 and 6 of 366: 13,676.2.
    assert_eq!(interest(1_090, 1_000_000, 5_000, 10), 13_680);
    assert_eq!(interest(725, 1_000_000, 5_000, 10), 13_676);
    // A year of 365 days and the first day of another.
    assert_eq!(interest(0, 10_000, 5_000, 365), 5_000);
}

/// 29 February 2000 is day 11,016, in a year of 366 days as a whole; 1 January
/// 2100 is day 47,482, in one of 365.
#[test]
fn long_years_and_full_centuries() {
    for date in [10_956, 11_015, 11_016, 11_321] {
        assert_eq!(interest(date, 36_599, 50, 1), 0, "{date}");
        assert_eq!(interest(date, 36_600, 50, 1), 1, "{date}");
    }
    for date in [10_955, 11_322, 47_481, 47_482, 47_540, 47_541, 47_846] {
        assert_eq!(interest(date, 36_499, 50, 1), 0, "{date}");
        assert_eq!(interest(date, 36_500, 50, 1), 1, "{date}");
    }
}

/// 31 December 2369 is day 146,096, 31 December 2368 day 145,731.
#[test]
fn up_to_the_last_day() {
    assert_eq!(interest(146_095, 36_499, 50, 1), 0);
    assert_eq!(interest(146_095, 36_500, 50, 1), 1);
    assert_eq!(interest(145_731, 10_000, 5_000, 365), 5_000);
    assert_eq!(interest(145_366, 10_000, 5_000, 365), 4_986);
    let last_terms = [
        (146_096, "1", 24),
        (146_095, "1", 0),
        (146_095, "2", 24),
        (145_732, "364", 0),
        (145_732, "365", 24),
        (145_731, "365", 0),
        (145_731, "366", 24),
    ];
    for (date, term, refusal) in last_terms {
        let heading = format!("H,2,1,1,0,{date}");
        let offer = format!("OFFER,0,B,0,1,1,0,{term}");
        let lines = [("R,0,0,1", 0), (&offer[..], refusal)];
        assert_refusals(&[&heading, "S,0,1,1"], &lines);
    }
}

/// 10^10 at 50 % for a year of 365 days, and at 0.01 % for a day of one:
/// 2,739.7.
#[test]
fn the_largest_first_sum() {
    let [first, second] = sums(0, 1_000_000, 10_000, 5_000, 365);
    assert_eq!([first, second], [10_000_000_000, 15_000_000_000]);
    let [_, second] = sums(0, 1_000_000, 10_000, 1, 1);
    assert_eq!(second, 10_000_002_740);
    let [_, second] = sums(0, 1_000_000, 10_000, 0, 365);
    assert_eq!(second, 10_000_000_000);
}

/// The buyer blocks 20,000 and the fee of 200.
#[test]
fn an_offer_waits() {
    let offer = "OFFER,0,B,0,100,20,500,7";
    let expected = [
        "A,1,0,0,0,0,0,0",
        "A,3,0,0,0,0,0,0",
        "A,4,0,0,0,0,0,0",
        "A,5,0,0,1,0,20,0",
        "M,0,0,0,20200",
        "M,1,0,0,0",
        "Q,0,0,0,0",
        "Q,1,0,200,0",
        "PHASE,open",
        "TURNOVER,0,0,0",
        "CODES,0,1",
        "CODES,1,0",
        "WAITS,0,1,B,0,20,OFFER,100,500,7",
        "MARKET,0,0",
        "DATE,59",
    ];
    assert_prints(&[&RESERVES[..], &[offer]].concat(), &expected);
    let sell = "OFFER,1,L,0,100,20,0,365";
    let expected = [
        "Q,1,0,0,200",
        "PHASE,open",
        "TURNOVER,0,0,0",
        "CODES,0,0",
        "CODES,1,1",
        "WAITS,1,1,L,0,20,OFFER,100,0,365",
        "MARKET,0,0",
        "DATE,59",
    ];
    assert_ends(&[&RESERVES[..], &[sell]].concat(), &expected);
}

/// Both pay 200 on the first part, which stays outside Q and T. Interest for 7
/// days at 5 % on 20,000 is 19.18.
const MET: [&str; 2] = ["OFFER,0,B,0,100,20,500,7", "OFFER,1,L,0,100,20,500,7"];

#[test]
fn an_offer_is_met() {
    let expected = [
        "A,5,0,0,1,0,20,0",
        "A,6,0,0,1,20,0,1",
        "T,1,1,0,1,0,100,20,20000",
        "M,0,0,0,0",
        "M,1,0,19800,0",
        "Q,0,0,200,0",
        "Q,1,0,0,0",
        "PHASE,open",
        "TURNOVER,0,0,0",
        "CODES,0,1",
        "CODES,1,1",
        "MARKET,0,400",
        "DATE,59",
        "DEAL,1,0,1,0,20,100,500,59,66,20000,20019",
    ];
    assert_ends(&[&RESERVES[..], &MET].concat(), &expected);
}

/// The sell waits, the buy meets it: buyer and seller are those of the sides.
#[test]
fn a_waiting_sell_is_met() {
    let lines = [&RESERVES[..], &[MET[1], MET[0]]].concat();
    let expected = [
        "A,5,0,0,1,0,20,0",
        "A,6,0,0,1,20,0,1",
        "T,1,1,0,1,0,100,20,20000",
        "M,0,0,0,0",
        "M,1,0,19800,0",
        "Q,0,0,200,0",
        "Q,1,0,0,0",
        "PHASE,open",
        "TURNOVER,0,0,0",
        "CODES,0,1",
        "CODES,1,1",
        "MARKET,0,400",
        "DATE,59",
        "DEAL,1,0,1,0,20,100,500,59,66,20000,20019",
    ];
    assert_ends(&lines, &expected);
}

/// The seller has 19,800 and needs 20,019; no fee is paid on the second part,
/// and a day's codes begin anew.
#[test]
fn the_second_part_on_its_due_day() {
    let rest = [
        "SECOND,1",
        "C",
        "Z",
        "SECOND,1",
        "DAY,65",
        "SECOND,1",
        "C",
        "Z",
        "DAY,66",
        "SECOND,1",
        "R,1,0,218",
        "SECOND,1",
        "R,1,0,1",
        "SECOND,1",
        "SECOND,1",
    ];
    let lines = [&RESERVES[..], &MET, &rest].concat();
    let expected = [
        "A,7,24,0,0,0,0,0",
        "A,8,0,0,0,0,0,0",
        "A,9,0,0,0,0,0,0",
        "A,10,24,0,0,0,0,0",
        "A,11,0,0,0,0,0,0",
        "A,12,24,0,0,0,0,0",
        "A,13,0,0,0,0,0,0",
        "A,14,0,0,0,0,0,0",
        "A,15,0,0,0,0,0,0",
        "A,16,14,0,0,0,0,0",
        "A,17,0,0,0,0,0,0",
        "A,18,14,0,0,0,0,0",
        "A,19,0,0,0,0,0,0",
        "A,20,0,0,0,0,0,0",
        "A,21,16,0,0,0,0,0",
        "M,0,0,20019,0",
        "M,1,0,0,0",
        "Q,0,0,0,0",
        "Q,1,0,200,0",
        "PHASE,open",
        "TURNOVER,0,0,0",
        "CODES,0,0",
        "CODES,1,0",
        "MARKET,0,400",
        "DATE,66",
    ];
    assert_ends(&lines, &expected);
}

/// Years later the seller pays what was due on day 66.
#[test]
fn a_late_second_part_has_interest_to_the_due_day() {
    for date in ["DAY,67", "DAY,431", "DAY,146096"] {
        let late = ["R,1,0,219", "C", "Z", date, "SECOND,1", "W,1,0,1"];
        let output = printed(&[&RESERVES[..], &MET, &late].concat());
        assert!(output.contains("\nA,11,0,0,0,0,0,0\n"), "{output}");
        assert!(output.contains("\nA,12,10,0,0,0,0,0\n"), "{output}");
        assert!(output.contains("\nM,0,0,20019,0\n"), "{output}");
    }
}

/// 14 where the first buyer lacks a piece, where the first seller lacks a unit,
/// and where both do; what is blocked doesn't help.
#[test]
fn both_sides_must_cover_the_second_part() {
    let heading = ["H,2,1,1", "S,0,1,1", "R,0,0,36500", "D,1,0,2"];
    let lines = [
        ("OFFER,0,B,0,36500,1,50,1", 0),
        ("OFFER,1,L,0,36500,1,50,1", 0),
        ("C", 0),
        ("Z", 0),
        ("DAY,1", 0),
        ("SECOND,1", 14),
        ("E,0,0,1", 0),
        ("SECOND,1", 14),
        ("R,1,0,1", 0),
        ("SECOND,1", 14),
        ("D,0,0,1", 0),
        ("L,0,0,1000000,1,K", 0),
        ("SECOND,1", 14),
        ("X,0,1", 0),
        ("B,1,0,1,1,K", 0),
        ("SECOND,1", 14),
        ("X,1,1", 0),
        ("SECOND,1", 0),
        ("W,0,0,36502", 10),
        ("W,0,0,36501", 0),
        ("W,1,0,1", 10),
        ("E,1,0,3", 10),
        ("E,1,0,2", 0),
    ];
    assert_after(&heading, &lines);
}

/// Met by oneself, an offer makes a deal like others: the second part needs a
/// piece and 36,501, and then moves nothing.
#[test]
fn a_deal_with_oneself() {
    let heading = ["H,1,1,1", "S,0,1,1", "R,0,0,36500", "D,0,0,1"];
    let offers = ["OFFER,0,B,0,36500,1,50,1", "OFFER,0,L,0,36500,1,50,1"];
    let dealt = [&heading[..], &offers].concat();
    let deal = "DEAL,1,0,0,0,1,36500,50,0,1,36500,36501";
    assert_eq!(deals(&dealt), [deal]);
    let lines = [
        ("C", 0),
        ("Z", 0),
        ("DAY,1", 0),
        ("SECOND,1", 14),
        ("R,0,0,1", 0),
        ("E,0,0,1", 0),
        ("SECOND,1", 14),
        ("D,0,0,1", 0),
        ("SECOND,1", 0),
        ("W,0,0,36502", 10),
        ("W,0,0,36501", 0),
        ("E,0,0,2", 10),
        ("E,0,0,1", 0),
    ];
    assert_after(&dealt, &lines);
}

/// Each differs in one number, or only in its participant; the last is met, by
/// the one that names the same.
#[test]
fn all_named_numbers_must_be_equal() {
    let heading = [
        "H,2,1,2",
        "S,0,1,1",
        "S,0,1,1",
        "R,0,0,10000",
        "D,1,0,100",
        "D,1,1,100",
    ];
    let offers = [
        "OFFER,0,B,0,100,2,500,7",
        "OFFER,1,L,1,100,2,500,7",
        "OFFER,1,L,0,99,2,500,7",
        "OFFER,1,L,0,101,2,500,7",
        "OFFER,1,L,0,100,1,500,7",
        "OFFER,1,L,0,100,3,500,7",
        "OFFER,1,L,0,100,2,499,7",
        "OFFER,1,L,0,100,2,501,7",
        "OFFER,1,L,0,100,2,500,6",
        "OFFER,1,L,0,100,2,500,8",
        "OFFER,0,B,0,100,2,500,7",
        "OFFER,1,L,0,100,2,500,7",
    ];
    let answers = answers(&heading[..3], &[&heading[3..], &offers].concat());
    let of_offers = &answers[3..];
    let own_codes = [1, 1, 2, 3, 4, 5, 6, 7, 8, 9, 2];
    for (code, answer) in own_codes.iter().zip(&of_offers[..11]) {
        assert!(answer.contains(&format!(",0,0,{code},0,")), "{answer}");
    }
    assert_eq!(of_offers[11], "A,18,0,0,10,2,0,1");
    let output = printed(&[&heading[..], &offers].concat());
    assert!(output.contains("\nT,1,10,0,1,0,100,2,200\n"), "{output}");
}

/// The oldest first, whoever entered it; then the next. A cancelled one is
/// passed over.
#[test]
fn the_oldest_counter_offer_is_met() {
    let offers = [
        "OFFER,1,L,0,100,1,0,1",
        "OFFER,0,L,0,100,1,0,1",
        "OFFER,1,L,0,100,1,0,1",
        "X,1,1",
        "OFFER,0,B,0,100,1,0,1",
        "OFFER,1,B,0,100,1,0,1",
    ];
    let expected = [
        "A,11,0,0,2,1,0,1",
        "T,2,1,0,0,0,100,1,100",
        "A,12,0,0,3,1,0,1",
        "T,3,2,1,1,0,100,1,100",
    ];
    let output = printed(&[&PLENTY[..], &offers].concat());
    let met: Vec<&str> = output.lines().skip(9).take(4).collect();
    assert_eq!(met, expected);
    assert!(
        output.ends_with("DEAL,1,0,0,0,1,100,0,0,1,100,100\nDEAL,2,1,1,0,1,100,0,0,1,100,100\n"),
        "{output}"
    );
}

/// Orders see no offers, and offers no orders; crossing prices wait beside each
/// other. A isn't fillable by an offer, and I drops its lots.
#[test]
fn orders_and_offers_do_not_meet() {
    let lines = [
        "OFFER,1,L,0,95,1,500,7",
        "B,0,0,100,1,K",
        "B,0,0,100,1,A",
        "B,0,0,100,1,I",
        "G,0,2",
        "M,B,0,100,1",
        "M,B,0,100,1",
        "OFFER,1,L,0,100,1,500,7",
        "OFFER,1,B,0,200,1,500,7",
        "L,1,0,101,1,K",
    ];
    let expected = [
        "A,7,0,0,1,0,1,0",
        "A,8,0,0,1,0,1,0",
        "A,9,15,0,0,0,0,0",
        "A,10,0,0,2,0,0,0",
        "A,11,15,1,0,0,0,0",
        "A,14,0,0,2,0,1,0",
        "A,15,0,0,3,0,1,0",
        "A,16,0,0,4,0,1,0",
    ];
    let answers = answers(&PLENTY[..2], &[&PLENTY[2..], &lines].concat());
    assert_eq!(answers[4..], expected);
}

/// An order that trades takes nothing off the offers around it.
#[test]
fn orders_trade_past_offers() {
    let lines = [
        "OFFER,1,L,0,95,4,0,1",
        "L,1,0,95,2,K",
        "OFFER,1,L,0,95,2,0,1",
        "B,0,0,95,3,K",
    ];
    let expected = [
        "A,10,0,0,1,2,1,1",
        "T,1,2,0,1,0,95,2,190",
        "M,0,0,99999715,95",
        "M,1,0,100000190,0",
        "Q,0,0,1000002,0",
        "Q,1,0,999992,6",
        "PHASE,open",
        "TURNOVER,0,2,190",
        "CODES,0,1",
        "CODES,1,3",
        "WAITS,1,1,L,0,4,OFFER,95,0,1",
        "WAITS,1,3,L,0,2,OFFER,95,0,1",
        "WAITS,0,1,B,0,1,K,95",
        "MARKET,0,0",
        "DATE,0",
    ];
    assert_ends(&[&PLENTY[..], &lines].concat(), &expected);
}

/// A cancellation and the start of closing free what an offer blocks.
#[test]
fn offers_come_off_like_orders() {
    let offer = "OFFER,0,B,0,100,20,500,7";
    let lines = [
        (offer, 0),
        ("W,0,0,1", 10),
        ("X,1,1", 16),
        ("X,0,1", 0),
        ("X,0,1", 16),
        (offer, 0),
        ("OFFER,1,L,0,105,20,500,7", 0),
        ("E,1,0,1", 10),
        ("C", 0),
        ("X,0,2", 16),
        ("W,0,0,20201", 10),
        ("W,0,0,20200", 0),
        ("E,1,0,200", 0),
    ];
    assert_after(&RESERVES, &lines);
}

/// 2, 4, 5, 7, 8, 24, 25 and 14, each with all later ones wrong too where that
/// can be. A lot of the second security costs 10^9.
#[test]
fn the_questions_of_an_offer() {
    let heading = ["H,2,1,2", "S,0,10,5", "S,0,1000,1000000"];
    let lines = [
        ("R,0,0,10000000000", 0),
        ("LENT,1087", 0),
        ("OFFER,9,B,9,0,0,5001,0", 2),
        ("LENT,1088", 0),
        ("OFFER,2,B,2,0,0,5001,0", 4),
        ("OFFER,0,B,2,0,0,5001,0", 5),
        ("OFFER,0,B,1,0,0,5001,0", 7),
        ("OFFER,0,B,1,0,10001,5001,0", 7),
        ("OFFER,0,B,1,0,11,5001,0", 8),
        ("OFFER,0,B,0,101,11,5001,366", 8),
        ("OFFER,0,B,1,1000000,11,5001,0", 24),
        ("OFFER,0,B,1,1000000,11,5001,366", 24),
        ("OFFER,0,B,1,1000000,11,5001,9999999999999999", 24),
        ("OFFER,1,B,1,1000000,11,5001,365", 25),
        ("OFFER,1,B,1,1000000,11,5000,365", 25),
        ("OFFER,1,B,1,1000000,10,5001,1", 25),
        ("OFFER,1,B,1,1000000,10,9999999999999999,1", 25),
        ("OFFER,1,B,1,1000000,10,5000,365", 14),
        ("OFFER,0,L,1,1000000,10,5000,1", 14),
        ("OFFER,0,B,1,1000000,10,5000,1", 0),
        ("OFFER,0,B,0,5,1,0,1", 14),
    ];
    assert_refusals(&heading, &lines);
}

/// Though kept orders enter while collecting. 6 comes after 5 and before 7.
#[test]
fn offers_enter_only_while_open() {
    let offer = "OFFER,0,B,0,100,1,500,7";
    let lines = [
        ("COLLECT", 0),
        ("B,0,0,100,1,K", 0),
        (offer, 6),
        ("OFFER,0,B,1,100,0,500,7", 5),
        ("OFFER,0,B,0,0,0,5001,0", 6),
        ("AUCTION", 0),
        (offer, 0),
        ("C", 0),
        (offer, 6),
        ("Z", 0),
        (offer, 6),
        ("DAY,60", 0),
        (offer, 0),
    ];
    assert_after(&RESERVES, &lines);
}

/// By a nominal of 500,000 a piece at 200 % costs 10^6, and a lot of 1,000 of
/// them 10^9. The fee isn't part of the first sum.
#[test]
fn the_first_sum_by_a_nominal() {
    let heading = ["H,2,1,2,1000", "S,0,1000,1,500000", "S,0,1,1,12345"];
    let lines = [
        ("R,0,0,10100000011", 0),
        ("OFFER,0,B,0,20000,11,0,1", 25),
        ("OFFER,0,B,0,20001,10,0,1", 8),
        ("OFFER,0,B,0,20000,10,0,1", 0),
        ("OFFER,0,B,1,3,3,0,1", 0),
        ("OFFER,0,B,1,1,1,0,1", 14),
    ];
    assert_refusals(&heading, &lines);
}

/// 11.1105 is rounded down once, and the interest is on 11: 5.5, so 6 more.
#[test]
fn a_deal_in_percent() {
    let lines = [
        "H,2,1,1",
        "S,0,1,1,12345",
        "R,0,0,11",
        "D,1,0,3",
        "OFFER,0,B,0,3,3,5000,365",
        "OFFER,1,L,0,3,3,5000,365",
    ];
    assert_eq!(deals(&lines), ["DEAL,1,0,1,0,3,3,5000,0,365,11,17"]);
}

/// So many deals at 1 for a day, made by two offers each.
fn many_deals(count: usize) -> Vec<&'static str> {
    ["OFFER,0,B,0,1,1,0,1", "OFFER,1,L,0,1,1,0,1"].repeat(count)
}

/// 26 for every offer while 64 deals are open, met or not, after 25 and before
/// 14; orders still enter.
#[test]
fn the_65th_deal() {
    let lines: [&str; 14] = [
        "OFFER,0,L,0,9,1,0,1",
        "OFFER,0,B,0,1,1,0,1",
        "OFFER,0,B,0,1,1,0,1",
        "OFFER,1,L,0,1,1,0,1",
        "OFFER,1,L,0,1,1,0,1",
        "OFFER,0,B,0,9,1,0,1",
        "OFFER,0,B,0,1000000,10000,5000,365",
        "OFFER,0,B,0,1,1,5001,1",
        "OFFER,0,B,0,1,1,0,0",
        "B,0,0,1,1,K",
        "C",
        "Z",
        "DAY,1",
        "OFFER,0,B,0,1,1,0,1",
    ];
    let refusals = [0, 0, 0, 0, 26, 26, 26, 25, 24, 0, 0, 0, 0, 26];
    let mut expected: Vec<(&str, u64)> = many_deals(63).into_iter().map(|it| (it, 0)).collect();
    expected.extend(lines.into_iter().zip(refusals));
    let ended = [
        ("SECOND,65", 16),
        ("SECOND,64", 0),
        ("SECOND,64", 16),
        ("OFFER,0,B,0,1,1,0,1", 0),
        ("OFFER,1,L,0,1,1,0,1", 0),
        ("OFFER,1,L,0,1,1,0,1", 26),
        ("SECOND,64", 24),
        ("SECOND,1", 0),
        ("OFFER,1,L,0,1,1,0,1", 0),
    ];
    expected.extend(ended);
    assert_after(&PLENTY, &expected);
}

/// 12 for an offer that would be met at once, and before 26 and 14.
#[test]
fn the_129th_that_waits() {
    let offer = "OFFER,1,L,0,9,1,0,1";
    let mut expected = vec![("OFFER,0,B,0,9,1,0,1", 0)];
    expected.extend(vec![("B,0,0,1,1,K", 0); 126]);
    expected.extend([
        ("OFFER,0,B,0,1,1,0,1", 0),
        (offer, 12),
        ("OFFER,1,L,0,9,1,5001,1", 25),
        ("OFFER,1,B,0,1000000,10000,0,1", 12),
        ("B,0,0,1,1,K", 12),
        ("B,0,0,1,1,I", 0),
        ("X,0,2", 0),
        (offer, 0),
    ]);
    assert_after(&PLENTY, &expected);
    let mut full: Vec<(&str, u64)> = many_deals(64).into_iter().map(|it| (it, 0)).collect();
    full.extend(vec![("B,0,0,1,1,K", 0); 127]);
    full.extend([(offer, 26), ("B,0,0,1,1,K", 0), (offer, 12)]);
    assert_after(&PLENTY, &full);
}

/// Three deals; an ended one's place closes up, and a new one goes last.
#[test]
fn places_of_deals() {
    let offers = [
        "OFFER,0,B,0,10,1,0,1",
        "OFFER,1,L,0,10,1,0,1",
        "OFFER,0,B,0,20,1,0,2",
        "OFFER,1,L,0,20,1,0,2",
        "OFFER,1,B,0,30,1,0,1",
        "OFFER,0,L,0,30,1,0,1",
        "C",
        "Z",
        "DAY,1",
    ];
    let dealt = [&PLENTY[..], &offers].concat();
    let lines = [
        ("SECOND,0", 16),
        ("SECOND,4", 16),
        ("SECOND,9999999999999999", 16),
        ("SECOND,2", 24),
        ("SECOND,1", 0),
        ("SECOND,1", 24),
        ("SECOND,3", 16),
        ("OFFER,0,B,0,40,1,0,365", 0),
        ("OFFER,1,L,0,40,1,0,365", 0),
    ];
    assert_after(&dealt, &lines);
    let rest: Vec<&str> = lines.iter().map(|(line, _)| *line).collect();
    let expected = [
        "DEAL,1,0,1,0,1,20,0,0,2,20,20",
        "DEAL,2,1,0,0,1,30,0,0,1,30,30",
        "DEAL,3,0,1,0,1,40,0,1,366,40,40",
    ];
    assert_eq!(deals(&[&dealt[..], &rest].concat()), expected);
    let second = [&dealt[..], &rest, &["SECOND,2"]].concat();
    let expected = [
        "DEAL,1,0,1,0,1,20,0,0,2,20,20",
        "DEAL,2,0,1,0,1,40,0,1,366,40,40",
    ];
    assert_eq!(deals(&second), expected);
}

/// 16 before 24, 24 before 14; no list is asked for.
#[test]
fn the_questions_of_a_second_part() {
    let lines = [
        ("SECOND,1", 16),
        (MET[0], 0),
        (MET[1], 0),
        ("E,0,0,200", 0),
        ("SECOND,2", 16),
        ("SECOND,1", 24),
        ("C", 0),
        ("Z", 0),
        ("DAY,66", 0),
        ("LENT,0", 0),
        ("SECOND,2", 16),
        ("SECOND,1", 14),
        ("D,0,0,200", 0),
        ("R,1,0,219", 0),
        ("SECOND,1", 0),
    ];
    assert_after(&RESERVES, &lines);
}

/// While collecting, open, closing and closed; deals that nobody ends stay.
#[test]
fn second_parts_in_every_phase() {
    let mut lines: Vec<(&str, u64)> = many_deals(5).into_iter().map(|it| (it, 0)).collect();
    lines.extend([
        ("C", 0),
        ("Z", 0),
        ("DAY,1", 0),
        ("COLLECT", 0),
        ("SECOND,1", 0),
        ("AUCTION", 0),
        ("SECOND,1", 0),
        ("C", 0),
        ("SECOND,1", 0),
        ("Z", 0),
        ("SECOND,1", 0),
        ("DAY,5000", 0),
        ("SECOND,1", 0),
        ("SECOND,1", 16),
    ]);
    assert_after(&PLENTY, &lines);
}

/// 6 unless closed, before 24; then 24 for a date that isn't later or is
/// outside the table.
#[test]
fn the_questions_of_a_new_day() {
    let lines = [
        ("DAY,60", 6),
        ("DAY,0", 6),
        ("C", 0),
        ("DAY,60", 6),
        ("LENT,0", 0),
        ("Z", 2),
        ("LENT,1088", 0),
        ("Z", 0),
        ("DAY,0", 24),
        ("DAY,58", 24),
        ("DAY,59", 24),
        ("DAY,146097", 24),
        ("DAY,9999999999999999", 24),
        ("LENT,0", 0),
        ("DAY,60", 0),
        ("LENT,1088", 0),
        ("DAY,61", 6),
        ("COLLECT", 0),
        ("DAY,61", 6),
        ("AUCTION", 0),
        ("C", 0),
        ("Z", 0),
        ("DAY,60", 24),
        ("DAY,146096", 0),
        ("C", 0),
        ("Z", 0),
        ("DAY,146096", 24),
        ("DAY,146097", 24),
    ];
    assert_after(&RESERVES, &lines);
}

/// Q, T and codes are those of the new day: collecting may start, a closing
/// order has no price, and codes begin with 1. Positions, fees and deals stay.
#[test]
fn what_a_new_day_sets_anew() {
    let heading = ["H,2,1,1,1000", "S,0,10,5", "R,0,0,30000", "D,1,0,200"];
    let lines = [
        "OFFER,1,L,0,100,10,0,5",
        "OFFER,0,B,0,100,10,0,5",
        "L,1,0,100,10,K",
        "B,0,0,100,10,A",
        "C",
        "P,0,B,0,1",
        "Z",
        "DAY,3",
        "COLLECT",
        "L,0,0,100,4,K",
        "B,1,0,100,4,K",
        "AUCTION",
        "COLLECT",
        "C",
        "P,0,B,0,1",
    ];
    let expected = [
        "A,10,0,0,3,0,1,0",
        "A,11,0,0,0,0,0,0",
        "A,12,0,0,0,0,0,0",
        "A,13,0,0,0,0,0,0",
        "A,14,0,0,1,0,4,0",
        "A,15,0,0,1,0,4,0",
        "A,16,0,0,0,4,0,1",
        "T,1,1,1,0,0,100,4,4000",
        "A,17,21,0,0,0,0,0",
        "A,18,0,0,0,0,0,0",
        "A,19,11,0,0,0,0,0",
        "M,0,0,13760,0",
        "M,1,0,15760,0",
        "Q,0,0,160,0",
        "Q,1,0,40,0",
        "PHASE,closing",
        "TURNOVER,0,0,0",
        "CODES,0,1",
        "CODES,1,1",
        "MARKET,0,480",
        "DATE,3",
        "DEAL,1,0,1,0,10,100,0,0,5,10000,10000",
    ];
    assert_ends(&[&heading[..], &lines].concat(), &expected);
}

/// An offer of the day before is gone with its day; equal terms from another
/// day have another due day.
#[test]
fn offers_do_not_last_beyond_their_day() {
    let lines = [
        "OFFER,0,B,0,100,1,0,7",
        "C",
        "Z",
        "DAY,3",
        "OFFER,1,L,0,100,1,0,7",
        "OFFER,0,B,0,100,1,0,7",
    ];
    let lines = [&PLENTY[..], &lines].concat();
    let output = printed(&lines);
    assert!(output.contains("\nA,11,0,0,1,0,1,0\n"), "{output}");
    assert_eq!(deals(&lines), ["DEAL,1,0,1,0,1,100,0,3,10,100,100"]);
}

/// A wrong number of fields, a wrong field, a wrong word.
#[test]
fn the_words_in_bad_form() {
    let lines = [
        ("OFFER", 19),
        ("OFFER,", 19),
        ("OFFER,0,B,0,100,1,500", 19),
        ("OFFER,0,B,0,100,1,500,", 19),
        ("OFFER,0,B,0,100,1,500,7,", 19),
        ("OFFER,0,B,0,100,1,500,7,K", 19),
        ("OFFER,0,b,0,100,1,500,7", 19),
        ("OFFER,0,BL,0,100,1,500,7", 19),
        ("OFFER,B,0,0,100,1,500,7", 19),
        ("OFFER,0,0,100,1,500,7", 19),
        ("OFFER,0,B,0,100,1,0500,7", 19),
        ("OFFER,0,B,0,100,1,500,07", 19),
        ("OFFER,0,B,0,100,1,500,10000000000000000", 19),
        ("OFFER,0,B,0,100,1,-5,7", 19),
        ("OFFERS,0,B,0,100,1,500,7", 19),
        ("OFFE,0,B,0,100,1,500,7", 19),
        ("offer,0,B,0,100,1,500,7", 19),
        ("OFFER,0,B,0,100,1,500,7\r", 19),
        ("SECOND", 19),
        ("SECOND,", 19),
        ("SECOND,00", 19),
        ("SECOND,01", 19),
        ("SECOND,+1", 19),
        ("SECOND,1,", 19),
        ("SECOND,1,1", 19),
        ("second,1", 19),
        ("SECON,1", 19),
        ("SECONDS,1", 19),
        ("DAY", 19),
        ("DAY,", 19),
        ("DAY,060", 19),
        ("DAY,-1", 19),
        ("DAY,60,", 19),
        ("DAY,60,0", 19),
        ("DAYS,60", 19),
        ("DA,60", 19),
        ("day,60", 19),
        ("DAY,10000000000000000", 19),
    ];
    assert_after(&RESERVES, &lines);
}

/// Any number of 1 to 16 digits is a date in good form; then 24 above 146,096.
#[test]
fn forms_and_range_of_the_date() {
    let dates = [
        (",0", 0),
        (",1", 0),
        (",146096", 0),
        (",146097", 24),
        (",9999999999999999", 24),
        (",10000000000000000", 19),
        (",00", 19),
        (",059", 19),
        (",", 19),
        (", 1", 19),
        (",1 ", 19),
        (",+1", 19),
        (",-1", 19),
        (",1e3", 19),
        (",59\r", 19),
        (",59,", 19),
        (",146097,", 19),
    ];
    for (date, refusal) in dates {
        let heading = format!("H,1,1,1,0{date}");
        let answer = format!("A,1,{refusal},0,0,0,0,0");
        let output = printed(&[&heading, "S,0,10,5"]);
        assert_eq!(output.lines().next(), Some(&answer[..]), "{heading}");
        assert_eq!(output.lines().count() == 1, refusal > 0, "{heading}");
        let shown = format!("DATE{date}\n");
        assert_eq!(output.ends_with(&shown), refusal == 0, "{heading}");
    }
}

/// 19 for every form, then 17, 18 on its own line with its place, 23, 22, 24.
#[test]
fn the_date_is_asked_last() {
    let headings: [(&[&str], &str); 7] = [
        (&["H,17,1,1,1001,146097", "S,0,10,5,1"], "A,1,17,0,0,0,0,0"),
        (&["H,2,1,1,1001,146097", "S,1,10,5,1"], "A,2,18,1,0,0,0,0"),
        (&["H,2,1,1,1001,146097", "S,0,10,5,1"], "A,1,23,0,0,0,0,0"),
        (&["H,2,1,1,1001,146097", "S,0,10,5"], "A,1,22,0,0,0,0,0"),
        (&["H,2,1,1,1000,146097", "S,0,10,5"], "A,1,24,0,0,0,0,0"),
        (&["H,2,1,2,1000,146097", "S,0,10,5"], "A,3,19,0,0,0,0,0"),
        (&["H,2,1,1,,59", "S,0,10,5"], "A,1,19,0,0,0,0,0"),
    ];
    for (heading, answer) in headings {
        assert_prints(heading, &[answer]);
    }
}

#[test]
fn a_day_file_has_no_date_and_no_deals() {
    for date in ["", "0", "59"] {
        let text = format!("H,1,1,1,0,{date}\nS,0,10,5\n");
        assert_eq!(output_of(text.as_bytes()), b"A,1,19,0,0,0,0,0\n", "{date}");
    }
    let output = output_of(b"H,1,1,1\nS,0,10,5\nOFFER,0,B,0,5,1,0,1\nSECOND,1\nDAY,1\n");
    let expected = "A,1,0,0,0,0,0,0\nA,3,19,0,0,0,0,0\nA,4,19,0,0,0,0,0\nA,5,19,0,0,0,0,0\n\
                    M,0,0,0,0\nQ,0,0,0,0\n";
    assert_eq!(String::from_utf8_lossy(&output), expected);
}

/// With date 0 a script prints what it prints without one, if there is room for
/// rate and date.
#[test]
fn date_0_is_no_date() {
    for seed in 1..=160 {
        let text = day_file(seed);
        let end = text.iter().position(|&byte| byte == b'\n');
        let (heading, rest) = text.split_at(end.unwrap_or(text.len()));
        let with_date = [heading, b",0,0", rest].concat();
        let output = script_output(&text);
        if output.starts_with(b"A,1,0,") && with_date.len() <= TEXT_LIMIT {
            assert!(script_output(&with_date) == output, "seed {seed}");
        }
    }
}
