//! The book objects to outputs that don't add up.

use model::cases::cases;
use model::dayfile::script_output;
use model::level::{DAY_FILE, SCRIPT};
use model::printed::check_printed;

/// Replaces one line of the worked example's output.
fn altered(line: &str, by: &str) -> Result<(), String> {
    let example = cases().expect("the cases can be read").swap_remove(0);
    let expected = String::from_utf8_lossy(&example.expected).into_owned();
    assert!(expected.contains(line), "{line} is part of the output");
    check_printed::<DAY_FILE>(&example.text, expected.replace(line, by).as_bytes())
}

#[test]
fn the_worked_example_adds_up() {
    assert_eq!(altered("Q,1,0,50,0\n", "Q,1,0,50,0\n"), Ok(()));
}

#[test]
fn faulty_outputs_are_found() {
    let faults = [
        ("A,6,0,0,1,10,10,1\n", "A,6,0,0,1,9,10,1\n"),
        ("A,6,0,0,1,10,10,1\n", "A,7,0,0,1,10,10,1\n"),
        ("A,6,0,0,1,10,10,1\n", "A,6,0,0,2,10,10,1\n"),
        ("A,7,8,0,0,0,0,0\n", "A,7,8,0,1,0,0,0\n"),
        ("A,9,0,0,1,0,0,0\n", "A,9,16,0,0,0,0,0\n"),
        ("A,5,0,0,1,0,10,0\n", ""),
        ("T,1,1,0,1,0,95,10,9500\n", "T,1,1,0,1,0,100,10,10000\n"),
        ("T,1,1,0,1,0,95,10,9500\n", "T,1,1,0,1,0,95,10,9501\n"),
        ("T,1,1,0,1,0,95,10,9500\n", "T,1,1,1,0,0,95,10,9500\n"),
        ("T,1,1,0,1,0,95,10,9500\n", "T,1,1,7,1,0,95,10,9500\n"),
        ("T,1,2,0,1,0,100,5,5000\n", ""),
        ("M,0,0,15500,0\n", "M,0,0,10500,5000\n"),
        ("M,1,0,14500,0\n", "M,1,0,14501,0\n"),
        ("Q,0,0,150,0\n", "Q,0,0,149,0\n"),
        ("Q,1,0,50,0\n", ""),
        ("Q,1,0,50,0\n", "Q,1,0,50,0\n\n"),
    ];
    for (line, by) in faults {
        assert!(altered(line, by).is_err(), "{line} replaced by {by}");
    }
}

/// Replaces one part of a script's output, where it stands first.
fn altered_in(text: &str, part: &str, by: &str) -> Result<(), String> {
    let output = script_output(text.as_bytes());
    let output = String::from_utf8_lossy(&output);
    assert!(output.contains(part), "{part} is part of {output}");
    let altered = output.replacen(part, by, 1);
    check_printed::<SCRIPT>(text.as_bytes(), altered.as_bytes())
}

/// Two closing orders wait where the lines of the end are shown; then they
/// trade.
const SCRIPT_TEXT: &str = "H,1,1,1\nS,0,10,5\nR,0,0,30000\nD,0,0,200\nL,0,0,95,10,K\n\
                           B,0,0,95,10,K\nC\nP,0,B,0,3\nP,0,L,0,2\nSHOW\nLENT,0\nZ\n";

fn altered_script(line: &str, by: &str) -> Result<(), String> {
    altered_in(SCRIPT_TEXT, line, by)
}

#[test]
fn the_script_adds_up() {
    assert_eq!(altered_script("CODES,0,4\n", "CODES,0,4\n"), Ok(()));
}

#[test]
fn faulty_outputs_of_scripts_are_found() {
    let faults = [
        ("A,10,0,0,0,0,0,0\n", "A,10,19,0,0,0,0,0\n"),
        ("A,11,0,0,0,0,0,0\n", "A,11,0,0,1,0,0,0\n"),
        ("A,12,2,0,0,0,0,0\n", "A,12,6,0,0,0,0,0\n"),
        ("A,6,0,0,2,10,0,1\n", "A,6,0,0,3,10,0,1\n"),
        ("M,0,0,27150,2850\n", "M,0,0,30000,0\n"),
        ("Q,0,0,180,20\n", "Q,0,0,200,0\n"),
        ("PHASE,closing\n", "PHASE,closed\n"),
        ("PHASE,closing\n", "PHASE,close\n"),
        ("PHASE,closing\n", ""),
        ("TURNOVER,0,100,9500\n", "TURNOVER,0,101,9500\n"),
        ("TURNOVER,0,100,9500\n", "TURNOVER,0,100,9501\n"),
        ("TURNOVER,0,100,9500\n", "TURNOVER,1,100,9500\n"),
        ("CODES,0,4\n", "CODES,0,3\n"),
        ("CODES,0,4\n", "CODES,1,4\n"),
        ("CODES,0,4\n", "CODES,4\n"),
        ("CODES,0,4\n", "CODES,0,4\nCODES,1,0\n"),
        ("CODES,0,4\n", ""),
        ("WAITS,0,3,B,0,3,P,0\n", "WAITS,0,3,B,0,2,P,0\n"),
        ("WAITS,0,3,B,0,3,P,0\n", "WAITS,0,3,L,0,3,P,0\n"),
        ("WAITS,0,3,B,0,3,P,0\n", "WAITS,0,3,B,0,3,P,95\n"),
        ("WAITS,0,3,B,0,3,P,0\n", "WAITS,0,3,B,0,3,K,95\n"),
        ("WAITS,0,4,L,0,2,P,0\n", ""),
        (
            "WAITS,0,4,L,0,2,P,0\n",
            "WAITS,0,4,L,0,2,P,0\nWAITS,0,5,L,0,2,P,0\n",
        ),
    ];
    for (line, by) in faults {
        assert!(altered_script(line, by).is_err(), "{line} replaced by {by}");
    }
}

/// Crossing orders wait where the lines of the end are shown; then the auction
/// trades 2 of the buy's 3 lots at 95, the lower of two prices.
const AUCTION_TEXT: &str = "H,1,1,1\nS,0,10,5\nR,0,0,30000\nD,0,0,200\nCOLLECT\n\
                            B,0,0,100,3,K\nL,0,0,95,2,K\nSHOW\nAUCTION\n";

fn altered_auction(line: &str, by: &str) -> Result<(), String> {
    altered_in(AUCTION_TEXT, line, by)
}

#[test]
fn the_auction_adds_up() {
    assert_eq!(altered_auction("CODES,0,2\n", "CODES,0,2\n"), Ok(()));
}

/// The last ones are orders left over after the auction, trades in Q and T,
/// and a phase that goes on.
#[test]
fn faulty_outputs_of_an_auction_are_found() {
    let faults = [
        ("A,5,0,0,0,0,0,0\n", "A,5,21,0,0,0,0,0\n"),
        ("A,9,0,0,0,2,0,1\n", "A,9,0,0,0,3,0,1\n"),
        ("A,9,0,0,0,2,0,1\n", "A,9,2,0,0,0,0,0\n"),
        ("M,0,0,27000,3000\n", "M,0,0,30000,0\n"),
        ("PHASE,collecting\n", "PHASE,open\n"),
        ("WAITS,0,1,B,0,3,K,100\n", "WAITS,0,1,B,0,1,K,100\n"),
        ("T,1,2,0,0,0,95,2,1900\n", "T,1,2,0,0,0,95,2,2000\n"),
        ("PHASE,open\n", "PHASE,collecting\n"),
        (
            "PHASE,open\nTURNOVER,0,0,0\n",
            "PHASE,open\nTURNOVER,0,20,1900\n",
        ),
        (
            "PHASE,open\nTURNOVER,0,0,0\nCODES,0,2\n",
            "PHASE,open\nTURNOVER,0,0,0\nCODES,0,2\nWAITS,0,1,B,0,1,K,100\n",
        ),
        ("M,0,0,30000,0\n", "M,0,0,29000,1000\n"),
    ];
    for (line, by) in faults {
        assert!(
            altered_auction(line, by).is_err(),
            "{line} replaced by {by}"
        );
    }
}

/// At 1 % 2 of the buy's 3 lots trade: the sum of 198 costs 199 and brings
/// 197. The third lot needs 99 and no fee, and the odd unit of the need of all
/// three, 299, is free again.
const TARIFF_TEXT: &str = "H,2,1,1,1000\nS,0,1,1\nR,0,0,299\nD,1,0,2\nL,1,0,99,2,K\n\
                           B,0,0,99,3,K\n";

fn altered_tariff(line: &str, by: &str) -> Result<(), String> {
    altered_in(TARIFF_TEXT, line, by)
}

#[test]
fn the_tariff_adds_up() {
    assert_eq!(altered_tariff("MARKET,0,2\n", "MARKET,0,2\n"), Ok(()));
}

/// The last ones are fees counted in the sum, and in T.
#[test]
fn faulty_outputs_with_a_tariff_are_found() {
    let faults = [
        ("M,0,0,1,99\n", "M,0,0,2,99\n"),
        ("M,0,0,1,99\n", "M,0,0,0,100\n"),
        ("M,1,0,197,0\n", "M,1,0,198,0\n"),
        ("MARKET,0,2\n", "MARKET,0,1\n"),
        ("MARKET,0,2\n", "MARKET,0,4\n"),
        ("MARKET,0,2\n", "MARKET,1,2\n"),
        ("MARKET,0,2\n", "MARKET,0,2,0\n"),
        ("MARKET,0,2\n", "MARKET,0,2\nMARKET,1,0\n"),
        ("MARKET,0,2\n", ""),
        ("T,1,1,0,1,0,99,2,198\n", "T,1,1,0,1,0,99,2,199\n"),
        ("TURNOVER,0,2,198\n", "TURNOVER,0,2,199\n"),
    ];
    for (line, by) in faults {
        assert!(altered_tariff(line, by).is_err(), "{line} replaced by {by}");
    }
}

/// A piece at 9,999 is 19,998.9999: two are 39,997 and three 59,996. One of the
/// buy's 3 lots trades and costs 19,998 of the 19,999 that its need falls by.
const PERCENT_TEXT: &str = "H,2,1,1\nS,0,1,1,20001\nR,0,0,59996\nD,1,0,3\n\
                            B,0,0,9999,3,K\nL,1,0,9999,1,I\n";

fn altered_percent(line: &str, by: &str) -> Result<(), String> {
    altered_in(PERCENT_TEXT, line, by)
}

#[test]
fn prices_in_percent_add_up() {
    assert_eq!(altered_percent("CODES,1,1\n", "CODES,1,1\n"), Ok(()));
}

/// Each a unit, or by price and pieces what goes by the nominal; the last ones
/// are T by the sum, and rounded as the sum is.
#[test]
fn faulty_outputs_with_prices_in_percent_are_found() {
    let faults = [
        ("T,1,1,0,1,0,9999,1,19998\n", "T,1,1,0,1,0,9999,1,19999\n"),
        ("T,1,1,0,1,0,9999,1,19998\n", "T,1,1,0,1,0,9999,1,9999\n"),
        ("M,0,0,1,39997\n", "M,0,0,0,39998\n"),
        ("M,0,0,1,39997\n", "M,0,0,2,39996\n"),
        ("M,0,0,1,39997\n", "M,0,0,0,39997\n"),
        ("M,0,0,1,39997\n", "M,0,0,20000,19998\n"),
        ("M,1,0,19998,0\n", "M,1,0,19999,0\n"),
        ("M,1,0,19998,0\n", "M,1,0,9999,0\n"),
        ("TURNOVER,0,1,9999\n", "TURNOVER,0,1,19998\n"),
        ("TURNOVER,0,1,9999\n", "TURNOVER,0,2,9999\n"),
    ];
    for (line, by) in faults {
        assert!(
            altered_percent(line, by).is_err(),
            "{line} replaced by {by}"
        );
    }
}

/// While open no waiting buy reaches a waiting sell: here the buy, shown as
/// if it had waited beside the sell that it meets.
#[test]
fn crossing_orders_while_open_are_found() {
    let text = "H,1,1,1\nS,0,10,5\nR,0,0,1000\nD,0,0,10\nL,0,0,95,1,K\nB,0,0,100,1,K\n";
    let output = "A,1,0,0,0,0,0,0\nA,3,0,0,0,0,0,0\nA,4,0,0,0,0,0,0\nA,5,0,0,1,0,1,0\n\
                  A,6,0,0,2,0,1,0\nM,0,0,0,1000\nQ,0,0,0,10\nPHASE,open\nTURNOVER,0,0,0\n\
                  CODES,0,2\nWAITS,0,1,L,0,1,K,95\nWAITS,0,2,B,0,1,K,100\nMARKET,0,0\nDATE,0\n";
    let found = check_printed::<SCRIPT>(text.as_bytes(), output.as_bytes());
    assert_eq!(
        found,
        Err("in 0 a buy waits at 100, a sell at 95".to_string())
    );
}

/// One deal is open and an offer waits where the lines of the end are shown;
/// on its due day the deal ends. The second sum is 20,019.
const DEAL_TEXT: &str = "H,2,1,1,1000,59\nS,0,10,5\nR,0,0,40400\nD,1,0,400\n\
                         OFFER,0,B,0,100,20,500,7\nOFFER,1,L,0,100,20,500,7\n\
                         OFFER,1,L,0,100,10,500,7\nSHOW\nC\nZ\nDAY,66\nR,1,0,219\n\
                         SECOND,1\n";

#[test]
fn deals_add_up() {
    let unchanged = altered_in(DEAL_TEXT, "DATE,59\n", "DATE,59\n");
    assert_eq!(unchanged, Ok(()));
}

#[test]
fn faulty_outputs_of_offers_are_found() {
    let faults = [
        ("A,5,0,0,1,0,20,0\n", "A,5,0,0,1,0,19,0\n"),
        ("A,5,0,0,1,0,20,0\n", "A,5,0,0,2,0,20,0\n"),
        ("A,6,0,0,1,20,0,1\n", "A,6,0,0,1,20,20,1\n"),
        ("A,6,0,0,1,20,0,1\n", "A,6,0,0,1,19,0,1\n"),
        ("A,6,0,0,1,20,0,1\n", "A,6,0,0,2,20,0,1\n"),
        ("T,1,1,0,1,0,100,20,20000\n", "T,1,1,1,0,0,100,20,20000\n"),
        ("T,1,1,0,1,0,100,20,20000\n", "T,1,2,0,1,0,100,20,20000\n"),
        ("T,1,1,0,1,0,100,20,20000\n", "T,2,1,0,1,0,100,20,20000\n"),
        ("T,1,1,0,1,0,100,20,20000\n", "T,1,1,0,1,0,95,20,19000\n"),
        ("T,1,1,0,1,0,100,20,20000\n", "T,1,1,0,1,0,100,19,19000\n"),
        ("Q,1,0,100,100\n", "Q,1,0,200,0\n"),
        ("M,1,0,19800,0\n", "M,1,0,20000,0\n"),
        ("TURNOVER,0,0,0\n", "TURNOVER,0,200,20000\n"),
        ("CODES,0,1\nCODES,1,2\n", "CODES,0,1\nCODES,1,1\n"),
        ("CODES,0,1\nCODES,1,2\n", "CODES,0,2\nCODES,1,1\n"),
        ("CODES,0,1\nCODES,1,2\n", "CODES,0,3\nCODES,1,3\n"),
        ("CODES,0,1\nCODES,1,2\n", "CODES,1,2\nCODES,0,1\n"),
        ("CODES,0,1\nCODES,1,2\n", "CODES,3\n"),
        (",10,OFFER,100,500,7\n", ",10,OFFER,100,500,8\n"),
        (",10,OFFER,100,500,7\n", ",10,OFFER,100,501,7\n"),
        (",10,OFFER,100,500,7\n", ",10,OFFER,105,500,7\n"),
        (",10,OFFER,100,500,7\n", ",10,OFFER,100\n"),
        (",10,OFFER,100,500,7\n", ",10,K,100,500,7\n"),
        (",10,OFFER,100,500,7\n", ",10,K,100\n"),
        ("MARKET,0,400\n", "MARKET,0,0\n"),
        ("DATE,59\n", "DATE,0\n"),
        ("DATE,59\n", ""),
    ];
    for (part, by) in faults {
        let found = altered_in(DEAL_TEXT, part, by);
        assert!(found.is_err(), "{part} replaced by {by}");
    }
}

/// Each number of the deal's line in turn, the line left out and doubled.
#[test]
fn faulty_lines_of_deals_are_found() {
    let line = "DEAL,1,0,1,0,20,100,500,59,66,20000,20019";
    let fields: Vec<&str> = line.split(',').collect();
    for place in 1..fields.len() {
        let mut altered = fields.clone();
        let number: u64 = fields[place].parse().expect("a number");
        let other = (number + 1).to_string();
        altered[place] = &other;
        let altered = altered.join(",");
        assert!(altered_in(DEAL_TEXT, line, &altered).is_err(), "{altered}");
    }
    let whole = format!("{line}\n");
    let doubled = format!("{line}\n{line}\n");
    assert!(altered_in(DEAL_TEXT, &whole, "").is_err());
    assert!(altered_in(DEAL_TEXT, &whole, &doubled).is_err());
}

/// The last ones are interest forgotten, a fee on the second part, a deal that
/// stays open, and a day that goes on.
#[test]
fn faulty_outputs_of_second_parts_and_new_days_are_found() {
    let faults = [
        ("A,11,0,0,0,0,0,0\n", "A,11,24,0,0,0,0,0\n"),
        ("A,13,0,0,0,0,0,0\n", "A,13,0,0,1,0,0,0\n"),
        ("A,13,0,0,0,0,0,0\n", "A,13,14,0,0,0,0,0\n"),
        ("M,0,0,40219,0\nM,1,0,0,0\n", "M,0,0,40200,0\nM,1,0,19,0\n"),
        ("M,0,0,40219,0\n", "M,0,0,40019,0\n"),
        (
            "DATE,66\n",
            "DATE,66\nDEAL,1,0,1,0,20,100,500,59,66,20000,20019\n",
        ),
        ("DATE,66\n", "DATE,59\n"),
        ("CODES,0,0\nCODES,1,0\n", "CODES,0,1\nCODES,1,2\n"),
        ("CODES,0,0\nCODES,1,0\n", "CODES,0,0\nCODES,1,2\n"),
    ];
    for (part, by) in faults {
        let found = altered_in(DEAL_TEXT, part, by);
        assert!(found.is_err(), "{part} replaced by {by}");
    }
}

/// What is printed for offers of which one waits where it must meet, one meets
/// a younger one, and one meets an unequal one.
#[test]
fn offers_that_meet_another_way_are_found() {
    let opened = "H,1,1,1\nS,0,1,1\nR,0,0,100\nD,0,0,100\n";
    let answered = "A,1,0,0,0,0,0,0\nA,3,0,0,0,0,0,0\nA,4,0,0,0,0,0,0\nA,5,0,0,1,0,1,0\n";
    let offers = [
        (
            "OFFER,0,L,0,9,1,0,1\nOFFER,0,B,0,9,1,0,1\n",
            "A,6,0,0,2,0,1,0\n",
            "made [], due Some(Trade { buy_code: 2, sell_code: 1,",
        ),
        (
            "OFFER,0,L,0,9,1,0,1\nOFFER,0,L,0,9,1,0,1\nOFFER,0,B,0,9,1,0,1\n",
            "A,6,0,0,2,0,1,0\nA,7,0,0,3,1,0,1\nT,3,2,0,0,0,9,1,9\n",
            "due Some(Trade { buy_code: 3, sell_code: 1,",
        ),
        (
            "OFFER,0,L,0,9,1,0,1\nOFFER,0,B,0,9,1,0,2\n",
            "A,6,0,0,2,1,0,1\nT,2,1,0,0,0,9,1,9\n",
            "due None",
        ),
    ];
    for (text, output, fault) in offers {
        let (text, output) = ([opened, text].concat(), [answered, output].concat());
        let found = check_printed::<SCRIPT>(text.as_bytes(), output.as_bytes());
        let found = found.expect_err("the book objects");
        assert!(found.contains(fault), "{found}");
    }
}
