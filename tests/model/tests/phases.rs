//! Which phase admits which call (question 6, T-04): every pair, with good
//! arguments and with such as another question refuses. Each script runs on
//! the model and on the proved engine.
#![cfg(feature = "replay")]

mod common;

use common::{answers, assert_prints, assert_refusals, printed};

/// What question 6 answers to a call while open, collecting, closing and
/// closed: 6, or 0 for yes.
type Question6 = [u64; 4];

const KEPT: Question6 = [0, 0, 6, 6];
const IMMEDIATE: Question6 = [0, 6, 6, 6];
const WHOLE: Question6 = [0, 6, 6, 6];
const GROUP: Question6 = [0, 6, 6, 6];
const CLOSING_ORDER: Question6 = [6, 6, 0, 6];
const START_OF_COLLECTING: Question6 = [0, 6, 6, 6];
const END_OF_COLLECTING: Question6 = [6, 0, 6, 6];
const START_OF_CLOSING: Question6 = [0, 6, 6, 6];
const SESSIONS_END: Question6 = [6, 6, 0, 6];
const OFFER: Question6 = [0, 6, 6, 6];
const NEW_DAY: Question6 = [6, 6, 6, 0];

const PHASES: [&str; 4] = ["open", "collecting", "closing", "closed"];

/// The kinds of order, each a call of its own.
const KINDS: [(Question6, &str); 3] = [(KEPT, "K"), (IMMEDIATE, "I"), (WHOLE, "A")];

/// Lines that lead into each phase.
type Ways = [&'static [&'static str]; 4];

/// Two securities of lot 10 and step 5, money of 0 and pieces of 1.
const HEADING: [&str; 3] = ["H,2,1,2", "S,0,10,5", "S,0,10,5"];
const RESERVES: [&str; 2] = ["R,0,0,100000", "D,1,0,1000"];

/// No code is given.
const QUIET: Ways = [&[], &["COLLECT"], &["C"], &["C", "Z"]];

/// The buy fills the sell while open.
const SELL: &str = "L,1,0,95,4,K";
const BUY: &str = "B,0,0,95,4,K";

/// The second order of each waits, 1's sell and 0's buy, until the day is closed;
/// while collecting the first ones too. While
/// collecting nothing has traded, in the other phases something in security 0.
const BUSY: Ways = [
    &[SELL, BUY, "L,1,0,95,6,K", "B,0,0,90,6,K"],
    &["COLLECT", SELL, BUY, "L,1,0,95,6,K", "B,0,0,90,6,K"],
    &[SELL, BUY, "C", "P,1,L,0,6", "P,0,B,0,6"],
    &[SELL, BUY, "C", "P,1,L,0,6", "P,0,B,0,6", "Z"],
];

/// A deal of 1 lot at 95, whose second sum is 951, and on day 7 a second one
/// that is due on day 8.
const DEALS: [&str; 4] = [
    "OFFER,1,L,0,95,1,500,7",
    "OFFER,0,B,0,95,1,500,7",
    "OFFER,1,L,0,95,1,500,8",
    "OFFER,0,B,0,95,1,500,8",
];
const DUE: [&str; 3] = ["C", "Z", "DAY,7"];

/// An answer's refusal and place.
type Refusal = [u64; 2];

#[link(name = "script", kind = "static")]
extern "C" {
    fn run_script(
        text: *const u8,
        text_length: usize,
        output: *mut u8,
        output_length: usize,
    ) -> usize;
}

/// The proved engine prints what the model prints.
fn assert_engine_agrees(lines: &[&str]) {
    let text = lines.join("\n") + "\n";
    let mut output = vec![0; 1 << 17];
    // SAFETY: both slices are valid for the lengths handed over, and the text
    // isn't changed while it is lent.
    let length =
        unsafe { run_script(text.as_ptr(), text.len(), output.as_mut_ptr(), output.len()) };
    let output = String::from_utf8_lossy(&output[..length]);
    assert_eq!(output, printed(lines), "the engine on\n{text}");
}

/// A call, of one line or a group's lines, after a way into its phase. Refused,
/// it prints its answer and changes nothing of what is printed without it.
fn assert_answer(way: &[&str], call: &str, [number, place]: Refusal) {
    let before = [&HEADING[..], &RESERVES, way].concat();
    let lines = [&before[..], &[call]].concat();
    assert_engine_agrees(&lines);
    let answered = format!("A,{},{number},{place},", before.len() + 1);
    let answer = answers(&HEADING, &lines[HEADING.len()..]).pop();
    let answer = answer.expect("the call has an answer");
    assert!(
        answer.starts_with(&answered),
        "{answer}, not {answered} to {call} after {way:?}"
    );
    if number > 0 {
        let without = printed(&before);
        let mut expected: Vec<&str> = without.lines().collect();
        let end = expected.iter().position(|line| line.starts_with("M,"));
        expected.insert(end.expect("positions are printed"), &answer);
        assert_prints(&lines, &expected);
    }
}

/// A call that the questions before 6 admit: where the phase doesn't, it
/// answers 6, a group with its first member's place; else what comes later.
fn assert_asked(ways: &Ways, question_6: Question6, call: &str, later: Refusal) {
    let place = u64::from(call.starts_with('G'));
    for (way, number) in ways.iter().zip(question_6) {
        let expected = if number == 0 { later } else { [number, place] };
        assert_answer(way, call, expected);
    }
}

/// A call to which the phase doesn't matter.
fn assert_in_every_phase(call: &str, expected: Refusal) {
    for way in QUIET.iter().chain(&BUSY) {
        assert_answer(way, call, expected);
    }
}

fn group(first: &str, second: &str) -> String {
    format!("G,0,2\nM,{first}\nM,{second}")
}

/// A member that the waiting sell fills.
const MEMBER: &str = "B,0,95,1";

#[test]
fn the_ways_lead_into_their_phases() {
    for (ways, count) in [(QUIET, 0), (BUSY, 2)] {
        let codes = format!("\nCODES,0,{count}\nCODES,1,{count}\n");
        for (way, phase) in ways.iter().zip(PHASES) {
            let lines = [&RESERVES[..], way].concat();
            let accepted: Vec<(&str, u64)> = lines.iter().map(|line| (*line, 0)).collect();
            assert_refusals(&HEADING, &accepted);
            let output = printed(&[&HEADING[..], &lines].concat());
            assert!(output.contains(&format!("PHASE,{phase}\n")), "{output}");
            assert!(output.contains(&codes), "{output}");
        }
    }
}

/// Without a counter order A can't be filled, without a trade there is no
/// closing price, and only now may collecting start.
#[test]
fn every_call_before_any_code() {
    let group = group(MEMBER, MEMBER);
    let rows = [
        (KEPT, "B,0,0,95,1,K", [0, 0]),
        (IMMEDIATE, "B,0,0,95,1,I", [0, 0]),
        (WHOLE, "B,0,0,95,1,A", [15, 0]),
        (GROUP, &group, [15, 1]),
        (CLOSING_ORDER, "P,0,B,0,1", [11, 0]),
        (START_OF_COLLECTING, "COLLECT", [0, 0]),
        (END_OF_COLLECTING, "AUCTION", [0, 0]),
        (START_OF_CLOSING, "C", [0, 0]),
        (SESSIONS_END, "Z", [0, 0]),
        (OFFER, "OFFER,0,B,0,95,1,500,7", [0, 0]),
        (NEW_DAY, "DAY,1", [0, 0]),
    ];
    for (question_6, call, later) in rows {
        assert_asked(&QUIET, question_6, call, later);
    }
}

#[test]
fn starts_and_ends_after_codes_were_given() {
    assert_asked(&BUSY, START_OF_COLLECTING, "COLLECT", [21, 0]);
    assert_asked(&BUSY, END_OF_COLLECTING, "AUCTION", [0, 0]);
    assert_asked(&BUSY, START_OF_CLOSING, "C", [0, 0]);
    assert_asked(&BUSY, SESSIONS_END, "Z", [0, 0]);
}

/// A later day inside the table, and such as 24 refuses.
#[test]
fn new_days() {
    for ways in [QUIET, BUSY] {
        assert_asked(&ways, NEW_DAY, "DAY,1", [0, 0]);
        assert_asked(&ways, NEW_DAY, "DAY,146096", [0, 0]);
        assert_asked(&ways, NEW_DAY, "DAY,0", [24, 0]);
        assert_asked(&ways, NEW_DAY, "DAY,146097", [24, 0]);
    }
}

/// The first two wait while open, whatever orders do; the others meet 7, 8, 24,
/// 25 and 14.
#[test]
fn offers() {
    let offers = [
        ("OFFER,0,B,0,95,1,500,7", [0, 0]),
        ("OFFER,1,L,0,90,1,5000,365", [0, 0]),
        ("OFFER,0,B,0,95,0,500,7", [7, 0]),
        ("OFFER,1,L,0,95,10001,500,7", [7, 0]),
        ("OFFER,0,B,0,0,1,500,7", [8, 0]),
        ("OFFER,1,L,0,96,1,500,7", [8, 0]),
        ("OFFER,0,B,0,95,1,500,0", [24, 0]),
        ("OFFER,1,L,0,95,1,500,366", [24, 0]),
        ("OFFER,0,B,0,95,1,5001,7", [25, 0]),
        ("OFFER,1,L,0,1000000,1001,500,7", [25, 0]),
        ("OFFER,0,B,0,95,10000,500,7", [14, 0]),
        ("OFFER,1,L,0,95,10000,500,7", [14, 0]),
    ];
    for (offer, later) in offers {
        assert_asked(&BUSY, OFFER, offer, later);
    }
}

/// Due, not due, of no deal, and with a unit too little; each after the ways
/// into the phases of a second day, on which no code or four codes are given.
#[test]
fn second_parts_are_due_in_every_phase() {
    for way in QUIET.iter().chain(&BUSY) {
        let dealt = [&DEALS[..], &DUE, way].concat();
        assert_answer(&dealt, "SECOND,1", [0, 0]);
        assert_answer(&dealt, "SECOND,2", [24, 0]);
        assert_answer(&dealt, "SECOND,0", [16, 0]);
        assert_answer(&dealt, "SECOND,3", [16, 0]);
        let short = [&DEALS[..], &["W,1,0,950"], &DUE, way].concat();
        let expected = if trades(way) { 0 } else { 14 };
        assert_answer(&short, "SECOND,1", [expected, 0]);
    }
    assert_in_every_phase("SECOND,1", [16, 0]);
}

/// Where the buy fills the sell, the seller gets 3,800.
fn trades(way: &[&str]) -> bool {
    way.starts_with(&[SELL, BUY])
}

/// The first two are filled in the open phase, the others meet 7, 8 and 14.
#[test]
fn orders_of_each_kind() {
    let orders = [
        ("B,0,0,95,1", [0, 0]),
        ("L,1,0,90,1", [0, 0]),
        ("B,0,0,95,0", [7, 0]),
        ("L,1,0,95,10001", [7, 0]),
        ("B,0,0,0,1", [8, 0]),
        ("L,1,0,96,1", [8, 0]),
        ("B,0,0,95,10000", [14, 0]),
        ("L,1,0,95,10000", [14, 0]),
    ];
    for (question_6, kind) in KINDS {
        for (order, later) in orders {
            assert_asked(&BUSY, question_6, &format!("{order},{kind}"), later);
        }
    }
    assert_asked(&BUSY, WHOLE, "B,0,1,95,1,A", [15, 0]);
    assert_asked(&BUSY, WHOLE, "L,1,0,95,1,A", [15, 0]);
}

/// The second member isn't reached where the first meets 6, whatever it says.
#[test]
fn groups() {
    let members = [
        (MEMBER, MEMBER, [0, 0]),
        ("B,0,95,0", MEMBER, [7, 1]),
        ("B,0,0,1", MEMBER, [8, 1]),
        ("B,0,95,10000", MEMBER, [14, 1]),
        ("B,1,95,1", MEMBER, [15, 1]),
        (MEMBER, "B,2,95,1", [5, 2]),
        (MEMBER, "B,0,95,0", [7, 2]),
    ];
    for (first, second, later) in members {
        assert_asked(&BUSY, GROUP, &group(first, second), later);
    }
}

#[test]
fn closing_orders() {
    let orders = [
        ("P,0,B,0,1", [0, 0]),
        ("P,1,L,0,1", [0, 0]),
        ("P,0,B,0,0", [7, 0]),
        ("P,1,L,0,10001", [7, 0]),
        ("P,0,B,1,1", [11, 0]),
        ("P,0,B,0,10000", [14, 0]),
        ("P,1,L,0,10000", [14, 0]),
    ];
    for (order, later) in orders {
        assert_asked(&BUSY, CLOSING_ORDER, order, later);
    }
}

/// The calls that write trades are asked for the list before all else.
#[test]
fn a_short_list_comes_before_the_phase() {
    let group = group(MEMBER, "B,2,95,1");
    let calls = [
        "B,0,0,95,1,K",
        "B,0,0,95,1,I",
        "B,0,0,95,1,A",
        "L,2,2,0,0,K",
        &group,
        "AUCTION",
        "Z",
        "OFFER,0,B,0,95,1,500,7",
        "OFFER,2,L,2,0,0,5001,0",
    ];
    for way in QUIET.iter().chain(&BUSY) {
        let short = [way, &["LENT,1087"][..]].concat();
        for call in calls {
            assert_answer(&short, call, [2, 0]);
        }
    }
}

/// 3, 4 and 5 are asked before 6, also where later questions would say no.
#[test]
fn numbers_that_come_before_the_phase() {
    for (_, kind) in KINDS {
        assert_in_every_phase(&format!("B,2,0,95,1,{kind}"), [4, 0]);
        assert_in_every_phase(&format!("L,2,2,0,0,{kind}"), [4, 0]);
        assert_in_every_phase(&format!("B,0,2,95,1,{kind}"), [5, 0]);
        assert_in_every_phase(&format!("L,1,2,0,0,{kind}"), [5, 0]);
    }
    assert_in_every_phase("P,2,B,0,1", [4, 0]);
    assert_in_every_phase("P,2,L,2,0", [4, 0]);
    assert_in_every_phase("P,0,B,2,1", [5, 0]);
    assert_in_every_phase("P,1,L,2,0", [5, 0]);
    assert_in_every_phase("OFFER,2,B,0,95,1,500,7", [4, 0]);
    assert_in_every_phase("OFFER,2,L,2,0,0,5001,0", [4, 0]);
    assert_in_every_phase("OFFER,0,B,2,95,1,500,7", [5, 0]);
    assert_in_every_phase("OFFER,1,L,2,0,0,5001,0", [5, 0]);
    assert_in_every_phase("G,0,1", [3, 0]);
    assert_in_every_phase("G,2,9", [3, 0]);
    assert_in_every_phase("G,2,2\nM,B,0,95,1\nM,B,0,95,1", [4, 1]);
    assert_in_every_phase(&group("B,2,95,1", MEMBER), [5, 1]);
    assert_in_every_phase(&group("B,2,0,0", "B,2,0,0"), [5, 1]);
}

#[test]
fn reserves_move_in_every_phase() {
    let moves = [
        ("R,0,0,1", [0, 0]),
        ("W,0,0,1", [0, 0]),
        ("D,1,0,1", [0, 0]),
        ("E,1,0,1", [0, 0]),
        ("R,2,0,1", [4, 0]),
        ("W,0,1,1", [5, 0]),
        ("D,1,2,1", [5, 0]),
        ("E,1,0,0", [7, 0]),
        ("R,1,0,1000000000000000", [9, 0]),
        ("D,1,0,1000000000000", [9, 0]),
        ("W,0,0,100001", [10, 0]),
        ("E,1,0,1001", [10, 0]),
    ];
    for (call, expected) in moves {
        assert_in_every_phase(call, expected);
    }
}

/// In the closed phase nothing waits that could be cancelled.
#[test]
fn a_waiting_order_is_cancelled_in_every_phase() {
    for (way, number) in BUSY.iter().zip([0, 0, 0, 16]) {
        assert_answer(way, "X,1,2", [number, 0]);
        assert_answer(way, "X,0,2", [number, 0]);
    }
    for (way, number) in BUSY.iter().zip([16, 0, 16, 16]) {
        assert_answer(way, "X,1,1", [number, 0]);
        assert_answer(way, "X,0,1", [number, 0]);
    }
    assert_in_every_phase("X,0,3", [16, 0]);
    assert_in_every_phase("X,1,3", [16, 0]);
    assert_in_every_phase("X,1,0", [16, 0]);
    assert_in_every_phase("X,2,2", [4, 0]);
}
