//! Scripts whose output was reasoned by hand from the scope paper and the
//! format of scripts.

mod common;

use model::cases::cases;
use model::check::checked_output;
use model::dayfile::{output_of, script_output};
use model::generate::day_file;
use model::level::SCRIPT;
use model::reader::TEXT_LIMIT;
use model::tally::Tally;

use common::{answers, assert_prints, assert_refusals, printed};

/// One participant's day, with nothing in it yet: two lines.
const HEADING: [&str; 2] = ["H,1,1,1", "S,0,10,5"];

/// Its lines of the end.
const NOTHING: [&str; 7] = [
    "M,0,0,0,0",
    "Q,0,0,0,0",
    "PHASE,open",
    "TURNOVER,0,0,0",
    "CODES,0,0",
    "MARKET,0,0",
    "DATE,0",
];

/// The paper's day, which ends with nothing waiting: 10 lots of 10 at 95 and
/// 5 at 100 traded. Each of them entered two orders, of which the buyer's on line
/// 7 was refused and took no code.
#[test]
fn the_worked_example_shows_its_end() -> Result<(), String> {
    let example = cases()?.swap_remove(0);
    let mut expected = example.expected;
    let added = b"PHASE,open\nTURNOVER,0,150,14500\nCODES,0,1\nCODES,1,2\nMARKET,0,0\nDATE,0\n";
    expected.extend_from_slice(added);
    let output = checked_output::<SCRIPT>(&example.text, &mut Tally::default())?;
    assert_eq!(
        String::from_utf8_lossy(&output),
        String::from_utf8_lossy(&expected)
    );
    Ok(())
}

/// The buy blocks 20,000; its trade takes 9,500 and frees 500, and its other
/// 10 lots wait.
#[test]
fn a_waiting_order_is_shown() {
    let lines = [
        "H,2,1,1",
        "S,0,10,5",
        "R,0,0,20000",
        "D,1,0,200",
        "L,1,0,95,10,K",
        "B,0,0,100,20,K",
    ];
    let expected = [
        "A,1,0,0,0,0,0,0",
        "A,3,0,0,0,0,0,0",
        "A,4,0,0,0,0,0,0",
        "A,5,0,0,1,0,10,0",
        "A,6,0,0,1,10,10,1",
        "T,1,1,0,1,0,95,10,9500",
        "M,0,0,500,10000",
        "M,1,0,9500,0",
        "Q,0,0,100,0",
        "Q,1,0,100,0",
        "PHASE,open",
        "TURNOVER,0,100,9500",
        "CODES,0,1",
        "CODES,1,1",
        "WAITS,0,1,B,0,10,K,100",
        "MARKET,0,0",
        "DATE,0",
    ];
    assert_prints(&lines, &expected);
}

/// Waiting orders stand as they arrived, whoever entered them.
#[test]
fn waiting_orders_are_shown_in_their_order() {
    let lines = [
        "H,2,1,2",
        "S,0,10,5",
        "S,0,1,1",
        "R,0,0,1000",
        "R,1,0,1000",
        "D,0,1,7",
        "B,1,0,5,2,K",
        "L,0,1,9,7,K",
        "B,0,0,10,1,K",
        "X,1,1",
        "B,1,1,8,3,K",
    ];
    let output = printed(&lines);
    let end: Vec<&str> = output
        .lines()
        .skip_while(|line| !line.starts_with("TURN"))
        .collect();
    let expected = [
        "TURNOVER,0,0,0",
        "TURNOVER,1,0,0",
        "CODES,0,2",
        "CODES,1,2",
        "WAITS,0,1,L,1,7,K,9",
        "WAITS,0,2,B,0,1,K,10",
        "WAITS,1,2,B,1,3,K,8",
        "MARKET,0,0",
        "DATE,0",
    ];
    assert_eq!(end, expected);
}

/// Shown while open, after the start of closing, with closing orders waiting
/// and once closed; each time the state at that line. The closing price is
/// 9,500 / 100 = 95, so that 3 lots block 2,850 and 2 of them cost 1,900.
#[test]
fn each_phase_is_shown() {
    let lines = [
        "H,2,1,1",
        "S,0,10,5",
        "R,0,0,30000",
        "D,1,0,200",
        "L,1,0,95,10,K",
        "B,0,0,95,10,K",
        "L,1,0,105,2,K",
        "SHOW",
        "C",
        "SHOW",
        "P,0,B,0,3",
        "P,1,L,0,2",
        "SHOW",
        "Z",
        "SHOW",
    ];
    let opened = [
        "A,1,0,0,0,0,0,0",
        "A,3,0,0,0,0,0,0",
        "A,4,0,0,0,0,0,0",
        "A,5,0,0,1,0,10,0",
        "A,6,0,0,1,10,0,1",
        "T,1,1,0,1,0,95,10,9500",
        "A,7,0,0,2,0,2,0",
        "A,8,0,0,0,0,0,0",
        "M,0,0,20500,0",
        "M,1,0,9500,0",
        "Q,0,0,100,0",
        "Q,1,0,80,20",
        "PHASE,open",
        "TURNOVER,0,100,9500",
        "CODES,0,1",
        "CODES,1,2",
        "WAITS,1,2,L,0,2,K,105",
        "MARKET,0,0",
        "DATE,0",
    ];
    let closing = [
        "A,9,0,0,0,0,0,0",
        "A,10,0,0,0,0,0,0",
        "M,0,0,20500,0",
        "M,1,0,9500,0",
        "Q,0,0,100,0",
        "Q,1,0,100,0",
        "PHASE,closing",
        "TURNOVER,0,100,9500",
        "CODES,0,1",
        "CODES,1,2",
        "MARKET,0,0",
        "DATE,0",
        "A,11,0,0,2,0,3,0",
        "A,12,0,0,3,0,2,0",
        "A,13,0,0,0,0,0,0",
        "M,0,0,17650,2850",
        "M,1,0,9500,0",
        "Q,0,0,100,0",
        "Q,1,0,80,20",
        "PHASE,closing",
        "TURNOVER,0,100,9500",
        "CODES,0,2",
        "CODES,1,3",
        "WAITS,0,2,B,0,3,P,0",
        "WAITS,1,3,L,0,2,P,0",
        "MARKET,0,0",
        "DATE,0",
    ];
    let ended = [
        "A,14,0,0,0,2,0,1",
        "T,2,3,0,1,0,95,2,1900",
        "A,15,0,0,0,0,0,0",
    ];
    let closed = [
        "M,0,0,18600,0",
        "M,1,0,11400,0",
        "Q,0,0,120,0",
        "Q,1,0,80,0",
        "PHASE,closed",
        "TURNOVER,0,100,9500",
        "CODES,0,2",
        "CODES,1,3",
        "MARKET,0,0",
        "DATE,0",
    ];
    let expected = [&opened[..], &closing, &ended, &closed, &closed].concat();
    assert_prints(&lines, &expected);
}

#[test]
fn lent_from_0_to_4096() {
    let lines = [
        ("LENT,0", 0),
        ("LENT,1087", 0),
        ("LENT,1088", 0),
        ("LENT,4096", 0),
        ("LENT,4097", 19),
        ("LENT,9999999999999999", 19),
        ("LENT,10000000000000000", 19),
    ];
    assert_refusals(&HEADING, &lines);
}

/// Forms that are wrong by a field, its number or the word.
#[test]
fn script_words_in_bad_form() {
    let lines = [
        ("LENT", 19),
        ("LENT,", 19),
        ("LENT,00", 19),
        ("LENT,01088", 19),
        ("LENT,-1", 19),
        ("LENT, 8", 19),
        ("LENT,1088,", 19),
        ("LENT,1088,0", 19),
        ("lent,1088", 19),
        ("LEN,1088", 19),
        (" LENT,1088", 19),
        ("LENT,1088\r", 19),
        ("SHOW,", 19),
        ("SHOW,0", 19),
        ("SHOW ", 19),
        ("show", 19),
        ("SHO", 19),
        ("SHOWS", 19),
    ];
    assert_refusals(&HEADING, &lines);
}

/// LENT and SHOW answer zeros on their own lines.
#[test]
fn script_words_answer_zeros() {
    let lines = [HEADING[0], HEADING[1], "LENT,2", "SHOW"];
    let answers = ["A,1,0,0,0,0,0,0", "A,3,0,0,0,0,0,0", "A,4,0,0,0,0,0,0"];
    let expected = [&answers[..], &NOTHING, &NOTHING].concat();
    assert_prints(&lines, &expected);
}

/// A seller and a buyer with reserves: four lines.
const RESERVES: [&str; 4] = ["H,2,1,1", "S,0,10,5", "R,0,0,100000", "D,1,0,1000"];

/// The list is asked for by orders of each kind, groups and the session's
/// end, and by nothing else: not by a closing order, which writes no trade.
#[test]
fn a_short_list_stops_only_what_writes_trades() {
    let lines = [
        "L,1,0,100,10,K",
        "B,0,0,100,1,I",
        "LENT,1087",
        "B,0,0,100,1,K",
        "L,1,0,100,1,I",
        "B,0,0,100,1,A",
        "G,0,2",
        "M,B,0,100,1",
        "M,B,0,100,1",
        "R,0,0,1",
        "W,0,0,1",
        "D,1,0,1",
        "E,1,0,1",
        "X,1,1",
        "C",
        "P,0,B,0,1",
        "Z",
        "LENT,1088",
        "Z",
    ];
    let expected = [
        "A,3,0,0,0,0,0,0",
        "A,4,0,0,0,0,0,0",
        "A,5,0,0,1,0,10,0",
        "A,6,0,0,1,1,0,1",
        "A,7,0,0,0,0,0,0",
        "A,8,2,0,0,0,0,0",
        "A,9,2,0,0,0,0,0",
        "A,10,2,0,0,0,0,0",
        "A,11,2,0,0,0,0,0",
        "A,14,0,0,0,0,0,0",
        "A,15,0,0,0,0,0,0",
        "A,16,0,0,0,0,0,0",
        "A,17,0,0,0,0,0,0",
        "A,18,0,0,1,0,0,0",
        "A,19,0,0,0,0,0,0",
        "A,20,0,0,2,0,1,0",
        "A,21,2,0,0,0,0,0",
        "A,22,0,0,0,0,0,0",
        "A,23,0,0,0,0,0,0",
    ];
    assert_eq!(answers(&RESERVES, &lines), expected);
}

/// Lists from 1,088 numbers on suffice; a malformed LENT changes nothing.
#[test]
fn the_number_lent_stays_until_the_next() {
    let order = "B,0,0,100,1,I";
    let lines = [
        ("R,0,0,100000", 0),
        (order, 0),
        ("LENT,0", 0),
        (order, 2),
        ("LENT,4097", 19),
        (order, 2),
        ("SHOW", 0),
        (order, 2),
        ("LENT,2", 0),
        (order, 2),
        ("LENT,1089", 0),
        (order, 0),
        ("LENT,4096", 0),
        (order, 0),
        ("LENT,-1", 19),
        (order, 0),
    ];
    assert_refusals(&HEADING, &lines);
}

/// 2 comes before every question about the call's own numbers and the phase,
/// but after the form of the line and the 3 that reading gives.
#[test]
fn a_short_list_among_the_questions() {
    let lines = [
        ("LENT,1087", 0),
        ("B,9,9,0,0,K", 2),
        ("B,9,9,0,0", 19),
        ("Z", 2),
        ("Z,", 19),
        ("G,9,1", 3),
        ("G,9,9", 3),
        ("G,9", 19),
        ("G,0,2", 19),
        ("P,0,B,0,1", 6),
        ("P,9,B,0,1", 4),
        ("C", 0),
        ("B,0,0,5,1,K", 2),
        ("P,0,B,0,1", 11),
        ("LENT,1088", 0),
        ("B,0,0,5,1,K", 6),
    ];
    assert_refusals(&HEADING, &lines);
}

/// The whole group is refused by 2, so that no member gives a place.
#[test]
fn a_group_refused_by_a_short_list_has_no_place() {
    let lines = [
        "LENT,0",
        "G,0,2",
        "M,B,9,0,0",
        "M,B,0,5,1",
        "LENT,1088",
        "G,0,2",
        "M,B,9,0,0",
        "M,B,0,5,1",
    ];
    let expected = [
        "A,3,0,0,0,0,0,0",
        "A,4,2,0,0,0,0,0",
        "A,7,0,0,0,0,0,0",
        "A,8,5,1,0,0,0,0",
    ];
    assert_eq!(answers(&HEADING, &lines), expected);
}

/// The second M is missing where SHOW stands, so G answers 19 and takes no
/// lines: both M are out of place, and SHOW shows.
#[test]
fn show_between_members() {
    let lines = [
        HEADING[0],
        HEADING[1],
        "G,0,2",
        "M,B,0,100,1",
        "SHOW",
        "M,B,0,100,1",
    ];
    let before = [
        "A,1,0,0,0,0,0,0",
        "A,3,19,0,0,0,0,0",
        "A,4,19,0,0,0,0,0",
        "A,5,0,0,0,0,0,0",
    ];
    let after = ["A,6,19,0,0,0,0,0"];
    let expected = [&before[..], &NOTHING, &after, &NOTHING].concat();
    assert_prints(&lines, &expected);
}

/// LENT between G and its members takes effect, as it is read after G.
#[test]
fn lent_between_members() {
    let lines = [
        ("G,0,2", 19),
        ("LENT,0", 0),
        ("M,B,0,100,1", 19),
        ("M,B,0,100,1", 19),
        ("B,0,0,100,1,K", 2),
    ];
    assert_refusals(&HEADING, &lines);
}

/// After its members, SHOW is a line of its own; the group's first member
/// asks for money that isn't there.
#[test]
fn show_after_members() {
    let lines = [
        HEADING[0],
        HEADING[1],
        "G,0,2",
        "M,B,0,100,1",
        "M,B,0,100,1",
        "SHOW",
    ];
    let answers = ["A,1,0,0,0,0,0,0", "A,3,14,1,0,0,0,0", "A,6,0,0,0,0,0,0"];
    let expected = [&answers[..], &NOTHING, &NOTHING].concat();
    assert_prints(&lines, &expected);
}

/// A heading that is refused or malformed ends the output.
#[test]
fn headings_that_end_the_output() {
    let headings: [(&[&str], &str); 9] = [
        (&["SHOW", "H,1,1,1", "S,0,10,5"], "A,1,19,0,0,0,0,0"),
        (&["LENT,0", "H,1,1,1", "S,0,10,5"], "A,1,19,0,0,0,0,0"),
        (&["H,1,1,1", "SHOW", "S,0,10,5"], "A,2,19,0,0,0,0,0"),
        (&["H,1,1,2", "S,0,10,5", "LENT,0"], "A,3,19,0,0,0,0,0"),
        (&["H,1,1,2", "S,0,10,5"], "A,3,19,0,0,0,0,0"),
        (&["H,17,1,1", "S,0,10,5", "SHOW"], "A,1,17,0,0,0,0,0"),
        (&["H,1,1,0", "SHOW"], "A,1,17,0,0,0,0,0"),
        (&["H,1,1,1,1001", "S,0,10,5", "SHOW"], "A,1,22,0,0,0,0,0"),
        (
            &["H,1,1,2", "S,0,10,5", "S,0,10,0", "SHOW"],
            "A,3,18,2,0,0,0,0",
        ),
    ];
    for (heading, answer) in headings {
        assert_prints(heading, &[answer]);
    }
}

/// The format's words and longer forms, each malformed below its level. Those
/// of the heading stand on the line of the malformed form.
#[test]
fn words_and_forms_of_later_levels_are_malformed() {
    let commands = [
        (2, "COLLECT"),
        (2, "AUCTION"),
        (6, "OFFER,0,B,0,100,1,500,7"),
        (6, "SECOND,1"),
        (6, "DAY,60"),
        (9, "BACK,1"),
        (10, "QUEUE,B,0,0,100,1,K"),
        (10, "SERVE"),
        (11, "NET,0,0"),
        (11, "NETP,0,0"),
        (11, "BANK,0,0"),
        (11, "BANKP,0,0"),
    ];
    for (level, line) in commands {
        if level > SCRIPT {
            assert_refusals(&HEADING, &[(line, 19)]);
        }
    }
    let headings: [(u8, [&str; 2], &str); 4] = [
        (3, ["H,1,1,1,0", "S,0,10,5"], "A,1,19,0,0,0,0,0"),
        (5, ["H,1,1,1", "S,0,10,5,0"], "A,2,19,0,0,0,0,0"),
        (6, ["H,1,1,1,0,0", "S,0,10,5"], "A,1,19,0,0,0,0,0"),
        (11, ["H,1,1,1,0,0,0", "S,0,10,5"], "A,1,19,0,0,0,0,0"),
    ];
    for (level, heading, answer) in headings {
        if level > SCRIPT {
            assert_prints(&heading, &[answer]);
        }
    }
}

/// A QUEUE of anything but B, L, P or OFFER is malformed at every level.
#[test]
fn what_cannot_be_queued() {
    let lines = [
        ("QUEUE", 19),
        ("QUEUE,", 19),
        ("QUEUE,X,0,1", 19),
        ("QUEUE,SHOW", 19),
        ("QUEUE,LENT,0", 19),
        ("QUEUE,G,0,2", 19),
        ("M,B,0,100,1", 19),
    ];
    assert_refusals(&HEADING, &lines);
}

/// The last SHOW lacks its byte 10, which would be one byte too many: the end
/// is shown for each SHOW and once more, or nothing but 20.
#[test]
fn the_text_is_at_most_65536_bytes() {
    let shows = 13_104;
    let heading = "H,1,1,1\nS,0,10,5\n".to_string();
    let mut text = heading + &"SHOW\n".repeat(shows);
    assert_eq!(script_output(text.as_bytes()), b"A,0,20,0,0,0,0,0\n");
    text.pop();
    assert_eq!(text.len(), TEXT_LIMIT);
    let mut tally = Tally::default();
    tally.count_output(&script_output(text.as_bytes()));
    assert_eq!(tally.shown("open"), shows as u64 + 1);
    assert_eq!(tally.accepted, shows as u64 + 1);
}

#[test]
fn a_day_file_knows_no_words_of_scripts() {
    let output = output_of(b"H,1,1,1\nS,0,10,5\nLENT,0\nSHOW\nB,0,0,5,1,K\n");
    let expected = "A,1,0,0,0,0,0,0\nA,3,19,0,0,0,0,0\nA,4,19,0,0,0,0,0\n\
                    A,5,14,0,0,0,0,0\nM,0,0,0,0\nQ,0,0,0,0\n";
    assert_eq!(String::from_utf8_lossy(&output), expected);
}

/// As a script, a day file prints its day and then only the lines that the
/// levels add to the end; nothing is added where the heading is refused. (A
/// fourth number in `H` would make another script of it; no seed here has one.)
#[test]
fn a_day_file_is_a_script() {
    for seed in 1..=320 {
        let text = day_file(seed);
        let (day, script) = (output_of(&text), script_output(&text));
        let added = script.strip_prefix(&day[..]).expect("the day is unchanged");
        let opened = day.starts_with(b"A,1,0,");
        assert_eq!(added.starts_with(b"PHASE,"), opened, "seed {seed}");
        assert!(opened || added.is_empty(), "seed {seed}");
    }
}
