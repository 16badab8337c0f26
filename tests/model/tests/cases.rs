//! The model prints what the cases expect, and the book agrees with it.

use model::cases::{cases, script_cases, Case};
use model::check::checked_output;
use model::level::{DAY_FILE, SCRIPT};
use model::tally::Tally;

#[test]
fn every_day_file_prints_what_is_expected() -> Result<(), String> {
    assert_expected::<DAY_FILE>(&cases()?);
    Ok(())
}

#[test]
fn every_script_prints_what_is_expected() -> Result<(), String> {
    assert_expected::<SCRIPT>(&script_cases()?);
    Ok(())
}

fn assert_expected<const LEVEL: u8>(cases: &[Case]) {
    for case in cases {
        let output = checked_output::<LEVEL>(&case.text, &mut Tally::default());
        let printed = output.unwrap_or_else(|fault| panic!("{}: {fault}", case.name));
        let printed = String::from_utf8_lossy(&printed);
        let expected = String::from_utf8_lossy(&case.expected);
        assert!(
            printed == expected,
            "{}: printed\n{printed}expected\n{expected}",
            case.name
        );
    }
}

/// No day file lends an unsound state (1) or too short a list (2), and none
/// has room for 62,501 orders of one participant (13).
#[test]
fn every_refusal_within_reach_is_expected() -> Result<(), String> {
    let cases = cases()?;
    for refusal in (3..=12).chain(14..=20) {
        let expected = cases.iter().any(|case| expects(case, refusal));
        assert!(expected, "no case expects refusal {refusal}");
    }
    Ok(())
}

fn expects(case: &Case, refusal: u64) -> bool {
    let number = refusal.to_string();
    String::from_utf8_lossy(&case.expected)
        .lines()
        .filter(|line| line.starts_with("A,"))
        .any(|line| line.split(',').nth(2) == Some(&number))
}
