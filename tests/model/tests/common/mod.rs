//! What the tests of scripts share.

use model::check::checked_output;
use model::level::SCRIPT;
use model::tally::Tally;

/// The text of the lines, and what they print once the book agrees with it.
pub fn printed(lines: &[&str]) -> String {
    let text = lines.join("\n") + "\n";
    let output = checked_output::<SCRIPT>(text.as_bytes(), &mut Tally::default());
    let output = output.unwrap_or_else(|fault| panic!("{fault} in\n{text}"));
    String::from_utf8(output).expect("the output is of plain letters")
}

/// What the lines print as a whole. Not every test needs it.
#[allow(dead_code)]
pub fn assert_prints(lines: &[&str], expected: &[&str]) {
    let printed = printed(lines);
    let printed: Vec<&str> = printed.lines().collect();
    assert_eq!(printed, expected);
}

/// What the lines print last. Not every test needs it.
#[allow(dead_code)]
pub fn assert_ends(lines: &[&str], expected: &[&str]) {
    let output = printed(lines);
    let lines: Vec<&str> = output.lines().collect();
    assert!(lines.ends_with(expected), "{output}");
}

/// The answers that the lines get after a good heading, without its own.
pub fn answers(heading: &[&str], lines: &[&str]) -> Vec<String> {
    let printed = printed(&[heading, lines].concat());
    let answers = printed.lines().filter(|line| line.starts_with("A,"));
    answers.skip(1).map(String::from).collect()
}

/// Each line after a good heading, with the refusal it gets or 0.
pub fn assert_refusals(heading: &[&str], expected: &[(&str, u64)]) {
    let lines: Vec<&str> = expected.iter().map(|(line, _)| *line).collect();
    let answers = answers(heading, &lines);
    assert_eq!(answers.len(), lines.len());
    let refusals = answers.iter().map(|answer| refusal_of(answer));
    let found: Vec<(&str, u64)> = lines.into_iter().zip(refusals).collect();
    assert_eq!(found, expected);
}

fn refusal_of(answer: &str) -> u64 {
    let field = answer.split(',').nth(2).expect("answers have eight fields");
    field.parse().expect("the refusal is a number")
}
