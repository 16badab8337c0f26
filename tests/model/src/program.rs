//! The programs as a person runs them, standard input to standard output,
//! compared with the model: long output goes out in parts, and a long input
//! is not read to its end.

use std::io::{self, ErrorKind, Write};
use std::process::{ChildStdin, Command, Stdio};
use std::thread;

use model::cases::cases;
use model::dayfile::{output_of, script_output};
use model::engine::{CURRENCY_LIMIT, DEAL_LIMIT, PARTICIPANT_LIMIT, SECURITY_LIMIT, WAITING_LIMIT};
use model::generate::{day_file, script};
use model::reader::TEXT_LIMIT;

use crate::difference::{failed, first_difference};

/// How often the fullest end is shown.
const ENDS: usize = 20;

/// The day program on day files.
pub fn compare_program(path: &str, first_seed: u64, count: u64) -> Result<(), String> {
    let mut runs = Runs::new("program", path);
    for case in cases()? {
        runs.compare(&case.name, &case.text, &case.expected)?;
    }
    for seed in first_seed..first_seed.saturating_add(count) {
        let text = day_file(seed);
        runs.compare(&format!("seed {seed}"), &text, &output_of(&text))?;
    }
    let empty_lines = filled("H,1,1,1\nS,0,10,5\n", "\n");
    runs.compare("empty lines", &empty_lines, &output_of(&empty_lines))?;
    runs.print("day files");
    Ok(())
}

/// The program `replay` on scripts; a day file is one too.
pub fn compare_replay(path: &str, first_seed: u64, count: u64) -> Result<(), String> {
    let mut runs = Runs::new("replay", path);
    for case in cases()? {
        runs.compare(&case.name, &case.text, &script_output(&case.text))?;
    }
    for seed in first_seed..first_seed.saturating_add(count) {
        let text = script(seed);
        runs.compare(&format!("seed {seed}"), &text, &script_output(&text))?;
    }
    let empty_lines = filled("H,1,1,1\nS,0,10,5\n", "\n");
    runs.compare("empty lines", &empty_lines, &script_output(&empty_lines))?;
    let shows = filled(&fullest_heading(), "SHOW\n");
    runs.compare("shows", &shows, &script_output(&shows))?;
    let ends = [fullest_end(), "SHOW\n".repeat(ENDS)].concat();
    runs.compare("ends", ends.as_bytes(), &script_output(ends.as_bytes()))?;
    runs.print("scripts");
    Ok(())
}

/// A text of full length, so that it has as many lines as there can be.
fn filled(heading: &str, line: &str) -> Vec<u8> {
    let lines = line.bytes().cycle();
    heading.bytes().chain(lines).take(TEXT_LIMIT).collect()
}

/// As many positions as there can be.
fn fullest_heading() -> String {
    let counts = format!("H,{PARTICIPANT_LIMIT},{CURRENCY_LIMIT},{SECURITY_LIMIT}\n");
    counts + &"S,0,10,5\n".repeat(SECURITY_LIMIT)
}

/// All positions with long numbers, 64 deals of the greatest first sum, and 128
/// that wait, all of them offers but for two: a 64th deal leaves no room for
/// more offers.
fn fullest_end() -> String {
    let (offer, counter) = (
        "OFFER,15,B,15,1000000,10,5000",
        "OFFER,14,L,15,1000000,10,5000",
    );
    let deal = format!("{offer},365\n{counter},365\n");
    let waiting = format!("{offer},364\n").repeat(WAITING_LIMIT - 2);
    let orders = "B,15,15,1000000,10,K\n".repeat(2);
    let earlier_deals = deal.repeat(DEAL_LIMIT - 1);
    [full_positions(), earlier_deals, waiting, deal, orders].concat()
}

fn full_positions() -> String {
    let counts = format!("H,{PARTICIPANT_LIMIT},{CURRENCY_LIMIT},{SECURITY_LIMIT},1000,145000\n");
    let mut text = counts + &"S,3,1000,1000000\n".repeat(SECURITY_LIMIT);
    for participant in 0..PARTICIPANT_LIMIT {
        for currency in 0..CURRENCY_LIMIT {
            text += &format!("R,{participant},{currency},62000000000000\n");
        }
        for security in 0..SECURITY_LIMIT {
            text += &format!("D,{participant},{security},62000000000\n");
        }
    }
    text
}

/// Runs of one program, and the length of their longest output.
struct Runs<'path> {
    test: &'static str,
    path: &'path str,
    count: u64,
    longest: usize,
}

impl<'path> Runs<'path> {
    fn new(test: &'static str, path: &'path str) -> Self {
        Runs {
            test,
            path,
            count: 0,
            longest: 0,
        }
    }

    fn compare(&mut self, name: &str, text: &[u8], expected: &[u8]) -> Result<(), String> {
        run(self.path, text)
            .and_then(|output| same(&output, expected))
            .map_err(|fault| failed(self.test, name, &fault, text))?;
        self.count += 1;
        self.longest = self.longest.max(expected.len());
        Ok(())
    }

    fn print(&self, texts: &str) {
        let Runs {
            test,
            count,
            longest,
            ..
        } = self;
        println!("{test}: {count} {texts}, output of up to {longest} bytes, 0 differences");
    }
}

fn same(output: &[u8], expected: &[u8]) -> Result<(), String> {
    if output == expected {
        Ok(())
    } else {
        Err(first_difference(output, expected))
    }
}

/// Writes and reads at once, since the program may print before it has read
/// the whole text.
fn run(path: &str, text: &[u8]) -> Result<Vec<u8>, String> {
    let mut program = Command::new(path)
        .stdin(Stdio::piped())
        .stdout(Stdio::piped())
        .spawn()
        .map_err(|fault| format!("{path}: {fault}"))?;
    let input = program.stdin.take().ok_or("no standard input")?;
    let (done, written) = thread::scope(|scope| {
        let writer = scope.spawn(|| write_all(input, text));
        (program.wait_with_output(), writer.join())
    });
    let done = done.map_err(|fault| fault.to_string())?;
    let written = written.map_err(|_| "the writer of the text panicked")?;
    written.map_err(|fault| fault.to_string())?;
    if !done.status.success() {
        return Err(format!("ended with {}", done.status));
    }
    Ok(done.stdout)
}

/// The program stops reading one byte past the longest text.
fn write_all(mut input: ChildStdin, text: &[u8]) -> io::Result<()> {
    match input.write_all(text) {
        Err(fault) if fault.kind() != ErrorKind::BrokenPipe => Err(fault),
        _ => Ok(()),
    }
}
