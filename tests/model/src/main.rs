//! Differential test and benchmark of the proved engine against the model.

use std::env;
use std::fs;
use std::io::{self, Read, Write};
use std::process::ExitCode;

use model::check::checked_output;
use model::dayfile::{output_of, script_output};
use model::generate::{day_file, script};
use model::level::{DAY_FILE, SCRIPT};
use model::tally::Tally;

#[cfg(all(feature = "engine", feature = "replay"))]
mod bench;
#[cfg(all(feature = "engine", feature = "replay"))]
mod clock;
#[cfg(any(feature = "engine", feature = "replay"))]
mod compare;
mod difference;
#[cfg(any(feature = "engine", feature = "replay"))]
mod engine_under_test;
mod pipes;
mod program;

const FIRST_SEED: u64 = 1;
const SEED_COUNT: u64 = 6_000;

const USAGE: &str = "\
usage: model compare [first-seed] [count]  engine and model on generated day files
       model scripts [first-seed] [count]  engine and model on generated scripts
       model self-check [first-seed] [count]  model and book on generated day files
       model check-scripts [first-seed] [count]  model and book on generated scripts
       model print [FILE]  the model's output for a day file or standard input
       model script [FILE]  the model's output for a script or standard input
       model day SEED  the day file of a seed
       model script-text SEED  the script of a seed
       model program PATH [first-seed] [count]  the day program and model on generated day files,
           then the program on streams that make it wait or fail
       model replay PATH [first-seed] [count]  the program replay and model on generated scripts
       model bench  speed of engine and model";

fn main() -> ExitCode {
    let arguments: Vec<String> = env::args().skip(1).collect();
    match run(&arguments) {
        Ok(()) => ExitCode::SUCCESS,
        Err(fault) => {
            eprintln!("{fault}");
            ExitCode::FAILURE
        }
    }
}

fn run(arguments: &[String]) -> Result<(), String> {
    let rest = arguments.get(1..).unwrap_or_default();
    match arguments.first().map(String::as_str) {
        Some("self-check") => self_check::<DAY_FILE>("self-check", "day files", day_file, rest),
        Some("check-scripts") => self_check::<SCRIPT>("check-scripts", "scripts", script, rest),
        Some("print") => print(output_of, rest),
        Some("script") => print(script_output, rest),
        Some("day") => print_text(day_file, rest),
        Some("script-text") => print_text(script, rest),
        Some("program") => {
            run_program(program::compare_program, rest)?;
            pipes::try_pipes(rest.first().ok_or(USAGE)?)
        }
        Some("replay") => run_program(program::compare_replay, rest),
        #[cfg(feature = "engine")]
        Some("compare") => {
            let (first_seed, count) = seeds(rest)?;
            compare::compare(first_seed, count)
        }
        #[cfg(feature = "replay")]
        Some("scripts") => {
            let (first_seed, count) = seeds(rest)?;
            compare::compare_scripts(first_seed, count)
        }
        #[cfg(all(feature = "engine", feature = "replay"))]
        Some("bench") => bench::bench(),
        _ => Err(USAGE.into()),
    }
}

fn seed(argument: &str) -> Result<u64, String> {
    argument
        .parse()
        .map_err(|_| format!("{argument} is no number\n{USAGE}"))
}

fn seeds(arguments: &[String]) -> Result<(u64, u64), String> {
    let number = |place: usize, otherwise: u64| {
        arguments
            .get(place)
            .map_or(Ok(otherwise), |argument| seed(argument))
    };
    Ok((number(0, FIRST_SEED)?, number(1, SEED_COUNT)?))
}

fn self_check<const LEVEL: u8>(
    name: &str,
    texts: &str,
    text: fn(u64) -> Vec<u8>,
    arguments: &[String],
) -> Result<(), String> {
    let (first_seed, count) = seeds(arguments)?;
    let mut tally = Tally::default();
    for seed in first_seed..first_seed.saturating_add(count) {
        checked_output::<LEVEL>(&text(seed), &mut tally)
            .map_err(|fault| format!("{name}: seed {seed}: {fault}"))?;
    }
    let Tally {
        files, commands, ..
    } = tally;
    println!("{name}: {files} {texts}, {commands} commands, 0 differences\n{tally}");
    Ok(())
}

fn print(output: fn(&[u8]) -> Vec<u8>, arguments: &[String]) -> Result<(), String> {
    let text = match arguments.first() {
        Some(path) => fs::read(path).map_err(|fault| format!("{path}: {fault}"))?,
        None => {
            let mut text = Vec::new();
            io::stdin()
                .read_to_end(&mut text)
                .map_err(|fault| format!("standard input: {fault}"))?;
            text
        }
    };
    write_out(&output(&text))
}

fn print_text(text: fn(u64) -> Vec<u8>, arguments: &[String]) -> Result<(), String> {
    let argument = arguments.first().ok_or(USAGE)?;
    write_out(&text(seed(argument)?))
}

fn run_program(
    compare: fn(&str, u64, u64) -> Result<(), String>,
    arguments: &[String],
) -> Result<(), String> {
    let path = arguments.first().ok_or(USAGE)?;
    let (first_seed, count) = seeds(&arguments[1..])?;
    compare(path, first_seed, count)
}

fn write_out(bytes: &[u8]) -> Result<(), String> {
    io::stdout()
        .write_all(bytes)
        .map_err(|fault| format!("standard output: {fault}"))
}
