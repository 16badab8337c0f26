//! The day program on streams that make it wait or fail: no byte is lost and
//! none is printed after a gap, and what fails is said on standard error.

use std::fs::File;
use std::io::Write;
use std::os::fd::OwnedFd;
use std::os::unix::net::UnixStream;
use std::os::unix::process::CommandExt;
use std::process::Stdio;
use std::time::Instant;

use model::dayfile::output_of;
use model::generate::good_long_day;

use interposed::Interposed;
use running::{
    at_once, command, ended, feed, from_text, idle_while_waiting, nothing, pipe, set_non_blocking,
    slowly, some_and_close, spawn, start, Ended, Outcome,
};

mod interposed;
mod running;

const BROKEN_PIPE_SIGNAL: i32 = 13;
const IGNORED: usize = 1;

extern "C" {
    fn signal(number: i32, handler: usize) -> usize;
}

type Trial = fn(&str, &Day) -> Outcome;

struct Day {
    text: Vec<u8>,
    expected: Vec<u8>,
}

pub fn try_pipes(path: &str) -> Outcome {
    let trials: [(&str, Trial); 13] = [
        ("slow reader", slow_reader),
        ("slow writer", slow_writer),
        ("non-blocking output", non_blocking_output),
        ("non-blocking input", non_blocking_input),
        ("both non-blocking", both_non_blocking),
        ("closed reader", closed_reader),
        ("closed reader, signal ignored", closed_reader_told),
        ("full device", full_device),
        ("input that can't be read", unreadable_input),
        ("input that breaks off", broken_input),
        ("interrupted and in small parts", interrupted),
        ("input on which nothing moves", given_up_input),
        ("output on which nothing moves", given_up_output),
    ];
    let day = long_day();
    let begun = Instant::now();
    let fault_of = |(name, trial): &(&str, Trial)| {
        let fault = trial(path, &day).err()?;
        Some(format!("pipes: {name}: {fault}"))
    };
    let faults: Vec<String> = trials.iter().filter_map(fault_of).collect();
    if !faults.is_empty() {
        return Err(faults.join("\n"));
    }
    let count = trials.len();
    let bytes = day.expected.len();
    let seconds = begun.elapsed().as_secs_f64();
    println!("pipes: {count} trials with output of {bytes} bytes in {seconds:.1} s, 0 bytes lost");
    Ok(())
}

/// Half of a good day, then empty lines up to the longest text: the output is
/// many times what a pipe holds, and ends in positions.
fn long_day() -> Day {
    let mut text = good_long_day(1);
    text.truncate(32_768);
    text.resize(65_536, b'\n');
    let expected = output_of(&text);
    Day { text, expected }
}

fn slow_reader(path: &str, day: &Day) -> Outcome {
    let (reader, writer) = pipe()?;
    let program = start(path, from_text(&day.text)?, writer)?;
    whole(day, ended(program, slowly(reader))?)
}

fn slow_writer(path: &str, day: &Day) -> Outcome {
    let (from, to) = pipe()?;
    let (reader, writer) = pipe()?;
    let program = start(path, from, writer)?;
    let feeding = feed(to, &day.text);
    let ended = ended(program, at_once(reader))?;
    feeding.join().map_err(|_| "the writer failed")??;
    whole(day, ended)
}

fn non_blocking_output(path: &str, day: &Day) -> Outcome {
    let (reader, writer) = pipe()?;
    set_non_blocking(&writer)?;
    let program = start(path, from_text(&day.text)?, writer)?;
    idle_while_waiting(&program)?;
    whole(day, ended(program, slowly(reader))?)
}

fn non_blocking_input(path: &str, day: &Day) -> Outcome {
    let (from, to) = pipe()?;
    let (reader, writer) = pipe()?;
    set_non_blocking(&from)?;
    let program = start(path, from, writer)?;
    idle_while_waiting(&program)?;
    let feeding = feed(to, &day.text);
    let ended = ended(program, at_once(reader))?;
    feeding.join().map_err(|_| "the writer failed")??;
    whole(day, ended)
}

fn both_non_blocking(path: &str, day: &Day) -> Outcome {
    let (from, to) = pipe()?;
    let (reader, writer) = pipe()?;
    set_non_blocking(&from)?;
    set_non_blocking(&writer)?;
    let program = start(path, from, writer)?;
    let feeding = feed(to, &day.text);
    let ended = ended(program, slowly(reader))?;
    feeding.join().map_err(|_| "the writer failed")??;
    whole(day, ended)
}

/// The compiler's start of a program ignores the signal, so the program is told.
fn closed_reader(path: &str, day: &Day) -> Outcome {
    let (reader, writer) = pipe()?;
    let program = start(path, from_text(&day.text)?, writer)?;
    let ended = ended(program, some_and_close(reader))?;
    said(&ended, "standard output: Broken pipe\n")?;
    starts_as(day, &ended.output)
}

fn closed_reader_told(path: &str, day: &Day) -> Outcome {
    let (reader, writer) = pipe()?;
    let mut command = command(path, from_text(&day.text)?, writer);
    // SAFETY: `signal` may be called between fork and exec.
    unsafe {
        command.pre_exec(|| {
            signal(BROKEN_PIPE_SIGNAL, IGNORED);
            Ok(())
        });
    }
    let program = spawn(command)?;
    let ended = ended(program, some_and_close(reader))?;
    said(&ended, "standard output: Broken pipe\n")?;
    starts_as(day, &ended.output)
}

fn full_device(path: &str, day: &Day) -> Outcome {
    let device = File::options().write(true).open("/dev/full");
    let device = device.map_err(|fault| format!("/dev/full: {fault}"))?;
    let program = start(path, from_text(&day.text)?, device)?;
    let ended = ended(program, nothing())?;
    said(&ended, "standard output: No space left on device\n")
}

fn unreadable_input(path: &str, _: &Day) -> Outcome {
    let directory = File::open("/").map_err(|fault| fault.to_string())?;
    nothing_printed(path, directory, "standard input: Is a directory\n")
}

/// Half of the day comes, then an error in place of the end.
fn broken_input(path: &str, day: &Day) -> Outcome {
    let (mut near, mut far) = UnixStream::pair().map_err(|fault| fault.to_string())?;
    let half = &day.text[..day.text.len() / 2];
    near.write_all(half).map_err(|fault| fault.to_string())?;
    // A socket that is closed with unread bytes resets its other end.
    far.write_all(b"unread")
        .map_err(|fault| fault.to_string())?;
    drop(near);
    let from = OwnedFd::from(far);
    nothing_printed(path, from, "standard input: Connection reset by peer\n")
}

fn interrupted(path: &str, day: &Day) -> Outcome {
    let (reader, writer) = pipe()?;
    let between = Interposed::new()?;
    let mut command = between.command(path, from_text(&day.text)?, writer);
    command.env("INTERRUPTED", "1");
    let program = spawn(command)?;
    whole(day, ended(program, at_once(reader))?)
}

fn given_up_input(path: &str, _: &Day) -> Outcome {
    let (from, _open) = pipe()?;
    let (reader, writer) = pipe()?;
    set_non_blocking(&from)?;
    let between = Interposed::new()?;
    let program = spawn(between.command(path, from, writer))?;
    let ended = ended(program, at_once(reader))?;
    said(&ended, "standard input: nothing moved for five minutes\n")?;
    unprinted(&ended)
}

/// What went out before stands, and nothing behind it.
fn given_up_output(path: &str, day: &Day) -> Outcome {
    let (reader, writer) = pipe()?;
    set_non_blocking(&writer)?;
    let between = Interposed::new()?;
    let program = spawn(between.command(path, from_text(&day.text)?, writer))?;
    let ended = ended(program, nothing())?;
    said(&ended, "standard output: nothing moved for five minutes\n")?;
    let output = at_once(reader).join().map_err(|_| "the reader failed")?;
    starts_as(day, &output.map_err(|fault| fault.to_string())?)
}

fn nothing_printed(path: &str, from: impl Into<Stdio>, words: &str) -> Outcome {
    let (reader, writer) = pipe()?;
    let program = start(path, from, writer)?;
    let ended = ended(program, at_once(reader))?;
    said(&ended, words)?;
    unprinted(&ended)
}

fn unprinted(ended: &Ended) -> Outcome {
    match ended.output.len() {
        0 => Ok(()),
        count => Err(format!("printed {count} bytes")),
    }
}

fn whole(day: &Day, ended: Ended) -> Outcome {
    said(&ended, "")?;
    starts_as(day, &ended.output)?;
    if ended.output.len() < day.expected.len() {
        return Err(format!("ends at byte {}", ended.output.len()));
    }
    Ok(())
}

fn starts_as(day: &Day, output: &[u8]) -> Outcome {
    if day.expected.starts_with(output) {
        return Ok(());
    }
    let pairs = output.iter().zip(&day.expected);
    let same = pairs.take_while(|(a, b)| a == b).count();
    Err(format!("differs at byte {same} of {}", output.len()))
}

/// The program has no exit status of its own, so it ended well all the same.
fn said(ended: &Ended, words: &str) -> Outcome {
    if !ended.status.success() {
        return Err(format!("ended with {}", ended.status));
    }
    if ended.errors != words {
        return Err(format!("said {:?}, not {words:?}", ended.errors));
    }
    Ok(())
}
