//! The program over a text, a day file or a script: reads the text, runs the
//! day, writes what it prints.

use crate::calls::{refusal, refused, Answer, Call, Done, Opening, Refused, Trade};
use crate::engine::{Engine, LIST_LENGTH};
use crate::level::{DAY_FILE, SCRIPT};
use crate::output::{print_answer, print_end, print_trade};
use crate::reader::{Command, LineReader, TEXT_LIMIT};

/// Sees each call beside the program, to check or count it.
pub trait Observer {
    fn opened(&mut self, _opening: &Opening) {}
    fn called(&mut self, _line: u64, _call: &Call, _answer: &Answer, _trades: &[Trade]) {}
    /// The state that the call just seen has left.
    fn left(&mut self, _engine: &Engine) {}
}

/// Sees nothing.
impl Observer for () {}

/// The whole output of a day, without the soundness test.
pub fn output_of(text: &[u8]) -> Vec<u8> {
    let mut out = Vec::new();
    run_day(text, false, &mut (), &mut out);
    out
}

/// The whole output of a script, without the soundness test.
pub fn script_output(text: &[u8]) -> Vec<u8> {
    let mut out = Vec::new();
    run_text::<SCRIPT>(text, false, &mut (), &mut out);
    out
}

/// Runs a day and appends its output to `out`.
pub fn run_day(text: &[u8], asks_soundness: bool, observer: &mut impl Observer, out: &mut Vec<u8>) {
    run_text::<DAY_FILE>(text, asks_soundness, observer, out);
}

/// Runs a text at its level and appends its output to `out`.
pub fn run_text<const LEVEL: u8>(
    text: &[u8],
    asks_soundness: bool,
    observer: &mut impl Observer,
    out: &mut Vec<u8>,
) {
    if text.len() > TEXT_LIMIT {
        print_answer(out, 0, &Err(refused(refusal::TEXT_TOO_LONG)));
        return;
    }
    let mut reader = LineReader::<LEVEL>::new(text);
    let opened = open_day(&mut reader, asks_soundness, observer);
    match opened {
        Ok(mut engine) => {
            print_answer(out, 1, &Ok(Done::default()));
            run_commands(&mut reader, &mut engine, observer, out);
            print_end::<LEVEL>(&engine, out);
        }
        Err((line, refused)) => print_answer(out, line, &Err(refused)),
    }
}

/// Forms of the whole heading first, then 17, 18, 23, 22 and 24.
fn open_day<const LEVEL: u8>(
    reader: &mut LineReader<LEVEL>,
    asks_soundness: bool,
    observer: &mut impl Observer,
) -> Result<Engine, (u64, Refused)> {
    let opening = reader
        .heading()
        .map_err(|fault| (fault.line, refused(refusal::MALFORMED)))?;
    // Line 1 is H, so the security at place n is on line n + 1; the other
    // refusals have place 0.
    let engine =
        Engine::open(&opening, asks_soundness).map_err(|refused| (refused.place + 1, refused))?;
    observer.opened(&opening);
    Ok(engine)
}

/// LENT and SHOW are no calls: they answer zeros, and no observer sees them.
fn run_commands<const LEVEL: u8>(
    reader: &mut LineReader<LEVEL>,
    engine: &mut Engine,
    observer: &mut impl Observer,
    out: &mut Vec<u8>,
) {
    let mut lent = LIST_LENGTH;
    let mut trades = Vec::new();
    while let Some((line, command)) = reader.next_command() {
        match &command {
            Ok(Command::Call(call)) => {
                trades.clear();
                let answer = engine.call_lent(call, lent, &mut trades);
                observer.called(line, call, &answer, &trades);
                observer.left(engine);
                print_answered(out, line, &answer, &trades);
            }
            Ok(Command::Lend(count)) => {
                lent = *count;
                print_answer(out, line, &Ok(Done::default()));
            }
            Ok(Command::Show) => {
                print_answer(out, line, &Ok(Done::default()));
                print_end::<LEVEL>(engine, out);
            }
            Err(refused) => print_answer(out, line, &Err(*refused)),
        }
    }
}

fn print_answered(out: &mut Vec<u8>, line: u64, answer: &Answer, trades: &[Trade]) {
    print_answer(out, line, answer);
    for trade in trades {
        print_trade(out, trade);
    }
}
