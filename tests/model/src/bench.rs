//! Speed of the engine beside the model, on the same day files in one run, and
//! on scripts for what day files don't know. Times are medians of processor
//! time, and include the reading of the lines and the printing of the answers in
//! both.

use std::hint::black_box;

use model::dayfile::{output_of, run_day, run_text, script_output};
use model::engine::DEAL_LIMIT;
use model::generate::good_long_day;
use model::level::SCRIPT;
use model::tally::Tally;

use crate::clock::processor_time;
use crate::engine_under_test::{EngineUnderTest, Form};

const LONG_DAYS: u64 = 50;
const ORDERS: usize = 1_000;
const GROUPS: usize = 200;
const OFFERS: usize = 500;
const DEAL_DAYS: usize = 10;

/// Many short samples, so that other work on the machine spoils few of them.
const LONG_DAY_ROUNDS: usize = 11;
const ROUNDS: usize = 201;
const END_REPEATS: usize = 10;

/// In the order of the table's columns.
const SUBJECTS: [Subject; 4] = [
    Subject::Engine(Form::Proved),
    Subject::Model {
        asks_soundness: false,
    },
    Subject::Engine(Form::Checked),
    Subject::Model {
        asks_soundness: true,
    },
];

/// Those of scripts, in the order of the last columns: the state is tested at
/// run time before each call.
const SCRIPT_SUBJECTS: [Subject; 2] = [Subject::Engine(Form::Script), Subject::ModelOnScript];

#[derive(Clone, Copy)]
enum Subject {
    Engine(Form),
    Model { asks_soundness: bool },
    ModelOnScript,
}

/// Seconds of each subject.
type Times = [f64; SUBJECTS.len()];

struct Runner {
    engine: EngineUnderTest,
    model_output: Vec<u8>,
}

impl Runner {
    fn run(&mut self, subject: Subject, text: &[u8]) -> Result<&[u8], String> {
        match subject {
            Subject::Engine(form) => self.engine.output_of(form, text),
            Subject::Model { asks_soundness } => {
                self.model_output.clear();
                run_day(text, asks_soundness, &mut (), &mut self.model_output);
                Ok(&self.model_output)
            }
            Subject::ModelOnScript => {
                self.model_output.clear();
                run_text::<SCRIPT>(text, true, &mut (), &mut self.model_output);
                Ok(&self.model_output)
            }
        }
    }

    fn seconds(&mut self, subject: Subject, text: &[u8], repeats: usize) -> Result<f64, String> {
        let start = processor_time()?;
        for _ in 0..repeats {
            black_box(self.run(subject, black_box(text))?);
        }
        let taken = processor_time()? - start;
        Ok(taken.as_secs_f64() / repeats as f64)
    }

    /// Median seconds for each text, texts and subjects taking turns.
    fn measure<const COUNT: usize>(
        &mut self,
        subjects: [Subject; COUNT],
        texts: &[&[u8]],
        rounds: usize,
        repeats: usize,
    ) -> Result<Vec<[f64; COUNT]>, String> {
        let mut samples = vec![[const { Vec::new() }; COUNT]; texts.len()];
        for _ in 0..rounds {
            for (text, of_text) in texts.iter().zip(&mut samples) {
                for (subject, times) in subjects.into_iter().zip(of_text) {
                    times.push(self.seconds(subject, text, repeats)?);
                }
            }
        }
        Ok(samples
            .into_iter()
            .map(|of_text| of_text.map(median))
            .collect())
    }

    /// What the whole day file takes longer than its setup alone.
    fn measure_beyond(&mut self, setup: &str, rest: &str, repeats: usize) -> Result<Times, String> {
        self.measure_more(SUBJECTS, output_of, setup, rest, repeats)
    }

    /// The same of a text that these subjects run, beside its known output.
    fn measure_more<const COUNT: usize>(
        &mut self,
        subjects: [Subject; COUNT],
        expected: fn(&[u8]) -> Vec<u8>,
        setup: &str,
        rest: &str,
        repeats: usize,
    ) -> Result<[f64; COUNT], String> {
        let whole = [setup, rest].concat();
        let texts = [whole.as_bytes(), setup.as_bytes()];
        self.check(&subjects, texts[0], &expected(texts[0]))?;
        let measured = self.measure(subjects, &texts, ROUNDS, repeats)?;
        Ok(std::array::from_fn(|subject| {
            measured[0][subject] - measured[1][subject]
        }))
    }

    /// All subjects print the same, and no command is refused, so that the
    /// times are those of the work named.
    fn check(&mut self, subjects: &[Subject], text: &[u8], expected: &[u8]) -> Result<(), String> {
        let mut tally = Tally::default();
        tally.count_output(expected);
        if tally.accepted != tally.commands {
            return Err("bench: a command of the measured day is refused".into());
        }
        self.check_same(subjects, text, expected)
    }

    fn check_same(
        &mut self,
        subjects: &[Subject],
        text: &[u8],
        expected: &[u8],
    ) -> Result<(), String> {
        for &subject in subjects {
            if self.run(subject, text)? != expected {
                return Err("bench: engine and model print different days".into());
            }
        }
        Ok(())
    }
}

fn median(mut times: Vec<f64>) -> f64 {
    times.sort_by(f64::total_cmp);
    times[times.len() / 2]
}

pub fn bench() -> Result<(), String> {
    let mut runner = Runner {
        engine: EngineUnderTest::new(),
        model_output: Vec::new(),
    };
    println!("bench: medians of processor time; reading and printing of lines included");
    println!("ratio: the engine's time by the model's");
    println!(
        "{:42}{:>12}{:>12}{:>7}{:>12}{:>12}{:>7}",
        "", "by proof", "model", "ratio", "checked", "model", "ratio"
    );
    bench_long_days(&mut runner)?;
    for waiting in [0, 32, 128] {
        let orders = "B,0,0,100,1,I\n".repeat(ORDERS);
        let times = runner.measure_beyond(&setup(waiting), &orders, 1)?;
        let name = format!("order without trade, {waiting} waiting, ns");
        print_nanoseconds(&name, times, ORDERS);
    }
    for waiting in [1, 32, 128] {
        let orders = "B,0,0,200,1,I\nL,1,0,200,1,K\n".repeat(ORDERS / 2);
        let times = runner.measure_beyond(&setup(waiting), &orders, 1)?;
        let name = format!("order, trade and re-entry, {waiting} waiting, ns");
        print_nanoseconds(&name, times, ORDERS);
    }
    bench_groups(&mut runner)?;
    bench_session_end(&mut runner)?;
    bench_auctions(&mut runner)?;
    bench_offers(&mut runner)?;
    bench_deals(&mut runner)
}

fn bench_long_days(runner: &mut Runner) -> Result<(), String> {
    let texts: Vec<Vec<u8>> = (1..=LONG_DAYS).map(good_long_day).collect();
    let mut tally = Tally::default();
    for text in &texts {
        let expected = output_of(text);
        tally.count_output(&expected);
        runner.check_same(&SUBJECTS, text, &expected)?;
    }
    let texts: Vec<&[u8]> = texts.iter().map(Vec::as_slice).collect();
    let medians = runner.measure(SUBJECTS, &texts, LONG_DAY_ROUNDS, 1)?;
    let times: Times =
        std::array::from_fn(|subject| medians.iter().map(|times| times[subject]).sum());
    let commands = tally.commands as f64;
    print_row(
        &format!("{LONG_DAYS} long days, commands a second"),
        times.map(|seconds| commands / seconds),
        times,
    );
    println!(
        "  ({commands} commands, {} accepted, {} trades)",
        tally.accepted, tally.trades
    );
    Ok(())
}

/// Reserves for both sides, and so many sells of one lot waiting at 200.
fn setup(waiting: usize) -> String {
    let reserves = "H,2,1,1\nS,0,1,1\nR,0,0,1000000000\nD,1,0,1000000000\n";
    [reserves, &"L,1,0,200,1,K\n".repeat(waiting)].concat()
}

fn bench_groups(runner: &mut Runner) -> Result<(), String> {
    let setup = format!("{}L,1,0,200,10000,K\n", setup(0));
    let group = format!("G,0,8\n{}", "M,B,0,200,1\n".repeat(8));
    let times = runner.measure_beyond(&setup, &group.repeat(GROUPS), 1)?;
    print_nanoseconds("group of 8, one trade each, ns", times, GROUPS);
    Ok(())
}

/// 64 buys and 64 sells whose lots never end together but once: 127 trades.
fn bench_session_end(runner: &mut Runner) -> Result<(), String> {
    let mut setup = format!("{}L,1,0,200,1,K\nB,0,0,200,1,K\nC\n", setup(0));
    for place in 0..64 {
        let lots = sell_lots(place, 64);
        setup.push_str(&format!("P,0,B,0,2\nP,1,L,0,{lots}\n"));
    }
    let times = runner.measure_beyond(&setup, "Z\n", END_REPEATS)?;
    print_nanoseconds("session's end, 128 orders, 127 trades, ns", times, 1);
    Ok(())
}

/// Against buys of 2 lots, the sells' lots end with a buy's at the last only.
fn sell_lots(place: usize, count: usize) -> usize {
    match place {
        0 => 1,
        _ if place == count - 1 => 3,
        _ => 2,
    }
}

/// 128 orders in one security and in 16. A day has one auction, so it is run
/// with all that comes before it; SHOW prints the orders that wait, as the end
/// does where the auction is left out.
fn bench_auctions(runner: &mut Runner) -> Result<(), String> {
    for securities in [1, 16] {
        let setup = collected(securities);
        let times = runner.measure_more(
            SCRIPT_SUBJECTS,
            script_output,
            &setup,
            "SHOW\nAUCTION\n",
            END_REPEATS,
        )?;
        let name = format!("auction, 128 orders, {securities} securities, ns");
        print_script_row(&name, times, 1);
    }
    Ok(())
}

/// As many buys as sells in each security, all of its prices different, and
/// each buy reaching each sell. Only the last trade empties two orders.
fn collected(securities: usize) -> String {
    let count = 64 / securities;
    let mut setup = format!("H,2,1,{securities}\n{}", "S,0,1,1\n".repeat(securities));
    setup.push_str("R,0,0,1000000000\n");
    for security in 0..securities {
        setup.push_str(&format!("D,1,{security},1000000000\n"));
    }
    setup.push_str("COLLECT\n");
    for place in 0..count {
        let (buy, sell, lots) = (300 - place, 100 + place, sell_lots(place, count));
        for security in 0..securities {
            setup.push_str(&format!("B,0,{security},{buy},2,K\n"));
            setup.push_str(&format!("L,1,{security},{sell},{lots},K\n"));
        }
    }
    setup
}

/// Offers that nobody meets, each cancelled, so that as many wait before the
/// next.
fn bench_offers(runner: &mut Runner) -> Result<(), String> {
    for waiting in [0, 32, 127] {
        let sells = "OFFER,1,L,0,200,1,500,7\n".repeat(waiting);
        let setup = [&setup(0), &sells[..]].concat();
        let offers: String = (1..=OFFERS)
            .map(|code| format!("OFFER,0,B,0,200,1,500,8\nX,0,{code}\n"))
            .collect();
        let times = runner.measure_more(SCRIPT_SUBJECTS, script_output, &setup, &offers, 1)?;
        let name = format!("offer and cancellation, {waiting} waiting, ns");
        print_script_row(&name, times, OFFERS);
    }
    Ok(())
}

/// On each day as many deals as can be open, which end on the next, so that the
/// end prints none. Closing and the new day are divided among them.
fn bench_deals(runner: &mut Runner) -> Result<(), String> {
    let setup = [&setup(0), "R,1,0,1000000000\n"].concat();
    let offers = "OFFER,1,L,0,200,1,500,1\nOFFER,0,B,0,200,1,500,1\n".repeat(DEAL_LIMIT);
    let second_parts = "SECOND,1\n".repeat(DEAL_LIMIT);
    let days: String = (1..=DEAL_DAYS)
        .map(|date| format!("{offers}C\nZ\nDAY,{date}\n{second_parts}"))
        .collect();
    let times = runner.measure_more(SCRIPT_SUBJECTS, script_output, &setup, &days, 1)?;
    let name = "offer, one that meets it, second part, ns";
    print_script_row(name, times, DEAL_DAYS * DEAL_LIMIT);
    Ok(())
}

fn print_nanoseconds(name: &str, times: Times, count: usize) {
    let nanoseconds = times.map(|seconds| seconds * 1e9 / count as f64);
    print_row(name, nanoseconds, times);
}

fn print_row(name: &str, shown: Times, times: Times) {
    let [proved, model, checked, model_asking] = shown;
    println!(
        "{name:42}{proved:12.0}{model:12.0}{:7.2}{checked:12.0}{model_asking:12.0}{:7.2}",
        times[0] / times[1],
        times[2] / times[3]
    );
}

/// Without the columns of what is known by proof.
fn print_script_row(name: &str, times: [f64; SCRIPT_SUBJECTS.len()], count: usize) {
    let [engine, model] = times.map(|seconds| seconds * 1e9 / count as f64);
    println!(
        "{name:42}{:31}{:12.0}{:12.0}{:7.2}",
        "",
        engine,
        model,
        engine / model
    );
}
