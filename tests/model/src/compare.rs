//! The differential test: engine and model print the same, byte for byte, and
//! the book agrees with what each printed.

#[cfg(feature = "engine")]
use model::cases::cases;
use model::check::checked_output;
use model::printed::check_printed;
use model::tally::Tally;

use crate::difference::{failed, first_difference};
use crate::engine_under_test::{EngineUnderTest, Form};

#[cfg(feature = "engine")]
pub fn compare(first_seed: u64, count: u64) -> Result<(), String> {
    use model::level::DAY_FILE;

    let mut comparison = Comparison::<DAY_FILE>::new("compare", &[Form::Proved, Form::Checked]);
    let cases = cases()?;
    for case in &cases {
        let name = format!("case \"{}\"", case.name);
        comparison.compare_known(&name, &case.text, &case.expected)?;
    }
    comparison.compare_seeds(first_seed, count, model::generate::day_file)?;
    let Tally {
        files, commands, ..
    } = comparison.tally;
    println!("compare: {files} day files, {commands} commands, 0 differences");
    println!(
        "  besides {} cases of known output\n{}",
        cases.len(),
        comparison.tally
    );
    Ok(())
}

#[cfg(feature = "replay")]
pub fn compare_scripts(first_seed: u64, count: u64) -> Result<(), String> {
    use model::level::SCRIPT;

    let mut comparison = Comparison::<SCRIPT>::new("scripts", &[Form::Script]);
    comparison.compare_seeds(first_seed, count, model::generate::script)?;
    let Tally {
        files, commands, ..
    } = comparison.tally;
    println!("scripts: {files} scripts, {commands} commands, 0 differences");
    println!("{}", comparison.tally);
    Ok(())
}

/// Runs texts of one level through the forms of the engine that take it.
struct Comparison<const LEVEL: u8> {
    name: &'static str,
    forms: &'static [Form],
    engine: EngineUnderTest,
    tally: Tally,
}

impl<const LEVEL: u8> Comparison<LEVEL> {
    fn new(name: &'static str, forms: &'static [Form]) -> Self {
        Comparison {
            name,
            forms,
            engine: EngineUnderTest::new(),
            tally: Tally::default(),
        }
    }

    fn compare_seeds(
        &mut self,
        first_seed: u64,
        count: u64,
        text: fn(u64) -> Vec<u8>,
    ) -> Result<(), String> {
        for seed in first_seed..first_seed.saturating_add(count) {
            let (name, text) = (format!("seed {seed}"), text(seed));
            let expected = checked_output::<LEVEL>(&text, &mut self.tally)
                .map_err(|fault| failed(self.name, &name, &fault, &text))?;
            self.compare_known(&name, &text, &expected)?;
        }
        Ok(())
    }

    /// A text whose output is known.
    fn compare_known(&mut self, name: &str, text: &[u8], expected: &[u8]) -> Result<(), String> {
        for &form in self.forms {
            compare_form::<LEVEL>(&mut self.engine, form, text, expected)
                .map_err(|fault| failed(self.name, name, &format!("{form}: {fault}"), text))?;
        }
        Ok(())
    }
}

fn compare_form<const LEVEL: u8>(
    engine: &mut EngineUnderTest,
    form: Form,
    text: &[u8],
    expected: &[u8],
) -> Result<(), String> {
    let output = engine.output_of(form, text)?;
    let booked = check_printed::<LEVEL>(text, output);
    if output != expected {
        let difference = first_difference(output, expected);
        let book = booked.err().unwrap_or("agrees".into());
        return Err(format!("{difference}\n  book on engine: {book}"));
    }
    booked.map_err(|fault| format!("book and output differ: {fault}"))
}
