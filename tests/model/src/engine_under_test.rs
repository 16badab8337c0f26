//! The proved engine's programs, linked as static libraries.

use std::fmt;

const OUTPUT_LIMIT: usize = 4 << 20;

#[cfg(feature = "engine")]
#[link(name = "exports", kind = "static")]
extern "C" {
    fn run_day(text: *const u8, text_length: usize, output: *mut u8, output_length: usize)
        -> usize;

    fn run_day_checked(
        text: *const u8,
        text_length: usize,
        output: *mut u8,
        output_length: usize,
    ) -> usize;
}

#[cfg(feature = "replay")]
#[link(name = "script", kind = "static")]
extern "C" {
    fn run_script(
        text: *const u8,
        text_length: usize,
        output: *mut u8,
        output_length: usize,
    ) -> usize;
}

/// Of a day file, the soundness of each call's state is known by proof, or
/// tested at run time before the call. A script runs through the public calls.
#[derive(Clone, Copy)]
pub enum Form {
    #[cfg(feature = "engine")]
    Proved,
    #[cfg(feature = "engine")]
    Checked,
    #[cfg(feature = "replay")]
    Script,
}

impl fmt::Display for Form {
    fn fmt(&self, out: &mut fmt::Formatter) -> fmt::Result {
        out.write_str(match self {
            #[cfg(feature = "engine")]
            Form::Proved => "run_day",
            #[cfg(feature = "engine")]
            Form::Checked => "run_day_checked",
            #[cfg(feature = "replay")]
            Form::Script => "run_script",
        })
    }
}

/// Lends one buffer to all runs, without clearing it between them.
pub struct EngineUnderTest {
    output: Vec<u8>,
}

impl EngineUnderTest {
    pub fn new() -> EngineUnderTest {
        EngineUnderTest {
            output: vec![0; OUTPUT_LIMIT],
        }
    }

    /// The whole output of a text.
    pub fn output_of(&mut self, form: Form, text: &[u8]) -> Result<&[u8], String> {
        let run = match form {
            #[cfg(feature = "engine")]
            Form::Proved => run_day,
            #[cfg(feature = "engine")]
            Form::Checked => run_day_checked,
            #[cfg(feature = "replay")]
            Form::Script => run_script,
        };
        let output = &mut self.output;
        // SAFETY: both slices are valid for the lengths handed over, and the
        // text isn't changed while it is lent.
        let length = unsafe { run(text.as_ptr(), text.len(), output.as_mut_ptr(), output.len()) };
        output
            .get(..length)
            .ok_or_else(|| format!("{form} answers a length of {length}, beyond the lent buffer"))
    }
}
