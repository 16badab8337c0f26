//! How an output differs from the model's, and the text that shows it.

use std::env;
use std::fs;

pub fn first_difference(output: &[u8], expected: &[u8]) -> String {
    let mut engine_lines = output.split(|&byte| byte == b'\n');
    let mut model_lines = expected.split(|&byte| byte == b'\n');
    for line in 1.. {
        match (engine_lines.next(), model_lines.next()) {
            (None, None) => break,
            (engine, model) if engine != model => {
                let (engine, model) = (shown(engine), shown(model));
                return format!("output line {line}\n  engine {engine}\n  model  {model}");
            }
            _ => {}
        }
    }
    "no difference".into()
}

fn shown(line: Option<&[u8]>) -> String {
    line.map_or("(none)".into(), |line| {
        format!("\"{}\"", line.escape_ascii())
    })
}

/// Keeps the text, so that the difference can be looked into.
pub fn failed(test: &str, name: &str, fault: &str, text: &[u8]) -> String {
    let plain_name = name.replace(|letter: char| !letter.is_ascii_alphanumeric(), "-");
    let path = env::temp_dir().join(format!("{test}-{plain_name}.txt"));
    let kept = match fs::write(&path, text) {
        Ok(()) => format!("text: {}", path.display()),
        Err(fault) => format!("text not written: {fault}"),
    };
    format!("{test}: {name}: {fault}\n  {kept}")
}
