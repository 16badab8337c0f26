//! Day files and scripts whose output was reasoned by hand from the scope
//! paper: its worked example, its edges, and each settled reading of the day
//! file. The crates `day_cases` and `script_cases` keep them, so that the
//! proved programs run them too.

use std::fmt::Display;
use std::fs;
use std::path::{Path, PathBuf};

use crate::book::{expect, Checked};

pub struct Case {
    pub name: String,
    pub text: Vec<u8>,
    pub expected: Vec<u8>,
}

/// The day files.
pub fn cases() -> Result<Vec<Case>, String> {
    stored("day_cases")
}

/// The scripts.
pub fn script_cases() -> Result<Vec<Case>, String> {
    stored("script_cases")
}

/// The cases of a crate in the order of its program's arguments, at least one.
fn stored(name: &str) -> Result<Vec<Case>, String> {
    let folder = folder(name);
    let arguments = text_of(&folder.join("args"))?;
    let output = text_of(&folder.join("stdout"))?;
    let names: Vec<&str> = arguments.lines().collect();
    let outputs = outputs(&output)?;
    expect(!names.is_empty(), || "args names no file".into())?;
    expect(names.len() == outputs.len(), || {
        "args and stdout name different numbers of files".into()
    })?;
    let data = folder.join("data");
    check_all_named(&data, &names)?;
    let pairs = names.iter().zip(outputs);
    pairs
        .map(|(name, output)| case(&data, name, output))
        .collect()
}

fn folder(name: &str) -> PathBuf {
    Path::new(env!("CARGO_MANIFEST_DIR"))
        .join("../../crates")
        .join(name)
}

/// Each name with what its text prints. No line that is printed holds the mark
/// before a name.
fn outputs(output: &str) -> Result<Vec<&str>, String> {
    let mut parts = output.split("# ");
    expect(parts.next() == Some(""), || {
        "stdout begins with no name".into()
    })?;
    Ok(parts.collect())
}

/// A file that the arguments leave out would never be run.
fn check_all_named(data: &Path, names: &[&str]) -> Checked {
    for entry in fs::read_dir(data).map_err(|fault| at(data, fault))? {
        let stored = entry.map_err(|fault| at(data, fault))?.file_name();
        expect(names.iter().any(|name| stored == *name), || {
            at(&data.join(&stored), "args doesn't name it")
        })?;
    }
    Ok(())
}

fn case(data: &Path, name: &str, output: &str) -> Result<Case, String> {
    let expected = output
        .strip_prefix(name)
        .and_then(|rest| rest.strip_prefix('\n'))
        .ok_or_else(|| format!("{name} is not next in stdout"))?;
    let path = data.join(name);
    Ok(Case {
        name: name.into(),
        text: fs::read(&path).map_err(|fault| at(&path, fault))?,
        expected: expected.into(),
    })
}

fn text_of(path: &Path) -> Result<String, String> {
    fs::read_to_string(path).map_err(|fault| at(path, fault))
}

fn at(path: &Path, fault: impl Display) -> String {
    format!("{}: {fault}", path.display())
}
