//! What real streams seldom do: a call that is interrupted, and minutes in which
//! nothing moves.

use std::fs;
use std::io::Write;
use std::path::PathBuf;
use std::process::{Command, Stdio};

use super::running::{command, temporary};

/// A library that stands between a program and the C library.
pub struct Interposed(PathBuf);

impl Interposed {
    pub fn new() -> Result<Self, String> {
        let path = temporary("so");
        let mut compiler = Command::new("cc")
            .args(["-shared", "-fPIC", "-x", "c", "-o"])
            .arg(&path)
            .arg("-")
            .stdin(Stdio::piped())
            .spawn()
            .map_err(|fault| format!("cc: {fault}"))?;
        let mut source = compiler.stdin.take().ok_or("cc: no standard input")?;
        source
            .write_all(include_bytes!("interposed.c"))
            .map_err(|fault| format!("cc: {fault}"))?;
        drop(source);
        match compiler.wait() {
            Ok(status) if status.success() => Ok(Self(path)),
            _ => Err("cc failed".into()),
        }
    }

    pub fn command(&self, path: &str, from: impl Into<Stdio>, to: impl Into<Stdio>) -> Command {
        let mut command = command(path, from, to);
        command.env("LD_PRELOAD", &self.0);
        command
    }
}

impl Drop for Interposed {
    fn drop(&mut self) {
        // A file that is gone already needs no removal.
        let _ = fs::remove_file(&self.0);
    }
}
