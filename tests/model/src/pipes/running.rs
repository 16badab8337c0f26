//! A run of the program between pipes: its start and end, readers and writers
//! of several tempers, and the time it computes.

use std::fs::{self, File};
use std::io::{self, PipeReader, PipeWriter, Read, Write};
use std::os::fd::AsRawFd;
use std::path::PathBuf;
use std::process::{Child, Command, ExitStatus, Stdio};
use std::thread;
use std::time::{Duration, Instant};

/// A program that takes longer hangs.
const PATIENCE: Duration = Duration::from_secs(15);
/// Longer than a pause of the program, so that it has to wait several times.
const MOMENT: Duration = Duration::from_millis(20);
/// How long a stream moves nothing at first, and the most hundredths of a
/// second that the program may compute meanwhile: waiting busily takes 50.
const LONG_MOMENT: Duration = Duration::from_millis(500);
const MOST_TICKS: u64 = 10;

const GET_FLAGS: i32 = 3;
const SET_FLAGS: i32 = 4;
const NON_BLOCKING: i32 = 0o4000;

extern "C" {
    fn fcntl(file: i32, command: i32, ...) -> i32;
}

pub type Outcome = Result<(), String>;

/// What a run left: its status, what it printed and what it said.
pub struct Ended {
    pub status: ExitStatus,
    pub output: Vec<u8>,
    pub errors: String,
}

pub fn command(path: &str, from: impl Into<Stdio>, to: impl Into<Stdio>) -> Command {
    let mut command = Command::new(path);
    command.stdin(from).stdout(to).stderr(Stdio::piped());
    command
}

/// The command's own ends of the pipes are closed with it.
pub fn spawn(mut command: Command) -> Result<Child, String> {
    command.spawn().map_err(|fault| fault.to_string())
}

pub fn start(path: &str, from: impl Into<Stdio>, to: impl Into<Stdio>) -> Result<Child, String> {
    spawn(command(path, from, to))
}

pub type Reading = thread::JoinHandle<io::Result<Vec<u8>>>;

pub fn ended(mut program: Child, reading: Reading) -> Result<Ended, String> {
    let begun = Instant::now();
    let status = loop {
        if let Some(status) = program.try_wait().map_err(|fault| fault.to_string())? {
            break status;
        }
        if begun.elapsed() > PATIENCE {
            program.kill().map_err(|fault| fault.to_string())?;
            program.wait().map_err(|fault| fault.to_string())?;
            return Err("hangs".into());
        }
        thread::sleep(Duration::from_millis(2));
    };
    let mut errors = String::new();
    let mut said = program.stderr.take().ok_or("no standard error")?;
    said.read_to_string(&mut errors)
        .map_err(|fault| fault.to_string())?;
    let output = reading.join().map_err(|_| "the reader failed")?;
    Ok(Ended {
        status,
        output: output.map_err(|fault| fault.to_string())?,
        errors,
    })
}

pub fn at_once(mut from: PipeReader) -> Reading {
    thread::spawn(move || {
        let mut output = Vec::new();
        from.read_to_end(&mut output)?;
        Ok(output)
    })
}

/// Lets the pipe run full before each read.
pub fn slowly(mut from: PipeReader) -> Reading {
    thread::spawn(move || {
        let mut output = Vec::new();
        let mut part = vec![0; 50_000];
        loop {
            thread::sleep(MOMENT);
            match from.read(&mut part)? {
                0 => return Ok(output),
                count => output.extend_from_slice(&part[..count]),
            }
        }
    })
}

pub fn some_and_close(mut from: PipeReader) -> Reading {
    thread::spawn(move || {
        let mut output = vec![0; 100_000];
        from.read_exact(&mut output)?;
        Ok(output)
    })
}

pub fn nothing() -> Reading {
    thread::spawn(|| Ok(Vec::new()))
}

/// In parts that end within lines, a moment apart.
pub fn feed(mut to: PipeWriter, text: &[u8]) -> thread::JoinHandle<Outcome> {
    let text = text.to_vec();
    thread::spawn(move || {
        for part in text.chunks(10_007) {
            to.write_all(part).map_err(|fault| fault.to_string())?;
            thread::sleep(MOMENT);
        }
        Ok(())
    })
}

/// Standard input from a file, with no pipe that could make the program wait.
pub fn from_text(text: &[u8]) -> Result<File, String> {
    let path = temporary("day");
    let file = fs::write(&path, text).and_then(|()| File::open(&path));
    let gone = fs::remove_file(&path);
    file.and_then(|file| gone.map(|()| file))
        .map_err(|fault| format!("{}: {fault}", path.display()))
}

pub fn temporary(ending: &str) -> PathBuf {
    std::env::temp_dir().join(format!("pipes-{}.{ending}", std::process::id()))
}

pub fn pipe() -> Result<(PipeReader, PipeWriter), String> {
    io::pipe().map_err(|fault| fault.to_string())
}

/// The flag belongs to the end of the pipe, so the program gets it so.
pub fn set_non_blocking(end: &impl AsRawFd) -> Outcome {
    let file = end.as_raw_fd();
    // SAFETY: the descriptor is open, and flags are numbers.
    let answer = unsafe {
        let flags = fcntl(file, GET_FLAGS);
        fcntl(file, SET_FLAGS, flags | NON_BLOCKING)
    };
    match answer {
        0 => Ok(()),
        _ => Err(io::Error::last_os_error().to_string()),
    }
}

/// While nothing moves the program lives and uses next to no processor.
pub fn idle_while_waiting(program: &Child) -> Outcome {
    thread::sleep(Duration::from_millis(100));
    let before = ticks(program)?;
    thread::sleep(LONG_MOMENT);
    let used = ticks(program)? - before;
    if used > MOST_TICKS {
        return Err(format!("computed {used} ticks while waiting"));
    }
    Ok(())
}

/// Hundredths of a second of processor time, or why there are none.
fn ticks(program: &Child) -> Result<u64, String> {
    let path = format!("/proc/{}/stat", program.id());
    let line = fs::read_to_string(&path).map_err(|fault| format!("{path}: {fault}"))?;
    let after_name = line.rsplit(") ").next().unwrap_or_default();
    let fields: Vec<&str> = after_name.split(' ').collect();
    if fields.first() == Some(&"Z") {
        return Err("ended while it should wait".into());
    }
    let number = |place: usize| {
        fields
            .get(place)
            .and_then(|field| field.parse::<u64>().ok())
    };
    match (number(11), number(12)) {
        (Some(user), Some(system)) => Ok(user + system),
        _ => Err(format!("{path}: no times")),
    }
}
