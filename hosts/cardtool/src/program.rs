//! What the programs share: their arguments, what they print, and how they end. A program whose output is closed
//! ends without a panic.

use std::fmt::{Arguments, Display};
use std::io::{stderr, stdout, ErrorKind, IsTerminal, Write};
use std::process::{exit, ExitCode};
use std::str::FromStr;
use std::time::{Duration, Instant};

/// Why a program ends with another code than 0.
#[derive(Debug, PartialEq, Eq)]
pub struct Failure {
    pub code: u8,
    pub words: String,
    /// What goes to standard output all the same, before the words.
    pub output: Vec<u8>,
}

/// The input is bad, or what was tried failed.
pub const BAD_INPUT: u8 = 1;
/// The command line is bad, or a file cannot be read or written.
pub const BAD_USE: u8 = 2;

impl Failure {
    pub fn failed(words: impl Into<String>) -> Failure {
        Failure { code: BAD_INPUT, words: words.into(), output: Vec::new() }
    }

    pub fn bad_use(words: impl Into<String>) -> Failure {
        Failure { code: BAD_USE, words: words.into(), output: Vec::new() }
    }

    /// A file, or what stands in for one, that cannot be read or written.
    pub fn of_file(file: impl Display, error: std::io::Error) -> Failure {
        Failure::bad_use(format!("{file}: {error}"))
    }
}

/// Runs a program with its arguments, without its own name.
pub fn run(does: impl FnOnce(&[String]) -> Result<(), Failure>) -> ExitCode {
    match arguments().and_then(|arguments| does(&arguments)) {
        Ok(()) => ExitCode::SUCCESS,
        Err(failure) => {
            write(&failure.output);
            complain(&failure.words);
            ExitCode::from(failure.code)
        }
    }
}

/// Runs a program that prints its help when that is asked for.
pub fn run_or_help(help: &str, does: impl FnOnce(&[String]) -> Result<(), Failure>) -> ExitCode {
    run(|arguments| match asks_help(arguments) {
        true => {
            write(help.as_bytes());
            Ok(())
        }
        false => does(arguments),
    })
}

fn arguments() -> Result<Vec<String>, Failure> {
    let given = std::env::args_os().skip(1).map(|argument| argument.into_string());
    given.collect::<Result<_, _>>().map_err(|argument| Failure::bad_use(format!("{argument:?} is not text in UTF-8")))
}

/// Whether the arguments ask for help.
pub fn asks_help(arguments: &[String]) -> bool {
    arguments.iter().any(|argument| argument == "--help" || argument == "-h")
}

/// Each option with its value. Every option has one.
pub fn options<'a>(arguments: &'a [String], known: &[&str]) -> Result<Vec<(&'a str, &'a str)>, Failure> {
    let pairs = arguments.chunks(2).map(|pair| match (pair[0].as_str(), pair.get(1)) {
        (name, _) if !known.contains(&name) => Err(not_known(name, known)),
        (name, None) => Err(Failure::bad_use(format!("{name} lacks its value"))),
        (name, Some(value)) => Ok((name, value.as_str())),
    });
    pairs.collect()
}

/// A name that is none of those known.
pub fn not_known(name: &str, known: &[&str]) -> Failure {
    Failure::bad_use(format!("'{name}' is not known; there are {} and --help", known.join(", ")))
}

/// The number that an option has.
pub fn number<N: FromStr>(name: &str, value: &str) -> Result<N, Failure> {
    value.parse().map_err(|_| Failure::bad_use(format!("{name} {value}: not a number, or too large")))
}

/// Prints to standard output, as `print!` does.
#[macro_export]
macro_rules! say {
    ($($words:tt)*) => { $crate::program::print(format_args!($($words)*)) };
}

/// Prints a line to standard output, as `println!` does.
#[macro_export]
macro_rules! say_line {
    ($($words:tt)*) => { $crate::program::print(format_args!("{}\n", format_args!($($words)*))) };
}

pub fn print(words: Arguments) {
    write(words.to_string().as_bytes());
}

/// Writes the bytes to standard output. Where it does not take them the program ends: quietly when its reader has
/// gone, as `head` goes after its lines, else with the reason.
pub fn write(bytes: &[u8]) {
    let mut output = stdout().lock();
    let Err(error) = output.write_all(bytes).and_then(|()| output.flush()) else { return };
    if error.kind() != ErrorKind::BrokenPipe {
        complain(&Failure::of_file("standard output", error).words);
    }
    exit(BAD_USE.into())
}

/// How far a long work is, on standard error, where that is a terminal and the work takes its time.
pub struct Progress {
    what: &'static str,
    total: usize,
    next: Instant,
    shown: bool,
    terminal: bool,
}

impl Progress {
    const PAUSE: Duration = Duration::from_millis(200);

    pub fn new(what: &'static str, total: usize) -> Progress {
        Progress { what, total, next: Instant::now() + Progress::PAUSE, shown: false, terminal: stderr().is_terminal() }
    }

    /// So much is done.
    pub fn at(&mut self, done: usize) {
        if self.terminal && Instant::now() >= self.next {
            let _ = write!(stderr(), "\r{}", self.words(done));
            (self.next, self.shown) = (Instant::now() + Progress::PAUSE, true);
        }
    }

    fn words(&self, done: usize) -> String {
        format!("{}: {done} of {} ({}%)", self.what, self.total, 100 * done / self.total.max(1))
    }
}

impl Drop for Progress {
    /// What is printed next begins on a clear line.
    fn drop(&mut self) {
        if self.shown {
            let _ = write!(stderr(), "\r{:1$}\r", "", self.words(self.total).len());
        }
    }
}

/// Each line of the words on standard error, after the program's name. Where nobody reads them they are lost.
fn complain(words: &str) {
    let path = std::env::args_os().next().unwrap_or_default();
    let program = std::path::Path::new(&path).file_name().unwrap_or_default().display().to_string();
    let lines: String = words.lines().map(|line| format!("{program}: {line}\n")).collect();
    let _ = stderr().write_all(lines.as_bytes());
}
