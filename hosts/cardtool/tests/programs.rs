//! The program as it is run: its output closed or full, a terminal, and its exit codes.

use std::fs::File;
use std::path::PathBuf;
use std::process::{Command, Output, Stdio};

/// A short run of each way to write.
const RUNS: [&str; 4] =
    ["--help", "encode examples/club.txt", "encode --raw examples/club.txt", "judge --json examples/club.txt"];

/// The program with its arguments, which stand apart by spaces, in the repository.
fn program(run: &str) -> Command {
    let mut command = Command::new(env!("CARGO_BIN_EXE_cardtool"));
    command.args(run.split(' ').filter(|word| !word.is_empty())).stdin(Stdio::null());
    command.current_dir(PathBuf::from(env!("CARGO_MANIFEST_DIR")).join("../.."));
    command
}

fn with_output(run: &str, output: impl Into<Stdio>) -> Output {
    program(run).stdout(output).output().expect(run)
}

/// The writing end of a pipe that nobody reads.
fn closed() -> Stdio {
    std::io::pipe().expect("a pipe").1.into()
}

fn errors(output: &Output) -> String {
    String::from_utf8_lossy(&output.stderr).into_owned()
}

#[test]
fn a_closed_output_ends_the_program_quietly() {
    for run in RUNS {
        let ended = with_output(run, closed());
        assert_eq!((ended.status.code(), errors(&ended).as_str()), (Some(2), ""), "{run}");
    }
}

#[test]
fn a_full_output_is_told() {
    for run in RUNS {
        let ended = with_output(run, File::create("/dev/full").expect("a full device"));
        let told = "cardtool: standard output: No space left on device (os error 28)\n".to_string();
        assert_eq!((ended.status.code(), errors(&ended)), (Some(2), told), "{run}");
    }
}

#[test]
fn closed_errors_change_no_exit_code() {
    let ended = program("bogus").stdout(closed()).stderr(closed()).status().expect("cardtool");
    assert_eq!(ended.code(), Some(2));
}

#[test]
fn a_file_that_cannot_be_written_is_told() {
    let ended = program("judge examples/club.txt --save /dev/full").output().expect("cardtool");
    let told = "cardtool: /dev/full: No space left on device (os error 28)\n".to_string();
    assert_eq!((ended.status.code(), errors(&ended)), (Some(2), told));
}

#[cfg(unix)]
#[test]
fn an_argument_that_is_no_text_is_told() {
    use std::ffi::OsStr;
    use std::os::unix::ffi::OsStrExt;
    let ended = program("show").arg(OsStr::from_bytes(b"a\xFF")).output().expect("cardtool");
    let told = "cardtool: \"a\\xFF\" is not text in UTF-8\n";
    assert_eq!((ended.status.code(), errors(&ended).as_str()), (Some(2), told));
}

/// What is printed comes first, then on standard error why the program fails.
#[test]
fn a_failure_with_something_to_print() {
    let text = "load F000000001\nexpect refused\n";
    let file = PathBuf::from(env!("CARGO_TARGET_TMPDIR")).join("unexpected.txt");
    std::fs::write(&file, text).expect("a file");
    let ended = program("judge").arg(&file).output().expect("cardtool");
    assert_eq!((ended.status.code(), errors(&ended).as_str()), (Some(1), "cardtool: 1 answer was not as expected\n"));
    let printed = String::from_utf8_lossy(&ended.stdout).into_owned();
    assert!(
        printed.contains("1 load F000000001: accepted, package 0\n    line 2: expected refused: FAILED\n"),
        "{printed}"
    );
}

/// Long work shows its progress on a terminal, and clears it; into a file nothing of it goes.
#[test]
fn progress_is_shown_on_a_terminal_alone() {
    let file = PathBuf::from(env!("CARGO_TARGET_TMPDIR")).join("long.txt");
    let turn = "load F000000001\nunload F000000001\n";
    std::fs::write(&file, turn.repeat(10_000)).expect("a file");
    let ended = program("judge --out /dev/null").arg(&file).output().expect("cardtool");
    assert_eq!((ended.status.code(), errors(&ended).as_str()), (Some(0), ""));
    // `script` gives the program a terminal.
    let run = format!("{} judge --out /dev/null {}", env!("CARGO_BIN_EXE_cardtool"), file.display());
    let ended = Command::new("script").args(["-qec", &run, "/dev/null"]).stdin(Stdio::null()).output().expect("script");
    let shown = String::from_utf8_lossy(&ended.stdout).into_owned();
    assert!(shown.starts_with("\rjudging: ") && shown.contains(" of 20000 (") && shown.ends_with(" \r"), "{shown:?}");
}
