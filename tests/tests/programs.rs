//! The programs as they are run: their output closed or full, their help, and their exit codes.

use comparison::cases::named;
use comparison::history::Event;
use std::fs::File;
use std::path::PathBuf;
use std::process::{Command, Output, Stdio};

const PROGRAMS: [&str; 3] = [env!("CARGO_BIN_EXE_bench"), env!("CARGO_BIN_EXE_cases"), env!("CARGO_BIN_EXE_differ")];

/// A short run of each program, and of each of its ways to write.
const RUNS: [&str; 8] = [
    "bench --rounds 1",
    "bench --count 2 --calls 1",
    "bench --count read_out --calls 1 --on large",
    "bench --help",
    "cases",
    "cases --records",
    "differ --records 10",
    "differ --help",
];

/// A program with its arguments, which stand apart by spaces.
fn program(run: &str) -> Command {
    let mut words = run.split(' ');
    let name = words.next().expect("a program");
    let path = PROGRAMS.into_iter().find(|path| path.ends_with(&format!("/{name}"))).expect(name);
    let mut command = Command::new(path);
    command.args(words);
    command.stdin(Stdio::null());
    command
}

fn with_output(run: &str, output: impl Into<Stdio>) -> Output {
    program(run).stdout(output).output().expect(run)
}

/// The writing end of a pipe that nobody reads.
fn closed() -> Stdio {
    std::io::pipe().expect("a pipe").1.into()
}

fn errors(output: &Output) -> String {
    String::from_utf8_lossy(&output.stderr).into_owned()
}

fn printed(output: &Output) -> String {
    String::from_utf8_lossy(&output.stdout).into_owned()
}

#[test]
fn a_closed_output_ends_a_program_quietly() {
    for run in RUNS {
        let ended = with_output(run, closed());
        assert_eq!((ended.status.code(), errors(&ended).as_str()), (Some(2), ""), "{run}");
    }
}

#[test]
fn a_reader_that_goes_after_a_line_is_no_fault() {
    for run in RUNS {
        let mut child = program(run).stdout(Stdio::piped()).stderr(Stdio::piped()).spawn().expect(run);
        let mut byte = [0];
        let mut reader = child.stdout.take().expect("a pipe");
        std::io::Read::read_exact(&mut reader, &mut byte).expect("a byte");
        drop(reader);
        // Whether the program was done before the reader went is a matter of time.
        let ended = child.wait_with_output().expect(run);
        assert!(matches!(ended.status.code(), Some(0 | 2)), "{run}: {}", ended.status);
        assert_eq!(errors(&ended), "", "{run}");
    }
}

#[test]
fn a_full_output_is_told() {
    for run in RUNS {
        let name = run.split(' ').next().expect("a program");
        let ended = with_output(run, File::create("/dev/full").expect("a full device"));
        let told = format!("{name}: standard output: No space left on device (os error 28)\n");
        assert_eq!((ended.status.code(), errors(&ended)), (Some(2), told), "{run}");
    }
}

#[test]
fn closed_errors_change_no_exit_code() {
    for run in ["bench --bogus", "cases --bogus", "differ --bogus"] {
        let ended = program(run).stdout(closed()).stderr(closed()).status().expect(run);
        assert_eq!(ended.code(), Some(2), "{run}");
    }
}

fn fails(run: &str, code: i32, words: &str) {
    let ended = program(run).output().expect(run);
    assert_eq!((ended.status.code(), errors(&ended).as_str()), (Some(code), words), "{run}");
}

#[test]
fn a_bad_command_line_is_2() {
    fails(
        "bench --bogus",
        2,
        "bench: '--bogus' is not known; there are --rounds, --count, --calls, --of, --on and --help\n",
    );
    fails("bench --rounds", 2, "bench: --rounds lacks its value\n");
    fails("bench --rounds x", 2, "bench: --rounds x: not a number, or too large\n");
    let no_entry = |run: &str, entry: &str| {
        let on_small = "or, on the small card, convert or enlarge";
        fails(run, 2, &format!("bench: --count {entry}: not 1 to 8, 11, check or read_out, {on_small}\n"));
    };
    no_entry("bench --count 9", "9");
    no_entry("bench --on large --count enlarge", "enlarge");
    fails("bench --count 1 --on middle", 2, "bench: --on middle: not small or large\n");
    fails("bench --count 1 --of no", 2, "bench: --of: no such engine is linked\n");
    fails("cases --bogus", 2, "cases: '--bogus' is not known; there are --records, --fault and --help\n");
    fails("cases --fault", 2, "cases: either --records or --fault NAME can be given\n");
    fails("differ --damage 3", 2, "differ: --damage 3: not as in 3=0F,1109=01\n");
    fails("differ --replay no-such-file", 2, "differ: no-such-file: No such file or directory (os error 2)\n");
}

#[test]
fn a_difference_is_1() {
    let runs = [
        ("differ --fault grants-lost", "differ: the comparison failed\n"),
        ("cases --fault grants-lost", "cases: 9 cases failed\n"),
    ];
    for (run, words) in runs {
        let ended = program(run).output().expect(run);
        assert_eq!((ended.status.code(), errors(&ended).as_str()), (Some(1), words));
        assert!(printed(&ended).contains("FAILED: "), "{run}");
    }
}

/// A history over the changes of the rules, as `differ` prints one that fails and `cases --records` prints those of cases.
#[test]
fn a_history_over_the_changes_is_replayed() {
    let place = PathBuf::from(env!("CARGO_TARGET_TMPDIR"));
    let run = |name: &str, lines: &str, more: &[&str]| {
        let file = place.join(name);
        std::fs::write(&file, lines).expect("a file");
        program("differ --replay").arg(&file).args(more).output().expect("differ")
    };
    let text = |case: &str| named(case).history().iter().map(|event| event.to_text() + "\n").collect::<String>();
    let left_out = text("R-7: a card that provides 128 at the change");
    let gone_on = text("R-7: a card that holds 127 goes on over the change");
    for (name, lines, said) in [("left-out", &left_out, "0 gone on"), ("gone-on", &gone_on, "1 gone on")] {
        let ended = run(name, lines, &[]);
        assert_eq!((ended.status.code(), errors(&ended).as_str()), (Some(0), ""), "{name}: {}", printed(&ended));
        assert!(printed(&ended).contains(&format!("histories over changes of the rules: {said}")), "{name}");
    }
    let ended = run("left-out-fault", &left_out, &["--fault", "converts-128"]);
    let words = "FAILED: converts-128: converting 1094 bytes into 1110 gives 0 with 0, not 1 with 255\n";
    assert!(ended.status.code() == Some(1) && printed(&ended).ends_with(words), "{}", printed(&ended));
    let enlarged = text("R-9: a card goes on over the conversion, with its numbers");
    let ended = run("enlarged", &enlarged, &[]);
    assert_eq!((ended.status.code(), errors(&ended).as_str()), (Some(0), ""), "{}", printed(&ended));
    assert!(printed(&ended).contains("\non the large card\n"), "{}", printed(&ended));
    let ended = run("enlarged-fault", &enlarged, &["--fault", "enlarging-closes-up"]);
    let words = "FAILED: enlarging-closes-up: enlarging 1110 bytes into 3639 gives 0 with 0 and another byte 4\n";
    assert!(ended.status.code() == Some(1) && printed(&ended).ends_with(words), "{}", printed(&ended));
    let ended = run("enlarged-twice", "enlarge\nenlarge\n", &[]);
    let words = "FAILED: a card is enlarged once, by the rules in force\n";
    assert!(ended.status.code() == Some(1) && printed(&ended).ends_with(words), "{}", printed(&ended));
    let ended = run("bad-line", "00 00\nchanges\n", &[]);
    let bad = place.join("bad-line").display().to_string();
    let events = [Event::Change, Event::Enlarge].map(|event| event.to_text());
    let told = format!("differ: {bad}: line 2: not pairs of hexadecimal digits, '{}' or '{}'\n", events[0], events[1]);
    assert_eq!((ended.status.code(), errors(&ended)), (Some(1), told));
}

/// The proved engine is among those compared when its archive is linked.
#[test]
fn what_is_compared_is_said_first() {
    let engines = if cfg!(feature = "engine") { "bytes and engine" } else { "bytes" };
    for (run, rest) in [("cases", ""), ("differ --records 10", ", seed 455")] {
        let ended = program(run).output().expect(run);
        assert_eq!(printed(&ended).lines().next(), Some(format!("machine against {engines}{rest}").as_str()), "{run}");
    }
}
