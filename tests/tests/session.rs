//! The session program, as it is built, prints for every stream what the second engine says, however its input comes;
//! and it ends whatever becomes of its input and output.
#![cfg(feature = "engine")]

use comparison::random::Random;
use comparison::session::streams::{edges, histories, history, paper, Stream};
use comparison::session::{frames, transcript};
use std::io::{self, BufRead, BufReader, Read, Write};
use std::path::{Path, PathBuf};
use std::process::{Child, ChildStdin, ChildStdout, Command, ExitStatus, Stdio};
use std::sync::mpsc::{sync_channel, Receiver};
use std::thread;
use std::time::{Duration, Instant};

/// A program that takes longer than this for anything hangs.
const LIMIT: Duration = Duration::from_secs(20);

fn path() -> PathBuf {
    let built = || Path::new(env!("CARGO_MANIFEST_DIR")).join("../target/bin/session");
    let path = std::env::var_os("SESSION_PROGRAM").map_or_else(built, PathBuf::from);
    let absent = format!("{} is not there: `tools/session` builds it, SESSION_PROGRAM names another", path.display());
    path.canonicalize().expect(&absent)
}

fn session() -> Command {
    Command::new(path())
}

/// A shell's command, in which `"$0"` is the program.
fn in_shell(command: &str) -> Command {
    let mut shell = Command::new("sh");
    shell.args(["-c", command]).arg(path());
    shell
}

/// A program that runs, and is killed when nobody waits for it any longer.
struct Running(Child);

impl Drop for Running {
    fn drop(&mut self) {
        let _ = self.0.kill();
        let _ = self.0.wait();
    }
}

impl Running {
    /// Starts a program, with a pipe to it and one from it.
    fn start(mut command: Command) -> (Running, ChildStdin, ChildStdout) {
        let mut child = command.stdin(Stdio::piped()).stdout(Stdio::piped()).spawn().expect("a program");
        let (input, output) = (child.stdin.take().expect("a pipe"), child.stdout.take().expect("a pipe"));
        (Running(child), input, output)
    }

    /// How it ends, within the limit.
    fn ended(mut self, limit: Duration) -> Result<ExitStatus, String> {
        let start = Instant::now();
        while start.elapsed() < limit {
            if let Some(status) = self.0.try_wait().expect("a child") {
                return Ok(status);
            }
            thread::sleep(Duration::from_micros(200));
        }
        Err(format!("runs for more than {limit:?}"))
    }
}

/// The lines that come out of a pipe, which is closed when nobody waits for them any longer.
fn lines(output: ChildStdout) -> Receiver<String> {
    let (line_sent, lines) = sync_channel(0);
    let send = move |line: io::Result<String>| line_sent.send(line.expect("text") + "\n");
    thread::spawn(|| BufReader::new(output).lines().try_for_each(send));
    lines
}

/// An input, written piece by piece, with a pause after each.
struct Delivery<'a> {
    pieces: Vec<&'a [u8]>,
    pause: Duration,
}

fn whole(input: &[u8]) -> Delivery<'_> {
    Delivery { pieces: vec![input], pause: Duration::ZERO }
}

/// Pieces of random sizes up to the largest.
fn in_pieces(input: &[u8], seed: u64, largest: usize, pause: Duration) -> Delivery<'_> {
    let (mut random, mut left, mut pieces) = (Random::new(seed), input, Vec::new());
    while !left.is_empty() {
        let (piece, rest) = left.split_at(random.between(1, largest).min(left.len()));
        pieces.push(piece);
        left = rest;
    }
    Delivery { pieces, pause }
}

impl Delivery<'_> {
    fn write_to(self, mut input: ChildStdin) -> io::Result<()> {
        self.pieces.into_iter().try_for_each(|piece| {
            input.write_all(piece)?;
            thread::sleep(self.pause);
            Ok(())
        })
    }
}

/// All that a program prints for an input, if it ends well within the limit.
fn printed(command: Command, delivery: Delivery, limit: Duration) -> Result<String, String> {
    let (running, input, mut output) = Running::start(command);
    thread::scope(|scope| {
        // A bad frame ends the run before all is read, so a closed pipe is no fault.
        scope.spawn(|| delivery.write_to(input));
        let all = scope.spawn(move || {
            let mut bytes = Vec::new();
            output.read_to_end(&mut bytes).map(|_| bytes)
        });
        let status = running.ended(limit)?;
        let bytes = all.join().expect("a thread").expect("a pipe");
        match status.success() {
            true => String::from_utf8(bytes).map_err(|error| error.to_string()),
            false => Err(format!("ends with {status}")),
        }
    })
}

/// What is wrong with a run: the first line that is not as expected, or how it ended.
fn difference(expected: &str, printed: Result<String, String>) -> Option<String> {
    let printed = match printed {
        Ok(printed) => printed,
        Err(words) => return Some(words),
    };
    let (mut right, mut given) = (expected.split_inclusive('\n'), printed.split_inclusive('\n'));
    loop {
        match (right.next(), given.next()) {
            (None, None) => return None,
            (right, given) if right == given => {}
            (right, given) => return Some(format!("prints {given:?}, and {right:?} is expected")),
        }
    }
}

fn prints(expected: &str, name: &str, printed: Result<String, String>) {
    if let Some(words) = difference(expected, printed) {
        panic!("{name}: {words}");
    }
}

fn all_alike(streams: Vec<Stream>) {
    for Stream { name, input } in streams {
        prints(&transcript(&input), &name, printed(session(), whole(&input), LIMIT));
    }
}

#[test]
fn the_papers_four_lines() {
    prints("1 1 0 0\n2 1 8 -\n3 1 0 1\n4 2 9 -\n", "paper", printed(session(), whole(&paper().concat()), LIMIT));
}

#[test]
fn every_edge_is_alike() {
    all_alike(edges());
}

#[test]
fn random_histories_are_alike() {
    let streams = histories();
    let records: usize = streams.iter().map(|stream| frames(&stream.input).records.len()).sum();
    assert!(records > 10_000, "{records}");
    all_alike(streams);
}

#[test]
fn input_may_come_in_pieces() {
    let alike = |name: &str, input: &[u8], seed, largest, pause: u64| {
        let pieces = in_pieces(input, seed, largest, Duration::from_micros(pause));
        prints(&transcript(input), name, printed(session(), pieces, LIMIT));
    };
    let four = paper().concat();
    alike("the paper's, a byte a time", &four, 0, 1, 1000);
    alike("the paper's and a byte more, a byte a time", &[&four[..], &[0]].concat(), 0, 1, 1000);
    alike("the paper's but for the last byte, a byte a time", &four[..four.len() - 1], 0, 1, 1000);
    for seed in 1..=4 {
        let Stream { name, input } = history(seed, true);
        alike(&format!("{name}, a byte a time"), &input[..input.len() / 8], seed, 1, 0);
        alike(&format!("{name}, in small pieces"), &input[..input.len() / 8], seed, 9, 50);
        alike(&format!("{name}, in pieces"), &input, seed, 300, 50);
        alike(&format!("{name}, in large pieces"), &input, seed, 9_000, 1000);
    }
}

#[test]
fn input_may_be_a_file() {
    let Stream { name, input } = history(5, true);
    let mut command = in_shell("exec \"$0\" <stream");
    command.current_dir(env!("CARGO_TARGET_TMPDIR"));
    std::fs::write(Path::new(env!("CARGO_TARGET_TMPDIR")).join("stream"), &input).expect("a file");
    prints(&transcript(&input), &name, printed(command, whole(&[]), LIMIT));
}

/// Each line is there before the next record is written, and a bad length ends the run though input could still come.
#[test]
fn a_line_comes_at_once() {
    let open: [&[u8]; 4] = [&[0, 0], &[0, 3], &[0x10, 0x32], &[0xFF, 0xFF]];
    let closed: [&[u8]; 4] = [&[], &[0], &[0, 24], &[0, 24, 1, 1]];
    for (seed, end) in (1..).zip(open.into_iter().chain(closed)) {
        let input = [&history(seed, true).input, end].concat();
        let mut expected = frames(&input).lines().expect("no difference").into_iter();
        let (running, mut pipe, output) = Running::start(session());
        let lines = lines(output);
        for record in frames(&input).records {
            pipe.write_all(record).expect("a reader");
            assert_eq!(lines.recv_timeout(LIMIT).ok(), expected.next(), "seed {seed}");
        }
        pipe.write_all(end).expect("a reader");
        // With a bad length the input stays open; else it ends here.
        let pipe = open.contains(&end).then_some(pipe);
        assert_eq!(lines.recv_timeout(LIMIT).ok(), expected.next(), "seed {seed}");
        let status = running.ended(LIMIT).expect("an end");
        assert!(status.success() && lines.recv().is_err() && expected.next().is_none(), "seed {seed}: {status}");
        drop(pipe);
    }
}

/// A reader goes after three lines, with the signal for it left as it is and with the signal ignored.
#[test]
fn a_reader_may_go_early() {
    let input = paper().concat().repeat(20_000);
    for set_up in ["", "trap '' PIPE; "] {
        let (running, pipe, output) = Running::start(in_shell(&format!("{set_up}exec \"$0\"")));
        thread::scope(|scope| {
            scope.spawn(|| whole(&input).write_to(pipe));
            let lines = lines(output);
            for line in transcript(&paper().concat()).split_inclusive('\n').take(3) {
                assert_eq!(lines.recv_timeout(LIMIT).as_deref(), Ok(line));
            }
            drop(lines);
            let status = running.ended(LIMIT).expect("an end");
            assert!(set_up.is_empty() || status.code().is_some(), "{status}");
        });
    }
}

/// An output that takes nothing ends the run with no signal, and does not let it hang.
#[test]
fn an_output_may_be_closed_or_full() {
    let input = paper().concat().repeat(100);
    for output in [">&-", ">/dev/full"] {
        let (running, pipe, _) = Running::start(in_shell(&format!("exec \"$0\" {output}")));
        // The program may end before it has read all.
        let _ = whole(&input).write_to(pipe);
        let status = running.ended(LIMIT).expect("an end");
        assert!(status.code().is_some(), "{output}: {status}");
    }
}

/// No bytes can be read: none are left, and the run ends without a line.
#[test]
fn an_input_may_be_closed() {
    for input in ["<&-", "</dev/null", "</"] {
        let ended = printed(in_shell(&format!("exec \"$0\" {input}")), whole(&[]), LIMIT);
        assert_eq!(ended, Ok(String::new()), "{input}");
    }
    assert_eq!(printed(in_shell("exec \"$0\" <&- >&-"), whole(&[]), LIMIT), Ok(String::new()));
}

/// The comparison finds what hangs, what fails, and what prints nothing, too much or something else.
#[test]
fn other_programs_are_found() {
    let input = paper().concat();
    let found = |command: &str, limit| {
        difference(&transcript(&input), printed(in_shell(command), whole(&input), limit)).unwrap_or_default()
    };
    let short = Duration::from_millis(100);
    assert_eq!(found("exec sleep 60", short), "runs for more than 100ms");
    assert_eq!(found("exec >&-; exec sleep 60", short), "runs for more than 100ms");
    let found = |command| found(command, LIMIT);
    assert_eq!(found("\"$0\"; exit 1"), "ends with exit status: 1");
    assert_eq!(found("cat > /dev/null"), "prints None, and Some(\"1 1 0 0\\n\") is expected");
    assert_eq!(found("\"$0\"; echo"), "prints Some(\"\\n\"), and None is expected");
    assert_eq!(found("\"$0\" | tr 8 9"), "prints Some(\"2 1 9 -\\n\"), and Some(\"2 1 8 -\\n\") is expected");
    assert_eq!(found("\"$0\" | head -c 31"), "prints Some(\"4 2 9 -\"), and Some(\"4 2 9 -\\n\") is expected");
    assert_eq!(found("\"$0\""), "");
}
