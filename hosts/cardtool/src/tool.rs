//! The program `cardtool`: its commands, their options, and how they end.

mod call;
mod images;
mod judge;
mod records;
mod views;

use crate::engines::linked;
use crate::fault::{At, Fault};
use crate::json::{list, object, Json};
use crate::program::{asks_help, Failure, BAD_INPUT, BAD_USE};
use call::Call;
use std::io::Read;

/// A command, what it takes besides options, and its options.
struct Command {
    name: &'static str,
    about: &'static str,
    takes: &'static [Takes],
    options: &'static [&'static str],
    run: fn(&Call) -> Result<Done, Trouble>,
}

/// What stands on the command line besides options.
#[derive(Clone, Copy, Debug, PartialEq, Eq)]
enum Takes {
    /// A file to read. The only one may be left out, and standard input is read.
    File(&'static str),
    Word(&'static str),
    /// A word that may be left out.
    WordOrNone(&'static str),
}

/// What a command prints, in both forms, and what it writes to files.
struct Done {
    text: Vec<u8>,
    json: Json,
    /// Files and what they get.
    saved: Vec<(String, Vec<u8>)>,
    /// Why the program ends with 1, though there is something to print.
    failed: Option<String>,
}

impl Done {
    fn new(text: impl Into<Vec<u8>>, json: Json) -> Done {
        Done { text: text.into(), json, saved: Vec::new(), failed: None }
    }
}

/// Why a command prints nothing.
enum Trouble {
    /// What is wrong with an input, which is named.
    Input(String, Vec<Fault>),
    Other(Failure),
}

impl From<Failure> for Trouble {
    fn from(failure: Failure) -> Trouble {
        Trouble::Other(failure)
    }
}

/// An engine disagrees with what the tool finds itself, or with the other engine.
fn disagreement(words: String) -> String {
    format!("{words}. One of the two is wrong: nothing is saved, and no answer above is to be relied on")
}

const IMAGE: Takes = Takes::File("IMAGE");
const COMMANDS: [Command; 12] = [
    Command {
        name: "encode",
        about: "records as text -> their bytes, a line of hexadecimal for each record",
        takes: &[Takes::File("FILE")],
        options: &["--large", "--raw", "--as-is", "--names", "--out", "--json"],
        run: records::encode,
    },
    Command {
        name: "decode",
        about: "records of either card, a line of hexadecimal each -> text",
        takes: &[Takes::File("FILE")],
        options: &["--raw", "--names", "--out", "--json"],
        run: records::decode,
    },
    Command {
        name: "judge",
        about: "records -> what a card answers to each, from the empty image on, and why it refuses",
        takes: &[Takes::File("FILE")],
        options: &[
            "--from", "--image", "--large", "--both", "--save", "--each", "--raw", "--names", "--out", "--json",
        ],
        run: judge::judge,
    },
    Command {
        name: "show",
        about: "an image of either card, a dump in hexadecimal, or of version 01 -> text; if it is not sound, each reason with its byte",
        takes: &[Takes::File("FILE")],
        options: &["--raw", "--names", "--out", "--json"],
        run: images::show,
    },
    Command {
        name: "build",
        about: "a sound image as text -> its bytes, a dump in hexadecimal",
        takes: &[Takes::File("FILE")],
        options: &["--large", "--raw", "--names", "--out", "--json"],
        run: images::build,
    },
    Command {
        name: "who",
        about: "who is granted a service, who calls it, and who gets at it by which chain of calls",
        takes: &[IMAGE, Takes::Word("PACKAGE"), Takes::WordOrNone("SERVICE")],
        options: &["--raw", "--names", "--out", "--json"],
        run: images::who,
    },
    Command {
        name: "readout",
        about: "the contract of a package, by its name, AID or number -> the text of the record that loads it",
        takes: &[IMAGE, Takes::Word("PACKAGE")],
        options: &["--raw", "--names", "--out", "--json"],
        run: images::readout,
    },
    Command {
        name: "diff",
        about: "what differs between the contracts of two images, whatever numbers they have",
        takes: &[IMAGE, IMAGE],
        options: &["--raw", "--names", "--out", "--json"],
        run: images::diff,
    },
    Command {
        name: "draw",
        about: "an image -> a picture (SVG) of its packages, calls, grants and needs",
        takes: &[IMAGE],
        options: &["--reach", "--raw", "--names", "--out", "--json"],
        run: images::draw,
    },
    Command {
        name: "dump",
        about: "an image, or records, in hexadecimal -> a dump with words, a part on each line",
        takes: &[Takes::File("FILE")],
        options: &["--raw", "--record", "--names", "--out", "--json"],
        run: images::dump,
    },
    Command {
        name: "convert",
        about: "an image of version 01, a dump in hexadecimal -> version 02, with the numbers and the order of the lists",
        takes: &[Takes::File("FILE")],
        options: &["--raw", "--save", "--names", "--out", "--json"],
        run: images::convert,
    },
    Command {
        name: "enlarge",
        about: "an image of the small card, a dump in hexadecimal -> the large card, with the numbers and the order of the lists",
        takes: &[Takes::File("FILE")],
        options: &["--raw", "--save", "--names", "--out", "--json"],
        run: images::enlarge,
    },
];

/// Each option, what follows it, and what it does.
const OPTIONS: [(&str, &str, &str); 14] = [
    ("--raw", "", "bytes, not hexadecimal, for records (one after another) and images; a text stays a text"),
    ("--as-is", "", "write a record too that contradicts itself, which a card answers with 3"),
    ("--record", "", "the input is records, not an image"),
    ("--from", "FORM", "what the records are: text (if nothing is said), hex (a line each) or raw (one after another)"),
    ("--image", "FILE", "begin with this image, not with the empty one"),
    ("--large", "", "for the large card, with 16 packages of 16 services, not for the small one"),
    ("--both", "", "let the second engine answer too, and fail where it differs"),
    ("--save", "FILE", "write the image there: the one after the last record, the converted or the enlarged one"),
    ("--each", "DIRECTORY", "write the image after each record there, as 1.image, 2.image and so on"),
    ("--reach", "", "draw who reaches whom, through others too"),
    ("--names", "FILE", "a text whose 'name' lines give packages and services their names"),
    ("--out", "FILE", "write there, not to standard output"),
    ("--json", "", "print JSON, of what is wrong with an input too"),
    ("--help", "", "this help"),
];

/// Runs the program with its arguments, without its own name: what it writes to standard output.
pub fn run(arguments: &[String], input: &mut dyn Read) -> Result<Vec<u8>, Failure> {
    let names = || COMMANDS.map(|command| command.name).join(", ");
    let Some(name) = arguments.first() else {
        return Err(Failure::bad_use(format!("a command is missing; there are {}, --help and --version", names())));
    };
    if asks_help(&arguments[..1]) {
        return Ok(help().into_bytes());
    }
    if name == "--version" {
        return Ok(version().into_bytes());
    }
    let Some(command) = COMMANDS.iter().find(|command| command.name == name) else {
        let words = format!("'{name}' is no command; there are {}, --help and --version", names());
        return Err(Failure::bad_use(words));
    };
    if asks_help(arguments) {
        return Ok(command_help(command).into_bytes());
    }
    let json = arguments.iter().any(|argument| argument == "--json");
    let ended = Call::of(command, &arguments[1..], input).and_then(|call| finish(&call, (command.run)(&call)?));
    ended.map_err(|trouble| match trouble {
        Trouble::Other(failure) => failure,
        Trouble::Input(source, faults) => bad_input(&source, &faults, json),
    })
}

/// Writes what is saved, and what is printed where it goes.
fn finish(call: &Call, done: Done) -> Result<Vec<u8>, Trouble> {
    let printed = if call.json { format!("{}\n", done.json).into_bytes() } else { done.text };
    let output = call.write(&done.saved, printed)?;
    match done.failed {
        None => Ok(output),
        Some(words) => Err(Failure { output, ..Failure::failed(words) }.into()),
    }
}

fn bad_input(source: &str, faults: &[Fault], json: bool) -> Failure {
    let lines: Vec<String> = faults.iter().map(|fault| format!("{source}: {fault}")).collect();
    let fault = |fault: &Fault| {
        let (place, byte) = match fault.at {
            At::Text(place) => (Some(place), None),
            At::Byte(byte) => (None, Some(byte)),
            At::Digits(place, byte) => (Some(place), Some(byte)),
        };
        object([
            ("source", source.into()),
            ("line", place.map(|place| place.line).into()),
            ("column", place.map(|place| place.column).into()),
            ("byte", byte.into()),
            ("words", fault.words.as_str().into()),
        ])
    };
    let printed = object([("faults", list(faults.iter().map(fault)))]);
    let output = if json { format!("{printed}\n").into_bytes() } else { Vec::new() };
    Failure { output, ..Failure::failed(lines.join("\n")) }
}

fn version() -> String {
    format!("cardtool {}: {}\n", env!("CARGO_PKG_VERSION"), linked())
}

fn help() -> String {
    let commands = COMMANDS.iter().map(|command| format!("  {:<8} {}\n", command.name, command.about));
    format!(
        "cardtool COMMAND [OPTIONS] [FILE]\n\n{}\n\
         Without FILE, or with '-', standard input is read. 'cardtool COMMAND --help' lists the options of a command,\n\
         'cardtool --version' says which engine answers. docs/TESTERS.md has the form of texts, and examples.\n\
         Exit code: 0, whatever a card answers; {BAD_INPUT} when the input is bad (with the place of the fault), an answer is \
         not the one expected,\n\
         two images differ or two engines do; {BAD_USE} when the command line is bad, or a file cannot be read or written.\n\
         This build {}.\n",
        commands.collect::<String>(),
        linked()
    )
}

fn command_help(command: &Command) -> String {
    let known = OPTIONS.iter().filter(|(name, ..)| command.options.contains(name) || *name == "--help");
    let options = known.map(|(name, value, about)| format!("  {:<17} {about}\n", format!("{name} {value}")));
    let (name, about) = (command.name, command.about);
    format!("cardtool {name} [OPTIONS] {}\n\n{about}\n\n{}", usage(command), options.collect::<String>())
}

/// What a command takes, as its help has it.
fn usage(command: &Command) -> String {
    let takes = command.takes.iter().map(|takes| match takes {
        Takes::File(name) if command.takes.len() == 1 => format!("[{name}]"),
        Takes::File(name) | Takes::Word(name) => name.to_string(),
        Takes::WordOrNone(name) => format!("[{name}]"),
    });
    takes.collect::<Vec<_>>().join(" ")
}
