//! The commands of `cardtool` on good and bad input: what they print, their messages and exit codes. The answers are those
//! of the proved engine.
#![cfg(feature = "proved")]

use cardtool::hex::from_hex;
use cardtool::hexadecimal;
use cardtool::program::{Failure, BAD_INPUT, BAD_USE};
use cardtool::tool::run;
use std::fs;
use std::path::{Path, PathBuf};

/// What the program writes, or why it fails.
fn tool(arguments: &str, input: &[u8]) -> Result<Vec<u8>, Failure> {
    let arguments: Vec<String> = arguments.split_whitespace().map(str::to_string).collect();
    run(&arguments, &mut &input[..])
}

fn text(arguments: &str, input: &str) -> String {
    let output = tool(arguments, input.as_bytes()).unwrap_or_else(|failure| panic!("{}", failure.words));
    String::from_utf8(output).expect("a text")
}

fn fails(arguments: &str, input: &[u8], code: u8, words: &str) {
    let failure = tool(arguments, input).expect_err(words);
    assert_eq!((failure.code, failure.words.as_str()), (code, words), "{arguments}");
}

/// What the program prints before it fails, with 1 and these words.
fn fails_after(arguments: &str, input: &str, words: &str) -> String {
    let failure = tool(arguments, input.as_bytes()).expect_err(words);
    assert_eq!((failure.code, failure.words.as_str()), (BAD_INPUT, words), "{arguments}");
    String::from_utf8(failure.output).expect("a text")
}

/// A file of this test alone, with this content.
fn file(name: &str, content: impl AsRef<[u8]>) -> String {
    let path = PathBuf::from(env!("CARGO_TARGET_TMPDIR")).join(name);
    fs::write(&path, content).expect("a file");
    path.display().to_string()
}

/// The place of a file that is not there.
fn absent(name: &str) -> String {
    let path = PathBuf::from(env!("CARGO_TARGET_TMPDIR")).join(name);
    let _ = fs::remove_file(&path);
    path.display().to_string()
}

const STORY: &str = "\
load F000000001
    provides 0.0
    grants 0.0 to F000000002
load F000000003
    calls F000000001 0.0
load F000000002
    calls F000000001 0.0
    needs F000000001 0.0
unload F000000001
";

const NAMES: &str = "name log F000000001\nname organiser F000000002\nname purse F000000003\nname read log 0.0\n";

const ENGINE: &str = "# answers of the proved engine\n";

/// The image after the story, as a dump in a file.
fn story_image(name: &str) -> String {
    let image = absent(name);
    text(&format!("judge --save {image}"), STORY);
    image
}

#[test]
fn the_papers_session() {
    let hex = text("encode", STORY);
    let expected = "\
00 18 01 01 05 F0 00 00 00 01 01 00 00 00 01 05 F0 00 00 00 02 00 00 00
00 16 01 01 05 F0 00 00 00 03 00 01 05 F0 00 00 00 01 00 00 00 00
00 1E 01 01 05 F0 00 00 00 02 00 01 05 F0 00 00 00 01 00 00 00 01 05 F0 00 00 00 01 00 00
00 0A 01 02 05 F0 00 00 00 01
";
    assert_eq!(hex, expected);
    assert_eq!(text("decode", &hex), STORY);
    assert_eq!(
        text("judge", STORY),
        "# answers of the proved engine\n\
         1 load F000000001: accepted, package 0\n\
         2 load F000000003: refused, 8: a met call would stand without its grant\n    \
             line 5: F000000003 calls F000000001 0.0, and F000000001 does not grant it to F000000003\n\
         3 load F000000002: accepted, package 1\n\
         4 unload F000000001: refused, 9: a need would be unmet\n    \
             line 9: F000000002 needs F000000001 0.0, and F000000001 would no longer be on the card\n\
         2 accepted, 2 refused\n"
    );
}

#[test]
fn raw_bytes_in_and_out() {
    let raw = tool("encode --raw", STORY.as_bytes()).expect("bytes");
    assert_eq!(raw.len(), 24 + 22 + 30 + 10);
    assert_eq!(tool("decode --raw", &raw), Ok(STORY.as_bytes().to_vec()));
    let image = text("show", "04 56 02 \n 1110:");
    assert_eq!(image, "# 0 packages, 0 unmet calls, 0 waiting grants\n");
    let raw = tool("build --raw", image.as_bytes()).expect("an image");
    assert_eq!(raw.len(), 1110);
    assert_eq!(tool("show --raw -", &raw), Ok(image.clone().into_bytes()));
    // An image's own bytes are known by their header.
    assert_eq!(tool("show", &raw), Ok(image.into_bytes()));
    let words = "standard input: line 1, column 1: '\\u{0}' is no hexadecimal digit; of an image's own bytes say --raw";
    fails("show", &[0; 1110], BAD_INPUT, words);
}

#[test]
fn files_and_names() {
    let (story, names) = (file("story", STORY), file("names", "name log F000000001"));
    let [hex, image] = ["hex", "image"].map(absent);
    assert_eq!(text(&format!("encode {story} --out {hex}"), ""), "");
    let named = STORY.replace("F000000001", "log");
    assert_eq!(text(&format!("decode --names {names} {hex}"), ""), format!("name log F000000001\n{named}"));
    text(&format!("judge {story} --save {image}"), "");
    let shown = text(&format!("show {image} --names {names}"), "");
    assert!(shown.contains("package 1 F000000002\n    calls log 0.0\n"), "{shown}");
    let dump = fs::read_to_string(&image).expect("a file");
    assert_eq!(text("build", &text("show", &dump)), dump);
    assert_eq!(text("dump", &dump), dump);
    // A removal on the saved image.
    assert_eq!(
        text(&format!("judge --image {image}"), "unload F000000002"),
        format!("{ENGINE}1 unload F000000002: accepted, package 1\n1 accepted, 0 refused\n")
    );
    let words = format!("{story}: line 1, column 1: 'l' is no hexadecimal digit");
    fails(&format!("judge --image {story}"), b"", BAD_INPUT, &words);
    // The place is in the image's file, not in that of the records.
    let words =
        format!("{names}: byte 19: an image has 1110 bytes, of a large card 3639, or 1094 in version 01, here are 19");
    fails(&format!("judge --raw --image {names}"), b"", BAD_INPUT, &words);
    fails(&format!("show --names {image}"), b"", BAD_INPUT, &format!("{image}: line 1, column 4: '0:' begins no line: there are load, replace, unload, add, remove, record, expect and name, the rows provides, calls, grants and needs, and to"));
}

/// Every command takes names, of packages and of services.
#[test]
fn every_command_takes_names() {
    let (names, image) = (file("every-names", NAMES), story_image("every-image"));
    let with = |command: &str, input: &str| text(&format!("{command} --names {names}"), input);
    let named = "load log\n    provides read\n    grants read to organiser\n";
    assert_eq!(
        with("decode", &with("encode", named)),
        format!("{}{named}", NAMES.replace("name purse F000000003\n", ""))
    );
    assert!(with("judge", named).contains("1 load log: accepted, package 0\n"));
    let shown = with(&format!("show {image}"), "");
    assert!(shown.contains("package 0 log\n    service 0 read\n    grants read to organiser\n"), "{shown}");
    assert_eq!(
        with("build", &shown.lines().filter(|line| !line.starts_with("name")).collect::<Vec<_>>().join("\n")),
        text("build", &shown)
            .replace("package 0:", "package 0 (log):")
            .replace("package 0,", "package 0 (log),")
            .replace("package 1:", "package 1 (organiser):")
            .replace("package 1,", "package 1 (organiser),")
    );
    assert!(with(&format!("dump {image}"), "").contains("# AID of package 0 (log): length, bytes, fill\n"));
    assert!(with(&format!("who {image} log read"), "").starts_with("log read is service 0 of package 0\n"));
    assert!(with(&format!("readout {image} organiser"), "")
        .ends_with("load organiser\n    calls log read\n    needs log read\n"));
    let other = absent("every-other");
    with(&format!("judge --image {image} --save {other}"), "remove organiser calls log read");
    let differs = fails_after(&format!("diff {image} {other} --names {names}"), "", "the contracts differ");
    assert_eq!(differs, "  package organiser\n-     calls log read\n-     needs log read\n");
    assert!(with(&format!("draw {image}"), "").contains(">organiser<"));
    let unsound = fs::read_to_string(&image).expect("a file").replace("340: 00 01", "340: 00 00");
    let words =
        "standard input: byte 284: calls: package 0 (log) does not grant package 1 (organiser) its service 0 (read)";
    fails(&format!("show --names {names}"), unsound.as_bytes(), BAD_INPUT, words);
}

#[test]
fn bad_input_is_1_with_its_place() {
    let cases: [(&str, &[u8], &str); 9] = [
        ("encode", b"load F0", "line 1, column 6: an AID has 5 to 16 bytes, this one has 1"),
        ("encode", b"load\xFF", "line 1, column 5: these bytes are not text in UTF-8"),
        ("decode", b"00 02", "line 1, column 6: byte 2: the record ends here, and bytes are missing"),
        ("decode --raw", b"\x00", "byte 0: record 1: one byte is left, and a length has two"),
        ("decode --raw", b"\x00\x05\x01", "byte 0: record 1: the length field says 5, 3 bytes are left"),
        ("decode --raw", b"\x00\x00\x01", "byte 0: record 1: the length field says 0, 3 bytes are left"),
        (
            "decode --raw",
            b"\x00\x0A\x01\x02\x05\xF0\x00\x00\x00\x01\x00\x04\x01\x0C",
            "byte 13: record 2: the kind is 12, and there are 1 to 8 and 11",
        ),
        (
            "build",
            b"package 9",
            "line 1, column 9: '9' is not a number from 0 to 7: a large card has it, after a line 'card large'",
        ),
        (
            "dump --record",
            b"00 0A 01 02 04 F0 00 00 00 01",
            "line 1, column 13: byte 4: the AID's length is 4, not 5 to 16",
        ),
    ];
    for (command, input, words) in cases {
        fails(command, input, BAD_INPUT, &format!("standard input: {words}"));
    }
    for command in ["show", "dump", "convert", "enlarge"] {
        let words =
            "standard input: byte 2: an image has 1110 bytes, of a large card 3639, or 1094 in version 01, here are 2";
        fails(command, b"04 56", BAD_INPUT, words);
    }
    let words = "standard input: byte 2: here is 03, and the header has 02\n\
                 standard input: byte 4: the AID of package 0 has the length 0, not 5 to 16";
    fails("show", b"04 56 03 01\n1110:", BAD_INPUT, words);
}

/// Method tokens stop at 127, in texts, in records and in images. `--as-is` writes no higher one.
#[test]
fn method_tokens_stop_at_127() {
    let last = "add F000000001 provides 255.127\n";
    assert_eq!(text("decode", &text("encode", last)), last);
    for command in ["encode", "encode --as-is", "judge"] {
        let words = "standard input: line 2, column 35: the method token is 128, not 0 to 127";
        fails(command, b"load F000000001\nadd F000000001 calls F000000002 0.128\n", BAD_INPUT, words);
    }
    let hex = "00 0C 01 04 05 F0 00 00 00 01 00 80";
    let words = "standard input: line 1, column 34: byte 11: the method token is 128, not 0 to 127";
    fails("decode", hex.as_bytes(), BAD_INPUT, words);
    fails("dump --record", hex.as_bytes(), BAD_INPUT, words);
    let raw = from_hex(hex).expect("bytes");
    fails("decode --raw", &raw, BAD_INPUT, "standard input: byte 11: record 1: the method token is 128, not 0 to 127");
    let words = "standard input: line 2, column 15: the method token is 128, not 0 to 127";
    fails("build", b"package 0 F000000001\n  service 0 0.128", BAD_INPUT, words);

    // A card from before R-7, which provides 0.128 and calls 0.255.
    let old = "04 46 01 01 05 F0 00 00 00 01\n140: 00 80\n268: 01\n468: 01 05 F0 00 00 00 02\n486: 00 FF 00\n1094:\n";
    let since = "since R-7 method tokens stop at 127, and a card made before may hold more";
    let words = format!(
        "standard input: byte 141: service 0 of package 0 has the method token 128, not 0 to 127: {since}\n\
         standard input: byte 487: the unmet call has the method token 255, not 0 to 127: {since}"
    );
    fails("show", old.as_bytes(), BAD_INPUT, &words);
    fails("convert", old.as_bytes(), BAD_INPUT, &words);
    // Its bytes can be looked at.
    assert!(text("dump", old).contains(" 140: 00 80 "), "{}", text("dump", old));
    // The same tokens in version 02, and what is judged on such a card.
    let new = old.replace("04 46 01", "04 56 02").replace("1094:", "1110:");
    fails("show", new.as_bytes(), BAD_INPUT, &words.replace(&format!(": {since}"), ""));
    let image = file("new-image", new);
    assert_eq!(
        text(&format!("judge --image {image}"), "unload F000000001"),
        "# answers of the proved engine\n\
         1 unload F000000001: refused, 1: the image is not sound, or has not a card's size\n    \
             line 1: byte 141: service 0 of package 0 has the method token 128, not 0 to 127\n    \
             line 1: byte 487: the unmet call has the method token 255, not 0 to 127\n\
         0 accepted, 1 refused\n"
    );
}

/// A card of version 01: a package that provides 1.2 and 1.3, and grants the second to one that is not installed.
const OLD: &str = "\
0: 04 46 01 01 05 F0 00 00 00 01
140: 01 02 01 03
268: 03
789: 01 05 F0 00 00 00 02
807: 00 01
1094:
";

/// An image of version 01 is shown and dumped, and has to be converted before it is judged.
#[test]
fn an_old_image_is_converted() {
    let (old, new) = (file("old", OLD), absent("converted"));
    let first = "the image has version 01, and has to be converted before it can be judged: 'cardtool convert'";
    let shown =
        "# 1 package, 0 unmet calls, 1 waiting grant\npackage 0 F000000001\n    service 0 1.2\n    service 1 1.3\n\
                 waiting F000000001 grants 1.3 to F000000002\n";
    assert_eq!(text(&format!("show {old}"), ""), format!("# {first}\n{shown}"));
    assert!(text(&format!("dump {old}"), "").contains("# waiting grant 0: caller AID, callee, service\n1094:\n"));
    for command in [format!("judge --image {old}"), format!("readout {old} 0")] {
        fails(&command, b"", BAD_INPUT, &format!("{old}: byte 2: {first}"));
    }
    assert!(
        text(&format!("who {old} F000000001 1.3"), "").contains("    granted to F000000002, waiting for the package\n")
    );

    let said = "# converted by the proved engine\nconverted to version 02: 1 package, 0 unmet calls, 1 waiting grant\n";
    assert_eq!(text(&format!("convert {old} --save {new}"), ""), said);
    assert_eq!(text(&format!("show {new}"), ""), shown);
    assert!(text(&format!("dump {new}"), "").contains("# waiting grant 0: caller AID, callee, tokens\n1110:\n"));
    let same = "the contracts are the same; the versions of the images are not\n";
    assert_eq!(text(&format!("diff {old} {new}"), ""), same);
    // What is shown of the old image builds the converted one.
    assert_eq!(text("build", &text(&format!("show {old}"), "")), fs::read_to_string(&new).expect("a file"));
    let words = format!("{new}: byte 2: the image has version 02: there is nothing to convert");
    fails(&format!("convert {new}"), b"", BAD_INPUT, &words);
    let raw = tool("build --raw", shown.as_bytes()).expect("an image");
    let bytes = hexadecimal::dump(OLD).expect("bytes");
    tool(&format!("convert --raw --save {new}"), &bytes).expect("converted");
    assert_eq!(fs::read(&new).expect("a file"), raw);
    // One that is not sound is not converted, and nothing is saved.
    let absent = absent("not-converted");
    fails(
        &format!("convert --save {absent}"),
        OLD.replace("807: 00 01", "807: 00 02").as_bytes(),
        BAD_INPUT,
        "standard input: byte 808: package 0 does not provide service 2",
    );
    assert!(!Path::new(&absent).exists());
}

/// The records of the story for the large card, whose counts of calls, grants and needs have two bytes.
const LARGE_HEX: &str = "\
00 1B 02 01 05 F0 00 00 00 01 01 00 00 00 00 00 01 05 F0 00 00 00 02 00 00 00 00
00 19 02 01 05 F0 00 00 00 03 00 00 01 05 F0 00 00 00 01 00 00 00 00 00 00
00 21 02 01 05 F0 00 00 00 02 00 00 01 05 F0 00 00 00 01 00 00 00 00 00 01 05 F0 00 00 00 01 00 00
00 0A 02 02 05 F0 00 00 00 01
";

/// A text is written for the card that it is judged on, and what comes of it is the same but for the sizes.
#[test]
fn the_large_card_takes_the_same_texts() {
    assert_eq!(text("encode --large", STORY), LARGE_HEX);
    let again = "# of the large card: 'cardtool encode --large' makes these bytes again\n";
    assert_eq!(text("decode", LARGE_HEX), format!("{again}{STORY}"));
    let raw = tool("encode --large --raw", STORY.as_bytes()).expect("bytes");
    assert_eq!(tool("decode --raw", &raw), Ok(format!("{again}{STORY}").into_bytes()));
    assert_eq!(text("encode --large", &text("decode", LARGE_HEX)), LARGE_HEX);
    let both = "# of both cards: 'cardtool encode' writes all for the small card, 'cardtool encode --large' for the large one\n";
    let hex = format!("{}{LARGE_HEX}", text("encode", STORY));
    assert_eq!(text("decode", &hex), format!("{both}{STORY}{STORY}"));
    let dump = text("dump --record", LARGE_HEX);
    assert!(dump.contains("  2: 02 ") && dump.contains("# version: a record of the large card\n"), "{dump}");
    assert!(dump.contains("  13: 00 00 ") && dump.contains("# count of calls\n"), "{dump}");

    let (small, large) = (story_image("same-small"), absent("same-large"));
    let engine = "# answers of the proved engine on a large card\n";
    let judged = text(&format!("judge --large --save {large}"), STORY);
    assert_eq!(judged, text("judge", STORY).replace(ENGINE, engine));
    assert!(text("judge --from hex --large", LARGE_HEX).ends_with("\n2 accepted, 2 refused\n"));
    let both = text("judge --large --both", STORY);
    assert!(both.starts_with(&format!("{}, and the same of the second engine (not proved)\n", engine.trim_end())));
    let shown = text(&format!("show {large}"), "");
    assert_eq!(shown, format!("card large\n{}", text(&format!("show {small}"), "")));
    let dump = fs::read_to_string(&large).expect("a file");
    assert!(dump.starts_with("   0: 0E 37 03 ") && dump.ends_with("\n3639:\n"), "{dump}");
    assert_eq!((text("build", &shown), text("dump", &dump)), (dump.clone(), dump.clone()));
    let small_text = shown.replace("card large\n", "");
    assert_eq!(text("build --large", &small_text), dump);
    assert_eq!(
        text("build --large", &format!("card small\n{small_text}")),
        fs::read_to_string(&small).expect("a file")
    );
    let bytes = tool("build --raw", shown.as_bytes()).expect("an image");
    assert_eq!((bytes.len(), tool("show", &bytes)), (3639, Ok(shown.into_bytes())));
    for command in ["who IMAGE 0", "draw IMAGE", "draw IMAGE --reach"] {
        assert_eq!(text(&command.replace("IMAGE", &large), ""), text(&command.replace("IMAGE", &small), ""));
    }
    let same = "the contracts are the same; the versions of the images are not\n";
    assert_eq!(text(&format!("diff {small} {large}"), ""), same);
    let load = "load F000000002\n    calls F000000001 0.0\n    needs F000000001 0.0\n";
    let first = "# package 1 of a large card, read out by the proved engine\n";
    assert_eq!(text(&format!("readout {large} 1"), ""), format!("{first}{load}"));
    let json = text(&format!("readout {large} 1 --json"), "");
    assert!(json.contains(LARGE_HEX.lines().nth(2).expect("a line")), "{json}");
    assert_eq!(
        text(&format!("judge --image {large}"), "unload F000000002"),
        format!("{engine}1 unload F000000002: accepted, package 1\n1 accepted, 0 refused\n")
    );
}

/// A small card is enlarged as the tool works it out itself, and then has room.
#[test]
fn a_card_is_enlarged() {
    let (small, large, again) = (story_image("enlarged-small"), absent("enlarged"), absent("enlarged-again"));
    let counts = "2 packages, 0 unmet calls, 0 waiting grants";
    let said = format!("# enlarged by the proved engine\nenlarged to version 03: {counts}\n");
    assert_eq!(text(&format!("enlarge {small} --save {large}"), ""), said);
    assert_eq!(text("build --large", &text(&format!("show {small}"), "")), fs::read_to_string(&large).expect("a file"));
    let raw = tool("build --raw", text(&format!("show {small}"), "").as_bytes()).expect("an image");
    tool(&format!("enlarge --raw --save {again}"), &raw).expect("enlarged");
    assert_eq!(fs::read(&again).expect("a file").len(), 3639);
    fails(
        &format!("enlarge {large}"),
        b"",
        BAD_INPUT,
        &format!("{large}: byte 2: the card is large: there is nothing to enlarge"),
    );
    let words = format!("{large}: byte 2: the image has version 03: there is nothing to convert");
    fails(&format!("convert {large}"), b"", BAD_INPUT, &words);
    let old = "the image has version 01, and has to be converted before it can be judged: 'cardtool convert'";
    fails("enlarge", OLD.as_bytes(), BAD_INPUT, &format!("standard input: byte 2: {old}"));
    // One that is not sound is not enlarged, and nothing is saved.
    let (unsound, none) =
        (fs::read_to_string(&small).expect("a file").replace("340: 00 01", "340: 00 00"), absent("not-enlarged"));
    let words = "standard input: byte 284: calls: package 0 does not grant package 1 its service 0";
    fails(&format!("enlarge --save {none}"), unsound.as_bytes(), BAD_INPUT, words);
    assert!(!Path::new(&none).exists());
    let words = "--large and --image: an image says itself which card it is; 'cardtool enlarge' makes a large one of a small one";
    fails(&format!("judge --large --image {large}"), b"", BAD_USE, words);
}

/// Each limit of the card at hand, in a text and in an answer.
#[test]
fn limits_are_those_of_the_card() {
    let loads: String = (1..=17).map(|n| format!("load F0000000{n:02}\n")).collect();
    let packages = |count: usize| (1..=count).map(|n| format!("F0000000{n:02}")).collect::<Vec<_>>().join(", ");
    for (option, count) in [("", 8), ("--large", 16)] {
        let full = format!("line {}: all {count} package numbers are used: {}\n", count + 1, packages(count));
        assert!(text(&format!("judge {option}"), &loads).contains(&full));
    }
    let rows = |row: &str, count: usize| {
        (0..count).map(|n| row.replace('N', &format!("{}.{}", n / 100, n % 100))).collect::<String>()
    };
    let load = |row: &str, count: usize| format!("load F000000001\n{}", rows(row, count));
    let (calls, grants, provides) = ("calls F000000002 N\n", "grants N to F000000002\n", "provides N\n");
    for (option, listed) in [("", 16), ("--large", 32)] {
        let judged = |row: &str, count: usize| text(&format!("judge {option}"), &load(row, count));
        assert!(judged(calls, listed).contains("1 load F000000001: accepted, package 0\n"));
        let more = listed + 1;
        let unmet =
            format!("{more} calls would be unmet, at most {listed} may be, and this record brings {more} of them");
        assert!(judged(calls, more).contains(&unmet));
        let waiting = format!("{more} grants would wait, at most {listed} may, and this record brings {more} of them");
        assert!(judged(grants, more).contains(&waiting));
    }
    let at_most = |row: &str, most: usize, large: usize| {
        let verb = row.split(' ').next().unwrap_or("");
        text("encode", &load(row, most));
        text("encode --large", &load(row, large));
        let place = |most: usize| format!("standard input: line {}, column 1: a record of", most + 2);
        let words = format!(
            "{} the small card has at most {most} lines with '{verb}', one of the large card (--large) {large}",
            place(most)
        );
        fails("encode", load(row, most + 1).as_bytes(), BAD_INPUT, &words);
        let words = format!("{} the large card has at most {large} lines with '{verb}'", place(large));
        fails("encode --large", load(row, large + 1).as_bytes(), BAD_INPUT, &words);
    };
    at_most(provides, 8, 16);
    at_most(calls, 72, 272);
    at_most(grants, 72, 272);
    // Callers are as many on both.
    let callers = |count: usize| {
        let to = |n: usize| format!("to F0000001{n:02}\n");
        format!("add F000000001 provides 0.0\n{}", (0..count).map(to).collect::<String>())
    };
    for (option, card) in [("", "small"), ("--large", "large")] {
        text(&format!("encode {option}"), &callers(32));
        let words =
            format!("standard input: line 34, column 1: a record of the {card} card has at most 32 lines with 'to'");
        fails(&format!("encode {option}"), callers(33).as_bytes(), BAD_INPUT, &words);
    }
    assert!(text("judge --large", &format!("{loads}expect refused 7\nunload F000000016\nexpect accepted 15\n"))
        .contains("2 of 2 as expected"));
    let words = "standard input: line 2, column 17: '8' is no package number of the small card: there are 0 to 7";
    fails("judge", b"load F000000001\nexpect accepted 8\n", BAD_INPUT, words);
    // Of an image's text.
    text("build", "card large\npackage 15 F000000001\n service 15 0.0\n");
    for (word, fault) in [
        ("package 16 F000000001", "line 2, column 9: '16' is not a number from 0 to 15"),
        ("package 15 F000000001\n service 16 0.0", "line 3, column 10: '16' is not a number from 0 to 15"),
        ("package 0 F000000001\ncard small", "line 3, column 1: 'card' stands above the first package"),
        ("card huge", "line 2, column 6: small or large is expected, not 'huge'"),
        ("card", "line 2, column 5: small or large is missing"),
    ] {
        fails("build", format!("card large\n{word}").as_bytes(), BAD_INPUT, &format!("standard input: {fault}"));
    }
    let unmet = |count: usize| {
        format!("card large\npackage 0 F000000001\n{}", rows("unmet F000000001 calls F000000002 N\n", count))
    };
    text("build", &unmet(32));
    let words = "standard input: line 35, column 1: an image of a large card has at most 32 unmet calls";
    fails("build", unmet(33).as_bytes(), BAD_INPUT, words);
}

/// A record of the other card's version is refused with 2, and it is said what can be done.
#[test]
fn a_record_of_the_other_card() {
    let text_of = "'cardtool decode' makes a text of it, which is judged on either";
    for (option, record, words) in [
        ("", "00 0A 02 02 05 F0 00 00 00 01", "the version is 2: a record of the large card, and this card is small"),
        (
            "--large",
            "00 0A 01 02 05 F0 00 00 00 01",
            "the version is 1: a record of the small card, and this card is large",
        ),
    ] {
        let said = text(&format!("judge {option}"), &format!("record {record}\nexpect refused 2\n"));
        assert!(said.contains(&format!("\n    line 1: byte 2: {words}; {text_of}\n")), "{said}");
        let said = text(&format!("judge {option} --from hex"), record);
        let first = "1 unload F000000001: refused, 2: the record is malformed\n";
        assert!(said.contains(&format!("{first}    line 1: byte 2: {words}; {text_of}\n")), "{said}");
        let decoded = text("decode", record);
        assert!(text(&format!("judge {option}"), &decoded).contains("1 unload F000000001: refused, 5: "));
    }
    // Records as bytes go the same way, with --raw.
    let raw = tool("encode --raw", b"unload F000000001").expect("bytes");
    assert_eq!(tool("decode --raw", &raw), Ok(b"unload F000000001\n".to_vec()));
    let zero = "standard input: line 1, column 1: '\\u{0}' is no hexadecimal digit; of records' own bytes say";
    fails("decode", b"\0\x0A", BAD_INPUT, &format!("{zero} --raw"));
    fails("dump --record", b"\0\x0A", BAD_INPUT, &format!("{zero} --raw"));
    fails("judge --from hex", b"\0\x0A", BAD_INPUT, &format!("{zero} --from raw"));
    let words = "standard input: line 1, column 7: byte 2: the version is 3, and records have 1 on the small card, 2 on the large card";
    fails("decode", b"00 0A 03 02 05 F0 00 00 00 01", BAD_INPUT, words);
    let words = "standard input: line 1, column 31: byte 10: the count is 17, at most 16 may stand here";
    fails("decode", b"00 0B 02 01 05 F0 00 00 00 01 11", BAD_INPUT, words);
    let words = "standard input: line 1, column 34: byte 11: the count is 273, at most 272 may stand here";
    fails("decode", b"00 0D 02 01 05 F0 00 00 00 01 00 01 11", BAD_INPUT, words);
}

/// An image whose length is no card's; of one that begins as a large card, the place is there.
#[test]
fn an_image_of_neither_size() {
    let sizes = "an image has 1110 bytes, of a large card 3639, or 1094 in version 01";
    for (begin, length, place) in
        [("04 56 02", 1109, 1109), ("04 56 02", 1200, 1110), ("0E 37 03", 1200, 1200), ("0E 37 03", 3640, 3639)]
    {
        let words = format!("standard input: byte {place}: {sizes}, here are {length}");
        fails("show", format!("{begin}\n{length}:").as_bytes(), BAD_INPUT, &words);
    }
    let words = "standard input: byte 0: here is 04, and the header has 0E\n\
                 standard input: byte 1: here is 56, and the header has 37\n\
                 standard input: byte 2: here is 02, and the header has 03";
    fails("show", b"04 56 02\n3639:", BAD_INPUT, words);
}

/// Grants of services that are not provided, as records and in an image.
#[test]
fn grants_before_their_service() {
    let story = "load F000000001\n    grants 0.0 to F000000002\nadd F000000001 provides 0.0\n";
    assert_eq!(text("decode", &text("encode", story)), story);
    let [early, later] = ["early", "later"].map(absent);
    text(&format!("judge --save {early}"), "load F000000001\n grants 0.0 to F000000002\nload F000000002");
    let shown = "# 2 packages, 0 unmet calls, 1 waiting grant\npackage 0 F000000001\npackage 1 F000000002\n\
                 waiting F000000001 grants 0.0 to F000000002\n";
    assert_eq!(text(&format!("show {early}"), ""), shown);
    text(&format!("judge --image {early} --save {later}"), "add F000000001 provides 0.0");
    assert!(text(&format!("show {later}"), "").contains("    service 0 0.0\n    grants 0.0 to F000000002\n"));
}

/// A whole contract in place of another: as a record and in an image.
#[test]
fn a_whole_contract() {
    let release = "replace F000000001\n    provides 0.2\n    provides 0.0\n    grants 0.0 to F000000002\n";
    let hex = text("encode", release);
    assert_eq!(hex, "00 1A 01 0B 05 F0 00 00 00 01 02 00 02 00 00 00 01 05 F0 00 00 00 02 00 00 00\n");
    assert_eq!(text("decode", &hex), release);
    let dump = text("dump --record", &hex);
    assert!(dump.contains("# kind 11: replace the contract\n") && dump.contains("# service 0.2\n"), "{dump}");
    assert_eq!(text("decode", &text("encode", &(STORY.to_string() + release))), STORY.to_string() + release);

    let (image, after) = (story_image("release"), absent("released"));
    let refused = "replace F000000004\nreplace F000000001\n provides 0.0\nreplace F000000001\n provides 0.2\n";
    let lines = text(&format!("judge --image {image}"), refused);
    let answers: Vec<&str> = lines.lines().filter(|line| line.contains("refused, ")).collect();
    assert_eq!(
        answers,
        [
            "1 replace F000000004: refused, 5: the package is not installed",
            "2 replace F000000001: refused, 8: a met call would stand without its grant",
            "3 replace F000000001: refused, 9: a need would be unmet",
        ]
    );
    text(&format!("judge --image {image} --save {after}"), release);
    let shown = "package 0 F000000001\n    service 0 0.0\n    service 1 0.2\n    grants 0.0 to F000000002\n";
    assert!(text(&format!("show {after}"), "").contains(shown));
}

/// Needs are neither added nor removed by themselves: each message says what is used instead. `--as-is` writes no such record.
#[test]
fn retired_kinds() {
    let added = "'add AID needs', kind 9, is retired since R-13, and a card answers 2: \
                 a need comes with the whole contract, as a row of 'load' or 'replace'";
    let removed = "'remove AID needs', kind 10, is retired since R-13, and a card answers 2: \
                   a need goes with its call, 'remove AID calls AID SERVICE', or with a 'replace' without it";
    for (verb, kind, words) in [("add", 9, added), ("remove", 10, removed)] {
        let text = format!("load F000000001\n{verb} F000000001 needs F000000002 0.0\n");
        let column = verb.len() + 13;
        for command in ["encode", "encode --as-is", "judge"] {
            let words = format!("standard input: line 2, column {column}: {words}");
            fails(command, text.as_bytes(), BAD_INPUT, &words);
        }
        let hex = format!("00 12 01 {kind:02X} 05 F0 00 00 00 01 05 F0 00 00 00 02 00 00");
        for command in ["decode", "dump --record"] {
            fails(command, hex.as_bytes(), BAD_INPUT, &format!("standard input: line 1, column 10: byte 3: {words}"));
        }
        let raw = from_hex(&hex).expect("bytes");
        fails("decode --raw", &raw, BAD_INPUT, &format!("standard input: byte 3: record 1: {words}"));
    }
}

/// A need is shown whatever set it, and goes with what the messages name.
#[test]
fn a_need_goes_with_its_call_or_the_next_contract() {
    let image = story_image("need");
    assert!(text(&format!("show {image}"), "").contains("\n    needs F000000001 0.0\n"));
    let call = "unload F000000001\nexpect refused 9\nremove F000000002 calls F000000001 0.0\nexpect accepted\n\
                unload F000000001\nexpect accepted\n";
    let contract = "replace F000000002\n calls F000000001 0.0\nexpect accepted\nunload F000000001\nexpect accepted\n";
    for story in [call, contract] {
        text(&format!("judge --image {image}"), story);
    }
}

#[test]
fn records_that_contradict_themselves_are_written_as_they_are_on_request() {
    let bad = "unload F000000001\nadd F000000001 calls F000000001 0.0\n";
    let words = "standard input: line 2, column 1: a package does not name its own AID here (a card answers 3)";
    fails("encode", bad.as_bytes(), BAD_INPUT, words);
    let hex = text("encode --as-is", bad);
    assert_eq!(text("decode", &hex), bad);
    let judged = "2 add F000000001 calls F000000001 0.0: refused, 3: the record contradicts itself\n    \
                  line 2: calls F000000001 0.0 names the package itself\n";
    assert!(text("judge", bad).contains(judged), "{}", text("judge", bad));
    let twice = "load F000000001\n provides 0.0\n\n provides 0.0\n";
    assert!(text("judge", twice).contains("    line 4: provides 0.0 repeats row 1 of the services, on line 2\n"));
}

/// Expected answers: the exit code is 1 when one does not come, and all is printed and saved.
#[test]
fn expected_answers_are_held() {
    let held = "load F000000001\nexpect accepted\nload F000000001\nexpect refused 4\nload F000000001\nexpect refused\n\
                load F000000002\nexpect accepted 1\nunload F000000009\n";
    assert!(text("judge", held).ends_with("2 accepted, 3 refused, 4 of 4 as expected\n"));
    let image = absent("unexpected");
    let missed =
        "load F000000001\nexpect refused\nload F000000001\nexpect accepted\nunload F000000001\nexpect accepted 1\n\
                  unload F000000001\nexpect refused 6\nload F000000001\nexpect accepted 0\n";
    let said = fails_after(&format!("judge --save {image}"), missed, "4 answers were not as expected");
    for line in [
        "1 load F000000001: accepted, package 0\n    line 2: expected refused: FAILED\n",
        "    line 4: expected accepted: FAILED\n",
        "3 unload F000000001: accepted, package 0\n    line 6: expected accepted 1: FAILED\n",
        "    line 8: expected refused 6: FAILED\n",
    ] {
        assert!(said.contains(line), "{said}");
    }
    assert!(said.ends_with("3 accepted, 2 refused, 1 of 5 as expected\n"), "{said}");
    assert!(text(&format!("show {image}"), "").starts_with("# 1 package,"));
    assert_eq!(text("encode", "unload F000000001\nexpect refused\n"), text("encode", "unload F000000001\n"));
}

/// Records in hexadecimal and raw, malformed ones too, as well as in a text.
#[test]
fn records_of_any_bytes_are_judged() {
    let hex = text("encode", STORY);
    let answers = |judged: &str| -> Vec<String> {
        judged
            .lines()
            .filter(|line| line.contains(": accepted") || line.contains(": refused"))
            .map(str::to_string)
            .collect()
    };
    let expected = answers(&text("judge", STORY));
    assert_eq!(expected.len(), 4);
    assert_eq!(answers(&text("judge --from hex", &hex)), expected);
    assert_eq!(answers(&text("judge --from text", STORY)), expected);
    let raw = tool("encode --raw", STORY.as_bytes()).expect("bytes");
    let judged = |bytes: &[u8]| String::from_utf8(tool("judge --from raw", bytes).expect("judged")).expect("a text");
    assert_eq!(answers(&judged(&raw)), expected);
    // What is no frame is judged as one record, and the last.
    for (more, words) in [
        (&b"\x00"[..], "5 record of 1 byte: refused, 2: the record is malformed\n    byte 1: the record ends here, and bytes are missing\n"),
        (b"\x00\x02", "5 record of 2 bytes: refused, 2: the record is malformed\n    byte 2: the record ends here, and bytes are missing\n"),
        (b"\x00\x09\x01\x02", "5 record of 4 bytes: refused, 2: the record is malformed\n    byte 0: the length field says 9, the record has 4 bytes\n"),
        (b"\x00\x04\x01\x0C\x00\x04\x01\x0C", "6 record of 4 bytes: refused, 2: the record is malformed\n    byte 3: the kind is 12, and there are 1 to 8 and 11\n"),
    ] {
        let said = judged(&[&raw[..], more].concat());
        assert!(said.contains(words), "{said}");
    }
    let said = text("judge --from hex", "00 0A 01 02 04 F0 00 00 00 01 # too short\n00\n");
    assert!(said.contains("1 record of 10 bytes: refused, 2: the record is malformed\n    line 1: byte 4: the AID's length is 4, not 5 to 16\n"), "{said}");
    let said = text("judge", "record 00 0A 01 02 05 F0 00 00 00 01\nexpect refused 5\nrecord\nexpect refused 2\n");
    assert!(said.contains("2 record: refused, 2: the record is malformed\n    line 3: byte 0: the record ends here, and bytes are missing\n"), "{said}");
    fails("judge --from hex", b"0", BAD_INPUT, "standard input: line 1, column 1: a byte has two digits, here is one");
    fails("judge --from dump", b"", BAD_USE, "--from dump: there are text, hex and raw");
}

/// Both engines answer, and the first line says so.
#[test]
fn both_engines_are_compared() {
    let both = "# answers of the proved engine, and the same of the second engine (not proved)\n";
    assert_eq!(text("judge --both", STORY), text("judge", STORY).replace(ENGINE, both));
    assert!(text("judge --both --json", STORY).contains("\"compared_with\": \"the second engine (not proved)\""));
}

/// The image after each record, under its number.
#[test]
fn the_image_after_each_record() {
    let directory = PathBuf::from(env!("CARGO_TARGET_TMPDIR")).join("each");
    let _ = fs::remove_dir_all(&directory);
    let last = absent("each-last");
    text(&format!("judge --each {} --save {last}", directory.display()), STORY);
    let image = |n: usize| fs::read_to_string(directory.join(format!("{n}.image"))).expect("a file");
    let shown: Vec<String> =
        (1..=4).map(|n| text("show", &image(n)).lines().next().unwrap_or("").to_string()).collect();
    let one = "# 1 package, 0 unmet calls, 0 waiting grants".replace("0 waiting grants", "1 waiting grant");
    let two = "# 2 packages, 0 unmet calls, 0 waiting grants".to_string();
    assert_eq!(shown, [one.clone(), one, two.clone(), two]);
    assert_eq!(fs::read_dir(&directory).expect("a directory").count(), 4);
    assert_eq!(image(4), fs::read_to_string(last).expect("a file"));
    let words =
        format!("{0}/1.image: it is read, and would be overwritten: write to another file", directory.display());
    fails(&format!("judge --each {0} --image {0}/1.image", directory.display()), STORY.as_bytes(), BAD_USE, &words);
}

/// No output goes over an input or another output, under whatever name; nothing is written then.
#[test]
fn nothing_is_overwritten() {
    let (story, image) = (file("kept-story", STORY), story_image("kept-image"));
    let (copy, link, hard) = (absent("kept-copy"), absent("kept-link"), absent("kept-hard"));
    #[cfg(unix)]
    {
        std::os::unix::fs::symlink(&story, &link).expect("a link");
        fs::hard_link(&story, &hard).expect("a link");
    }
    let before = fs::read(&image).expect("a file");
    let read = |file: &str| format!("{file}: it is read, and would be overwritten: write to another file");
    fails(&format!("judge {story} --image {image} --save {image}"), b"", BAD_USE, &read(&image));
    fails(&format!("encode {story} --out {story}"), b"", BAD_USE, &read(&story));
    fails(&format!("encode {story} --out {link}"), b"", BAD_USE, &read(&link));
    fails(&format!("encode {story} --out {hard}"), b"", BAD_USE, &read(&hard));
    let around = story.replace("kept-story", "../tmp/kept-story");
    fails(&format!("encode {story} --out {around}"), b"", BAD_USE, &read(&around));
    fails(&format!("show {image} --names {story} --out {story}"), b"", BAD_USE, &read(&story));
    let twice = format!("{copy}: two outputs would go there: write them to two files");
    fails(&format!("judge {story} --save {copy} --out {copy}"), b"", BAD_USE, &twice);
    assert!(!Path::new(&copy).exists());
    assert_eq!(
        (fs::read(&image).expect("a file"), fs::read_to_string(&story).expect("a file")),
        (before, STORY.to_string())
    );
    // A device takes both.
    text(&format!("judge {story} --save /dev/null --out /dev/null"), "");
    // `rt all check` stops at a link anywhere below the repository.
    #[cfg(unix)]
    fs::remove_file(&link).expect("a link");
}

/// Who gets at a service: grants in force and waiting, calls, needs, and chains of calls.
#[test]
fn who_gets_at_a_service() {
    let card = "name log F000000001\nname organiser F000000002\nname tee F000000003\nname desk F000000004\nname purse F000000005\n\
        load log\n provides 0.0\n provides 0.1\n grants 0.0 to organiser\n grants 0.0 to purse\n grants 0.2 to organiser\n grants 0.2 to purse\n\
        load organiser\n provides 1.0\n calls log 0.0\n needs log 0.0\n calls log 0.2\n grants 1.0 to tee\n\
        load tee\n provides 2.0\n calls organiser 1.0\n grants 2.0 to desk\n\
        load desk\n calls tee 2.0\n calls purse 3.0\n";
    let (names, image) = (file("who-names", card), absent("who-image"));
    text(&format!("judge --save {image}"), card);
    let who = |words: &str| text(&format!("who {image} {words} --names {names}"), "");
    assert_eq!(
        who("log 0.0"),
        "log 0.0 is service 0 of package 0\n    granted to organiser\n    granted to purse, waiting for the package\n    \
         called by organiser, and needed\n    \
         reached by tee through others: tee calls organiser 1.0, organiser calls log 0.0\n    \
         reached by desk through others: desk calls tee 2.0, tee calls organiser 1.0, organiser calls log 0.0\n"
    );
    let nobody = "    granted to nobody\n    called by nobody\n    reached through others by nobody\n";
    assert_eq!(who("log 0.1"), format!("log 0.1 is service 1 of package 0\n{nobody}"));
    let early = "log 0.2 is not provided by package 0\n    granted to organiser, waiting for the service\n    \
                 granted to purse, waiting for the package and the service\n    called by organiser, unmet\n    \
                 reached through others by nobody\n";
    assert_eq!(who("0 0.2"), early);
    assert_eq!(who("F000000001"), [who("log 0.0"), who("log 0.1"), who("log 0.2")].join("\n"));
    let absent =
        "purse 3.0 is not on the card: purse is not installed\n    granted to nobody\n    called by desk, unmet\n    \
                  reached through others by nobody\n";
    assert_eq!(who("purse"), absent);
    assert_eq!(who("desk"), "desk has no services on this card, and nobody calls any\n");
    let json = text(&format!("who {image} log 0.0 --names {names} --json"), "");
    assert!(well_formed(&json) && json.contains("\"waits\": \"the package\""), "{json}");
    fails(
        &format!("who {image} bar"),
        b"",
        BAD_USE,
        "'bar' is neither an AID in hexadecimal nor a name that --names FILE gives",
    );
    fails(
        &format!("who {image} 0 x"),
        b"",
        BAD_USE,
        "'x' is neither a service, as in 0.1, nor a name that --names FILE gives to a service of F000000001",
    );
    fails(&format!("who {image} 6"), b"", BAD_INPUT, "no package has the number 6; there are: 0, 1, 2, 3");
    fails(&format!("who {image}"), b"", BAD_USE, "PACKAGE is missing: cardtool who IMAGE PACKAGE [SERVICE]");
}

/// A contract is read out as the text of the record that loads it.
#[test]
fn a_contract_is_read_out() {
    let image = story_image("read-out");
    let load = "load F000000002\n    calls F000000001 0.0\n    needs F000000001 0.0\n";
    for package in ["1", "F000000002"] {
        let expected = format!("# package 1, read out by the proved engine\n{load}");
        assert_eq!(text(&format!("readout {image} {package}"), ""), expected);
    }
    assert_eq!(text("encode", &text(&format!("readout {image} 1"), "")), text("encode", load));
    fails(&format!("readout {image} F000000009"), b"", BAD_INPUT, "F000000009 is not on the card");
    fails(&format!("readout {image} 5"), b"", BAD_INPUT, "no package has the number 5; there are: 0, 1");
    let json = text(&format!("readout {image} 1 --json"), "");
    assert!(json.contains("\"kind\": 1") && json.contains(text("encode", load).trim_end()), "{json}");
}

/// Cards are compared by contracts: what has gone, come or turned, whatever the numbers.
#[test]
fn two_images_are_compared() {
    let [one, other] = ["diff-one", "diff-other"].map(absent);
    let image = |file: &str, story: &str| drop(text(&format!("judge --save {file}"), story));
    image(&one, STORY);
    image(&other, STORY);
    assert_eq!(text(&format!("diff {one} {other}"), ""), "the images are the same\n");
    // The same contracts under other numbers.
    image(
        &other,
        "load F000000002\n calls F000000001 0.0\nload F000000001\n provides 0.0\n grants 0.0 to F000000002\n\
                   replace F000000002\n calls F000000001 0.0\n needs F000000001 0.0\n",
    );
    let same = "the contracts are the same; numbers or the order of the lists are not\n";
    assert_eq!(text(&format!("diff {one} {other}"), ""), same);
    image(
        &other,
        "load F000000001\n provides 0.1\n grants 0.0 to F000000002\n grants 0.1 to F000000009\n\
                   load F000000003\n calls F000000001 0.0\nload F000000002\n calls F000000001 0.0\n",
    );
    let said = fails_after(&format!("diff {one} {other}"), "", "the contracts differ");
    assert_eq!(
        said,
        "  package F000000001\n\
         -     provides 0.0\n\
         +     provides 0.1\n\
         +     grants 0.1 to F000000009\n\
         ~     grants 0.0 to F000000002 waits now\n  \
           package F000000002\n\
         -     needs F000000001 0.0\n\
         ~     calls F000000001 0.0 is unmet now\n\
         + package F000000003\n\
         +     calls F000000001 0.0\n"
    );
    let back = fails_after(&format!("diff {other} {one}"), "", "the contracts differ");
    for row in [
        "- package F000000003\n",
        "~     grants 0.0 to F000000002 is in force now\n",
        "~     calls F000000001 0.0 is met now\n",
    ] {
        assert!(back.contains(row), "{back}");
    }
    let json = fails_after(&format!("diff {one} {other} --json"), "", "the contracts differ");
    assert!(json.contains("\"same\": false") && json.contains("\"change\": \"turned\""), "{json}");
    fails("diff - -", b"", BAD_USE, "standard input can be read once, and '-' stands twice");
    fails(&format!("diff {one}"), b"", BAD_USE, "IMAGE is missing: cardtool diff IMAGE IMAGE");
}

#[test]
fn pictures_are_written() {
    let image = story_image("drawn");
    let [card, reach] = ["", "--reach"].map(|option| text(&format!("draw {image} {option}"), ""));
    assert!(card.starts_with("<svg ") && card.ends_with("</svg>\n") && card != reach, "{card}");
    let json = text(&format!("draw {image} --json"), "");
    assert!(json.starts_with("{\"svg\": \"<svg "), "{json}");
}

/// `--json` of every command is JSON, of bad input too, and has what the text has.
#[test]
fn everything_is_printed_as_json_too() {
    let (story, image, old) = (file("json-story", STORY), story_image("json-image"), file("json-old", OLD));
    let hex = file("json-hex", text("encode", STORY));
    for (arguments, part) in [
        (format!("encode {story}"), "\"record\": \"unload F000000001\""),
        (format!("decode {hex}"), "\"card\": \"small\",\n      \"kind\": 1"),
        (format!("judge {story}"), "\"cause\": \"a met call would stand without its grant\""),
        (format!("show {image}"), "\"version\": \"02\""),
        (format!("dump {image}"), "\"words\": \"length, version\""),
        (format!("dump --record {hex}"), "\"words\": \"kind 2: remove the package\""),
        (format!("convert {old}"), "\"engine\": \"the proved engine\""),
        (format!("enlarge {image}"), "\"card\": \"large\",\n    \"version\": \"03\""),
        (format!("judge --large {story}"), "\"card\": \"large\""),
        (format!("who {image} 0"), "\"provided\": true"),
        (format!("readout {image} 0"), "\"number\": 0"),
        (format!("diff {image} {image}"), "\"same\": true"),
        (format!("draw {image}"), "\"svg\": "),
    ] {
        let printed = text(&format!("{arguments} --json"), "");
        assert!(well_formed(&printed) && printed.contains(part), "{arguments}: {printed}");
    }
    assert!(well_formed(&text("build --json", &text(&format!("show {image}"), ""))));
    let printed = fails_after(
        "encode --json",
        "load F0",
        "standard input: line 1, column 6: an AID has 5 to 16 bytes, this one has 1",
    );
    let expected = "{\n  \"faults\": [\n    {\"source\": \"standard input\", \"line\": 1, \"column\": 6, \
                    \"words\": \"an AID has 5 to 16 bytes, this one has 1\"}\n  ]\n}\n";
    assert_eq!(printed, expected);
    let printed = fails_after(
        "show --json",
        "04",
        "standard input: byte 1: an image has 1110 bytes, of a large card 3639, or 1094 in version 01, here are 1",
    );
    assert!(well_formed(&printed) && printed.contains("\"byte\": 1"), "{printed}");
}

/// Whether a text is one JSON value and a line's end.
fn well_formed(text: &str) -> bool {
    let rest = value(text.trim_start());
    rest == Some("\n")
}

/// What follows a JSON value.
fn value(text: &str) -> Option<&str> {
    match text.chars().next()? {
        '{' => items(&text[1..], '}', |text| value(string(text)?.strip_prefix(':')?.trim_start())),
        '[' => items(&text[1..], ']', value),
        '"' => string(text),
        _ => {
            let end = text.find(|c: char| !c.is_ascii_alphanumeric()).unwrap_or(text.len());
            let word = &text[..end];
            (matches!(word, "true" | "false" | "null") || word.parse::<u64>().is_ok()).then_some(&text[end..])
        }
    }
}

fn items<'a>(text: &'a str, close: char, item: impl Fn(&'a str) -> Option<&'a str>) -> Option<&'a str> {
    let mut rest = text.trim_start();
    if let Some(rest) = rest.strip_prefix(close) {
        return Some(rest);
    }
    loop {
        rest = item(rest)?.trim_start();
        match rest.strip_prefix(',') {
            Some(next) => rest = next.trim_start(),
            None => return rest.strip_prefix(close),
        }
    }
}

fn string(text: &str) -> Option<&str> {
    let mut chars = text.strip_prefix('"')?.char_indices();
    while let Some((at, c)) = chars.next() {
        match c {
            '"' => return Some(&text[at + 2..]),
            '\\' => drop(chars.next()?),
            c if c.is_control() => return None,
            _ => {}
        }
    }
    None
}

/// A byte order mark is taken, and long words are cut in messages.
#[test]
fn what_editors_leave_is_taken() {
    assert_eq!(text("encode", &format!("\u{FEFF}{STORY}")), text("encode", STORY));
    assert_eq!(text("show", "\u{FEFF}04 56 02\n1110:"), text("show", "04 56 02\n1110:"));
    let long = "x".repeat(50);
    let words = format!(
        "standard input: line 1, column 6: '{}...' is neither an AID in hexadecimal nor a name given above",
        &long[..40]
    );
    fails("encode", format!("load {long}").as_bytes(), BAD_INPUT, &words);
}

const COMMANDS: &str = "encode, decode, judge, show, build, who, readout, diff, draw, dump, convert, enlarge";

#[test]
fn bad_use_is_2() {
    let there = format!("there are {COMMANDS}, --help and --version");
    fails("code", b"", BAD_USE, &format!("'code' is no command; {there}"));
    fails("", b"", BAD_USE, &format!("a command is missing; {there}"));
    let words = "'--both' is no option of encode; there are --large, --raw, --as-is, --names, --out, --json";
    fails("encode --both", b"", BAD_USE, words);
    fails("encode --out", b"", BAD_USE, "--out lacks its FILE");
    fails("judge --each", b"", BAD_USE, "--each lacks its DIRECTORY");
    fails("judge --save a --save b", b"", BAD_USE, "--save stands twice");
    fails("encode a b", b"", BAD_USE, "'b' is one too many: cardtool encode [FILE]");
    for arguments in ["encode no-such-file", "decode --names no-such-file", "encode --out no-such-directory/file"] {
        assert_eq!(tool(arguments, b"").expect_err(arguments).code, BAD_USE);
    }
}

#[test]
fn every_command_has_help() {
    let help = text("--help", "");
    for command in COMMANDS.split(", ") {
        assert!(help.contains(&format!("\n  {command} ")), "{help}");
        let own = text(&format!("{command} --help"), "");
        assert!(own.starts_with(&format!("cardtool {command} ")) && own.contains("--out FILE"), "{own}");
        assert!(own.contains("--names FILE") && own.contains("--json") && own.contains("--help"), "{own}");
    }
    assert!(text("who --help", "").starts_with("cardtool who [OPTIONS] IMAGE PACKAGE [SERVICE]\n"));
}

/// The version says which engine answers, and what it was proved with.
#[test]
fn the_version_says_which_engine_answers() {
    let words = format!(
        "cardtool {}: answers by the proved engine (logic {}); the second engine is there for --both\n",
        env!("CARGO_PKG_VERSION"),
        card::LOGIC
    );
    assert_eq!(text("--version", ""), words);
    assert!(text("--help", "").contains("This build answers by the proved engine (logic "));
}
