//! Any bytes through the program: every command ends, with what is there or with what is wrong, and no engine is found to
//! disagree with the tool. Images and records of both cards, whole and damaged.

use cardtool::program::{Failure, BAD_INPUT, BAD_USE};
use cardtool::tool::run;
use std::fs;
use std::path::PathBuf;
use std::sync::OnceLock;

/// A text for either card: two packages that call each other, and a row in each list.
const STORY: &str = "\
load F000000001
    provides 0.0
    provides 0.1
    grants 0.0 to F000000002
    grants 0.1 to F000000009
load F000000002
    provides 7.127
    calls F000000001 0.0
    calls F000000003 3.7
    needs F000000001 0.0
    grants 7.127 to F000000001
add F000000001 calls F000000002 7.127
replace F000000002
    provides 7.127
    calls F000000001 0.0
    grants 7.127 to F000000001
remove F000000001 grants 0.1 to F000000009
unload F000000002
";

fn tool(arguments: &str, input: &[u8]) -> Result<Vec<u8>, Failure> {
    let arguments: Vec<String> = arguments.split_whitespace().map(str::to_string).collect();
    run(&arguments, &mut &input[..])
}

fn bytes(arguments: &str, input: &[u8]) -> Vec<u8> {
    tool(arguments, input).unwrap_or_else(|failure| panic!("{}", failure.words))
}

fn file(name: &str, content: &[u8]) -> String {
    let path = PathBuf::from(env!("CARGO_TARGET_TMPDIR")).join(name);
    fs::write(&path, content).expect("a file");
    path.display().to_string()
}

/// Numbers that look random, and are the same in every run.
struct Random(u64);

impl Random {
    fn below(&mut self, limit: usize) -> usize {
        self.0 = self.0.wrapping_mul(6_364_136_223_846_793_005).wrapping_add(1_442_695_040_888_963_407);
        (self.0 >> 33) as usize % limit
    }

    fn byte(&mut self) -> u8 {
        [0, 1, 2, 5, 8, 16, 32, 128, 255, self.below(256) as u8][self.below(10)]
    }

    /// A few bytes are others; some are gone or more at the end, and then a record's length may say so.
    fn damage(&mut self, whole: &[u8], record: bool) -> Vec<u8> {
        let mut damaged = whole.to_vec();
        match self.below(8) {
            0 => damaged.truncate(self.below(whole.len() + 1)),
            1 => damaged.extend((0..self.below(40)).map(|_| self.byte())),
            _ => {}
        }
        for _ in 0..self.below(4).min(damaged.len()) {
            let at = self.below(damaged.len());
            damaged[at] = self.byte();
        }
        if record && damaged.len() > 1 && self.below(4) > 0 {
            let length = (damaged.len() as u16).to_be_bytes();
            damaged[..2].copy_from_slice(&length);
        }
        damaged
    }
}

/// Whether a command accepts its input; it ends as it may.
fn ends(arguments: &str, input: &[u8]) -> bool {
    match tool(arguments, input) {
        Ok(_) => true,
        Err(Failure { code, words, .. }) => {
            assert!(matches!(code, BAD_INPUT | BAD_USE) && !words.is_empty(), "{arguments}: {words}");
            assert!(!words.contains("One of the two is wrong"), "{arguments}: {words}");
            false
        }
    }
}

/// The images after each record of the story, on both cards.
fn images() -> &'static [Vec<u8>] {
    static IMAGES: OnceLock<Vec<Vec<u8>>> = OnceLock::new();
    IMAGES.get_or_init(judged)
}

fn judged() -> Vec<Vec<u8>> {
    let mut images = Vec::new();
    for option in ["", "--large"] {
        let directory = PathBuf::from(env!("CARGO_TARGET_TMPDIR")).join(format!("damage{option}"));
        bytes(&format!("judge --raw {option} --each {}", directory.display()), STORY.as_bytes());
        images.extend((1..=6).map(|n| fs::read(directory.join(format!("{n}.image"))).expect("a file")));
    }
    images
}

#[test]
fn images_of_any_bytes() {
    let (mut random, images) = (Random(1), images());
    assert_eq!(images.iter().map(Vec::len).collect::<Vec<_>>(), [[1110; 6], [3639; 6]].concat());
    let (mut sound, mut not) = (0, 0);
    for round in 0..1200 {
        let image = match random.below(10) {
            0 => (0..[1094, 1110, 3639, 4000][random.below(4)]).map(|_| random.byte()).collect(),
            _ => random.damage(&images[round % images.len()], false),
        };
        let shown = ends("show --raw", &image);
        sound += usize::from(shown);
        not += usize::from(!shown);
        for command in ["enlarge --raw", "convert --raw", "dump --raw", "show", "show --raw --json"] {
            ends(command, &image);
        }
        let place = file("damaged-image", &image);
        for command in ["who IMAGE 0", "readout IMAGE 1", "draw IMAGE", "draw IMAGE --reach", "diff IMAGE IMAGE"] {
            let read = ends(&format!("{} --raw", command.replace("IMAGE", &place)), b"");
            assert!(shown || !read, "{command}");
        }
        ends(&format!("judge --raw --image {place}"), STORY.as_bytes());
    }
    assert!(sound > 100 && not > 300, "{sound} and {not}");
}

#[test]
fn records_of_any_bytes() {
    let (mut random, images) = (Random(2), images());
    let places: Vec<String> = images.iter().enumerate().map(|(n, image)| file(&format!("whole-{n}"), image)).collect();
    let records: Vec<Vec<u8>> = ["encode", "encode --large"]
        .iter()
        .flat_map(|encode| {
            let lines = String::from_utf8(bytes(encode, STORY.as_bytes())).expect("a text");
            lines.lines().map(|line| cardtool::hex::from_hex(line).expect("bytes")).collect::<Vec<_>>()
        })
        .collect();
    let (mut read, mut not) = (0, 0);
    for round in 0..1500 {
        let record = match random.below(10) {
            0 => (0..random.below(60)).map(|_| random.byte()).collect(),
            _ => random.damage(&records[round % records.len()], true),
        };
        let hex = cardtool::hex::to_hex(&record);
        let decoded = ends("decode", hex.as_bytes());
        read += usize::from(decoded);
        not += usize::from(!decoded);
        assert_eq!(ends("dump --record", hex.as_bytes()), decoded);
        ends("decode --raw", &record);
        let image = &places[random.below(places.len())];
        for (form, input) in [("hex", hex.as_bytes()), ("raw", &record)] {
            assert!(ends(&format!("judge --raw --image {image} --from {form}"), input));
        }
    }
    assert!(read > 300 && not > 300, "{read} and {not}");
}
