//! The documents' commands print what stands below them: the tester's in a copy of the examples, those of hosts in C and
//! Rust in a folder outside the repository.
#![cfg(feature = "proved")]

use std::env;
use std::fs;
use std::path::{Path, PathBuf};
use std::process::Command;

fn root() -> &'static Path {
    Path::new(env!("CARGO_MANIFEST_DIR")).ancestors().nth(2).expect("the repository")
}

fn document(name: &str) -> String {
    fs::read_to_string(root().join(name)).expect(name)
}

/// The lines of a document from a heading to the next of its sort.
fn section(text: &str, heading: &str) -> String {
    let lines = text.lines().skip_while(|line| *line != heading);
    let own = lines.enumerate().take_while(|(n, line)| *n == 0 || !line.starts_with("## "));
    own.map(|(_, line)| format!("{line}\n")).collect()
}

/// Each command, and the lines below it. A command stands in an indented block after `$`.
fn commands(text: &str) -> Vec<(String, String)> {
    let mut commands: Vec<(String, String)> = Vec::new();
    let mut in_block = false;
    for line in text.lines() {
        match (line.strip_prefix("    $ "), line.strip_prefix("    ")) {
            (Some(command), _) => {
                commands.push((command.to_string(), String::new()));
                in_block = true;
            }
            (None, Some(printed)) if in_block => {
                let (_, output) = commands.last_mut().expect("a command");
                output.push_str(&format!("{printed}\n"));
            }
            _ => in_block = false,
        }
    }
    commands
}

/// A folder outside the repository, which goes with this value.
struct Place(PathBuf);

impl Place {
    /// With copies of these files and folders of the repository below a folder.
    fn with(name: &str, below: &str, copied: &[&str]) -> Place {
        let place = Place(env::temp_dir().join(format!("card-documents-{name}-{}", std::process::id())));
        let _ = fs::remove_dir_all(&place.0);
        for file in copied {
            let to = place.0.join(below).join(file);
            fs::create_dir_all(to.parent().expect("a folder")).expect("a folder");
            let copied = Command::new("cp").arg("-r").arg(root().join(file)).arg(&to).status();
            assert!(copied.expect("cp").success(), "{file}");
        }
        fs::create_dir_all(place.0.join(below).join("target/staticlib")).expect("a folder");
        place
    }

    /// Runs the commands in order, and compares what each prints; how many there are. A file that is shown and is not
    /// there is written first, as a reader would.
    fn run(&self, text: &str) -> usize {
        let programs = Path::new(env!("CARGO_BIN_EXE_cardtool")).parent().expect("a directory");
        let path = format!("{}:{}", programs.display(), env::var("PATH").expect("a path"));
        let commands = commands(text);
        for (command, printed) in &commands {
            let shown = command.strip_prefix("cat ").map(|file| self.0.join(file));
            if let Some(file) = shown.filter(|file| !file.exists()) {
                fs::write(file, printed).expect(command);
            }
            let run = Command::new("bash")
                .args(["-c", &format!("{{ {command}; }} 2>&1")])
                .current_dir(&self.0)
                .env("PATH", &path)
                .env_remove("CARD_ARCHIVE_DIR")
                .env_remove("CARGO_TARGET_DIR")
                .output()
                .expect("bash");
            assert_eq!(String::from_utf8_lossy(&run.stdout), *printed, "{command}");
        }
        commands.len()
    }
}

impl Drop for Place {
    fn drop(&mut self) {
        let _ = fs::remove_dir_all(&self.0);
    }
}

#[test]
fn the_readmes_card_is_judged_as_it_says() {
    let place = Place::with("readme", "", &["examples"]);
    assert_eq!(place.run(&section(&document("README.md"), "## Judge a card")), 2);
}

#[test]
fn the_testers_commands_print_what_stands_there() {
    let place = Place::with("testers", "", &["examples", "docs/clubhouse.svg"]);
    assert_eq!(place.run(&document("docs/TESTERS.md")), 45);
}

#[test]
fn the_worked_dump_is_what_the_tool_prints() {
    let place = Place::with("formats", "", &["examples"]);
    assert_eq!(place.run(&document("docs/FORMATS.md")), 12);
}

/// The repository's parts that a host in C or Rust takes, as `engine/`.
fn host(name: &str) -> Place {
    let parts = ["Makefile", "include", "examples", "hosts/card", "toolchain.txt", "Cargo.toml", ".cargo/config.toml"];
    let place = Place::with(name, "engine", &parts);
    let archive = env::var_os("CARD_ARCHIVE_DIR").map_or(root().join("target/staticlib"), PathBuf::from);
    fs::copy(archive.join("libcard.a"), place.0.join("engine/target/staticlib/libcard.a")).expect("the archive");
    place
}

#[test]
fn the_page_for_hosts_in_c_is_right() {
    assert_eq!(host("c").run(&document("docs/C.md")), 9);
}

#[test]
fn the_page_for_hosts_in_rust_is_right() {
    assert_eq!(host("rust").run(&document("docs/RUST.md")), 14);
}
