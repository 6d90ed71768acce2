//! A build without the proved engine cannot be taken for one with it.
#![cfg(not(feature = "proved"))]

use std::process::{Command, Output};

fn cardtool(arguments: &[&str]) -> Output {
    let repository = concat!(env!("CARGO_MANIFEST_DIR"), "/../..");
    Command::new(env!("CARGO_BIN_EXE_cardtool")).args(arguments).current_dir(repository).output().expect("cardtool")
}

fn printed(arguments: &[&str]) -> String {
    String::from_utf8_lossy(&cardtool(arguments).stdout).into_owned()
}

#[test]
fn it_says_that_it_is_not_proved() {
    let words = "answers by the second engine, which is NOT proved: built without the archive of the proved engine";
    assert_eq!(printed(&["--version"]), format!("cardtool {}: {words}\n", env!("CARGO_PKG_VERSION")));
    assert!(printed(&["--help"]).ends_with(&format!("This build {words}.\n")));
}

#[test]
fn every_answer_says_whose_it_is() {
    let second = "the second engine (not proved)";
    let judged = printed(&["judge", "examples/club.txt"]);
    assert!(judged.starts_with(&format!("# answers of {second}\n1 load log: accepted, package 0\n")), "{judged}");
    assert!(printed(&["judge", "--json", "examples/club.txt"]).contains(&format!("\"engine\": \"{second}\"")));
    assert!(printed(&["convert", "examples/old.image"]).starts_with(&format!("# converted by {second}\n")));
    let judged = printed(&["judge", "--large", "examples/county.txt"]);
    assert!(judged.starts_with(&format!("# answers of {second} on a large card\n1 load log: accepted, package 0\n")));
    assert!(judged.ends_with("12 accepted, 2 refused, 14 of 14 as expected\n"), "{judged}");
    let image = concat!(env!("CARGO_TARGET_TMPDIR"), "/without.image");
    printed(&["judge", "examples/club.txt", "--save", image]);
    assert!(printed(&["enlarge", image]).starts_with(&format!("# enlarged by {second}\n")));
}

#[test]
fn there_is_nothing_to_compare_with() {
    let ended = cardtool(&["judge", "--both", "examples/club.txt"]);
    let told = String::from_utf8_lossy(&ended.stderr).into_owned();
    let words = "cardtool: --both: this build has the second engine alone: build it with the proved one, as docs/TESTERS.md says\n";
    assert_eq!((ended.status.code(), told.as_str()), (Some(2), words));
}
