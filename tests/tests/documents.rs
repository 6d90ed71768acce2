//! The documents say what is so: their offsets are those of an image, and the header's numbers are those of the answers
//! and sizes. What their commands print is held by the tool's own tests.

use comparison::card::{IMAGE, LARGE_IMAGE, LONGEST_LARGE_RECORD, LONGEST_RECORD, OLD_IMAGE, ON_LARGE};
use comparison::rules::Rules;
use comparison::tables::{Bit, Form};
use std::collections::BTreeSet;
use std::fs;
use std::path::{Path, PathBuf};

fn root() -> &'static Path {
    Path::new(env!("CARGO_MANIFEST_DIR")).parent().expect("the repository")
}

fn document(name: &str) -> String {
    fs::read_to_string(root().join(name)).expect(name)
}

/// The lines of a document from a heading to the next of its sort.
fn section(text: &str, heading: &str) -> String {
    let lines = text.lines().skip_while(|line| *line != heading);
    let own = lines.enumerate().take_while(|(n, line)| *n == 0 || !line.starts_with("## "));
    own.map(|(_, line)| format!("{line}\n")).collect()
}

/// The cells of each row of a document's tables.
fn table_rows(text: &str) -> Vec<Vec<String>> {
    let rows = text.lines().filter_map(|line| line.strip_prefix("| ")?.strip_suffix(" |"));
    rows.map(|row| row.split(" | ").map(|cell| cell.trim().to_string()).collect()).collect()
}

/// The number that a cell has alone.
fn number(cell: &str) -> Option<usize> {
    cell.parse().ok()
}

/// Each card's part of the document, and the rules on that card.
const IMAGES: [(&str, Rules); 2] =
    [("## The image, 1,110 bytes", Rules::IN_FORCE), ("## The large image, 3,639 bytes", ON_LARGE)];

#[test]
fn the_offsets_of_packages_and_rows_are_right() {
    for (heading, rules) in IMAGES {
        offsets_are_right(&table_rows(&section(&document("docs/FORMATS.md"), heading)), Form::of(rules));
    }
}

fn offsets_are_right(rows: &[Vec<String>], form: Form) {
    let numbers: Vec<Vec<usize>> =
        rows.iter().filter_map(|row| row.iter().map(|cell| number(cell)).collect()).collect();
    let (packages, lists): (Vec<_>, Vec<_>) = numbers.into_iter().partition(|row| row.len() == 7);
    // A cell's first byte, also where the bit of service 0 is in its second.
    let cell = form.sizes.services / 8 - 1;
    let package = |n: usize| {
        let bits = Bit { caller: n, callee: 0, service: 0 };
        let own = Bit { caller: 0, callee: n, service: 0 };
        let rows = [form.provided_bit(n, 0), form.call_bit(&bits), form.grant_bit(&own), form.need_bit(&bits)];
        [&[n, form.aid(n), form.token_pair(n, 0)], &rows.map(|at| at.byte - cell)[..]].concat()
    };
    assert_eq!(packages, (0..form.sizes.packages).map(package).collect::<Vec<_>>());
    let list = |n: usize| vec![n, form.unmet_at(n), form.waiting_at(n)];
    assert_eq!(lists, (0..form.sizes.listed).map(list).collect::<Vec<_>>());
}

/// The rows of version 01's waiting grants.
#[test]
fn the_offsets_of_old_rows_are_right() {
    let rows = table_rows(&section(&document("docs/FORMATS.md"), "## Version 01 of the image, 1,094 bytes"));
    let numbers: Vec<Vec<usize>> =
        rows.iter().filter_map(|row| row.iter().map(|cell| number(cell)).collect()).collect();
    let form = Form::of(Rules::R_7);
    assert_eq!(numbers, (0..form.sizes.listed).map(|n| vec![n, form.waiting_at(n)]).collect::<Vec<_>>());
}

#[test]
fn the_areas_begin_where_an_image_has_them() {
    for (heading, rules) in IMAGES {
        areas_are_right(&table_rows(&section(&document("docs/FORMATS.md"), heading)), Form::of(rules));
    }
}

fn areas_are_right(rows: &[Vec<String>], form: Form) {
    let areas: Vec<(usize, usize)> = rows
        .iter()
        .filter(|row| row.len() == 4)
        .filter_map(|row| {
            let offset = number(row[0].split(' ').next()?)?;
            Some((offset, usize::from_str_radix(&row[1], 16).expect("a hexadecimal offset")))
        })
        .collect();
    let Form { size, used, aids, tokens, provides, calls, grants, needs, unmet, waiting, .. } = form;
    let lists = [unmet, unmet + 1, waiting, waiting + 1];
    let starts = [&[0, 2, used, aids, tokens, provides, calls, grants, needs], &lists[..], &[size]].concat();
    assert_eq!(areas, starts.into_iter().map(|start| (start, start)).collect::<Vec<_>>());
}

#[test]
fn the_results_are_written_alike_in_both_ways() {
    let rows = table_rows(&section(&document("docs/FORMATS.md"), "## The results of the C functions"));
    let results: Vec<(usize, usize)> = rows
        .iter()
        .filter_map(|row| {
            let hexadecimal = usize::from_str_radix(&row[1].replace(' ', ""), 16).ok()?;
            Some((number(&row[0].replace(',', ""))?, hexadecimal))
        })
        .collect();
    assert_eq!(results.len(), 6);
    assert!(results.iter().all(|(decimal, hexadecimal)| decimal == hexadecimal), "{results:?}");
}

#[test]
fn the_headers_numbers_are_those_of_the_card() {
    let header = document("include/card.h");
    let defined = |name: &str| {
        let value = header.lines().find_map(|line| line.strip_prefix(&format!("#define {name} ")));
        value.and_then(number).expect(name)
    };
    let sizes = ["CARD_IMAGE_SIZE", "CARD_OLD_IMAGE_SIZE", "CARD_RECORD_SIZE"].map(defined);
    assert_eq!(sizes, [IMAGE, OLD_IMAGE, LONGEST_RECORD]);
    let large = ["CARD_LARGE_IMAGE_SIZE", "CARD_LARGE_RECORD_SIZE"].map(defined);
    assert_eq!(large, [LARGE_IMAGE, LONGEST_LARGE_RECORD]);
    let answers = section(&header, "enum card_answer {").replace(',', " ");
    let answers: Vec<usize> = answers
        .lines()
        .take_while(|line| *line != "};")
        .filter_map(|line| number(line.split_once(" = ")?.1.split(' ').next()?))
        .collect();
    assert_eq!(answers, (0..=12).collect::<Vec<usize>>());
}

/// The names between backquotes.
fn quoted(text: &str) -> impl Iterator<Item = &str> {
    text.split('`').skip(1).step_by(2)
}

/// A crate and an edit of it, which the checker must refuse.
type Edit = (String, String);

fn edits_there() -> BTreeSet<Edit> {
    let names = |place: PathBuf| {
        let files = fs::read_dir(place).into_iter().flatten();
        files.map(|file| file.expect("a file").file_name().into_string().expect("a name")).collect::<Vec<_>>()
    };
    let crates = names(root().join("crates")).into_iter();
    let edits = crates.flat_map(|name| {
        let edits = names(root().join("crates").join(&name).join("must-fail"));
        edits.into_iter().filter_map(move |file| Some((name.clone(), file.strip_suffix(".edit")?.to_string())))
    });
    edits.collect()
}

/// A crate has its own table, which the line before it names, or a column names the crate.
fn edits_named(text: &str) -> Vec<Edit> {
    let (mut named, mut own) = (Vec::new(), String::new());
    for line in text.lines() {
        let place = quoted(line).next().and_then(|place| place.strip_prefix("crates/")?.strip_suffix("/must-fail/"));
        own = place.map_or(own, str::to_string);
        match table_rows(line).pop().unwrap_or_default().as_slice() {
            [edits, _] => named.extend(quoted(edits).map(|edit| (own.clone(), edit.to_string()))),
            [name, edit, ..] => named.extend(quoted(edit).map(|edit| (name.clone(), edit.to_string()))),
            _ => {}
        }
    }
    named
}

#[test]
fn every_edit_that_must_fail_is_named_once() {
    let named = edits_named(&section(&document("docs/PROOFS.md"), "## Edits that must fail"));
    assert_eq!(named.iter().cloned().collect::<BTreeSet<_>>(), edits_there());
    assert_eq!(named.len(), edits_there().len());
}
