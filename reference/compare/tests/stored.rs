//! The stored outputs, section "Case file", the console and change request K4: each is byte for byte what the model or
//! `additions` prints.

use additions::console::console;
use compare::programs::printed_page;
use model::casefile::program;
use std::fs::{read, read_dir};

const DATA: &str = "crates/cases/data";

fn path(file: &str) -> String {
    format!("{}/../../{file}", env!("CARGO_MANIFEST_DIR"))
}

fn bytes(file: &str) -> Vec<u8> {
    read(path(file)).unwrap_or_else(|error| panic!("{file}: {error}"))
}

/// The files of the data that end so, without the ending, in alphabetical order.
fn names(ending: &str) -> Vec<String> {
    let files = read_dir(path(DATA)).unwrap_or_else(|error| panic!("{DATA}: {error}"));
    let files = files.map(|file| file.unwrap().file_name().into_string().unwrap());
    let mut names: Vec<String> = files.filter_map(|file| Some(file.strip_suffix(ending)?.to_string())).collect();
    assert!(!names.is_empty(), "{DATA} has no {ending}");
    names.sort();
    names
}

fn printed(case: &str) -> String {
    program(&bytes(&format!("{DATA}/{case}.case")))
}

fn assert_stored(file: &str, printed: &str) {
    let stored = bytes(file);
    let alike = stored.iter().zip(printed.as_bytes()).take_while(|(stored, printed)| stored == printed).count();
    let line = printed[..alike].matches('\n').count() + 1;
    assert!(stored == printed.as_bytes(), "{file}: line {line} is not what is printed");
}

#[test]
fn the_expected_output_of_each_case() {
    let cases = names(".case");
    assert_eq!(cases, names(".expected"));
    for case in cases {
        assert_stored(&format!("{DATA}/{case}.expected"), &printed(&case));
    }
}

#[test]
fn the_output_of_the_program_for_all_cases() {
    let arguments = String::from_utf8(bytes("crates/cases/args")).unwrap();
    let mut cases: Vec<&str> = arguments.lines().map(|file| file.strip_suffix(".case").unwrap()).collect();
    let all: String = cases.iter().map(|case| format!("{case}.case\n{}", printed(case))).collect();
    assert_stored("crates/cases/stdout", &all);
    cases.sort();
    assert_eq!(cases, names(".case"));
}

#[test]
fn the_output_of_the_statement_program() {
    assert_stored("crates/arvadush/stdout", &program(&bytes("crates/arvadush/stdin")));
}

#[test]
fn the_output_of_the_console() {
    assert_stored("examples/c/console.expected", &console(&bytes("examples/c/console.script")).text);
}

#[test]
fn the_output_of_the_page_program() {
    let (page, status) = printed_page(&bytes("examples/cases/year.case"));
    assert_eq!(status, Some(0));
    assert_stored("examples/c/page.expected", &String::from_utf8(page).unwrap());
}
