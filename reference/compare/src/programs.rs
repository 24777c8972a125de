//! Sections "Case file" and "Account and its calls", and change requests K2 and K4: the built programs against what the
//! model and its additions give.

use crate::inputs;
use crate::random::Random;
use model::casefile::{read, COUNTS, MARKS, WEIGHTS};
use model::statement::refusal_text;
use model::DONE;
use std::io::Write;
use std::process::{Command, Stdio};

const STORED_SCRIPT: &[u8] = include_bytes!("../../../examples/c/console.script");
const STORED_OUTPUT: &str = include_str!("../../../examples/c/console.expected");

const EXAMPLES: &str = concat!(env!("CARGO_MANIFEST_DIR"), "/../../examples/cases");

/// What a program has to print, and its exit status where that is laid down.
type Expected = (Vec<u8>, Option<i32>);

/// What a program prints for what it is given on standard input, and its exit status unless a signal ended it.
fn run(program: &str, input: &[u8]) -> (Vec<u8>, Option<i32>) {
    let mut child = Command::new(program)
        .stdin(Stdio::piped())
        .stdout(Stdio::piped())
        .spawn()
        .unwrap_or_else(|error| panic!("{program}: {error}"));
    let mut stdin = child.stdin.take().unwrap();
    let input = input.to_vec();
    // The program may stop reading before the end.
    let writer = std::thread::spawn(move || drop(stdin.write_all(&input)));
    let output = child.wait_with_output().unwrap();
    writer.join().unwrap();
    (output.stdout, output.status.code())
}

/// Runs a program on one input, and reports it if the program does something else than expected.
fn check(program: &str, name: &str, input: &[u8], expected: Expected, report: &mut impl FnMut(String)) {
    let (printed, status) = run(program, input);
    if printed != expected.0 || expected.1.is_some() && status != expected.1 {
        let (printed, right) = (String::from_utf8_lossy(&printed), String::from_utf8_lossy(&expected.0));
        report(format!(
            "{program}, {name}\ninput: {:?}\nprogram: {status:?}\n{printed}\nmodel: {:?}\n{right}",
            input.escape_ascii().to_string(),
            expected.1
        ));
    }
}

/// Runs a program on generated inputs.
fn compare(
    program: &str,
    runs: u64,
    seed: u64,
    generate: fn(&mut Random) -> Vec<u8>,
    model: fn(&[u8]) -> Expected,
    report: &mut impl FnMut(String),
) {
    for index in 0..runs {
        let input = generate(&mut Random::new(seed, index));
        check(program, &format!("run {index}, seed {seed}"), &input, model(&input), report);
    }
}

pub fn statement(program: &str, runs: u64, seed: u64, mut report: impl FnMut(String)) {
    let model = |file: &[u8]| (model::casefile::program(file).into_bytes(), None);
    compare(program, runs, seed, inputs::file, model, &mut report);
}

/// The case files among the examples, each with its path.
fn examples() -> Vec<(String, Vec<u8>)> {
    let paths = std::fs::read_dir(EXAMPLES).unwrap().map(|entry| entry.unwrap().path());
    let cases = paths.filter(|path| path.extension().is_some_and(|ending| ending == "case"));
    let files: Vec<_> = cases.map(|path| (path.display().to_string(), std::fs::read(path).unwrap())).collect();
    assert!(!files.is_empty(), "{EXAMPLES} has no case file");
    files
}

/// The example files, and then generated ones. Returns the number of examples.
fn case_files(
    program: &str,
    runs: u64,
    seed: u64,
    model: fn(&[u8]) -> Expected,
    report: &mut impl FnMut(String),
) -> usize {
    let examples = examples();
    examples.iter().for_each(|(path, file)| check(program, path, file, model(file), report));
    compare(program, runs, seed, inputs::file, model, report);
    examples.len()
}

/// A file that the reader takes comes back as it is.
pub fn rewrite(program: &str, runs: u64, seed: u64, mut report: impl FnMut(String)) -> usize {
    let model = |file: &[u8]| match read(file, &mut [0; WEIGHTS], &mut [0; MARKS], &mut [0; COUNTS]) {
        (DONE, _) => (file.to_vec(), Some(0)),
        (answer, _) => (refusal_text(answer).into_bytes(), Some(1)),
    };
    case_files(program, runs, seed, model, &mut report)
}

/// What the program `page` prints for a case file: the page, or the refusal of the reader or of the page.
pub fn printed_page(file: &[u8]) -> Expected {
    let (mut weights, mut marks, mut counts) = ([0; WEIGHTS], [0; MARKS], [0; COUNTS]);
    let (mut answer, n) = read(file, &mut weights, &mut marks, &mut counts);
    if answer == DONE {
        let (weights, marks, counts) = (&weights[..n], &marks[..n + 1], &counts[..n + 1]);
        let parts =
            model::statement::statement(weights, marks, counts, &mut vec![0; n], &mut vec![0; n], &mut vec![0; n]).1;
        let mut page = vec![0; 41 * (parts + 1)];
        answer = model::page::page(weights, marks, counts, &mut page).0;
        if answer == DONE {
            return (page, Some(0));
        }
    }
    (refusal_text(answer).into_bytes(), Some(1))
}

pub fn page(program: &str, runs: u64, seed: u64, mut report: impl FnMut(String)) -> usize {
    case_files(program, runs, seed, printed_page, &mut report)
}

/// The stored script, and then generated ones.
pub fn console(program: &str, runs: u64, seed: u64, mut report: impl FnMut(String)) {
    let model = |script: &[u8]| {
        let run = additions::console::console(script);
        (run.text.into_bytes(), Some(run.status))
    };
    let stored = (STORED_OUTPUT.as_bytes().to_vec(), model(STORED_SCRIPT).1);
    check(program, "the stored script", STORED_SCRIPT, stored, &mut report);
    compare(program, runs, seed, inputs::script, model, &mut report);
}
