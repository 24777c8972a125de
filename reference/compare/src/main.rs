//! Compares every exported call with the model on random and damaged inputs; any difference fails. Serves every section.
//!
//! compare [--seed N] [--inputs N] [--first I] [--statement PROGRAM] [--console PROGRAM] [--rewrite PROGRAM] [--page PROGRAM]
//! [--runs N]
//! The same seed gives the same inputs; `--first I --inputs 1` repeats input number I alone.

use compare::checks::Input;
use compare::library::compared;
use compare::programs;
use compare::run::{one, table, Tally};
use std::cell::Cell;
use std::time::{Instant, SystemTime, UNIX_EPOCH};

/// The differences printed before the run gives up.
const MOST_PRINTED: u64 = 20;

struct Options {
    seed: u64,
    inputs: u64,
    first: u64,
    runs: u64,
    statement: Option<String>,
    console: Option<String>,
    rewrite: Option<String>,
    page: Option<String>,
}

fn options() -> Options {
    let now = SystemTime::now().duration_since(UNIX_EPOCH).unwrap().as_nanos() as u64;
    let (statement, console, rewrite, page) = (None, None, None, None);
    let mut options =
        Options { seed: now, inputs: 2_000_000, first: 0, runs: 2_000, statement, console, rewrite, page };
    let mut words = std::env::args().skip(1);
    while let Some(word) = words.next() {
        let value = words.next().unwrap_or_else(|| panic!("{word} needs a value"));
        let number = || value.parse().unwrap_or_else(|_| panic!("{word} {value}: no number"));
        match word.as_str() {
            "--seed" => options.seed = number(),
            "--inputs" => options.inputs = number(),
            "--first" => options.first = number(),
            "--runs" => options.runs = number(),
            "--statement" => options.statement = Some(value),
            "--console" => options.console = Some(value),
            "--rewrite" => options.rewrite = Some(value),
            "--page" => options.page = Some(value),
            _ => panic!("unknown option {word}"),
        }
    }
    options
}

fn print_tally(tally: &Tally) {
    println!("inputs by kind and by the model's answer (0 is done):");
    for (kind, answers) in tally {
        let answers: Vec<String> = answers.iter().map(|(number, count)| format!("{number}: {count}")).collect();
        println!("  {kind:20} {}", answers.join("  "));
    }
}

fn main() {
    let Options { seed, inputs, first, runs, statement, console, rewrite, page } = options();
    let libraries = compared();
    let names: Vec<&str> = libraries.iter().map(|library| library.name()).collect();
    println!("model against {}, seed {seed}, {inputs} inputs from number {first}", names.join(" and "));
    let start = Instant::now();
    let differences = Cell::new(0);
    let print = |text: String| {
        println!("DIFFERENCE\n{text}\n");
        differences.set(differences.get() + 1);
        if differences.get() == MOST_PRINTED {
            println!("{MOST_PRINTED} differences, giving up (seed {seed})");
            std::process::exit(1);
        }
    };
    if first == 0 {
        let count = table(&libraries, |input: &Input, text: &str| print(format!("input: {input:?}\n{text}")));
        println!("whole table: {count} inputs, {} s", start.elapsed().as_secs());
    }
    let mut tally = Tally::new();
    for i in 0..inputs {
        let index = first + i;
        one(seed, index, &libraries, &mut tally, |input: &Input, text: &str| {
            print(format!("seed {seed}, input number {index}: {input:?}\n{text}"))
        });
        if (i + 1) % (inputs / 10).max(1) == 0 {
            println!("{} of {inputs} inputs, {} s", i + 1, start.elapsed().as_secs());
        }
    }
    print_tally(&tally);
    if let Some(program) = statement {
        programs::statement(&program, runs, seed, print);
        println!("{runs} files given to {program}");
    }
    if let Some(program) = console {
        programs::console(&program, runs, seed, print);
        println!("the stored script and {runs} others given to {program}");
    }
    if let Some(program) = rewrite {
        let examples = programs::rewrite(&program, runs, seed, print);
        println!("{examples} example files and {runs} others given to {program}");
    }
    if let Some(program) = page {
        let examples = programs::page(&program, runs, seed, print);
        println!("{examples} example files and {runs} others given to {program}");
    }
    println!("{} differences, seed {seed}, {} s", differences.get(), start.elapsed().as_secs());
    if differences.get() > 0 {
        std::process::exit(1);
    }
}
