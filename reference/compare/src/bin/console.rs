//! Over section "Account and its calls": the console in Rust, a script from standard input.

use additions::console::console;
use std::io::{Read, Write};

fn main() {
    let mut input = Vec::new();
    std::io::stdin().read_to_end(&mut input).unwrap();
    let run = console(&input);
    std::io::stdout().write_all(run.text.as_bytes()).unwrap();
    std::process::exit(run.status);
}
