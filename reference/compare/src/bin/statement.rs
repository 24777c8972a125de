//! Section "Case file": the statement program of the model, or (by argument plain or same) of a straight version.

use std::io::{Read, Write};

fn main() {
    let mut input = Vec::new();
    std::io::stdin().take(model::casefile::MOST_BYTES as u64).read_to_end(&mut input).unwrap();
    let text = match std::env::args().nth(1).as_deref() {
        Some("plain") => straight::plain::program(&input).into_bytes(),
        Some("same") => straight::same::program(&input),
        _ => model::casefile::program(&input).into_bytes(),
    };
    std::io::stdout().write_all(&text).unwrap();
}
