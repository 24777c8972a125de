//! A run of the comparison: the whole table of profile values, then random inputs; serves every section.

use crate::checks::{Input, Outcome};
use crate::library::{Library, MODEL};
use crate::pages::PageCall;
use crate::random::Random;
use crate::spreads::SpreadCall;
use crate::{demand3, inputs};
use model::history::Call;
use model::profile::Profile;
use std::collections::BTreeMap;

/// How many inputs of each kind were refused with each number (0 is done).
pub type Tally = BTreeMap<&'static str, BTreeMap<u8, u64>>;

/// The model's outcome for one input, and what differs from it in the libraries.
pub fn compare(input: &Input, libraries: &[Box<dyn Library>]) -> (Outcome, Vec<String>) {
    let expected = input.run(&MODEL);
    let mut differences = Vec::new();
    for library in libraries {
        let given = input.run(library.as_ref());
        if given != expected {
            differences.push(format!("{}:{}", library.name(), given.differences(&expected)));
        }
    }
    let model: &dyn Library = &MODEL;
    for library in libraries.iter().map(|library| library.as_ref()).chain([model]) {
        if let Err(wrong) = claim(input, library) {
            differences.push(format!("{}, {wrong}", library.name()));
        }
    }
    (expected, differences)
}

/// Whether a library keeps what the papers claim of several calls together, where the input has several, and of the outputs of a spread;
/// else what is wrong.
pub fn claim(input: &Input, library: &dyn Library) -> Result<(), String> {
    let (name, checked) = match input {
        Input::List(account, calls) => ("demand 3", demand3::check(library, account, calls)),
        Input::Rewrite(trip) => ("K2, rewritten", trip.check(library)),
        Input::ReadBack(trip) => ("K2, read back", trip.check(library)),
        Input::Page { account, page } => ("K4, page", PageCall::new(library, account, page).check(library)),
        Input::Spread(spread) => ("K5, spread", SpreadCall::new(library, spread).check()),
        _ => return Ok(()),
    };
    checked.map_err(|wrong| format!("{name}: {wrong}"))
}

fn kind(call: &Call) -> &'static str {
    match call {
        Call::Reading(..) => "in lists: reading",
        Call::Withdraw(..) => "in lists: withdraw",
        Call::Cut(..) => "in lists: cut",
        Call::Uncut(..) => "in lists: uncut",
        Call::Statement(..) => "in lists: statement",
    }
}

/// Every profile at every temperature: its value, the weight of each weekday, and a week of such days.
pub fn table(libraries: &[Box<dyn Library>], mut report: impl FnMut(&Input, &str)) -> u64 {
    let mut inputs = 0;
    for profile in 0..10 {
        for t in Profile::COLDEST..=Profile::WARMEST {
            let weights = (0..7).map(|weekday| Input::DayWeight(profile, weekday, t));
            let week =
                Input::Weights { profile, weekday: 0, means: vec![t; 10], calendar: vec![7; 7], out: vec![0; 7] };
            for input in weights.chain([Input::Value(profile, t), week]) {
                inputs += 1;
                compare(&input, libraries).1.iter().for_each(|difference| report(&input, difference));
            }
        }
    }
    inputs
}

/// Input number `index` of the run with that seed.
pub fn input(seed: u64, index: u64) -> Input {
    inputs::input(&mut Random::new(seed, index))
}

/// Compares input number `index` and counts it.
pub fn one(
    seed: u64,
    index: u64,
    libraries: &[Box<dyn Library>],
    tally: &mut Tally,
    mut report: impl FnMut(&Input, &str),
) {
    let input = input(seed, index);
    let (expected, differences) = compare(&input, libraries);
    let mut count = |kind, number| *tally.entry(kind).or_default().entry(number).or_default() += 1;
    count(input.kind(), expected.answer.number);
    // The values of several calls are number, place and value of each.
    let numbers = expected.values.chunks(3).map(|values| values[0] as u8);
    match &input {
        Input::List(_, calls) => calls.iter().zip(numbers).for_each(|(call, number)| count(kind(call), number)),
        Input::Rewrite(_) => numbers.skip(1).for_each(|number| count("in rewrites: write", number)),
        _ => {}
    }
    differences.iter().for_each(|difference| report(&input, difference));
}
