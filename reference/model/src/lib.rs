//! The paper's rules as plain Rust, sections "Temperature of a day" to "If a call declines", with its change requests; here
//! what the files share.

pub mod account;
pub mod casefile;
pub mod customer;
pub mod history;
pub mod page;
pub mod power;
pub mod profile;
pub mod residual;
pub mod statement;
pub mod temperature;
pub mod value;

/// A daily mean or a temperature, in hundredths of a degree C (section "Temperature of a day").
pub type Mean = i16;
/// A boundary (section "Account and its calls") as the caller passes it.
pub type Boundary = usize;
/// The number of a profile, and a weekday (section "Profiles"), as the caller passes them.
pub type ProfileNumber = u8;
pub type Weekday = u8;

/// What a call returns beside its values: the number of its row in section "If a call declines" or of a change request
/// (0 is done), and the index or place (0 if it has none).
#[derive(Clone, Copy, Debug, PartialEq, Eq)]
pub struct Answer {
    pub number: u8,
    pub place: usize,
}

pub const DONE: Answer = Answer { number: 0, place: 0 };

pub fn refused(number: u8) -> Answer {
    Answer { number, place: 0 }
}

pub fn refused_at(number: u8, place: usize) -> Answer {
    Answer { number, place }
}

/// "nearest" of the paper's first lines: an exact half goes up, so it is floor(x / d + 1/2), for d above 0.
pub fn nearest(x: i128, d: i128) -> i128 {
    (2 * x + d).div_euclid(2 * d)
}
