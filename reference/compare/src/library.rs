//! The exported calls of the paper as one trait, for the model and the straight versions; the proved one is beside.

use additions::texts::{lay_out, statement_text};
use model::{account, casefile, customer, page, residual, statement, temperature, value};
use model::{Answer, Boundary, Mean, ProfileNumber, Weekday};

/// One method for each exported call; the answer is the table's number and place. The two texts in a lent buffer
/// are those of `additions` unless given.
pub trait Library {
    fn name(&self) -> &'static str;
    fn temperature(&self, a: Mean, b: Mean, c: Mean, d: Mean) -> (Answer, Mean);
    fn choose<'a>(&self, measured: &'a [Mean], forecast: &'a [Mean], n: usize) -> &'a [Mean];
    fn value(&self, profile: ProfileNumber, t: Mean) -> (Answer, i64, i64);
    fn day_weight(&self, profile: ProfileNumber, weekday: Weekday, t: Mean) -> (Answer, u32);
    fn weights(
        &self,
        profile: ProfileNumber,
        weekday: Weekday,
        means: &[Mean],
        calendar: &[u8],
        out: &mut [u32],
    ) -> Answer;
    fn open(&self, weights: &[u32], marks: &mut [u8], counts: &mut [u64]) -> Answer;
    fn reading(&self, weights: &[u32], marks: &mut [u8], counts: &mut [u64], k: Boundary, count: u64) -> Answer;
    fn withdraw(&self, weights: &[u32], marks: &mut [u8], counts: &mut [u64], k: Boundary) -> Answer;
    fn cut(&self, weights: &[u32], marks: &mut [u8], counts: &[u64], k: Boundary) -> Answer;
    fn uncut(&self, weights: &[u32], marks: &mut [u8], counts: &[u64], k: Boundary) -> Answer;
    fn statement(
        &self,
        weights: &[u32],
        marks: &[u8],
        counts: &[u64],
        from: &mut [u16],
        to: &mut [u16],
        wh: &mut [u64],
    ) -> (Answer, usize);
    fn customer_value(&self, energy: u64, weights: &[u32]) -> (Answer, u64);
    fn daily_amount(&self, value: u64, weight: u32) -> (Answer, u64);
    fn read(&self, file: &[u8], weights: &mut [u32], marks: &mut [u8], counts: &mut [u64]) -> (Answer, usize);
    fn write(
        &self,
        profile: ProfileNumber,
        weekday: Weekday,
        means: &[Mean],
        marks: &[u8],
        counts: &[u64],
        out: &mut [u8],
    ) -> (Answer, usize);
    fn page(&self, weights: &[u32], marks: &[u8], counts: &[u64], page: &mut [u8]) -> (Answer, usize);
    fn spread(
        &self,
        load: u64,
        suppliers: &[u8],
        bases: &[u64],
        amounts: &mut [u64],
        totals: &mut [u64],
    ) -> (Answer, u64);
    fn statement_text(&self, from: &[u16], to: &[u16], wh: &[u64], parts: usize, out: &mut [u8]) -> usize {
        lay_out(&statement_text(from, to, wh, parts), out)
    }
    fn refusal_text(&self, number: u8, place: usize, out: &mut [u8]) -> usize {
        lay_out(&statement::refusal_text(Answer { number, place }), out)
    }
}

type Weights = fn(ProfileNumber, Weekday, &[Mean], &[u8], &mut [u32]) -> Answer;
type Reading = fn(&[u32], &mut [u8], &mut [u64], Boundary, u64) -> Answer;
type Statement = fn(&[u32], &[u8], &[u64], &mut [u16], &mut [u16], &mut [u64]) -> (Answer, usize);
type Read = fn(&[u8], &mut [u32], &mut [u8], &mut [u64]) -> (Answer, usize);
type Write = fn(ProfileNumber, Weekday, &[Mean], &[u8], &[u64], &mut [u8]) -> (Answer, usize);
type Page = fn(&[u32], &[u8], &[u64], &mut [u8]) -> (Answer, usize);
type Spread = fn(u64, &[u8], &[u64], &mut [u64], &mut [u64]) -> (Answer, u64);

/// A version in Rust: the seven timed calls are its own, the others the model's.
pub struct Version {
    name: &'static str,
    weights: Weights,
    reading: Reading,
    statement: Statement,
    read: Read,
    write: Write,
    page: Page,
    spread: Spread,
}

pub const MODEL: Version = Version {
    name: "model",
    weights: value::weights,
    reading: account::reading,
    statement: statement::statement,
    read: casefile::read,
    write: casefile::write,
    page: page::page,
    spread: residual::spread,
};

pub const PLAIN: Version = Version {
    name: "plain",
    weights: straight::plain::weights,
    reading: straight::plain::reading,
    statement: straight::plain::statement,
    read: straight::plain::read,
    write: straight::plain::write,
    page: straight::plain::page,
    spread: straight::plain::spread,
};

pub const SAME: Version = Version {
    name: "same",
    weights: straight::same::weights,
    reading: straight::same::reading,
    statement: straight::same::statement,
    read: straight::same::read,
    write: straight::same::write,
    page: straight::same::page,
    spread: straight::same::spread,
};

impl Library for Version {
    fn name(&self) -> &'static str {
        self.name
    }
    fn temperature(&self, a: Mean, b: Mean, c: Mean, d: Mean) -> (Answer, Mean) {
        temperature::temperature(a, b, c, d)
    }
    fn choose<'a>(&self, measured: &'a [Mean], forecast: &'a [Mean], n: usize) -> &'a [Mean] {
        temperature::choose(measured, forecast, n)
    }
    fn value(&self, profile: ProfileNumber, t: Mean) -> (Answer, i64, i64) {
        value::value(profile, t)
    }
    fn day_weight(&self, profile: ProfileNumber, weekday: Weekday, t: Mean) -> (Answer, u32) {
        value::day_weight(profile, weekday, t)
    }
    fn weights(
        &self,
        profile: ProfileNumber,
        weekday: Weekday,
        means: &[Mean],
        calendar: &[u8],
        out: &mut [u32],
    ) -> Answer {
        (self.weights)(profile, weekday, means, calendar, out)
    }
    fn open(&self, weights: &[u32], marks: &mut [u8], counts: &mut [u64]) -> Answer {
        account::open(weights, marks, counts)
    }
    fn reading(&self, weights: &[u32], marks: &mut [u8], counts: &mut [u64], k: Boundary, count: u64) -> Answer {
        (self.reading)(weights, marks, counts, k, count)
    }
    fn withdraw(&self, weights: &[u32], marks: &mut [u8], counts: &mut [u64], k: Boundary) -> Answer {
        account::withdraw(weights, marks, counts, k)
    }
    fn cut(&self, weights: &[u32], marks: &mut [u8], counts: &[u64], k: Boundary) -> Answer {
        account::cut(weights, marks, counts, k)
    }
    fn uncut(&self, weights: &[u32], marks: &mut [u8], counts: &[u64], k: Boundary) -> Answer {
        account::uncut(weights, marks, counts, k)
    }
    fn statement(
        &self,
        weights: &[u32],
        marks: &[u8],
        counts: &[u64],
        from: &mut [u16],
        to: &mut [u16],
        wh: &mut [u64],
    ) -> (Answer, usize) {
        (self.statement)(weights, marks, counts, from, to, wh)
    }
    fn customer_value(&self, energy: u64, weights: &[u32]) -> (Answer, u64) {
        customer::customer_value(energy, weights)
    }
    fn daily_amount(&self, value: u64, weight: u32) -> (Answer, u64) {
        customer::daily_amount(value, weight)
    }
    fn read(&self, file: &[u8], weights: &mut [u32], marks: &mut [u8], counts: &mut [u64]) -> (Answer, usize) {
        (self.read)(file, weights, marks, counts)
    }
    fn write(
        &self,
        profile: ProfileNumber,
        weekday: Weekday,
        means: &[Mean],
        marks: &[u8],
        counts: &[u64],
        out: &mut [u8],
    ) -> (Answer, usize) {
        (self.write)(profile, weekday, means, marks, counts, out)
    }
    fn page(&self, weights: &[u32], marks: &[u8], counts: &[u64], page: &mut [u8]) -> (Answer, usize) {
        (self.page)(weights, marks, counts, page)
    }
    fn spread(
        &self,
        load: u64,
        suppliers: &[u8],
        bases: &[u64],
        amounts: &mut [u64],
        totals: &mut [u64],
    ) -> (Answer, u64) {
        (self.spread)(load, suppliers, bases, amounts, totals)
    }
}

/// What is compared with the model: the proved library if it is linked, else the straight versions.
pub fn compared() -> Vec<Box<dyn Library>> {
    #[cfg(feature = "linked")]
    return vec![Box::new(crate::proved::Proved)];
    #[cfg(not(feature = "linked"))]
    return vec![Box::new(PLAIN), Box::new(SAME)];
}
