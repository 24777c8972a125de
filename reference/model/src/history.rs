//! Section "Account and its calls", demand 3: what stands after a list of calls, read from the calls and their
//! arguments alone, never from marks and counts.

use crate::account::MOST_ENERGY;
use crate::{nearest, Boundary};
use std::collections::{BTreeMap, BTreeSet};

/// A call after an accepted open; a further open in a list is `Standing::opened` again.
#[derive(Clone, Debug, PartialEq, Eq)]
pub enum Call {
    Reading(Boundary, u64),
    Withdraw(Boundary),
    Cut(Boundary),
    Uncut(Boundary),
    /// With the lengths of the three output slices lent to it.
    Statement([usize; 3]),
}

/// A part of a statement with the two adjacent readings that enclose it.
#[derive(Clone, Debug, PartialEq, Eq)]
pub struct Part {
    pub from: usize,
    pub to: usize,
    pub wh: u64,
    pub enclosing: (usize, usize),
}

/// What stands on an opened account: the counts of its readings and its cuts, by boundary.
#[derive(Clone, Debug, PartialEq, Eq)]
pub struct Standing {
    weights: Vec<u32>,
    readings: BTreeMap<Boundary, u64>,
    cuts: BTreeSet<Boundary>,
}

impl Standing {
    /// After an accepted open nothing stands.
    pub fn opened(weights: &[u32]) -> Standing {
        Standing { weights: weights.to_vec(), readings: BTreeMap::new(), cuts: BTreeSet::new() }
    }

    pub fn readings(&self) -> &BTreeMap<Boundary, u64> {
        &self.readings
    }

    /// The number of the row in section "If a call declines" that refuses a call, 0 if none does, what stands being
    /// taken for the marks and counts.
    pub fn answer(&self, call: &Call) -> u8 {
        let n = self.weights.len();
        match *call {
            Call::Statement(lengths) if lengths != [n; 3] => 3,
            Call::Statement(_) => {
                if self.readings.len() < 2 {
                    11
                } else {
                    0
                }
            }
            Call::Reading(k, _) | Call::Withdraw(k) | Call::Cut(k) | Call::Uncut(k) if k > n => 6,
            Call::Reading(k, count) => self.reading_answer(k, count),
            Call::Cut(k) => {
                if self.cuts.contains(&k) {
                    7
                } else {
                    0
                }
            }
            Call::Withdraw(k) => {
                if self.readings.contains_key(&k) {
                    0
                } else {
                    10
                }
            }
            Call::Uncut(k) => {
                if self.cuts.contains(&k) {
                    0
                } else {
                    10
                }
            }
        }
    }

    fn reading_answer(&self, k: Boundary, count: u64) -> u8 {
        if self.readings.contains_key(&k) {
            return 7;
        }
        let below_an_earlier = self.readings.range(..k).any(|(_, earlier)| count < *earlier);
        let above_a_later = self.readings.range(k..).any(|(_, later)| count > *later);
        if below_an_earlier || above_a_later {
            return 8;
        }
        let mut with = self.readings.clone();
        with.insert(k, count);
        let (first, last) = (with.first_key_value().unwrap().1, with.last_key_value().unwrap().1);
        if last - first > MOST_ENERGY {
            return 9;
        }
        0
    }

    /// The answer to a call; an accepted one changes what stands.
    pub fn step(&mut self, call: &Call) -> u8 {
        let answer = self.answer(call);
        if answer == 0 {
            match *call {
                Call::Reading(k, count) => drop(self.readings.insert(k, count)),
                Call::Withdraw(k) => drop(self.readings.remove(&k)),
                Call::Cut(k) => drop(self.cuts.insert(k)),
                Call::Uncut(k) => drop(self.cuts.remove(&k)),
                Call::Statement(_) => {}
            }
        }
        answer
    }

    fn weight_sum(&self, from: usize, to: usize) -> i128 {
        self.weights[from..to].iter().map(|weight| *weight as i128).sum()
    }

    /// The parts of the statement of what stands, one pair of adjacent readings after the other.
    pub fn parts(&self) -> Vec<Part> {
        let mut parts = Vec::new();
        for ((p, low), (q, high)) in self.readings.iter().zip(self.readings.iter().skip(1)) {
            let z = self.weight_sum(*p, *q);
            let energy = (high - low) as i128;
            let mut start = (*p, 0);
            let cuts = self.cuts.range(p + 1..*q);
            for k in cuts.chain(std::iter::once(q)) {
                let upto = nearest(energy * self.weight_sum(*p, *k), z);
                parts.push(Part { from: start.0, to: *k, wh: (upto - start.1) as u64, enclosing: (*p, *q) });
                start = (*k, upto);
            }
        }
        parts
    }

    /// The count of the last standing reading less that of the first; asked only where a reading stands.
    pub fn total(&self) -> u64 {
        self.readings.last_key_value().unwrap().1 - self.readings.first_key_value().unwrap().1
    }

    /// These Wh are less than 1 from the part's exact share: |Wh × Z - E × weights| < Z.
    pub fn close(&self, part: &Part, wh: u64) -> bool {
        let (p, q) = part.enclosing;
        let energy = (self.readings[&q] - self.readings[&p]) as i128;
        let z = self.weight_sum(p, q);
        (wh as i128 * z - energy * self.weight_sum(part.from, part.to)).abs() < z
    }
}
