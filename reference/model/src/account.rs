//! Section "Account and its calls": open, reading, withdraw, cut and uncut on lent slices, with their rows of section
//! "If a call declines".

use crate::profile::Profile;
use crate::{refused, Answer, Boundary, DONE};

const CUT: u8 = 1;
pub const READING: u8 = 2;
pub const MOST_ENERGY: u64 = 2_000_000_000;

pub fn weight_sound(weight: u32) -> bool {
    (Profile::LIGHTEST..=Profile::HEAVIEST).contains(&weight)
}

/// Row 3 does not hold: n, the length of the weights, is 1 to 1,096, and marks and counts are n+1 long.
pub fn lengths_fit(weights: &[u32], marks: &[u8], counts: &[u64]) -> bool {
    let n = weights.len();
    (1..=Profile::LONGEST).contains(&n) && marks.len() == n + 1 && counts.len() == n + 1
}

/// The boundaries that have this mark, rising.
fn marked(marks: &[u8], mark: u8) -> Vec<usize> {
    (0..marks.len()).filter(|k| marks[*k] & mark != 0).collect()
}

pub fn readings(marks: &[u8]) -> Vec<usize> {
    marked(marks, READING)
}

pub fn cuts(marks: &[u8]) -> Vec<usize> {
    marked(marks, CUT)
}

/// Row 5 does not hold: an account of fit lengths is sound.
pub fn sound(weights: &[u32], marks: &[u8], counts: &[u64]) -> bool {
    let at = readings(marks);
    weights.iter().all(|weight| weight_sound(*weight))
        && marks.iter().all(|mark| *mark <= 3)
        && (0..marks.len()).all(|k| marks[k] & READING != 0 || counts[k] == 0)
        && at.windows(2).all(|pair| counts[pair[0]] <= counts[pair[1]])
        && match (at.first(), at.last()) {
            (Some(first), Some(last)) => counts[*last] - counts[*first] <= MOST_ENERGY,
            _ => true,
        }
}

/// Rows 3, 5 and 6, in this order: what every call on a boundary asks first.
fn boundary_call(weights: &[u32], marks: &[u8], counts: &[u64], k: Boundary) -> Option<Answer> {
    if !lengths_fit(weights, marks, counts) {
        Some(refused(3))
    } else if !sound(weights, marks, counts) {
        Some(refused(5))
    } else if k > weights.len() {
        Some(refused(6))
    } else {
        None
    }
}

pub fn open(weights: &[u32], marks: &mut [u8], counts: &mut [u64]) -> Answer {
    if !lengths_fit(weights, marks, counts) {
        return refused(3);
    }
    if !weights.iter().all(|weight| weight_sound(*weight)) {
        return refused(5);
    }
    marks.fill(0);
    counts.fill(0);
    DONE
}

pub fn reading(weights: &[u32], marks: &mut [u8], counts: &mut [u64], k: Boundary, count: u64) -> Answer {
    if let Some(answer) = boundary_call(weights, marks, counts, k) {
        return answer;
    }
    if marks[k] & READING != 0 {
        return refused(7);
    }
    let at = readings(marks);
    if at.iter().any(|p| *p < k && counts[*p] > count || *p > k && counts[*p] < count) {
        return refused(8);
    }
    let first = at.iter().filter(|p| **p < k).map(|p| counts[*p]).next().unwrap_or(count);
    let last = at.iter().filter(|p| **p > k).map(|p| counts[*p]).last().unwrap_or(count);
    if last - first > MOST_ENERGY {
        return refused(9);
    }
    marks[k] |= READING;
    counts[k] = count;
    DONE
}

pub fn withdraw(weights: &[u32], marks: &mut [u8], counts: &mut [u64], k: Boundary) -> Answer {
    if let Some(answer) = boundary_call(weights, marks, counts, k) {
        return answer;
    }
    if marks[k] & READING == 0 {
        return refused(10);
    }
    marks[k] &= !READING;
    counts[k] = 0;
    DONE
}

pub fn cut(weights: &[u32], marks: &mut [u8], counts: &[u64], k: Boundary) -> Answer {
    if let Some(answer) = boundary_call(weights, marks, counts, k) {
        return answer;
    }
    if marks[k] & CUT != 0 {
        return refused(7);
    }
    marks[k] |= CUT;
    DONE
}

pub fn uncut(weights: &[u32], marks: &mut [u8], counts: &[u64], k: Boundary) -> Answer {
    if let Some(answer) = boundary_call(weights, marks, counts, k) {
        return answer;
    }
    if marks[k] & CUT == 0 {
        return refused(10);
    }
    marks[k] &= !CUT;
    DONE
}
