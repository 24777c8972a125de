//! Section "Account and its calls", the statement: parts between marked boundaries, written into lent slices; and
//! section "Case file", how a statement and a refusal are printed.

use crate::account::{lengths_fit, readings, sound, READING};
use crate::{nearest, refused, Answer, DONE};

fn sum(weights: &[u32]) -> i128 {
    weights.iter().map(|weight| *weight as i128).sum()
}

/// What boundary k has, from the first reading to the last: its reading's count, or count(p) + nearest(E × Zk / Z)
/// between the readings p and q on either side of it.
fn has(weights: &[u32], marks: &[u8], counts: &[u64], k: usize) -> u64 {
    if marks[k] & READING != 0 {
        return counts[k];
    }
    let at = readings(marks);
    let p = *at.iter().filter(|p| **p < k).last().unwrap();
    let q = *at.iter().find(|q| **q > k).unwrap();
    let energy = (counts[q] - counts[p]) as i128;
    counts[p] + nearest(energy * sum(&weights[p..k]), sum(&weights[p..q])) as u64
}

/// The parts of a sound account that has a reading: from, to and Wh of each.
pub fn parts(weights: &[u32], marks: &[u8], counts: &[u64]) -> Vec<(usize, usize, u64)> {
    let at = readings(marks);
    let (first, last) = (at[0], at[at.len() - 1]);
    let marked: Vec<(usize, u64)> =
        (first..=last).filter(|k| marks[*k] != 0).map(|k| (k, has(weights, marks, counts, k))).collect();
    marked.windows(2).map(|pair| (pair[0].0, pair[1].0, pair[1].1 - pair[0].1)).collect()
}

/// The statement: the number of parts, and from, to, Wh of each in the output slices, zero past the parts.
pub fn statement(
    weights: &[u32],
    marks: &[u8],
    counts: &[u64],
    from: &mut [u16],
    to: &mut [u16],
    wh: &mut [u64],
) -> (Answer, usize) {
    let n = weights.len();
    if !lengths_fit(weights, marks, counts) || from.len() != n || to.len() != n || wh.len() != n {
        return (refused(3), 0);
    }
    if !sound(weights, marks, counts) {
        return (refused(5), 0);
    }
    from.fill(0);
    to.fill(0);
    wh.fill(0);
    if readings(marks).len() < 2 {
        return (refused(11), 0);
    }
    let parts = parts(weights, marks, counts);
    for (i, part) in parts.iter().enumerate() {
        from[i] = part.0 as u16;
        to[i] = part.1 as u16;
        wh[i] = part.2;
    }
    (DONE, parts.len())
}

/// A statement of so many parts as the program prints it: their number, a line for each, their sum.
pub fn text(from: &[u16], to: &[u16], wh: &[u64], parts: usize) -> String {
    let mut text = format!("parts {parts}\n");
    for i in 0..parts {
        text += &format!("{} {} {}\n", from[i], to[i], wh[i]);
    }
    text + &format!("sum {}\n", wh[..parts].iter().sum::<u64>())
}

/// A refusal as the program prints it.
pub fn refusal_text(answer: Answer) -> String {
    format!("refused {} {}\n", answer.number, answer.place)
}
