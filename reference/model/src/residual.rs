//! Change request K5: the residual load of a network spread over its points in whole Wh, with the total of each supplier.

use crate::{nearest, refused, Answer, DONE};

const SUPPLIERS: usize = 64;
const MOST_POINTS: usize = 1_000;
const MOST_LOAD: u64 = 2_000_000_000;
const MOST_BASE: i128 = 6_000_000_000;

fn sum(bases: &[u64]) -> i128 {
    bases.iter().map(|base| *base as i128).sum()
}

/// The statement's rule: what points with so much of all bases have together. Over a base of zero it is zero.
fn share(load: u64, part: i128, all: i128) -> u64 {
    if all == 0 {
        return 0;
    }
    nearest(load as i128 * part, all) as u64
}

/// The Wh of each point and the total of each supplier, in the output slices; returns the network's total. Row 3 leaves
/// both outputs untouched, rows 16 to 18 leave them zero.
pub fn spread(load: u64, suppliers: &[u8], bases: &[u64], amounts: &mut [u64], totals: &mut [u64]) -> (Answer, u64) {
    let n = suppliers.len();
    if bases.len() != n || amounts.len() != n || totals.len() != SUPPLIERS {
        return (refused(3), 0);
    }
    amounts.fill(0);
    totals.fill(0);
    if suppliers.iter().any(|supplier| *supplier > 63) || n == 0 || n > MOST_POINTS {
        return (refused(16), 0);
    }
    let all = sum(bases);
    if load > MOST_LOAD || all > MOST_BASE {
        return (refused(17), 0);
    }
    if all == 0 && load > 0 {
        return (refused(18), 0);
    }
    for i in 0..n {
        amounts[i] = share(load, sum(&bases[..=i]), all) - share(load, sum(&bases[..i]), all);
    }
    for s in 0..SUPPLIERS {
        totals[s] = (0..n).filter(|i| suppliers[*i] as usize == s).map(|i| amounts[i]).sum();
    }
    (DONE, totals.iter().sum())
}
