//! Section "Temperature of a day": the allocation temperature of four means, and the chooser of a series.

use crate::profile::Profile;
use crate::{nearest, refused_at, Answer, Mean, DONE};

pub fn in_range(mean: Mean) -> bool {
    (Profile::COLDEST..=Profile::WARMEST).contains(&mean)
}

/// nearest((8a+4b+2c+d)/15), today's mean first.
pub fn rule(a: Mean, b: Mean, c: Mean, d: Mean) -> Mean {
    nearest(8 * a as i128 + 4 * b as i128 + 2 * c as i128 + d as i128, 15) as Mean
}

/// The temperature of four means, today's first; row 4 of section "If a call declines" with the index of the first
/// mean out of range.
pub fn temperature(a: Mean, b: Mean, c: Mean, d: Mean) -> (Answer, Mean) {
    match [a, b, c, d].iter().position(|mean| !in_range(*mean)) {
        Some(index) => (refused_at(4, index), 0),
        None => (DONE, rule(a, b, c, d)),
    }
}

/// The first n+3 means of the measured series if it has that many, all in range; else those of the forecast on the
/// same terms; else, and wherever n is outside 1 to 1,096, the empty part at the start of the measured one.
pub fn choose<'a>(measured: &'a [Mean], forecast: &'a [Mean], n: usize) -> &'a [Mean] {
    if (1..=Profile::LONGEST).contains(&n) {
        for series in [measured, forecast] {
            if series.len() >= n + 3 && series[..n + 3].iter().all(|mean| in_range(*mean)) {
                return &series[..n + 3];
            }
        }
    }
    &measured[..0]
}
