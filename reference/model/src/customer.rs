//! Section "Customer value and daily amount": the two calls, with their rows of section "If a call declines".

use crate::account::{weight_sound, MOST_ENERGY};
use crate::profile::Profile;
use crate::{nearest, refused, Answer, DONE};

const MOST_VALUE: u64 = 1_000_000_000_000;

/// The customer value in units of 0.1 Wh: nearest(energy × 10^7 / Z), Z the sum of the lent weights.
pub fn customer_value(energy: u64, weights: &[u32]) -> (Answer, u64) {
    if !(1..=Profile::LONGEST).contains(&weights.len()) {
        return (refused(3), 0);
    }
    if !weights.iter().all(|weight| weight_sound(*weight)) {
        return (refused(5), 0);
    }
    if energy > MOST_ENERGY {
        return (refused(9), 0);
    }
    let z: i128 = weights.iter().map(|weight| *weight as i128).sum();
    let value = nearest(energy as i128 * 10_000_000, z) as u64;
    if value > MOST_VALUE {
        return (refused(12), 0);
    }
    (DONE, value)
}

/// The daily amount in Wh: nearest(value × weight / 10^7).
pub fn daily_amount(value: u64, weight: u32) -> (Answer, u64) {
    if !weight_sound(weight) {
        return (refused(5), 0);
    }
    if value > MOST_VALUE {
        return (refused(12), 0);
    }
    (DONE, nearest(value as i128 * weight as i128, 10_000_000) as u64)
}
