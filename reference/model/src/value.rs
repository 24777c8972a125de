//! Section "Profile value": the value low and high and a day's weight; and the weights of a span, whose days and
//! weekdays are those of section "Temperature of a day", with the calendar of change request K1.

use crate::power::{divide, power_high, power_low, Rounding, ONE};
use crate::profile::{Profile, PROFILES};
use crate::temperature::{in_range, rule};
use crate::{refused, refused_at, Answer, Mean, ProfileNumber, Weekday, DONE};

/// The share s, low and high, in units of 1/one: 1/(1+y) on the cold side and y/(1+y) on the warm one, y the power.
fn share(profile: &Profile, t: Mean) -> (u128, u128) {
    let b = profile.b.unsigned_abs() as u128;
    let u = (4_000 - t as i128) as u128 * 100_000;
    let c = profile.c as u128;
    let whole = 1 << 60;
    if b <= u {
        let low = divide(whole, ONE + power_high(b, u, c), Rounding::Down);
        let high = divide(whole, ONE + power_low(b, u, c), Rounding::Up);
        (low, high)
    } else {
        let (p_low, p_high) = (power_low(u, b, c), power_high(u, b, c));
        let low = divide(p_low * ONE, ONE + p_low, Rounding::Down);
        let high = divide(p_high * ONE, ONE + p_high, Rounding::Up);
        (low, high)
    }
}

/// The value of a profile at temperature t, low and high, in units of 10^-9.
pub fn value_rule(profile: &Profile, t: Mean) -> (i64, i64) {
    let (share_low, share_high) = share(profile, t);
    let heating = profile.mh * t as i64 + 100 * profile.bh;
    let water = profile.mw * t as i64 + 100 * profile.bw;
    let added = 100 * profile.d + heating.max(water);
    let scale = profile.a as u128 * 100;
    let low = divide(scale * share_low, ONE, Rounding::Down) as i64 + added;
    let high = divide(scale * share_high, ONE, Rounding::Up) as i64 + added;
    (low, high)
}

/// A day's weight in millionths: floor(low value × F / 10^7).
pub fn weight_rule(profile: &Profile, weekday: usize, t: Mean) -> u32 {
    let low = value_rule(profile, t).0;
    (low * profile.factors[weekday]).div_euclid(10_000_000) as u32
}

pub fn value(profile: ProfileNumber, t: Mean) -> (Answer, i64, i64) {
    if profile > 9 {
        return (refused(1), 0, 0);
    }
    if !in_range(t) {
        return (refused_at(4, 0), 0, 0);
    }
    let (low, high) = value_rule(&PROFILES[profile as usize], t);
    (DONE, low, high)
}

pub fn day_weight(profile: ProfileNumber, weekday: Weekday, t: Mean) -> (Answer, u32) {
    if profile > 9 {
        return (refused(1), 0);
    }
    if weekday > 6 {
        return (refused(2), 0);
    }
    if !in_range(t) {
        return (refused_at(4, 0), 0);
    }
    (DONE, weight_rule(&PROFILES[profile as usize], weekday as usize, t))
}

/// The weekday that day k counts as: the one that its byte names, 0 to 6, or its own if the byte is 7.
fn counts_as(weekday: Weekday, calendar: &[u8], k: usize) -> usize {
    match calendar[k] {
        7 => (weekday as usize + k) % 7,
        named => named as usize,
    }
}

/// The weights of the days of a series, oldest mean first: day k has its own mean at index k+3, and its byte of the
/// calendar at index k.
pub fn weights(profile: ProfileNumber, weekday: Weekday, means: &[Mean], calendar: &[u8], out: &mut [u32]) -> Answer {
    let n = means.len().saturating_sub(3);
    if !(1..=Profile::LONGEST).contains(&n) || calendar.len() != n || out.len() != n {
        return refused(3);
    }
    let answer = if profile > 9 {
        refused(1)
    } else if weekday > 6 {
        refused(2)
    } else if let Some(index) = means.iter().position(|mean| !in_range(*mean)) {
        refused_at(4, index)
    } else if let Some(index) = calendar.iter().position(|byte| *byte > 7) {
        refused_at(14, index)
    } else {
        DONE
    };
    for k in 0..n {
        out[k] = 0;
        if answer == DONE {
            let t = rule(means[k + 3], means[k + 2], means[k + 1], means[k]);
            out[k] = weight_rule(&PROFILES[profile as usize], counts_as(weekday, calendar, k), t);
        }
    }
    answer
}
