//! Section "Profile value" in 64 bits: one power for each day, with either of two square roots.

use model::profile::{Profile, PROFILES};
use model::{refused, refused_at, Answer, Mean, ProfileNumber, Weekday, DONE};

const ONE: u64 = 1 << 30;

/// The square root of root × one, rounded down; root is 1 to one.
pub trait Root {
    fn down(root: u64) -> u64;

    fn up(root: u64) -> u64 {
        let down = Self::down(root);
        down + (down * down < root * ONE) as u64
    }
}

/// The standard library's integer root.
pub struct Standard;

impl Root for Standard {
    fn down(root: u64) -> u64 {
        (root * ONE).isqrt()
    }
}

/// Newton's iteration from the mean of root and one, which is not below the square root of their product.
pub struct Newton;

impl Root for Newton {
    fn down(root: u64) -> u64 {
        let square = root * ONE;
        let mut guess = (ONE + root) / 2;
        while square < guess * guess {
            guess = (guess + square / guess) / 2;
        }
        guess
    }
}

fn power_low<R: Root>(n: u64, m: u64, c: u64) -> u64 {
    let mut root = n * ONE / m;
    let c = (c << 24).div_ceil(10_000_000);
    let mut result = ONE;
    for _ in 0..c >> 24 {
        result = result * root / ONE;
    }
    for j in 1..=24 {
        root = R::down(root);
        if c >> (24 - j) & 1 == 1 {
            result = result * root / ONE;
        }
    }
    result
}

fn power_high<R: Root>(n: u64, m: u64, c: u64) -> u64 {
    let mut root = (n * ONE).div_ceil(m);
    let c = (c << 24) / 10_000_000;
    let mut result = ONE;
    for _ in 0..c >> 24 {
        result = (result * root).div_ceil(ONE);
    }
    for j in 1..=24 {
        root = R::up(root);
        if c >> (24 - j) & 1 == 1 {
            result = (result * root).div_ceil(ONE);
        }
    }
    result
}

fn low_value<R: Root>(profile: &Profile, t: i64) -> i64 {
    let b = profile.b.unsigned_abs();
    let u = (4_000 - t) as u64 * 100_000;
    let share = if b <= u {
        (1 << 60) / (ONE + power_high::<R>(b, u, profile.c as u64))
    } else {
        let power = power_low::<R>(u, b, profile.c as u64);
        power * ONE / (ONE + power)
    };
    let heating = profile.mh * t + 100 * profile.bh;
    let water = profile.mw * t + 100 * profile.bw;
    (profile.a as u64 * 100 * share / ONE) as i64 + 100 * profile.d + heating.max(water)
}

/// Rows 1, 2 and 4, in this order.
pub(crate) fn unfit(profile: ProfileNumber, weekday: Weekday, means: &[Mean]) -> Option<Answer> {
    if profile > 9 {
        return Some(refused(1));
    }
    if weekday > 6 {
        return Some(refused(2));
    }
    means.iter().position(|mean| *mean < -5_000 || *mean > 3_999).map(|index| refused_at(4, index))
}

/// The weights of the days of a series.
pub fn weights<R: Root>(
    profile: ProfileNumber,
    weekday: Weekday,
    means: &[Mean],
    calendar: &[u8],
    out: &mut [u32],
) -> Answer {
    let n = means.len().wrapping_sub(3);
    if n < 1 || n > crate::LONGEST || calendar.len() != n || out.len() != n {
        return refused(3);
    }
    if let Some(answer) = unfit(profile, weekday, means) {
        out.fill(0);
        return answer;
    }
    if let Some(index) = calendar.iter().position(|byte| *byte > 7) {
        out.fill(0);
        return refused_at(14, index);
    }
    let profile = &PROFILES[profile as usize];
    for (k, (weight, four)) in out.iter_mut().zip(means.windows(4)).enumerate() {
        let sum = 8 * four[3] as i64 + 4 * four[2] as i64 + 2 * four[1] as i64 + four[0] as i64;
        let t = (2 * sum + 15).div_euclid(30);
        let day = if calendar[k] < 7 { calendar[k] as usize } else { (weekday as usize + k) % 7 };
        *weight = (low_value::<R>(profile, t) * profile.factors[day] / 10_000_000) as u32;
    }
    DONE
}
