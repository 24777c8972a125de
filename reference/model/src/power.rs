//! Section "Profile value", its first two paragraphs: the exponent and the power in fixed point, low and high.

pub const ONE: u128 = 1 << 30;

#[derive(Clone, Copy, PartialEq, Eq)]
pub enum Rounding {
    Down,
    Up,
}

pub fn divide(x: u128, d: u128, rounding: Rounding) -> u128 {
    match rounding {
        Rounding::Down => x / d,
        Rounding::Up => (x + d - 1) / d,
    }
}

/// The square root of x, rounded to a whole number.
fn square_root(x: u128, rounding: Rounding) -> u128 {
    let floor = x.isqrt();
    assert!(floor * floor <= x && x < (floor + 1) * (floor + 1));
    match rounding {
        Rounding::Up if floor * floor < x => floor + 1,
        _ => floor,
    }
}

/// The power of r (in units of 1/one) with exponent c (in units of 2^-24).
pub fn power(r: u128, c: u128, rounding: Rounding) -> u128 {
    let whole = c >> 24;
    let rest = c % (1 << 24);
    let mut result = ONE;
    for _ in 0..whole {
        result = divide(result * r, ONE, rounding);
    }
    let mut root = r;
    for j in 1..=24 {
        root = square_root(root * ONE, rounding);
        if rest & (1 << (24 - j)) != 0 {
            result = divide(result * root, ONE, rounding);
        }
    }
    result
}

/// The exponent in units of 2^-24, from C in ten-millionths: cLow if rounded down, cHigh if rounded up.
fn exponent(c: u128, rounding: Rounding) -> u128 {
    divide(c << 24, 10_000_000, rounding)
}

/// pLow of N/M, with cHigh and everything rounded down.
pub fn power_low(n: u128, m: u128, c: u128) -> u128 {
    power(divide(n * ONE, m, Rounding::Down), exponent(c, Rounding::Up), Rounding::Down)
}

/// pHigh of N/M, with cLow and everything rounded up.
pub fn power_high(n: u128, m: u128, c: u128) -> u128 {
    power(divide(n * ONE, m, Rounding::Up), exponent(c, Rounding::Down), Rounding::Up)
}
