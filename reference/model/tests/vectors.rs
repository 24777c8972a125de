//! Sections "Temperature of a day", "Profile value" and "Customer value and daily amount": worked numbers of the source
//! documents and of the rules.

use model::customer::{customer_value, daily_amount};
use model::profile::PROFILES;
use model::temperature::temperature;
use model::value::value;
use model::{refused, DONE};

/// Weights that add up to z, each within its limits.
fn weights_of_sum(mut z: u64) -> Vec<u32> {
    let mut weights = Vec::new();
    while z > 0 {
        let weight = z.min(6_999_999);
        weights.push(weight as u32);
        z -= weight;
    }
    weights
}

#[test]
fn allocation_temperature() {
    assert_eq!(temperature(-200, 50, 340, 360), (DONE, -24));
}

/// Document 000 prints five decimals: 1.00000 for every profile but HKO03, which has 1.05612; then three values low and
/// high that the rule gives.
#[test]
fn values_at_eight_degrees() {
    for profile in 0..10 {
        let (answer, low, high) = value(profile, 800);
        let expected = if profile == 2 { 105_612 } else { 100_000 };
        assert_eq!(answer, DONE);
        assert_eq!(((low + 5_000) / 10_000, (high + 5_000) / 10_000), (expected, expected), "profile {profile}");
    }
    assert_eq!(value(0, 800), (DONE, 1_000_000_125, 1_000_000_153));
    assert_eq!(value(3, 800), (DONE, 1_000_000_058, 1_000_000_080));
    assert_eq!(value(7, 700), (DONE, 1_021_645_550, 1_021_645_550));
}

/// Column "Temp.-KP" of document 000: the heating line is the larger one at that temperature, the water line one
/// hundredth of a degree above it.
#[test]
fn the_larger_line() {
    for (profile, t) in [(0, 1_546), (3, 1_472), (7, 869), (5, 1_480)] {
        let profile = &PROFILES[profile];
        let heating = |t| profile.mh * t + 100 * profile.bh;
        let water = |t| profile.mw * t + 100 * profile.bw;
        assert!(heating(t) > water(t) && heating(t + 1) < water(t + 1));
    }
}

#[test]
fn customer_values() {
    for (energy, z, expected) in
        [(23_185_000, 329_581_001, 703_469), (958_000, 379_356_309, 25_253), (223_185_000, 397_727_400, 5_611_507)]
    {
        let weights = weights_of_sum(z);
        assert!(weights.len() >= 48);
        assert_eq!(customer_value(energy, &weights), (DONE, expected));
    }
}

#[test]
fn the_customer_value_limit() {
    assert_eq!(customer_value(2_000_000_000, &[20_000]), (DONE, 1_000_000_000_000));
    assert_eq!(customer_value(2_000_000_000, &[19_999]), (refused(12), 0));
    assert_eq!(customer_value(2_000_000_001, &[20_000]), (refused(9), 0));
    assert_eq!(daily_amount(1_000_000_000_000, 6_999_999), (DONE, 699_999_900_000));
    assert_eq!(daily_amount(1_000_000_000_001, 6_999_999), (refused(12), 0));
    assert_eq!(daily_amount(1_000_000_000_001, 0), (refused(5), 0));
}

#[test]
fn daily_amounts() {
    assert_eq!(daily_amount(500_000, 2_016_134), (DONE, 100_807));
    assert_eq!(daily_amount(4_000_000, 2_360_152), (DONE, 944_061));
}
