//! Section "Profiles": the constants against the figures as tables 4 and 5 print them, and the range of the weights;
//! section "Profile value": the power is enclosed.

use model::power::{power_high, power_low, ONE};
use model::profile::{Profile, PROFILES};
use model::value::{value_rule, weight_rule};

/// Name, A, B, C, D, mH, bH, mW, bW as printed in table 4, then Monday to Sunday of table 5.
const PRINTED: [&str; 10] = [
    "DE_HEF33 1,6209544 -37,1833141 5,6727847 0,0716431 -0,0495700 0,8401015 -0,0022090 0,1074468 / 1,0000 1,0000 1,0000 1,0000 1,0000 1,0000 1,0000",
    "DE_HMF33 1,2328655 -34,7213605 5,8164304 0,0873352 -0,0409284 0,7672920 -0,0022320 0,1199207 / 1,0000 1,0000 1,0000 1,0000 1,0000 1,0000 1,0000",
    "DE_HKO03 0,4040932 -24,4392968 6,5718175 0,7107710 0,0000000 0,0000000 0,0000000 0,0000000 / 1,0000 1,0000 1,0000 1,0000 1,0000 1,0000 1,0000",
    "DE_GHD33 1,3010623 -35,6816144 6,6857976 0,1409267 -0,0473428 0,8141691 -0,0010601 0,1325092 / 1,0300 1,0300 1,0200 1,0300 1,0100 0,9300 0,9500",
    "DE_GMK33 1,4202419 -34,8806130 6,5951899 0,0385317 -0,0521084 0,8647919 -0,0014369 0,0637602 / 1,0699 1,0365 0,9933 0,9948 1,0659 0,9362 0,9034",
    "DE_GKO33 1,3554515 -35,1412563 7,1303395 0,0990619 -0,0526487 0,8626086 -0,0008808 0,0964014 / 1,0354 1,0523 1,0449 1,0494 0,9885 0,8860 0,9435",
    "DE_GBH33 0,9874283 -35,2532124 6,1544406 0,2265716 -0,0339020 0,6938234 -0,0012849 0,2029732 / 0,9767 1,0389 1,0028 1,0162 1,0024 1,0043 0,9587",
    "DE_GBA33 0,2770087 -33,0000000 5,7212303 0,4865118 -0,0094849 0,4630237 -0,0007134 0,3867447 / 1,0848 1,1211 1,0769 1,1353 1,1402 0,4852 0,9565",
    "DE_GGA33 1,1582082 -36,2878584 6,5885126 0,2235680 -0,0410335 0,7526451 -0,0009088 0,1916641 / 0,9322 0,9894 1,0033 1,0109 1,0180 1,0356 1,0106",
    "DE_GMF33 1,2328655 -34,7213605 5,8164304 0,0873352 -0,0409284 0,7672920 -0,0022320 0,1199207 / 1,0354 1,0523 1,0449 1,0494 0,9885 0,8860 0,9435",
];

fn figure(printed: &str) -> i64 {
    printed.replace(',', "").parse().unwrap()
}

#[test]
fn the_tables_as_printed() {
    for (profile, printed) in PROFILES.iter().zip(PRINTED) {
        let (coefficients, factors) = printed.split_once(" / ").unwrap();
        let coefficients: Vec<i64> = coefficients.split(' ').skip(1).map(figure).collect();
        let Profile { a, b, c, d, mh, bh, mw, bw, .. } = *profile;
        assert_eq!(coefficients, [a, b, c, d, mh, bh, mw, bw]);
        assert_eq!(factors.split(' ').map(figure).collect::<Vec<_>>(), profile.factors);
    }
}

#[test]
fn every_week_of_factors_adds_up_to_seven() {
    for profile in &PROFILES {
        assert_eq!(profile.factors.iter().sum::<i64>(), 70_000);
    }
}

#[test]
fn weights_over_the_whole_table() {
    let (mut least, mut most, mut pairs) = (u32::MAX, 0, 0);
    for profile in &PROFILES {
        for t in Profile::COLDEST..=Profile::WARMEST {
            pairs += 1;
            let (low, high) = value_rule(profile, t);
            assert!(0 < low && low <= high);
            for factor in profile.factors {
                let weight = (low * factor / 10_000_000) as u32;
                least = least.min(weight);
                most = most.max(weight);
            }
        }
    }
    assert_eq!((pairs, least, most), (90_000, 40_499, 5_270_598));
    assert_eq!(weight_rule(&PROFILES[0], 0, 1_000), 786_165);
}

/// The exact power lies between pLow and pHigh, as far as f64 tells: over these cases its error is below 10^-6 of a
/// unit, and 10^-5 is allowed.
#[test]
fn the_power_is_enclosed() {
    let enclosed = |n: u128, m: u128, c: u128| {
        let exact = (n as f64 / m as f64).powf(c as f64 / 1e7) * ONE as f64;
        let (low, high) = (power_low(n, m, c), power_high(n, m, c));
        assert!(low as f64 <= exact + 1e-5 && exact - 1e-5 <= high as f64, "{n} {m} {c}: {low} {exact} {high}");
    };
    for profile in &PROFILES {
        let b = profile.b.unsigned_abs() as u128;
        for t in (-5_000..=3_999).step_by(7) {
            let u = (4_000 - t) as u128 * 100_000;
            enclosed(b.min(u), b.max(u), profile.c as u128);
        }
    }
    for i in 1..2_000u128 {
        let m = i * 448_379 % 900_000_000 + 1;
        enclosed(i * 7_654_321 % m, m, i * 50_021 % 100_000_000);
    }
}
