//! Section "Starred cases": every starred line and the line "By program"; section "Case file": its example; change
//! requests K1, its bakery, and K2, written files byte for byte.

use model::account::{cut, open, reading};
use model::casefile::{program, read, write};
use model::customer::{customer_value, daily_amount};
use model::power::{power, power_high, power_low, Rounding, ONE};
use model::profile::PROFILES;
use model::statement::statement;
use model::temperature::temperature;
use model::value::{day_weight, value, weights};
use model::{refused, refused_at, DONE};

/// The Wh of a statement over these weights, readings at both ends and a cut at every boundary between.
fn split(weights: &[u32], first: u64, last: u64) -> Vec<u64> {
    let n = weights.len();
    let (mut marks, mut counts) = (vec![9; n + 1], vec![9; n + 1]);
    assert_eq!(open(weights, &mut marks, &mut counts), DONE);
    assert_eq!(reading(weights, &mut marks, &mut counts, 0, first), DONE);
    assert_eq!(reading(weights, &mut marks, &mut counts, n, last), DONE);
    for k in 1..n {
        assert_eq!(cut(weights, &mut marks, &counts, k), DONE);
    }
    let (mut from, mut to, mut wh) = (vec![9; n], vec![9; n], vec![9; n]);
    assert_eq!(statement(weights, &marks, &counts, &mut from, &mut to, &mut wh), (DONE, n));
    for k in 0..n {
        assert_eq!((from[k], to[k]), (k as u16, k as u16 + 1));
    }
    wh
}

#[test]
fn temperatures() {
    assert_eq!(temperature(0, 0, 0, 7), (DONE, 0));
    assert_eq!(temperature(0, 0, 0, 8), (DONE, 1));
    assert_eq!(temperature(-5_000, -5_000, -5_000, -4_999), (DONE, -5_000));
}

#[test]
fn the_warmest_mean() {
    assert_eq!(temperature(3_999, 3_999, 3_999, 3_999), (DONE, 3_999));
    assert_eq!(temperature(4_000, 0, 0, 0), (refused_at(4, 0), 0));
    assert_eq!(temperature(0, 0, 0, 4_000), (refused_at(4, 3), 0));
    assert_eq!(value(0, 3_999).0, DONE);
    assert_eq!(value(0, 4_000), (refused_at(4, 0), 0, 0));
    assert_eq!(day_weight(0, 0, 3_999).0, DONE);
    assert_eq!(day_weight(0, 0, 4_000), (refused_at(4, 0), 0));
    assert_eq!(weights(0, 0, &[3_999; 4], &[7], &mut [0]), DONE);
    let mut out = [9];
    assert_eq!(weights(0, 0, &[3_999, 3_999, 4_000, 4_000], &[7], &mut out), refused_at(4, 2));
    assert_eq!(out, [0]);
}

#[test]
fn the_power_of_one() {
    for profile in &PROFILES {
        for n in [1, 330_000_000, 900_000_000] {
            assert_eq!(power_low(n, n, profile.c as u128), ONE);
            assert_eq!(power_high(n, n, profile.c as u128), ONE);
        }
    }
    assert_eq!(power(ONE, 123_456_789, Rounding::Down), 1 << 30);
    assert_eq!(power(ONE, 123_456_789, Rounding::Up), 1 << 30);
}

#[test]
fn splits() {
    assert_eq!(split(&[9_870, 21_478], 0, 25_424_000), [8_004_813, 17_419_187]);
    assert_eq!(split(&[1_000, 1_000, 1_000], 500, 600), [33, 34, 33]);
    assert_eq!(split(&[7, 7], 0, 1), [1, 0]);
    assert_eq!(split(&[7, 7], 5, 5), [0, 0]);
    let top = u64::MAX;
    assert_eq!(split(&[1_000, 1_000, 1_000], top - 100, top), [33, 34, 33]);
}

/// "A bakery's weights on a Thursday holiday were a working day's": the working day, and the holiday as a Sunday.
#[test]
fn a_holiday() {
    for (calendar, parts) in [([7, 7, 7], [411, 413, 176]), ([6, 7, 7], [370, 442, 188])] {
        let mut out = [9; 3];
        assert_eq!(weights(7, 3, &[1_000; 6], &calendar, &mut out), DONE);
        assert_eq!(split(&out, 0, 1_000), parts);
    }
}

#[test]
fn customer_values() {
    let mut lent = vec![6_999_999; 54];
    lent.push(379_356_309 - 54 * 6_999_999);
    assert_eq!(customer_value(958_000, &lent), (DONE, 25_253));
    assert_eq!(daily_amount(25_253, 1_000_000), (DONE, 2_525));
    assert_eq!(daily_amount(1_000_000, 5), (DONE, 1));
}

#[test]
fn the_largest_difference() {
    let weights = [1; 2];
    for (count, answer) in [(2_000_000_000, DONE), (2_000_000_001, refused(9))] {
        let (mut marks, mut counts) = ([0; 3], [0; 3]);
        assert_eq!(reading(&weights, &mut marks, &mut counts, 0, 0), DONE);
        assert_eq!(reading(&weights, &mut marks, &mut counts, 2, count), answer);
        assert_eq!(marks, if answer == DONE { [2, 0, 2] } else { [2, 0, 0] });
        assert_eq!(counts, if answer == DONE { [0, 0, count] } else { [0; 3] });
    }
}

#[test]
fn by_program() {
    let (answer, low, high) = value(3, 800);
    assert_eq!(answer, DONE);
    assert!((low - 1_000_000_000).abs() < 10_000 && (high - 1_000_000_000).abs() < 10_000);
}

pub const EXAMPLE: &str = "00000600e803e803e803e803e803e80302000000f40100000000000003005802000000000000020001000200";

fn bytes(hex: &str) -> Vec<u8> {
    (0..hex.len()).step_by(2).map(|i| u8::from_str_radix(&hex[i..i + 2], 16).unwrap()).collect()
}

#[test]
fn the_example_file() {
    let file = bytes(EXAMPLE);
    assert_eq!(file.len(), 44);
    assert_eq!(program(&file), "parts 3\n0 1 33\n1 2 34\n2 3 33\nsum 100\n");
    let (mut weights, mut marks, mut counts) = ([9; 1_096], [9; 1_097], [9; 1_097]);
    assert_eq!(read(&file, &mut weights, &mut marks, &mut counts), (DONE, 3));
    assert_eq!(weights[..4], [786_165, 786_165, 786_165, 0]);
    assert_eq!(marks[..5], [2, 1, 1, 2, 0]);
    assert_eq!(counts[..5], [500, 0, 0, 600, 0]);
    assert!(weights[3..].iter().all(|w| *w == 0));
    assert!(marks[4..].iter().all(|m| *m == 0) && counts[4..].iter().all(|c| *c == 0));
}

/// The example; the extremes of every field, each mark in both sections; nothing marked; a reading of count 0.
#[test]
fn written_files() {
    let top = u64::MAX;
    for (profile, weekday, means, marks, counts, hex) in [
        (0, 0, vec![1_000; 6], vec![2, 1, 1, 2], vec![500, 0, 0, 600], EXAMPLE),
        (
            9,
            6,
            vec![-5_000, 3_999, -1, 0],
            vec![3, 3],
            vec![top - 2_000_000_000, top],
            "0906040078ec9f0fffff000002000000ff6bca88ffffffff0100ffffffffffffffff020000000100",
        ),
        (3, 4, vec![0; 4], vec![0; 2], vec![0; 2], "03040400000000000000000000000000"),
        (3, 4, vec![0; 4], vec![2, 0], vec![0; 2], "0304040000000000000000000100000000000000000000000000"),
    ] {
        let (file, n) = (bytes(hex), marks.len() - 1);
        let mut out = vec![9; file.len() + 6];
        assert_eq!(write(profile, weekday, &means, &marks, &counts, &mut out), (DONE, file.len()));
        assert_eq!(out, [&file[..], &[9; 6]].concat());
        let (mut weights, mut read_marks, mut read_counts) = ([9; 1_096], [9; 1_097], [9; 1_097]);
        assert_eq!(read(&file, &mut weights, &mut read_marks, &mut read_counts), (DONE, n));
        assert_eq!((&read_marks[..n + 1], &read_counts[..n + 1]), (&marks[..], &counts[..]));
    }
}
