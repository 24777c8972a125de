//! Change request K4: pages byte for byte, and its rows in their order with the memory after each.

use model::page::page;
use model::{refused, DONE};

/// Weights, marks and counts of the example of section "Case file".
const EXAMPLE: ([u32; 3], [u8; 4], [u64; 4]) = ([786_165; 3], [2, 1, 1, 2], [500, 0, 0, 600]);

/// The example's page, a dot for each space.
const EXAMPLE_PAGE: &str = "\
..from....to............Wh...........sum
.....0.....1............33............33
.....1.....2............34............67
.....2.....3............33...........100
";

/// The page of an account, which has so many bytes.
fn printed(weights: &[u32], marks: &[u8], counts: &[u64], bytes: usize) -> String {
    let mut out = vec![9; bytes];
    assert_eq!(page(weights, marks, counts, &mut out), (DONE, bytes));
    String::from_utf8(out).unwrap()
}

#[test]
fn the_example() {
    let (weights, marks, counts) = EXAMPLE;
    assert_eq!(printed(&weights, &marks, &counts, 164), EXAMPLE_PAGE.replace('.', " "));
}

/// Wh and sum of ten digits, the most that they can have.
#[test]
fn the_greatest_energy() {
    let (mut marks, mut counts) = ([0; 1_097], [0; 1_097]);
    (marks[0], marks[548], marks[1_096]) = (2, 1, 2);
    counts[1_096] = 2_000_000_000;
    let text = printed(&[5; 1_096], &marks, &counts, 123).replace(' ', ".");
    assert!(text.ends_with("\n.....0...548....1000000000....1000000000\n...548..1096....1000000000....2000000000\n"));
}

/// A part of 0 Wh is `0`, the sum starts at 0 and not at the meter's count, and a cut outside makes no line.
#[test]
fn nothing_used() {
    let counts = [0, u64::MAX, u64::MAX, 0];
    let expected = "..from....to............Wh...........sum\n.....1.....2.............0.............0\n";
    assert_eq!(printed(&[7; 3], &[1, 2, 3, 1], &counts, 82), expected.replace('.', " "));
}

#[test]
fn the_longest_page() {
    let counts: Vec<u64> = (0..1_097).collect();
    let text = printed(&[1; 1_096], &[3; 1_097], &counts, 44_977);
    assert_eq!(text.lines().count(), 1_097);
    assert!(text.lines().all(|line| line.len() == 40));
    assert!(text.replace(' ', ".").ends_with("\n..1095..1096.............1..........1096\n"));
}

/// Every length but that of the page is 3, a longer one too, and the slice is untouched.
#[test]
fn a_page_of_another_length() {
    let (weights, marks, counts) = EXAMPLE;
    for length in [0, 1, 5, 41, 82, 123, 163, 165, 205, 1_000] {
        let mut out = vec![9; length];
        assert_eq!(page(&weights, &marks, &counts, &mut out), (refused(3), 0));
        assert_eq!(out, vec![9; length]);
    }
}

/// Rows 3 (the account), 5 and 11, in this order: most of these calls meet conditions of later rows too, and the slice has
/// any length.
#[test]
fn rows_before_the_length() {
    let top = u64::MAX;
    for (weights, marks, counts, number) in [
        (vec![], vec![4], vec![1], 3),
        (vec![0; 1_097], vec![4; 1_098], vec![1; 1_098], 3),
        (vec![0; 3], vec![4; 3], vec![1; 4], 3),
        (vec![0; 3], vec![4; 4], vec![1; 5], 3),
        (vec![5; 3], vec![2, 1, 1, 2, 0], vec![500, 0, 0, 600], 3),
        (vec![5, 0, 5], vec![0; 4], vec![0; 4], 5),
        (vec![5, 7_000_000, 5], vec![2, 1, 1, 2], vec![500, 0, 0, 600], 5),
        (vec![5; 3], vec![4, 0, 0, 0], vec![0; 4], 5),
        (vec![5; 3], vec![2, 1, 1, 2], vec![500, 1, 0, 600], 5),
        (vec![5; 3], vec![2, 0, 0, 2], vec![6, 0, 0, 5], 5),
        (vec![5; 3], vec![2, 0, 0, 2], vec![top - 2_000_000_001, 0, 0, top], 5),
        (vec![5; 3], vec![0; 4], vec![0; 4], 11),
        (vec![5; 3], vec![1, 2, 1, 1], vec![0, 7, 0, 0], 11),
    ] {
        for length in [0, 5, 41, 82, 123, 164, 200] {
            let mut out = vec![9; length];
            assert_eq!(page(&weights, &marks, &counts, &mut out), (refused(number), 0));
            assert_eq!(out, vec![if number == 11 { 0 } else { 9 }; length]);
        }
    }
}
