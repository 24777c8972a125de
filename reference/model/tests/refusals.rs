//! Section "If a call declines": rows 1 to 11 and 13, the order of the checks, the memory after; rows 14 and 15 of change
//! requests K1 and K2. Row 12 stands in vectors.rs, row 4 of a day's weight in starred.rs.

use model::account::{cut, open, reading, uncut, withdraw};
use model::casefile::{program, read, write};
use model::customer::{customer_value, daily_amount};
use model::history::{Call, Standing};
use model::statement::statement;
use model::temperature::{choose, temperature};
use model::value::{day_weight, value, weights};
use model::{refused, refused_at, Answer, DONE};

const WEIGHTS: [u32; 3] = [1, 6_999_999, 5];

#[test]
fn single_values() {
    assert_eq!(value(10, 4_000), (refused(1), 0, 0));
    assert_eq!(value(9, -5_001), (refused_at(4, 0), 0, 0));
    assert_eq!(day_weight(10, 7, 4_000), (refused(1), 0));
    assert_eq!(day_weight(9, 7, 4_000), (refused(2), 0));
    assert_eq!(temperature(0, 4_000, -5_001, 0), (refused_at(4, 1), 0));
    assert_eq!(daily_amount(0, 7_000_000), (refused(5), 0));
    assert_eq!(customer_value(u64::MAX, &[]), (refused(3), 0));
    assert_eq!(customer_value(u64::MAX, &[0; 1_097]), (refused(3), 0));
    assert_eq!(customer_value(u64::MAX, &[1, 0]), (refused(5), 0));
    assert_eq!(customer_value(u64::MAX, &[1, 1]), (refused(9), 0));
}

#[test]
fn the_chooser() {
    let (good, bad) = ([100; 9], [100, 100, 100, 100, 4_000, 100]);
    let same = |part: &[i16], series: &[i16], length| part.as_ptr() == series.as_ptr() && part.len() == length;
    assert!(same(choose(&good, &bad, 6), &good, 9));
    assert!(same(choose(&bad, &good, 1), &bad, 4));
    assert!(same(choose(&bad, &good, 2), &good, 5));
    assert!(same(choose(&good, &bad, 7), &good, 0));
    assert!(same(choose(&good, &bad, 0), &good, 0));
    assert!(same(choose(&good, &bad, 1_097), &good, 0));
    assert!(same(choose(&good, &bad, usize::MAX), &good, 0));
}

#[test]
fn weights_of_a_span() {
    for (profile, weekday, means, calendar, length, answer) in [
        (10, 7, vec![4_000; 3], vec![], 0, refused(3)),
        (10, 7, vec![4_000; 1_100], vec![8; 1_097], 1_097, refused(3)),
        (10, 7, vec![4_000; 5], vec![8; 2], 1, refused(3)),
        (10, 7, vec![4_000; 5], vec![8; 1], 2, refused(3)),
        (10, 7, vec![4_000; 5], vec![8; 5], 2, refused(3)),
        (10, 7, vec![4_000; 5], vec![8; 2], 2, refused(1)),
        (0, 7, vec![4_000; 5], vec![8; 2], 2, refused(2)),
        (0, 6, vec![0, -5_000, 0, 0, -5_001], vec![8; 2], 2, refused_at(4, 4)),
        (7, 3, vec![1_000; 6], vec![7; 4], 3, refused(3)),
        (7, 3, vec![1_000; 6], vec![], 3, refused(3)),
        (7, 7, vec![1_000; 6], vec![0, 1, 2], 3, refused(2)),
        (7, 3, vec![1_000, 1_000, 1_000, 1_000, 1_000, 4_000], vec![8, 7, 7], 3, refused_at(4, 5)),
        (7, 3, vec![1_000; 6], vec![7, 8, 9], 3, refused_at(14, 1)),
        (7, 3, vec![1_000; 6], vec![0, 6, 255], 3, refused_at(14, 2)),
    ] {
        let mut out = vec![9; length];
        assert_eq!(weights(profile, weekday, &means, &calendar, &mut out), answer);
        assert_eq!(out, vec![if answer.number == 3 { 9 } else { 0 }; length]);
    }
}

/// Runs the four calls on a boundary above n, and the statement too if the answer is not 6, on an account that should
/// refuse them all alike, and sees that nothing changed.
fn all_refuse(weights: &[u32], marks: &[u8], counts: &[u64], answer: Answer) {
    let (mut m, mut c) = (marks.to_vec(), counts.to_vec());
    let k = usize::MAX;
    assert_eq!(reading(weights, &mut m, &mut c, k, 1), answer);
    assert_eq!(withdraw(weights, &mut m, &mut c, k), answer);
    assert_eq!(cut(weights, &mut m, &mut c, k), answer);
    assert_eq!(uncut(weights, &mut m, &mut c, k), answer);
    assert_eq!((m, c), (marks.to_vec(), counts.to_vec()));
    if answer.number != 6 {
        let n = weights.len();
        let (mut from, mut to, mut wh) = (vec![9; n], vec![9; n], vec![9; n]);
        assert_eq!(statement(weights, marks, counts, &mut from, &mut to, &mut wh), (answer, 0));
        assert_eq!((from, to, wh), (vec![9; n], vec![9; n], vec![9; n]));
    }
}

#[test]
fn lengths_soundness_and_boundary() {
    all_refuse(&[], &[0], &[0], refused(3));
    all_refuse(&[1; 1_097], &[0; 1_098], &[0; 1_098], refused(3));
    all_refuse(&WEIGHTS, &[0; 3], &[0; 4], refused(3));
    all_refuse(&WEIGHTS, &[0; 4], &[0; 5], refused(3));
    all_refuse(&[1, 0, 1], &[0; 4], &[0; 4], refused(5));
    all_refuse(&[1, 7_000_000, 1], &[0; 4], &[0; 4], refused(5));
    all_refuse(&WEIGHTS, &[0, 4, 0, 0], &[0; 4], refused(5));
    all_refuse(&WEIGHTS, &[1, 0, 0, 0], &[1, 0, 0, 0], refused(5));
    all_refuse(&WEIGHTS, &[2, 0, 0, 2], &[1, 0, 0, 0], refused(5));
    all_refuse(&WEIGHTS, &[2, 0, 0, 2], &[0, 0, 0, 2_000_000_001], refused(5));
    all_refuse(&WEIGHTS, &[2, 0, 0, 2], &[0, 0, 0, 2_000_000_000], refused(6));
    let (mut marks, mut counts) = ([7; 4], [7; 4]);
    assert_eq!(open(&[1, 0, 1], &mut marks, &mut counts), refused(5));
    assert_eq!(open(&WEIGHTS, &mut marks[1..], &mut counts), refused(3));
    assert_eq!((marks, counts), ([7; 4], [7; 4]));
    assert_eq!(open(&WEIGHTS, &mut marks, &mut counts), DONE);
    assert_eq!((marks, counts), ([0; 4], [0; 4]));
}

#[test]
fn rows_seven_to_eleven() {
    let (mut m, mut c) = ([0; 4], [0; 4]);
    assert_eq!(reading(&WEIGHTS, &mut m, &mut c, 1, 0), DONE);
    assert_eq!(reading(&WEIGHTS, &mut m, &mut c, 1, 0), refused(7));
    assert_eq!(reading(&WEIGHTS, &mut m, &mut c, 1, 5), refused(7));
    assert_eq!(reading(&WEIGHTS, &mut m, &mut c, 0, 1), refused(8));
    assert_eq!(reading(&WEIGHTS, &mut m, &mut c, 3, 2_000_000_001), refused(9));
    let (mut from, mut to, mut wh) = ([9; 3], [9; 3], [9; 3]);
    assert_eq!(statement(&WEIGHTS, &m, &c, &mut from, &mut to, &mut wh[1..]), (refused(3), 0));
    assert_eq!(wh, [9; 3]);
    assert_eq!(statement(&WEIGHTS, &m, &c, &mut from, &mut to, &mut wh), (refused(11), 0));
    assert_eq!((from, to, wh), ([0; 3], [0; 3], [0; 3]));
    assert_eq!(reading(&WEIGHTS, &mut m, &mut c, 3, 0), DONE);
    assert_eq!(cut(&WEIGHTS, &mut m, &c, 3), DONE);
    assert_eq!(cut(&WEIGHTS, &mut m, &c, 3), refused(7));
    assert_eq!(cut(&WEIGHTS, &mut m, &c, 0), DONE);
    assert_eq!(m, [1, 2, 0, 3]);
    assert_eq!(statement(&WEIGHTS, &m, &c, &mut from, &mut to, &mut wh), (DONE, 1));
    assert_eq!((from, to, wh), ([1, 0, 0], [3, 0, 0], [0; 3]));
    assert_eq!(withdraw(&WEIGHTS, &mut m, &mut c, 3), DONE);
    assert_eq!(withdraw(&WEIGHTS, &mut m, &mut c, 3), refused(10));
    assert_eq!(uncut(&WEIGHTS, &mut m, &c, 3), DONE);
    assert_eq!(uncut(&WEIGHTS, &mut m, &c, 3), refused(10));
    assert_eq!((m, c), ([1, 2, 0, 0], [0; 4]));
}

#[test]
fn what_stands_from_the_calls_alone() {
    let weights = [1, 2, 1];
    let mut standing = Standing::opened(&weights);
    let fit = Call::Statement([3; 3]);
    for (call, number) in [
        (Call::Cut(1), 0),
        (fit.clone(), 11),
        (Call::Reading(0, 10), 0),
        (Call::Reading(3, 13), 0),
        (Call::Reading(3, 13), 7),
        (Call::Reading(1, 9), 8),
        (Call::Reading(4, 9), 6),
        (Call::Statement([3, 3, 4]), 3),
        (fit.clone(), 0),
    ] {
        assert_eq!(standing.step(&call), number, "{call:?}");
    }
    let parts: Vec<_> = standing.parts().iter().map(|part| (part.from, part.to, part.wh)).collect();
    assert_eq!(parts, [(0, 1, 1), (1, 3, 2)]);
    assert_eq!(standing.total(), 3);
    assert!(standing.parts().iter().all(|part| standing.close(part, part.wh)));
    assert_eq!(standing.step(&Call::Withdraw(3)), 0);
    assert_eq!(standing.step(&fit), 11);
}

const FILE: [u8; 44] = [
    0, 0, 6, 0, 0xe8, 3, 0xe8, 3, 0xe8, 3, 0xe8, 3, 0xe8, 3, 0xe8, 3, 2, 0, 0, 0, 0xf4, 1, 0, 0, 0, 0, 0, 0, 3, 0,
    0x58, 2, 0, 0, 0, 0, 0, 0, 2, 0, 1, 0, 2, 0,
];

/// The example of section "Case file" with some bytes changed.
fn changed(changes: &[(usize, u8)]) -> Vec<u8> {
    let mut file = FILE.to_vec();
    changes.iter().for_each(|(at, byte)| file[*at] = *byte);
    file
}

#[test]
fn case_files() {
    let long = [&FILE[..], &[0]].concat();
    for (file, answer) in [
        (vec![], refused_at(13, 0)),
        (vec![10], refused_at(1, 0)),
        (vec![9], refused_at(13, 1)),
        (vec![10, 7, 0], refused_at(1, 0)),
        (vec![9, 7], refused_at(2, 1)),
        (vec![9, 6, 0], refused_at(13, 3)),
        (vec![9, 6, 3, 0], refused_at(3, 2)),
        (vec![9, 6, 0x4c, 4], refused_at(3, 2)),
        (vec![9, 6, 0x4b, 4], refused_at(13, 4)),
        (vec![9, 6, 0x4b, 4, 0xa0, 0x0f], refused_at(4, 4)),
        (vec![9, 6, 0x4b, 4, 0x9f, 0x0f, 0x77], refused_at(13, 7)),
        (changed(&[(14, 0x77), (15, 0xec)]), refused_at(4, 14)),
        (changed(&[(28, 0)]), refused_at(13, 28)),
        (changed(&[(28, 4)]), refused_at(6, 28)),
        (changed(&[(30, 0), (31, 0)]), refused_at(8, 30)),
        (changed(&[(33, 0x78)]), refused_at(9, 30)),
        (changed(&[(16, 3)]), refused_at(13, 44)),
        (changed(&[(42, 1)]), refused_at(13, 42)),
        (changed(&[(42, 4)]), refused_at(6, 42)),
        (changed(&[(38, 3)]), refused_at(13, 44)),
        (changed(&[(38, 1)]), refused_at(13, 42)),
        (long, refused_at(13, 44)),
        (changed(&[(16, 1)]), refused_at(6, 30)),
    ] {
        let (mut weights, mut marks, mut counts) = ([9; 1_096], [9; 1_097], [9; 1_097]);
        assert_eq!(read(&file, &mut weights, &mut marks, &mut counts), (answer, 0), "{file:?}");
        assert_eq!((weights, marks, counts), ([0; 1_096], [0; 1_097], [0; 1_097]));
        assert_eq!(program(&file), format!("refused {} {}\n", answer.number, answer.place));
    }
}

#[test]
fn unfit_slices_of_the_reader() {
    for (w, m, c) in [(1_095, 1_097, 1_097), (1_096, 1_096, 1_097), (1_096, 1_097, 1_098), (0, 0, 0)] {
        let (mut weights, mut marks, mut counts) = (vec![9; w], vec![9; m], vec![9; c]);
        assert_eq!(read(&FILE, &mut weights, &mut marks, &mut counts), (refused(3), 0));
        assert_eq!((weights, marks, counts), (vec![9; w], vec![9; m], vec![9; c]));
    }
}

#[test]
fn fewer_than_two_readings_in_a_file() {
    let file = [&FILE[..16], &[0, 0, 0, 0]].concat();
    assert_eq!(program(&file), "refused 11 0\n");
}

/// Change request K2, its rows before 15 in their order: most of these calls meet conditions of later rows too, and the
/// slice is too short for the file, or long enough.
#[test]
fn writing_a_case_file() {
    let top = u64::MAX;
    for (profile, weekday, means, marks, counts, answer) in [
        (10, 7, vec![4_000; 3], vec![4], vec![1], refused(3)),
        (10, 7, vec![4_000; 1_100], vec![4; 1_098], vec![1; 1_098], refused(3)),
        (10, 7, vec![4_000; 5], vec![4; 4], vec![1; 4], refused(3)),
        (10, 7, vec![4_000; 6], vec![4; 3], vec![1; 4], refused(3)),
        (10, 7, vec![4_000; 6], vec![4; 4], vec![1; 5], refused(3)),
        (10, 7, vec![4_000; 6], vec![4; 1_097], vec![1; 1_097], refused(3)),
        (0, 0, vec![1_000; 5], vec![2, 1, 1, 2], vec![500, 0, 0, 600], refused(3)),
        (10, 7, vec![4_000; 4], vec![4; 2], vec![1; 2], refused(1)),
        (9, 7, vec![4_000; 4], vec![4; 2], vec![1; 2], refused(2)),
        (9, 6, vec![-5_000, 3_999, 4_000, -5_001], vec![4; 2], vec![1; 2], refused_at(4, 2)),
        (9, 6, vec![0, 0, 0, -5_001], vec![2; 2], vec![0; 2], refused_at(4, 3)),
        (9, 6, vec![0; 4], vec![2, 4], vec![0; 2], refused(5)),
        (9, 6, vec![0; 4], vec![2, 1], vec![0, 1], refused(5)),
        (9, 6, vec![0; 4], vec![2; 2], vec![6, 5], refused(5)),
        (9, 6, vec![0; 5], vec![2; 3], vec![5, 7, 6], refused(5)),
        (9, 6, vec![0; 4], vec![2; 2], vec![top - 2_000_000_001, top], refused(5)),
    ] {
        for length in [0, 1, 15, 16, 17, 200] {
            let mut out = vec![9; length];
            assert_eq!(write(profile, weekday, &means, &marks, &counts, &mut out), (answer, 0));
            assert_eq!(out, vec![if [1, 2, 4].contains(&answer.number) { 0 } else { 9 }; length]);
        }
    }
}

/// Row 15, after all others: a slice that is one byte short is untouched, one of the file's length is enough, and a longer
/// one keeps its end.
#[test]
fn room_for_a_case_file() {
    for (length, answer) in [(0, refused(15)), (43, refused(15)), (44, DONE), (50, DONE)] {
        let mut out = vec![9; length];
        let written = if answer == DONE { 44 } else { 0 };
        assert_eq!(write(0, 0, &[1_000; 6], &[2, 1, 1, 2], &[500, 0, 0, 600], &mut out), (answer, written));
        assert_eq!(out, [&FILE[..written], &vec![9; length - written]].concat());
    }
}
