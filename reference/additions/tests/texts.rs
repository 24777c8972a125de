//! Section "Case file": the texts of a statement and of a refusal; and, beyond the paper, how they are laid out in a lent
//! buffer and what has no text.

use additions::texts::{lay_out, statement_text as text};
use model::statement::{refusal_text, statement};
use model::{refused, refused_at};

/// A buffer of sevens with a text laid out in it, and the length returned.
fn laid_out(text: &str, room: usize) -> (Vec<u8>, usize) {
    let mut out = vec![7; room];
    let length = lay_out(text, &mut out);
    (out, length)
}

/// The text of parts of 1 day and 1 Wh each, the slices of these lengths.
fn text_of(lengths: [usize; 3], parts: usize) -> String {
    let from: Vec<u16> = (0..lengths[0]).map(|i| i as u16).collect();
    let to: Vec<u16> = (0..lengths[1]).map(|i| i as u16 + 1).collect();
    text(&from, &to, &vec![1; lengths[2]], parts)
}

#[test]
fn as_much_as_fits() {
    for (text, whole) in [
        (text(&[0, 1, 2], &[1, 2, 3], &[33, 34, 33], 3), "parts 3\n0 1 33\n1 2 34\n2 3 33\nsum 100\n"),
        (refusal_text(refused_at(13, 44)), "refused 13 44\n"),
        (refusal_text(refused(11)), "refused 11 0\n"),
    ] {
        let length = whole.len();
        for room in 0..length + 5 {
            let stored = room.min(length);
            let expected = [&whole.as_bytes()[..stored], &vec![7; room - stored]].concat();
            assert_eq!(laid_out(&text, room), (expected, length));
        }
    }
}

#[test]
fn what_has_no_text_stores_nothing() {
    for room in [0, 1, 40] {
        assert_eq!(laid_out(&text_of([3; 3], 0), room), (vec![7; room], 0));
        assert_eq!(laid_out(&text_of([3; 3], 4), room), (vec![7; room], 0));
    }
}

#[test]
fn no_part() {
    for lengths in [[0; 3], [1; 3], [1_096; 3], [2_000; 3]] {
        assert_eq!(text_of(lengths, 0), "");
    }
    let (mut from, mut to, mut wh) = ([9; 2], [9; 2], [9; 2]);
    let (answer, parts) = statement(&[1, 1], &[2, 0, 0], &[0; 3], &mut from, &mut to, &mut wh);
    assert_eq!((answer, parts), (refused(11), 0));
    assert_eq!(text(&from, &to, &wh, parts), "");
}

#[test]
fn more_parts_than_a_slice_has() {
    assert_eq!(text_of([2; 3], 2), "parts 2\n0 1 1\n1 2 1\nsum 2\n");
    assert_eq!(text_of([2, 3, 4], 2), text_of([2; 3], 2));
    for lengths in [[2; 3], [2, 3, 3], [3, 2, 3], [3, 3, 2], [2, 1_096, 1_096], [3, 0, 3]] {
        assert_eq!(text_of(lengths, 3), "", "{lengths:?}");
    }
    assert_eq!(text_of([0; 3], 1), "");
    assert_eq!(text_of([1_096; 3], usize::MAX), "");
}

#[test]
fn more_parts_than_days_of_the_longest_span() {
    for length in [1_096, 1_097, 2_000] {
        let text = text_of([length; 3], 1_096);
        assert!(text.starts_with("parts 1096\n0 1 1\n") && text.ends_with("\n1095 1096 1\nsum 1096\n"));
        assert_eq!(text.lines().count(), 1_098);
        assert_eq!(text_of([length; 3], 1_097), "");
        assert_eq!(text_of([length; 3], length + 1), "");
    }
}

#[test]
fn a_part_above_the_most_energy() {
    let most = 2_000_000_000;
    let text = |wh: &[u64; 3], parts| text(&[0, 1, 2], &[1, 2, 3], wh, parts);
    assert_eq!(text(&[most, 0, 0], 1), "parts 1\n0 1 2000000000\nsum 2000000000\n");
    assert_eq!(text(&[0, most, 0], 2), "parts 2\n0 1 0\n1 2 2000000000\nsum 2000000000\n");
    for above in [most + 1, 1 << 32, u64::MAX] {
        for wh in [[above, 0, 0], [0, above, 0], [0, 0, above], [above; 3]] {
            assert_eq!(text(&wh, 3), "", "{wh:?}");
        }
        // Past the parts nothing is looked at.
        assert_eq!(text(&[5, 6, above], 2), "parts 2\n0 1 5\n1 2 6\nsum 11\n");
    }
}
