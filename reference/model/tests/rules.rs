//! Sections "Temperature of a day" to "Case file", and change requests K1 and K2: rules that no other test of the model holds
//! fast.

use model::account::reading;
use model::casefile::{program, read, write};
use model::history::{Call, Standing};
use model::profile::PROFILES;
use model::statement::statement;
use model::value::{day_weight, value, weights};
use model::{refused, DONE};

/// Section "Temperature of a day": the own mean at index k+3 weighs most, and the weekday goes on from day 0's.
#[test]
fn a_span_of_unequal_days() {
    let mut out = [0; 5];
    assert_eq!(weights(7, 4, &[100, -700, 1_300, 250, -1_800, 0, 3_999, 1_200], &[7; 5], &mut out), DONE);
    assert_eq!(out, [1_237_421, 615_809, 1_161_105, 953_109, 1_010_805]);
    let mut out = [0; 2];
    assert_eq!(weights(3, 6, &[-500, 0, 250, 1_000, 700], &[7; 2], &mut out), DONE);
    assert_eq!(out, [1_190_996, 1_171_671]);
    assert_eq!((day_weight(7, 4, 700), day_weight(7, 5, 700)), ((DONE, 1_164_880), (DONE, 495_702)));
}

/// Change request K1: a byte names the weekday that its own day counts as, and changes no other day; 7 keeps the day's
/// own. A single day's weight takes its weekday from the caller.
#[test]
fn days_that_count_as_others() {
    let own = [1_098_712, 1_103_454, 469_563];
    for (calendar, expected) in [
        ([7, 7, 7], own),
        ([3, 4, 5], own),
        ([6, 7, 7], [925_674, 1_103_454, 469_563]),
        ([0, 7, 7], [1_049_840, 1_103_454, 469_563]),
    ] {
        let mut out = [9; 3];
        assert_eq!(weights(7, 3, &[1_000; 6], &calendar, &mut out), DONE);
        assert_eq!(out, expected);
    }
    for k in 0..3 {
        for (byte, factor) in PROFILES[7].factors.iter().enumerate() {
            let (mut calendar, mut expected, mut out) = ([7; 3], own, [9; 3]);
            calendar[k] = byte as u8;
            expected[k] = (967_772_920 * factor / 10_000_000) as u32;
            assert_eq!(weights(7, 3, &[1_000; 6], &calendar, &mut out), DONE);
            assert_eq!(out, expected);
        }
    }
    assert_eq!(day_weight(7, 7, 1_000), (refused(2), 0));
}

/// Section "Profile value": the cold and the warm side, low and high.
#[test]
fn values_low_and_high() {
    for (profile, t, low, high) in [
        (0, -5_000, 5_000_504_854, 5_000_504_880),
        (0, 0, 1_887_721_296, 1_887_721_323),
        (4, -1_234, 2_875_158_039, 2_875_158_065),
        (7, 699, 1_021_860_442, 1_021_860_446),
        (7, 701, 1_021_430_618, 1_021_430_622),
        (2, 3_999, 710_771_000, 710_771_001),
    ] {
        assert_eq!(value(profile, t), (DONE, low, high));
    }
}

/// Section "If a call declines", rows 8 and 9: equal counts stand on both sides, and row 9 goes from the first reading to
/// the last, the new one taken in; the account and the history answer alike.
#[test]
fn readings_beside_readings() {
    let most = 2_000_000_000;
    for (standing, k, count, number) in [
        (vec![(2, 5)], 0, 5, 0),
        (vec![(0, 5)], 2, 5, 0),
        (vec![(0, 5)], 2, 4, 8),
        (vec![(2, 5)], 0, 6, 8),
        (vec![(1, most + 1)], 0, 0, 9),
        (vec![(1, most + 1)], 0, 1, 0),
        (vec![(0, 0), (1, 1_500_000_000)], 2, most + 1, 9),
        (vec![(1, 1), (2, most + 1)], 0, 0, 9),
        (vec![(0, 7), (3, most + 7)], 1, most + 8, 8),
        (vec![(0, 7), (3, most + 7)], 1, 6, 8),
        (vec![(0, 0), (1, 0)], 1, most + 1, 7),
    ] {
        let (mut marks, mut counts) = ([0; 4], [0; 4]);
        let mut history = Standing::opened(&[1; 3]);
        for (p, earlier) in standing {
            assert_eq!(reading(&[1; 3], &mut marks, &mut counts, p, earlier), DONE);
            assert_eq!(history.step(&Call::Reading(p, earlier)), 0);
        }
        assert_eq!(reading(&[1; 3], &mut marks, &mut counts, k, count).number, number);
        assert_eq!(history.step(&Call::Reading(k, count)), number);
    }
}

/// Section "Account and its calls": each part goes by the two readings that enclose it.
#[test]
fn three_readings() {
    let expected = [(0, 1, 2), (1, 2, 6), (2, 3, 50), (3, 4, 50)];
    let lent = [1, 3, 1, 1];
    let (mut from, mut to, mut wh) = ([9; 4], [9; 4], [9; 4]);
    let answer = statement(&lent, &[2, 1, 3, 1, 2], &[0, 0, 8, 0, 108], &mut from, &mut to, &mut wh);
    assert_eq!(answer, (DONE, 4));
    assert_eq!((0..4).map(|i| (from[i], to[i], wh[i])).collect::<Vec<_>>(), expected);
    let mut history = Standing::opened(&lent);
    for call in [
        Call::Reading(0, 0),
        Call::Reading(2, 8),
        Call::Reading(4, 108),
        Call::Cut(0),
        Call::Cut(1),
        Call::Cut(2),
        Call::Cut(3),
    ] {
        assert_eq!(history.step(&call), 0);
    }
    let parts = history.parts();
    assert_eq!(parts.iter().map(|part| (part.from as u16, part.to as u16, part.wh)).collect::<Vec<_>>(), expected);
    assert!(history.close(&parts[0], 2) && !history.close(&parts[0], 1) && !history.close(&parts[0], 3));
    assert_eq!(history.step(&Call::Uncut(1)), 0);
    assert_eq!(history.step(&Call::Uncut(1)), 10);
    assert_eq!(history.parts().len(), 3);
}

/// Section "If a call declines", row 3: each output of the statement by itself.
#[test]
fn unfit_outputs_of_the_statement() {
    for lengths in [[1, 2, 2], [2, 1, 2], [2, 2, 1], [3, 2, 2], [2, 3, 2], [2, 2, 3]] {
        let (mut from, mut to, mut wh) = (vec![9; lengths[0]], vec![9; lengths[1]], vec![9; lengths[2]]);
        let answer = statement(&[1, 1], &[2, 0, 2], &[0, 0, 5], &mut from, &mut to, &mut wh);
        assert_eq!(answer, (refused(3), 0));
        assert_eq!((from, to, wh), (vec![9; lengths[0]], vec![9; lengths[1]], vec![9; lengths[2]]));
    }
}

/// Section "Case file": the longest file, one with a byte more or less, and the longest written again.
#[test]
fn the_longest_file() {
    let mut file = vec![0, 0];
    file.extend(1_099u16.to_le_bytes());
    file.extend([0; 2 * 1_099]);
    file.extend(1_097u16.to_le_bytes());
    for k in 0..1_097u16 {
        file.extend(k.to_le_bytes());
        file.extend((k as u64).to_le_bytes());
    }
    file.extend(1_097u16.to_le_bytes());
    for k in 0..1_097u16 {
        file.extend(k.to_le_bytes());
    }
    assert_eq!(file.len(), 15_370);
    let (mut weights, mut marks, mut counts) = ([9; 1_096], [9; 1_097], [9; 1_097]);
    assert_eq!(read(&file, &mut weights, &mut marks, &mut counts), (DONE, 1_096));
    assert_eq!((marks, counts[1_096]), ([3; 1_097], 1_096));
    let mut again = [9; 15_370];
    assert_eq!(write(0, 0, &[0; 1_099], &marks, &counts, &mut again[1..]), (refused(15), 0));
    assert_eq!(again, [9; 15_370]);
    assert_eq!(write(0, 0, &[0; 1_099], &marks, &counts, &mut again), (DONE, 15_370));
    assert_eq!(again, file[..]);
    assert!(program(&file).starts_with("parts 1096\n") && program(&file).ends_with("\n1095 1096 1\nsum 1096\n"));
    assert_eq!(program(&file[..15_369]), "refused 13 15369\n");
    file.push(0);
    assert_eq!(program(&file), "refused 13 15370\n");
    file.extend([0; 9_000]);
    assert_eq!(program(&file), "refused 13 15370\n");
}
