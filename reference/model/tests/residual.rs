//! Change request K5: worked lists, tables 1 and 10 of document 000, and its rows in their order with the outputs after each.

use model::residual::spread;
use model::{refused, DONE};

const LOAD: u64 = 2_000_000_000;
const BASES: u64 = 6_000_000_000;

/// Amounts and totals of a list that is taken. The points and the suppliers add up to the load, and each point is less than
/// 1 Wh from its exact share.
fn spread_out(load: u64, suppliers: &[u8], bases: &[u64]) -> (Vec<u64>, [u64; 64]) {
    let (mut amounts, mut totals) = (vec![9; bases.len()], [9; 64]);
    assert_eq!(spread(load, suppliers, bases, &mut amounts, &mut totals), (DONE, load));
    assert_eq!((amounts.iter().sum::<u64>(), totals.iter().sum::<u64>()), (load, load));
    let all: u64 = bases.iter().sum();
    for (amount, base) in amounts.iter().zip(bases) {
        let (whole, exact) = (*amount as u128 * all as u128, load as u128 * *base as u128);
        assert!(whole.abs_diff(exact) < all as u128 || (all, *amount) == (0, 0));
    }
    (amounts, totals)
}

/// The 64 totals that are zero but for these suppliers.
fn totals_of(suppliers: &[(usize, u64)]) -> [u64; 64] {
    let mut totals = [0; 64];
    suppliers.iter().for_each(|(supplier, total)| totals[*supplier] = *total);
    totals
}

#[test]
fn a_hundred_over_three() {
    let (amounts, totals) = spread_out(100, &[0, 63, 0], &[1, 1, 1]);
    assert_eq!(amounts, [33, 34, 33]);
    assert_eq!(totals, totals_of(&[(0, 66), (63, 34)]));
}

/// The list's order decides, not the suppliers', and a point without a base has nothing.
#[test]
fn in_list_order() {
    assert_eq!(spread_out(1, &[1, 0], &[1, 1]), (vec![1, 0], totals_of(&[(1, 1)])));
    assert_eq!(spread_out(1, &[5, 4, 3, 2], &[0, 1, 0, 1]), (vec![0, 1, 0, 0], totals_of(&[(4, 1)])));
    assert_eq!(spread_out(7, &[2], &[3]), (vec![7], totals_of(&[(2, 7)])));
}

#[test]
fn zero_over_zero() {
    assert_eq!(spread_out(0, &[0, 63], &[0, 0]), (vec![0, 0], [0; 64]));
    assert_eq!(spread_out(0, &[1, 1], &[5, 6]), (vec![0, 0], [0; 64]));
}

/// Load, base sum, points and supplier at their limits are taken.
#[test]
fn the_limits() {
    let (amounts, totals) = spread_out(LOAD, &[1, 2, 3], &[2_000_000_000; 3]);
    assert_eq!(amounts, [666_666_667, 666_666_666, 666_666_667]);
    assert_eq!(totals, totals_of(&[(1, 666_666_667), (2, 666_666_666), (3, 666_666_667)]));
    assert_eq!(spread_out(LOAD, &[63, 0], &[BASES, 0]), (vec![LOAD, 0], totals_of(&[(63, LOAD)])));
    assert_eq!(spread_out(LOAD, &[63, 0], &[BASES - 1, 1]), (vec![LOAD, 0], totals_of(&[(63, LOAD)])));
    let (amounts, totals) = spread_out(LOAD, &[63; 1_000], &[6_000_000; 1_000]);
    assert_eq!(amounts, [2_000_000; 1_000]);
    assert_eq!(totals, totals_of(&[(63, LOAD)]));
}

/// Supplier, base amount of table 1 and amount of table 10, both in 0.1 Wh. A is 0, B is 1.
const TABLES: [(u8, u64, u64); 20] = [
    (0, 573_261, 618_013),
    (0, 617_358, 665_553),
    (0, 749_650, 808_171),
    (1, 705_552, 760_632),
    (1, 602_659, 649_706),
    (1, 661_455, 713_092),
    (1, 823_145, 887_404),
    (1, 720_251, 776_478),
    (1, 690_853, 744_785),
    (1, 779_048, 839_864),
    (1, 764_349, 824_018),
    (1, 661_455, 713_092),
    (0, 1_511_730, 1_629_743),
    (0, 1_682_869, 1_814_242),
    (0, 1_540_253, 1_660_493),
    (0, 2_067_932, 2_229_366),
    (0, 1_725_654, 1_860_367),
    (0, 1_411_898, 1_522_119),
    (1, 1_212_236, 1_306_869),
    (1, 1_369_114, 1_475_994),
];

/// Every point, and the total of each supplier, is less than 1 Wh from table 10.
#[test]
fn document_000() {
    let (suppliers, bases) = (TABLES.map(|row| row.0), TABLES.map(|row| row.1));
    let (amounts, totals) = spread_out(2_250_000, &suppliers, &bases);
    for (amount, row) in amounts.iter().zip(TABLES) {
        assert!((10 * amount).abs_diff(row.2) < 10, "{amount} Wh for {row:?}");
    }
    assert!((10 * totals[0]).abs_diff(12_808_067) < 10, "{} Wh for A", totals[0]);
    assert!((10 * totals[1]).abs_diff(9_691_933) < 10, "{} Wh for B", totals[1]);
    assert_eq!(totals[2..], [0; 62]);
}

/// The number of a refused call on outputs of these lengths that hold no zero. Row 3 leaves both, the others zero both.
fn refusal(load: u64, suppliers: &[u8], bases: &[u64], amounts: usize, totals: usize) -> u8 {
    let (mut amounts, mut totals) = (vec![9; amounts], vec![9; totals]);
    let (answer, value) = spread(load, suppliers, bases, &mut amounts, &mut totals);
    assert_eq!((answer, value), (refused(answer.number), 0));
    let left = if answer.number == 3 { 9 } else { 0 };
    assert!(amounts.iter().chain(&totals).all(|number| *number == left));
    answer.number
}

/// Lengths come first: these lists meet the conditions of 16 and 17 too, or are good but for a length.
#[test]
fn lengths_that_are_unfit() {
    for [suppliers, bases, amounts, totals] in [
        [2, 3, 2, 64],
        [2, 1, 2, 64],
        [2, 2, 3, 64],
        [2, 2, 1, 64],
        [3, 2, 2, 64],
        [1, 2, 2, 64],
        [0, 1, 0, 64],
        [0, 0, 1, 64],
        [1, 0, 0, 64],
        [2, 2, 2, 63],
        [2, 2, 2, 65],
        [2, 2, 2, 0],
        [0, 0, 0, 63],
        [1_001, 1_002, 1_001, 64],
        [1_001, 1_001, 1_001, 65],
    ] {
        assert_eq!(refusal(u64::MAX, &vec![64; suppliers], &vec![u64::MAX; bases], amounts, totals), 3);
        assert_eq!(refusal(1, &vec![0; suppliers], &vec![1; bases], amounts, totals), 3);
    }
}

/// Rows 16, 17 and 18 in this order: most of these lists meet conditions of later rows too.
#[test]
fn rows_of_the_list() {
    let half = 1 << 63;
    for (load, suppliers, bases, number) in [
        (1, vec![], vec![], 16),
        (0, vec![], vec![], 16),
        (LOAD + 1, vec![], vec![], 16),
        (1, vec![0; 1_001], vec![1; 1_001], 16),
        (LOAD + 1, vec![0; 1_001], vec![BASES; 1_001], 16),
        (1, vec![0, 64], vec![1, 1], 16),
        (1, vec![64, 0], vec![0, 0], 16),
        (1, vec![255], vec![1], 16),
        (LOAD + 1, vec![64], vec![1], 16),
        (1, vec![0, 64], vec![BASES, 1], 16),
        (LOAD + 1, vec![0], vec![1], 17),
        (u64::MAX, vec![0], vec![1], 17),
        (LOAD + 1, vec![0, 0], vec![0, 0], 17),
        (0, vec![0], vec![BASES + 1], 17),
        (1, vec![0, 63], vec![BASES, 1], 17),
        (1, vec![0; 1_000], vec![6_000_001; 1_000], 17),
        (1, vec![0; 1_000], vec![u64::MAX; 1_000], 17),
        (5, vec![0, 0], vec![half, half], 17),
        (0, vec![0, 0], vec![half, half], 17),
        (5, vec![0, 0], vec![u64::MAX, 2], 17),
        (5, vec![0, 0, 0], vec![1, u64::MAX, BASES], 17),
        (1, vec![0], vec![0], 18),
        (LOAD, vec![63; 1_000], vec![0; 1_000], 18),
    ] {
        assert_eq!(refusal(load, &suppliers, &bases, suppliers.len(), 64), number, "{load} {suppliers:?} {bases:?}");
    }
}
