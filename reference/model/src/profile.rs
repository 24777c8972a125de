//! Section "Profiles": the record, the limits, and the ten profiles of tables 4 and 5 of source document 001.

use crate::Mean;

/// Coefficients in ten-millionths, weekday factors in ten-thousandths, Monday first.
pub struct Profile {
    pub a: i64,
    pub b: i64,
    pub c: i64,
    pub d: i64,
    pub mh: i64,
    pub bh: i64,
    pub mw: i64,
    pub bw: i64,
    pub factors: [i64; 7],
}

impl Profile {
    pub const COLDEST: Mean = -5_000;
    pub const WARMEST: Mean = 3_999;
    pub const LIGHTEST: u32 = 1;
    pub const HEAVIEST: u32 = 6_999_999;
    /// The most days of a span.
    pub const LONGEST: usize = 1_096;
}

/// Numbers 0 to 9, in the order of table 4.
pub static PROFILES: [Profile; 10] = [
    // HEF33
    Profile {
        a: 16_209_544,
        b: -371_833_141,
        c: 56_727_847,
        d: 716_431,
        mh: -495_700,
        bh: 8_401_015,
        mw: -22_090,
        bw: 1_074_468,
        factors: [10_000, 10_000, 10_000, 10_000, 10_000, 10_000, 10_000],
    },
    // HMF33
    Profile {
        a: 12_328_655,
        b: -347_213_605,
        c: 58_164_304,
        d: 873_352,
        mh: -409_284,
        bh: 7_672_920,
        mw: -22_320,
        bw: 1_199_207,
        factors: [10_000, 10_000, 10_000, 10_000, 10_000, 10_000, 10_000],
    },
    // HKO03
    Profile {
        a: 4_040_932,
        b: -244_392_968,
        c: 65_718_175,
        d: 7_107_710,
        mh: 0,
        bh: 0,
        mw: 0,
        bw: 0,
        factors: [10_000, 10_000, 10_000, 10_000, 10_000, 10_000, 10_000],
    },
    // GHD33
    Profile {
        a: 13_010_623,
        b: -356_816_144,
        c: 66_857_976,
        d: 1_409_267,
        mh: -473_428,
        bh: 8_141_691,
        mw: -10_601,
        bw: 1_325_092,
        factors: [10_300, 10_300, 10_200, 10_300, 10_100, 9_300, 9_500],
    },
    // GMK33
    Profile {
        a: 14_202_419,
        b: -348_806_130,
        c: 65_951_899,
        d: 385_317,
        mh: -521_084,
        bh: 8_647_919,
        mw: -14_369,
        bw: 637_602,
        factors: [10_699, 10_365, 9_933, 9_948, 10_659, 9_362, 9_034],
    },
    // GKO33
    Profile {
        a: 13_554_515,
        b: -351_412_563,
        c: 71_303_395,
        d: 990_619,
        mh: -526_487,
        bh: 8_626_086,
        mw: -8_808,
        bw: 964_014,
        factors: [10_354, 10_523, 10_449, 10_494, 9_885, 8_860, 9_435],
    },
    // GBH33
    Profile {
        a: 9_874_283,
        b: -352_532_124,
        c: 61_544_406,
        d: 2_265_716,
        mh: -339_020,
        bh: 6_938_234,
        mw: -12_849,
        bw: 2_029_732,
        factors: [9_767, 10_389, 10_028, 10_162, 10_024, 10_043, 9_587],
    },
    // GBA33
    Profile {
        a: 2_770_087,
        b: -330_000_000,
        c: 57_212_303,
        d: 4_865_118,
        mh: -94_849,
        bh: 4_630_237,
        mw: -7_134,
        bw: 3_867_447,
        factors: [10_848, 11_211, 10_769, 11_353, 11_402, 4_852, 9_565],
    },
    // GGA33
    Profile {
        a: 11_582_082,
        b: -362_878_584,
        c: 65_885_126,
        d: 2_235_680,
        mh: -410_335,
        bh: 7_526_451,
        mw: -9_088,
        bw: 1_916_641,
        factors: [9_322, 9_894, 10_033, 10_109, 10_180, 10_356, 10_106],
    },
    // GMF33
    Profile {
        a: 12_328_655,
        b: -347_213_605,
        c: 58_164_304,
        d: 873_352,
        mh: -409_284,
        bh: 7_672_920,
        mw: -22_320,
        bw: 1_199_207,
        factors: [10_354, 10_523, 10_449, 10_494, 9_885, 8_860, 9_435],
    },
];
