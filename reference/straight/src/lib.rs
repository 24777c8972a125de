//! Two versions of the timed calls (weights, reading, statement, case file read and written, page, spread), for docs/BENCHMARK.md: `plain`
//! as one writes them straight away, `same` with the proved algorithms.

pub mod plain;
pub mod same;
pub mod weights;

pub(crate) const LONGEST: usize = 1_096;
pub(crate) const HEAVIEST: u32 = 6_999_999;
pub(crate) const MOST_ENERGY: u64 = 2_000_000_000;
pub(crate) const SUPPLIERS: usize = 64;
pub(crate) const MOST_POINTS: usize = 1_000;
pub(crate) const MOST_LOAD: u64 = 2_000_000_000;
pub(crate) const MOST_BASE: u64 = 6_000_000_000;
