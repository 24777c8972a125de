//! Compares implementations of the paper's calls with the model on random and damaged inputs; serves every section.

pub mod casefiles;
pub mod checks;
pub mod demand3;
pub mod inputs;
pub mod library;
pub mod pages;
pub mod programs;
#[cfg(feature = "linked")]
pub mod proved;
pub mod random;
pub mod run;
pub mod spreads;
