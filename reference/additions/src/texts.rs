//! The texts of section "Case file" for slices that a caller of C lends, which can hold what no statement can be.

use model::account::MOST_ENERGY;
use model::profile::Profile;
use model::statement::text;

/// The statement as the programs print it; empty for what no statement can be.
pub fn statement_text(from: &[u16], to: &[u16], wh: &[u64], parts: usize) -> String {
    if impossible(from, to, wh, parts) {
        return String::new();
    }
    text(from, to, wh, parts)
}

/// What no statement can be: no part, more parts than these slices or the longest span hold, or a part above
/// 2,000,000,000 Wh.
fn impossible(from: &[u16], to: &[u16], wh: &[u64], parts: usize) -> bool {
    let longest = from.len().min(to.len()).min(wh.len()).min(Profile::LONGEST);
    parts == 0 || parts > longest || wh[..parts].iter().any(|part| *part > MOST_ENERGY)
}

/// Stores a text at the start of a lent buffer, as much of it as fits, and returns the length of the whole text.
pub fn lay_out(text: &str, out: &mut [u8]) -> usize {
    let fitting = text.len().min(out.len());
    out[..fitting].copy_from_slice(&text.as_bytes()[..fitting]);
    text.len()
}
