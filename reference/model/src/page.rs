//! Change request K4: the statement of an account laid out as a page for the post, in a lent slice.

use crate::account::{lengths_fit, readings, sound};
use crate::statement::parts;
use crate::{refused, Answer, DONE};

/// The columns of from, to, Wh and the running sum.
const COLUMNS: [usize; 4] = [6, 6, 14, 14];

/// A line and its line feed, each field right-aligned with spaces.
fn line(fields: [String; 4]) -> String {
    let columns = fields.iter().zip(COLUMNS).map(|(field, width)| format!("{field:>width$}"));
    columns.collect::<String>() + "\n"
}

/// The heading, and a line for each part; the running sum has the Wh of its own line in it.
fn text(parts: &[(usize, usize, u64)]) -> String {
    let mut text = line(["from", "to", "Wh", "sum"].map(String::from));
    for (i, (from, to, wh)) in parts.iter().enumerate() {
        let sum: u64 = parts[..=i].iter().map(|part| part.2).sum();
        text += &line([from.to_string(), to.to_string(), wh.to_string(), sum.to_string()]);
    }
    text
}

/// Writes the page and returns the number of its bytes. Row 11 leaves the lent slice zero, whatever its length; rows 3 and
/// 5 leave it untouched. Row 3 is asked twice: first of the account, and last of the lent slice, which has to be as long as
/// the page.
pub fn page(weights: &[u32], marks: &[u8], counts: &[u64], page: &mut [u8]) -> (Answer, usize) {
    if !lengths_fit(weights, marks, counts) {
        return (refused(3), 0);
    }
    if !sound(weights, marks, counts) {
        return (refused(5), 0);
    }
    if readings(marks).len() < 2 {
        page.fill(0);
        return (refused(11), 0);
    }
    let text = text(&parts(weights, marks, counts));
    if page.len() != text.len() {
        return (refused(3), 0);
    }
    page.copy_from_slice(text.as_bytes());
    (DONE, text.len())
}
