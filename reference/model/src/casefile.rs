//! Section "Case file": the reader, which fills three lent slices, and what the statement program prints for a file; and the
//! writer of change request K2.

use crate::profile::Profile;
use crate::temperature::in_range;
use crate::{account, refused, refused_at, statement, value, Answer, Mean, ProfileNumber, Weekday, DONE};

pub const WEIGHTS: usize = 1_096;
pub const MARKS: usize = 1_097;
pub const COUNTS: usize = 1_097;
pub const MOST_BYTES: usize = 16_384;

struct Contents {
    weights: Vec<u32>,
    marks: Vec<u8>,
    counts: Vec<u64>,
}

/// The weights of these means. Change request K1: "case files of today's layout mean 7 throughout".
fn weigh(profile: ProfileNumber, weekday: Weekday, means: &[Mean], weights: &mut [u32]) -> Answer {
    value::weights(profile, weekday, means, &vec![7; weights.len()], weights)
}

/// The file and the reader's own position.
struct Reader<'a> {
    file: &'a [u8],
    at: usize,
}

impl Reader<'_> {
    /// The next item as one little-endian number for each of its fields, their lengths given in bytes; row 13 at the
    /// file's length if it ends early.
    fn item(&mut self, fields: &[usize]) -> Result<Vec<u64>, Answer> {
        if self.file.len() - self.at < fields.iter().sum() {
            return Err(refused_at(13, self.file.len()));
        }
        let mut numbers = Vec::new();
        for bytes in fields {
            let field = &self.file[self.at..self.at + bytes];
            numbers.push(field.iter().rev().fold(0, |number, byte| number * 256 + *byte as u64));
            self.at += bytes;
        }
        Ok(numbers)
    }

    fn means(&mut self) -> Result<Vec<Mean>, Answer> {
        let count = self.item(&[2])?[0] as usize;
        if count < 4 || count > Profile::LONGEST + 3 {
            return Err(refused_at(3, 2));
        }
        let mut means = Vec::new();
        for _ in 0..count {
            let place = self.at;
            let mean = self.item(&[2])?[0] as u16 as i16 as Mean;
            if !in_range(mean) {
                return Err(refused_at(4, place));
            }
            means.push(mean);
        }
        Ok(means)
    }

    fn readings(&mut self, contents: &mut Contents) -> Result<(), Answer> {
        let count = self.item(&[2])?[0];
        let mut before = None;
        for _ in 0..count {
            let place = self.at;
            let item = self.item(&[2, 8])?;
            if before >= Some(item[0]) {
                return Err(refused_at(13, place));
            }
            before = Some(item[0]);
            let Contents { weights, marks, counts } = contents;
            match account::reading(weights, marks, counts, item[0] as usize, item[1]).number {
                0 => {}
                6 => return Err(refused_at(6, place)),
                number => return Err(refused_at(number, place + 2)),
            }
        }
        Ok(())
    }

    fn cuts(&mut self, contents: &mut Contents) -> Result<(), Answer> {
        let count = self.item(&[2])?[0];
        let mut before = None;
        for _ in 0..count {
            let place = self.at;
            let k = self.item(&[2])?[0];
            if before >= Some(k) {
                return Err(refused_at(13, place));
            }
            before = Some(k);
            let answer = account::cut(&contents.weights, &mut contents.marks, &contents.counts, k as usize);
            if answer != DONE {
                return Err(refused_at(answer.number, place));
            }
        }
        Ok(())
    }

    /// The whole file, front to back.
    fn contents(&mut self) -> Result<Contents, Answer> {
        let profile = self.item(&[1])?[0] as ProfileNumber;
        if profile > 9 {
            return Err(refused_at(1, 0));
        }
        let weekday = self.item(&[1])?[0] as Weekday;
        if weekday > 6 {
            return Err(refused_at(2, 1));
        }
        let means = self.means()?;
        let n = means.len() - 3;
        let mut contents = Contents { weights: vec![0; n], marks: vec![0; n + 1], counts: vec![0; n + 1] };
        assert_eq!(weigh(profile, weekday, &means, &mut contents.weights), DONE);
        self.readings(&mut contents)?;
        self.cuts(&mut contents)?;
        if self.at < self.file.len() {
            return Err(refused_at(13, self.at));
        }
        Ok(contents)
    }
}

/// Reads a case file into slices of lengths 1,096, 1,097 and 1,097, the rest zero, and returns n. After a fault the
/// slices are all zero; where a length is unfit they are untouched.
pub fn read(file: &[u8], weights: &mut [u32], marks: &mut [u8], counts: &mut [u64]) -> (Answer, usize) {
    if weights.len() != WEIGHTS || marks.len() != MARKS || counts.len() != COUNTS {
        return (refused(3), 0);
    }
    weights.fill(0);
    marks.fill(0);
    counts.fill(0);
    match (Reader { file, at: 0 }).contents() {
        Err(answer) => (answer, 0),
        Ok(contents) => {
            let n = contents.weights.len();
            weights[..n].copy_from_slice(&contents.weights);
            marks[..n + 1].copy_from_slice(&contents.marks);
            counts[..n + 1].copy_from_slice(&contents.counts);
            (DONE, n)
        }
    }
}

/// A section after its count, little-endian; an item is the length in bytes and the number of each of its fields.
fn section(items: Vec<Vec<(usize, u64)>>) -> Vec<u8> {
    let count = vec![(2, items.len() as u64)];
    let fields = [vec![count], items].concat().concat();
    fields.iter().flat_map(|(bytes, number)| (0..*bytes).map(move |i| (number >> (8 * i)) as u8)).collect()
}

/// The case file of a sound account. A boundary with both marks stands in both sections.
fn file_of(profile: ProfileNumber, weekday: Weekday, means: &[Mean], marks: &[u8], counts: &[u64]) -> Vec<u8> {
    let means = means.iter().map(|mean| vec![(2, *mean as u16 as u64)]).collect();
    let readings = account::readings(marks).iter().map(|k| vec![(2, *k as u64), (8, counts[*k])]).collect();
    let cuts = account::cuts(marks).iter().map(|k| vec![(2, *k as u64)]).collect();
    [vec![profile, weekday], section(means), section(readings), section(cuts)].concat()
}

/// Change request K2: writes the case file of one account to the start of a lent slice, and returns its length. Rows 1, 2
/// and 4 leave the whole slice zero, also where it is too short for the file; rows 3, 5 and 15 leave it untouched.
pub fn write(
    profile: ProfileNumber,
    weekday: Weekday,
    means: &[Mean],
    marks: &[u8],
    counts: &[u64],
    out: &mut [u8],
) -> (Answer, usize) {
    let mut weights = vec![0; means.len().saturating_sub(3)];
    if !account::lengths_fit(&weights, marks, counts) {
        return (refused(3), 0);
    }
    let answer = weigh(profile, weekday, means, &mut weights);
    if answer != DONE {
        out.fill(0);
        return (answer, 0);
    }
    if !account::sound(&weights, marks, counts) {
        return (refused(5), 0);
    }
    let file = file_of(profile, weekday, means, marks, counts);
    if out.len() < file.len() {
        return (refused(15), 0);
    }
    out[..file.len()].copy_from_slice(&file);
    (DONE, file.len())
}

/// What the statement program prints for what stands on its standard input.
pub fn program(input: &[u8]) -> String {
    let file = &input[..input.len().min(MOST_BYTES)];
    let (mut weights, mut marks, mut counts) = ([0; WEIGHTS], [0; MARKS], [0; COUNTS]);
    let (answer, n) = read(file, &mut weights, &mut marks, &mut counts);
    if answer != DONE {
        return statement::refusal_text(answer);
    }
    let (mut from, mut to, mut wh) = (vec![0; n], vec![0; n], vec![0; n]);
    let (answer, parts) =
        statement::statement(&weights[..n], &marks[..n + 1], &counts[..n + 1], &mut from, &mut to, &mut wh);
    if answer != DONE {
        return statement::refusal_text(answer);
    }
    statement::text(&from, &to, &wh, parts)
}
