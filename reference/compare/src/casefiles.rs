//! Section "Case file" and change request K2: calls of the reader and of the writer, and the two round trips through both.

use crate::checks::{of, Account, File, Lent, LentAccount, Outcome};
use crate::library::Library;
use model::{refused, value, Answer, Mean, ProfileNumber, Weekday, DONE};

/// What a case file says of one account, of any lengths and contents.
#[derive(Clone, Debug)]
pub struct Case {
    pub profile: ProfileNumber,
    pub weekday: Weekday,
    pub means: Vec<Mean>,
    pub marks: Vec<u8>,
    pub counts: Vec<u64>,
}

/// A call of the reader: what it returned, and the slices as it left them.
pub struct ReadCall {
    answer: Answer,
    n: usize,
    file: Lent<u8>,
    slices: LentAccount,
}

impl ReadCall {
    pub fn new(library: &dyn Library, file: &File, slices: &Account) -> ReadCall {
        let (file, mut slices) = (Lent::new(&file.0), LentAccount::new(slices));
        let LentAccount { weights, marks, counts } = &mut slices;
        let (answer, n) = library.read(file.get(), weights.get_mut(), marks.get_mut(), counts.get_mut());
        ReadCall { answer, n, file, slices }
    }

    pub fn outcome(&self) -> Outcome {
        of(self.answer, &[self.n as u64], [self.slices.wide(), vec![self.file.wide()]].concat())
    }

    /// Profile, weekday and means as they stand in the file, and what the reader left at the boundaries of so many means;
    /// none after a refusal, or where the file has fewer means than it says.
    fn case(&self) -> Option<Case> {
        let (head, rest) = self.file.get().split_first_chunk::<4>().filter(|_| self.answer == DONE)?;
        let count = u16::from_le_bytes([head[2], head[3]]) as usize;
        let means = rest.get(..2 * count)?.chunks(2).map(|two| Mean::from_le_bytes([two[0], two[1]])).collect();
        let boundaries = count.checked_sub(2)?;
        let marks = self.slices.marks.get().get(..boundaries)?.to_vec();
        let counts = self.slices.counts.get().get(..boundaries)?.to_vec();
        Some(Case { profile: head[0], weekday: head[1], means, marks, counts })
    }
}

/// A call of the writer: what it returned, and the slices as it left them.
pub struct WriteCall {
    answer: Answer,
    length: usize,
    shared: Vec<Vec<u64>>,
    out: Lent<u8>,
}

impl WriteCall {
    pub fn new(library: &dyn Library, case: &Case, out: &File) -> WriteCall {
        let Case { profile, weekday, means, marks, counts } = case;
        let (means, marks, counts) = (Lent::new(means), Lent::new(marks), Lent::new(counts));
        let mut out = Lent::new(&out.0);
        let (answer, length) = library.write(*profile, *weekday, means.get(), marks.get(), counts.get(), out.get_mut());
        WriteCall { answer, length, shared: vec![means.wide(), marks.wide(), counts.wide()], out }
    }

    pub fn outcome(&self) -> Outcome {
        of(self.answer, &[self.length as u64], [self.shared.clone(), vec![self.out.wide()]].concat())
    }
}

/// One outcome of several calls: the answer of the first, and number, place and value of each.
fn joined(calls: &[Outcome]) -> Outcome {
    let values = |call: &Outcome| [call.answer.number as u64, call.answer.place as u64, call.values[0]];
    let slices = calls.iter().flat_map(|call| call.slices.clone()).collect();
    of(calls[0].answer, &calls.iter().flat_map(values).collect::<Vec<u64>>(), slices)
}

/// A file that is read and, where the reader takes it, written again into each of the slices `outs`.
#[derive(Clone, Debug)]
pub struct Rewrite {
    pub file: File,
    pub slices: Account,
    pub outs: Vec<File>,
}

impl Rewrite {
    fn calls(&self, library: &dyn Library) -> (ReadCall, Vec<WriteCall>) {
        let read = ReadCall::new(library, &self.file, &self.slices);
        let case = read.case();
        let write = |out| case.as_ref().map(|case| WriteCall::new(library, case, out));
        let writes = self.outs.iter().filter_map(write).collect();
        (read, writes)
    }

    pub fn outcome(&self, library: &dyn Library) -> Outcome {
        let (read, writes) = self.calls(library);
        joined(&[vec![read.outcome()], writes.iter().map(WriteCall::outcome).collect()].concat())
    }

    /// "A file that the reader takes is rewritten, from its own profile, weekday and means, to its own bytes."
    pub fn check(&self, library: &dyn Library) -> Result<(), String> {
        let (read, writes) = self.calls(library);
        if read.answer == DONE && writes.is_empty() {
            return Err("the reader takes a file that ends before its means do".to_string());
        }
        for (out, write) in self.outs.iter().zip(writes) {
            let (answer, length, bytes) = match out.0.get(self.file.0.len()..) {
                Some(rest) => (DONE, self.file.0.len(), [&self.file.0, rest].concat()),
                None => (refused(15), 0, out.0.clone()),
            };
            if (write.answer, write.length) != (answer, length) {
                return Err(format!("{:?} {}, expected {answer:?} {length}", write.answer, write.length));
            }
            if write.out.get() != bytes {
                return Err(format!("the slice is {:?}, expected {:?}", File(write.out.get().to_vec()), File(bytes)));
            }
        }
        Ok(())
    }
}

/// An account that is written and, where the writer is done, read back from the bytes that it wrote.
#[derive(Clone, Debug)]
pub struct ReadBack {
    pub case: Case,
    pub out: File,
    pub slices: Account,
}

impl ReadBack {
    /// No read after a refusal, or where the length is above the slice's.
    fn calls(&self, library: &dyn Library) -> (WriteCall, Option<ReadCall>) {
        let write = WriteCall::new(library, &self.case, &self.out);
        let file = write.out.get().get(..write.length).filter(|_| write.answer == DONE);
        let read = file.map(|file| ReadCall::new(library, &File(file.to_vec()), &self.slices));
        (write, read)
    }

    pub fn outcome(&self, library: &dyn Library) -> Outcome {
        let (write, read) = self.calls(library);
        joined(&[vec![write.outcome()], read.iter().map(ReadCall::outcome).collect()].concat())
    }

    /// The account as the reader has to leave it: over the model's weights of its means, and zero past its end.
    fn account(&self) -> Account {
        let Case { profile, weekday, means, mut marks, mut counts } = self.case.clone();
        let n = means.len().saturating_sub(3);
        let mut weights = vec![0; n];
        value::weights(profile, weekday, &means, &vec![7; n], &mut weights);
        weights.resize(self.slices.weights.len(), 0);
        marks.resize(self.slices.marks.len(), 0);
        counts.resize(self.slices.counts.len(), 0);
        Account { weights, marks, counts }
    }

    /// "What is written reads back to the same marks and counts, over the weights of those means with K1's bytes 7
    /// throughout."
    pub fn check(&self, library: &dyn Library) -> Result<(), String> {
        let (write, read) = self.calls(library);
        if write.answer != DONE {
            return Ok(());
        }
        let Some(read) = read else { return Err(format!("a length of {}, above the slice's", write.length)) };
        if read.answer != DONE || Some(read.n) != self.case.means.len().checked_sub(3) {
            return Err(format!("read back with {:?} {}", read.answer, read.n));
        }
        if read.slices.wide() != LentAccount::new(&self.account()).wide() {
            return Err("read back to another account".to_string());
        }
        Ok(())
    }
}
