//! Change request K4: a call of the page, and what its lines say beside a statement of the same account.

use crate::checks::{of, Account, File, Lent, LentAccount, LentOutputs, Outcome};
use crate::library::Library;
use model::history::Call;
use model::{Answer, DONE};

/// A call of the page: what it returned, and the slices as it left them.
pub struct PageCall {
    answer: Answer,
    length: usize,
    account: LentAccount,
    page: Lent<u8>,
}

impl PageCall {
    pub fn new(library: &dyn Library, account: &Account, page: &File) -> PageCall {
        let (account, mut page) = (LentAccount::new(account), Lent::new(&page.0));
        let LentAccount { weights, marks, counts } = &account;
        let (answer, length) = library.page(weights.get(), marks.get(), counts.get(), page.get_mut());
        PageCall { answer, length, account, page }
    }

    pub fn outcome(&self) -> Outcome {
        of(self.answer, &[self.length as u64], [self.account.wide(), vec![self.page.wide()]].concat())
    }

    /// "Each field reads back as the number of the statement, and the last running sum is the whole energy."
    pub fn check(mut self, library: &dyn Library) -> Result<(), String> {
        if self.answer != DONE {
            return Ok(());
        }
        let call = Call::Statement([self.account.weights.get().len(); 3]);
        let mut outputs = LentOutputs::for_call(&call);
        let (answer, parts) = self.account.call(library, &call, &mut outputs);
        let page = self.page.get();
        if answer != DONE || self.length != 41 * (parts + 1) || page.len() != self.length {
            return Err(format!("{} bytes in {}, beside a statement {answer:?} {parts}", self.length, page.len()));
        }
        let (from, to, wh) = (outputs.from.get(), outputs.to.get(), outputs.wh.get());
        let mut sum = 0;
        for (i, line) in page.chunks(41).skip(1).enumerate() {
            sum += wh[i];
            let stated = [from[i] as u64, to[i] as u64, wh[i], sum];
            if fields(line) != Some(stated) {
                return Err(format!("the line \"{}\", for {stated:?}", line.escape_ascii()));
            }
        }
        let boundaries = self.account.marks.get().iter().zip(self.account.counts.get());
        let readings: Vec<u64> = boundaries.filter(|(mark, _)| **mark >= 2).map(|(_, count)| *count).collect();
        let energy = readings.last().zip(readings.first()).map(|(last, first)| last.wrapping_sub(*first));
        if energy != Some(sum) {
            return Err(format!("the last sum is {sum}, the whole energy {energy:?}"));
        }
        Ok(())
    }
}

/// The four numbers of a line: in each column spaces and then digits, and nothing else.
fn fields(line: &[u8]) -> Option<[u64; 4]> {
    let (line, mut numbers) = (line.strip_suffix(b"\n")?, [0; 4]);
    for (number, column) in numbers.iter_mut().zip([0..6, 6..12, 12..26, 26..40]) {
        let digits = std::str::from_utf8(line.get(column)?).ok()?.trim_start_matches(' ');
        *number = digits.parse().ok().filter(|_| digits.bytes().all(|byte| byte.is_ascii_digit()))?;
    }
    Some(numbers)
}
