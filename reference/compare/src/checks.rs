//! One input of each kind, how a library is run on it, and what is compared: the answer, the values, every slice.

use crate::casefiles::{Case, ReadBack, ReadCall, Rewrite, WriteCall};
use crate::library::Library;
use crate::pages::PageCall;
use crate::spreads::{Spread, SpreadCall};
use model::history::Call;
use model::{Answer, Boundary, Mean, ProfileNumber, Weekday, DONE};
use std::fmt;

/// Bytes that are printed in hexadecimal.
#[derive(Clone, PartialEq, Eq)]
pub struct File(pub Vec<u8>);

impl fmt::Debug for File {
    fn fmt(&self, f: &mut fmt::Formatter) -> fmt::Result {
        self.0.iter().try_for_each(|byte| write!(f, "{byte:02x}"))
    }
}

/// The lent slices of an account, of any lengths and contents.
#[derive(Clone, Debug)]
pub struct Account {
    pub weights: Vec<u32>,
    pub marks: Vec<u8>,
    pub counts: Vec<u64>,
}

/// The lent output slices of a statement, with what they hold before the call.
#[derive(Clone, Debug)]
pub struct Outputs {
    pub from: Vec<u16>,
    pub to: Vec<u16>,
    pub wh: Vec<u64>,
}

#[derive(Clone, Debug)]
pub enum Input {
    Temperature([Mean; 4]),
    Choose {
        measured: Vec<Mean>,
        forecast: Vec<Mean>,
        n: usize,
    },
    Value(ProfileNumber, Mean),
    DayWeight(ProfileNumber, Weekday, Mean),
    Weights {
        profile: ProfileNumber,
        weekday: Weekday,
        means: Vec<Mean>,
        calendar: Vec<u8>,
        out: Vec<u32>,
    },
    Open(Account),
    Reading(Account, Boundary, u64),
    Withdraw(Account, Boundary),
    Cut(Account, Boundary),
    Uncut(Account, Boundary),
    Statement(Account, Outputs),
    /// An open from any contents and then the calls, each on what the one before left.
    List(Account, Vec<Call>),
    CustomerValue {
        energy: u64,
        weights: Vec<u32>,
    },
    DailyAmount {
        value: u64,
        weight: u32,
    },
    Read {
        file: File,
        slices: Account,
    },
    Write {
        case: Case,
        out: File,
    },
    Rewrite(Rewrite),
    ReadBack(ReadBack),
    Page {
        account: Account,
        page: File,
    },
    Spread(Spread),
    StatementText {
        outputs: Outputs,
        parts: usize,
        out: Vec<u8>,
    },
    RefusalText {
        number: u8,
        place: usize,
        out: Vec<u8>,
    },
}

/// What a run left: the answer, the values, and every lent slice with its surroundings, widened.
#[derive(Clone, Debug, PartialEq, Eq)]
pub struct Outcome {
    pub answer: Answer,
    pub values: Vec<u64>,
    pub slices: Vec<Vec<u64>>,
}

impl Outcome {
    /// Where this outcome differs from the expected one: the answers and values, and the first place in each slice.
    pub fn differences(&self, expected: &Outcome) -> String {
        let mut text = String::new();
        if (self.answer, &self.values) != (expected.answer, &expected.values) {
            text += &format!("\n  {:?} {:?}", self.answer, self.values);
            text += &format!("\n  expected {:?} {:?}", expected.answer, expected.values);
        }
        for (i, (given, expected)) in self.slices.iter().zip(&expected.slices).enumerate() {
            if let Some(at) = (0..given.len()).find(|at| given[*at] != expected[*at]) {
                let index = at as i64 - GUARDS as i64;
                text += &format!("\n  lent slice {i} at index {index}: {}, expected {}", given[at], expected[at]);
            }
        }
        text
    }
}

pub trait Number: Copy {
    fn guard() -> Self;
    fn wide(self) -> u64;
}

macro_rules! number {
    ($($t:ty)*) => { $(impl Number for $t {
        fn guard() -> Self { 0x5a }
        fn wide(self) -> u64 { self as i64 as u64 }
    })* };
}
number!(u8 u16 u32 u64 i16);

const GUARDS: usize = 3;

/// A slice to lend, between guards that nobody may write.
pub struct Lent<T>(Vec<T>);

impl<T: Number> Lent<T> {
    pub fn new(contents: &[T]) -> Lent<T> {
        let guards = [T::guard(); GUARDS];
        Lent([&guards, contents, &guards].concat())
    }

    pub fn get(&self) -> &[T] {
        &self.0[GUARDS..self.0.len() - GUARDS]
    }

    pub fn get_mut(&mut self) -> &mut [T] {
        let end = self.0.len() - GUARDS;
        &mut self.0[GUARDS..end]
    }

    pub fn wide(&self) -> Vec<u64> {
        self.0.iter().map(|number| number.wide()).collect()
    }
}

/// The slices of an account while they are lent.
pub struct LentAccount {
    pub weights: Lent<u32>,
    pub marks: Lent<u8>,
    pub counts: Lent<u64>,
}

impl LentAccount {
    pub fn new(account: &Account) -> LentAccount {
        LentAccount {
            weights: Lent::new(&account.weights),
            marks: Lent::new(&account.marks),
            counts: Lent::new(&account.counts),
        }
    }

    pub fn wide(&self) -> Vec<Vec<u64>> {
        vec![self.weights.wide(), self.marks.wide(), self.counts.wide()]
    }

    /// One of the account's calls; a statement's outputs are the caller's.
    pub fn call(&mut self, library: &dyn Library, call: &Call, outputs: &mut LentOutputs) -> (Answer, usize) {
        let LentAccount { weights, marks, counts } = self;
        let weights = weights.get();
        let answer = match *call {
            Call::Reading(k, count) => library.reading(weights, marks.get_mut(), counts.get_mut(), k, count),
            Call::Withdraw(k) => library.withdraw(weights, marks.get_mut(), counts.get_mut(), k),
            Call::Cut(k) => library.cut(weights, marks.get_mut(), counts.get(), k),
            Call::Uncut(k) => library.uncut(weights, marks.get_mut(), counts.get(), k),
            Call::Statement(_) => {
                let LentOutputs { from, to, wh } = outputs;
                let (marks, counts) = (marks.get(), counts.get());
                return library.statement(weights, marks, counts, from.get_mut(), to.get_mut(), wh.get_mut());
            }
        };
        (answer, 0)
    }
}

pub struct LentOutputs {
    pub from: Lent<u16>,
    pub to: Lent<u16>,
    pub wh: Lent<u64>,
}

impl LentOutputs {
    pub fn new(outputs: &Outputs) -> LentOutputs {
        LentOutputs { from: Lent::new(&outputs.from), to: Lent::new(&outputs.to), wh: Lent::new(&outputs.wh) }
    }

    /// Outputs that hold no zero, of the lengths that a statement call names; no outputs for the other calls.
    pub fn for_call(call: &Call) -> LentOutputs {
        let lengths = if let Call::Statement(lengths) = call { *lengths } else { [0; 3] };
        LentOutputs::new(&Outputs { from: vec![7; lengths[0]], to: vec![7; lengths[1]], wh: vec![7; lengths[2]] })
    }

    pub fn wide(&self) -> Vec<Vec<u64>> {
        vec![self.from.wide(), self.to.wide(), self.wh.wide()]
    }
}

pub fn of(answer: Answer, values: &[u64], slices: Vec<Vec<u64>>) -> Outcome {
    Outcome { answer, values: values.to_vec(), slices }
}

/// Which series a chosen part begins with (0 measured, 1 forecast, 2 neither), and its length.
fn chosen(part: &[Mean], measured: &[Mean], forecast: &[Mean]) -> [u64; 2] {
    let series = [measured, forecast].iter().position(|series| series.as_ptr() == part.as_ptr());
    [series.unwrap_or(2) as u64, part.len() as u64]
}

fn one_call(library: &dyn Library, account: &Account, call: Call, outputs: &Outputs) -> Outcome {
    let (mut account, mut outputs) = (LentAccount::new(account), LentOutputs::new(outputs));
    let (answer, parts) = account.call(library, &call, &mut outputs);
    of(answer, &[parts as u64], [account.wide(), outputs.wide()].concat())
}

fn list(library: &dyn Library, account: &Account, calls: &[Call]) -> Outcome {
    let mut account = LentAccount::new(account);
    let opened = library.open(account.weights.get(), account.marks.get_mut(), account.counts.get_mut());
    let (mut values, mut slices) = (Vec::new(), account.wide());
    for call in calls {
        let mut outputs = LentOutputs::for_call(call);
        let (answer, parts) = account.call(library, call, &mut outputs);
        values.extend([answer.number as u64, answer.place as u64, parts as u64]);
        slices.extend(account.wide());
        slices.extend(outputs.wide());
    }
    of(opened, &values, slices)
}

impl Input {
    pub fn kind(&self) -> &'static str {
        match self {
            Input::Temperature(..) => "temperature",
            Input::Choose { .. } => "choose",
            Input::Value(..) => "value",
            Input::DayWeight(..) => "day weight",
            Input::Weights { .. } => "weights",
            Input::Open(..) => "open",
            Input::Reading(..) => "reading",
            Input::Withdraw(..) => "withdraw",
            Input::Cut(..) => "cut",
            Input::Uncut(..) => "uncut",
            Input::Statement(..) => "statement",
            Input::List(..) => "list of calls",
            Input::CustomerValue { .. } => "customer value",
            Input::DailyAmount { .. } => "daily amount",
            Input::Read { .. } => "case file",
            Input::Write { .. } => "case file written",
            Input::Rewrite(..) => "case file rewritten",
            Input::ReadBack(..) => "case file read back",
            Input::Page { .. } => "page",
            Input::Spread(..) => "spread",
            Input::StatementText { .. } => "statement text",
            Input::RefusalText { .. } => "refusal text",
        }
    }

    pub fn run(&self, library: &dyn Library) -> Outcome {
        let none = Outputs { from: vec![], to: vec![], wh: vec![] };
        match self {
            Input::Temperature([a, b, c, d]) => {
                let (answer, t) = library.temperature(*a, *b, *c, *d);
                of(answer, &[t.wide()], vec![])
            }
            Input::Choose { measured, forecast, n } => {
                let (measured, forecast) = (Lent::new(measured), Lent::new(forecast));
                let part = library.choose(measured.get(), forecast.get(), *n);
                of(DONE, &chosen(part, measured.get(), forecast.get()), vec![measured.wide(), forecast.wide()])
            }
            Input::Value(profile, t) => {
                let (answer, low, high) = library.value(*profile, *t);
                of(answer, &[low as u64, high as u64], vec![])
            }
            Input::DayWeight(profile, weekday, t) => {
                let (answer, weight) = library.day_weight(*profile, *weekday, *t);
                of(answer, &[weight as u64], vec![])
            }
            Input::Weights { profile, weekday, means, calendar, out } => {
                let (means, calendar, mut out) = (Lent::new(means), Lent::new(calendar), Lent::new(out));
                let answer = library.weights(*profile, *weekday, means.get(), calendar.get(), out.get_mut());
                of(answer, &[], vec![means.wide(), calendar.wide(), out.wide()])
            }
            Input::Open(account) => list(library, account, &[]),
            Input::Reading(account, k, count) => one_call(library, account, Call::Reading(*k, *count), &none),
            Input::Withdraw(account, k) => one_call(library, account, Call::Withdraw(*k), &none),
            Input::Cut(account, k) => one_call(library, account, Call::Cut(*k), &none),
            Input::Uncut(account, k) => one_call(library, account, Call::Uncut(*k), &none),
            Input::Statement(account, outputs) => one_call(library, account, Call::Statement([0; 3]), outputs),
            Input::List(account, calls) => list(library, account, calls),
            Input::CustomerValue { energy, weights } => {
                let weights = Lent::new(weights);
                let (answer, value) = library.customer_value(*energy, weights.get());
                of(answer, &[value], vec![weights.wide()])
            }
            Input::DailyAmount { value, weight } => {
                let (answer, amount) = library.daily_amount(*value, *weight);
                of(answer, &[amount], vec![])
            }
            Input::Read { file, slices } => ReadCall::new(library, file, slices).outcome(),
            Input::Write { case, out } => WriteCall::new(library, case, out).outcome(),
            Input::Rewrite(trip) => trip.outcome(library),
            Input::ReadBack(trip) => trip.outcome(library),
            Input::Page { account, page } => PageCall::new(library, account, page).outcome(),
            Input::Spread(spread) => SpreadCall::new(library, spread).outcome(),
            Input::StatementText { outputs, parts, out } => {
                let (outputs, mut out) = (LentOutputs::new(outputs), Lent::new(out));
                let LentOutputs { from, to, wh } = &outputs;
                let length = library.statement_text(from.get(), to.get(), wh.get(), *parts, out.get_mut());
                of(DONE, &[length as u64], [outputs.wide(), vec![out.wide()]].concat())
            }
            Input::RefusalText { number, place, out } => {
                let mut out = Lent::new(out);
                let length = library.refusal_text(*number, *place, out.get_mut());
                of(DONE, &[length as u64], vec![out.wide()])
            }
        }
    }
}
