//! The console (examples/c/console.c), no part of the paper, over section "Account and its calls": a script of calls in,
//! their answers out.

use model::statement::{refusal_text, text};
use model::{account, statement, value, Answer, Boundary, Mean, ProfileNumber, Weekday, DONE};

const HELP: &str = "\
weights W W ..               opens an account with these weights, one for each day
days PROFILE WEEKDAY M M ..  opens an account with the weights that these daily means give
days .. M M .. as B B ..     does the same, with a byte B for each day
reading K COUNT              sets a reading of COUNT Wh at boundary K
withdraw K                   removes the reading at boundary K
cut K                        sets a cut at boundary K
uncut K                      removes the cut at boundary K
statement                    prints the statement of the account
help                         prints this text
Profiles are 0 to 9, and weekdays are 0 (Monday) to 6.
Means are hundredths of a degree C, oldest first. The first three are of the days before day 0.
A byte is 0 to 6, the weekday that the day counts as, or 7, its own. Without bytes each day keeps its own.
The answer is done, refused NUMBER PLACE or the statement. A line that is no call gets unknown LINE.
Empty lines and lines that begin with # get no answer.
";

/// What the console prints, and its exit status: 1 where some line is no call, else 0.
#[derive(Debug, PartialEq, Eq)]
pub struct Run {
    pub text: String,
    pub status: i32,
}

enum Line {
    Weights(Vec<u32>),
    /// With its calendar: 7 throughout if the line has none.
    Days(ProfileNumber, Weekday, Vec<Mean>, Vec<u8>),
    Reading(Boundary, u64),
    Withdraw(Boundary),
    Cut(Boundary),
    Uncut(Boundary),
    Statement,
    Help,
}

/// A decimal number that the type T holds: digits only, zeros in front allowed.
fn number<T: TryFrom<i128>>(word: &str) -> Option<T> {
    if word.is_empty() || !word.bytes().all(|byte| byte.is_ascii_digit()) {
        return None;
    }
    let digits = word.trim_start_matches('0');
    if digits.len() > 30 {
        return None;
    }
    T::try_from(format!("0{digits}").parse::<i128>().unwrap()).ok()
}

/// A mean: a minus sign may stand before its digits, also before 0.
fn mean(word: &str) -> Option<Mean> {
    match word.strip_prefix('-') {
        Some(digits) => Mean::try_from(-number::<i128>(digits)?).ok(),
        None => number(word),
    }
}

fn parse(words: &[&[u8]]) -> Option<Line> {
    let words: Vec<&str> = words.iter().map(|word| std::str::from_utf8(word).ok()).collect::<Option<_>>()?;
    Some(match words[..] {
        ["weights", ref rest @ ..] => Line::Weights(rest.iter().map(|word| number(word)).collect::<Option<_>>()?),
        ["days", profile, weekday, ref rest @ ..] => {
            let mut lists = rest.splitn(2, |word| *word == "as");
            let means: Vec<Mean> = lists.next()?.iter().map(|word| mean(word)).collect::<Option<_>>()?;
            let calendar = match lists.next() {
                Some(words) => words.iter().map(|word| number(word)).collect::<Option<_>>()?,
                None => vec![7; means.len().saturating_sub(3)],
            };
            Line::Days(number(profile)?, number(weekday)?, means, calendar)
        }
        ["reading", k, count] => Line::Reading(number(k)?, number(count)?),
        ["withdraw", k] => Line::Withdraw(number(k)?),
        ["cut", k] => Line::Cut(number(k)?),
        ["uncut", k] => Line::Uncut(number(k)?),
        ["statement"] => Line::Statement,
        ["help"] => Line::Help,
        _ => return None,
    })
}

/// The account that the script works on; it has no days before the first accepted `weights` or `days`.
#[derive(Default)]
struct Account {
    weights: Vec<u32>,
    marks: Vec<u8>,
    counts: Vec<u64>,
}

impl Account {
    fn open(&mut self, weights: Vec<u32>) -> Answer {
        let (mut marks, mut counts) = (vec![0; weights.len() + 1], vec![0; weights.len() + 1]);
        let answer = account::open(&weights, &mut marks, &mut counts);
        if answer == DONE {
            *self = Account { weights, marks, counts };
        }
        answer
    }

    fn statement(&self) -> String {
        let n = self.weights.len();
        let (mut from, mut to, mut wh) = (vec![0; n], vec![0; n], vec![0; n]);
        let (answer, parts) =
            statement::statement(&self.weights, &self.marks, &self.counts, &mut from, &mut to, &mut wh);
        if answer == DONE {
            text(&from, &to, &wh, parts)
        } else {
            refusal_text(answer)
        }
    }

    fn run(&mut self, line: Line) -> String {
        let answer = match line {
            Line::Statement => return self.statement(),
            Line::Help => return HELP.to_string(),
            Line::Weights(weights) => self.open(weights),
            Line::Days(profile, weekday, means, calendar) => {
                let mut weights = vec![0; means.len().saturating_sub(3)];
                match value::weights(profile, weekday, &means, &calendar, &mut weights) {
                    DONE => self.open(weights),
                    answer => answer,
                }
            }
            Line::Reading(k, count) => account::reading(&self.weights, &mut self.marks, &mut self.counts, k, count),
            Line::Withdraw(k) => account::withdraw(&self.weights, &mut self.marks, &mut self.counts, k),
            Line::Cut(k) => account::cut(&self.weights, &mut self.marks, &self.counts, k),
            Line::Uncut(k) => account::uncut(&self.weights, &mut self.marks, &self.counts, k),
        };
        if answer == DONE {
            "done\n".to_string()
        } else {
            refusal_text(answer)
        }
    }
}

/// The words of a line: blanks and tabs stand around them, and the carriage return of CRLF belongs to the line's end.
fn words(line: &[u8]) -> Vec<&[u8]> {
    let line = line.strip_suffix(b"\r").unwrap_or(line);
    line.split(|byte| matches!(byte, b' ' | b'\t')).filter(|word| !word.is_empty()).collect()
}

/// The console on what stands on its standard input.
pub fn console(input: &[u8]) -> Run {
    let mut account = Account::default();
    let mut run = Run { text: String::new(), status: 0 };
    for (i, line) in input.split(|byte| *byte == b'\n').enumerate() {
        let words = words(line);
        if words.is_empty() || words[0].starts_with(b"#") {
            continue;
        }
        match parse(&words) {
            Some(line) => run.text += &account.run(line),
            None => {
                run.text += &format!("unknown {}\n", i + 1);
                run.status = 1;
            }
        }
    }
    run
}
