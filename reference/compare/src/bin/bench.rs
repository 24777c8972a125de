//! Times the calls of sections "Profile value", "Account and its calls" and "Case file", and of change requests K4 and K5, in one run, as
//! ratios (docs/BENCHMARK.md).
//!
//! bench [PROGRAM]: (a) is the plain version, (b) the same algorithms in Rust; PROGRAM is the proved statement program.

use compare::library::{Library, PLAIN, SAME};
use compare::proved::Proved;
use model::{Mean, ProfileNumber};
use std::hint::black_box;
use std::io::Write;
use std::path::{Path, PathBuf};
use std::process::{Command, Stdio};

/// Rounds of a row, and about how many nanoseconds each version runs in a round.
const ROUNDS: usize = 101;
const ROUND: u64 = 1_000_000;
const LIBRARIES: [&dyn Library; 3] = [&PLAIN, &SAME, &Proved];

#[repr(C)]
#[derive(Default)]
struct Time {
    seconds: i64,
    part: i64,
}

/// What the system says of the children that have ended: the time they ran themselves, the time the system ran for them, and counts.
#[repr(C)]
#[derive(Default)]
struct Usage {
    own: Time,
    system: Time,
    counts: [i64; 14],
}

extern "C" {
    fn clock_gettime(clock: i32, time: *mut Time) -> i32;
    fn getrusage(who: i32, usage: *mut Usage) -> i32;
}

/// Nanoseconds that this thread has run; time in which others have the processor does not count.
fn thread_time() -> u64 {
    const THREAD: i32 = 3;
    let mut time = Time::default();
    assert_eq!(unsafe { clock_gettime(THREAD, &mut time) }, 0);
    time.seconds as u64 * 1_000_000_000 + time.part as u64
}

/// Nanoseconds that the processes started here, and ended, have run, the system's work for them included.
fn children_time() -> u64 {
    const CHILDREN: i32 = -1;
    let mut usage = Usage::default();
    assert_eq!(unsafe { getrusage(CHILDREN, &mut usage) }, 0);
    let micros = |time: &Time| time.seconds as u64 * 1_000_000 + time.part as u64;
    black_box(usage.counts);
    1_000 * (micros(&usage.own) + micros(&usage.system))
}

type Runner<'a> = Box<dyn FnMut() + 'a>;

/// The median nanoseconds of one call of each runner, measured in turns so that all meet the same machine.
fn medians(clock: fn() -> u64, rounds: usize, runners: &mut [Runner]) -> Vec<f64> {
    let timed = |runner: &mut Runner, calls: u64| {
        let start = clock();
        (0..calls).for_each(|_| runner());
        clock() - start
    };
    let calls: Vec<u64> = runners.iter_mut().map(|runner| ROUND.div_ceil(timed(runner, 8).max(8) / 8)).collect();
    let mut times = vec![Vec::new(); runners.len()];
    for _ in 0..rounds {
        for (i, runner) in runners.iter_mut().enumerate() {
            times[i].push(timed(runner, calls[i]) as f64 / calls[i] as f64);
        }
    }
    times.iter_mut().for_each(|times| times.sort_by(f64::total_cmp));
    times.iter().map(|times| times[rounds / 2]).collect()
}

/// One row of the table: microseconds of (a), (b) and the proved version, and the ratios.
fn print(what: &str, times: &[f64]) {
    print!("| {what} |");
    times.iter().for_each(|time| print!(" {:.2} |", time / 1_000.0));
    match times {
        [a, b, proved] => println!(" {:.2} | {:.2} |", proved / a, proved / b),
        _ => println!(" | | |"),
    }
}

/// Daily means of a span from day `first` on: a yearly wave with some weather on it.
fn means(first: usize, n: usize) -> Vec<Mean> {
    (first..first + n + 3)
        .map(|k| {
            let year = (k % 365) as i64;
            let wave = (year - 182).abs() * 12 - 1_100;
            let weather = (k as i64 * 7_919 % 1_201) - 600;
            (900 - wave + weather) as Mean
        })
        .collect()
}

struct Account {
    weights: Vec<u32>,
    marks: Vec<u8>,
    counts: Vec<u64>,
}

/// An account from day `first` on with a reading at both ends and every `every` days, and these cuts.
fn account(first: usize, n: usize, every: usize, cuts: &[usize]) -> Account {
    let mut weights = vec![0; n];
    PLAIN.weights(0, 0, &means(first, n), &vec![7; n], &mut weights);
    let (mut marks, mut counts) = (vec![0; n + 1], vec![0; n + 1]);
    for k in (0..=n).filter(|k| *k == n || k % every == 0) {
        marks[k] = 2;
        counts[k] = 1_000_000 + 1_700_000 * k as u64;
    }
    cuts.iter().for_each(|k| marks[*k] |= 1);
    Account { weights, marks, counts }
}

fn run_weights(library: &'static dyn Library, profile: ProfileNumber, first: usize, n: usize) -> Runner<'static> {
    let (means, own_days, mut out) = (means(first, n), vec![7; n], vec![0; n]);
    Box::new(move || {
        let answer = library.weights(black_box(profile), 3, black_box(&means), black_box(&own_days), &mut out);
        assert_eq!(black_box(answer).number, 0);
    })
}

/// A reading that is accepted, in the middle of an account with a reading every `every` days; it is taken away again.
fn run_reading(library: &'static dyn Library, first: usize, n: usize, every: usize) -> Runner<'static> {
    let k = n / 2 + 1;
    let Account { weights, mut marks, mut counts } = account(first, n, every, &[1, 5, n - 1]);
    marks[k] &= 1;
    counts[k] = 0;
    let count = 1_000_000 + 1_700_000 * k as u64;
    Box::new(move || {
        let answer = library.reading(black_box(&weights), &mut marks, &mut counts, black_box(k), count);
        assert_eq!(black_box(answer).number, 0);
        marks[k] &= 1;
        counts[k] = 0;
    })
}

/// A statement between readings at both ends.
fn run_statement(library: &'static dyn Library, first: usize, n: usize, cuts: &[usize]) -> Runner<'static> {
    let Account { weights, marks, counts } = account(first, n, n, cuts);
    let (mut from, mut to, mut wh) = (vec![0; n], vec![0; n], vec![0; n]);
    Box::new(move || {
        let (weights, marks) = (black_box(&weights), black_box(&marks));
        let answer = library.statement(weights, marks, &counts, &mut from, &mut to, &mut wh);
        assert_eq!(black_box(answer).0.number, 0);
    })
}

/// Means of n days, and an account with a reading and a cut at every boundary: those of the longest file for 1,096 days.
fn longest(first: usize, n: usize) -> (Vec<Mean>, Account) {
    (means(first, n), account(first, n, 1, &(0..=n).collect::<Vec<usize>>()))
}

fn file(first: usize, n: usize) -> Vec<u8> {
    let (means, Account { marks, counts, .. }) = longest(first, n);
    let mut file = vec![0; 15_370];
    let length = PLAIN.write(5, 3, &means, &marks, &counts, &mut file).1;
    file.truncate(length);
    file
}

fn run_read(library: &'static dyn Library, first: usize, n: usize) -> Runner<'static> {
    let (file, mut weights, mut marks, mut counts) = (file(first, n), vec![0; 1_096], vec![0; 1_097], vec![0; 1_097]);
    Box::new(move || {
        let answer = library.read(black_box(&file), &mut weights, &mut marks, &mut counts);
        assert_eq!(black_box(answer).0.number, 0);
    })
}

fn run_write(library: &'static dyn Library, first: usize, n: usize) -> Runner<'static> {
    let (means, Account { marks, counts, .. }) = longest(first, n);
    let mut out = vec![0; 15_370];
    Box::new(move || {
        let answer = library.write(5, 3, black_box(&means), black_box(&marks), black_box(&counts), &mut out);
        assert_eq!(black_box(answer).0.number, 0);
    })
}

/// The page of a statement between readings at both ends.
fn run_page(library: &'static dyn Library, first: usize, n: usize, cuts: &[usize]) -> Runner<'static> {
    let Account { weights, marks, counts } = account(first, n, n, cuts);
    let mut page = vec![0; 41 * (cuts.len() + 2)];
    Box::new(move || {
        let answer = library.page(black_box(&weights), black_box(&marks), &counts, &mut page);
        assert_eq!(black_box(answer).0.number, 0);
    })
}

/// A load of 110 MWh over n points of 64 suppliers, each with a base of 50 to 150 kWh in units of 0.1 Wh.
fn run_spread(library: &'static dyn Library, first: usize, n: usize) -> Runner<'static> {
    let points = first as u64..(first + n) as u64;
    let suppliers: Vec<u8> = points.clone().map(|i| (i * 37 % 64) as u8).collect();
    let bases: Vec<u64> = points.map(|i| 500_000 + i * 7_919_357 % 1_000_001).collect();
    let (mut amounts, mut totals) = (vec![0; n], vec![0; 64]);
    Box::new(move || {
        let (suppliers, bases) = (black_box(&suppliers), black_box(&bases));
        let answer = library.spread(black_box(110_000_000), suppliers, bases, &mut amounts, &mut totals);
        assert_eq!(black_box(answer).0.number, 0);
    })
}

/// One run of a program, the longest example on its standard input.
fn run_program(program: PathBuf, argument: Option<&'static str>) -> Runner<'static> {
    let file = include_bytes!("../../../../examples/cases/longest.case");
    assert_eq!(file.len(), 15_370);
    Box::new(move || {
        let mut command = Command::new(&program);
        command.args(argument).stdin(Stdio::piped()).stdout(Stdio::piped());
        let mut child = command.spawn().expect("the program starts");
        child.stdin.take().unwrap().write_all(file).unwrap();
        let text = child.wait_with_output().unwrap().stdout;
        assert!(text.starts_with(b"parts 1096\n"));
    })
}

fn three(what: &str, runner: impl Fn(&'static dyn Library) -> Runner<'static>) {
    let mut runners: Vec<Runner> = LIBRARIES.iter().map(|library| runner(*library)).collect();
    print(what, &medians(thread_time, ROUNDS, &mut runners));
}

fn programs(proved: &Path) {
    let straight = std::env::current_exe().unwrap().with_file_name("statement");
    let mut runners = vec![run_program(straight.clone(), Some("plain")), run_program(straight, Some("same"))];
    if proved.exists() {
        runners.push(run_program(proved.to_path_buf(), None));
    }
    print("whole program, examples/cases/longest.case", &medians(children_time, ROUNDS, &mut runners));
    if !proved.exists() {
        println!("(no program {}: that figure is left out)", proved.display());
    }
}

/// The proved version on the same days or points, in eight spans of an eighth, four of a quarter, two of a half or one: the time of one
/// span, all in turns, and the last over eight times the first, which is 1 if growth is linear.
fn growth(what: &str, all: usize, runner: impl Fn(usize, usize) -> Runner<'static>) {
    let spans = |n: usize| -> Runner<'static> {
        let mut runners: Vec<Runner> = (0..all / n).map(|span| runner(span * n, n)).collect();
        let mut next = 0;
        Box::new(move || {
            runners[next]();
            next = (next + 1) % runners.len();
        })
    };
    let mut runners: Vec<Runner> = [all / 8, all / 4, all / 2, all].into_iter().map(spans).collect();
    let times = medians(thread_time, ROUNDS, &mut runners);
    print!("| {what} |");
    times.iter().for_each(|time| print!(" {:.2} |", time / 1_000.0));
    println!(" {:.2} |", times[3] / (8.0 * times[0]));
}

fn main() {
    let program = std::env::args().nth(1).unwrap_or("crates/arvadush/out/arvadush".to_string());
    println!("| microseconds, medians of {ROUNDS} rounds | (a) | (b) | proved | proved/(a) | proved/(b) |");
    println!("|---|---|---|---|---|---|");
    for profile in 0..10 {
        three(&format!("weights, 1,096 days, profile {profile}"), |library| run_weights(library, profile, 0, 1_096));
    }
    let cuts = |n: usize| (1..n).collect::<Vec<usize>>();
    three("reading, 1,096 days, readings every 30 days", |library| run_reading(library, 0, 1_096, 30));
    three("reading, 1,096 days, readings at both ends", |library| run_reading(library, 0, 1_096, 1_096));
    three("statement, a cut at every boundary", |library| run_statement(library, 0, 1_096, &cuts(1_096)));
    three("statement, three cuts", |library| run_statement(library, 0, 1_096, &[200, 500, 900]));
    three("case file, the longest", |library| run_read(library, 0, 1_096));
    three("case file written, the longest", |library| run_write(library, 0, 1_096));
    three("page, a cut at every boundary", |library| run_page(library, 0, 1_096, &cuts(1_096)));
    three("spread, 1,000 points, 64 suppliers", |library| run_spread(library, 0, 1_000));
    programs(Path::new(&program));
    println!("\n| proved, microseconds | 137 days | 274 | 548 | 1,096 | 1,096 days over 8 × 137 days |");
    println!("|---|---|---|---|---|---|");
    growth("weights, profile 0", 1_096, |first, n| run_weights(&Proved, 0, first, n));
    growth("reading", 1_096, |first, n| run_reading(&Proved, first, n, 30));
    growth("statement, a cut at every boundary", 1_096, |first, n| run_statement(&Proved, first, n, &cuts(n)));
    growth("statement, three cuts", 1_096, |first, n| run_statement(&Proved, first, n, &[n / 5, n / 2, n - n / 5]));
    growth("case file", 1_096, |first, n| run_read(&Proved, first, n));
    growth("case file written", 1_096, |first, n| run_write(&Proved, first, n));
    growth("page, a cut at every boundary", 1_096, |first, n| run_page(&Proved, first, n, &cuts(n)));
    growth("spread, 125, 250, 500 and 1,000 points", 1_000, |first, n| run_spread(&Proved, first, n));
}
