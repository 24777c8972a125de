//! Random inputs, good and damaged, for the calls of every section.

use crate::casefiles::{Case, ReadBack, Rewrite};
use crate::checks::{Account, File, Input, Outputs};
use crate::random::Random;
use crate::spreads::Spread;
use model::history::Call;
use model::{Boundary, Mean, ProfileNumber, Weekday};

const LIMIT: u64 = 2_000_000_000;
const BASE_LIMIT: u64 = 6_000_000_000;

/// The days of a span: mostly few, seldom up to 1,096.
fn days(random: &mut Random) -> usize {
    match random.below(1_000) {
        0..=2 => 1_096,
        3..=8 => random.length(1, 1_096),
        9..=79 => random.length(1, 60),
        _ => random.length(1, 9),
    }
}

/// A length that is mostly the right one.
fn length(random: &mut Random, right: usize) -> usize {
    if !random.once_in(24) {
        return right;
    }
    match random.below(6) {
        0 => 0,
        1 => right.saturating_sub(1),
        2 | 3 => right + 1,
        4 => random.length(0, 12),
        _ => random.pick(&[1_095, 1_096, 1_097, 1_098, 1_099, 1_100]),
    }
}

fn bytes(random: &mut Random, length: usize) -> Vec<u8> {
    (0..length).map(|_| random.next() as u8).collect()
}

fn mean(random: &mut Random) -> Mean {
    match random.below(8) {
        0 => random.pick(&[-5_000, -4_999, -1, 0, 1, 281, 282, 283, 699, 700, 701, 800, 1_556, 3_998, 3_999]),
        1 => random.between(0, 8_999) as Mean - 5_000,
        _ => random.between(0, 4_500) as Mean - 1_500,
    }
}

fn bad_mean(random: &mut Random) -> Mean {
    match random.below(4) {
        0 => random.pick(&[-5_001, 4_000]),
        1 => random.pick(&[Mean::MIN, Mean::MAX]),
        2 => random.between(4_000, Mean::MAX as u64) as Mean,
        _ => -(random.between(5_001, Mean::MAX as u64) as i64) as Mean,
    }
}

fn any_mean(random: &mut Random) -> Mean {
    if random.once_in(12) {
        bad_mean(random)
    } else {
        mean(random)
    }
}

/// A series of that length, one time in `damage` with a few means out of range.
fn means(random: &mut Random, length: usize, damage: u64) -> Vec<Mean> {
    let mut means: Vec<Mean> = (0..length).map(|_| mean(random)).collect();
    if random.once_in(damage) && length > 0 {
        for _ in 0..random.length(1, 2) {
            means[random.length(0, length - 1)] = bad_mean(random);
        }
    }
    means
}

fn profile(random: &mut Random) -> ProfileNumber {
    if random.once_in(20) {
        random.pick(&[10, 11, 15, 16, 128, 255, ProfileNumber::MAX])
    } else {
        random.below(10) as ProfileNumber
    }
}

fn weekday(random: &mut Random) -> Weekday {
    if random.once_in(20) {
        random.pick(&[7, 8, 13, 14, 128, 255, Weekday::MAX])
    } else {
        random.below(7) as Weekday
    }
}

fn weight(random: &mut Random) -> u32 {
    match random.below(6) {
        0 => random.pick(&[1, 2, 6_999_998, 6_999_999]),
        1 => random.between(1, 10) as u32,
        2 => random.between(1, 6_999_999) as u32,
        _ => random.between(40_499, 5_270_598) as u32,
    }
}

fn bad_weight(random: &mut Random) -> u32 {
    random.pick(&[0, 7_000_000, 7_000_001, 1 << 31, u32::MAX])
}

fn any_weight(random: &mut Random) -> u32 {
    if random.once_in(12) {
        bad_weight(random)
    } else {
        weight(random)
    }
}

/// Weights of some days; in some spans all are alike, so that exact halves occur.
fn weights(random: &mut Random, n: usize) -> Vec<u32> {
    let alike = weight(random);
    let single = random.below(3);
    (0..n).map(|_| if single == 0 { alike } else { weight(random) }).collect()
}

/// The first count and the most that may be added to it.
fn counts_range(random: &mut Random) -> (u64, u64) {
    let span = match random.below(6) {
        0 => 0,
        1 => random.between(1, 3),
        2 => LIMIT,
        3 => random.between(1, 1_000),
        _ => random.between(0, LIMIT),
    };
    let base = match random.below(5) {
        0 => 0,
        1 => random.between(0, 1_000),
        2 => u64::MAX - span,
        3 => u64::MAX - span - random.below(5),
        _ => random.next() % (u64::MAX - LIMIT),
    };
    (base, span)
}

/// A sound account.
fn sound(random: &mut Random, n: usize) -> Account {
    let (base, span) = counts_range(random);
    let (readings_in, cuts_in) = (random.pick(&[1, 2, 3, 8, 1_000]), random.pick(&[1, 2, 4, 1_000]));
    let (mut marks, mut counts) = (vec![0; n + 1], vec![0; n + 1]);
    for mark in &mut marks {
        *mark = 2 * random.once_in(readings_in) as u8 + random.once_in(cuts_in) as u8;
    }
    if random.once_in(2) {
        marks[random.length(0, n / 2)] |= 2;
        marks[random.length(n / 2, n)] |= 2;
    }
    let at: Vec<usize> = (0..=n).filter(|k| marks[*k] >= 2).collect();
    let mut added: Vec<u64> = at.iter().map(|_| random.between(0, span)).collect();
    if random.once_in(2) && !at.is_empty() {
        added[0] = 0;
        added[at.len() - 1] = span;
    }
    added.sort();
    for (k, add) in at.iter().zip(added) {
        counts[*k] = base + add;
    }
    Account { weights: weights(random, n), marks, counts }
}

/// Changes one thing of an account so that it is mostly unsound or its lengths unfit.
fn damage(random: &mut Random, account: &mut Account) {
    let Account { weights, marks, counts } = account;
    let n = weights.len();
    let k = random.length(0, n);
    match random.below(9) {
        0 => weights[random.length(0, n - 1)] = bad_weight(random),
        1 => marks[k] = random.pick(&[4, 5, 6, 7, 8, 128, 254, 255]),
        2 => counts[k] = random.pick(&[1, 2, LIMIT, u64::MAX]),
        3 => counts.swap(k, n / 2),
        4 => marks[k] ^= 2,
        5 => {
            marks[0] |= 2;
            marks[n] |= 2;
            let over = LIMIT + random.below(3);
            counts[n] = counts[0].saturating_add(over);
        }
        6 => {
            marks.iter_mut().for_each(|mark| *mark = random.next() as u8 % 5);
            counts.iter_mut().for_each(|count| *count = random.below(3));
        }
        7 => marks.resize(length(random, n + 2), 0),
        _ => counts.resize(length(random, n), 0),
    }
    if random.once_in(16) {
        weights.resize(random.pick(&[0, n + 1, 1_096, 1_097, 1_098]), 1);
        if random.once_in(2) {
            marks.resize(weights.len() + 1, 0);
            counts.resize(weights.len() + 1, 0);
        }
    }
}

fn account(random: &mut Random) -> Account {
    let n = days(random);
    let mut account = sound(random, n);
    if random.once_in(4) {
        damage(random, &mut account);
    }
    account
}

/// A boundary, seldom one above n, also such as would pass if it were cut to fewer bits.
fn boundary(random: &mut Random, n: usize) -> Boundary {
    if !random.once_in(16) {
        return random.length(0, n);
    }
    let k = random.length(0, n);
    random.pick(&[n + 1, n + 2, 256 + k, 65_536 + k, (1 << 32) + k, (1 << 63) + k, Boundary::MAX])
}

/// A count near those of the account, or any.
fn count(random: &mut Random, account: &Account) -> u64 {
    let near = match random.below(4) {
        0 => return random.pick(&[0, 1, LIMIT, LIMIT + 1, u64::MAX, u64::MAX - LIMIT]),
        1 => account.counts.iter().copied().find(|count| *count != 0).unwrap_or(0),
        _ => match account.counts.len() {
            0 => 0,
            length => account.counts[random.length(0, length - 1)],
        },
    };
    match random.below(8) {
        0 => near.wrapping_add(LIMIT).wrapping_add(random.below(3)).wrapping_sub(1),
        1 => near.wrapping_sub(LIMIT).wrapping_add(random.below(3)).wrapping_sub(1),
        2 => near.wrapping_add(random.between(0, LIMIT)),
        3 => near.wrapping_sub(random.between(0, LIMIT)),
        4 => near.wrapping_add(1),
        5 => near.wrapping_sub(1),
        _ => near,
    }
}

fn outputs(random: &mut Random, n: usize) -> Outputs {
    let fill = random.below(2);
    let lengths = [length(random, n), length(random, n), length(random, n)];
    Outputs {
        from: vec![fill as u16 * 0xabcd; lengths[0]],
        to: vec![fill as u16 * 0x1234; lengths[1]],
        wh: vec![fill * u64::MAX; lengths[2]],
    }
}

/// Calls on one account whose counts mostly rise with the boundary, so that many are accepted.
fn calls(random: &mut Random, n: usize) -> Vec<Call> {
    let (base, span) = counts_range(random);
    let step = span / n as u64;
    let most = if n > 60 { 60 } else { 40 };
    let narrow = random.once_in(3);
    let mut calls = Vec::new();
    for _ in 0..random.length(1, most) {
        let k = if narrow { random.length(0, n).min(random.length(0, 3)) } else { boundary(random, n) };
        calls.push(match random.below(20) {
            0..=6 => {
                let even = base.wrapping_add(step.wrapping_mul(k as u64));
                let count = match random.below(10) {
                    0 => base,
                    1 => base.wrapping_add(LIMIT + random.below(2)),
                    2 => base.wrapping_add(random.between(0, span)),
                    3 => even.wrapping_add(random.below(3)).wrapping_sub(1),
                    4 => random.pick(&[0, 1, u64::MAX, u64::MAX - 1, LIMIT]),
                    _ => even,
                };
                Call::Reading(k, count)
            }
            7..=9 => Call::Withdraw(k),
            10..=13 => Call::Cut(k),
            14 | 15 => Call::Uncut(k),
            _ if random.once_in(12) => Call::Statement([length(random, n), length(random, n), length(random, n)]),
            _ => Call::Statement([n; 3]),
        });
    }
    calls
}

fn list(random: &mut Random) -> Input {
    let n = if random.once_in(100) { random.length(11, 1_096) } else { random.length(1, 10) };
    let account = Account {
        weights: weights(random, n),
        marks: bytes(random, n + 1),
        counts: (0..=n).map(|_| random.next()).collect(),
    };
    Input::List(account, calls(random, n))
}

fn customer_value(random: &mut Random) -> Input {
    let right = days(random);
    let n = length(random, right);
    let mut weights = weights(random, n);
    if random.once_in(10) && n > 0 {
        weights[random.length(0, n - 1)] = bad_weight(random);
    }
    let z: u64 = weights.iter().map(|weight| *weight as u64).sum();
    let energy = match random.below(8) {
        0 => random.pick(&[0, 1, LIMIT, LIMIT + 1, u64::MAX]),
        1 => random.next(),
        2 => (z * 100_000).saturating_add(random.below(5)).saturating_sub(2),
        _ => random.between(0, LIMIT),
    };
    Input::CustomerValue { energy, weights }
}

fn daily_amount(random: &mut Random) -> Input {
    let most = 1_000_000_000_000;
    let value = match random.below(8) {
        0 => random.pick(&[0, 1, most, most + 1, u64::MAX]),
        1 => random.next(),
        2 => random.between(0, 1_000_000),
        3 => 1_000_000 * random.between(0, 1_000_000),
        _ => random.between(0, most),
    };
    let weight = if random.once_in(4) { 5 * random.between(1, 1_000) as u32 } else { any_weight(random) };
    Input::DailyAmount { value, weight }
}

/// A section's count: mostly that of its items.
fn section(random: &mut Random, file: &mut Vec<u8>, items: usize) {
    let count = if random.once_in(40) {
        random.pick(&[0, items.wrapping_sub(1), items + 1, items + 256, 0xffff])
    } else {
        items
    };
    file.extend((count as u16).to_le_bytes());
}

/// A case file that is mostly good, its sections sometimes with a fault.
fn good_file(random: &mut Random) -> Vec<u8> {
    let n = days(random);
    let account = sound(random, n);
    let mut file = vec![profile(random) as u8, weekday(random) as u8];
    let count = if random.once_in(40) { random.pick(&[0, 1, 3, 4, 1_099, 1_100]) } else { n + 3 };
    section(random, &mut file, count);
    for mean in means(random, count, 12) {
        file.extend((mean as i16).to_le_bytes());
    }
    let faults = if random.once_in(3) { 2 * n as u64 + 2 } else { u64::MAX >> 12 };
    let field = |random: &mut Random, k: usize| -> [u8; 2] {
        let k =
            if random.once_in(faults) { random.pick(&[0, k.wrapping_sub(1), n, n + 1, n + 256, 0xffff]) } else { k };
        (k as u16).to_le_bytes()
    };
    let readings: Vec<usize> = (0..=n).filter(|k| account.marks[*k] >= 2).collect();
    section(random, &mut file, readings.len());
    for k in readings {
        file.extend(field(random, k));
        let count = if random.once_in(faults) { self::count(random, &account) } else { account.counts[k] };
        file.extend(count.to_le_bytes());
    }
    let cuts: Vec<usize> = (0..=n).filter(|k| account.marks[*k] & 1 == 1).collect();
    section(random, &mut file, cuts.len());
    for k in cuts {
        file.extend(field(random, k));
    }
    file
}

/// A case file: good, truncated, with bytes left, with bits flipped, or of random bytes.
pub fn file(random: &mut Random) -> Vec<u8> {
    let mut file = good_file(random);
    match random.below(12) {
        0 => file.truncate(random.length(0, file.len())),
        1 => file.truncate(file.len() - 1),
        2 => file.extend((0..random.length(1, 20)).map(|_| 0)),
        3 | 4 => {
            for _ in 0..random.length(1, 3) {
                let at = random.length(0, file.len() - 1);
                file[at] ^= 1 << random.below(8);
            }
        }
        5 => {
            let at = random.length(0, file.len() - 1);
            file.remove(at);
        }
        6 => {
            let most = if random.once_in(500) { 20_000 } else { 60 };
            let length = random.length(0, most);
            file = bytes(random, length);
            let known = [random.below(10) as u8, random.below(7) as u8, random.length(4, 9) as u8, 0];
            let keep = random.length(0, 4).min(file.len());
            file[..keep].copy_from_slice(&known[..keep]);
        }
        _ => {}
    }
    file
}

fn read(random: &mut Random) -> Input {
    let mut lengths = [1_096, 1_097, 1_097];
    if random.once_in(50) {
        let i = random.length(0, 2);
        lengths[i] = random.pick(&[0, 1, 1_095, 1_096, 1_097, 1_098]);
    }
    let fill = random.below(2);
    let slices = Account {
        weights: vec![fill as u32 * 77; lengths[0]],
        marks: vec![fill as u8 * 3; lengths[1]],
        counts: vec![fill * u64::MAX; lengths[2]],
    };
    Input::Read { file: File(file(random)), slices }
}

/// Slices of the reader's lengths that hold anything.
fn slices(random: &mut Random) -> Account {
    Account {
        weights: (0..1_096).map(|_| random.next() as u32).collect(),
        marks: bytes(random, 1_097),
        counts: (0..1_097).map(|_| random.next()).collect(),
    }
}

/// A file that is read, and slices of its length, shorter and longer to write it into.
fn rewrite(random: &mut Random) -> Input {
    let file = file(random);
    let length = file.len();
    let shorter = random.pick(&[0, length / 2, length.saturating_sub(1)]);
    let longer = length + random.length(1, 40);
    let outs = [length, shorter, longer].map(|length| File(bytes(random, length))).to_vec();
    Input::Rewrite(Rewrite { file: File(file), slices: slices(random), outs })
}

/// A slice for a file of that length: exact, shorter or longer.
fn room(random: &mut Random, file: usize) -> File {
    let length = match random.below(60) {
        0 => 16_384,
        1..=5 => 0,
        6..=11 => file - 1,
        12..=17 => random.length(0, file),
        18..=35 => file,
        36..=41 => file + 1,
        _ => file + random.length(1, 40),
    };
    File(bytes(random, length))
}

/// An account to write, seldom in slices as long as the reader's, and a slice for its file.
fn case(random: &mut Random) -> (Case, File) {
    let Account { weights, mut marks, mut counts } = account(random);
    if random.once_in(40) {
        marks.resize(1_097, 0);
        counts.resize(1_097, 0);
    }
    let count = length(random, weights.len() + 3);
    let items: usize = marks.iter().map(|mark| [0, 2, 10, 12][*mark as usize % 4]).sum();
    let out = room(random, 8 + 2 * count + items);
    let means = means(random, count, 12);
    (Case { profile: profile(random), weekday: weekday(random), means, marks, counts }, out)
}

/// The parts that these marks make: one from each marked boundary between the first reading and the last.
fn parts(marks: &[u8]) -> usize {
    let first = marks.iter().position(|mark| *mark >= 2).unwrap_or(0);
    let last = marks.iter().rposition(|mark| *mark >= 2).unwrap_or(0);
    marks[first..last].iter().filter(|mark| **mark != 0).count()
}

/// An account and a page for it: mostly of the right length, else a byte more or less, of a few bytes, of other lines, or any.
fn page(random: &mut Random) -> Input {
    let account = account(random);
    let right = 41 * (parts(&account.marks) + 1);
    let length = match random.below(16) {
        0 => right - 1,
        1 => right + 1,
        2 => random.pick(&[0, 5, 41]),
        3 => 41 * random.length(0, right / 41 + 2),
        4 => random.length(0, 2 * right),
        _ => right,
    };
    Input::Page { account, page: File(bytes(random, length)) }
}

/// The points of a list: mostly few, seldom none, 1,000 or one more.
fn points(random: &mut Random) -> usize {
    match random.below(100) {
        0 | 1 => 0,
        2 | 3 => random.pick(&[1_000, 1_001]),
        4 => random.length(1, 1_000),
        5..=24 => random.length(1, 60),
        _ => random.length(1, 9),
    }
}

/// Supplier numbers up to one of these, at times with one above 63.
fn suppliers(random: &mut Random, n: usize) -> Vec<u8> {
    let most = random.pick(&[0, 1, 5, 62, 63]);
    let mut suppliers: Vec<u8> = (0..n).map(|_| random.between(0, most) as u8).collect();
    if random.once_in(10) && n > 0 {
        suppliers[random.length(0, n - 1)] = random.pick(&[64, 65, 127, 128, 255]);
    }
    suppliers
}

/// Base amounts of one kind; at times one of them makes the sum of all, cut to 64 bits, 0, 1 or about the limit.
fn bases(random: &mut Random, n: usize) -> Vec<u64> {
    let (kind, most) = (random.below(10), BASE_LIMIT / n.max(1) as u64);
    let base = |_| match kind {
        0 => 0,
        1 => 1,
        2 => most,
        3 => random.next(),
        4 => random.pick(&[0, 1 << 63]),
        5 | 6 => random.below(5),
        _ => random.between(0, most),
    };
    let mut bases: Vec<u64> = (0..n).map(base).collect();
    if random.once_in(4) && n > 0 {
        let at = random.length(0, n - 1);
        bases[at] = 0;
        let others = bases.iter().fold(0u64, |sum, base| sum.wrapping_add(*base));
        let sum = random.pick(&[0, 1, BASE_LIMIT - 1, BASE_LIMIT, BASE_LIMIT + 1]);
        bases[at] = sum.wrapping_sub(others);
    }
    bases
}

fn load(random: &mut Random) -> u64 {
    match random.below(8) {
        0 | 1 => 0,
        2 => random.pick(&[1, LIMIT - 1, LIMIT, LIMIT + 1, u64::MAX]),
        3 => random.between(1, 1_000),
        4 => number64(random),
        _ => random.between(0, LIMIT),
    }
}

/// A load and its points, mostly of fit lengths, and outputs that hold anything.
fn load_and_points(random: &mut Random) -> Input {
    let n = points(random);
    let lengths = [length(random, n), length(random, n), length(random, n)];
    let totals = if random.once_in(16) { random.pick(&[0, 63, 65]) } else { 64 };
    Input::Spread(Spread {
        load: load(random),
        suppliers: suppliers(random, lengths[0]),
        bases: bases(random, lengths[1]),
        amounts: (0..lengths[2]).map(|_| random.next()).collect(),
        totals: (0..totals).map(|_| random.next()).collect(),
    })
}

fn choose(random: &mut Random) -> Input {
    let n = match random.below(12) {
        0 => random.pick(&[0, 1_097, 1_100, 65_536, usize::MAX, usize::MAX - 2, usize::MAX - 3]),
        1 => random.pick(&[1, 1_096]),
        _ => random.length(1, 9),
    };
    let near = n.min(1_100) + 3;
    let series = |random: &mut Random| {
        let length = (near + random.length(0, 4)).saturating_sub(2 * random.length(0, 1));
        let length = if random.once_in(8) { random.length(0, 3) } else { length };
        means(random, length, 3)
    };
    Input::Choose { measured: series(random), forecast: series(random), n }
}

/// A calendar of that length with all, some, a few or none of its days named, one time in `damage` with bytes above 7.
fn calendar(random: &mut Random, length: usize, damage: u64) -> Vec<u8> {
    let named_in = random.pick(&[1, 2, 8, 1_000]);
    let byte = |_| if random.once_in(named_in) { random.below(7) as u8 } else { 7 };
    let mut calendar: Vec<u8> = (0..length).map(byte).collect();
    if random.once_in(damage) && length > 0 {
        for _ in 0..random.length(1, 3) {
            let at = [0, length / 2, length - 1, random.length(0, length - 1)];
            calendar[random.pick(&at)] = random.pick(&[8, 9, 13, 14, 128, 254, 255]);
        }
    }
    calendar
}

fn span(random: &mut Random) -> Input {
    let n = days(random);
    let count = length(random, n + 3);
    let right = count.saturating_sub(3);
    let out = vec![0xdead_beef; length(random, right)];
    // Seldom as many bytes as means, which is three too many.
    let bytes = if random.once_in(30) { count } else { length(random, right) };
    Input::Weights {
        profile: profile(random),
        weekday: weekday(random),
        means: means(random, count, 5),
        calendar: calendar(random, bytes, 5),
        out,
    }
}

/// Lines of a script that are no calls.
const UNKNOWN: [&str; 30] = [
    "cut",
    "cut 1 2",
    "cut x",
    "cut\r1",
    "cut 1\r\r",
    "cut\0 1",
    "cut 1\0",
    "\0cut 1",
    "cut 1\x0b",
    "reading 1",
    "reading 0 18446744073709551616",
    "weights 4294967296",
    "weights 1 x",
    "weights 1 -1",
    "days",
    "days 0",
    "days 256 0 1 2 3 4",
    "days 0 0 1 2 3 32768",
    "days 0 0 1 2 3 4 as x",
    "days 0 0 1 2 3 4 as 256",
    "days 0 0 1 2 3 4 as 7 as",
    "days 0 0 1 2 3 4 As 7",
    "Cut 1",
    "uncut -1",
    "withdraw 99999999999999999999",
    "statement 1",
    "help 1",
    "open",
    "é",
    "\u{feff}cut 1",
];

/// Lines that have an answer, or none, whatever stands.
const OTHERS: [&str; 14] = [
    "",
    " ",
    "\t",
    " \t ",
    "\r",
    "# cut 1",
    " \t# cut 1",
    "#\0",
    "help",
    "weights",
    "days 0 0 1 2",
    "days 0 0 1 2 3 4 as",
    "days 0 0 as",
    "days 0 0 -0 007 -32768 32767",
];

/// A line that opens an account of n days, or is refused.
fn opening(random: &mut Random, n: usize) -> String {
    let mut line;
    if random.once_in(2) {
        line = "weights".to_string();
        for _ in 0..if random.once_in(10) { 0 } else { n } {
            line += &format!(" {}", any_weight(random));
        }
    } else {
        line = format!("days {} {}", profile(random), weekday(random));
        let count = length(random, n + 3);
        for mean in means(random, count, 6) {
            line += &format!(" {mean}");
        }
        if random.once_in(2) {
            line += " as";
            let bytes = length(random, count.saturating_sub(3));
            for byte in calendar(random, bytes, 6) {
                line += &format!(" {byte}");
            }
        }
    }
    if random.once_in(100) {
        line += random.pick(&[" x", " 99999", " as"]);
    }
    line
}

fn call_line(call: &Call) -> String {
    match call {
        Call::Reading(k, count) => format!("reading {k} {count}"),
        Call::Withdraw(k) => format!("withdraw {k}"),
        Call::Cut(k) => format!("cut {k}"),
        Call::Uncut(k) => format!("uncut {k}"),
        Call::Statement(_) => "statement".to_string(),
    }
}

/// Blanks and tabs around the words of a line, and zeros before its numbers.
fn spread(random: &mut Random, line: &str) -> String {
    let mut text = String::new();
    for word in line.split(' ') {
        text += random.pick(&["", " ", "\t", "  "]);
        if random.once_in(20) && word.starts_with(|c: char| c.is_ascii_digit()) {
            let most = if random.once_in(20) { 70_000 } else { 30 };
            text += &"0".repeat(random.length(1, most));
        }
        text += word;
        text += random.pick(&[" ", " ", "  ", "\t", "\t\t", " \t ", "     "]);
    }
    text
}

/// The lines of a script: openings and calls, with lines of other kinds between them.
fn script_lines(random: &mut Random) -> Vec<String> {
    let unknown = random.once_in(2);
    let mut lines = Vec::new();
    for _ in 0..random.length(1, 3) {
        let n = if random.once_in(200) { random.length(1_090, 1_100) } else { random.length(1, 9) };
        lines.push(opening(random, n));
        for call in calls(random, n) {
            lines.push(call_line(&call));
            match random.below(30) {
                0 if unknown => lines.push(random.pick(&UNKNOWN).to_string()),
                1 => lines.push(random.pick(&OTHERS).to_string()),
                _ => {}
            }
        }
    }
    lines
}

/// The start of a script, of any length, and mostly with more words than the longest span has days.
fn long_lines(random: &mut Random) -> String {
    let length = random.length(1, 99_999);
    let head = random.pick(&["weights", "days 0 0", "days 0 0 1 1 1 1 as", "weights x"]);
    let list = head.to_string() + &" 1".repeat(length);
    match random.below(4) {
        0 => random.pick(&["\n", "#", " ", "\t", "x", "\r\n"]).repeat(length),
        1 => list + " x\n",
        2 => list + " -1\n",
        _ => list + "\n",
    }
}

/// A script for the console: all, some or none of its lines spread out, and all, some or none ended by CRLF.
pub fn script(random: &mut Random) -> Vec<u8> {
    let (spreads, returns) = (random.pick(&[1, 4, u64::MAX]), random.pick(&[1, 4, u64::MAX]));
    let mut text = String::new();
    for line in script_lines(random) {
        text += &if random.once_in(spreads) { spread(random, &line) } else { line };
        text += if random.once_in(returns) { "\r\n" } else { "\n" };
    }
    if random.once_in(50) {
        text.insert_str(0, &long_lines(random));
    }
    let mut bytes = text.into_bytes();
    if random.once_in(6) {
        let at = random.length(0, bytes.len() - 1);
        bytes[at] = random.next() as u8;
    }
    match random.below(8) {
        0 => bytes.truncate(random.length(0, bytes.len())),
        1 | 2 => drop(bytes.pop()),
        _ => {}
    }
    bytes
}

fn number64(random: &mut Random) -> u64 {
    let digits = random.below(65);
    random.next().checked_shr(digits as u32).unwrap_or(0)
}

/// Outputs as a statement leaves them, or with a part too many or too great, and a buffer that the text fits or not.
fn text(random: &mut Random) -> Input {
    if random.once_in(3) {
        let out = vec![7; random.length(0, 40)];
        return Input::RefusalText { number: random.next() as u8, place: number64(random) as usize, out };
    }
    let n = days(random);
    let mut parts = random.length(0, n);
    let mut outputs = outputs(random, n);
    outputs.wh.iter_mut().for_each(|wh| *wh = number64(random) % (LIMIT + 1));
    outputs.from.iter_mut().for_each(|from| *from = number64(random) as u16);
    outputs.to.iter_mut().for_each(|to| *to = number64(random) as u16);
    if random.once_in(20) && !outputs.wh.is_empty() {
        let at = random.length(0, outputs.wh.len() - 1);
        outputs.wh[at] = random.pick(&[LIMIT, LIMIT + 1, 1 << 32, u64::MAX]);
    }
    if random.once_in(20) {
        parts = random.pick(&[n + 1, 1_096, 1_097, usize::MAX]);
    }
    let room = if random.once_in(4) { random.length(0, 30 * n) } else { 23 * n + 40 };
    Input::StatementText { outputs, parts, out: vec![7; room] }
}

/// One random input.
pub fn input(random: &mut Random) -> Input {
    match random.below(124) {
        0..=5 => Input::Temperature([any_mean(random), any_mean(random), any_mean(random), any_mean(random)]),
        6..=11 => choose(random),
        12..=16 => Input::Value(profile(random), any_mean(random)),
        17..=21 => Input::DayWeight(profile(random), weekday(random), any_mean(random)),
        22..=31 => span(random),
        32..=62 => {
            let account = account(random);
            let n = account.weights.len();
            let mut k = boundary(random, n);
            match random.below(10) {
                0 => Input::Open(account),
                1..=3 => {
                    // Half of the time the next boundary without a reading, if there is one.
                    if random.once_in(2) {
                        k = (k..account.marks.len()).find(|k| account.marks[*k] < 2).unwrap_or(k);
                    }
                    let count = count(random, &account);
                    Input::Reading(account, k, count)
                }
                4 => Input::Withdraw(account, k),
                5 => Input::Cut(account, k),
                6 => Input::Uncut(account, k),
                _ => {
                    let outputs = outputs(random, n);
                    Input::Statement(account, outputs)
                }
            }
        }
        63..=74 => list(random),
        75..=82 => customer_value(random),
        83..=87 => daily_amount(random),
        88..=89 => text(random),
        90..=99 => read(random),
        100..=103 => {
            let (case, out) = case(random);
            Input::Write { case, out }
        }
        104..=107 => rewrite(random),
        108..=111 => {
            let (case, out) = case(random);
            Input::ReadBack(ReadBack { case, out, slices: slices(random) })
        }
        112..=117 => page(random),
        _ => load_and_points(random),
    }
}
