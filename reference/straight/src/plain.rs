//! Sections "Account and its calls" and "Case file", and change requests K4 and K5, in plain Rust: iterators, vectors, the standard
//! library's root.

use crate::weights::{unfit, Standard};
use crate::{HEAVIEST, LONGEST, MOST_BASE, MOST_ENERGY, MOST_LOAD, MOST_POINTS, SUPPLIERS};
use model::{refused, refused_at, Answer, Mean, ProfileNumber, Weekday, DONE};
use std::fmt::Write;

pub fn weights(profile: ProfileNumber, weekday: Weekday, means: &[Mean], calendar: &[u8], out: &mut [u32]) -> Answer {
    crate::weights::weights::<Standard>(profile, weekday, means, calendar, out)
}

fn fit(weights: &[u32], marks: &[u8], counts: &[u64]) -> bool {
    let n = weights.len();
    n >= 1 && n <= LONGEST && marks.len() == n + 1 && counts.len() == n + 1
}

/// The readings of a sound account, boundary and count.
fn readings(weights: &[u32], marks: &[u8], counts: &[u64]) -> Option<Vec<(usize, u64)>> {
    if weights.iter().any(|weight| *weight < 1 || *weight > HEAVIEST) || marks.iter().any(|mark| *mark > 3) {
        return None;
    }
    if marks.iter().zip(counts).any(|(mark, count)| *mark < 2 && *count != 0) {
        return None;
    }
    let readings: Vec<(usize, u64)> = (0..marks.len()).filter(|k| marks[*k] >= 2).map(|k| (k, counts[k])).collect();
    if !readings.is_sorted_by_key(|reading| reading.1) {
        return None;
    }
    match (readings.first(), readings.last()) {
        (Some(first), Some(last)) if last.1 - first.1 > MOST_ENERGY => None,
        _ => Some(readings),
    }
}

pub fn reading(weights: &[u32], marks: &mut [u8], counts: &mut [u64], k: usize, count: u64) -> Answer {
    if !fit(weights, marks, counts) {
        return refused(3);
    }
    let Some(mut readings) = readings(weights, marks, counts) else {
        return refused(5);
    };
    if k >= marks.len() {
        return refused(6);
    }
    if marks[k] >= 2 {
        return refused(7);
    }
    let at = readings.partition_point(|reading| reading.0 < k);
    readings.insert(at, (k, count));
    if at > 0 && readings[at - 1].1 > count || at + 1 < readings.len() && readings[at + 1].1 < count {
        return refused(8);
    }
    if readings[readings.len() - 1].1 - readings[0].1 > MOST_ENERGY {
        return refused(9);
    }
    marks[k] |= 2;
    counts[k] = count;
    DONE
}

pub fn statement(
    weights: &[u32],
    marks: &[u8],
    counts: &[u64],
    from: &mut [u16],
    to: &mut [u16],
    wh: &mut [u64],
) -> (Answer, usize) {
    let n = weights.len();
    if !fit(weights, marks, counts) || from.len() != n || to.len() != n || wh.len() != n {
        return (refused(3), 0);
    }
    let Some(readings) = readings(weights, marks, counts) else {
        return (refused(5), 0);
    };
    from.fill(0);
    to.fill(0);
    wh.fill(0);
    if readings.len() < 2 {
        return (refused(11), 0);
    }
    let mut sums = vec![0u64];
    for weight in weights {
        sums.push(sums[sums.len() - 1] + *weight as u64);
    }
    let mut parts = 0;
    for pair in readings.windows(2) {
        let ((p, low), (q, high)) = (pair[0], pair[1]);
        let z = sums[q] - sums[p];
        let mut start = (p, 0);
        for k in p + 1..=q {
            if marks[k] != 0 {
                let upto = ((high - low) * (sums[k] - sums[p]) + z / 2) / z;
                from[parts] = start.0 as u16;
                to[parts] = k as u16;
                wh[parts] = upto - start.1;
                start = (k, upto);
                parts += 1;
            }
        }
    }
    (DONE, parts)
}

fn take<const N: usize>(file: &[u8], at: &mut usize) -> Result<[u8; N], Answer> {
    let bytes = file.get(*at..*at + N).ok_or(refused_at(13, file.len()))?;
    *at += N;
    Ok(bytes.try_into().unwrap())
}

struct Case {
    profile: u8,
    weekday: u8,
    means: Vec<Mean>,
    readings: Vec<(usize, u64)>,
    cuts: Vec<usize>,
}

fn parse(file: &[u8]) -> Result<Case, Answer> {
    let mut at = 0;
    let [profile] = take(file, &mut at)?;
    if profile > 9 {
        return Err(refused_at(1, 0));
    }
    let [weekday] = take(file, &mut at)?;
    if weekday > 6 {
        return Err(refused_at(2, 1));
    }
    let count = u16::from_le_bytes(take(file, &mut at)?) as usize;
    if count < 4 || count > LONGEST + 3 {
        return Err(refused_at(3, 2));
    }
    let mut means = Vec::with_capacity(count);
    for _ in 0..count {
        let mean = i16::from_le_bytes(take(file, &mut at)?);
        if mean < -5_000 || mean > 3_999 {
            return Err(refused_at(4, at - 2));
        }
        means.push(mean as Mean);
    }
    let n = count - 3;
    let mut readings: Vec<(usize, u64)> = Vec::new();
    for _ in 0..u16::from_le_bytes(take(file, &mut at)?) {
        let place = at;
        let item: [u8; 10] = take(file, &mut at)?;
        let k = u16::from_le_bytes([item[0], item[1]]) as usize;
        let count = u64::from_le_bytes(item[2..].try_into().unwrap());
        if readings.last().is_some_and(|last| last.0 >= k) {
            return Err(refused_at(13, place));
        }
        if k > n {
            return Err(refused_at(6, place));
        }
        if readings.last().is_some_and(|last| last.1 > count) {
            return Err(refused_at(8, place + 2));
        }
        if readings.first().is_some_and(|first| count - first.1 > MOST_ENERGY) {
            return Err(refused_at(9, place + 2));
        }
        readings.push((k, count));
    }
    let mut cuts: Vec<usize> = Vec::new();
    for _ in 0..u16::from_le_bytes(take(file, &mut at)?) {
        let k = u16::from_le_bytes(take(file, &mut at)?) as usize;
        if cuts.last().is_some_and(|last| *last >= k) {
            return Err(refused_at(13, at - 2));
        }
        if k > n {
            return Err(refused_at(6, at - 2));
        }
        cuts.push(k);
    }
    if at < file.len() {
        return Err(refused_at(13, at));
    }
    Ok(Case { profile, weekday, means, readings, cuts })
}

pub fn read(file: &[u8], weights: &mut [u32], marks: &mut [u8], counts: &mut [u64]) -> (Answer, usize) {
    if weights.len() != LONGEST || marks.len() != LONGEST + 1 || counts.len() != LONGEST + 1 {
        return (refused(3), 0);
    }
    weights.fill(0);
    marks.fill(0);
    counts.fill(0);
    let case = match parse(file) {
        Ok(case) => case,
        Err(answer) => return (answer, 0),
    };
    let n = case.means.len() - 3;
    let own_days = [7; LONGEST];
    self::weights(case.profile, case.weekday, &case.means, &own_days[..n], &mut weights[..n]);
    for (k, count) in case.readings {
        marks[k] = 2;
        counts[k] = count;
    }
    for k in case.cuts {
        marks[k] |= 1;
    }
    (DONE, n)
}

pub fn write(
    profile: ProfileNumber,
    weekday: Weekday,
    means: &[Mean],
    marks: &[u8],
    counts: &[u64],
    out: &mut [u8],
) -> (Answer, usize) {
    // The weights of means in range are sound: any sound ones stand for them.
    let weights = vec![1; means.len().saturating_sub(3)];
    if !fit(&weights, marks, counts) {
        return (refused(3), 0);
    }
    if let Some(answer) = unfit(profile, weekday, means) {
        out.fill(0);
        return (answer, 0);
    }
    let Some(readings) = readings(&weights, marks, counts) else {
        return (refused(5), 0);
    };
    let cuts: Vec<usize> = (0..marks.len()).filter(|k| marks[*k] & 1 == 1).collect();
    let mut file = vec![profile, weekday];
    let two = |file: &mut Vec<u8>, number: usize| file.extend((number as u16).to_le_bytes());
    two(&mut file, means.len());
    means.iter().for_each(|mean| file.extend(mean.to_le_bytes()));
    two(&mut file, readings.len());
    for (k, count) in readings {
        two(&mut file, k);
        file.extend(count.to_le_bytes());
    }
    two(&mut file, cuts.len());
    cuts.into_iter().for_each(|k| two(&mut file, k));
    match out.get_mut(..file.len()) {
        Some(start) => start.copy_from_slice(&file),
        None => return (refused(15), 0),
    }
    (DONE, file.len())
}

pub fn page(weights: &[u32], marks: &[u8], counts: &[u64], page: &mut [u8]) -> (Answer, usize) {
    let n = weights.len();
    let (mut from, mut to, mut wh) = (vec![0; n], vec![0; n], vec![0; n]);
    let (answer, parts) = statement(weights, marks, counts, &mut from, &mut to, &mut wh);
    if answer.number == 11 {
        page.fill(0);
    }
    if answer != DONE {
        return (answer, 0);
    }
    let mut text = format!("{:>6}{:>6}{:>14}{:>14}\n", "from", "to", "Wh", "sum");
    let mut sum = 0;
    for i in 0..parts {
        sum += wh[i];
        writeln!(text, "{:6}{:6}{:14}{sum:14}", from[i], to[i], wh[i]).unwrap();
    }
    if page.len() != text.len() {
        return (refused(3), 0);
    }
    page.copy_from_slice(text.as_bytes());
    (DONE, text.len())
}

pub fn spread(load: u64, suppliers: &[u8], bases: &[u64], amounts: &mut [u64], totals: &mut [u64]) -> (Answer, u64) {
    let n = suppliers.len();
    if bases.len() != n || amounts.len() != n || totals.len() != SUPPLIERS {
        return (refused(3), 0);
    }
    amounts.fill(0);
    totals.fill(0);
    if n < 1 || n > MOST_POINTS || suppliers.iter().any(|supplier| *supplier as usize >= SUPPLIERS) {
        return (refused(16), 0);
    }
    let all: u128 = bases.iter().map(|base| *base as u128).sum();
    if load > MOST_LOAD || all > MOST_BASE as u128 {
        return (refused(17), 0);
    }
    if all == 0 {
        return (if load == 0 { DONE } else { refused(18) }, 0);
    }
    let (all, mut part, mut before) = (all as u64, 0, 0);
    for ((supplier, base), amount) in suppliers.iter().zip(bases).zip(amounts) {
        part += base;
        let upto = (load * part + all / 2) / all;
        *amount = upto - before;
        totals[*supplier as usize] += *amount;
        before = upto;
    }
    (DONE, totals.iter().sum())
}

/// What the statement program prints.
pub fn program(file: &[u8]) -> String {
    let (mut weights, mut marks, mut counts) = ([0; 1_096], [0; 1_097], [0; 1_097]);
    let (mut answer, n) = read(file, &mut weights, &mut marks, &mut counts);
    let (mut from, mut to, mut wh) = (vec![0; n], vec![0; n], vec![0; n]);
    let mut parts = 0;
    if answer == DONE {
        let (marks, counts) = (&marks[..n + 1], &counts[..n + 1]);
        (answer, parts) = statement(&weights[..n], marks, counts, &mut from, &mut to, &mut wh);
    }
    if answer != DONE {
        return format!("refused {} {}\n", answer.number, answer.place);
    }
    let mut text = format!("parts {parts}\n");
    for i in 0..parts {
        writeln!(text, "{} {} {}", from[i], to[i], wh[i]).unwrap();
    }
    writeln!(text, "sum {}", wh.iter().sum::<u64>()).unwrap();
    text
}
