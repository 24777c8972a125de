//! Sections "Buyer's note on contracts" and "Errors seen in other houses", and change requests K1, K2, K4 and K5: the
//! comparison finds each wrong library.

use additions::texts::lay_out;
use compare::library::{compared, Library, MODEL};
use compare::programs;
use compare::run::{claim, compare, input, one, Tally};
use model::account::{lengths_fit, readings};
use model::{refused, refused_at, Answer, Boundary, Mean, ProfileNumber, Weekday, DONE};
use std::cell::RefCell;
use std::ops::RangeInclusive;

/// The model with one fault, by name.
struct Wrong(&'static str, RefCell<Option<(Vec<u16>, Vec<u16>, Vec<u64>, usize)>>);

impl Wrong {
    fn is(&self, fault: &str) -> bool {
        self.0 == fault
    }

    /// The calendar of n days as weights with the fault take it.
    fn taken(&self, calendar: &[u8], n: usize) -> Vec<u8> {
        let mut calendar = calendar.to_vec();
        match self.0 {
            "calendar ignored" => replace(&mut calendar, 0..=6, 7),
            "7 is Monday" => replace(&mut calendar, 7..=7, 0),
            "every named day is Sunday" => replace(&mut calendar, 0..=6, 6),
            "a named day shifts the days after it" => {
                for k in 1..calendar.len() {
                    if calendar[k] == 7 && calendar[k - 1] < 7 {
                        calendar[k] = (calendar[k - 1] + 1) % 7;
                    }
                }
            }
            "8 taken" => replace(&mut calendar, 8..=8, 7),
            "calendar of another length taken" => calendar.resize(n, 7),
            _ => {}
        }
        calendar
    }

    /// Marks and counts as a writer with the fault takes them.
    fn written(&self, marks: &[u8], counts: &[u64]) -> (Vec<u8>, Vec<u64>) {
        let (mut marks, mut counts) = (marks.to_vec(), counts.to_vec());
        match self.0 {
            "mark 3 written as a reading only" => replace(&mut marks, 3..=3, 2),
            "a reading of count 0 left out" => {
                marks.iter_mut().zip(&counts).filter(|(_, count)| **count == 0).for_each(|(mark, _)| *mark &= !2)
            }
            "a count in 32 bits" => counts.iter_mut().for_each(|count| *count &= 0xffff_ffff),
            "5 asks no order of counts" => {
                let at = readings(&marks);
                let mut rising: Vec<u64> = at.iter().filter_map(|k| counts.get(*k).copied()).collect();
                rising.sort();
                at.iter().zip(rising).for_each(|(k, count)| counts[*k] = count);
            }
            _ => {}
        }
        (marks, counts)
    }
}

fn replace(bytes: &mut [u8], old: RangeInclusive<u8>, new: u8) {
    bytes.iter_mut().filter(|byte| old.contains(byte)).for_each(|byte| *byte = new)
}

/// Moves the text of each column of these lines to its left end.
fn left_align(lines: &mut [u8]) {
    for line in lines.chunks_mut(41) {
        for column in [0..6, 6..12, 12..26, 26..40] {
            let spaces = line[column.clone()].iter().take_while(|byte| **byte == b' ').count();
            line[column].rotate_left(spaces);
        }
    }
}

/// The total of each supplier; returns the network's.
fn add_up(suppliers: &[u8], amounts: &[u64], totals: &mut [u64]) -> u64 {
    totals.fill(0);
    for (supplier, amount) in suppliers.iter().zip(amounts) {
        let total = &mut totals[*supplier as usize];
        *total = total.wrapping_add(*amount);
    }
    totals.iter().fold(0, |sum, total| sum.wrapping_add(*total))
}

/// The running rule over outputs that are zero, in 64 bits that wrap, with so much added before each division.
fn run_through(
    load: u64,
    suppliers: &[u8],
    bases: &[u64],
    added: u64,
    amounts: &mut [u64],
    totals: &mut [u64],
) -> (Answer, u64) {
    let all = bases.iter().fold(0, |sum: u64, base| sum.wrapping_add(*base));
    if all == 0 {
        return (if load == 0 { DONE } else { refused(18) }, 0);
    }
    let (mut part, mut before) = (0u64, 0);
    for (amount, base) in amounts.iter_mut().zip(bases) {
        part = part.wrapping_add(*base);
        let reached = load.wrapping_mul(part).wrapping_add(added) / all;
        *amount = reached.wrapping_sub(before);
        before = reached;
    }
    (DONE, add_up(suppliers, amounts, totals))
}

/// A list that is refused with this number.
fn cleared(number: u8, amounts: &mut [u64], totals: &mut [u64]) -> (Answer, u64) {
    amounts.fill(0);
    totals.fill(0);
    (refused(number), 0)
}

impl Library for Wrong {
    fn name(&self) -> &'static str {
        self.0
    }
    fn temperature(&self, a: Mean, b: Mean, c: Mean, d: Mean) -> (Answer, Mean) {
        if self.is("oldest mean weighted most") {
            return MODEL.temperature(d, c, b, a);
        }
        let (mut answer, mut t) = MODEL.temperature(a, b, c, d);
        if self.is("negative temperatures cut off") && answer == DONE {
            t = ((16 * a as i32 + 8 * b as i32 + 4 * c as i32 + 2 * d as i32 + 15) / 30) as Mean;
        }
        if self.is("index always 0") {
            answer.place = 0;
        }
        (answer, t)
    }
    fn choose<'a>(&self, measured: &'a [Mean], forecast: &'a [Mean], n: usize) -> &'a [Mean] {
        if self.is("later means looked at") && measured.iter().any(|mean| *mean > 3_999) {
            return MODEL.choose(&measured[..0], forecast, n);
        }
        let part = MODEL.choose(measured, forecast, n);
        if self.is("empty part of the forecast") && part.is_empty() {
            return &forecast[..0];
        }
        part
    }
    fn value(&self, profile: ProfileNumber, t: Mean) -> (Answer, i64, i64) {
        let (answer, low, high) = MODEL.value(profile, t);
        match self.0 {
            "constant profile value" if answer == DONE => (answer, 1_000_000_000, 1_000_000_000),
            "high value one less" if high > low => (answer, low, high - 1),
            _ => (answer, low, high),
        }
    }
    fn day_weight(&self, profile: ProfileNumber, weekday: Weekday, t: Mean) -> (Answer, u32) {
        let (answer, weight) = MODEL.day_weight(profile, weekday, t);
        match self.0 {
            "weekday 7 is Monday" if weekday == 7 => MODEL.day_weight(profile, 0, t),
            "weight rounded up" if answer == DONE => (answer, weight + 1),
            _ => (answer, weight),
        }
    }
    fn weights(
        &self,
        profile: ProfileNumber,
        weekday: Weekday,
        means: &[Mean],
        calendar: &[u8],
        out: &mut [u32],
    ) -> Answer {
        if self.is("weekday after the means") && weekday > 6 && profile < 10 {
            let answer = MODEL.weights(profile, 0, means, calendar, out);
            return if answer == DONE { MODEL.weights(profile, weekday, means, calendar, out) } else { answer };
        }
        if self.is("weekday not asked of a full calendar") && calendar.iter().all(|byte| *byte < 7) {
            return MODEL.weights(profile, 0, means, calendar, out);
        }
        let before = out.to_vec();
        let answer = MODEL.weights(profile, weekday, means, &self.taken(calendar, out.len()), out);
        match (self.0, answer.number) {
            ("weights untouched after 4", 4) | ("14 leaves the weights", 14) => out.copy_from_slice(&before),
            ("14 before 4", 4) | ("14 before 2", 2) => {
                return calendar.iter().position(|byte| *byte > 7).map_or(answer, |index| refused_at(14, index))
            }
            ("14 at the last such byte", 14) => {
                return refused_at(14, calendar.iter().rposition(|byte| *byte > 7).unwrap())
            }
            _ => {}
        }
        answer
    }
    fn open(&self, weights: &[u32], marks: &mut [u8], counts: &mut [u64]) -> Answer {
        let kept = counts.to_vec();
        let answer = MODEL.open(weights, marks, counts);
        if self.is("open leaves the counts") {
            counts.copy_from_slice(&kept);
        }
        answer
    }
    fn reading(&self, weights: &[u32], marks: &mut [u8], counts: &mut [u64], k: Boundary, count: u64) -> Answer {
        let k = if self.is("boundary cut to 16 bits") { k as u16 as usize } else { k };
        let (old_marks, old_counts) = (marks.to_vec(), counts.to_vec());
        let answer = MODEL.reading(weights, marks, counts, k, count);
        let equal = || old_counts.iter().zip(&old_marks).any(|(other, mark)| *mark >= 2 && *other == count);
        match self.0 {
            "reading stores nothing" => {
                marks.copy_from_slice(&old_marks);
                counts.copy_from_slice(&old_counts);
            }
            "second reading done" if answer.number == 7 => return DONE,
            "equal count dropped as a bounce" if answer == DONE && equal() => {
                marks.copy_from_slice(&old_marks);
                counts.copy_from_slice(&old_counts);
            }
            "equal count refused" if answer == DONE && equal() => {
                marks.copy_from_slice(&old_marks);
                counts.copy_from_slice(&old_counts);
                return refused(8);
            }
            "every call declines" => return refused(5),
            "9 before 8" if answer.number == 8 && old_counts.iter().any(|c| count.abs_diff(*c) > 2_000_000_000) => {
                return refused(9)
            }
            _ => {}
        }
        answer
    }
    fn withdraw(&self, weights: &[u32], marks: &mut [u8], counts: &mut [u64], k: Boundary) -> Answer {
        let kept = counts.to_vec();
        let answer = MODEL.withdraw(weights, marks, counts, k);
        match self.0 {
            "withdraw leaves the count" => counts.copy_from_slice(&kept),
            "withdraw takes the cut" if answer == DONE => marks[k] = 0,
            _ => {}
        }
        answer
    }
    fn cut(&self, weights: &[u32], marks: &mut [u8], counts: &[u64], k: Boundary) -> Answer {
        let kept = marks.to_vec();
        let answer = MODEL.cut(weights, marks, counts, k);
        if self.is("cut stores nothing") {
            marks.copy_from_slice(&kept);
        }
        answer
    }
    fn uncut(&self, weights: &[u32], marks: &mut [u8], counts: &[u64], k: Boundary) -> Answer {
        let kept = marks.to_vec();
        let answer = MODEL.uncut(weights, marks, counts, k);
        match self.0 {
            "uncut stores nothing" => marks.copy_from_slice(&kept),
            "uncut takes the reading" if answer == DONE => marks[k] = 0,
            _ => {}
        }
        answer
    }
    fn statement(
        &self,
        weights: &[u32],
        marks: &[u8],
        counts: &[u64],
        from: &mut [u16],
        to: &mut [u16],
        wh: &mut [u64],
    ) -> (Answer, usize) {
        let old = wh.to_vec();
        let (answer, parts) = MODEL.statement(weights, marks, counts, from, to, wh);
        let whole = |from: usize, to: usize| weights[from..to].iter().map(|weight| *weight as u128).sum::<u128>();
        match self.0 {
            "outputs left after 11" if answer.number == 11 => wh.copy_from_slice(&old),
            "11 with two readings" if parts == 1 => {
                (from[0], to[0], wh[0]) = (0, 0, 0);
                return (refused(11), 0);
            }
            "one part for the lot" if parts > 1 => {
                (to[0], wh[0]) = (to[parts - 1], wh.iter().sum());
                from[1..].fill(0);
                to[1..].fill(0);
                wh[1..].fill(0);
                return (DONE, 1);
            }
            "each part rounded alone" | "halves down" | "half of Z rounded up" | "half of E added"
                if answer == DONE =>
            {
                let mut start = 0;
                for i in 0..parts {
                    let p = (0..=from[i] as usize).rev().find(|k| marks[*k] >= 2).unwrap();
                    let q = (to[i] as usize..marks.len()).find(|k| marks[*k] >= 2).unwrap();
                    let (energy, z) = ((counts[q] - counts[p]) as u128, whole(p, q));
                    let upto = energy * whole(p, to[i] as usize);
                    let added = match self.0 {
                        "halves down" => (z - 1) / 2,
                        "half of Z rounded up" => (z + 1) / 2,
                        _ => energy / 2,
                    };
                    if self.is("each part rounded alone") {
                        wh[i] = ((2 * energy * whole(from[i] as usize, to[i] as usize) + z) / (2 * z)) as u64;
                    } else {
                        start = if from[i] as usize == p { 0 } else { start };
                        let end = (upto + added) / z;
                        wh[i] = (end - start) as u64;
                        start = end;
                    }
                }
            }
            "cut outside makes a part" if answer == DONE && parts < wh.len() => {
                let last = to[parts - 1] as usize;
                if let Some(k) = (last + 1..marks.len()).find(|k| marks[*k] != 0) {
                    (from[parts], to[parts]) = (last as u16, k as u16);
                    return (DONE, parts + 1);
                }
            }
            "first statement repeated" if answer == DONE => {
                let mut first = self.1.borrow_mut();
                match first.as_ref() {
                    Some((f, t, w, p)) if f.len() == from.len() => {
                        from.copy_from_slice(f);
                        to.copy_from_slice(t);
                        wh.copy_from_slice(w);
                        return (DONE, *p);
                    }
                    _ => *first = Some((from.to_vec(), to.to_vec(), wh.to_vec(), parts)),
                }
            }
            _ => {}
        }
        (answer, parts)
    }
    fn customer_value(&self, energy: u64, weights: &[u32]) -> (Answer, u64) {
        let (answer, value) = MODEL.customer_value(energy, weights);
        match self.0 {
            "customer value rounded down" if answer == DONE => {
                let z: u64 = weights.iter().map(|weight| *weight as u64).sum();
                (answer, energy * 10_000_000 / z)
            }
            "12 from 10^12 on" if value == 1_000_000_000_000 => (refused(12), 0),
            _ => (answer, value),
        }
    }
    fn daily_amount(&self, value: u64, weight: u32) -> (Answer, u64) {
        let (answer, amount) = MODEL.daily_amount(value, weight);
        if self.is("daily halves down") && answer == DONE {
            return (answer, ((value as u128 * weight as u128 + 4_999_999) / 10_000_000) as u64);
        }
        (answer, amount)
    }
    fn read(&self, file: &[u8], weights: &mut [u32], marks: &mut [u8], counts: &mut [u64]) -> (Answer, usize) {
        let (mut answer, n) = MODEL.read(file, weights, marks, counts);
        match self.0 {
            "13 at the item" if answer.number == 13 && answer.place == file.len() => answer.place -= file.len() % 2,
            "8 at the boundary" if answer.number == 8 => answer.place -= 2,
            "bytes left ignored" if answer.number == 13 && answer.place < file.len() => {
                return self.read(&file[..answer.place], weights, marks, counts)
            }
            "weights left after a fault" if answer.number == 13 => weights[0] = 1,
            "a cut wipes out its reading" if answer == DONE => {
                marks.iter_mut().for_each(|mark| *mark &= 2 - (*mark & 1))
            }
            _ => {}
        }
        (answer, n)
    }
    fn write(
        &self,
        profile: ProfileNumber,
        weekday: Weekday,
        means: &[Mean],
        marks: &[u8],
        counts: &[u64],
        out: &mut [u8],
    ) -> (Answer, usize) {
        let before = out.to_vec();
        let (marks, counts) = self.written(marks, counts);
        let (answer, length) = MODEL.write(profile, weekday, means, &marks, &counts, out);
        let sections = 4 + 2 * means.len();
        match (self.0, answer.number) {
            ("high byte first", 0) => out[2..sections].chunks_mut(2).for_each(|two| two.swap(0, 1)),
            ("cuts before readings", 0) => out[sections..length].rotate_left(2 + 10 * readings(&marks).len()),
            ("weekday 0 always", 0) => out[1] = 0,
            ("bytes past the file cleared", 0) => out[length..].fill(0),
            ("15 where the lengths are equal", 0) if length == out.len() => {
                out.copy_from_slice(&before);
                return (refused(15), 0);
            }
            ("15 before 5", 5) if out.len() < sections => return (refused(15), 0),
            ("a part written before 15", 15) if !out.is_empty() => out[0] = profile,
            ("a length beside 15", 15) => return (answer, sections + 4),
            ("1 leaves the file's slice", 1) | ("4 leaves the file's slice", 4) => out.copy_from_slice(&before),
            ("4 at an offset of the file", 4) => return (refused_at(4, 4 + 2 * answer.place), 0),
            _ => {}
        }
        (answer, length)
    }
    fn page(&self, weights: &[u32], marks: &[u8], counts: &[u64], page: &mut [u8]) -> (Answer, usize) {
        let before = page.to_vec();
        let (answer, length) = MODEL.page(weights, marks, counts, page);
        let other_length = before.len() % 41 != 0 || before.len() < 82;
        match (self.0, answer.number) {
            ("the sum one line late", 0) => {
                for line in (41..length - 41).step_by(41).rev() {
                    page.copy_within(line + 26..line + 40, line + 67);
                }
                page[67..81].copy_from_slice(b"             0");
            }
            ("the meter's count for the sum", 0) => {
                let first = counts[readings(marks)[0]] as u128;
                for line in page[41..].chunks_mut(41) {
                    let sum: u128 = String::from_utf8_lossy(&line[26..40]).trim_start().parse().unwrap();
                    let count = format!("{:>14}", first + sum);
                    line[26..40].copy_from_slice(&count.as_bytes()[count.len() - 14..]);
                }
            }
            ("zeros in front of a number", 0) => replace(&mut page[41..], b' '..=b' ', b'0'),
            ("numbers left-aligned", 0) => left_align(&mut page[41..]),
            ("the heading left-aligned", 0) => left_align(&mut page[..41]),
            ("no last line feed", 0) => page[length - 1] = before[length - 1],
            ("a longer page taken", 3) => {
                let mut starts =
                    (82..before.len()).step_by(41).map(|end| MODEL.page(weights, marks, counts, &mut page[..end]));
                return starts.find(|start| start.0 == DONE).unwrap_or((answer, 0));
            }
            ("a page of another length cleared", 3) if lengths_fit(weights, marks, counts) => page.fill(0),
            ("the page's length before 5", 5) if other_length => return (refused(3), 0),
            ("the page's length before 11", 11) if other_length => {
                page.copy_from_slice(&before);
                return (refused(3), 0);
            }
            ("11 leaves the page", 11) => page.copy_from_slice(&before),
            ("11 clears a page of 41 bytes only", 11) if before.len() != 41 => page.copy_from_slice(&before),
            ("a length beside 11", 11) => return (answer, 41),
            _ => {}
        }
        (answer, length)
    }
    fn spread(
        &self,
        load: u64,
        suppliers: &[u8],
        bases: &[u64],
        amounts: &mut [u64],
        totals: &mut [u64],
    ) -> (Answer, u64) {
        if self.is("supplier 64 counts as 0") {
            let suppliers: Vec<u8> = suppliers.iter().map(|supplier| supplier % 64).collect();
            return MODEL.spread(load, &suppliers, bases, amounts, totals);
        }
        let (old_amounts, old_totals) = (amounts.to_vec(), totals.to_vec());
        let (answer, network) = MODEL.spread(load, suppliers, bases, amounts, totals);
        let n = bases.len();
        let all: u128 = bases.iter().map(|base| *base as u128).sum();
        let (wrapped, great) = (all as u64, load > 2_000_000_000 || all > 6_000_000_000);
        match (self.0, answer.number) {
            ("each point rounded alone", 0) if all > 0 => {
                (0..n).for_each(|i| amounts[i] = (load * bases[i] + wrapped / 2) / wrapped);
                return (DONE, add_up(suppliers, amounts, totals));
            }
            ("the last point takes the rest", 0) if all > 0 => {
                (0..n).for_each(|i| amounts[i] = load * bases[i] / wrapped);
                amounts[n - 1] += load - amounts.iter().sum::<u64>();
                return (DONE, add_up(suppliers, amounts, totals));
            }
            ("points in the order of their suppliers", 0) => {
                let (mut order, mut given): (Vec<usize>, _) = ((0..n).collect(), vec![0; n]);
                order.sort_by_key(|i| suppliers[*i]);
                let sorted: Vec<u64> = order.iter().map(|i| bases[*i]).collect();
                MODEL.spread(load, suppliers, &sorted, &mut given, totals);
                order.iter().zip(given).for_each(|(i, amount)| amounts[*i] = amount);
                return (DONE, add_up(suppliers, amounts, totals));
            }
            ("a point's half goes down", 0) if all > 0 => {
                return run_through(load, suppliers, bases, (wrapped - 1) / 2, amounts, totals)
            }
            ("the base sum wraps", 17) if load <= 2_000_000_000 && wrapped <= 6_000_000_000 => {
                return run_through(load, suppliers, bases, wrapped / 2, amounts, totals)
            }
            ("1,001 points taken", 16) if n == 1_001 && suppliers.iter().all(|s| *s < 64) && !great => {
                return run_through(load, suppliers, bases, wrapped / 2, amounts, totals)
            }
            ("an empty list done", 16) if n == 0 && load == 0 => return (DONE, 0),
            ("totals added onto what the slice held", 0) => {
                totals.iter_mut().zip(old_totals).for_each(|(total, old)| *total = total.wrapping_add(old))
            }
            ("1,000 points refused", 0) if n == 1_000 => return cleared(16, amounts, totals),
            ("supplier 63 refused", 0) if suppliers.contains(&63) => return cleared(16, amounts, totals),
            ("a load of 2,000,000,000 refused", 0) if load == 2_000_000_000 => return cleared(17, amounts, totals),
            ("a base sum of 6,000,000,000 refused", 0) if all == 6_000_000_000 => return cleared(17, amounts, totals),
            ("zero over zero refused", 0) if all == 0 => return cleared(18, amounts, totals),
            ("17 before 16", 16) if great => return (refused(17), 0),
            ("18 before 17", 17) if all == 0 => return (refused(18), 0),
            ("the load beside 18", 18) => return (answer, load),
            ("3 clears the outputs", 3) => return cleared(3, amounts, totals),
            ("16 leaves the amounts", 16) | ("17 leaves the amounts", 17) | ("18 leaves the amounts", 18) => {
                amounts.copy_from_slice(&old_amounts)
            }
            ("16 leaves the totals", 16) | ("17 leaves the totals", 17) | ("18 leaves the totals", 18) => {
                totals.copy_from_slice(&old_totals)
            }
            _ => {}
        }
        (answer, network)
    }
    fn statement_text(&self, from: &[u16], to: &[u16], wh: &[u64], parts: usize, out: &mut [u8]) -> usize {
        if self.is("from and to exchanged") {
            return MODEL.statement_text(to, from, wh, parts, out);
        }
        let length = MODEL.statement_text(from, to, wh, parts, out);
        match self.0 {
            "a byte past the text" if length < out.len() => out[length] = 0,
            "only what fits is counted" => return length.min(out.len()),
            "no part has a text" if parts == 0 => return lay_out("parts 0\nsum 0\n", out),
            _ => {}
        }
        length
    }
    fn refusal_text(&self, number: u8, place: usize, out: &mut [u8]) -> usize {
        if self.is("number and place exchanged") {
            return MODEL.refusal_text(place as u8, number as usize, out);
        }
        let length = MODEL.refusal_text(number, place, out);
        if self.is("refusal without its end") && length <= out.len() {
            out[length - 1] = b' ';
        }
        length
    }
}

/// Faults that a list of calls shows by demand 3 alone.
const IN_LISTS: [&str; 20] = [
    "reading stores nothing",
    "second reading done",
    "equal count dropped as a bounce",
    "equal count refused",
    "every call declines",
    "9 before 8",
    "withdraw leaves the count",
    "withdraw takes the cut",
    "cut stores nothing",
    "uncut stores nothing",
    "uncut takes the reading",
    "outputs left after 11",
    "11 with two readings",
    "one part for the lot",
    "each part rounded alone",
    "halves down",
    "half of Z rounded up",
    "half of E added",
    "cut outside makes a part",
    "first statement repeated",
];

/// Faults that a round trip shows by itself.
const IN_ROUND_TRIPS: [&str; 11] = [
    "mark 3 written as a reading only",
    "a reading of count 0 left out",
    "a count in 32 bits",
    "5 asks no order of counts",
    "high byte first",
    "cuts before readings",
    "weekday 0 always",
    "bytes past the file cleared",
    "15 where the lengths are equal",
    "a part written before 15",
    "a length beside 15",
];

/// Faults that a page shows beside a statement of the same account.
const IN_PAGES: [&str; 5] = [
    "the sum one line late",
    "the meter's count for the sum",
    "numbers left-aligned",
    "no last line feed",
    "a longer page taken",
];

/// Faults that a spread shows by its own outputs.
const IN_SPREADS: [&str; 4] = [
    "each point rounded alone",
    "the last point takes the rest",
    "the base sum wraps",
    "totals added onto what the slice held",
];

const ELSEWHERE: [&str; 70] = [
    "open leaves the counts",
    "boundary cut to 16 bits",
    "oldest mean weighted most",
    "negative temperatures cut off",
    "index always 0",
    "later means looked at",
    "empty part of the forecast",
    "constant profile value",
    "high value one less",
    "weekday after the means",
    "weights untouched after 4",
    "calendar ignored",
    "7 is Monday",
    "every named day is Sunday",
    "a named day shifts the days after it",
    "8 taken",
    "calendar of another length taken",
    "weekday not asked of a full calendar",
    "14 before 2",
    "14 before 4",
    "14 at the last such byte",
    "14 leaves the weights",
    "customer value rounded down",
    "12 from 10^12 on",
    "daily halves down",
    "13 at the item",
    "8 at the boundary",
    "bytes left ignored",
    "weights left after a fault",
    "a cut wipes out its reading",
    "15 before 5",
    "1 leaves the file's slice",
    "4 leaves the file's slice",
    "4 at an offset of the file",
    "zeros in front of a number",
    "the heading left-aligned",
    "a page of another length cleared",
    "the page's length before 5",
    "the page's length before 11",
    "11 leaves the page",
    "11 clears a page of 41 bytes only",
    "a length beside 11",
    "points in the order of their suppliers",
    "a point's half goes down",
    "supplier 64 counts as 0",
    "1,001 points taken",
    "an empty list done",
    "1,000 points refused",
    "supplier 63 refused",
    "a load of 2,000,000,000 refused",
    "a base sum of 6,000,000,000 refused",
    "zero over zero refused",
    "17 before 16",
    "18 before 17",
    "the load beside 18",
    "3 clears the outputs",
    "16 leaves the amounts",
    "17 leaves the amounts",
    "18 leaves the amounts",
    "16 leaves the totals",
    "17 leaves the totals",
    "18 leaves the totals",
    "weekday 7 is Monday",
    "weight rounded up",
    "from and to exchanged",
    "a byte past the text",
    "only what fits is counted",
    "no part has a text",
    "number and place exchanged",
    "refusal without its end",
];

const SEED: u64 = 20_240_229;

#[test]
fn every_fault_is_found() {
    for fault in IN_LISTS.iter().chain(&IN_ROUND_TRIPS).chain(&IN_PAGES).chain(&IN_SPREADS).chain(&ELSEWHERE) {
        let libraries: [Box<dyn Library>; 1] = [Box::new(Wrong(fault, RefCell::new(None)))];
        let differences = (0..40_000).map(|index| compare(&input(SEED, index), &libraries).1);
        let found = differences.flatten().next();
        assert!(found.is_some_and(|text| text.contains(fault)), "{fault} is not found");
    }
}

/// Demand 3 finds the faults of an account, K2's round trips most of those of the writer, a statement beside the page some of the page's,
/// and the sums and the exact shares some of a spread's, without the model's answers.
#[test]
fn a_claim_alone_finds_faults() {
    for fault in IN_LISTS.iter().chain(&IN_ROUND_TRIPS).chain(&IN_PAGES).chain(&IN_SPREADS) {
        let wrong = |index| claim(&input(SEED, index), &Wrong(fault, RefCell::new(None))).is_err();
        assert!((0..40_000).any(wrong), "{fault} is not found");
    }
}

#[test]
fn no_difference_without_a_fault() {
    let libraries = compared();
    let mut tally = Tally::new();
    for index in 0..30_000 {
        one(SEED, index, &libraries, &mut tally, |input, text| panic!("{input:?}\n{text}"));
    }
    for (kind, least) in [
        ("reading", 7),
        ("statement", 4),
        ("case file", 9),
        ("case file written", 7),
        ("page", 4),
        ("spread", 5),
        ("weights", 6),
        ("customer value", 5),
    ] {
        assert!(tally[kind].len() >= least, "{kind} reaches too few rows: {:?}", tally[kind]);
    }
}

#[test]
fn the_programs_print_what_the_model_says() {
    let fail = |text: String| panic!("{text}");
    programs::statement(env!("CARGO_BIN_EXE_statement"), 60, SEED, fail);
    programs::console(env!("CARGO_BIN_EXE_console"), 60, SEED, fail);
}

/// The statement program prints another text for each file that the reader takes, and ends with 0 also after a refusal.
#[test]
fn a_wrong_program_is_found() {
    let (program, mut found) = (env!("CARGO_BIN_EXE_statement"), 0);
    let examples = programs::rewrite(program, 20, SEED, |_| found += 1);
    assert_eq!(programs::page(program, 20, SEED, |_| found += 1), examples);
    assert_eq!(found, 2 * (examples + 20));
}
