//! Sections "Account and its calls" and "Case file", and change requests K4 and K5, with the proved library's algorithms: the same passes
//! over the same slices, no vectors.

use crate::weights::{unfit, Newton};
use crate::{HEAVIEST, LONGEST, MOST_BASE, MOST_ENERGY, MOST_LOAD, MOST_POINTS, SUPPLIERS};
use model::{refused, refused_at, Answer, Mean, ProfileNumber, Weekday, DONE};

pub fn weights(profile: ProfileNumber, weekday: Weekday, means: &[Mean], calendar: &[u8], out: &mut [u32]) -> Answer {
    crate::weights::weights::<Newton>(profile, weekday, means, calendar, out)
}

fn is_reading(mark: u8) -> bool {
    mark == 2 || mark == 3
}

fn is_cut(mark: u8) -> bool {
    mark == 1 || mark == 3
}

fn good_weights(weights: &[u32]) -> bool {
    for weight in weights {
        if *weight < 1 || *weight > HEAVIEST {
            return false;
        }
    }
    true
}

/// Marks 0 to 3, no count without a reading, readings never falling.
fn good_boundaries(marks: &[u8], counts: &[u64]) -> bool {
    let mut last = 0;
    for (mark, count) in marks.iter().zip(counts) {
        if *mark > 3 {
            return false;
        }
        if is_reading(*mark) {
            if *count < last {
                return false;
            }
            last = *count;
        } else if *count != 0 {
            return false;
        }
    }
    true
}

fn first_reading(marks: &[u8]) -> Option<usize> {
    marks.iter().position(|mark| is_reading(*mark))
}

fn last_reading(marks: &[u8]) -> Option<usize> {
    marks.iter().rposition(|mark| is_reading(*mark))
}

fn last_less_first(marks: &[u8], counts: &[u64]) -> u64 {
    match (last_reading(marks), first_reading(marks)) {
        (Some(last), Some(first)) => counts[last] - counts[first],
        _ => 0,
    }
}

/// The rows that every call but open checks first: 3, 5, or 0 for neither.
fn check(weights: &[u32], marks: &[u8], counts: &[u64]) -> u8 {
    let n = weights.len();
    if n < 1 || n > LONGEST || marks.len() != n + 1 || counts.len() != n + 1 {
        return 3;
    }
    if !good_weights(weights) || !good_boundaries(marks, counts) || last_less_first(marks, counts) > MOST_ENERGY {
        return 5;
    }
    0
}

/// Whether a count at boundary k is below an earlier reading or above a later one: one pass over all readings.
fn out_of_order(marks: &[u8], counts: &[u64], k: usize, count: u64) -> bool {
    for (j, (mark, other)) in marks.iter().zip(counts).enumerate() {
        if is_reading(*mark) && (j < k && count < *other || k < j && *other < count) {
            return true;
        }
    }
    false
}

/// Last less first with this count taken in at boundary k.
fn last_less_first_with(marks: &[u8], counts: &[u64], k: usize, count: u64) -> u64 {
    let last = last_reading(marks).filter(|last| *last > k).map_or(count, |last| counts[last]);
    let first = first_reading(marks).filter(|first| *first < k).map_or(count, |first| counts[first]);
    last - first
}

pub fn reading(weights: &[u32], marks: &mut [u8], counts: &mut [u64], k: usize, count: u64) -> Answer {
    let number = check(weights, marks, counts);
    if number != 0 {
        return refused(number);
    }
    if k > weights.len() {
        return refused(6);
    }
    if is_reading(marks[k]) {
        return refused(7);
    }
    if out_of_order(marks, counts, k, count) {
        return refused(8);
    }
    if last_less_first_with(marks, counts, k, count) > MOST_ENERGY {
        return refused(9);
    }
    marks[k] += 2;
    counts[k] = count;
    DONE
}

/// The first boundary at or after k with a reading, or the length of the marks.
fn next_reading(marks: &[u8], mut k: usize) -> usize {
    while k < marks.len() && !is_reading(marks[k]) {
        k += 1;
    }
    k
}

fn count_readings(marks: &[u8]) -> usize {
    marks.iter().filter(|mark| is_reading(**mark)).count()
}

/// x / d, an exact half going up; nothing is doubled. The proved statement tests no remainder since K3: this is how it rounded before.
fn nearest(x: u64, d: u64) -> u64 {
    let (whole, rest) = (x / d, x % d);
    if rest < d - rest {
        whole
    } else {
        whole + 1
    }
}

/// The lent outputs, and how far they are written: the next part starts at `start`, which has `value`.
struct Parts<'a> {
    from: &'a mut [u16],
    to: &'a mut [u16],
    wh: &'a mut [u64],
    start: usize,
    value: u64,
    count: usize,
}

impl Parts<'_> {
    fn add(&mut self, end: usize, value: u64) {
        self.from[self.count] = self.start as u16;
        self.to[self.count] = end as u16;
        self.wh[self.count] = value - self.value;
        self.start = end;
        self.value = value;
        self.count += 1;
    }

    /// The parts from the reading at which the next part starts to the next reading q.
    fn interval(&mut self, weights: &[u32], marks: &[u8], counts: &[u64], q: usize) {
        let (p, low, high) = (self.start, self.value, counts[q]);
        let energy = high - low;
        let z: u64 = weights[p..q].iter().map(|weight| *weight as u64).sum();
        let mut sum = weights[p] as u64;
        for k in p + 1..q {
            if marks[k] != 0 {
                self.add(k, low + nearest(energy * sum, z));
            }
            sum += weights[k] as u64;
        }
        self.add(q, high);
    }
}

pub fn statement(
    weights: &[u32],
    marks: &[u8],
    counts: &[u64],
    from: &mut [u16],
    to: &mut [u16],
    wh: &mut [u64],
) -> (Answer, usize) {
    let n = weights.len();
    if from.len() != n || to.len() != n || wh.len() != n {
        return (refused(3), 0);
    }
    let number = check(weights, marks, counts);
    if number != 0 {
        return (refused(number), 0);
    }
    from.fill(0);
    to.fill(0);
    wh.fill(0);
    if count_readings(marks) < 2 {
        return (refused(11), 0);
    }
    let first = next_reading(marks, 0);
    let mut parts = Parts { from, to, wh, start: first, value: counts[first], count: 0 };
    let mut q = next_reading(marks, first + 1);
    while q <= n {
        parts.interval(weights, marks, counts, q);
        q = next_reading(marks, q + 1);
    }
    (DONE, parts.count)
}

/// The file and the reader's own position.
struct Reader<'a> {
    file: &'a [u8],
    at: usize,
}

impl Reader<'_> {
    fn ends(&self, bytes: usize) -> bool {
        self.file.len() - self.at < bytes
    }

    fn byte(&mut self) -> u8 {
        self.at += 1;
        self.file[self.at - 1]
    }

    fn two(&mut self) -> u16 {
        let low = self.byte() as u16;
        low + 256 * self.byte() as u16
    }

    fn eight(&mut self) -> u64 {
        let bytes = &self.file[self.at..self.at + 8];
        self.at += 8;
        u64::from_le_bytes(bytes.try_into().unwrap())
    }

    fn early(&self) -> Answer {
        refused_at(13, self.file.len())
    }

    fn means(&mut self, means: &mut [Mean; 1_099]) -> Result<usize, Answer> {
        if self.ends(2) {
            return Err(self.early());
        }
        let count = self.two() as usize;
        if count < 4 || count > LONGEST + 3 {
            return Err(refused_at(3, 2));
        }
        for mean in &mut means[..count] {
            if self.ends(2) {
                return Err(self.early());
            }
            *mean = self.two() as i16 as Mean;
            if *mean < -5_000 || *mean > 3_999 {
                return Err(refused_at(4, self.at - 2));
            }
        }
        Ok(count)
    }

    fn readings(&mut self, n: usize, marks: &mut [u8], counts: &mut [u64]) -> Result<(), Answer> {
        if self.ends(2) {
            return Err(self.early());
        }
        let (mut least, mut first, mut last) = (0, 0, 0);
        for i in 0..self.two() {
            if self.ends(10) {
                return Err(self.early());
            }
            let k = self.two() as usize;
            let count = self.eight();
            if k < least {
                return Err(refused_at(13, self.at - 10));
            }
            if k > n {
                return Err(refused_at(6, self.at - 10));
            }
            if count < last {
                return Err(refused_at(8, self.at - 8));
            }
            if i == 0 {
                first = count;
            }
            if count - first > MOST_ENERGY {
                return Err(refused_at(9, self.at - 8));
            }
            marks[k] = 2;
            counts[k] = count;
            last = count;
            least = k + 1;
        }
        Ok(())
    }

    fn cuts(&mut self, n: usize, marks: &mut [u8]) -> Result<(), Answer> {
        if self.ends(2) {
            return Err(self.early());
        }
        let mut least = 0;
        for _ in 0..self.two() {
            if self.ends(2) {
                return Err(self.early());
            }
            let k = self.two() as usize;
            if k < least {
                return Err(refused_at(13, self.at - 2));
            }
            if k > n {
                return Err(refused_at(6, self.at - 2));
            }
            marks[k] = if is_reading(marks[k]) { 3 } else { 1 };
            least = k + 1;
        }
        Ok(())
    }

    fn contents(&mut self, weights: &mut [u32], marks: &mut [u8], counts: &mut [u64]) -> Result<usize, Answer> {
        if self.ends(1) {
            return Err(self.early());
        }
        let profile = self.byte() as ProfileNumber;
        if profile > 9 {
            return Err(refused_at(1, 0));
        }
        if self.ends(1) {
            return Err(self.early());
        }
        let weekday = self.byte() as Weekday;
        if weekday > 6 {
            return Err(refused_at(2, 1));
        }
        let mut means = [0; 1_099];
        let count = self.means(&mut means)?;
        let n = count - 3;
        let own_days = [7; LONGEST];
        self::weights(profile, weekday, &means[..count], &own_days[..n], &mut weights[..n]);
        self.readings(n, marks, counts)?;
        self.cuts(n, marks)?;
        if self.at < self.file.len() {
            return Err(refused_at(13, self.at));
        }
        Ok(n)
    }
}

fn clear(weights: &mut [u32], marks: &mut [u8], counts: &mut [u64]) {
    weights.fill(0);
    marks.fill(0);
    counts.fill(0);
}

pub fn read(file: &[u8], weights: &mut [u32], marks: &mut [u8], counts: &mut [u64]) -> (Answer, usize) {
    if weights.len() != LONGEST || marks.len() != LONGEST + 1 || counts.len() != LONGEST + 1 {
        return (refused(3), 0);
    }
    clear(weights, marks, counts);
    match (Reader { file, at: 0 }).contents(weights, marks, counts) {
        Ok(n) => (DONE, n),
        Err(answer) => {
            clear(weights, marks, counts);
            (answer, 0)
        }
    }
}

/// How many readings and how many cuts there are: one pass over the marks.
fn count_marks(marks: &[u8]) -> (usize, usize) {
    let (mut readings, mut cuts) = (0, 0);
    for mark in marks {
        readings += is_reading(*mark) as usize;
        cuts += is_cut(*mark) as usize;
    }
    (readings, cuts)
}

/// The lowest bytes of a number, so many of them, from an offset on.
fn put(out: &mut [u8], at: usize, width: usize, number: u64) {
    let mut rest = number;
    for byte in &mut out[at..at + width] {
        *byte = (rest % 256) as u8;
        rest /= 256;
    }
}

/// The items of readings and cuts, each kind from its own offset on: one pass over the boundaries.
fn put_items(out: &mut [u8], mut reading: usize, mut cut: usize, marks: &[u8], counts: &[u64]) {
    for (k, (mark, count)) in marks.iter().zip(counts).enumerate() {
        if is_reading(*mark) {
            put(out, reading, 2, k as u64);
            put(out, reading + 2, 8, *count);
            reading += 10;
        }
        if is_cut(*mark) {
            put(out, cut, 2, k as u64);
            cut += 2;
        }
    }
}

pub fn write(
    profile: ProfileNumber,
    weekday: Weekday,
    means: &[Mean],
    marks: &[u8],
    counts: &[u64],
    out: &mut [u8],
) -> (Answer, usize) {
    let n = means.len().wrapping_sub(3);
    if n < 1 || n > LONGEST {
        return (refused(3), 0);
    }
    // The weights of means in range are sound: ones stand for them.
    let ones = [1; LONGEST];
    let number = check(&ones[..n], marks, counts);
    if number == 3 {
        return (refused(3), 0);
    }
    if let Some(answer) = unfit(profile, weekday, means) {
        out.fill(0);
        return (answer, 0);
    }
    if number == 5 {
        return (refused(5), 0);
    }
    let (readings, cuts) = count_marks(marks);
    let length = 8 + 2 * means.len() + 10 * readings + 2 * cuts;
    if out.len() < length {
        return (refused(15), 0);
    }
    out[0] = profile;
    out[1] = weekday;
    put(out, 2, 2, means.len() as u64);
    for (i, mean) in means.iter().enumerate() {
        put(out, 4 + 2 * i, 2, *mean as u16 as u64);
    }
    let reading_section = 4 + 2 * means.len();
    let cut_section = reading_section + 2 + 10 * readings;
    put(out, reading_section, 2, readings as u64);
    put(out, cut_section, 2, cuts as u64);
    put_items(out, reading_section + 2, cut_section + 2, marks, counts);
    (DONE, length)
}

const HEADING: &[u8; 41] = b"  from    to            Wh           sum\n";

/// A number in the columns from `start` to before `end`: its digits from the right, then spaces.
fn put_column(page: &mut [u8], start: usize, end: usize, number: u64) {
    let (mut at, mut rest) = (end - 1, number);
    while rest >= 10 {
        page[at] = b'0' + (rest % 10) as u8;
        rest /= 10;
        at -= 1;
    }
    page[at] = b'0' + rest as u8;
    while at > start {
        at -= 1;
        page[at] = b' ';
    }
}

pub fn page(weights: &[u32], marks: &[u8], counts: &[u64], page: &mut [u8]) -> (Answer, usize) {
    let n = weights.len();
    if n > LONGEST {
        return (refused(3), 0);
    }
    let (mut from, mut to, mut wh) = ([0; LONGEST], [0; LONGEST], [0; LONGEST]);
    let (answer, parts) = statement(weights, marks, counts, &mut from[..n], &mut to[..n], &mut wh[..n]);
    if answer.number == 11 {
        page.fill(0);
    }
    if answer != DONE {
        return (answer, 0);
    }
    let length = 41 * (parts + 1);
    if page.len() != length {
        return (refused(3), 0);
    }
    page[..41].copy_from_slice(HEADING);
    let mut sum = 0;
    for i in 0..parts {
        sum += wh[i];
        let line = 41 * (i + 1);
        put_column(page, line, line + 6, from[i] as u64);
        put_column(page, line + 6, line + 12, to[i] as u64);
        put_column(page, line + 12, line + 26, wh[i]);
        put_column(page, line + 26, line + 40, sum);
        page[line + 40] = b'\n';
    }
    (DONE, length)
}

/// A list of 1 to 1,000 points, each with a supplier 0 to 63.
fn good_suppliers(suppliers: &[u8]) -> bool {
    if suppliers.is_empty() || suppliers.len() > MOST_POINTS {
        return false;
    }
    for supplier in suppliers {
        if *supplier as usize >= SUPPLIERS {
            return false;
        }
    }
    true
}

/// The sum of the bases; none above 6,000,000,000. No addition wraps.
fn base_sum(bases: &[u64]) -> Option<u64> {
    let mut sum = 0;
    for base in bases {
        if MOST_BASE - sum < *base {
            return None;
        }
        sum += base;
    }
    Some(sum)
}

pub fn spread(load: u64, suppliers: &[u8], bases: &[u64], amounts: &mut [u64], totals: &mut [u64]) -> (Answer, u64) {
    let n = suppliers.len();
    if bases.len() != n || amounts.len() != n || totals.len() != SUPPLIERS {
        return (refused(3), 0);
    }
    amounts.fill(0);
    totals.fill(0);
    if !good_suppliers(suppliers) {
        return (refused(16), 0);
    }
    let Some(sum) = base_sum(bases) else {
        return (refused(17), 0);
    };
    if load > MOST_LOAD {
        return (refused(17), 0);
    }
    if sum == 0 {
        return (if load == 0 { DONE } else { refused(18) }, 0);
    }
    let (mut part, mut before) = (0, 0);
    for i in 0..n {
        part += bases[i];
        let reached = (load * part + sum / 2) / sum;
        amounts[i] = reached - before;
        totals[suppliers[i] as usize] += reached - before;
        before = reached;
    }
    (DONE, load)
}

/// A text in a buffer that is written once.
struct Text {
    bytes: [u8; 25_600],
    length: usize,
}

impl Text {
    fn word(&mut self, word: &[u8]) {
        for byte in word {
            self.bytes[self.length] = *byte;
            self.length += 1;
        }
    }

    /// The digits before the last one are those of a tenth.
    fn number(&mut self, number: u64) {
        if number >= 10 {
            self.number(number / 10);
        }
        self.word(&[b'0' + (number % 10) as u8]);
    }
}

/// What the statement program prints.
pub fn program(file: &[u8]) -> Vec<u8> {
    let (mut weights, mut marks, mut counts) = ([0; 1_096], [0; 1_097], [0; 1_097]);
    let (mut from, mut to, mut wh) = ([0; 1_096], [0; 1_096], [0; 1_096]);
    let (mut answer, n) = read(file, &mut weights, &mut marks, &mut counts);
    let mut parts = 0;
    if answer == DONE {
        let (marks, counts) = (&marks[..n + 1], &counts[..n + 1]);
        (answer, parts) = statement(&weights[..n], marks, counts, &mut from[..n], &mut to[..n], &mut wh[..n]);
    }
    let mut text = Text { bytes: [0; 25_600], length: 0 };
    if answer != DONE {
        text.word(b"refused ");
        text.number(answer.number as u64);
        text.word(b" ");
        text.number(answer.place as u64);
        text.word(b"\n");
    } else {
        text.word(b"parts ");
        text.number(parts as u64);
        text.word(b"\n");
        for i in 0..parts {
            text.number(from[i] as u64);
            text.word(b" ");
            text.number(to[i] as u64);
            text.word(b" ");
            text.number(wh[i]);
            text.word(b"\n");
        }
        text.word(b"sum ");
        text.number(wh[..parts].iter().sum());
        text.word(b"\n");
    }
    text.bytes[..text.length].to_vec()
}
