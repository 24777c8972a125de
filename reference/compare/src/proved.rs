//! The proved static library behind the trait: the only file that knows its C interface (include/arvadush.h); serves every section.
//!
//! A slice passes as its address and then its length.

use crate::library::Library;
use model::{Answer, Boundary, Mean, ProfileNumber, Weekday};

/// The table's number, the place, and the value (0 where the call has none).
#[repr(C)]
struct Outcome<V> {
    number: u8,
    place: usize,
    value: V,
}

/// The same with a low and a high value.
#[repr(C)]
struct Values {
    number: u8,
    place: usize,
    low: i64,
    high: i64,
}

/// Which series the chooser took (1 measured, 2 forecast, 0 neither), and how many means from its start.
#[repr(C)]
struct Chosen {
    series: u8,
    means: usize,
}

impl<V> Outcome<V> {
    fn answer(&self) -> Answer {
        Answer { number: self.number, place: self.place }
    }
}

impl Outcome<u64> {
    /// The answer of a call that has no value: one that no call gives where the value is not 0.
    fn answer_alone(&self) -> Answer {
        if self.value == 0 {
            self.answer()
        } else {
            Answer { number: u8::MAX, place: self.place }
        }
    }
}

/// The answer of a call that returns the table's number alone.
fn answer(number: u8) -> Answer {
    Answer { number, place: 0 }
}

#[rustfmt::skip]
#[link(name = "ffi", kind = "static")]
extern "C" {
    fn arvadush_temperature(a: Mean, b: Mean, c: Mean, d: Mean) -> Outcome<i16>;
    fn arvadush_choose(measured: *const Mean, _: usize, forecast: *const Mean, _: usize, n: usize) -> Chosen;
    fn arvadush_value(profile: ProfileNumber, t: Mean) -> Values;
    fn arvadush_day_weight(profile: ProfileNumber, weekday: Weekday, t: Mean) -> Outcome<u64>;
    fn arvadush_weights(profile: ProfileNumber, weekday: Weekday,
        means: *const Mean, _: usize, calendar: *const u8, _: usize, out: *mut u32, _: usize) -> Outcome<u64>;
    fn arvadush_open(weights: *const u32, _: usize, marks: *mut u8, _: usize, counts: *mut u64, _: usize) -> u8;
    fn arvadush_reading(weights: *const u32, _: usize, marks: *mut u8, _: usize, counts: *mut u64, _: usize,
        k: Boundary, count: u64) -> u8;
    fn arvadush_withdraw(weights: *const u32, _: usize, marks: *mut u8, _: usize, counts: *mut u64, _: usize,
        k: Boundary) -> u8;
    fn arvadush_cut(weights: *const u32, _: usize, marks: *mut u8, _: usize, counts: *const u64, _: usize,
        k: Boundary) -> u8;
    fn arvadush_uncut(weights: *const u32, _: usize, marks: *mut u8, _: usize, counts: *const u64, _: usize,
        k: Boundary) -> u8;
    fn arvadush_statement(weights: *const u32, _: usize, marks: *const u8, _: usize, counts: *const u64, _: usize,
        from: *mut u16, _: usize, to: *mut u16, _: usize, wh: *mut u64, _: usize) -> Outcome<u64>;
    fn arvadush_customer_value(energy: u64, weights: *const u32, _: usize) -> Outcome<u64>;
    fn arvadush_daily_amount(value: u64, weight: u32) -> Outcome<u64>;
    fn arvadush_read(file: *const u8, _: usize, weights: *mut u32, _: usize, marks: *mut u8, _: usize,
        counts: *mut u64, _: usize) -> Outcome<u64>;
    fn arvadush_write(profile: ProfileNumber, weekday: Weekday, means: *const Mean, _: usize,
        marks: *const u8, _: usize, counts: *const u64, _: usize, out: *mut u8, _: usize) -> Outcome<u64>;
    fn arvadush_page(weights: *const u32, _: usize, marks: *const u8, _: usize, counts: *const u64, _: usize,
        page: *mut u8, _: usize) -> Outcome<u64>;
    fn arvadush_spread(load: u64, suppliers: *const u8, _: usize, bases: *const u64, _: usize,
        amounts: *mut u64, _: usize, totals: *mut u64, _: usize) -> Outcome<u64>;
    fn arvadush_statement_text(from: *const u16, _: usize, to: *const u16, _: usize, wh: *const u64, _: usize,
        parts: usize, out: *mut u8, _: usize) -> usize;
    fn arvadush_refusal_text(number: u8, place: usize, out: *mut u8, _: usize) -> usize;
}

pub struct Proved;

#[rustfmt::skip]
impl Library for Proved {
    fn name(&self) -> &'static str {
        "proved"
    }
    fn temperature(&self, a: Mean, b: Mean, c: Mean, d: Mean) -> (Answer, Mean) {
        let returned = unsafe { arvadush_temperature(a, b, c, d) };
        (returned.answer(), returned.value)
    }
    fn choose<'a>(&self, measured: &'a [Mean], forecast: &'a [Mean], n: usize) -> &'a [Mean] {
        let chosen = unsafe {
            arvadush_choose(measured.as_ptr(), measured.len(), forecast.as_ptr(), forecast.len(), n)
        };
        let part = match (chosen.series, chosen.means) {
            (0, 0) | (1, _) => measured.get(..chosen.means),
            (2, _) => forecast.get(..chosen.means),
            _ => None,
        };
        part.unwrap_or(&[]) // a part of neither series, which differs from every answer of the model
    }
    fn value(&self, profile: ProfileNumber, t: Mean) -> (Answer, i64, i64) {
        let returned = unsafe { arvadush_value(profile, t) };
        (Answer { number: returned.number, place: returned.place }, returned.low, returned.high)
    }
    fn day_weight(&self, profile: ProfileNumber, weekday: Weekday, t: Mean) -> (Answer, u32) {
        let returned = unsafe { arvadush_day_weight(profile, weekday, t) };
        (returned.answer(), u32::try_from(returned.value).unwrap_or(u32::MAX))
    }
    fn weights(&self, profile: ProfileNumber, weekday: Weekday, means: &[Mean], calendar: &[u8],
        out: &mut [u32]) -> Answer {
        let returned = unsafe {
            arvadush_weights(profile, weekday, means.as_ptr(), means.len(), calendar.as_ptr(), calendar.len(),
                out.as_mut_ptr(), out.len())
        };
        returned.answer_alone()
    }
    fn open(&self, weights: &[u32], marks: &mut [u8], counts: &mut [u64]) -> Answer {
        answer(unsafe {
            arvadush_open(weights.as_ptr(), weights.len(), marks.as_mut_ptr(), marks.len(),
                counts.as_mut_ptr(), counts.len())
        })
    }
    fn reading(&self, weights: &[u32], marks: &mut [u8], counts: &mut [u64], k: Boundary, count: u64) -> Answer {
        answer(unsafe {
            arvadush_reading(weights.as_ptr(), weights.len(), marks.as_mut_ptr(), marks.len(),
                counts.as_mut_ptr(), counts.len(), k, count)
        })
    }
    fn withdraw(&self, weights: &[u32], marks: &mut [u8], counts: &mut [u64], k: Boundary) -> Answer {
        answer(unsafe {
            arvadush_withdraw(weights.as_ptr(), weights.len(), marks.as_mut_ptr(), marks.len(),
                counts.as_mut_ptr(), counts.len(), k)
        })
    }
    fn cut(&self, weights: &[u32], marks: &mut [u8], counts: &[u64], k: Boundary) -> Answer {
        answer(unsafe {
            arvadush_cut(weights.as_ptr(), weights.len(), marks.as_mut_ptr(), marks.len(),
                counts.as_ptr(), counts.len(), k)
        })
    }
    fn uncut(&self, weights: &[u32], marks: &mut [u8], counts: &[u64], k: Boundary) -> Answer {
        answer(unsafe {
            arvadush_uncut(weights.as_ptr(), weights.len(), marks.as_mut_ptr(), marks.len(),
                counts.as_ptr(), counts.len(), k)
        })
    }
    fn statement(&self, weights: &[u32], marks: &[u8], counts: &[u64],
        from: &mut [u16], to: &mut [u16], wh: &mut [u64]) -> (Answer, usize) {
        let returned = unsafe {
            arvadush_statement(weights.as_ptr(), weights.len(), marks.as_ptr(), marks.len(),
                counts.as_ptr(), counts.len(), from.as_mut_ptr(), from.len(), to.as_mut_ptr(), to.len(),
                wh.as_mut_ptr(), wh.len())
        };
        (returned.answer(), returned.value as usize)
    }
    fn customer_value(&self, energy: u64, weights: &[u32]) -> (Answer, u64) {
        let returned = unsafe { arvadush_customer_value(energy, weights.as_ptr(), weights.len()) };
        (returned.answer(), returned.value)
    }
    fn daily_amount(&self, value: u64, weight: u32) -> (Answer, u64) {
        let returned = unsafe { arvadush_daily_amount(value, weight) };
        (returned.answer(), returned.value)
    }
    fn read(&self, file: &[u8], weights: &mut [u32], marks: &mut [u8], counts: &mut [u64]) -> (Answer, usize) {
        let returned = unsafe {
            arvadush_read(file.as_ptr(), file.len(), weights.as_mut_ptr(), weights.len(),
                marks.as_mut_ptr(), marks.len(), counts.as_mut_ptr(), counts.len())
        };
        (returned.answer(), returned.value as usize)
    }
    fn write(&self, profile: ProfileNumber, weekday: Weekday, means: &[Mean], marks: &[u8], counts: &[u64],
        out: &mut [u8]) -> (Answer, usize) {
        let returned = unsafe {
            arvadush_write(profile, weekday, means.as_ptr(), means.len(), marks.as_ptr(), marks.len(),
                counts.as_ptr(), counts.len(), out.as_mut_ptr(), out.len())
        };
        (returned.answer(), returned.value as usize)
    }
    fn page(&self, weights: &[u32], marks: &[u8], counts: &[u64], page: &mut [u8]) -> (Answer, usize) {
        let returned = unsafe {
            arvadush_page(weights.as_ptr(), weights.len(), marks.as_ptr(), marks.len(),
                counts.as_ptr(), counts.len(), page.as_mut_ptr(), page.len())
        };
        (returned.answer(), returned.value as usize)
    }
    fn spread(&self, load: u64, suppliers: &[u8], bases: &[u64], amounts: &mut [u64],
        totals: &mut [u64]) -> (Answer, u64) {
        let returned = unsafe {
            arvadush_spread(load, suppliers.as_ptr(), suppliers.len(), bases.as_ptr(), bases.len(),
                amounts.as_mut_ptr(), amounts.len(), totals.as_mut_ptr(), totals.len())
        };
        (returned.answer(), returned.value)
    }
    fn statement_text(&self, from: &[u16], to: &[u16], wh: &[u64], parts: usize, out: &mut [u8]) -> usize {
        unsafe {
            arvadush_statement_text(from.as_ptr(), from.len(), to.as_ptr(), to.len(), wh.as_ptr(), wh.len(),
                parts, out.as_mut_ptr(), out.len())
        }
    }
    fn refusal_text(&self, number: u8, place: usize, out: &mut [u8]) -> usize {
        unsafe { arvadush_refusal_text(number, place, out.as_mut_ptr(), out.len()) }
    }
}
