//! What the busiest stretch of a list costs by the C function, beside a plain running sum in Rust.

use std::hint::black_box;

use c::stretch::{lists, plain, Record};
use plain_executive::numbers::{Number, STRETCH};
use plain_executive::random::Random;
use plain_executive::stretch::{self, Busiest, MOST_RECORDS};

use crate::calls::{self, ENGINE};
use crate::measure::Cost;

/// Records, and w.
const ASKED: [(usize, usize); 15] = [
    (1, 1),
    (16, 1),
    (16, 8),
    (16, 15),
    (16, 16),
    (256, 1),
    (256, 128),
    (256, 255),
    (256, 256),
    (4096, 1),
    (4096, 2),
    (4096, 64),
    (4096, 2048),
    (4096, 4095),
    (4096, 4096),
];
/// As many calls are timed as walk over so many records.
const WALKED: usize = 1 << 16;
/// What `run_one` is called with, then the records, w, who and the calls.
pub const RUN_ONE: &str = "stretch-calls";

pub fn print() {
    ASKED.into_iter().for_each(check);
    let name = |(count, w)| format!("{count} | {w}");
    let arguments = |(count, w): (usize, usize)| vec![RUN_ONE.to_string(), count.to_string(), w.to_string()];
    calls::print(&["Records", "w"], &ASKED, name, time, arguments);
}

/// Few reissues, as sessions have them.
fn records(count: usize) -> Vec<Record> {
    let mut random = Random::new(9);
    let reissues: Vec<u16> = (0..count).map(|_| random.below(4) as u16).collect();
    lists::records(&mut random, &reissues)
}

/// Both answer as the double loop does.
fn check((count, w): (usize, usize)) {
    let mut list = records(count);
    let expected = stretch::busiest(&plain(&list), w);
    assert_eq!(c::stretch::busiest(&mut list, w), expected, "{count} records, w {w}");
    assert_eq!(running_sum(&list, w), expected, "{count} records, w {w}");
}

/// One walk: a record comes in, the one w places before it goes out.
fn running_sum(records: &[Record], w: usize) -> Result<Busiest, Number> {
    if records.len() > MOST_RECORDS || w == 0 || w > records.len() {
        return Err(STRETCH);
    }
    let mut sum = records[..w].iter().map(|record| u32::from(record.reissues)).sum();
    let mut busiest = Busiest { sum, place: 0 };
    for (place, (out, into)) in (1..).zip(records.iter().zip(&records[w..])) {
        sum = sum + u32::from(into.reissues) - u32::from(out.reissues);
        if sum > busiest.sum {
            busiest = Busiest { sum, place };
        }
    }
    Ok(busiest)
}

fn call_engine(list: &mut [Record], w: usize, calls: usize) {
    for _ in 0..calls {
        let _ = black_box(c::stretch::busiest(black_box(list), black_box(w)));
    }
}

fn call_other(list: &[Record], w: usize, calls: usize) {
    for _ in 0..calls {
        let _ = black_box(running_sum(black_box(list), black_box(w)));
    }
}

fn time((count, w): (usize, usize), least: &mut Cost) {
    let (mut list, calls) = (records(count), WALKED / count);
    let other = list.clone();
    calls::repeat(calls, least, || call_engine(&mut list, w, calls), || call_other(&other, w, calls));
}

/// What callgrind counts.
pub fn run_one(numbers: [&str; 2], who: &str, calls: &str) -> ! {
    let [count, w, calls] = [numbers[0], numbers[1], calls].map(|digits| digits.parse().expect("a number"));
    let mut list = records(count);
    match who {
        ENGINE => call_engine(&mut list, w, calls),
        _ => call_other(&list, w, calls),
    }
    std::process::exit(0)
}
