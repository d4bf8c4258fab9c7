//! Programs that are wrong about a free start, each in one way. Three are not among them, since they would be right. Rows may begin with
//! the start itself: they share the same later tocks. And a search may end behind 256 starts, or a start be cut to 8 bits: what eight
//! timers leave begins below 256. (Whether x is left says a product of eight factors 1 - e^(2 pi i (x - s) / d), which is a sum of 256
//! terms c * e^(i a x); such a sum is 0 everywhere if it is 0 at 256 numbers in a row. `covers_all` in crates/starts proves it otherwise.)

use plain_executive::numbers::{Number, CYCLES};
use plain_executive::starts::{LONGEST_CYCLE, MOST_CYCLES};

use super::way::{common_divisor, Way, RIGHT};
use super::{Cycle, NO_START};

type Wrong = Box<dyn FnMut(&mut [Cycle], u32, &mut u32) -> Number>;

/// By their names.
pub fn wrong() -> impl Iterator<Item = (&'static str, Wrong)> {
    let way = |(name, way): (_, Way)| {
        let run: Wrong = Box::new(move |timers, period, written| way.run(timers, period, written));
        (name, run)
    };
    let other = |(name, run): (_, Run)| {
        let run: Wrong = Box::new(run);
        (name, run)
    };
    WAYS.into_iter().map(way).chain(OTHERS.into_iter().map(other))
}

const WAYS: [(&str, Way); 31] = [
    // ---- which starts are tried
    ("the largest start", Way { starts: |period| Box::new((0..period).rev()), ..RIGHT }),
    ("0 left out", Way { starts: |period| Box::new(1..period), ..RIGHT }),
    ("the last start left out", Way { starts: |period| Box::new(0..period - 1), ..RIGHT }),
    ("a search of 255 starts", Way { starts: |period| Box::new(0..period.min(255)), ..RIGHT }),
    ("a search of 128 starts", Way { starts: |period| Box::new(0..period.min(128)), ..RIGHT }),
    // ---- the divisor
    ("a remainder step less", Way { divisor: a_step_less, ..RIGHT }),
    ("a single remainder step", Way { divisor: |given, new| (given % new).max(1), ..RIGHT }),
    ("the given period", Way { divisor: |given, _| given, ..RIGHT }),
    ("the new period", Way { divisor: |_, new| new, ..RIGHT }),
    ("the shorter period", Way { divisor: u32::min, ..RIGHT }),
    ("twice the divisor", Way { divisor: |given, new| 2 * common_divisor(given, new), ..RIGHT }),
    ("the product of the periods", Way { divisor: |given, new| given * new, ..RIGHT }),
    ("one divisor for all timers", Way { timers: with_one_divisor, ..RIGHT }),
    // ---- the distance
    ("the wrong sign", Way { takes: |start, timer, divisor| start.wrapping_sub(timer.start) % divisor == 0, ..RIGHT }),
    ("starts added", Way { takes: |start, timer, divisor| start.wrapping_add(timer.start) % divisor == 0, ..RIGHT }),
    (
        "starts with a sign",
        Way { takes: |start, timer, divisor| (start as i32).abs_diff(timer.start as i32) % divisor == 0, ..RIGHT },
    ),
    (
        "timers that start later passed over",
        Way { takes: |start, timer, divisor| start >= timer.start && (start - timer.start) % divisor == 0, ..RIGHT },
    ),
    (
        "equal starts passed over",
        Way { takes: |start, timer, divisor| start != timer.start && (RIGHT.takes)(start, timer, divisor), ..RIGHT },
    ),
    ("equal starts alone", Way { takes: |start, timer, _| start == timer.start, ..RIGHT }),
    // ---- which timers are looked at
    ("starts cut to 16 bits", Way { timers: |timers, _| with_starts(timers, |timer| timer.start & 0xFFFF), ..RIGHT }),
    (
        "the first signal cut to 32 bits",
        Way { timers: |timers, _| with_starts(timers, |timer| timer.start.wrapping_add(timer.period)), ..RIGHT },
    ),
    ("timers without a signal below 2^32 passed over", Way { timers: |timers, _| signalling(timers), ..RIGHT }),
    ("the first timer left out", Way { timers: |timers, _| timers.iter().skip(1).copied().collect(), ..RIGHT }),
    ("the last timer left out", Way { timers: |timers, _| timers.iter().rev().skip(1).copied().collect(), ..RIGHT }),
    ("start and period exchanged", Way { timers: |timers, _| exchanged(timers), ..RIGHT }),
    // ---- what is refused
    ("nine timers accepted", Way { most: 9, ..RIGHT }),
    ("eight timers refused", Way { most: 7, ..RIGHT }),
    ("a given 32,768 refused", Way { longest_given: 32_767, ..RIGHT }),
    ("a given 32,769 accepted", Way { longest_given: 32_769, ..RIGHT }),
    ("a new 32,768 refused", Way { longest_new: 32_767, ..RIGHT }),
    ("a new 32,769 accepted", Way { longest_new: 32_769, ..RIGHT }),
];

/// Both are at least 1.
fn a_step_less(one: u32, other: u32) -> u32 {
    if one % other == 0 {
        one
    } else {
        a_step_less(other, one % other)
    }
}

fn with_one_divisor(timers: &[Cycle], period: u32) -> Vec<Cycle> {
    let period = timers.iter().fold(period, |divisor, timer| common_divisor(divisor, timer.period));
    timers.iter().map(|timer| Cycle { period, ..*timer }).collect()
}

fn with_starts(timers: &[Cycle], start: fn(&Cycle) -> u32) -> Vec<Cycle> {
    timers.iter().map(|timer| Cycle { start: start(timer), ..*timer }).collect()
}

fn signalling(timers: &[Cycle]) -> Vec<Cycle> {
    timers.iter().filter(|timer| timer.start.checked_add(timer.period).is_some()).copied().collect()
}

fn exchanged(timers: &[Cycle]) -> Vec<Cycle> {
    let exchange = |timer: &Cycle| Cycle { start: timer.period, period: timer.start.clamp(1, LONGEST_CYCLE) };
    timers.iter().map(exchange).collect()
}

type Run = fn(&mut [Cycle], u32, &mut u32) -> Number;

pub fn right(timers: &mut [Cycle], period: u32, written: &mut u32) -> Number {
    RIGHT.run(timers, period, written)
}

const OTHERS: [(&str, Run); 14] = [
    // ---- what is refused
    ("no timers refused", |timers, period, written| match timers {
        [] => CYCLES,
        _ => right(timers, period, written),
    }),
    ("the number of timers cut to 8 bits", |timers, period, written| {
        let count = timers.len() & 0xFF;
        right(&mut timers[..count], period, written)
    }),
    ("the number of timers cut to 16 bits", |timers, period, written| {
        let count = timers.len() & 0xFFFF;
        right(&mut timers[..count], period, written)
    }),
    ("given periods cut to 16 bits", |timers, period, written| {
        let mut cut: Vec<_> = timers.iter().map(|timer| Cycle { period: timer.period & 0xFFFF, ..*timer }).collect();
        right(&mut cut, period, written)
    }),
    ("the new period cut to 16 bits", |timers, period, written| right(timers, period & 0xFFFF, written)),
    ("a given 0 passed over", |timers, period, written| {
        let mut others: Vec<_> = timers.iter().filter(|timer| timer.period != 0).copied().collect();
        right(&mut others, period, written)
    }),
    ("a new 0 taken for 1", |timers, period, written| right(timers, period.max(1), written)),
    ("nothing looked at behind a timer that takes all", |timers, period, written| {
        let takes_all = |timer: &Cycle| timer.period != 0 && common_divisor(timer.period, period) == 1;
        match timers.iter().position(takes_all) {
            Some(place) if timers.len() <= MOST_CYCLES => right(&mut timers[..=place], period, written),
            _ => right(timers, period, written),
        }
    }),
    // ---- what is answered
    ("31 for none", |timers, period, written| match right(timers, period, written) {
        NO_START => CYCLES,
        number => number,
    }),
    ("none for 31", |timers, period, written| match right(timers, period, written) {
        CYCLES => NO_START,
        number => number,
    }),
    ("the start written with none", |timers, period, written| {
        let number = right(timers, period, written);
        *written = if number == NO_START { period } else { *written };
        number
    }),
    ("the start written with 31", |timers, period, written| {
        let number = right(timers, period, written);
        *written = if number == CYCLES { 0 } else { *written };
        number
    }),
    ("a start of 0 not written", |timers, period, written| {
        let held = *written;
        let number = right(timers, period, written);
        *written = if *written == 0 { held } else { *written };
        number
    }),
    ("a timer written", |timers, period, written| {
        let number = right(timers, period, written);
        timers.iter_mut().filter(|timer| timer.period > 1).for_each(|timer| timer.start %= timer.period);
        number
    }),
];
