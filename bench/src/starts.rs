//! What a free start costs by the C function, beside a search of all starts in plain Rust.

use std::hint::black_box;

use c::starts::Cycle;
use plain_executive::numbers::{Number, CYCLES};
use plain_executive::starts::{self, LONGEST_CYCLE, MOST_CYCLES};

use crate::calls::{self, ENGINE};
use crate::measure::Cost;

/// What they are called, start and period of each, and the new period.
type Timers = (&'static str, &'static [(u32, u32)], u32);

const ASKED: [Timers; 9] = [
    ("none", &[], LONGEST_CYCLE),
    ("40", &[(0, 40)], 100),
    ("eight of 20 to 1,000", &EARLY, 100),
    ("256, 128, 64, .. 2", &FROM_256, LONGEST_CYCLE),
    ("1", &[(0, 1)], LONGEST_CYCLE),
    ("17,711", &[(0, 17_711)], 28_657),
    ("eight times 8", &[(0, 8), (1, 8), (2, 8), (3, 8), (4, 8), (5, 8), (6, 8), (7, 8)], LONGEST_CYCLE),
    ("128, 128, 64, .. 2", &FROM_128, LONGEST_CYCLE),
    ("seven times 32,768, 1", &LAST, LONGEST_CYCLE),
];
const EARLY: [(u32, u32); 8] = [(0, 40), (10, 60), (2, 80), (3, 20), (4, 100), (5, 200), (6, 300), (7, 1000)];
/// They leave 255. What eight timers leave begins no later, and the C function ends there.
const FROM_256: [(u32, u32); 8] = [(127, 256), (63, 128), (31, 64), (15, 32), (7, 16), (3, 8), (1, 4), (0, 2)];
/// The last alone takes half of the starts, the one before it a quarter, and so on.
const FROM_128: [(u32, u32); 8] = [(127, 128), (63, 128), (31, 64), (15, 32), (7, 16), (3, 8), (1, 4), (0, 2)];
/// The last alone takes all but one. No list has more comparisons: the first timer of each takes some start.
const LAST: [(u32, u32); 8] = {
    let mut all = [(0, LONGEST_CYCLE); 8];
    all[7] = (0, 1);
    all
};
/// As many calls are timed as try so many starts, up to a thousand.
const TRIED: usize = 1 << 17;
/// What `run_one` is called with, then the place of what is asked, who and the calls.
pub const RUN_ONE: &str = "start-calls";

pub fn print() {
    let name = |place: usize| {
        let (name, _, period) = ASKED[place];
        format!("{name} | {period} | {}", answer(place).map_or("none".to_string(), |start| start.to_string()))
    };
    let arguments = |place: usize| vec![RUN_ONE.to_string(), place.to_string()];
    let places: Vec<usize> = (0..ASKED.len()).collect();
    calls::print(&["Timers", "New period", "Start"], &places, name, time, arguments);
}

fn timers(place: usize) -> (Vec<Cycle>, u32) {
    let (_, timers, period) = ASKED[place];
    (timers.iter().map(|&(start, period)| Cycle { start, period }).collect(), period)
}

/// Both answer as the other implementation does.
fn answer(place: usize) -> Option<u32> {
    let (mut list, period) = timers(place);
    let expected = starts::free_start(&list, period);
    assert_eq!(c::starts::free_start(&mut list, period), expected, "{:?}", ASKED[place]);
    assert_eq!(plain(&list, period), expected, "{:?}", ASKED[place]);
    expected.expect("accepted")
}

/// The divisors and rests once, then every start below the period.
fn plain(timers: &[Cycle], period: u32) -> Result<Option<u32>, Number> {
    let is_good = |period: u32| (1..=LONGEST_CYCLE).contains(&period);
    if timers.len() > MOST_CYCLES || !is_good(period) || !timers.iter().all(|timer| is_good(timer.period)) {
        return Err(CYCLES);
    }
    let mut all = [(1, 0); MOST_CYCLES];
    for (taken, timer) in all.iter_mut().zip(timers) {
        let divisor = common_divisor(timer.period, period);
        *taken = (divisor, timer.start % divisor);
    }
    let taken = &all[..timers.len()];
    Ok((0..period).find(|start| taken.iter().all(|(divisor, rest)| start % divisor != *rest)))
}

fn common_divisor(mut one: u32, mut other: u32) -> u32 {
    while other != 0 {
        (one, other) = (other, one % other);
    }
    one
}

fn call_engine(list: &mut [Cycle], period: u32, calls: usize) {
    for _ in 0..calls {
        let _ = black_box(c::starts::free_start(black_box(list), black_box(period)));
    }
}

fn call_other(list: &[Cycle], period: u32, calls: usize) {
    for _ in 0..calls {
        let _ = black_box(plain(black_box(list), black_box(period)));
    }
}

fn time(place: usize, least: &mut Cost) {
    let (mut list, period) = timers(place);
    let tried = answer(place).unwrap_or(period - 1) as usize + 1;
    let (other, calls) = (list.clone(), (TRIED / tried).min(1000));
    calls::repeat(calls, least, || call_engine(&mut list, period, calls), || call_other(&other, period, calls));
}

/// What callgrind counts.
pub fn run_one(place: &str, who: &str, calls: &str) -> ! {
    let [place, calls] = [place, calls].map(|digits| digits.parse().expect("a number"));
    let (mut list, period) = timers(place);
    match who {
        ENGINE => call_engine(&mut list, period, calls),
        _ => call_other(&list, period, calls),
    }
    std::process::exit(0)
}
