//! Lists of timers of every kind, each with the new periods that it is asked for.

use plain_executive::random::Random;
use plain_executive::starts::{LONGEST_CYCLE, MOST_CYCLES, WALKED};

use super::{Case, Cycle};

// ---- every one

/// Every timer with a period up to 16 and a start up to 40, or within 40 of 2^16, 2^31 or 2^32; and every new period up to 24.
pub fn single() -> Vec<Case> {
    let near = |middle: u32| middle - 40..middle + 40;
    let starts = (0..=40).chain(near(1 << 16)).chain(near(1 << 31)).chain(u32::MAX - 40..=u32::MAX);
    let timers = starts.flat_map(|start| (1..=16).map(move |period| Cycle { start, period }));
    timers.map(|timer| Case::new(vec![timer], 1..=24)).collect()
}

/// Every two timers with periods up to 12 and starts below them, and every new period up to 12.
pub fn pairs() -> Vec<Case> {
    let timers = || (1..=12).flat_map(|period| (0..period).map(move |start| Cycle { start, period }));
    timers().flat_map(|one| timers().map(move |other| Case::new(vec![one, other], 1..=12))).collect()
}

// ---- random ones

/// Some periods up to the longest one given: of the timers, and the new ones.
type Periods = fn(&mut Random, u32) -> Vec<u32>;

const PERIODS: [Periods; 8] = [
    |random, longest| (0..9).map(|_| drawn(random, longest)).collect(),
    multiples,
    multiples,
    |_, longest| (0..=longest.ilog2()).map(|power| 1 << power).collect(),
    divisors,
    divisors,
    |random, longest| vec![drawn(random, longest)],
    |_, longest| vec![longest, longest - 1, longest / 2, longest / 4 * 3],
];

/// From 1 on.
fn drawn(random: &mut Random, longest: u32) -> u32 {
    1 + random.below(longest as usize) as u32
}

/// Of a small number.
fn multiples(random: &mut Random, longest: u32) -> Vec<u32> {
    let step = 2 + random.below(9) as u32;
    (0..9).map(|_| step * drawn(random, longest / step)).collect()
}

/// From 2 on, of a number that has many.
fn divisors(random: &mut Random, longest: u32) -> Vec<u32> {
    let many = [24, 36, 48, 60, 25_200, 27_648, 27_720, 30_030, 32_760].into_iter().filter(|many| *many <= longest);
    let many = random.pick(&many.collect::<Vec<u32>>());
    (2..=many).filter(|divisor| many % divisor == 0).collect()
}

/// A start of a given timer.
type Start = fn(&mut Random) -> u32;

/// Small, up to the longest period, any, near 2^31, near 2^32, and small behind a multiple of 2^16.
const STARTS: [Start; 6] = [
    |random| random.below(64) as u32,
    |random| random.below(LONGEST_CYCLE as usize) as u32,
    |random| random.number() as u32,
    |random| (1 << 31) - 50 + random.below(100) as u32,
    |random| u32::MAX - random.below(100) as u32,
    |random| (random.below(1 << 16) << 16 | random.below(9)) as u32,
];

/// Up to eight timers each, with every kind of periods and of starts.
fn random(seed: u64, longest: u32, count: usize) -> Vec<Case> {
    let random = &mut Random::new(seed);
    let list = |turn: usize| {
        let (periods, start) = (PERIODS[turn % PERIODS.len()], STARTS[turn / PERIODS.len() % STARTS.len()]);
        let periods = periods(random, longest);
        let mut timer = || Cycle { start: start(random), period: random.pick(&periods) };
        let new: Vec<u32> = (0..5).map(|_| timer().period).chain([1, 2, longest]).collect();
        Case::new((0..turn % (MOST_CYCLES + 1)).map(|_| timer()).collect(), new)
    };
    (0..count).map(list).collect()
}

/// Those whose rows the other implementation walks.
pub fn short(seed: u64, count: usize) -> Vec<Case> {
    random(seed, WALKED, count)
}

/// Those of which it takes the rests, but for some with small periods alone.
pub fn long(seed: u64, count: usize) -> Vec<Case> {
    random(seed, LONGEST_CYCLE, count)
}

// ---- all taken, or all but one

/// Start and period of timers that take every start together, where the new period is a multiple of each of theirs. All are needed.
type Taking = Vec<(u32, u32)>;

const ALL: [&[(u32, u32)]; 5] = [
    &[(0, 2), (0, 3), (1, 4), (5, 6), (7, 12)],
    &[(0, 2), (0, 3), (1, 4), (1, 6), (11, 12)],
    &[(0, 2), (1, 4), (3, 8), (0, 3), (1, 6), (23, 24)],
    &[(0, 2), (1, 4), (3, 8), (7, 16), (15, 32), (31, 64), (63, 128), (127, 128)],
    &[(127, 128), (63, 128), (31, 64), (15, 32), (7, 16), (3, 8), (1, 4), (0, 2)],
];

/// Nine are too many, but eight of them are not.
const NINE: &[(u32, u32)] = &[(0, 2), (1, 4), (3, 8), (7, 16), (15, 32), (31, 64), (63, 128), (127, 256), (255, 256)];

/// Of up to eight timers.
fn taking() -> impl Iterator<Item = Taking> {
    ALL.map(Vec::from).into_iter().chain((1..=8).map(rests))
}

/// Every rest of a number.
fn rests(number: u32) -> Taking {
    (0..number).map(|start| (start, number)).collect()
}

/// Such timers take the same starts: later by turns of their own; all by a shift, which shifts what they take; and with periods times
/// primes, which divide none of the new periods.
fn likewise(random: &mut Random, all: &Taking) -> [Vec<Cycle>; 3] {
    let shift = random.below(1 << 30) as u32;
    [(0, &[1][..]), (shift, &[1]), (shift, &[1, 101, 103, 107, 109])].map(|(shift, factors)| {
        let later = |&(start, period): &(u32, u32)| {
            let period = period * random.pick(factors);
            Cycle { start: shift + start + period * drawn(random, 9999), period }
        };
        all.iter().map(later).collect()
    })
}

/// The least multiples of all their periods, and the largest.
fn multiples_of_all(all: &Taking) -> impl Iterator<Item = u32> {
    let is_multiple = |new: &u32| all.iter().all(|(_, period)| new % period == 0);
    let every: Vec<u32> = (1..=LONGEST_CYCLE).filter(is_multiple).collect();
    let largest = every.last().copied();
    every.into_iter().take(5).chain(largest)
}

/// Timers that leave none.
pub fn all_taken(seed: u64) -> Vec<Case> {
    let random = &mut Random::new(seed);
    let cases = |all: Taking| likewise(random, &all).map(|timers| Case::new(timers, multiples_of_all(&all)));
    taking().flat_map(cases).collect()
}

/// Such timers without one of them: they leave one.
pub fn all_but_one_taken(seed: u64) -> Vec<Case> {
    let random = &mut Random::new(seed);
    let mut cases = Vec::new();
    for all in taking().chain([NINE.into(), rests(9)]) {
        for left_out in 0..all.len() {
            cases.extend(likewise(random, &all).map(|mut timers| {
                timers.remove(left_out);
                Case::new(timers, multiples_of_all(&all))
            }));
        }
    }
    cases
}

// ---- what is refused, and what is not yet

/// Some bits of them are those of a period that there is.
const OUTSIDE: [u32; 9] = [0, 32_769, 32_770, 65_535, 65_536, 65_537, 1 << 31, 1 << 31 | 2, u32::MAX];

/// Numbers of timers, also those that 8 or 16 bits would take for smaller ones.
const ABOVE: [usize; 11] = [9, 10, 16, 17, 256, 257, 264, 265, 65_536, 65_537, 65_544];

/// Periods within.
const WITHIN: [u32; 5] = [1, 2, 12, 32_767, 32_768];

/// Up to eight timers with equal periods within, or with all of these.
pub fn within(seed: u64) -> Vec<Case> {
    let random = &mut Random::new(seed);
    let mut cases = Vec::new();
    for timers in 0..=MOST_CYCLES {
        for periods in WITHIN.iter().map(std::slice::from_ref).chain([&WITHIN[..]]) {
            let timer = |_| Cycle { start: random.number() as u32, period: random.pick(periods) };
            cases.push(Case::new((0..timers).map(timer).collect(), WITHIN));
        }
    }
    cases
}

/// Lists that are refused, by what is wrong with them.
pub const REFUSED: [(&str, fn(u64) -> Vec<Case>); 3] =
    [("a new period outside", new_outside), ("a given period outside", given_outside), ("too many", too_many)];

/// Beside up to eight timers.
fn new_outside(seed: u64) -> Vec<Case> {
    let random = &mut Random::new(seed);
    (0..=MOST_CYCLES).map(|timers| Case::new(good(random, timers), OUTSIDE)).collect()
}

fn good(random: &mut Random, timers: usize) -> Vec<Cycle> {
    (0..timers).map(|_| Cycle { start: random.number() as u32, period: random.pick(&WITHIN) }).collect()
}

/// At each place of each length. The timers beside it leave a start, or with a period of 1 none.
fn given_outside(seed: u64) -> Vec<Case> {
    let random = &mut Random::new(seed);
    let mut cases = Vec::new();
    for (timers, period) in (1..=MOST_CYCLES).flat_map(|timers| OUTSIDE.map(|period| (timers, period))) {
        for (place, beside) in (0..timers).flat_map(|place| [1, 12].map(|beside| (place, beside))) {
            let mut list = vec![Cycle { start: 1, period: beside }; timers];
            list[place] = Cycle { start: random.number() as u32, period };
            cases.push(Case::new(list, WITHIN));
        }
    }
    cases
}

fn too_many(seed: u64) -> Vec<Case> {
    let random = &mut Random::new(seed);
    ABOVE.map(|timers| Case::new(good(random, timers), WITHIN)).into()
}
