//! Lists of records of every kind, each with the w that it is asked for.

use plain_executive::random::Random;
use plain_executive::stretch::MOST_RECORDS;

use super::{Case, Record};

/// Up to this length every w is asked for.
pub const SHORT: usize = 40;

/// Far above any length, and some bits of them are those of a w that there is.
const FAR: [usize; 3] = [1 << 16 | 1, 1 << 32 | 1, usize::MAX];

/// Also those that 16 bits would take for shorter ones.
const ABOVE: [usize; 8] = [4097, 4098, 5000, 8191, 8192, 65_536, 65_537, 69_632];

pub fn every_w() -> impl Iterator<Item = usize> {
    (0..=SHORT + 2).chain(FAR)
}

pub fn edges(n: usize) -> impl Iterator<Item = usize> {
    [0, 1, 2, n - 1, n, n + 1].into_iter().chain(FAR)
}

/// Records with these reissues, and anything beside them.
pub fn records(random: &mut Random, reissues: &[u16]) -> Vec<Record> {
    let record = |&reissues: &u16| {
        let tocks = random.number() as u32;
        Record { tocks, running: random.byte(), padding: random.byte(), reissues }
    };
    reissues.iter().map(record).collect()
}

/// The reissues of a list of so many records.
type Contents = (&'static str, fn(usize, &mut Random) -> Vec<u16>);

pub const CONTENTS: [Contents; 9] = [
    ("0 or 1", |n, random| drawn(n, || random.below(2))),
    ("0 to 3", |n, random| drawn(n, || random.below(4))),
    ("any of 16 bits", any),
    ("seldom any", |n, random| drawn(n, || if random.percent(5) { random.below(4) } else { 0 })),
    ("all equal", |n, random| vec![1 + random.below(65_534) as u16; n]),
    ("all 0", |n, _| vec![0; n]),
    ("all 65,535", |n, _| vec![u16::MAX; n]),
    ("rising", |n, random| slope(n, random)),
    ("falling", |n, random| slope(n, random).into_iter().rev().collect()),
];

fn drawn(n: usize, mut draw: impl FnMut() -> usize) -> Vec<u16> {
    (0..n).map(|_| draw() as u16).collect()
}

pub fn any(n: usize, random: &mut Random) -> Vec<u16> {
    drawn(n, || random.below(1 << 16))
}

/// Each is more than the one before it, by as much.
fn slope(n: usize, random: &mut Random) -> Vec<u16> {
    let step = 1 + random.below(65_535 / n.max(1));
    let first = random.below(65_536 - step * n.saturating_sub(1));
    (0..n).map(|place| (first + step * place) as u16).collect()
}

/// One is above all others, which are equal: a list for each place.
fn single(n: usize, random: &mut Random) -> Vec<Vec<u16>> {
    let [low, more] = [random.below(3), 1 + random.below(65_533)].map(|reissues| reissues as u16);
    let list = |high: usize| (0..n).map(|place| if place == high { low + more } else { low }).collect();
    (0..n).map(list).collect()
}

/// Every length up to 40 with every w: three of each kind, and those with a single one above the others.
pub fn short(seed: u64) -> Vec<Case> {
    let random = &mut Random::new(seed);
    let mut cases = Vec::new();
    for n in 0..=SHORT {
        let kinds = CONTENTS.iter().flat_map(|kind| [kind; 3]);
        let mut lists: Vec<Vec<u16>> = kinds.map(|(_, contents)| contents(n, random)).collect();
        lists.extend(single(n, random));
        cases.extend(lists.iter().map(|list| Case::new(format!("{list:?}"), records(random, list), every_w())));
    }
    cases
}

/// Some of up to 4,096 records, each tenth with so many: w at the edges, a small one and any.
pub fn long(seed: u64, count: usize) -> Vec<Case> {
    let random = &mut Random::new(seed);
    let case = |turn: usize| {
        let n = if turn % 10 == 0 { MOST_RECORDS } else { SHORT + 1 + random.below(MOST_RECORDS - SHORT) };
        let (name, contents) = CONTENTS[turn % CONTENTS.len()];
        let widths: Vec<usize> = edges(n).chain([3 + random.below(37), 1 + random.below(n)]).collect();
        let reissues = contents(n, random);
        Case::new(format!("list {turn}: {n} records, {name}"), records(random, &reissues), widths)
    };
    (0..count).map(case).collect()
}

/// Some at the limit, and behind them those above it.
pub fn at_the_limit(seed: u64) -> [Vec<Case>; 2] {
    let random = &mut Random::new(seed);
    let mut case = |n: usize| {
        let widths = edges(n).chain([4095, 4096, 4097, n % MOST_RECORDS]);
        let reissues = any(n, random);
        Case::new(format!("{n} records"), records(random, &reissues), widths)
    };
    [[4095, 4096].map(&mut case).into(), ABOVE.map(&mut case).into()]
}
