//! The pairs of random configurations, first and then.

use crate::configuration::MOST_PAIRS;
use crate::random::Random;

type Pair = (u8, u8);

/// Half of the time none. Few pairs or the most, a chain, all firsts of one task, all tasks behind one first; some twice.
pub fn accepted(random: &mut Random, states: &[u8], most: bool) -> Vec<Pair> {
    let good = good(states);
    let Some((first, then)) = random.pick_if(&good) else {
        return Vec::new();
    };
    let that = |fits: &dyn Fn(&Pair) -> bool| good.iter().copied().filter(fits).collect();
    let few = 1 + random.below(6);
    let mut pairs: Vec<Pair> = match random.below(12) {
        _ if most => some(random, &good, MOST_PAIRS),
        0 => some(random, &good, MOST_PAIRS),
        1 | 2 => some(random, &good, few),
        3 => that(&|pair| pair.0 + 1 == pair.1),
        4 => that(&|pair| pair.1 == then),
        5 => that(&|pair| pair.0 == first),
        _ => return Vec::new(),
    };
    if random.percent(50) {
        pairs.reverse();
    }
    if random.percent(20) {
        pairs.extend(random.pick_if(&pairs));
    }
    pairs.truncate(MOST_PAIRS);
    pairs
}

/// All that these initial states allow.
fn good(states: &[u8]) -> Vec<Pair> {
    let idle = |task: u8| states[usize::from(task) - 1] == 1;
    let all = (1..=states.len() as u8).flat_map(|then| (1..then).map(move |first| (first, then)));
    all.filter(|&(first, then)| idle(then) || !idle(first)).collect()
}

fn some(random: &mut Random, pairs: &[Pair], count: usize) -> Vec<Pair> {
    (0..count).map(|_| random.pick(pairs)).collect()
}

/// Puts one among them that is refused, at any place, often the last.
pub fn spoil(random: &mut Random, states: &mut [u8], pairs: &mut Vec<Pair>) {
    let wrong = wrong(random, states);
    let place = if random.percent(30) { pairs.len() } else { random.below(pairs.len() + 1) };
    pairs.insert(place, wrong);
    if pairs.len() > MOST_PAIRS {
        pairs.remove(if place == 0 { MOST_PAIRS } else { 0 });
    }
}

fn wrong(random: &mut Random, states: &mut [u8]) -> Pair {
    let tasks = states.len() as u8;
    let lower = random.between(1, tasks - 1);
    let higher = random.between(lower + 1, tasks);
    let above = random.between(tasks + 1, 254);
    match random.below(8) {
        0 => (0, higher),
        1 => (lower, 0),
        2 => (lower, tasks + 1),
        3 => (lower, above),
        4 => (above, above + 1),
        5 => (lower, lower),
        6 => (higher, lower),
        _ => {
            states[usize::from(lower) - 1] = 1;
            states[usize::from(higher) - 1] = 0;
            (lower, higher)
        }
    }
}
