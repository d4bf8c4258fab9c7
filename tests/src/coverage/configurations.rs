//! Configurations: each cause of a refusal by itself, and the limits that are still accepted.

use crate::configuration::{Configuration, MOST_PAIRS};
use crate::numbers::{Number, CONFIGURATION, LENGTH};

type Situation = (&'static str, fn(&[u8]) -> bool);

/// Of configurations with at least eight bytes, refused with 3 before their length is looked at.
const FIXED: [Situation; 9] = [
    ("no task", |c| c[0] == 0),
    ("127 tasks or more", |c| c[0] > 126),
    ("33 queues or more", |c| c[2] > 32),
    ("65 timer records or more", |c| c[3] > 64),
    ("65 messages or more", |c| c[4] > 64),
    ("no tick in a tock", |c| c[5] == 0),
    ("no millisecond in a tock", |c| c[6] == 0 && c[7] == 0),
    ("256 semaphores", |c| sum(c) == 256),
    ("257 semaphores or more", |c| sum(c) > 256),
];

/// Of those with the right length, refused with 3.
const REST: [Situation; 18] = [
    ("a state above 01", |c| states(c).iter().any(|&state| state > 1)),
    ("a width of 0", |c| sizes(c).any(|(width, _)| width == 0)),
    ("a width above 16", |c| sizes(c).any(|(width, _)| width > 16)),
    ("a depth of 0", |c| sizes(c).any(|(_, depth)| depth == 0)),
    ("4,097 queue bytes", |c| queue_bytes(c) == 4097),
    ("an odd state and a wrong width", |c| {
        states(c).iter().any(|&state| state > 1) && sizes(c).any(|(width, _)| width == 0 || width > 16)
    }),
    ("a first of 0", |c| only_wrong_pairs(c, |c, (first, then)| first == 0 && is_task(c, then))),
    ("a then of 0", |c| only_wrong_pairs(c, |c, (first, then)| is_task(c, first) && then == 0)),
    ("a then of T + 1", |c| only_wrong_pairs(c, |c, (first, then)| is_task(c, first) && then == c[0] + 1)),
    ("a then further above T", |c| only_wrong_pairs(c, |c, (first, then)| is_task(c, first) && then > c[0] + 1)),
    ("both above T", |c| only_wrong_pairs(c, |c, (first, then)| first > c[0] && then > first)),
    ("a pair of equal tasks", |c| only_wrong_pairs(c, |c, (first, then)| is_task(c, first) && first == then)),
    ("a pair with the first the higher", |c| {
        only_wrong_pairs(c, |c, (first, then)| is_task(c, first) && is_task(c, then) && first > then)
    }),
    ("a runnable task behind an idle first", |c| good_but_pairs(c) && pairs(c).all(|pair| is_pair(c, pair))),
    ("a runnable task behind an idle first and a runnable one", |c| {
        let behind = |then: u8, idle: bool| pairs(c).any(|(first, of)| of == then && is_idle(c, first) == idle);
        let both = |(_, then): (u8, u8)| !is_idle(c, then) && behind(then, true) && behind(then, false);
        good_but_pairs(c) && pairs(c).all(|pair| is_pair(c, pair)) && pairs(c).any(both)
    }),
    ("64 pairs, the last of them wrong", |c| {
        let wrong = pairs(c).position(|pair| !is_pair(c, pair));
        good_but_pairs(c) && pairs(c).count() == MOST_PAIRS && wrong == Some(MOST_PAIRS - 1)
    }),
    ("a wrong pair and an odd state", |c| {
        pairs(c).any(|pair| !is_pair(c, pair)) && states(c).iter().any(|&state| state > 1)
    }),
    ("a wrong pair and a wrong width", |c| {
        pairs(c).any(|pair| !is_pair(c, pair)) && sizes(c).any(|(width, _)| width == 0 || width > 16)
    }),
];

const ACCEPTED: [Situation; 28] = [
    ("one task", |c| c[0] == 1),
    ("126 tasks", |c| c[0] == 126),
    ("no queue", |c| c[2] == 0),
    ("32 queues", |c| c[2] == 32),
    ("no timer record", |c| c[3] == 0),
    ("64 timer records", |c| c[3] == 64),
    ("no message", |c| c[4] == 0),
    ("64 messages", |c| c[4] == 64),
    ("one tick a tock", |c| c[5] == 1),
    ("255 ticks a tock", |c| c[5] == 255),
    ("65,535 milliseconds a tock", |c| c[6] == 255 && c[7] == 255),
    ("no named semaphore", |c| c[1] == 0),
    ("255 semaphores", |c| sum(c) == 255),
    ("4,096 queue bytes", |c| queue_bytes(c) == 4096),
    ("all tasks idle", |c| states(c).iter().all(|&state| state == 1)),
    ("all tasks runnable", |c| states(c).iter().all(|&state| state == 0)),
    ("task 1 idle, another runnable", |c| states(c)[0] == 1 && states(c).contains(&0)),
    ("no pair", |c| pairs(c).count() == 0),
    ("one pair", |c| pairs(c).count() == 1),
    ("64 pairs", |c| pairs(c).count() == MOST_PAIRS),
    ("326 bytes", |c| c.len() == 326),
    ("a pair twice", |c| pairs(c).any(|pair| pairs(c).filter(|other| *other == pair).count() == 2)),
    ("three firsts of one task", |c| thens(c).any(|task| pairs(c).filter(|pair| pair.1 == task).count() == 3)),
    ("a chain of three tasks", |c| pairs(c).any(|(_, then)| pairs(c).any(|(first, _)| first == then))),
    ("an idle task behind an idle first", |c| pairs(c).any(|(first, then)| is_idle(c, first) && is_idle(c, then))),
    ("an idle task behind a runnable first", |c| pairs(c).any(|(first, then)| !is_idle(c, first) && is_idle(c, then))),
    ("a runnable task behind a runnable first", |c| pairs(c).any(|(_, then)| !is_idle(c, then))),
    ("a pair of the last task", |c| pairs(c).any(|(_, then)| then == c[0])),
];

const SHORTER_THAN_EIGHT: &str = "shorter than 8 bytes";
const TOO_SHORT: &str = "shorter than its length";
const ODD: &str = "one byte behind whole pairs";
const MORE_PAIRS: &str = "65 pairs";
const TOO_LONG: &str = "more than 65 pairs";
const SUM_AND_LENGTH: &str = "256 semaphores or more, and a wrong length";
const LENGTH_AND_REST: &str = "a wrong length, and a wrong state";
const LENGTH_AND_PAIR: &str = "a wrong length, and a wrong pair";

pub fn names() -> impl Iterator<Item = String> {
    refused_names().chain(ACCEPTED.iter().map(|(name, _)| accepted(name)))
}

pub fn refused_names() -> impl Iterator<Item = String> {
    let threes = FIXED.iter().chain(&REST).map(|(name, _)| refused(CONFIGURATION, name));
    let three = refused(CONFIGURATION, SUM_AND_LENGTH);
    let twos = [SHORTER_THAN_EIGHT, TOO_SHORT, ODD, MORE_PAIRS, TOO_LONG, LENGTH_AND_REST, LENGTH_AND_PAIR];
    let twos = twos.map(|name| refused(LENGTH, name));
    threes.chain([three]).chain(twos)
}

pub fn reached(frame: &[u8]) -> Vec<String> {
    let result = Configuration::read(frame).map(|_| ());
    match result {
        Ok(()) => fitting(&ACCEPTED, frame).map(accepted).collect(),
        Err(LENGTH) => lengths(frame).into_iter().map(|name| refused(LENGTH, name)).collect(),
        Err(number) => values(frame).into_iter().map(|name| refused(number, name)).collect(),
    }
}

fn lengths(frame: &[u8]) -> Vec<&'static str> {
    if frame.len() < 8 {
        return vec![SHORTER_THAN_EIGHT];
    }
    let mut reached = vec![match frame.len().checked_sub(length_without_pairs(frame)) {
        None => TOO_SHORT,
        Some(rest) if rest % 2 == 1 => ODD,
        Some(130) => MORE_PAIRS,
        Some(_) => TOO_LONG,
    }];
    if states(frame).iter().any(|&state| state > 1) {
        reached.push(LENGTH_AND_REST);
    }
    if pairs(frame).any(|pair| !is_pair(frame, pair)) {
        reached.push(LENGTH_AND_PAIR);
    }
    reached
}

fn values(frame: &[u8]) -> Vec<&'static str> {
    let fixed: Vec<&str> = fitting(&FIXED, frame).collect();
    if fixed.is_empty() {
        return fitting(&REST, frame).collect();
    }
    let rest = frame.len().checked_sub(length_without_pairs(frame));
    let both = sum(frame) > 255 && !rest.is_some_and(|rest| rest % 2 == 0 && rest <= 2 * MOST_PAIRS);
    // A cause counts only where it is the only one.
    let mut reached = if fixed.len() == 1 { fixed } else { Vec::new() };
    reached.extend(both.then_some(SUM_AND_LENGTH));
    reached
}

fn fitting(table: &'static [Situation], frame: &[u8]) -> impl Iterator<Item = &'static str> {
    let frame = frame.to_vec();
    table.iter().filter(move |(_, fits)| fits(&frame)).map(|(name, _)| *name)
}

fn refused(number: Number, name: &str) -> String {
    format!("configurations: {number}, {name}")
}

fn accepted(name: &str) -> String {
    format!("configurations: accepted, {name}")
}

pub fn sum(frame: &[u8]) -> usize {
    usize::from(frame[1]) + usize::from(frame[0]) + 2 * usize::from(frame[2])
}

fn length_without_pairs(frame: &[u8]) -> usize {
    8 + usize::from(frame[0]) + 2 * usize::from(frame[2])
}

pub fn states(frame: &[u8]) -> &[u8] {
    let end = (8 + usize::from(frame[0])).min(frame.len());
    &frame[8..end]
}

pub fn sizes(frame: &[u8]) -> impl Iterator<Item = (u8, u8)> + '_ {
    frame[8 + usize::from(frame[0])..length_without_pairs(frame)].chunks_exact(2).map(|pair| (pair[0], pair[1]))
}

fn pairs(frame: &[u8]) -> impl Iterator<Item = (u8, u8)> + '_ {
    let bytes = frame.get(length_without_pairs(frame)..).unwrap_or(&[]);
    bytes.chunks_exact(2).map(|pair| (pair[0], pair[1]))
}

fn thens(frame: &[u8]) -> impl Iterator<Item = u8> + '_ {
    (1..=frame[0]).filter(|&task| pairs(frame).any(|(_, then)| then == task))
}

fn is_task(frame: &[u8], number: u8) -> bool {
    (1..=frame[0]).contains(&number)
}

fn is_idle(frame: &[u8], task: u8) -> bool {
    states(frame)[usize::from(task) - 1] == 1
}

fn is_pair(frame: &[u8], (first, then): (u8, u8)) -> bool {
    is_task(frame, first) && is_task(frame, then) && first < then
}

/// Nothing is wrong but the pairs.
fn good_but_pairs(frame: &[u8]) -> bool {
    Configuration::read(&frame[..length_without_pairs(frame)]).is_ok()
}

/// Nothing is wrong but some pairs, and each of these is wrong in this way.
fn only_wrong_pairs(frame: &[u8], fits: fn(&[u8], (u8, u8)) -> bool) -> bool {
    let wrong: Vec<(u8, u8)> = pairs(frame).filter(|&pair| !is_pair(frame, pair)).collect();
    good_but_pairs(frame) && !wrong.is_empty() && wrong.into_iter().all(|pair| fits(frame, pair))
}

pub fn queue_bytes(frame: &[u8]) -> usize {
    sizes(frame).map(|(width, depth)| usize::from(width) * usize::from(depth)).sum()
}
