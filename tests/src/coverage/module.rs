//! Configurations on the brake module: each of its limits met and passed, and every other number before 27.

use super::configurations::{queue_bytes, sizes, states, sum};
use crate::configuration::Configuration;
use crate::limits::Limits;
use crate::numbers::{ABOVE_MODULE, CONFIGURATION, LENGTH};

/// What a configuration has of something that there is a limit of.
struct Limit {
    name: &'static str,
    has: fn(&[u8]) -> usize,
    most: usize,
}

/// All but the last are told by the first eight bytes.
const LIMITS: [Limit; 5] = [
    Limit { name: "tasks", has: |c| c[0].into(), most: 16 },
    Limit { name: "queues", has: |c| c[2].into(), most: 8 },
    Limit { name: "timer records", has: |c| c[3].into(), most: 8 },
    Limit { name: "messages", has: |c| c[4].into(), most: 8 },
    Limit { name: "queue bytes", has: queue_bytes, most: 256 },
];

impl Limit {
    fn is_met(&self, frame: &[u8]) -> bool {
        (self.has)(frame) == self.most
    }

    fn is_passed(&self, frame: &[u8]) -> bool {
        (self.has)(frame) > self.most
    }

    fn met(&self) -> String {
        format!("accepted, {} {}", self.most, self.name)
    }

    fn passed_by_one(&self) -> String {
        format!("27, {} {} alone", self.most + 1, self.name)
    }

    fn passed_by_more(&self) -> String {
        format!("27, more {} alone", self.name)
    }
}

const ALL_MET: &str = "accepted, all limits met and 64 pairs";
const MOST_SEMAPHORES: &str = "accepted, 255 semaphores";
const ALL_PASSED: &str = "27, all limits passed";
const SHORTER_THAN_EIGHT: &str = "2, shorter than 8 bytes";
const LENGTH_FIRST: &str = "2, and a limit passed";
const WRONG_FIRST_EIGHT: &str = "3, one of the first eight bytes, and a limit passed";
const WRONG_STATE: &str = "3, a state, and a limit passed";
const WRONG_SIZE: &str = "3, a width or a depth, and a limit passed";
const WRONG_PAIR: &str = "3, a pair, and a limit passed";

pub fn names() -> impl Iterator<Item = String> {
    let limits = LIMITS.iter().flat_map(|limit| [limit.met(), limit.passed_by_one(), limit.passed_by_more()]);
    let others = [
        ALL_MET,
        MOST_SEMAPHORES,
        ALL_PASSED,
        SHORTER_THAN_EIGHT,
        LENGTH_FIRST,
        WRONG_FIRST_EIGHT,
        WRONG_STATE,
        WRONG_SIZE,
        WRONG_PAIR,
    ];
    limits.chain(others.map(String::from)).map(titled)
}

pub fn reached(frame: &[u8]) -> Vec<String> {
    let reached = match Configuration::read_within(Limits::MODULE, frame).map(|_| ()) {
        Ok(()) => accepted(frame),
        Err(ABOVE_MODULE) => above(frame),
        Err(_) if frame.len() < 8 => vec![SHORTER_THAN_EIGHT.into()],
        Err(LENGTH) if passes_early(frame) => vec![LENGTH_FIRST.into()],
        Err(CONFIGURATION) if passes_early(frame) => vec![wrong(frame).into()],
        Err(_) => Vec::new(),
    };
    reached.into_iter().map(titled).collect()
}

fn accepted(frame: &[u8]) -> Vec<String> {
    let met: Vec<String> = LIMITS.iter().filter(|limit| limit.is_met(frame)).map(Limit::met).collect();
    let all = (met.len() == LIMITS.len() && frame.len() == 168).then(|| ALL_MET.into());
    let semaphores = (sum(frame) == 255).then(|| MOST_SEMAPHORES.into());
    met.into_iter().chain(all).chain(semaphores).collect()
}

fn above(frame: &[u8]) -> Vec<String> {
    let passed: Vec<&Limit> = LIMITS.iter().filter(|limit| limit.is_passed(frame)).collect();
    match passed[..] {
        [limit] if (limit.has)(frame) == limit.most + 1 => vec![limit.passed_by_one()],
        [limit] => vec![limit.passed_by_more()],
        _ if passed.len() == LIMITS.len() => vec![ALL_PASSED.into()],
        _ => Vec::new(),
    }
}

/// By the first eight bytes.
fn passes_early(frame: &[u8]) -> bool {
    LIMITS[..4].iter().any(|limit| limit.is_passed(frame))
}

/// What 3 is given for.
fn wrong(frame: &[u8]) -> &'static str {
    let good_sizes = || sizes(frame).all(|(width, depth)| (1..=16).contains(&width) && depth > 0);
    if Configuration::read(&frame[..8]) == Err(CONFIGURATION) {
        WRONG_FIRST_EIGHT
    } else if states(frame).iter().any(|&state| state > 1) {
        WRONG_STATE
    } else if !good_sizes() || queue_bytes(frame) > Limits::CONTROLLER.queue_bytes {
        WRONG_SIZE
    } else {
        WRONG_PAIR
    }
}

fn titled(name: String) -> String {
    format!("module: {name}")
}
