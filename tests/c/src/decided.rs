//! Executes that are decided by a pair which no configuration has.

use plain_executive::command::EXECUTE;
use plain_executive::configuration::MOST_PAIRS;
use plain_executive::executive::Executive;
use plain_executive::numbers::{Number, BEFORE_FIRST};

use crate::lent::{Lent, PLANES};

/// By which one, and with which number it is answered: by the bytes of the pairs and the idle plane alone. The executive has the state
/// before the frame.
pub fn decided(memory: &Lent, executive: &Executive, frame: &[u8]) -> Option<(&'static str, Number)> {
    let &[EXECUTE, task, _, _, _] = frame else { return None };
    let tasks = 1..=executive.configuration().tasks;
    if executive.running() == 0 || task == executive.running() || !tasks.contains(&task) {
        return None;
    }
    let is_idle = |first: u8| tasks.contains(&first) && idle_bit(memory, first);
    let pairs = memory.pair_bytes(executive.configuration()).chunks_exact(2);
    let behind = pairs.remainder().first();
    let firsts: Vec<(usize, u8)> =
        pairs.enumerate().filter(|(_, pair)| pair[1] == task).map(|(place, pair)| (place, pair[0])).collect();
    let refusing: Vec<(usize, u8)> = firsts.iter().copied().filter(|&(_, first)| is_idle(first)).collect();
    match refusing[..] {
        [] if behind.is_some_and(|&first| is_idle(first)) => Some(("a last byte that is no pair", 0)),
        [] if firsts.iter().any(|(_, first)| !tasks.contains(first)) => Some(("a first that there is not", 0)),
        [(place, _), ..] if place >= MOST_PAIRS => Some(("a pair behind 64", BEFORE_FIRST)),
        [(_, first)] if first == task => Some(("its own first", BEFORE_FIRST)),
        [(_, first)] if first > task => Some(("a first that is the higher", BEFORE_FIRST)),
        _ => None,
    }
}

fn idle_bit(memory: &Lent, task: u8) -> bool {
    let index = usize::from(task) - 1;
    memory.tables[PLANES + index / 8] >> (index % 8) & 1 == 1
}
