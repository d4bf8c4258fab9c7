//! Random configurations that the controller accepts, but no caller with smaller limits.

use super::configurations::{too_full, within, Draft};
use crate::limits::Limits;
use crate::random::Random;

/// Above these limits: one of them or, rarely, some.
pub fn above(random: &mut Random, limits: Limits) -> Vec<u8> {
    let mut draft = within(random, limits, 1..=limits.tasks);
    let causes = if random.percent(25) { random.between(2, 12) } else { 1 };
    for _ in 0..causes {
        exceed(random, limits, &mut draft);
    }
    draft.named = draft.named.min(draft.most_named());
    draft.bytes()
}

/// What it takes of queue bytes leaves room for as many queues as there may be.
fn exceed(random: &mut Random, limits: Limits, draft: &mut Draft) {
    let most = Limits::CONTROLLER;
    match random.below(5) {
        0 => {
            draft.tasks = more(random, limits.tasks, most.tasks);
            draft.states.resize(draft.tasks.into(), random.between(0, 1));
        }
        1 => draft.queues.resize(more(random, limits.queues, most.queues).into(), (1, 1)),
        2 => draft.timers = more(random, limits.timers, most.timers),
        3 => draft.messages = more(random, limits.messages, most.messages),
        _ if random.percent(50) => draft.queues = too_full(limits),
        _ => draft.queues = vec![(random.between(2, 15), 255)],
    }
}

/// One more than the first, or anything above it up to the second.
fn more(random: &mut Random, than: u8, most: u8) -> u8 {
    if random.percent(50) {
        than + 1
    } else {
        random.between(than + 1, most)
    }
}
