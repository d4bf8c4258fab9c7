//! Random configurations, accepted and refused.

use std::ops::RangeInclusive;

use super::pairs;
use crate::configuration::{Configuration, MOST_PAIRS};
use crate::limits::Limits;
use crate::random::Random;

#[derive(Clone)]
pub struct Draft {
    pub tasks: u8,
    pub named: u8,
    pub queues: Vec<(u8, u8)>,
    pub timers: u8,
    pub messages: u8,
    pub ticks: u8,
    pub milliseconds: u16,
    pub states: Vec<u8>,
    pub pairs: Vec<(u8, u8)>,
}

impl Draft {
    pub fn bytes(&self) -> Vec<u8> {
        let queues = self.queues.len() as u8;
        let mut bytes = vec![self.tasks, self.named, queues, self.timers, self.messages, self.ticks];
        bytes.extend(self.milliseconds.to_be_bytes());
        bytes.extend(&self.states);
        bytes.extend(self.queues.iter().chain(&self.pairs).flat_map(|&(one, other)| [one, other]));
        bytes
    }

    pub fn most_named(&self) -> u8 {
        255 - self.tasks - 2 * self.queues.len() as u8
    }
}

/// Accepted within the limits, with so many tasks as far as they go.
pub fn within(random: &mut Random, limits: Limits, tasks: RangeInclusive<u8>) -> Draft {
    let [least, most] = [tasks.start(), tasks.end()].map(|&tasks| tasks.min(limits.tasks));
    let tasks = random.between(least, most);
    let queues = queues(random, limits);
    draft(random, limits, tasks, queues)
}

fn draft(random: &mut Random, limits: Limits, tasks: u8, queues: Vec<(u8, u8)>) -> Draft {
    let mut draft = Draft {
        tasks,
        named: 0,
        queues,
        timers: rarely(random, limits.timers, &[0, 1, 2, 3, 4, 6, 8]),
        messages: rarely(random, limits.messages, &[0, 1, 2, 3, 4, 8, 16]),
        ticks: rarely(random, 255, &[1, 1, 1, 2, 3]),
        milliseconds: random.pick(&[1, 10, 125, 65_535]),
        states: states(random, tasks),
        pairs: Vec::new(),
    };
    draft.named = if random.percent(5) { draft.most_named() } else { random.between(0, 5) };
    let mut aside = random.aside();
    let most = draft.queues.len() == usize::from(limits.queues) && aside.percent(50);
    draft.pairs = pairs::accepted(&mut aside, &draft.states, most);
    draft
}

fn rarely(random: &mut Random, most: u8, usual: &[u8]) -> u8 {
    if random.percent(6) {
        most
    } else {
        random.pick(usual).min(most)
    }
}

fn states(random: &mut Random, tasks: u8) -> Vec<u8> {
    let idle = if random.percent(2) { 100 } else { random.pick(&[0, 0, 0, 0, 10, 10, 30, 50]) };
    let low_idle = if random.percent(10) { tasks - random.between(1, tasks.min(4)) } else { 0 };
    (0..tasks).map(|place| u8::from(place < low_idle || random.percent(idle))).collect()
}

fn queues(random: &mut Random, limits: Limits) -> Vec<(u8, u8)> {
    match random.below(30) {
        0 => vec![nearly_full(limits), (16, 1)],
        1 => sizes(random, limits, limits.queues),
        2 => Vec::new(),
        _ => {
            let count = random.between(0, 4);
            sizes(random, limits, count)
        }
    }
}

/// A queue that leaves 16 bytes of those that all may have.
fn nearly_full(limits: Limits) -> (u8, u8) {
    (16, (limits.queue_bytes / 16 - 1) as u8)
}

/// A byte more than all may have.
pub fn too_full(limits: Limits) -> Vec<(u8, u8)> {
    vec![nearly_full(limits), (1, 17)]
}

fn sizes(random: &mut Random, limits: Limits, count: u8) -> Vec<(u8, u8)> {
    let share = limits.queue_bytes / usize::from(count.max(1));
    (0..count).map(|_| size(random, share)).collect()
}

fn size(random: &mut Random, most_bytes: usize) -> (u8, u8) {
    let (width, depth) = (random.pick(&[1, 1, 2, 3, 5, 16]), random.pick(&[1, 1, 1, 2, 3, 5]));
    (width, depth.min((most_bytes / usize::from(width)).min(255) as u8))
}

/// All that these limits allow: it needs every byte of the memory that is lent.
pub fn largest(limits: Limits) -> Vec<u8> {
    let Limits { tasks, queues, timers, messages, queue_bytes } = limits;
    let half = tasks / 2;
    let depth = queue_bytes / 16 / usize::from(queues);
    let mut draft = Draft {
        tasks,
        named: 0,
        queues: vec![(16, depth as u8); queues.into()],
        timers,
        messages,
        ticks: 2,
        milliseconds: 125,
        states: vec![0; tasks.into()],
        pairs: (1..=half).cycle().map(|first| (first, first + half)).take(MOST_PAIRS).collect(),
    };
    draft.named = draft.most_named();
    draft.bytes()
}

/// With one fault or, rarely, with two.
pub fn refused(random: &mut Random) -> Vec<u8> {
    loop {
        let mut draft = draft(random, Limits::CONTROLLER, 5, vec![(1, 2), (3, 1)]);
        let faults = if random.percent(25) { 2 } else { 1 };
        for _ in 0..faults {
            spoil(random, &mut draft);
        }
        let mut bytes = draft.bytes();
        match random.below(16) {
            0 | 1 => bytes.truncate(random.below(bytes.len())),
            2 => bytes.extend(vec![0; 1 + random.below(3)]),
            3 => bytes.extend(vec![1; 2 * MOST_PAIRS - 2 + random.below(8)]),
            4 => bytes.extend([1, 2].repeat(MOST_PAIRS + random.below(2))),
            5 => return random.bytes(8),
            _ => {}
        }
        if Configuration::read(&bytes).is_err() {
            return bytes;
        }
    }
}

fn spoil(random: &mut Random, draft: &mut Draft) {
    match random.below(20) {
        0 => draft.tasks = 0,
        1 => draft.tasks = random.between(127, 255),
        2 => draft.queues = vec![(1, 1); usize::from(random.between(33, 60))],
        3 => draft.timers = random.between(65, 255),
        4 => draft.messages = random.between(65, 255),
        5 => draft.ticks = 0,
        6 => draft.milliseconds = 0,
        7 => draft.named = random.pick(&[draft.most_named().saturating_add(1), 255]),
        8 => spoil_state(random, draft),
        9 => draft.queues[0].0 = 0,
        10 => draft.queues[0].0 = random.between(17, 255),
        11 => draft.queues[0].1 = 0,
        12 => draft.queues = too_full(Limits::CONTROLLER),
        _ => pairs::spoil(random, &mut draft.states, &mut draft.pairs),
    }
}

fn spoil_state(random: &mut Random, draft: &mut Draft) {
    let place = random.below(draft.states.len());
    draft.states[place] = random.between(2, 255);
}
