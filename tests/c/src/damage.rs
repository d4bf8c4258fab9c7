//! Damage of the lent memory, and what is to be seen of every call that meets it.

use std::collections::BTreeMap;

use plain_executive::command::*;
use plain_executive::configuration::Configuration;
use plain_executive::executive::Executive;
use plain_executive::numbers::{Number, MEMORY};
use plain_executive::random::Random;
use plain_executive::semaphore::Semaphore;
use plain_executive::tasks::Block;

use crate::decided::decided;
use crate::dropped::dropped;
use crate::lent::{
    ends, kept_length, pairs_at, parts, timer_row, Lent, Regions, COUNT, FRAME, MARKS, PART, PLANE, PLANES, TICKS,
};
use crate::rules::{self, Rule};
use crate::strange::strange;

type Frame = Vec<u8>;

/// How often each was met.
#[derive(Default)]
pub struct Counts {
    pub calls: u64,
    pub broken: BTreeMap<Rule, u64>,
    /// A rule was broken only behind the first frame: a message more filled tables that broke it.
    pub filled: u64,
    pub accepted: BTreeMap<u8, u64>,
    pub refused: BTreeMap<Number, u64>,
    pub reissues: u64,
    /// Of accepted frames.
    pub strange: BTreeMap<&'static str, u64>,
    /// Accepted signals of a semaphore that is WAITING with a task without event wait: that task is told.
    pub told_without_wait: u64,
    /// Executes that a pair decides which no configuration has: refused with 26 by it, or accepted in spite of it.
    pub decided: BTreeMap<&'static str, u64>,
    /// Accepted terminates that drop a message which no session leaves, or signal what no session has.
    pub dropped: BTreeMap<&'static str, u64>,
}

/// Feeds frames to damaged memory by a given call, and watches each.
pub struct Watch<Call> {
    pub call: Call,
    pub counts: Counts,
}

impl<Call: FnMut(&mut Lent, &[u8]) -> Number> Watch<Call> {
    pub fn new(call: Call) -> Self {
        Watch { call, counts: Counts::default() }
    }

    /// Number 11 and nothing written where a rule is broken, before the first frame or by one of them. Else the memory means a
    /// state, and each frame does to it what it does to the other implementation in that state.
    pub fn feed(&mut self, mut memory: Lent, frames: &[Frame], told: &dyn Fn() -> String) {
        let mut other = None;
        for (index, frame) in frames.iter().enumerate() {
            let told = || format!("frame {index} of {frames:02X?}; {}", told());
            if let Some(rule) = rules::broken(&memory) {
                self.counts.filled += u64::from(index > 0);
                return self.refused(rule, &mut memory, frame, &told);
            }
            let other = other.get_or_insert_with(|| {
                let configuration = rules::configuration_of(&memory).expect("a configuration");
                let items = memory.items(&configuration);
                Executive::restored(configuration, &items)
            });
            self.compare(&mut memory, other, frame, &told);
        }
    }

    fn refused(&mut self, rule: Rule, memory: &mut Lent, frame: &[u8], told: &dyn Fn() -> String) {
        let before = memory.clone();
        assert_eq!(self.frame(memory, frame), MEMORY, "{rule:?}; {}", told());
        assert!(*memory == before, "a byte was written with 11; {}", told());
        *self.counts.broken.entry(rule).or_default() += 1;
    }

    fn compare(&mut self, memory: &mut Lent, other: &mut Executive, frame: &[u8], told: &dyn Fn() -> String) {
        let before = memory.clone();
        let found = strange(&before, other.configuration());
        let without_wait = signals_without_wait(other, frame);
        let decided = decided(memory, other, frame);
        let dropped = dropped(other, frame);
        let answer = other.frame(frame);
        let number = self.frame(memory, frame);
        assert_eq!(number, answer.refusal(), "the number; {}", told());
        assert_eq!(memory.answered(), answer.bytes(), "the answer; {}", told());
        assert_eq!(memory.items(other.configuration()), other.items(), "the items; {}", told());
        assert_eq!(memory.config, before.config, "the configuration was written; {}", told());
        for ((after, before), part) in memory.blocks().iter().zip(before.blocks()).zip(parts(other.configuration())) {
            assert_eq!(after[..part.start], before[..part.start], "before a part; {}", told());
            assert_eq!(after[part.end..], before[part.end..], "behind a part; {}", told());
        }
        if let Some((name, expected)) = decided {
            assert_eq!(number, expected, "{name}; {}", told());
            *self.counts.decided.entry(name).or_default() += 1;
        }
        if number != 0 {
            *self.counts.refused.entry(number).or_default() += 1;
            let kept = Lent { answer: memory.answer.clone(), ..before };
            assert!(*memory == kept, "a refused frame wrote; {}", told());
        } else {
            *self.counts.accepted.entry(frame[0]).or_default() += 1;
            self.counts.reissues += u64::from(answer.reissues());
            self.counts.told_without_wait += u64::from(without_wait);
            found.into_iter().for_each(|name| *self.counts.strange.entry(name).or_default() += 1);
            dropped.into_iter().for_each(|name| *self.counts.dropped.entry(name).or_default() += 1);
        }
    }

    fn frame(&mut self, memory: &mut Lent, frame: &[u8]) -> Number {
        self.counts.calls += 1;
        (self.call)(memory, frame)
    }
}

/// A signal whose semaphore is WAITING with a task that has no event wait. No session comes to that.
fn signals_without_wait(executive: &Executive, frame: &[u8]) -> bool {
    let &[SIGNAL, _, named, _, _] = frame else { return false };
    let configuration = executive.configuration();
    let number = if named == 0 { configuration.semaphore_of_task(executive.running()) } else { named };
    if number > configuration.nameable_semaphores() {
        return false;
    }
    match executive.semaphore(number) {
        Semaphore::Waiting(task) => !executive.tasks().get(task).blocks().has(Block::EventWait),
        _ => false,
    }
}

/// Damages memory that frames left: a bit, some bytes, a field, messages, a whole block, a length, a mark, the pairs. `another` is
/// another session's.
pub fn damage(random: &mut Random, memory: &mut Lent, configuration: &Configuration, another: &Lent) {
    match random.below(28) {
        0..=3 => bit(random, memory, configuration),
        4..=6 => bytes(random, memory, configuration),
        7..=15 => {
            for _ in 0..1 + random.below(3) {
                field(random, memory, configuration);
            }
        }
        16 => length(random, memory),
        17 => block(random, memory),
        18 => tables_alone(random, memory),
        19 | 20 => nearly_full(random, memory, configuration),
        21 => mark(random, memory),
        22 => exchanged(random, memory, another),
        23 | 24 => letters(random, memory, configuration),
        _ => pairs(random, memory, configuration),
    }
}

/// A byte of a pair; or the kept length; or both, with pairs of any tasks and of none up to that length.
fn pairs(random: &mut Random, memory: &mut Lent, configuration: &Configuration) {
    let Configuration { tasks, .. } = *configuration;
    let (from, kept) = (pairs_at(configuration), kept_length(&memory.config));
    let least = from - FRAME;
    let longest = memory.caller.longest();
    let any = least + random.below(longest + 1 - least);
    let length = match random.below(4) {
        0 if !configuration.pairs.is_empty() => {
            memory.config[from + random.below(2 * configuration.pairs.len())] = a_value(random, configuration);
            return;
        }
        1 => random.pick(&[least - 1, least, kept - 1, kept + 1, longest, longest + 1, longest + 4]),
        _ => {
            memory.config[from..FRAME + any].iter_mut().for_each(|byte| *byte = random.between(0, tasks + 1));
            any
        }
    };
    memory.config[PART..FRAME].copy_from_slice(&(length as u16).to_be_bytes());
}

fn bit(random: &mut Random, memory: &mut Lent, configuration: &Configuration) {
    let block = random.below(4);
    let place = in_part(random, configuration, block);
    memory.blocks_mut()[block][place] ^= 1 << random.below(8);
}

fn bytes(random: &mut Random, memory: &mut Lent, configuration: &Configuration) {
    for _ in 0..1 + random.below(8) {
        let block = random.pick(&[0, 1, 1, 1, 2, 3]);
        let place = in_part(random, configuration, block);
        memory.blocks_mut()[block][place] = random.byte();
    }
}

fn in_part(random: &mut Random, configuration: &Configuration, block: usize) -> usize {
    let part = &parts(configuration)[block];
    part.start + random.below(part.len())
}

/// Bytes of a mark: one, or all up to an end of the block.
fn mark(random: &mut Random, memory: &mut Lent) {
    let block = random.below(4);
    let [first, last] = ends(memory.caller.sizes()[block]);
    let reach = random.below(4);
    let bytes = match random.below(4) {
        0 => first.start + reach..first.start + reach + 1,
        1 => last.start + reach..last.start + reach + 1,
        2 => first.start..first.start + reach + 1,
        _ => last.start + reach..last.end,
    };
    let value = random.byte();
    memory.blocks_mut()[block][bytes].iter_mut().for_each(|byte| *byte = value);
}

/// One field of one record, with a value about which something is said.
fn field(random: &mut Random, memory: &mut Lent, configuration: &Configuration) {
    let regions = Regions::of(configuration);
    let (tasks, queues) = (usize::from(configuration.tasks), configuration.queues.len());
    let value = a_value(random, configuration);
    let task = random.below(tasks);
    let lying = usize::from(memory.tables[COUNT].min(configuration.messages)).max(1);
    let place = match random.below(14) {
        0 => return memory.config[PART + random.below(10)] = value,
        1 if queues > 0 => return memory.config[FRAME + 8 + tasks + random.below(2 * queues)] = value,
        2 | 3 => return timer_field(random, memory, configuration),
        4 => TICKS,
        5 if configuration.messages > 0 => COUNT,
        6 if configuration.messages > 0 => regions.messages + 4 * random.below(lying) + random.below(4),
        7 if queues > 0 => regions.rings + random.below(2 * queues),
        8 | 9 => PLANES + PLANE * random.below(4) + task / 8,
        10 => regions.records + 6 * task,
        11 => regions.records + 6 * task + 1 + random.below(3),
        12 => return open_a_request(random, memory, regions.records + 6 * task + 4, value),
        _ => regions.semaphores + random.below(regions.waiting - regions.semaphores),
    };
    memory.tables[place] = value;
}

fn a_value(random: &mut Random, configuration: &Configuration) -> u8 {
    let Configuration { tasks, timers, messages, ticks_per_tock, .. } = *configuration;
    let queues = configuration.queue_count();
    let near = random.pick(&[tasks, timers, messages, ticks_per_tock, queues, configuration.semaphores(), 16, 255]);
    match random.below(6) {
        0 => random.byte(),
        1 => near,
        2 => near.wrapping_add(1),
        3 => random.between(0, tasks),
        _ => random.between(0, 7),
    }
}

fn open_a_request(random: &mut Random, memory: &mut Lent, place: usize, value: u8) {
    memory.tables[place] = random.between(0, 4);
    memory.tables[place + 1] = value;
}

/// The number of timers, a field of a row, or of the clock in row 0. Times are near now too.
fn timer_field(random: &mut Random, memory: &mut Lent, configuration: &Configuration) {
    if random.percent(20) {
        memory.timers[PART] = random.pick(&[configuration.timers, configuration.timers + 1, 255, 1, 0]);
        return;
    }
    let row = timer_row(random.below(1 + usize::from(configuration.timers)));
    let time = memory.of_timers(0, 2);
    let near = random.pick(&[0, 1, 2, 32_768, 1 << 31, (1 << 31) + 1, u32::MAX]);
    let four = random.pick(&[near, near, time.wrapping_add(near), time.wrapping_sub(near)]).to_le_bytes();
    match random.below(5) {
        0 => memory.timers[row] = a_value(random, configuration),
        1 => memory.timers[row + 1] = a_value(random, configuration),
        2 => memory.timers[row + 2..row + 6].copy_from_slice(&four),
        3 => memory.timers[row + 6..row + 10].copy_from_slice(&four),
        _ => memory.timers[timer_row(0) + 2 + 4 * random.below(2)..][..4].copy_from_slice(&four),
    }
}

fn length(random: &mut Random, memory: &mut Lent) {
    let block = random.below(5);
    let size = memory.caller.sizes()[block];
    let length = random.pick(&[0, 1, size / 2, size - 2, size - 1, size, size + 1, size + 2]);
    memory.blocks_mut()[block].resize(length, 0xA5);
}

fn block(random: &mut Random, memory: &mut Lent) {
    let block = random.below(4);
    let value = random.pick(&[None, Some(0), Some(1), Some(255)]);
    memory.blocks_mut()[block].iter_mut().for_each(|byte| *byte = value.unwrap_or_else(|| random.byte()));
    if random.percent(50) {
        marked(memory, block);
    }
}

/// Any tables, timers and slots at all between the marks, but no message lies.
fn tables_alone(random: &mut Random, memory: &mut Lent) {
    for block in [1, 2, 3] {
        memory.blocks_mut()[block].iter_mut().for_each(|byte| *byte = random.byte());
        marked(memory, block);
    }
    memory.tables[COUNT] = 0;
}

fn marked(memory: &mut Lent, block: usize) {
    for end in ends(memory.caller.sizes()[block]) {
        memory.blocks_mut()[block][end].copy_from_slice(&MARKS[block]);
    }
}

/// All messages lie, or all but one, and a byte of one of them has a value of its own.
fn nearly_full(random: &mut Random, memory: &mut Lent, configuration: &Configuration) {
    let Configuration { tasks, messages, .. } = *configuration;
    if messages == 0 {
        return;
    }
    let first = Regions::of(configuration).messages;
    for (record, number) in memory.tables[first..].chunks_exact_mut(4).zip(1..=messages) {
        let semaphore = a_semaphore(random, configuration);
        record.copy_from_slice(&[random.between(1, tasks), number, random.between(1, tasks), semaphore]);
    }
    memory.tables[COUNT] = messages - random.between(0, 1);
    memory.tables[first + 4 * random.below(messages.into()) + random.below(2)] = a_value(random, configuration);
}

/// Some messages lie, most of them for one task, with any semaphores, of which some are in any state.
fn letters(random: &mut Random, memory: &mut Lent, configuration: &Configuration) {
    let Configuration { tasks, messages, .. } = *configuration;
    let regions = Regions::of(configuration);
    let [to, waiter] = [(); 2].map(|()| random.between(1, tasks));
    let mut states = Vec::new();
    for (record, number) in memory.tables[regions.messages..].chunks_exact_mut(4).zip(1..=messages) {
        let other = random.between(1, tasks);
        let semaphore = a_semaphore(random, configuration);
        record.copy_from_slice(&[if random.percent(70) { to } else { other }, number, other, semaphore]);
        if (1..=configuration.semaphores()).contains(&semaphore) && random.percent(60) {
            states.push((semaphore, random.pick(&[0, 255, to, waiter, waiter, other])));
        }
    }
    for (semaphore, state) in states {
        memory.tables[regions.semaphores + usize::from(semaphore) - 1] = state;
    }
    memory.tables[COUNT] = random.between(0, messages);
}

/// Of a message: one that there is, also a queue's, or 0, or one above them all.
fn a_semaphore(random: &mut Random, configuration: &Configuration) -> u8 {
    let most = configuration.semaphores();
    match random.below(8) {
        0 => 0,
        1 => random.between(most.saturating_add(1), 255),
        2 | 3 => random.between(configuration.nameable_semaphores().saturating_add(1).min(most), most),
        _ => random.between(1, most),
    }
}

fn exchanged(random: &mut Random, memory: &mut Lent, another: &Lent) {
    let block = random.below(4);
    let size = memory.caller.sizes()[block];
    memory.blocks_mut()[block][..size].copy_from_slice(&another.blocks()[block][..size]);
}

/// Frames for damaged memory: those that would have come next, ticks, and services that its configuration gives a meaning.
pub fn frames(random: &mut Random, memory: &Lent, next: &[Frame]) -> Vec<Frame> {
    let configuration = rules::configuration_of(memory);
    let mut next = next.iter();
    let count = 1 + random.below(4);
    let mut one = || match (&configuration, random.below(10)) {
        (Some(configuration), 0) => terminate(random, memory, configuration),
        (Some(configuration), 1..=4) => service(random, configuration),
        (_, 5 | 6) => vec![TICK, 0, 0, 0, 0],
        _ => next.next().cloned().unwrap_or_else(|| random.bytes(5)),
    };
    (0..count).map(|_| one()).collect()
}

/// Of a task for which a message lies, if one does, else of the running one.
fn terminate(random: &mut Random, memory: &Lent, configuration: &Configuration) -> Frame {
    let lying = memory.tables.get(COUNT).map_or(0, |&count| count.min(configuration.messages));
    let records = memory.tables.get(Regions::of(configuration).messages..).unwrap_or(&[]).chunks_exact(4);
    let receivers: Vec<u8> = records.take(lying.into()).map(|record| record[0]).collect();
    let task = random.pick_if(&receivers).map_or(0, |task| if task <= configuration.tasks { task } else { 1 });
    vec![TERMINATE, task, 0, 0, 0]
}

fn service(random: &mut Random, configuration: &Configuration) -> Frame {
    let pair = random.pick_if(&configuration.pairs).filter(|_| random.percent(40));
    if let Some(pair) = pair {
        return vec![EXECUTE, pair.then, 0, 0, 0];
    }
    let code = random.between(WAIT, SEASON_TIMER);
    let queue = random.between(1, configuration.queue_count().max(1));
    let a = if matches!(code, DEQUEUE | ENQUEUE) { queue } else { random.between(0, configuration.tasks) };
    let b = random.between(0, configuration.nameable_semaphores());
    let high = if matches!(code, DELAY | TIMER) { random.pick(&[0, 0, 255]) } else { 0 };
    let low = match code {
        SEND | SENDW => random.between(0, configuration.messages),
        _ => random.pick(&[0, 1, 2, 255]),
    };
    let mut frame = vec![code, a, b, high, low];
    match code {
        ENQUEUE => {
            let width = configuration.queues.get(usize::from(queue) - 1).map_or(1, |size| size.width);
            frame.extend(random.bytes(width.into()));
        }
        SEASON_TIMER => {
            let tocks: i32 = random.pick(&[0, 1, 2, -1, -2, i32::MAX, i32::MIN]);
            frame.splice(3.., tocks.to_be_bytes());
        }
        _ => {}
    }
    frame
}
