//! The configuration frame.

use crate::limits::Limits;
use crate::numbers::{require, Number, ABOVE_MODULE, CONFIGURATION, LENGTH};

const FIXED_BYTES: usize = 8;
const MOST_SEMAPHORES: usize = 255;
pub const MOST_PAIRS: usize = 64;

#[derive(Clone, Copy, Debug, PartialEq, Eq)]
pub struct QueueSize {
    /// Bytes in an entry.
    pub width: u8,
    /// Entries in the queue.
    pub depth: u8,
}

impl QueueSize {
    pub fn bytes(&self) -> usize {
        usize::from(self.width) * usize::from(self.depth)
    }
}

/// One task, and another that is not started while the first is idle.
#[derive(Clone, Copy, Debug, PartialEq, Eq)]
pub struct Pair {
    pub first: u8,
    pub then: u8,
}

#[derive(Clone, Debug, PartialEq, Eq)]
pub struct Configuration {
    pub tasks: u8,
    pub named_semaphores: u8,
    pub timers: u8,
    pub messages: u8,
    pub ticks_per_tock: u8,
    pub milliseconds_per_tock: u16,
    /// Of task 1 on: whether it starts idle.
    pub starts_idle: Vec<bool>,
    /// Of queue 1 on.
    pub queues: Vec<QueueSize>,
    pub pairs: Vec<Pair>,
}

impl Configuration {
    /// As a caller with these limits takes it. What the controller refuses is refused with its number; 27 comes last.
    pub fn read_within(limits: Limits, frame: &[u8]) -> Result<Self, Number> {
        let configuration = Configuration::read(frame)?;
        require(configuration.is_within(limits), ABOVE_MODULE)?;
        Ok(configuration)
    }

    /// As the controller takes it.
    pub fn read(frame: &[u8]) -> Result<Self, Number> {
        let (fixed, rest) = frame.split_first_chunk::<FIXED_BYTES>().ok_or(LENGTH)?;
        let [tasks, named, queues, timers, messages, ticks, high, low] = *fixed;
        let milliseconds = u16::from_be_bytes([high, low]);
        let (task_count, queue_count) = (usize::from(tasks), usize::from(queues));

        let most = Limits::CONTROLLER;
        require((1..=most.tasks).contains(&tasks), CONFIGURATION)?;
        let fit = queues <= most.queues && timers <= most.timers && messages <= most.messages;
        require(fit, CONFIGURATION)?;
        require(ticks >= 1 && milliseconds >= 1, CONFIGURATION)?;
        let semaphores = usize::from(named) + task_count + 2 * queue_count;
        require(semaphores <= MOST_SEMAPHORES, CONFIGURATION)?;
        let pair_bytes = rest.len().checked_sub(task_count + 2 * queue_count).ok_or(LENGTH)?;
        require(pair_bytes % 2 == 0 && pair_bytes <= 2 * MOST_PAIRS, LENGTH)?;

        let (states, rest) = rest.split_at(task_count);
        let (sizes, pairs) = rest.split_at(2 * queue_count);
        let starts_idle = read_states(states)?;
        Ok(Configuration {
            tasks,
            named_semaphores: named,
            timers,
            messages,
            ticks_per_tock: ticks,
            milliseconds_per_tock: milliseconds,
            queues: read_queues(sizes)?,
            pairs: read_pairs(pairs, &starts_idle)?,
            starts_idle,
        })
    }

    fn is_within(&self, limits: Limits) -> bool {
        self.tasks <= limits.tasks
            && self.queue_count() <= limits.queues
            && self.timers <= limits.timers
            && self.messages <= limits.messages
            && queue_bytes(&self.queues) <= limits.queue_bytes
    }

    pub fn queue_count(&self) -> u8 {
        self.queues.len() as u8
    }

    pub fn width(&self, queue: u8) -> usize {
        usize::from(self.queues[usize::from(queue) - 1].width)
    }

    /// Those that must not be idle when the task is started. One may come twice.
    pub fn firsts(&self, task: u8) -> impl Iterator<Item = u8> + '_ {
        self.pairs.iter().filter(move |pair| pair.then == task).map(|pair| pair.first)
    }

    /// All semaphores, also those of the queues, which no caller may name.
    pub fn semaphores(&self) -> u8 {
        self.nameable_semaphores() + 2 * self.queue_count()
    }

    pub fn nameable_semaphores(&self) -> u8 {
        self.named_semaphores + self.tasks
    }

    pub fn semaphore_of_task(&self, task: u8) -> u8 {
        self.named_semaphores + task
    }

    pub fn not_empty(&self, queue: u8) -> u8 {
        self.not_full(queue) - 1
    }

    pub fn not_full(&self, queue: u8) -> u8 {
        self.nameable_semaphores() + 2 * queue
    }
}

fn read_states(bytes: &[u8]) -> Result<Vec<bool>, Number> {
    require(bytes.iter().all(|&state| state <= 1), CONFIGURATION)?;
    Ok(bytes.iter().map(|&state| state == 1).collect())
}

fn read_queues(bytes: &[u8]) -> Result<Vec<QueueSize>, Number> {
    let sizes: Vec<QueueSize> =
        bytes.chunks_exact(2).map(|pair| QueueSize { width: pair[0], depth: pair[1] }).collect();
    let possible = |size: &QueueSize| (1..=16).contains(&size.width) && size.depth >= 1;
    require(sizes.iter().all(possible), CONFIGURATION)?;
    require(queue_bytes(&sizes) <= Limits::CONTROLLER.queue_bytes, CONFIGURATION)?;
    Ok(sizes)
}

/// The widths times depths.
fn queue_bytes(sizes: &[QueueSize]) -> usize {
    sizes.iter().map(QueueSize::bytes).sum()
}

/// Both are tasks and the first is the lower. No task starts runnable whose first starts idle.
fn read_pairs(bytes: &[u8], starts_idle: &[bool]) -> Result<Vec<Pair>, Number> {
    let pairs: Vec<Pair> = bytes.chunks_exact(2).map(|pair| Pair { first: pair[0], then: pair[1] }).collect();
    let possible = |pair: &Pair| (1..pair.then).contains(&pair.first) && usize::from(pair.then) <= starts_idle.len();
    require(pairs.iter().all(possible), CONFIGURATION)?;
    let idle = |task: u8| starts_idle[usize::from(task) - 1];
    require(pairs.iter().all(|pair| idle(pair.then) || !idle(pair.first)), CONFIGURATION)?;
    Ok(pairs)
}
