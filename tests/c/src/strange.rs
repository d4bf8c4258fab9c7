//! What a memory holds that no session leaves: bytes that the program never writes, by docs/MEMORY.md, and states that it
//! never reaches.

use std::ops::RangeInclusive;
use std::slice::ChunksExact;

use plain_executive::configuration::{Configuration, QueueSize, MOST_PAIRS};
use plain_executive::items::{Items, RequestItem};
use plain_executive::semaphore::Semaphore;
use plain_executive::tasks::Block;

use crate::lent::{Lent, Regions, COUNT, PART, PLANE, PLANES, TICKS};

type Situation = (&'static str, fn(&Seen) -> bool);

/// The most tocks that a timer can be started with.
const LONGEST: u32 = 1 << 31;

pub const STRANGE: [Situation; 37] = [
    ("ticks left: 0", |seen| seen.lent.tables[TICKS] == 0),
    ("ticks left: above K", |seen| seen.lent.tables[TICKS] > seen.configuration.ticks_per_tock),
    ("messages: above G", |seen| seen.lent.tables[COUNT] > seen.configuration.messages),
    ("planes: a bit of no task", |seen| {
        let tasks = usize::from(seen.configuration.tasks);
        let bits = |plane: &[u8]| (tasks..8 * PLANE).any(|bit| plane[bit / 8] >> (bit % 8) & 1 == 1);
        seen.lent.tables[PLANES..seen.regions.records].chunks_exact(PLANE).any(bits)
    }),
    ("outcome: above 6", |seen| seen.records().any(|record| record[0] > 6)),
    ("outcome: an entry above 16", |seen| seen.records().any(|record| record[0] == 3 && record[1] > 16)),
    ("request: above 3", |seen| seen.records().any(|record| record[4] > 3)),
    ("request: a queue that there is not", |seen| seen.records().any(|record| seen.names_no_queue(record))),
    ("semaphore: above T", |seen| {
        let mut semaphores = seen.lent.tables[seen.regions.semaphores..seen.regions.waiting].iter();
        semaphores.any(|byte| (seen.configuration.tasks + 1..255).contains(byte))
    }),
    ("ring: a place from the depth on", |seen| seen.rings().any(|(ring, size)| ring[0] >= size.depth)),
    ("ring: a number above the depth", |seen| seen.rings().any(|(ring, size)| ring[1] > size.depth)),
    ("timers: above R", |seen| seen.lent.timers[PART] > seen.configuration.timers),
    ("timer: 0 tocks left", |seen| seen.items.timers.iter().any(|timer| timer.tocks_left == 0)),
    ("timer: above 2,147,483,648 tocks left", |seen| {
        seen.items.timers.iter().any(|timer| timer.tocks_left > u64::from(LONGEST))
    }),
    ("timer: a period above 2,147,483,648", |seen| seen.items.timers.iter().any(|timer| timer.period > LONGEST)),
    ("timer: a semaphore that there is not", |seen| {
        let numbers = 1..=seen.configuration.semaphores();
        seen.items.timers.iter().any(|timer| !numbers.contains(&timer.semaphore))
    }),
    ("timer: a task that there is not", |seen| seen.items.timers.iter().any(|timer| !seen.is_task(timer.task))),
    ("timers: a row due later than one behind it", |seen| {
        !seen.rows().is_sorted_by_key(|row| seen.lent.of_timers(row, 2))
    }),
    ("timers: a row due before the floor", |seen| {
        seen.rows().any(|row| seen.lent.of_timers(row, 2) < seen.lent.of_timers(0, 6))
    }),
    ("timers: a time that no session here is long enough for", |seen| seen.lent.of_timers(0, 2) > u32::MAX - LONGEST),
    ("timers: a time at which 32,768 tocks more don't fit", |seen| seen.lent.of_timers(0, 2) > u32::MAX - 32_768),
    ("message: for a task that there is not", |seen| seen.lying().any(|record| !seen.is_task(record[0]))),
    ("message: a number that there is not", |seen| {
        seen.lying().any(|record| !(1..=seen.configuration.messages).contains(&record[1]))
    }),
    ("message: a semaphore that there is not", |seen| {
        let numbers = 1..=seen.configuration.semaphores();
        seen.lying().any(|record| !numbers.contains(&record[3]))
    }),
    ("message: a queue's semaphore", |seen| {
        let named = seen.configuration.nameable_semaphores();
        seen.lying().any(|record| named < record[3] && record[3] <= seen.configuration.semaphores())
    }),
    ("message: twice", |seen| {
        let numbers: Vec<u8> = seen.lying().map(|record| record[1]).collect();
        numbers.iter().enumerate().any(|(place, number)| numbers[..place].contains(number))
    }),
    ("mailbox: not by senders", |seen| {
        seen.items.mailboxes.iter().any(|mailbox| !mailbox.is_sorted_by_key(|letter| letter.sender))
    }),
    ("task: WAITING at two semaphores", |seen| seen.waits().any(|(at, _)| at > 1)),
    ("task: WAITING at one without event wait", |seen| seen.waits().any(|(at, event_wait)| at > 0 && !event_wait)),
    ("task: event wait without one", |seen| seen.waits().any(|(at, event_wait)| at == 0 && event_wait)),
    ("queue: a semaphore that is DONE", |seen| {
        let named = usize::from(seen.configuration.nameable_semaphores());
        seen.items.semaphores[named..].contains(&Semaphore::Done)
    }),
    ("pairs: a byte behind the last", |seen| !seen.pairs().remainder().is_empty()),
    ("pairs: above 64", |seen| seen.pairs().len() > MOST_PAIRS),
    ("pair: a first that there is not", |seen| seen.pairs().any(|pair| !seen.is_task(pair[0]))),
    ("pair: a then that there is not", |seen| seen.pairs().any(|pair| !seen.is_task(pair[1]))),
    ("pair: a first that is not the lower", |seen| {
        seen.pairs().any(|pair| pair[0] >= pair[1] && seen.is_task(pair[0]) && seen.is_task(pair[1]))
    }),
    ("running task: an open request", |seen| {
        let running = seen.items.tasks.iter().find(|task| task.blocks.is_empty());
        running.is_some_and(|task| task.request != RequestItem::None)
    }),
];

/// Their names, of memory that keeps the rules of number 11.
pub fn strange(lent: &Lent, configuration: &Configuration) -> Vec<&'static str> {
    let seen = Seen { lent, configuration, regions: Regions::of(configuration), items: lent.items(configuration) };
    STRANGE.iter().filter(|(_, is_so)| is_so(&seen)).map(|(name, _)| *name).collect()
}

pub struct Seen<'a> {
    lent: &'a Lent,
    configuration: &'a Configuration,
    regions: Regions,
    items: Items,
}

impl Seen<'_> {
    fn pairs(&self) -> ChunksExact<'_, u8> {
        self.lent.pair_bytes(self.configuration).chunks_exact(2)
    }

    fn records(&self) -> ChunksExact<'_, u8> {
        self.lent.tables[self.regions.records..self.regions.semaphores].chunks_exact(6)
    }

    fn names_no_queue(&self, record: &[u8]) -> bool {
        (2..=3).contains(&record[4]) && !(1..=self.configuration.queue_count()).contains(&record[5])
    }

    fn rings(&self) -> impl Iterator<Item = (&[u8], &QueueSize)> {
        self.lent.tables[self.regions.rings..].chunks_exact(2).zip(&self.configuration.queues)
    }

    /// The records of the messages that lie in mailboxes.
    fn lying(&self) -> impl Iterator<Item = &[u8]> {
        let lying = usize::from(self.lent.tables[COUNT].min(self.configuration.messages));
        self.lent.tables[self.regions.messages..].chunks_exact(4).take(lying)
    }

    /// Of the timers.
    fn rows(&self) -> RangeInclusive<usize> {
        1..=self.items.timers.len()
    }

    fn is_task(&self, task: u8) -> bool {
        (1..=self.configuration.tasks).contains(&task)
    }

    /// Of each task how many semaphores are WAITING with it, and whether it has event wait.
    fn waits(&self) -> impl Iterator<Item = (usize, bool)> + '_ {
        let mut waiting = vec![0; self.items.tasks.len()];
        for state in &self.items.semaphores {
            if let Semaphore::Waiting(task) = state {
                waiting[usize::from(*task) - 1] += 1;
            }
        }
        waiting.into_iter().zip(self.items.tasks.iter().map(|task| task.blocks.has(Block::EventWait)))
    }
}
