//! What a frame changed, as bytes. page/data.js reads them.
//!
//! A list of: a byte that says what follows, and its values; a 0 ends it. Numbers that may be long have seven bits a byte, the
//! lowest first, and bit 7 where more follow.

use plain_executive::items::{Items, OutcomeItem, RequestItem, TaskItem};
use plain_executive::semaphore::Semaphore;
use plain_executive::tasks::{Block, Blocks, Letter, Request};
use plain_executive::trail::{Ended, Event};

const END: u8 = 0;
const TICKS: u8 = 1;
const BLOCKS: u8 = 2;
const OUTCOME: u8 = 3;
const REQUEST: u8 = 4;
const SLOT: u8 = 5;
const SEMAPHORE: u8 = 6;
const MAILBOX: u8 = 7;
const QUEUE: u8 = 8;
const TIMERS: u8 = 9;
const DUE: u8 = 10;
const WOKEN: u8 = 11;
const LOST: u8 = 12;
const ISSUED: u8 = 13;
const TOCK: u8 = 14;
const DROPPED: u8 = 15;

pub const DONE: u8 = 255;

/// A timer with the tock in which it is due, which stays while tocks pass.
#[derive(Clone, Copy, PartialEq, Eq)]
struct Due {
    task: u8,
    semaphore: u8,
    tock: u64,
    period: u32,
}

/// Writes what changed since the last items.
pub struct Changes {
    before: Items,
    due: Vec<Due>,
    tocks: u64,
    pub bytes: Vec<u8>,
}

pub fn long(mut number: u64, bytes: &mut Vec<u8>) {
    while number > 127 {
        bytes.push(number as u8 | 128);
        number >>= 7;
    }
    bytes.push(number as u8);
}

impl Changes {
    /// From nothing: the first items differ from these everywhere that they hold something.
    pub fn new(items: &Items) -> Self {
        let task = TaskItem {
            blocks: Blocks::default(),
            outcome: OutcomeItem::Plain,
            slot: [0; 16],
            request: RequestItem::None,
        };
        let before = Items {
            ticks: 0,
            tasks: vec![task; items.tasks.len()],
            semaphores: vec![Semaphore::Pending; items.semaphores.len()],
            mailboxes: vec![Vec::new(); items.mailboxes.len()],
            queues: vec![Vec::new(); items.queues.len()],
            timers: Vec::new(),
        };
        Changes { before, due: Vec::new(), tocks: 0, bytes: Vec::new() }
    }

    pub fn before(&self) -> &Items {
        &self.before
    }

    /// A frame's changes, if it was accepted, and its trail behind the messages that it dropped.
    pub fn frame(&mut self, after: Option<Items>, tocks: u64, dropped: &[Letter], trail: &[Event]) {
        if let Some(after) = after {
            self.items(&after, tocks);
            self.before = after;
        }
        for Letter { message, sender, semaphore } in dropped {
            self.bytes.extend([DROPPED, *message, *sender, *semaphore]);
        }
        trail.iter().for_each(|event| self.event(event));
        self.bytes.push(END);
    }

    fn items(&mut self, after: &Items, tocks: u64) {
        let bytes = &mut self.bytes;
        if tocks != self.tocks {
            bytes.push(TOCK);
            self.tocks = tocks;
        }
        if after.ticks != self.before.ticks {
            bytes.extend([TICKS, after.ticks]);
        }
        for (number, before, after) in numbered(&self.before.tasks, &after.tasks) {
            task(number, before, after, bytes);
        }
        for (number, before, after) in numbered(&self.before.semaphores, &after.semaphores) {
            if before != after {
                bytes.extend([SEMAPHORE, number, semaphore(*after)]);
            }
        }
        for (number, before, after) in numbered(&self.before.mailboxes, &after.mailboxes) {
            if before != after {
                bytes.extend([MAILBOX, number]);
                spliced(before, after, bytes, |Letter { message, sender, semaphore }, bytes| {
                    bytes.extend([message, sender, semaphore]);
                });
            }
        }
        for (number, before, after) in numbered(&self.before.queues, &after.queues) {
            if before != after {
                bytes.extend([QUEUE, number]);
                queue(before, after, bytes);
            }
        }
        self.timers(after, tocks);
    }

    fn timers(&mut self, after: &Items, tocks: u64) {
        let timers = after.timers.iter();
        let due: Vec<Due> = timers
            .map(|timer| Due {
                task: timer.task,
                semaphore: timer.semaphore,
                tock: tocks + timer.tocks_left,
                period: timer.period,
            })
            .collect();
        if due != self.due {
            self.bytes.push(TIMERS);
            spliced(&self.due, &due, &mut self.bytes, |Due { task, semaphore, tock, period }, bytes| {
                bytes.extend([task, semaphore]);
                long(*tock, bytes);
                long((*period).into(), bytes);
            });
            self.due = due;
        }
    }

    fn event(&mut self, event: &Event) {
        match *event {
            Event::Due { task, semaphore } => self.bytes.extend([DUE, task, semaphore]),
            Event::Woken { task, semaphore } => self.bytes.extend([WOKEN, task, semaphore]),
            Event::Lost { semaphore } => self.bytes.extend([LOST, semaphore]),
            Event::Issued { task, request, ended } => {
                let (kind, named) = match request {
                    Request::None => (0, 0),
                    Request::Receive(from) => (1, from),
                    Request::Dequeue(queue) => (2, queue),
                    Request::Enqueue(queue, _) => (3, queue),
                };
                let ended = match ended {
                    Ended::Completed => 0,
                    Ended::Waits => 1,
                    Ended::Refused(number) => number,
                };
                self.bytes.extend([ISSUED, task, kind, named, ended]);
            }
        }
    }
}

fn numbered<'a, Item>(before: &'a [Item], after: &'a [Item]) -> impl Iterator<Item = (u8, &'a Item, &'a Item)> {
    (1..).zip(before.iter().zip(after)).map(|(number, (before, after))| (number, before, after))
}

pub fn semaphore(state: Semaphore) -> u8 {
    match state {
        Semaphore::Pending => 0,
        Semaphore::Waiting(task) => task,
        Semaphore::Done => DONE,
    }
}

fn task(number: u8, before: &TaskItem, after: &TaskItem, bytes: &mut Vec<u8>) {
    if before.slot != after.slot {
        bytes.extend([SLOT, number]);
        bytes.extend(after.slot);
    }
    if before.blocks != after.blocks {
        let all = [Block::Idle, Block::Suspended, Block::EventWait, Block::MessageWait];
        let bits = all.into_iter().filter(|block| after.blocks.has(*block)).fold(0, |bits, block| bits | block as u8);
        bytes.extend([BLOCKS, number, bits]);
    }
    if before.outcome != after.outcome {
        bytes.extend([OUTCOME, number]);
        outcome(&after.outcome, bytes);
    }
    if before.request != after.request {
        bytes.extend([REQUEST, number]);
        match &after.request {
            RequestItem::None => bytes.extend([0, 0]),
            RequestItem::Receive(from) => bytes.extend([1, *from]),
            RequestItem::Dequeue(queue) => bytes.extend([2, *queue]),
            RequestItem::Enqueue(queue, entry) => {
                bytes.extend([3, *queue]);
                bytes.extend(entry);
            }
        }
    }
}

/// Its kind, how many bytes its value has, and the value.
fn outcome(outcome: &OutcomeItem, bytes: &mut Vec<u8>) {
    match outcome {
        OutcomeItem::Plain => bytes.extend([0, 0]),
        OutcomeItem::Begin => bytes.extend([1, 0]),
        OutcomeItem::Message(Letter { message, sender, semaphore }) => {
            bytes.extend([2, 3, *message, *sender, *semaphore])
        }
        OutcomeItem::Entry(entry) => {
            bytes.extend([3, entry.len() as u8]);
            bytes.extend(entry);
        }
        OutcomeItem::Refused(number) => bytes.extend([4, 1, *number]),
        OutcomeItem::Semaphore(number) => bytes.extend([5, 1, *number]),
        OutcomeItem::Woke(task) => bytes.extend([6, 1, *task]),
    }
}

/// One stretch of a list changed: where it begins, how many went, and those that came.
fn spliced<Item: PartialEq>(before: &[Item], after: &[Item], bytes: &mut Vec<u8>, write: impl Fn(&Item, &mut Vec<u8>)) {
    let front = before.iter().zip(after).take_while(|(before, after)| before == after).count();
    let rests = before[front..].iter().rev().zip(after[front..].iter().rev());
    let back = rests.take_while(|(before, after)| before == after).count();
    let came = &after[front..after.len() - back];
    bytes.extend([front as u8, (before.len() - back - front) as u8, came.len() as u8]);
    came.iter().for_each(|item| write(item, bytes));
}

/// How many entries were taken, and those that were put.
fn queue(before: &[Vec<u8>], after: &[Vec<u8>], bytes: &mut Vec<u8>) {
    let fits = |taken: &usize| after.starts_with(&before[*taken..]);
    let taken = (0..=before.len()).find(fits).unwrap_or(before.len());
    let put = &after[before.len() - taken..];
    bytes.extend([taken as u8, put.len() as u8]);
    put.iter().for_each(|entry| bytes.extend(entry));
}
