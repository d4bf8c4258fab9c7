//! The bytes that the program writes for each item, as docs/MEMORY.md says: one value for one item.

use crate::items::{Items, OutcomeItem, RequestItem, TimerItem};
use crate::semaphore::Semaphore;
use crate::tasks::{Block, Letter};

/// The planes, in the order in which they lie.
pub const PLANES: [Block; 4] = [Block::Idle, Block::Suspended, Block::EventWait, Block::MessageWait];

impl Items {
    /// The bits of the tasks that have this block; all others are 0.
    pub fn plane(&self, block: Block) -> [u8; 16] {
        let mut plane = [0; 16];
        let blocked = (0..).zip(&self.tasks).filter(|(_, task)| task.blocks.has(block));
        blocked.for_each(|(index, _): (usize, _)| plane[index / 8] |= 1 << (index % 8));
        plane
    }
}

impl OutcomeItem {
    pub fn written(&self) -> [u8; 4] {
        match self {
            OutcomeItem::Plain => [0, 0, 0, 0],
            OutcomeItem::Begin => [1, 0, 0, 0],
            OutcomeItem::Message(Letter { message, sender, semaphore }) => [2, *message, *sender, *semaphore],
            OutcomeItem::Entry(bytes) => [3, bytes.len() as u8, 0, 0],
            OutcomeItem::Refused(number) => [4, *number, 0, 0],
            OutcomeItem::Semaphore(number) => [5, *number, 0, 0],
            OutcomeItem::Woke(task) => [6, *task, 0, 0],
        }
    }
}

impl RequestItem {
    pub fn written(&self) -> [u8; 2] {
        match self {
            RequestItem::None => [0, 0],
            RequestItem::Receive(from) => [1, *from],
            RequestItem::Dequeue(queue) => [2, *queue],
            RequestItem::Enqueue(queue, _) => [3, *queue],
        }
    }

    /// The entry that waits to be put.
    pub fn entry(&self) -> &[u8] {
        match self {
            RequestItem::Enqueue(_, entry) => entry,
            _ => &[],
        }
    }
}

impl Semaphore {
    pub fn written(self) -> u8 {
        match self {
            Semaphore::Pending => 0,
            Semaphore::Waiting(task) => task,
            Semaphore::Done => 255,
        }
    }
}

impl Letter {
    /// In the mailbox of this task.
    pub fn written(self, task: u8) -> [u8; 4] {
        [task, self.message, self.sender, self.semaphore]
    }
}

impl TimerItem {
    /// On a clock with this time.
    pub fn written(&self, time: u32) -> [u8; 10] {
        let due = time.wrapping_add(self.tocks_left as u32);
        let mut row = [self.task, self.semaphore, 0, 0, 0, 0, 0, 0, 0, 0];
        row[2..6].copy_from_slice(&due.to_le_bytes());
        row[6..].copy_from_slice(&self.period.to_le_bytes());
        row
    }
}
