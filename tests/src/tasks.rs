//! The task records, and which tasks are runnable.

pub const SLOT_BYTES: usize = 16;

#[derive(Clone, Copy, Debug, PartialEq, Eq)]
#[repr(u8)]
pub enum Block {
    Idle = 1,
    Suspended = 2,
    EventWait = 4,
    MessageWait = 8,
}

/// A set of blocks. A task without any is runnable.
#[derive(Clone, Copy, Debug, Default, PartialEq, Eq)]
pub struct Blocks(u8);

impl Blocks {
    pub fn of(blocks: impl IntoIterator<Item = Block>) -> Self {
        Blocks(blocks.into_iter().fold(0, |set, block| set | block as u8))
    }

    pub fn has(self, block: Block) -> bool {
        self.0 & block as u8 != 0
    }

    pub fn is_empty(self) -> bool {
        self.0 == 0
    }

    /// Waiting for a semaphore or for a message.
    pub fn waits(self) -> bool {
        self.has(Block::EventWait) || self.has(Block::MessageWait)
    }
}

/// What the task's last request ended with.
#[derive(Clone, Copy, Debug, PartialEq, Eq)]
pub enum Outcome {
    Plain,
    Begin,
    Message(Letter),
    /// An entry of this width. Its bytes are the first of the task's slot, which only its next dequeue overwrites.
    Entry(u8),
    Refused(u8),
    Semaphore(u8),
    /// Of a signal: the task that lost its event wait, or 0.
    Woke(u8),
}

/// A message on its way.
#[derive(Clone, Copy, Debug, Default, PartialEq, Eq)]
pub struct Letter {
    pub message: u8,
    pub sender: u8,
    pub semaphore: u8,
}

/// A request that waits to be issued again.
#[derive(Clone, Copy, Debug, PartialEq, Eq)]
pub enum Request {
    None,
    /// From this task, or from any for 0.
    Receive(u8),
    Dequeue(u8),
    /// The entry's bytes come first; those beyond the queue's width are $00.
    Enqueue(u8, [u8; SLOT_BYTES]),
}

#[derive(Clone, Debug)]
pub struct Task {
    blocks: Blocks,
    pub outcome: Outcome,
    pub request: Request,
    pub slot: [u8; SLOT_BYTES],
    /// The semaphore that is WAITING with this task, or 0.
    pub waits_on: u8,
}

impl Task {
    pub fn restored(blocks: Blocks, outcome: Outcome, request: Request, slot: [u8; SLOT_BYTES], waits_on: u8) -> Self {
        Task { blocks, outcome, request, slot, waits_on }
    }

    pub fn blocks(&self) -> Blocks {
        self.blocks
    }
}

#[derive(Clone, Debug)]
pub struct Tasks {
    /// Place 0 is the null task's and stays unused.
    records: Vec<Task>,
    /// Bit t is set when task t is runnable.
    runnable: u128,
}

impl Tasks {
    pub fn fresh(starts_idle: &[bool]) -> Self {
        let none = Task {
            blocks: Blocks::default(),
            outcome: Outcome::Plain,
            request: Request::None,
            slot: [0; SLOT_BYTES],
            waits_on: 0,
        };
        let mut tasks = Tasks { records: vec![none; starts_idle.len() + 1], runnable: 0 };
        for (task, &idle) in (1u8..).zip(starts_idle) {
            if idle {
                tasks.block(task, Block::Idle);
            } else {
                tasks.unblock_all(task);
                tasks.get_mut(task).outcome = Outcome::Begin;
            }
        }
        tasks
    }

    pub fn restored(tasks: impl IntoIterator<Item = Task>) -> Self {
        let mut restored = Tasks::fresh(&[]);
        restored.records.extend(tasks);
        let runnable = (1..restored.records.len()).filter(|&task| restored.records[task].blocks.is_empty());
        restored.runnable = runnable.fold(0, |set, task| set | 1 << task);
        restored
    }

    /// The runnable task with the lowest number, else the null task.
    pub fn running(&self) -> u8 {
        if self.runnable == 0 {
            0
        } else {
            self.runnable.trailing_zeros() as u8
        }
    }

    pub fn get(&self, task: u8) -> &Task {
        &self.records[usize::from(task)]
    }

    pub fn get_mut(&mut self, task: u8) -> &mut Task {
        &mut self.records[usize::from(task)]
    }

    pub fn block(&mut self, task: u8, block: Block) {
        self.get_mut(task).blocks.0 |= block as u8;
        self.runnable &= !(1 << task);
    }

    pub fn unblock(&mut self, task: u8, block: Block) {
        let record = self.get_mut(task);
        record.blocks.0 &= !(block as u8);
        if record.blocks.is_empty() {
            self.runnable |= 1 << task;
        }
    }

    pub fn unblock_all(&mut self, task: u8) {
        self.get_mut(task).blocks = Blocks::default();
        self.runnable |= 1 << task;
    }
}
