//! The items of the ledger, read out of the executive for comparisons.

use crate::executive::Executive;
use crate::semaphore::Semaphore;
use crate::tasks::{Blocks, Letter, Outcome, Request, Task, SLOT_BYTES};
use crate::timers::Timer;

/// Everything that is compared after a list of frames. Lists begin with number 1.
#[derive(Clone, Debug, PartialEq, Eq)]
pub struct Items {
    /// In the present tock.
    pub ticks: u8,
    pub tasks: Vec<TaskItem>,
    pub semaphores: Vec<Semaphore>,
    pub mailboxes: Vec<Vec<Letter>>,
    /// The entries that each queue holds, oldest first.
    pub queues: Vec<Vec<Vec<u8>>>,
    pub timers: Vec<TimerItem>,
}

#[derive(Clone, Debug, PartialEq, Eq)]
pub struct TaskItem {
    pub blocks: Blocks,
    pub outcome: OutcomeItem,
    pub slot: [u8; SLOT_BYTES],
    pub request: RequestItem,
}

/// An outcome with an entry's bytes.
#[derive(Clone, Debug, PartialEq, Eq)]
pub enum OutcomeItem {
    Plain,
    Begin,
    Message(Letter),
    Entry(Vec<u8>),
    Refused(u8),
    Semaphore(u8),
    Woke(u8),
}

/// An open request with enqueue's bytes.
#[derive(Clone, Debug, PartialEq, Eq)]
pub enum RequestItem {
    None,
    Receive(u8),
    Dequeue(u8),
    Enqueue(u8, Vec<u8>),
}

#[derive(Clone, Copy, Debug, PartialEq, Eq)]
pub struct TimerItem {
    pub task: u8,
    pub semaphore: u8,
    /// Due tock less the tocks since the start.
    pub tocks_left: u64,
    /// 0 for a one-shot.
    pub period: u32,
}

impl Executive {
    pub fn items(&self) -> Items {
        let configuration = self.configuration();
        let tasks = 1..=configuration.tasks;
        Items {
            ticks: self.clock().ticks(),
            tasks: tasks.clone().map(|task| self.task_item(self.tasks().get(task))).collect(),
            semaphores: (1..=configuration.semaphores()).map(|number| self.semaphore(number)).collect(),
            mailboxes: tasks.map(|task| self.mailboxes().letters(task).collect()).collect(),
            queues: (1..=configuration.queue_count()).map(|queue| self.held(queue)).collect(),
            timers: self.timers().active().iter().map(|timer| self.timer_item(timer)).collect(),
        }
    }

    pub fn held(&self, queue: u8) -> Vec<Vec<u8>> {
        self.queues().entries(queue).map(<[u8]>::to_vec).collect()
    }

    fn task_item(&self, task: &Task) -> TaskItem {
        TaskItem {
            blocks: task.blocks(),
            outcome: outcome_item(task),
            slot: task.slot,
            request: self.request_item(task.request),
        }
    }

    fn request_item(&self, request: Request) -> RequestItem {
        match request {
            Request::None => RequestItem::None,
            Request::Receive(from) => RequestItem::Receive(from),
            Request::Dequeue(queue) => RequestItem::Dequeue(queue),
            Request::Enqueue(queue, entry) => {
                RequestItem::Enqueue(queue, entry[..self.configuration().width(queue)].to_vec())
            }
        }
    }

    fn timer_item(&self, timer: &Timer) -> TimerItem {
        TimerItem {
            task: timer.task,
            semaphore: timer.semaphore,
            tocks_left: timer.due - self.clock().tocks(),
            period: timer.period,
        }
    }
}

fn outcome_item(task: &Task) -> OutcomeItem {
    match task.outcome {
        Outcome::Plain => OutcomeItem::Plain,
        Outcome::Begin => OutcomeItem::Begin,
        Outcome::Message(letter) => OutcomeItem::Message(letter),
        Outcome::Entry(width) => OutcomeItem::Entry(task.slot[..usize::from(width)].to_vec()),
        Outcome::Refused(number) => OutcomeItem::Refused(number),
        Outcome::Semaphore(number) => OutcomeItem::Semaphore(number),
        Outcome::Woke(task) => OutcomeItem::Woke(task),
    }
}
