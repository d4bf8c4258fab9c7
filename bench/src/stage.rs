//! States at the largest configuration, made by accepted frames: one task, the arranger, has the others issue requests with
//! which they wait, and later wakes them. While it runs they don't, for their numbers are higher.

use crate::frames::{message, put, service, take};
use crate::session::{Frame, Session};
use plain_executive::command::*;

pub const TASKS: u8 = 126;
pub const MESSAGES: u8 = 64;
pub const TIMERS: u8 = 64;
/// S + T + 2Q.
const SEMAPHORES: u8 = 255;
/// The arranger waits on it while another task issues its request.
const AWAY: u8 = 65;
/// Nobody gets a message from this task, unless a state says so.
pub const SILENT: u8 = TASKS;
/// An idle task, whose mailbox has the messages that only lie there.
pub const IDLE: u8 = 2;

/// Of all queues; each has room for one entry.
#[derive(Clone, Copy)]
pub struct Size {
    pub queues: u8,
    pub width: u8,
}

impl Size {
    /// S, as many as there may be.
    fn named(self) -> u8 {
        SEMAPHORES - TASKS - 2 * self.queues
    }

    pub fn semaphore_of(self, task: u8) -> u8 {
        self.named() + task
    }
}

/// Who waits at queues: takers at empty ones, or putters at full ones.
#[derive(Clone, Copy)]
pub enum Ends {
    Takers,
    Putters,
}

impl Ends {
    pub fn waiting(self) -> &'static str {
        match self {
            Ends::Takers => "taker",
            Ends::Putters => "putter",
        }
    }

    /// Who wakes one of them in passing.
    pub fn passing(self) -> &'static str {
        match self {
            Ends::Takers => "putter",
            Ends::Putters => "taker",
        }
    }
}

pub struct Stage {
    size: Size,
    pub arranger: u8,
    /// First and then, two bytes each.
    pub pairs: Frame,
    frames: Vec<Frame>,
}

impl Stage {
    /// All tasks but the arranger are idle. There are no pairs.
    pub fn new(size: Size, arranger: u8) -> Self {
        Stage { size, arranger, pairs: Vec::new(), frames: Vec::new() }
    }

    pub fn session(self, state: String, frame: Frame) -> Session {
        Session { name: state, configuration: self.configuration(), before: self.frames, frames: vec![frame] }
    }

    fn configuration(&self) -> Frame {
        let Size { queues, width } = self.size;
        let mut frame = vec![TASKS, self.size.named(), queues, TIMERS, MESSAGES, 1, 0, 125];
        frame.extend((1..=TASKS).map(|task| u8::from(task != self.arranger)));
        frame.extend([width, 1].repeat(queues.into()));
        frame.extend(&self.pairs);
        frame
    }

    pub fn does(&mut self, frame: Frame) {
        self.frames.push(frame);
    }

    /// An idle task begins and issues this one request.
    pub fn ask(&mut self, task: u8, request: Frame) {
        self.does(service(EXECUTE, task, 0));
        self.does(service(WAIT, 0, AWAY));
        self.does(request);
        self.does(service(INTERRUPT_EXIT, 0, AWAY));
    }

    /// Tasks that are woken run, until they wait again.
    pub fn let_run(&mut self) {
        self.does(service(WAIT, 0, AWAY));
        self.does(service(INTERRUPT_EXIT, 0, AWAY));
    }

    /// From now on this task runs, until one with a lower number is woken.
    pub fn hand_over(&mut self, task: u8) {
        self.does(service(EXECUTE, task, 0));
        self.does(service(SUSPEND, 0, 0));
    }

    pub fn send(&mut self, task: u8, number: u8) {
        self.does(message(SEND, task, 0, number));
    }

    /// All messages lie in the mailbox of an idle task.
    pub fn lay_down_all(&mut self) {
        (1..=MESSAGES).for_each(|number| self.send(IDLE, number));
    }

    pub fn put(&self, queue: u8) -> Frame {
        put(queue, &vec![0x55; self.size.width.into()])
    }

    pub fn fill(&mut self, queue: u8) {
        self.does(self.put(queue));
    }

    /// A task waits at an empty queue to take, or at a full one to put.
    pub fn wait_at(&mut self, ends: Ends, task: u8, queue: u8) {
        let request = match ends {
            Ends::Takers => take(queue),
            Ends::Putters => self.put(queue),
        };
        self.ask(task, request);
    }

    /// Wakes the task that waits at a queue, and takes away what it was woken for.
    pub fn tease(&mut self, ends: Ends, queue: u8) {
        let (one, other) = (self.put(queue), take(queue));
        let [first, second] = match ends {
            Ends::Takers => [one, other],
            Ends::Putters => [other, one],
        };
        self.does(first);
        self.does(second);
    }

    /// A task waits at the other end of a queue, is suspended and then woken: once it runs, its request completes, and wakes the one
    /// that waits at this end by then. The queue is left as tasks find it that wait at this end.
    pub fn relay(&mut self, ends: Ends, task: u8, queue: u8) {
        if let Ends::Takers = ends {
            self.fill(queue);
            self.ask(task, self.put(queue));
        } else {
            self.ask(task, take(queue));
        }
        self.does(service(SUSPEND, task, 0));
        self.does(if let Ends::Takers = ends { take(queue) } else { self.put(queue) });
    }
}
