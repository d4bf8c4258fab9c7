//! Moves: frames that lead somewhere over several frames, by the generator's mood.

use super::fields::is_woken;
use super::Generator;
use crate::command::*;
use crate::executive::Executive;
use crate::semaphore::Semaphore;
use crate::tasks::{Block, Request};

#[derive(Clone, Copy)]
pub enum Mood {
    Any,
    /// The running task blocks itself, mostly with an open request.
    Blocking,
    /// The running task wakes others and goes on running.
    Waking,
    /// The running task takes away what others were woken for.
    Stealing,
    /// Task 1 wakes many others and only then blocks itself, so that they are all reissued in one frame.
    Gathering,
    /// Time passes.
    Timing,
    /// A mailbox is filled, and then its task is terminated.
    Dropping,
}

const MOODS: [Mood; 9] = [
    Mood::Any,
    Mood::Any,
    Mood::Blocking,
    Mood::Waking,
    Mood::Stealing,
    Mood::Stealing,
    Mood::Gathering,
    Mood::Timing,
    Mood::Dropping,
];

/// Terminate, suspend and pend come less often than the rest, so that sessions stay alive.
const CODES: [u8; 28] = [
    WAIT, WAIT, SIGNAL, SIGNAL, PEND, SEND, SEND, SENDW, RECEIVE, RECEIVE, DEQUEUE, DEQUEUE, ENQUEUE, ENQUEUE, RESUME,
    RESUME, SUSPEND, TERMINATE, EXECUTE, EXECUTE, DELAY, DELAY, TIMER, TIMER, TIMER, TIMER, PURGE, PURGE,
];

impl Generator {
    pub(super) fn frame(&mut self, executive: &Executive) -> Vec<u8> {
        let change = match self.mood {
            Mood::Gathering => 3,
            Mood::Dropping => 8,
            _ => 10,
        };
        if self.random.percent(change) {
            self.mood = self.random.pick(&MOODS);
        }
        let outside = if executive.running() == 0 { 92 } else { 10 };
        if self.random.percent(outside) {
            return self.outside(executive);
        }
        let own = executive.running();
        if executive.mailboxes().letters(own).next().is_some() && self.random.percent(12) {
            return self.service(RECEIVE, executive);
        }
        let intended = match self.mood {
            _ if own == 0 => None,
            Mood::Any => None,
            Mood::Blocking => self.blocking(executive, own),
            Mood::Waking => self.waking(executive, own),
            Mood::Stealing => self.stealing(executive, own),
            Mood::Gathering => self.gathering(executive, own),
            Mood::Timing => Some(self.timing(executive)),
            Mood::Dropping => Some(self.dropping(executive, own)),
        };
        intended.unwrap_or_else(|| self.any_service(executive))
    }

    fn any_service(&mut self, executive: &Executive) -> Vec<u8> {
        self.one_of(&CODES, executive)
    }

    /// A timer is one of either width.
    fn one_of(&mut self, codes: &[u8], executive: &Executive) -> Vec<u8> {
        let code = match self.random.pick(codes) {
            TIMER if self.random.percent(50) => SEASON_TIMER,
            code => code,
        };
        self.service(code, executive)
    }

    /// The tick and the interrupt exit.
    fn outside(&mut self, executive: &Executive) -> Vec<u8> {
        match self.random.below(10) {
            0..=3 => self.service(TICK, executive),
            4..=8 => {
                let semaphore = self.semaphore_that(executive, Semaphore::is_waiting);
                vec![INTERRUPT_EXIT, 0, semaphore, 0, 0]
            }
            _ => self.service(INTERRUPT_EXIT, executive),
        }
    }

    fn timing(&mut self, executive: &Executive) -> Vec<u8> {
        self.one_of(&[TICK, TICK, TICK, TICK, TIMER, TIMER, TIMER, DELAY, PURGE], executive)
    }

    fn blocking(&mut self, executive: &Executive, own: u8) -> Option<Vec<u8>> {
        let configuration = executive.configuration();
        let queue = self.any_queue(executive);
        match self.random.below(12) {
            0 | 1 => {
                let semaphore = self.semaphore_that(executive, |state| state == Semaphore::Pending);
                Some(vec![WAIT, 0, semaphore, 0, 0])
            }
            2..=5 => Some(vec![RECEIVE, self.absent_sender(executive, own), 0, 0, 0]),
            6 | 7 => queue.map(|queue| vec![DEQUEUE, queue, 0, 0, 0]),
            8 | 9 => queue.map(|queue| self.put(executive, queue)),
            10 => Some([vec![DELAY, 0, 0], self.tocks().to_vec()].concat()),
            _ if own < configuration.tasks => Some(vec![SUSPEND, 0, 0, 0, 0]),
            _ => None,
        }
    }

    /// A sender of no message in the task's mailbox.
    fn absent_sender(&mut self, executive: &Executive, own: u8) -> u8 {
        let sent = |task: u8| executive.mailboxes().letters(own).any(|letter| letter.sender == task);
        let absent: Vec<u8> = (1..=executive.configuration().tasks).filter(|&task| !sent(task)).collect();
        self.random.pick_if(&absent).unwrap_or(0)
    }

    fn waking(&mut self, executive: &Executive, own: u8) -> Option<Vec<u8>> {
        let tasks = 1..=executive.configuration().tasks;
        match self.random.below(10) {
            0..=3 => {
                let waits = |&task: &u8| executive.tasks().get(task).blocks().has(Block::MessageWait);
                let waiters: Vec<u8> = tasks.filter(waits).collect();
                let task = self.random.pick_if(&waiters)?;
                self.wake(executive, task)
            }
            4 | 5 => {
                let waiters: Vec<u8> = tasks.filter(|&task| waits_at_a_queue(executive, task)).collect();
                let task = self.random.pick_if(&waiters)?;
                self.wake(executive, task)
            }
            6 => {
                let semaphore = self.semaphore_that(executive, Semaphore::is_waiting);
                Some(vec![SIGNAL, 0, semaphore, 0, 0])
            }
            7 | 8 => Some(self.service(RESUME, executive)),
            _ if own == 1 => Some(self.service(EXECUTE, executive)),
            _ => Some(self.service(SUSPEND, executive)),
        }
    }

    /// What wakes a task that waits with this request at a queue.
    fn other_end(&mut self, executive: &Executive, request: Request) -> Option<Vec<u8>> {
        match request {
            Request::Dequeue(queue) => Some(self.put(executive, queue)),
            Request::Enqueue(queue, _) => Some(vec![DEQUEUE, queue, 0, 0, 0]),
            Request::None | Request::Receive(_) => None,
        }
    }

    fn stealing(&mut self, executive: &Executive, own: u8) -> Option<Vec<u8>> {
        let tasks = 1..=executive.configuration().tasks;
        let woken: Vec<u8> = tasks.filter(|&task| task != own && is_woken(executive, task)).collect();
        let victim = self.random.pick_if(&woken)?;
        if self.random.percent(15) {
            return Some([vec![DELAY, victim, 0], self.tocks().to_vec()].concat());
        }
        self.as_asked(executive, executive.tasks().get(victim).request)
    }

    /// The same at the queue as a task asked for with this request.
    pub(super) fn as_asked(&mut self, executive: &Executive, request: Request) -> Option<Vec<u8>> {
        match request {
            Request::Dequeue(queue) => Some(vec![DEQUEUE, queue, 0, 0, 0]),
            Request::Enqueue(queue, _) => Some(self.put(executive, queue)),
            Request::None | Request::Receive(_) => None,
        }
    }

    fn gathering(&mut self, executive: &Executive, own: u8) -> Option<Vec<u8>> {
        if own != 1 {
            return self.blocking(executive, own);
        }
        let tasks = 2..=executive.configuration().tasks;
        let woken = tasks.clone().filter(|&task| is_woken(executive, task)).count();
        let waiters: Vec<u8> = tasks.filter(|&task| executive.tasks().get(task).blocks().waits()).collect();
        if waiters.is_empty() || self.random.below(12) < woken {
            return Some(self.wait_or_suspend(executive));
        }
        let task = self.random.pick(&waiters);
        self.wake(executive, task)
    }

    fn wait_or_suspend(&mut self, executive: &Executive) -> Vec<u8> {
        let semaphore = self.semaphore_that(executive, |state| state == Semaphore::Pending);
        if self.random.percent(90) {
            vec![WAIT, 0, semaphore, 0, 0]
        } else {
            vec![SUSPEND, 0, 0, 0, 0]
        }
    }

    /// What ends the task's wait.
    pub(super) fn wake(&mut self, executive: &Executive, task: u8) -> Option<Vec<u8>> {
        let record = executive.tasks().get(task);
        if record.blocks().has(Block::MessageWait) {
            return self.message_that(executive, false).map(|message| vec![SEND, task, 0, 0, message]);
        }
        let signal = vec![SIGNAL, 0, record.waits_on, 0, 0];
        Some(self.other_end(executive, record.request).unwrap_or(signal))
    }

    fn put(&mut self, executive: &Executive, queue: u8) -> Vec<u8> {
        [vec![ENQUEUE, queue, 0, 0, 0], self.entry(executive, queue)].concat()
    }

    fn any_queue(&mut self, executive: &Executive) -> Option<u8> {
        let most = executive.configuration().queue_count();
        (most > 0).then(|| self.random.between(1, most))
    }
}

fn waits_at_a_queue(executive: &Executive, task: u8) -> bool {
    let record = executive.tasks().get(task);
    record.blocks().has(Block::EventWait) && matches!(record.request, Request::Dequeue(_) | Request::Enqueue(..))
}
