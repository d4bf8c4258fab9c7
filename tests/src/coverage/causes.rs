//! All numbers that a frame could be refused with, each check made by itself. The paper's order makes the first of them
//! the refusal.

use crate::command::*;
use crate::executive::Executive;
use crate::numbers::*;
use crate::tasks::Block;

/// In the paper's order. Checks that need a field's meaning are left out where the field has none.
pub fn causes(executive: &Executive, frame: &[u8]) -> Vec<Number> {
    if frame.len() < 5 {
        return vec![LENGTH];
    }
    let check = Check { executive, frame, own: executive.running() };
    let code = frame[0];
    let mut causes = Vec::new();
    let mut note = |wrong: bool, number: Number| {
        if wrong {
            causes.push(number);
        }
    };
    let known = (WAIT..=SEASON_TIMER).contains(&code);
    note(!known, CODE);
    note(check.wrong_length(), LENGTH);
    note(known && is_service(code) && check.own == 0, NULL_TASK_RUNS);
    note(check.wrong_task(), TASK);
    note(check.wrong_semaphore(), SEMAPHORE);
    note(check.wrong_queue(), QUEUE);
    note(check.wrong_message(), MESSAGE);
    note(check.no_tocks(), TOCK_VALUE);
    note(check.wrong_entry(), LENGTH);
    let meant = known && (check.own != 0 || !is_service(code));
    note(meant && check.idle_or_waiting(), IDLE_OR_WAITING);
    note(check.before_first(), BEFORE_FIRST);
    note(meant && check.message_lies(), MESSAGE_IN_MAILBOX);
    note(meant && check.would_wait_too(), SEMAPHORE_WAITING);
    note(meant && check.has_a_timer(), HAS_A_TIMER);
    note(meant && starts_a_timer(code) && executive.timers().all_active(), ALL_TIMERS_ACTIVE);
    causes
}

struct Check<'a> {
    executive: &'a Executive,
    frame: &'a [u8],
    own: u8,
}

impl Check<'_> {
    fn code(&self) -> u8 {
        self.frame[0]
    }

    fn a(&self) -> u8 {
        self.frame[1]
    }

    fn x(&self) -> u16 {
        u16::from_be_bytes([self.frame[3], self.frame[4]])
    }

    fn wrong_length(&self) -> bool {
        match self.code() {
            SEASON_TIMER => self.frame.len() != 7,
            ENQUEUE => false,
            _ => self.frame.len() > 5,
        }
    }

    /// Without its length a season timer has no tock value.
    fn no_tocks(&self) -> bool {
        match self.code() {
            DELAY | TIMER => self.x() == 0,
            SEASON_TIMER => !self.wrong_length() && self.frame[3..] == [0; 4],
            _ => false,
        }
    }

    fn wrong_task(&self) -> bool {
        let above = self.a() > self.executive.configuration().tasks;
        match self.code() {
            SEND | SENDW | RESUME => above || self.a() == 0,
            EXECUTE => above || self.a() == 0 || self.a() == self.own,
            RECEIVE | SUSPEND | TERMINATE | DELAY | TIMER | SEASON_TIMER | PURGE => above,
            _ => false,
        }
    }

    fn wrong_semaphore(&self) -> bool {
        let used = matches!(self.code(), WAIT | SIGNAL | PEND | SEND | SENDW | PURGE | INTERRUPT_EXIT);
        (used || starts_a_timer(self.code())) && self.frame[2] > self.executive.configuration().nameable_semaphores()
    }

    fn wrong_queue(&self) -> bool {
        let outside = self.a() == 0 || self.a() > self.executive.configuration().queue_count();
        matches!(self.code(), DEQUEUE | ENQUEUE) && outside
    }

    fn wrong_message(&self) -> bool {
        let outside = self.x() == 0 || self.x() > u16::from(self.executive.configuration().messages);
        matches!(self.code(), SEND | SENDW) && outside
    }

    fn wrong_entry(&self) -> bool {
        let length = self.frame.len() - 5;
        let wrong = if self.wrong_queue() {
            !(1..=16).contains(&length) // for any queue
        } else {
            self.code() == ENQUEUE && length != self.executive.configuration().width(self.a())
        };
        self.code() == ENQUEUE && wrong
    }

    /// Task A of delay and the timers.
    fn delayed(&self) -> u8 {
        if self.a() == 0 {
            self.own
        } else {
            self.a()
        }
    }

    fn semaphore(&self) -> u8 {
        let task = if starts_a_timer(self.code()) { self.delayed() } else { self.own };
        match self.frame[2] {
            0 => self.executive.configuration().semaphore_of_task(task),
            number => number,
        }
    }

    fn idle_or_waiting(&self) -> bool {
        if self.code() != DELAY || self.wrong_task() {
            return false;
        }
        let blocks = self.executive.tasks().get(self.delayed()).blocks();
        blocks.has(Block::Idle) || blocks.has(Block::EventWait) || blocks.has(Block::MessageWait)
    }

    /// By the pairs alone, also of the running task and while none runs.
    fn before_first(&self) -> bool {
        let idle = |task: u8| self.executive.tasks().get(task).blocks().has(Block::Idle);
        let mut pairs = self.executive.configuration().pairs.iter();
        self.code() == EXECUTE && pairs.any(|pair| pair.then == self.a() && idle(pair.first))
    }

    fn message_lies(&self) -> bool {
        let tasks = 1..=self.executive.configuration().tasks;
        let mut letters = tasks.flat_map(|task| self.executive.mailboxes().letters(task));
        matches!(self.code(), SEND | SENDW) && letters.any(|letter| u16::from(letter.message) == self.x())
    }

    fn would_wait_too(&self) -> bool {
        let waiting = |number: u8| self.executive.semaphore(number).is_waiting();
        let (queues, configuration) = (self.executive.queues(), self.executive.configuration());
        match self.code() {
            DELAY if self.wrong_task() => false,
            WAIT | PEND | SENDW | DELAY => !self.wrong_semaphore() && waiting(self.semaphore()),
            DEQUEUE | ENQUEUE if self.wrong_queue() => false,
            DEQUEUE => queues.is_empty(self.a()) && waiting(configuration.not_empty(self.a())),
            ENQUEUE => queues.is_full(self.a()) && waiting(configuration.not_full(self.a())),
            _ => false,
        }
    }

    fn has_a_timer(&self) -> bool {
        if !starts_a_timer(self.code()) || self.wrong_task() || self.wrong_semaphore() {
            return false;
        }
        let mut timers = self.executive.timers().active().iter();
        timers.any(|timer| (timer.task, timer.semaphore) == (self.delayed(), self.semaphore()))
    }
}
