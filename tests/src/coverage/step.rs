//! One frame with the executive before and after it.

use crate::answer::Answer;
use crate::command::{starts_a_timer, PURGE, SEASON_TIMER};
use crate::executive::Executive;
use crate::semaphore::Semaphore;
use crate::tasks::{Block, Blocks, Letter, Request, Task};
use crate::timers::Timer;
use crate::turns::Turns;

pub struct Step<'a> {
    pub before: &'a Executive,
    pub frame: &'a [u8],
    pub answer: Answer,
    pub after: &'a Executive,
    /// Task and semaphore of each season timer that is active before the frame: the timer itself doesn't tell.
    pub seasons: &'a [(u8, u8)],
    /// All timers of the session, behind the frame.
    pub turns: &'a Turns,
}

impl Step<'_> {
    pub fn accepts(&self, code: u8) -> bool {
        self.answer.refusal() == 0 && self.code() == code
    }

    pub fn code(&self) -> u8 {
        self.frame[0]
    }

    pub fn a(&self) -> u8 {
        self.frame[1]
    }

    pub fn b(&self) -> u8 {
        self.frame[2]
    }

    pub fn x(&self) -> u16 {
        u16::from_be_bytes([self.frame[3], self.frame[4]])
    }

    pub fn own(&self) -> u8 {
        self.before.running()
    }

    /// The task that A means where 0 is self.
    pub fn task(&self) -> u8 {
        if self.a() == 0 {
            self.own()
        } else {
            self.a()
        }
    }

    /// The semaphore that B means.
    pub fn semaphore(&self) -> u8 {
        let of_a = self.code() == PURGE || starts_a_timer(self.code());
        let task = if of_a { self.task() } else { self.own() };
        if self.b() == 0 {
            self.before.configuration().semaphore_of_task(task)
        } else {
            self.b()
        }
    }

    /// The state of B's semaphore before the frame.
    pub fn state(&self) -> Semaphore {
        self.before.semaphore(self.semaphore())
    }

    pub fn old(&self, task: u8) -> &Task {
        self.before.tasks().get(task)
    }

    pub fn now(&self, task: u8) -> &Task {
        self.after.tasks().get(task)
    }

    /// The blocks of task A before the frame.
    pub fn blocks(&self) -> Blocks {
        self.old(self.task()).blocks()
    }

    pub fn had(&self, block: Block) -> bool {
        self.blocks().has(block)
    }

    pub fn some_task(&self, fits: impl Fn(u8) -> bool) -> bool {
        (1..=self.before.configuration().tasks).any(fits)
    }

    /// A task other than the running one that had an open request and no wait.
    pub fn was_woken(&self, task: u8) -> bool {
        let old = self.old(task);
        old.request != Request::None && !old.blocks().waits()
    }

    pub fn mail(&self, task: u8) -> Vec<Letter> {
        self.before.mailboxes().letters(task).collect()
    }

    pub fn new_mail(&self, task: u8) -> Vec<Letter> {
        self.after.mailboxes().letters(task).collect()
    }

    pub fn timers(&self) -> &[Timer] {
        self.before.timers().active()
    }

    pub fn new_timers(&self) -> &[Timer] {
        self.after.timers().active()
    }

    pub fn timers_of(&self, task: u8) -> usize {
        self.timers().iter().filter(|timer| timer.task == task).count()
    }

    pub fn removed_timers(&self) -> usize {
        self.timers().len() - self.new_timers().len()
    }

    /// The timers that this tick found due.
    pub fn due(&self) -> Vec<Timer> {
        let now = self.after.clock().tocks();
        let passed = now > self.before.clock().tocks();
        self.timers().iter().filter(|timer| passed && timer.due == now).copied().collect()
    }

    pub fn tock_passed(&self) -> bool {
        self.after.clock().tocks() > self.before.clock().tocks()
    }

    /// The place of the timer that this frame started.
    pub fn started_at(&self) -> usize {
        let (task, semaphore) = (self.task(), self.semaphore());
        let started = |timer: &Timer| timer.task == task && timer.semaphore == semaphore;
        self.new_timers().iter().position(started).unwrap_or(0)
    }

    /// A season timer that was active before the frame.
    pub fn is_season(&self, timer: &Timer) -> bool {
        self.seasons.contains(&(timer.task, timer.semaphore))
    }

    /// Those that are active after the frame.
    pub fn new_seasons(&self) -> Vec<(u8, u8)> {
        let started = self.accepts(SEASON_TIMER).then(|| (self.task(), self.semaphore()));
        let known = self.seasons.iter().copied().chain(started);
        known.filter(|&(task, semaphore)| self.after.timers().has(task, semaphore)).collect()
    }
}
