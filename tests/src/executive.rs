//! The executive: what a configuration starts, and its answer to each frame.

use crate::answer::Answer;
use crate::clock::Clock;
use crate::command;
use crate::configuration::Configuration;
use crate::history::History;
use crate::limits::Limits;
use crate::mailboxes::Mailboxes;
use crate::numbers::{require, Number, SEMAPHORE_WAITING};
use crate::queues::Queues;
use crate::semaphore::Semaphore;
use crate::tasks::{Block, Tasks};
use crate::timers::Timers;
use crate::trail::Notes;

#[derive(Clone, Debug)]
pub struct Executive {
    pub(crate) configuration: Configuration,
    pub(crate) clock: Clock,
    pub(crate) tasks: Tasks,
    /// Place 0 stays unused.
    pub(crate) semaphores: Vec<Semaphore>,
    pub(crate) mailboxes: Mailboxes,
    pub(crate) queues: Queues,
    pub(crate) timers: Timers,
    pub(crate) history: Option<Vec<History>>,
    /// In a state that was given, several semaphores may be WAITING with one task.
    pub(crate) restored: bool,
}

impl Executive {
    /// The controller's.
    pub fn configure(frame: &[u8]) -> Result<Self, Number> {
        Executive::configure_within(Limits::CONTROLLER, frame)
    }

    /// That of a caller with these limits.
    pub fn configure_within(limits: Limits, frame: &[u8]) -> Result<Self, Number> {
        Configuration::read_within(limits, frame).map(Executive::fresh)
    }

    pub fn fresh(configuration: Configuration) -> Self {
        Executive {
            clock: Clock::fresh(configuration.ticks_per_tock),
            tasks: Tasks::fresh(&configuration.starts_idle),
            semaphores: vec![Semaphore::Pending; usize::from(configuration.semaphores()) + 1],
            mailboxes: Mailboxes::fresh(configuration.tasks),
            queues: Queues::fresh(&configuration.queues),
            timers: Timers::fresh(configuration.timers),
            history: None,
            restored: false,
            configuration,
        }
    }

    /// From now on the queues' histories are kept. To be asked for while the queues are empty.
    pub fn keep_history(&mut self) {
        self.history = Some(vec![History::default(); self.configuration.queues.len()]);
    }

    pub fn frame(&mut self, frame: &[u8]) -> Answer {
        self.frame_noting(frame, &mut ())
    }

    /// Tells what the frame does on its way.
    pub fn frame_noting(&mut self, frame: &[u8], notes: &mut impl Notes) -> Answer {
        match command::read(self, frame) {
            Err(refusal) => self.answer(refusal, 0),
            Ok(command) => {
                self.carry_out(command, notes);
                let reissues = self.settle(notes);
                self.answer(0, reissues)
            }
        }
    }

    /// An answer that shows the running task with its outcome.
    pub fn answer(&self, refusal: Number, reissues: u8) -> Answer {
        let running = self.running();
        let task = self.tasks.get(running);
        Answer::new(refusal, running, reissues, task.outcome, &task.slot)
    }

    pub fn running(&self) -> u8 {
        self.tasks.running()
    }

    pub fn configuration(&self) -> &Configuration {
        &self.configuration
    }

    pub fn clock(&self) -> &Clock {
        &self.clock
    }

    pub fn tasks(&self) -> &Tasks {
        &self.tasks
    }

    pub fn semaphore(&self, number: u8) -> Semaphore {
        self.semaphores[usize::from(number)]
    }

    pub fn mailboxes(&self) -> &Mailboxes {
        &self.mailboxes
    }

    pub fn queues(&self) -> &Queues {
        &self.queues
    }

    pub fn timers(&self) -> &Timers {
        &self.timers
    }

    /// Of queue 1 on, if they are kept.
    pub fn history(&self) -> Option<&[History]> {
        self.history.as_deref()
    }

    pub(crate) fn not_waiting(&self, semaphore: u8) -> Result<(), Number> {
        require(!self.semaphore(semaphore).is_waiting(), SEMAPHORE_WAITING)
    }

    /// Idle alone counts: a first that is suspended or waits, and is not idle, does not.
    pub(crate) fn has_idle_first(&self, task: u8) -> bool {
        self.configuration.firsts(task).any(|first| self.tasks.get(first).blocks().has(Block::Idle))
    }

    /// A dequeue waits only when the queue is empty.
    pub(crate) fn may_dequeue(&self, queue: u8) -> Result<(), Number> {
        if self.queues.is_empty(queue) {
            self.not_waiting(self.configuration.not_empty(queue))?;
        }
        Ok(())
    }

    /// An enqueue waits only when the queue is full.
    pub(crate) fn may_enqueue(&self, queue: u8) -> Result<(), Number> {
        if self.queues.is_full(queue) {
            self.not_waiting(self.configuration.not_full(queue))?;
        }
        Ok(())
    }
}
