//! What each accepted command does.

use crate::command::Command;
use crate::executive::Executive;
use crate::semaphore::Semaphore;
use crate::tasks::{Block, Letter, Outcome, Request, SLOT_BYTES};
use crate::timers::Start;
use crate::trail::{Event, Notes};

impl Executive {
    pub(crate) fn carry_out(&mut self, command: Command, notes: &mut impl Notes) {
        match command {
            Command::Tick => self.tick(notes),
            Command::InterruptExit(0) => {}
            Command::InterruptExit(semaphore) => {
                self.signal(semaphore, notes);
            }
            _ => self.serve(command, notes),
        }
    }

    /// The services; a caller's outcome is plain unless its service says otherwise.
    fn serve(&mut self, command: Command, notes: &mut impl Notes) {
        let own = self.running();
        self.set_outcome(own, Outcome::Plain);
        match command {
            Command::Wait(semaphore) => self.wait(own, semaphore),
            Command::Signal(semaphore) => {
                let woken = self.signal(semaphore, notes);
                self.set_outcome(own, Outcome::Woke(woken));
            }
            Command::Pend(semaphore) => self.set_semaphore(semaphore, Semaphore::Pending),
            Command::Send(to, letter) => self.send(own, to, letter, notes),
            Command::SendAndWait(to, letter) => {
                self.send(own, to, letter, notes);
                self.wait_on(own, letter.semaphore);
            }
            Command::Receive(from) => self.receive(own, from),
            Command::Dequeue(queue) => self.dequeue(own, queue, notes),
            Command::Enqueue(queue, entry) => self.enqueue(own, queue, entry, notes),
            Command::Resume(task) => self.tasks.unblock(task, Block::Suspended),
            Command::Suspend(task) => self.tasks.block(task, Block::Suspended),
            Command::Terminate(task) => self.terminate(task, notes),
            Command::Execute(task) => self.execute(task),
            Command::Delay(start) => self.delay(start),
            Command::Timer(start) => self.start(start),
            Command::PurgeAll(task) => self.timers.remove_of_task(task),
            Command::PurgeOne(task, semaphore) => self.timers.remove(task, semaphore),
            Command::Tick | Command::InterruptExit(_) => unreachable!("no services"),
        }
    }

    fn wait(&mut self, own: u8, semaphore: u8) {
        self.set_outcome(own, Outcome::Semaphore(semaphore));
        if self.semaphore(semaphore) == Semaphore::Done {
            self.set_semaphore(semaphore, Semaphore::Pending);
        } else {
            self.wait_on(own, semaphore);
        }
    }

    /// Tells which task lost its event wait, or 0.
    pub(crate) fn signal(&mut self, semaphore: u8, notes: &mut impl Notes) -> u8 {
        let woken = self.wake(semaphore, notes);
        if woken == 0 {
            if self.semaphore(semaphore) == Semaphore::Done {
                notes.note(Event::Lost { semaphore });
            }
            self.set_semaphore(semaphore, Semaphore::Done);
        }
        woken
    }

    /// That of a timer or of a message. Only in a state that was given it may be one that there is not: then it signals nothing.
    fn signal_kept(&mut self, semaphore: u8, notes: &mut impl Notes) {
        if (1..=self.configuration.semaphores()).contains(&semaphore) {
            self.signal(semaphore, notes);
        }
    }

    /// As signal, but a semaphore on which nobody waits stays as it is: those of queues are never DONE.
    fn wake(&mut self, semaphore: u8, notes: &mut impl Notes) -> u8 {
        let Semaphore::Waiting(task) = self.semaphore(semaphore) else {
            return 0;
        };
        self.set_semaphore(semaphore, Semaphore::Pending);
        self.tasks.get_mut(task).waits_on = 0;
        self.tasks.unblock(task, Block::EventWait);
        notes.note(Event::Woken { task, semaphore });
        task
    }

    fn send(&mut self, own: u8, to: u8, letter: Letter, notes: &mut impl Notes) {
        self.mailboxes.insert(to, letter);
        if self.tasks.get(to).blocks().has(Block::MessageWait) {
            notes.note(Event::Woken { task: to, semaphore: 0 });
        }
        self.tasks.unblock(to, Block::MessageWait);
        self.set_outcome(own, Outcome::Semaphore(letter.semaphore));
    }

    pub(crate) fn receive(&mut self, own: u8, from: u8) {
        match self.mailboxes.take(own, from) {
            Some(letter) => self.set_outcome(own, Outcome::Message(letter)),
            None => {
                self.tasks.get_mut(own).request = Request::Receive(from);
                self.tasks.block(own, Block::MessageWait);
            }
        }
    }

    pub(crate) fn dequeue(&mut self, own: u8, queue: u8, notes: &mut impl Notes) {
        if self.queues.is_empty(queue) {
            self.tasks.get_mut(own).request = Request::Dequeue(queue);
            self.wait_on(own, self.configuration.not_empty(queue));
            return;
        }
        let task = self.tasks.get_mut(own);
        let width = self.queues.take(queue, &mut task.slot);
        task.outcome = Outcome::Entry(width as u8);
        if let Some(histories) = &mut self.history {
            histories[usize::from(queue) - 1].copied.push(task.slot[..width].to_vec());
        }
        self.wake(self.configuration.not_full(queue), notes);
    }

    pub(crate) fn enqueue(&mut self, own: u8, queue: u8, entry: &[u8], notes: &mut impl Notes) {
        if self.queues.is_full(queue) {
            let mut waiting = [0; SLOT_BYTES];
            waiting[..entry.len()].copy_from_slice(entry);
            self.tasks.get_mut(own).request = Request::Enqueue(queue, waiting);
            self.wait_on(own, self.configuration.not_full(queue));
            return;
        }
        self.queues.put(queue, entry);
        if let Some(histories) = &mut self.history {
            histories[usize::from(queue) - 1].put.push(entry.to_vec());
        }
        self.wake(self.configuration.not_empty(queue), notes);
    }

    /// When the task waits for nothing any more the dropped messages signal; its record is set behind them all.
    fn terminate(&mut self, task: u8, notes: &mut impl Notes) {
        self.end_wait(task);
        self.timers.remove_of_task(task);
        for letter in self.mailboxes.empty(task) {
            self.signal_kept(letter.semaphore, notes);
        }
        self.reset(task, Outcome::Plain);
        self.tasks.block(task, Block::Idle);
    }

    fn execute(&mut self, task: u8) {
        self.end_wait(task);
        self.reset(task, Outcome::Begin);
    }

    /// Nothing is WAITING with the task any longer.
    fn end_wait(&mut self, task: u8) {
        let waited_on = std::mem::take(&mut self.tasks.get_mut(task).waits_on);
        if waited_on != 0 {
            self.set_semaphore(waited_on, Semaphore::Pending);
        }
        if self.restored {
            self.withdraw(task);
        }
    }

    /// No block and no open request.
    fn reset(&mut self, task: u8, outcome: Outcome) {
        let record = self.tasks.get_mut(task);
        record.outcome = outcome;
        record.request = Request::None;
        self.tasks.unblock_all(task);
    }

    fn delay(&mut self, start: Start) {
        self.start(start);
        self.wait_on(start.task, start.semaphore);
    }

    fn start(&mut self, start: Start) {
        self.timers.start(start, self.clock.tocks());
    }

    fn tick(&mut self, notes: &mut impl Notes) {
        if !self.clock.tick() {
            return;
        }
        while let Some(timer) = self.timers.take_due(self.clock.tocks()) {
            notes.note(Event::Due { task: timer.task, semaphore: timer.semaphore });
            self.signal_kept(timer.semaphore, notes);
        }
    }

    fn wait_on(&mut self, task: u8, semaphore: u8) {
        self.set_semaphore(semaphore, Semaphore::Waiting(task));
        self.tasks.get_mut(task).waits_on = semaphore;
        self.tasks.block(task, Block::EventWait);
    }

    pub(crate) fn set_outcome(&mut self, task: u8, outcome: Outcome) {
        self.tasks.get_mut(task).outcome = outcome;
    }

    fn set_semaphore(&mut self, number: u8, state: Semaphore) {
        self.semaphores[usize::from(number)] = state;
    }
}
