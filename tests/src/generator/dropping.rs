//! Moves that fill a mailbox and then terminate its task.

use super::fields::is_woken;
use super::Generator;
use crate::command::*;
use crate::executive::Executive;
use crate::semaphore::Semaphore;
use crate::tasks::{Block, Letter, Request};

impl Generator {
    /// Most moves are about the task with the most messages. The more it has, the sooner it is terminated, and at once where no
    /// message is left.
    pub(super) fn dropping(&mut self, executive: &Executive, own: u8) -> Vec<u8> {
        let to = self.addressee(executive);
        let lying = executive.mailboxes().letters(to).count();
        if let Some(frame) = self.about_a_request(executive, to, own) {
            return frame;
        }
        if self.random.below(12) < lying {
            return self.terminate(to, own);
        }
        let intended = match self.random.below(10) {
            0 => self.suspend_a_sender(executive, to),
            1 | 2 => self.start_again(executive, to),
            3 => {
                let other = self.random.between(1, executive.configuration().tasks);
                self.write(executive, other, own)
            }
            _ => None,
        };
        intended.or_else(|| self.write(executive, to, own)).unwrap_or_else(|| self.terminate(to, own))
    }

    fn addressee(&mut self, executive: &Executive) -> u8 {
        let tasks = 1..=executive.configuration().tasks;
        let mail = |task: &u8| executive.mailboxes().letters(*task).count();
        let most = tasks.clone().max_by_key(mail).filter(|task| mail(task) > 0);
        most.unwrap_or_else(|| self.random.between(*tasks.start(), *tasks.end()))
    }

    fn terminate(&mut self, task: u8, own: u8) -> Vec<u8> {
        let named = if task == own && self.random.percent(50) { 0 } else { task };
        vec![TERMINATE, named, 0, 0, 0]
    }

    /// With sendw, mostly, where its semaphore isn't WAITING. None where all messages lie.
    fn write(&mut self, executive: &Executive, to: u8, own: u8) -> Option<Vec<u8>> {
        let message = self.message_that(executive, false)?;
        let semaphore = self.receipt(executive, to);
        let meant = if semaphore == 0 { executive.configuration().semaphore_of_task(own) } else { semaphore };
        let waits = !executive.semaphore(meant).is_waiting() && self.random.percent(65);
        Some(vec![if waits { SENDW } else { SEND }, to, semaphore, 0, message])
    }

    /// The semaphore of a message: mostly the sender's own, but also that of another message in the mailbox, and the one that the
    /// addressee waits on.
    fn receipt(&mut self, executive: &Executive, to: u8) -> u8 {
        let nameable = 1..=executive.configuration().nameable_semaphores();
        let waits_on = |task: u8| Some(executive.tasks().get(task).waits_on).filter(|number| nameable.contains(number));
        let chosen = match self.random.below(16) {
            0..=8 => None,
            9 | 10 => {
                let letters: Vec<Letter> = executive.mailboxes().letters(to).collect();
                self.random.pick_if(&letters).map(|letter| letter.semaphore)
            }
            11 | 12 => waits_on(to),
            13 => Some(self.semaphore_that(executive, |state| state == Semaphore::Done)),
            14 => Some(self.semaphore_that(executive, Semaphore::is_waiting)),
            _ => Some(self.random.between(*nameable.start(), *nameable.end())),
        };
        chosen.unwrap_or(0)
    }

    /// One that waits, of those that wrote to the task.
    fn suspend_a_sender(&mut self, executive: &Executive, to: u8) -> Option<Vec<u8>> {
        let waits = |task: u8| executive.tasks().get(task).blocks().has(Block::EventWait);
        let senders = executive.mailboxes().letters(to).map(|letter| letter.sender);
        let waiting: Vec<u8> = senders.filter(|&task| waits(task)).collect();
        let sender = self.random.pick_if(&waiting)?;
        Some(vec![SUSPEND, sender, 0, 0, 0])
    }

    /// A task that ended can write again.
    fn start_again(&mut self, executive: &Executive, to: u8) -> Option<Vec<u8>> {
        let idle = |task: u8| executive.tasks().get(task).blocks().has(Block::Idle);
        let tasks = 1..=executive.configuration().tasks;
        let others: Vec<u8> = tasks.filter(|&task| idle(task) && (task != to || self.random.percent(10))).collect();
        self.random.pick_if(&others).map(|task| vec![EXECUTE, task, 0, 0, 0])
    }

    /// Leads to a task that waits, with a request open, on a semaphore which messages can have: it is woken, and delayed before it
    /// runs. Then a message gets that semaphore, or the caller asks for the same, so that the task finds nothing or another waiting.
    fn about_a_request(&mut self, executive: &Executive, to: u8, own: u8) -> Option<Vec<u8>> {
        let nameable = 1..=executive.configuration().nameable_semaphores();
        let record = |task: u8| executive.tasks().get(task);
        let open = |task: &u8| *task != own && record(*task).request != Request::None;
        let tasks: Vec<u8> = (1..=executive.configuration().tasks).filter(open).collect();
        let mut one = |fits: &dyn Fn(u8) -> bool| {
            let fitting: Vec<u8> = tasks.iter().copied().filter(|&task| fits(task)).collect();
            self.random.pick_if(&fitting)
        };
        let delayed = one(&|task| nameable.contains(&record(task).waits_on));
        let woken = one(&|task| is_woken(executive, task));
        let waiting = one(&|task| task > own && record(task).blocks().waits());
        match (delayed, woken, waiting, self.random.below(10)) {
            (Some(task), _, _, 0..=4) => self.write_or_end(executive, to, own, record(task).waits_on),
            (Some(task), _, _, 5 | 6) => self.as_asked(executive, record(task).request),
            (None, Some(task), _, 0..=6) => Some([vec![DELAY, task, 0], self.tocks().to_vec()].concat()),
            (None, None, Some(task), 0) => self.wake(executive, task),
            _ => None,
        }
    }

    /// A message with this semaphore is sent, often to the running task itself. Where one lies already, its receiver is terminated, if
    /// the task that this frees runs then, and so settles.
    fn write_or_end(&mut self, executive: &Executive, to: u8, own: u8, semaphore: u8) -> Option<Vec<u8>> {
        let has = |task: &u8| executive.mailboxes().letters(*task).any(|letter| letter.semaphore == semaphore);
        let Semaphore::Waiting(waiter) = executive.semaphore(semaphore) else { return None };
        match (1..=executive.configuration().tasks).find(has) {
            None => {
                let to = if self.random.percent(50) { own } else { to };
                self.message_that(executive, false).map(|message| vec![SEND, to, semaphore, 0, message])
            }
            Some(holder) if holder == own || waiter < own => Some(self.terminate(holder, own)),
            Some(_) => None,
        }
    }
}
