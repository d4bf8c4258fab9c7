//! Terminates that drop a message which no session leaves, or signal a semaphore in a state that no session has.

use plain_executive::command::TERMINATE;
use plain_executive::executive::Executive;
use plain_executive::semaphore::Semaphore;
use plain_executive::tasks::{Block, Letter};

type Situation = (&'static str, fn(&Seen, u8) -> bool);

/// Of the semaphore of one message.
pub const DROPPED: [Situation; 9] = [
    ("semaphore 0", |_, number| number == 0),
    ("a semaphore above all", |seen, number| number > seen.executive.configuration().semaphores()),
    ("a queue's, PENDING", |seen, number| seen.is_of_a_queue(number) && seen.state(number) == Some(Semaphore::Pending)),
    ("a queue's, DONE", |seen, number| seen.is_of_a_queue(number) && seen.state(number) == Some(Semaphore::Done)),
    ("a queue's, WAITING", |seen, number| seen.is_of_a_queue(number) && seen.waiter(number).is_some()),
    ("the last semaphore of all", |seen, number| number == seen.executive.configuration().semaphores()),
    ("WAITING with a task without event wait", |seen, number| {
        seen.waiter(number).is_some_and(|task| task != seen.ended && !seen.has_event_wait(task))
    }),
    ("WAITING with a task that waits on another too", |seen, number| {
        seen.waiter(number).is_some_and(|task| task != seen.ended && seen.waited_on(task) > 1)
    }),
    ("WAITING with the ended task, as another is too", |seen, number| {
        seen.waiter(number) == Some(seen.ended) && seen.waited_on(seen.ended) > 1
    }),
];

/// Their names. The executive has the state before the frame.
pub fn dropped(executive: &Executive, frame: &[u8]) -> Vec<&'static str> {
    let &[TERMINATE, a, _, _, _] = frame else { return Vec::new() };
    let ended = if a == 0 { executive.running() } else { a };
    if executive.running() == 0 || ended > executive.configuration().tasks {
        return Vec::new();
    }
    let seen = Seen { executive, ended };
    let letters: Vec<Letter> = executive.mailboxes().letters(ended).collect();
    let met = |is_so: fn(&Seen, u8) -> bool| letters.iter().any(|letter| is_so(&seen, letter.semaphore));
    DROPPED.iter().filter(|(_, is_so)| met(*is_so)).map(|(name, _)| *name).collect()
}

pub struct Seen<'a> {
    executive: &'a Executive,
    ended: u8,
}

impl Seen<'_> {
    fn is_of_a_queue(&self, number: u8) -> bool {
        let configuration = self.executive.configuration();
        configuration.nameable_semaphores() < number && number <= configuration.semaphores()
    }

    fn state(&self, number: u8) -> Option<Semaphore> {
        let is_one = (1..=self.executive.configuration().semaphores()).contains(&number);
        is_one.then(|| self.executive.semaphore(number))
    }

    fn waiter(&self, number: u8) -> Option<u8> {
        match self.state(number) {
            Some(Semaphore::Waiting(task)) => Some(task),
            _ => None,
        }
    }

    /// How many semaphores are WAITING with the task.
    fn waited_on(&self, task: u8) -> usize {
        let numbers = 1..=self.executive.configuration().semaphores();
        numbers.filter(|&number| self.waiter(number) == Some(task)).count()
    }

    fn has_event_wait(&self, task: u8) -> bool {
        self.executive.tasks().get(task).blocks().has(Block::EventWait)
    }
}
