//! What a frame does on its way, for those who look at a session: the state behind it does not show all of this.

use crate::numbers::Number;
use crate::tasks::Request;

#[derive(Clone, Copy, Debug, PartialEq, Eq)]
pub enum Event {
    /// A timer of this task is due and signals this semaphore.
    Due { task: u8, semaphore: u8 },
    /// The task's wait for this semaphore ended, or for 0 its wait for a message.
    Woken { task: u8, semaphore: u8 },
    /// The semaphore was signalled while it was DONE.
    Lost { semaphore: u8 },
    /// Settling issued the task's request again.
    Issued { task: u8, request: Request, ended: Ended },
}

#[derive(Clone, Copy, Debug, PartialEq, Eq)]
pub enum Ended {
    Completed,
    Waits,
    Refused(Number),
}

/// Whoever is told. Nobody is, unless a frame is fed with a list: then it costs nothing.
pub trait Notes {
    fn note(&mut self, event: Event);
    /// How the request ended that was issued last.
    fn end(&mut self, how: Ended);
}

impl Notes for () {
    fn note(&mut self, _: Event) {}
    fn end(&mut self, _: Ended) {}
}

impl Notes for Vec<Event> {
    fn note(&mut self, event: Event) {
        self.push(event);
    }

    fn end(&mut self, how: Ended) {
        let issued = self.iter_mut().rev().find_map(|event| match event {
            Event::Issued { ended, .. } => Some(ended),
            _ => None,
        });
        if let Some(ended) = issued {
            *ended = how;
        }
    }
}
