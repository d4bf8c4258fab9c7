//! Settling: while the running task has an open request, it is closed and issued again.

use crate::executive::Executive;
use crate::numbers::Number;
use crate::tasks::{Outcome, Request};
use crate::trail::{Ended, Event, Notes};

impl Executive {
    /// Counts the reissues.
    pub(crate) fn settle(&mut self, notes: &mut impl Notes) -> u8 {
        let mut reissues = 0;
        loop {
            let own = self.running();
            let request = self.tasks.get(own).request;
            if request == Request::None {
                return reissues;
            }
            self.tasks.get_mut(own).request = Request::None;
            notes.note(Event::Issued { task: own, request, ended: Ended::Completed });
            if let Err(number) = self.reissue(own, request, notes) {
                self.set_outcome(own, Outcome::Refused(number));
                notes.end(Ended::Refused(number));
            }
            if self.tasks.get(own).request != Request::None {
                notes.end(Ended::Waits);
            }
            reissues += 1;
        }
    }

    fn reissue(&mut self, own: u8, request: Request, notes: &mut impl Notes) -> Result<(), Number> {
        match request {
            Request::None => {}
            Request::Receive(from) => self.receive(own, from),
            Request::Dequeue(queue) => {
                self.may_dequeue(queue)?;
                self.dequeue(own, queue, notes);
            }
            Request::Enqueue(queue, entry) => {
                self.may_enqueue(queue)?;
                self.enqueue(own, queue, &entry[..self.configuration.width(queue)], notes);
            }
        }
        Ok(())
    }
}
