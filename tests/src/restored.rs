//! The executive in a state that is given by its items: any state that they can describe, also one that no session reaches.

use crate::clock::Clock;
use crate::configuration::Configuration;
use crate::executive::Executive;
use crate::items::{Items, OutcomeItem, RequestItem, TaskItem};
use crate::semaphore::Semaphore;
use crate::tasks::{Outcome, Request, Task, Tasks, SLOT_BYTES};
use crate::timers::{Timer, Timers};

impl Executive {
    /// The lists of the items are as long as the configuration says, or as it allows.
    pub fn restored(configuration: Configuration, items: &Items) -> Self {
        let waits_on = |task: u8| {
            let place = items.semaphores.iter().position(|state| *state == Semaphore::Waiting(task));
            place.map_or(0, |place| place as u8 + 1)
        };
        let tasks = (1..=configuration.tasks).zip(&items.tasks).map(|(task, item)| restored_task(item, waits_on(task)));
        let timers = items.timers.iter().map(|timer| Timer {
            task: timer.task,
            semaphore: timer.semaphore,
            due: timer.tocks_left,
            period: timer.period,
        });
        let mut restored = Executive::fresh(configuration);
        restored.tasks = Tasks::restored(tasks);
        restored.clock = Clock::restored(restored.configuration.ticks_per_tock, items.ticks);
        restored.timers = Timers::restored(restored.configuration.timers, timers.collect());
        restored.semaphores[1..].copy_from_slice(&items.semaphores);
        restored.restored = true;
        for (task, mailbox) in (1..).zip(&items.mailboxes) {
            mailbox.iter().for_each(|letter| restored.mailboxes.append(task, *letter));
        }
        for (queue, entries) in (1..).zip(&items.queues) {
            entries.iter().for_each(|entry| restored.queues.put(queue, entry));
        }
        restored
    }

    /// Every semaphore that is WAITING with the task becomes PENDING.
    pub(crate) fn withdraw(&mut self, task: u8) {
        let waiting = self.semaphores.iter_mut().filter(|state| **state == Semaphore::Waiting(task));
        waiting.for_each(|state| *state = Semaphore::Pending);
    }
}

fn restored_task(item: &TaskItem, waits_on: u8) -> Task {
    let outcome = match &item.outcome {
        OutcomeItem::Plain => Outcome::Plain,
        OutcomeItem::Begin => Outcome::Begin,
        OutcomeItem::Message(letter) => Outcome::Message(*letter),
        OutcomeItem::Entry(bytes) => Outcome::Entry(bytes.len() as u8),
        OutcomeItem::Refused(number) => Outcome::Refused(*number),
        OutcomeItem::Semaphore(number) => Outcome::Semaphore(*number),
        OutcomeItem::Woke(task) => Outcome::Woke(*task),
    };
    let request = match &item.request {
        RequestItem::None => Request::None,
        RequestItem::Receive(from) => Request::Receive(*from),
        RequestItem::Dequeue(queue) => Request::Dequeue(*queue),
        RequestItem::Enqueue(queue, bytes) => {
            let mut entry = [0; SLOT_BYTES];
            entry[..bytes.len()].copy_from_slice(bytes);
            Request::Enqueue(*queue, entry)
        }
    };
    Task::restored(item.blocks, outcome, request, item.slot, waits_on)
}
