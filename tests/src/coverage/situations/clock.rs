//! The tick.

use super::{Situation, Step};
use crate::command::*;
use crate::semaphore::Semaphore;

fn cyclic_due(s: &Step) -> usize {
    s.due().iter().filter(|timer| timer.period != 0).count()
}

/// Some due timer found its semaphore in such a state.
fn some_due(s: &Step, fits: impl Fn(u8, Semaphore) -> bool) -> bool {
    s.accepts(TICK) && s.due().iter().any(|timer| fits(timer.task, s.before.semaphore(timer.semaphore)))
}

pub const TABLE: &[Situation] = &[
    ("tick within a tock", |s| s.accepts(TICK) && !s.tock_passed()),
    ("tock of several ticks", |s| s.accepts(TICK) && s.tock_passed() && s.before.clock().ticks() > 0),
    ("tock without a timer due", |s| s.accepts(TICK) && s.tock_passed() && s.due().is_empty()),
    ("one-shot due", |s| s.accepts(TICK) && s.due().len() > cyclic_due(s)),
    ("cyclic due", |s| s.accepts(TICK) && cyclic_due(s) > 0),
    ("several due in one tock", |s| s.accepts(TICK) && s.due().len() > 1),
    ("four or more due in one tock", |s| s.accepts(TICK) && s.due().len() > 3),
    ("several cyclic due in one tock", |s| s.accepts(TICK) && cyclic_due(s) > 1),
    ("several cyclic of one period due in one tock", |s| {
        let due = s.due();
        let twice = |place: usize| due[place + 1..].iter().any(|other| other.period == due[place].period);
        s.accepts(TICK) && (0..due.len()).any(|place| due[place].period != 0 && twice(place))
    }),
    ("one-shot and cyclic due in one tock", |s| s.accepts(TICK) && cyclic_due(s) > 0 && s.due().len() > cyclic_due(s)),
    ("cyclic goes in before others", |s| {
        let last = s.new_timers().last();
        cyclic_due(s) > 0 && s.accepts(TICK) && last.is_some_and(|last| s.timers().contains(last))
    }),
    ("two timers due on one semaphore", |s| {
        let due = s.due();
        let twice = |place: usize| due[place + 1..].iter().any(|other| other.semaphore == due[place].semaphore);
        s.accepts(TICK) && (0..due.len()).any(twice)
    }),
    ("due wakes its own task", |s| some_due(s, |task, state| state == Semaphore::Waiting(task))),
    ("due wakes another task", |s| some_due(s, |task, state| state.is_waiting() && state != Semaphore::Waiting(task))),
    ("due wakes and the running task keeps its outcome", |s| {
        let running = s.answer.running();
        running != 0 && running == s.own() && some_due(s, |_, state| state.is_waiting())
    }),
    ("due on PENDING", |s| some_due(s, |_, state| state == Semaphore::Pending)),
    ("due on DONE", |s| some_due(s, |_, state| state == Semaphore::Done)),
    ("tick in the null task", |s| s.accepts(TICK) && s.own() == 0),
];
