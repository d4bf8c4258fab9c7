//! Delay, timer and purge.

use super::{Situation, Step};
use crate::command::*;
use crate::semaphore::Semaphore;
use crate::tasks::Block;

fn starts(s: &Step) -> bool {
    s.accepts(DELAY) || s.accepts(TIMER)
}

fn equal_due_before(s: &Step) -> bool {
    let (timers, place) = (s.new_timers(), s.started_at());
    place > 0 && timers[place - 1].due == timers[place].due
}

fn purges_all(s: &Step) -> bool {
    s.accepts(PURGE) && s.x() as u8 == 0
}

fn purges_one(s: &Step) -> bool {
    s.accepts(PURGE) && s.x() as u8 != 0
}

pub const TABLE: &[Situation] = &[
    ("delay oneself", |s| s.accepts(DELAY) && s.task() == s.own()),
    ("delay another task", |s| s.accepts(DELAY) && s.task() != s.own()),
    ("delay another task, 0 as semaphore", |s| s.accepts(DELAY) && s.task() != s.own() && s.b() == 0),
    ("delay a suspended task", |s| s.accepts(DELAY) && s.had(Block::Suspended)),
    ("delay a woken task", |s| s.accepts(DELAY) && s.was_woken(s.task())),
    ("delay on DONE", |s| s.accepts(DELAY) && s.state() == Semaphore::Done),
    ("delay, cyclic", |s| s.accepts(DELAY) && s.x() >= 0x8000),
    ("timer, one-shot", |s| s.accepts(TIMER) && s.x() < 0x8000),
    ("timer, cyclic", |s| s.accepts(TIMER) && s.x() >= 0x8000),
    ("timer for another task, 0 as semaphore", |s| s.accepts(TIMER) && s.task() != s.own() && s.b() == 0),
    ("timer for an idle task", |s| s.accepts(TIMER) && s.had(Block::Idle)),
    ("timer on a WAITING semaphore", |s| s.accepts(TIMER) && s.state().is_waiting()),
    ("timer on DONE", |s| s.accepts(TIMER) && s.state() == Semaphore::Done),
    ("X = 7FFF", |s| starts(s) && s.x() == 0x7FFF),
    ("X = FFFF", |s| starts(s) && s.x() == 0xFFFF),
    ("X = 8000", |s| starts(s) && s.x() == 0x8000),
    ("X = 8001", |s| starts(s) && s.x() == 0x8001),
    ("started before others", |s| starts(s) && s.started_at() + 1 < s.new_timers().len()),
    ("started behind an equal due tock", |s| starts(s) && equal_due_before(s)),
    ("the last timer record is taken", |s| starts(s) && s.after.timers().all_active()),
    ("purge all of several", |s| purges_all(s) && s.removed_timers() > 1),
    ("purge all leaves other tasks' timers", |s| purges_all(s) && s.removed_timers() > 0 && !s.new_timers().is_empty()),
    ("purge all names a semaphore", |s| purges_all(s) && s.removed_timers() > 0 && s.b() != 0),
    ("purge all with a high byte of X", |s| purges_all(s) && s.x() != 0 && s.removed_timers() > 0),
    ("purge one", |s| purges_one(s) && s.removed_timers() == 1),
    ("purge one by 0", |s| purges_one(s) && s.b() == 0 && s.removed_timers() == 1),
    ("purge one by 0 leaves the task's other timers", |s| {
        purges_one(s) && s.b() == 0 && s.removed_timers() == 1 && s.timers_of(s.task()) > 1
    }),
    ("purge one leaves another task's timer on the semaphore", |s| {
        purges_one(s) && s.removed_timers() == 1 && s.new_timers().iter().any(|timer| timer.semaphore == s.semaphore())
    }),
    ("purge nothing", |s| s.accepts(PURGE) && s.removed_timers() == 0),
    ("purge of a task that waits on", |s| s.accepts(PURGE) && s.removed_timers() > 0 && s.had(Block::EventWait)),
];
