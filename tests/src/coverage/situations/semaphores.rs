//! Wait, signal, pend and the interrupt exit.

use super::{Situation, Step};
use crate::answer;
use crate::command::*;
use crate::semaphore::Semaphore;
use crate::tasks::{Block, Outcome};

/// A named semaphore, not one that belongs to a task.
fn named(s: &Step) -> bool {
    s.semaphore() <= s.before.configuration().named_semaphores
}

fn owned_by_another(s: &Step) -> bool {
    !named(s) && s.semaphore() != s.before.configuration().semaphore_of_task(s.own())
}

/// Task that B's semaphore was WAITING with, or 0.
fn waiter(s: &Step) -> u8 {
    match s.state() {
        Semaphore::Waiting(task) => task,
        _ => 0,
    }
}

pub const TABLE: &[Situation] = &[
    ("wait on DONE", |s| s.accepts(WAIT) && s.state() == Semaphore::Done),
    ("wait on PENDING", |s| s.accepts(WAIT) && s.state() == Semaphore::Pending),
    ("wait on its own by 0", |s| s.accepts(WAIT) && s.b() == 0),
    ("wait on its own by number", |s| s.accepts(WAIT) && s.b() != 0 && !named(s) && !owned_by_another(s)),
    ("wait on another task's", |s| s.accepts(WAIT) && owned_by_another(s)),
    ("wait on a named one", |s| s.accepts(WAIT) && named(s)),
    ("signal on PENDING", |s| s.accepts(SIGNAL) && s.state() == Semaphore::Pending),
    ("signal on DONE", |s| s.accepts(SIGNAL) && s.state() == Semaphore::Done),
    ("signal by 0", |s| s.accepts(SIGNAL) && s.b() == 0),
    ("signal wakes a task that runs at once", |s| s.accepts(SIGNAL) && s.answer.running() < s.own()),
    ("signal wakes a task of lower priority", |s| s.accepts(SIGNAL) && waiter(s) > s.own()),
    ("signal wakes a suspended task", |s| {
        s.accepts(SIGNAL) && waiter(s) != 0 && s.now(waiter(s)).blocks().has(Block::Suspended)
    }),
    ("the woken task ran first, and now its waker is shown whom it woke", |s| {
        s.own() != 0 && s.own() < s.answer.running() && s.answer.bytes()[3..] == [answer::WOKE, s.own()]
    }),
    ("pend on DONE", |s| s.accepts(PEND) && s.state() == Semaphore::Done),
    ("pend on PENDING", |s| s.accepts(PEND) && s.state() == Semaphore::Pending),
    ("interrupt exit with 0", |s| s.accepts(INTERRUPT_EXIT) && s.b() == 0),
    ("interrupt exit wakes", |s| s.accepts(INTERRUPT_EXIT) && s.b() != 0 && waiter(s) != 0),
    ("interrupt exit on PENDING", |s| s.accepts(INTERRUPT_EXIT) && s.b() != 0 && s.state() == Semaphore::Pending),
    ("interrupt exit on DONE", |s| s.accepts(INTERRUPT_EXIT) && s.b() != 0 && s.state() == Semaphore::Done),
    ("interrupt exit in the null task", |s| s.accepts(INTERRUPT_EXIT) && s.own() == 0),
    ("interrupt exit keeps an outcome", |s| {
        s.accepts(INTERRUPT_EXIT)
            && s.own() != 0
            && s.old(s.own()).outcome != Outcome::Plain
            && s.own() == s.answer.running()
    }),
    ("interrupt exit wakes and the running task keeps its outcome", |s| {
        s.accepts(INTERRUPT_EXIT) && s.b() != 0 && waiter(s) != 0 && s.own() != 0 && s.own() == s.answer.running()
    }),
];
