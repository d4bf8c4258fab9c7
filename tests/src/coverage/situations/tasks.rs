//! Resume, suspend, terminate and execute.

use super::{Situation, Step};
use crate::command::*;
use crate::tasks::Block;

fn runnable(s: &Step) -> bool {
    s.blocks().is_empty()
}

pub const TABLE: &[Situation] = &[
    ("resume a suspended task", |s| s.accepts(RESUME) && s.had(Block::Suspended)),
    ("resume a task that isn't suspended", |s| s.accepts(RESUME) && !s.had(Block::Suspended)),
    ("resume oneself", |s| s.accepts(RESUME) && s.a() == s.own()),
    ("resume a task that then runs", |s| s.accepts(RESUME) && s.answer.running() == s.a() && s.a() < s.own()),
    ("resume a task that still waits", |s| s.accepts(RESUME) && s.had(Block::Suspended) && s.blocks().waits()),
    ("suspend oneself by 0", |s| s.accepts(SUSPEND) && s.a() == 0),
    ("suspend oneself by number", |s| s.accepts(SUSPEND) && s.a() == s.own()),
    ("suspend a runnable task", |s| s.accepts(SUSPEND) && s.task() != s.own() && runnable(s)),
    ("suspend an idle task", |s| s.accepts(SUSPEND) && s.had(Block::Idle)),
    ("suspend a task in event wait", |s| s.accepts(SUSPEND) && s.had(Block::EventWait)),
    ("suspend a task in message wait", |s| s.accepts(SUSPEND) && s.had(Block::MessageWait)),
    ("suspend a woken task", |s| s.accepts(SUSPEND) && s.was_woken(s.task())),
    ("terminate oneself by 0", |s| s.accepts(TERMINATE) && s.a() == 0),
    ("terminate oneself by number", |s| s.accepts(TERMINATE) && s.a() == s.own()),
    ("terminate an idle task", |s| s.accepts(TERMINATE) && s.had(Block::Idle)),
    ("terminate a suspended task", |s| s.accepts(TERMINATE) && s.had(Block::Suspended)),
    ("terminate a task in event wait", |s| s.accepts(TERMINATE) && s.had(Block::EventWait)),
    ("terminate a task in message wait", |s| s.accepts(TERMINATE) && s.had(Block::MessageWait)),
    ("terminate a woken task", |s| s.accepts(TERMINATE) && s.was_woken(s.task())),
    ("terminate a task at a queue", |s| {
        s.accepts(TERMINATE)
            && s.had(Block::EventWait)
            && s.old(s.task()).waits_on > s.before.configuration().nameable_semaphores()
    }),
    ("terminate a task with timers", |s| s.accepts(TERMINATE) && s.timers_of(s.task()) > 0),
    ("terminate a task with a mailbox", |s| s.accepts(TERMINATE) && !s.mail(s.task()).is_empty()),
    ("terminate a task with timers and a mailbox", |s| {
        s.accepts(TERMINATE) && s.timers_of(s.task()) > 0 && !s.mail(s.task()).is_empty()
    }),
    ("terminate leaves others' timers on the task's semaphore", |s| {
        let semaphore = || s.before.configuration().semaphore_of_task(s.task());
        s.accepts(TERMINATE) && s.new_timers().iter().any(|timer| timer.semaphore == semaphore())
    }),
    ("execute an idle task", |s| s.accepts(EXECUTE) && s.had(Block::Idle)),
    ("execute a runnable task", |s| s.accepts(EXECUTE) && runnable(s) && !s.was_woken(s.a())),
    ("execute a suspended task", |s| s.accepts(EXECUTE) && s.had(Block::Suspended)),
    ("execute a task in event wait", |s| s.accepts(EXECUTE) && s.had(Block::EventWait)),
    ("execute a task in message wait", |s| s.accepts(EXECUTE) && s.had(Block::MessageWait)),
    ("execute a woken task", |s| s.accepts(EXECUTE) && s.was_woken(s.a())),
    ("execute a task with timers", |s| s.accepts(EXECUTE) && s.timers_of(s.a()) > 0),
    ("execute a task with a mailbox", |s| s.accepts(EXECUTE) && !s.mail(s.a()).is_empty()),
    ("execute a task with an entry in its slot", |s| {
        s.accepts(EXECUTE) && s.old(s.a()).slot.iter().any(|&byte| byte != 0)
    }),
];
