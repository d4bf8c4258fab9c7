//! Dequeue and enqueue, as they are first issued.

use super::{Situation, Step};
use crate::answer;
use crate::command::*;

fn takes(s: &Step) -> bool {
    s.accepts(DEQUEUE) && !s.before.queues().is_empty(s.a())
}

fn puts(s: &Step) -> bool {
    s.accepts(ENQUEUE) && !s.before.queues().is_full(s.a())
}

fn depth(s: &Step) -> usize {
    usize::from(s.before.configuration().queues[usize::from(s.a()) - 1].depth)
}

fn waits_at_not_full(s: &Step) -> bool {
    s.before.semaphore(s.before.configuration().not_full(s.a())).is_waiting()
}

fn waits_at_not_empty(s: &Step) -> bool {
    s.before.semaphore(s.before.configuration().not_empty(s.a())).is_waiting()
}

/// More was put than the queue holds at once.
fn comes_around(s: &Step) -> bool {
    s.after.history().is_some_and(|histories| histories[usize::from(s.a()) - 1].put.len() > depth(s))
}

pub const TABLE: &[Situation] = &[
    ("dequeue takes", takes),
    ("dequeue empties", |s| takes(s) && s.before.queues().held(s.a()) == 1),
    ("dequeue takes from a full queue", |s| takes(s) && s.before.queues().is_full(s.a())),
    ("dequeue wakes the one that puts", |s| takes(s) && waits_at_not_full(s)),
    ("dequeue wakes and shows its entry", |s| {
        takes(s) && waits_at_not_full(s) && s.answer.running() == s.own() && s.answer.kind() == answer::ENTRY
    }),
    ("dequeue waits", |s| s.accepts(DEQUEUE) && s.before.queues().is_empty(s.a())),
    ("dequeue leaves a slot's other bytes", |s| {
        let own = s.now(s.own());
        takes(s) && own.slot[s.before.configuration().width(s.a())..].iter().any(|&byte| byte != 0)
    }),
    ("dequeue of the second or later of several", |s| takes(s) && depth(s) > 1 && comes_around(s)),
    ("enqueue puts", puts),
    ("enqueue fills", |s| puts(s) && s.before.queues().held(s.a()) + 1 == depth(s)),
    ("enqueue fills more than one place", |s| puts(s) && depth(s) > 1 && s.before.queues().held(s.a()) + 1 == depth(s)),
    ("enqueue wakes the one that takes", |s| puts(s) && waits_at_not_empty(s)),
    ("enqueue wakes and shows plain", |s| {
        puts(s) && waits_at_not_empty(s) && s.answer.running() == s.own() && s.answer.kind() == answer::PLAIN
    }),
    ("enqueue waits", |s| s.accepts(ENQUEUE) && s.before.queues().is_full(s.a())),
    ("enqueue of 16 bytes waits", |s| {
        s.accepts(ENQUEUE) && s.before.queues().is_full(s.a()) && s.before.configuration().width(s.a()) == 16
    }),
    ("enqueue comes around", |s| puts(s) && depth(s) > 1 && comes_around(s)),
];
