//! Requests that are issued again.

use super::messages;
use super::{Situation, Step};
use crate::command::*;
use crate::numbers::SEMAPHORE_WAITING;
use crate::tasks::{Block, Outcome, Request};

/// Some task that was woken before this frame and now waits again with the same request.
fn waits_again(s: &Step, fits: fn(&Request) -> bool) -> bool {
    s.answer.reissues() > 0
        && s.some_task(|task| {
            let same = s.old(task).request == s.now(task).request && fits(&s.old(task).request);
            same && s.was_woken(task)
                && s.now(task).blocks().waits()
                && Some(s.now(task).waits_on) != delayed_on(s, task)
        })
}

/// The semaphore that a delay of this frame makes the task wait on.
fn delayed_on(s: &Step, task: u8) -> Option<u8> {
    (s.accepts(DELAY) && s.task() == task).then(|| s.semaphore())
}

fn completes(s: &Step, fits: fn(&Request) -> bool, outcome: fn(Outcome) -> bool) -> bool {
    let restarted = |task: u8| matches!(s.code(), EXECUTE | TERMINATE) && s.task() == task;
    s.answer.reissues() > 0
        && s.some_task(|task| {
            let closed = fits(&s.old(task).request) && s.now(task).request == Request::None;
            closed && !restarted(task) && outcome(s.now(task).outcome)
        })
}

fn is_receive(request: &Request) -> bool {
    matches!(request, Request::Receive(_))
}

fn is_dequeue(request: &Request) -> bool {
    matches!(request, Request::Dequeue(_))
}

fn is_enqueue(request: &Request) -> bool {
    matches!(request, Request::Enqueue(..))
}

fn is_21(outcome: Outcome) -> bool {
    outcome == Outcome::Refused(SEMAPHORE_WAITING)
}

pub const TABLE: &[Situation] = &[
    ("no reissue", |s| s.answer.reissues() == 0),
    ("1 reissue", |s| s.answer.reissues() == 1),
    ("2 reissues", |s| s.answer.reissues() == 2),
    ("3 reissues or more", |s| s.answer.reissues() >= 3),
    ("5 reissues or more", |s| s.answer.reissues() >= 5),
    ("90 reissues or more", |s| s.answer.reissues() >= 90),
    ("receive completes", |s| completes(s, is_receive, |o| matches!(o, Outcome::Message(_)))),
    ("dequeue completes", |s| completes(s, is_dequeue, |o| matches!(o, Outcome::Entry(_)))),
    ("enqueue completes", |s| completes(s, is_enqueue, |o| o == Outcome::Plain)),
    ("dequeue meets 21", |s| completes(s, is_dequeue, is_21)),
    ("enqueue meets 21", |s| completes(s, is_enqueue, is_21)),
    ("receive waits again", |s| waits_again(s, is_receive)),
    ("receive waits again at once", |s| {
        messages::sends(s) && s.had(Block::MessageWait) && s.now(s.a()).blocks().has(Block::MessageWait)
    }),
    ("dequeue waits again", |s| waits_again(s, is_dequeue)),
    ("enqueue waits again", |s| waits_again(s, is_enqueue)),
    ("several receives wait again in one frame", |s| {
        let again = |task: u8| s.was_woken(task) && s.now(task).blocks().has(Block::MessageWait);
        (1..=s.before.configuration().tasks).filter(|&task| again(task)).count() >= 2
    }),
    ("a put that was waiting wakes a dequeue that completes", |s| {
        completes(s, is_enqueue, |o| o == Outcome::Plain)
            && completes(s, is_dequeue, |o| matches!(o, Outcome::Entry(_)))
    }),
    ("a timer wakes a delayed task with an open request", |s| {
        let nameable = s.before.configuration().nameable_semaphores();
        let delayed = |task: u8| s.old(task).request != Request::None && (1..=nameable).contains(&s.old(task).waits_on);
        s.accepts(TICK)
            && s.answer.reissues() > 0
            && s.some_task(|task| delayed(task) && s.now(task).waits_on != s.old(task).waits_on)
    }),
];
