//! Terminate of a task with messages, which signal.

use super::{Situation, Step};
use crate::command::*;
use crate::numbers::SEMAPHORE_WAITING;
use crate::semaphore::Semaphore;
use crate::tasks::{Block, Letter, Outcome, Request};

fn drops(s: &Step) -> bool {
    s.accepts(TERMINATE) && !dropped(s).is_empty()
}

fn dropped(s: &Step) -> Vec<Letter> {
    s.mail(s.task())
}

/// The tasks that wait on the semaphores of dropped messages, but for the terminated one.
fn freed(s: &Step) -> Vec<u8> {
    if !drops(s) {
        return Vec::new();
    }
    let numbers: Vec<u8> = dropped(s).iter().map(|letter| letter.semaphore).collect();
    let is_freed = |&task: &u8| task != s.task() && numbers.contains(&s.old(task).waits_on);
    (1..=s.before.configuration().tasks).filter(is_freed).collect()
}

fn frees(s: &Step, fits: impl Fn(u8) -> bool) -> bool {
    freed(s).into_iter().any(fits)
}

/// A semaphore of so many dropped messages was in such a state, and is now in this one.
fn becomes(s: &Step, messages: usize, old: fn(Semaphore) -> bool, new: Semaphore) -> bool {
    let of = |number: u8| dropped(s).iter().filter(|letter| letter.semaphore == number).count();
    let fits =
        |number: u8| of(number) == messages && old(s.before.semaphore(number)) && s.after.semaphore(number) == new;
    drops(s) && dropped(s).iter().any(|letter| fits(letter.semaphore))
}

/// A freed task had an open request, and now has this request and outcome.
fn settles(s: &Step, fits: fn(Request, Outcome) -> bool) -> bool {
    let fits = |task: u8| s.old(task).request != Request::None && fits(s.now(task).request, s.now(task).outcome);
    s.answer.reissues() > 0 && frees(s, fits)
}

fn is_pending(state: Semaphore) -> bool {
    state == Semaphore::Pending
}

fn is_done(state: Semaphore) -> bool {
    state == Semaphore::Done
}

/// The terminated task waits on the message's semaphore.
fn waits_on(s: &Step, letter: &Letter) -> bool {
    letter.semaphore == s.old(s.task()).waits_on
}

/// Some message that stays.
fn stays(s: &Step, fits: impl Fn(&Letter) -> bool) -> bool {
    drops(s) && s.some_task(|task| task != s.task() && s.new_mail(task).iter().any(&fits))
}

pub const TABLE: &[Situation] = &[
    ("1 message", |s| drops(s) && dropped(s).len() == 1),
    ("2 messages", |s| drops(s) && dropped(s).len() == 2),
    ("3 messages or more", |s| drops(s) && dropped(s).len() >= 3),
    ("all messages that there are, and more than 2", |s| {
        drops(s) && dropped(s).len() > 2 && dropped(s).len() == usize::from(s.before.configuration().messages)
    }),
    ("no task freed", |s| drops(s) && freed(s).is_empty()),
    ("1 task freed", |s| freed(s).len() == 1),
    ("2 tasks freed", |s| freed(s).len() == 2),
    ("3 tasks freed or more", |s| freed(s).len() >= 3),
    ("64 tasks freed", |s| freed(s).len() == 64),
    ("the freed task runs at once", |s| frees(s, |task| task < s.own() && s.answer.running() == task)),
    ("the caller runs on before the freed task", |s| frees(s, |task| task > s.own() && s.answer.running() == s.own())),
    ("of several freed tasks the lowest runs", |s| {
        freed(s).len() > 1 && s.answer.reissues() == 0 && freed(s).first() == Some(&s.answer.running())
    }),
    ("a task runs that is neither the caller nor freed", |s| {
        let runs = s.answer.running();
        !freed(s).is_empty() && s.task() != s.own() && runs != s.own() && !freed(s).contains(&runs)
    }),
    ("the freed task waits on a message that another sent", |s| {
        frees(s, |task| !dropped(s).iter().any(|letter| letter.sender == task))
    }),
    ("the freed task is suspended", |s| frees(s, |task| s.now(task).blocks().has(Block::Suspended))),
    ("the freed task keeps its timer", |s| {
        frees(s, |task| {
            s.new_timers().iter().any(|timer| (timer.task, timer.semaphore) == (task, s.old(task).waits_on))
        })
    }),
    ("the freed task runs, and shows what it had", |s| {
        let other = |task: u8| !matches!(s.old(task).outcome, Outcome::Semaphore(_));
        s.answer.reissues() == 0 && frees(s, |task| s.answer.running() == task && other(task))
    }),
    ("the freed task's request completes", |s| {
        settles(s, |request, outcome| request == Request::None && !matches!(outcome, Outcome::Refused(_)))
    }),
    ("the freed task's request waits again", |s| settles(s, |request, _| request != Request::None)),
    ("the freed task's request meets 21", |s| settles(s, |_, outcome| outcome == Outcome::Refused(SEMAPHORE_WAITING))),
    ("a task that is not freed settles", |s| s.answer.reissues() > 0 && drops(s) && freed(s).is_empty()),
    ("WAITING becomes PENDING", |s| becomes(s, 1, Semaphore::is_waiting, Semaphore::Pending)),
    ("WAITING, in two messages, becomes DONE", |s| becomes(s, 2, Semaphore::is_waiting, Semaphore::Done)),
    ("WAITING, in three messages, becomes DONE", |s| becomes(s, 3, Semaphore::is_waiting, Semaphore::Done)),
    ("PENDING becomes DONE", |s| becomes(s, 1, is_pending, Semaphore::Done)),
    ("PENDING, in two messages, becomes DONE", |s| becomes(s, 2, is_pending, Semaphore::Done)),
    ("DONE stays DONE", |s| becomes(s, 1, is_done, Semaphore::Done)),
    ("the semaphore that the task waits on becomes DONE", |s| {
        drops(s) && dropped(s).iter().any(|letter| waits_on(s, letter) && is_done(s.after.semaphore(letter.semaphore)))
    }),
    ("the task waits on its own message", |s| {
        drops(s) && dropped(s).iter().any(|letter| waits_on(s, letter) && letter.sender == s.task())
    }),
    ("the task waits on another semaphore, and a task is freed", |s| !freed(s).is_empty() && s.had(Block::EventWait)),
    ("the task waits for a message, and a task is freed", |s| !freed(s).is_empty() && s.had(Block::MessageWait)),
    ("the task is idle, and a task is freed", |s| !freed(s).is_empty() && s.had(Block::Idle)),
    ("the task has timers, and a task is freed", |s| !freed(s).is_empty() && s.timers_of(s.task()) > 0),
    ("oneself, no task freed", |s| drops(s) && s.task() == s.own() && freed(s).is_empty()),
    ("oneself, a task freed", |s| !freed(s).is_empty() && s.task() == s.own()),
    ("oneself, two tasks freed", |s| freed(s).len() == 2 && s.task() == s.own()),
    ("oneself, with a message of its own", |s| {
        drops(s) && s.task() == s.own() && dropped(s).iter().any(|letter| letter.sender == s.own())
    }),
    ("messages for others stay", |s| stays(s, |_| true)),
    ("messages that the task sent stay", |s| stays(s, |letter| letter.sender == s.task())),
    ("a message that stays, and its sender waits on", |s| {
        stays(s, |letter| s.after.semaphore(letter.semaphore) == Semaphore::Waiting(letter.sender))
    }),
    ("execute leaves a message, and its sender waits on", |s| {
        let waits = |letter: &Letter| s.after.semaphore(letter.semaphore) == Semaphore::Waiting(letter.sender);
        s.accepts(EXECUTE) && s.new_mail(s.a()).iter().any(waits)
    }),
];
