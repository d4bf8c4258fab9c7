//! Send, sendw and receive.

use super::{Situation, Step};
use crate::answer;
use crate::command::*;
use crate::semaphore::Semaphore;
use crate::tasks::{Block, Request};

pub fn sends(s: &Step) -> bool {
    s.accepts(SEND) || s.accepts(SENDW)
}

fn wants(s: &Step, task: u8) -> Option<u8> {
    match s.old(task).request {
        Request::Receive(from) => Some(from),
        _ => None,
    }
}

fn receives(s: &Step) -> bool {
    s.accepts(RECEIVE) && s.answer.kind() == answer::MESSAGE && s.own() == s.answer.running()
}

fn receive_waits(s: &Step) -> bool {
    s.accepts(RECEIVE) && s.now(s.own()).blocks().has(Block::MessageWait)
}

/// The place in A's mailbox where the sent message lies.
fn place(s: &Step) -> Option<usize> {
    s.new_mail(s.a()).iter().position(|letter| u16::from(letter.message) == s.x())
}

pub const TABLE: &[Situation] = &[
    ("send wakes a receiver from any", |s| sends(s) && s.had(Block::MessageWait) && wants(s, s.a()) == Some(0)),
    ("send wakes the receiver that wants it", |s| {
        sends(s) && s.had(Block::MessageWait) && wants(s, s.a()) == Some(s.own())
    }),
    ("send wakes a receiver that wants another sender", |s| {
        sends(s) && s.had(Block::MessageWait) && wants(s, s.a()).is_some_and(|from| from != 0 && from != s.own())
    }),
    ("send to oneself", |s| s.accepts(SEND) && s.a() == s.own()),
    ("send to an idle task", |s| sends(s) && s.had(Block::Idle)),
    ("send to a suspended task", |s| sends(s) && s.had(Block::Suspended)),
    ("send by 0 as semaphore", |s| sends(s) && s.b() == 0),
    ("send on a WAITING semaphore", |s| s.accepts(SEND) && s.state().is_waiting()),
    ("send goes before higher senders", |s| {
        sends(s) && place(s).is_some_and(|place| place + 1 < s.new_mail(s.a()).len())
    }),
    ("send goes behind an equal sender", |s| {
        sends(s) && place(s).is_some_and(|place| place > 0 && s.new_mail(s.a())[place - 1].sender == s.own())
    }),
    ("sendw on PENDING", |s| s.accepts(SENDW) && s.state() == Semaphore::Pending),
    ("sendw on DONE", |s| s.accepts(SENDW) && s.state() == Semaphore::Done),
    ("sendw to oneself", |s| s.accepts(SENDW) && s.a() == s.own()),
    ("receive from any", |s| receives(s) && s.a() == 0),
    ("receive from a sender", |s| receives(s) && s.a() != 0),
    ("receive passes over other senders", |s| {
        receives(s) && s.mail(s.own()).first().is_some_and(|letter| s.a() != 0 && letter.sender != s.a())
    }),
    ("receive from oneself", |s| receives(s) && s.a() == s.own()),
    ("receive from any waits", |s| receive_waits(s) && s.a() == 0),
    ("receive from a sender waits, mailbox empty", |s| receive_waits(s) && s.a() != 0 && s.mail(s.own()).is_empty()),
    ("receive waits although others wrote", |s| receive_waits(s) && !s.mail(s.own()).is_empty()),
];
