//! What answers show.

use super::{Situation, Step};
use crate::answer;

fn shows(s: &Step, kind: u8) -> bool {
    s.answer.refusal() == 0 && s.answer.running() != 0 && s.answer.kind() == kind
}

fn refused_showing(s: &Step, kind: u8) -> bool {
    s.answer.refusal() != 0 && s.answer.running() != 0 && s.answer.kind() == kind
}

pub const TABLE: &[Situation] = &[
    ("plain", |s| shows(s, answer::PLAIN)),
    ("begin", |s| shows(s, answer::BEGIN)),
    ("message", |s| shows(s, answer::MESSAGE)),
    ("entry", |s| shows(s, answer::ENTRY)),
    ("entry of 1 byte", |s| shows(s, answer::ENTRY) && s.answer.value().len() == 1),
    ("entry of 16 bytes", |s| shows(s, answer::ENTRY) && s.answer.value().len() == 16),
    ("refused", |s| shows(s, answer::REFUSED)),
    ("semaphore", |s| shows(s, answer::SEMAPHORE)),
    ("woke a task", |s| shows(s, answer::WOKE) && s.answer.value() != [0]),
    ("woke nobody", |s| shows(s, answer::WOKE) && s.answer.value() == [0]),
    ("null task", |s| s.answer.refusal() == 0 && s.answer.running() == 0),
    ("null task in a refused frame", |s| s.answer.refusal() != 0 && s.answer.running() == 0),
    ("refused frame shows plain", |s| refused_showing(s, answer::PLAIN)),
    ("refused frame shows begin", |s| refused_showing(s, answer::BEGIN)),
    ("refused frame shows message", |s| refused_showing(s, answer::MESSAGE)),
    ("refused frame shows entry", |s| refused_showing(s, answer::ENTRY)),
    ("refused frame shows refused", |s| refused_showing(s, answer::REFUSED)),
    ("refused frame shows semaphore", |s| refused_showing(s, answer::SEMAPHORE)),
    ("refused frame shows woke", |s| refused_showing(s, answer::WOKE)),
    ("task 126 runs", |s| s.answer.running() == 126),
    ("one task only, it runs", |s| s.after.configuration().tasks == 1 && s.answer.running() == 1),
    ("one task only, null task", |s| s.after.configuration().tasks == 1 && s.answer.running() == 0),
    ("another task of higher priority runs", |s| s.answer.running() != 0 && s.answer.running() < s.own()),
    ("from the null task to a task", |s| s.own() == 0 && s.answer.running() != 0),
];
