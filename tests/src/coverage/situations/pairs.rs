//! Execute and terminate of tasks that the configuration's pairs are about. Refused ones count here too.

use super::{Situation, Step};
use crate::command::*;
use crate::configuration::{Pair, MOST_PAIRS};
use crate::numbers::BEFORE_FIRST;
use crate::tasks::{Block, Blocks};

fn pairs<'a>(s: &'a Step) -> &'a [Pair] {
    &s.before.configuration().pairs
}

/// Of task A.
fn firsts(s: &Step) -> Vec<u8> {
    s.before.configuration().firsts(s.a()).collect()
}

fn blocks_of(s: &Step, task: u8) -> Blocks {
    s.old(task).blocks()
}

fn is_idle(s: &Step, task: u8) -> bool {
    blocks_of(s, task).has(Block::Idle)
}

/// Accepted, and some first of task A has such blocks.
fn starts_behind(s: &Step, fits: impl Fn(Blocks) -> bool) -> bool {
    s.accepts(EXECUTE) && firsts(s).iter().any(|&first| fits(blocks_of(s, first)))
}

fn refused(s: &Step) -> bool {
    s.answer.refusal() == BEFORE_FIRST
}

/// How many firsts of task A are idle.
fn idle_firsts(s: &Step) -> usize {
    firsts(s).iter().filter(|&&first| is_idle(s, first)).count()
}

fn is_twice(s: &Step, fits: impl Fn(&Pair) -> bool) -> bool {
    let same = |pair: &&Pair| pairs(s).iter().filter(|other| other == pair).count() > 1;
    pairs(s).iter().filter(same).any(fits)
}

/// Accepted, and some task whose first is task A is such a one.
fn ends_before(s: &Step, fits: impl Fn(u8) -> bool) -> bool {
    s.accepts(TERMINATE) && pairs(s).iter().any(|pair| pair.first == s.task() && fits(pair.then))
}

pub const TABLE: &[Situation] = &[
    ("execute behind a first that runs", |s| s.accepts(EXECUTE) && firsts(s).contains(&s.own())),
    ("execute behind a runnable first that doesn't run", |s| {
        let runnable = |&first: &u8| first != s.own() && blocks_of(s, first).is_empty();
        s.accepts(EXECUTE) && firsts(s).iter().any(runnable)
    }),
    ("execute behind a suspended first", |s| starts_behind(s, |blocks| blocks.has(Block::Suspended))),
    ("execute behind a first in event wait", |s| starts_behind(s, |blocks| blocks.has(Block::EventWait))),
    ("execute behind a first in message wait", |s| starts_behind(s, |blocks| blocks.has(Block::MessageWait))),
    ("execute behind a suspended first that waits too", |s| {
        starts_behind(s, |blocks| blocks.has(Block::Suspended) && blocks.waits())
    }),
    ("execute behind several firsts", |s| s.accepts(EXECUTE) && firsts(s).len() > 2),
    ("execute behind the same first twice", |s| s.accepts(EXECUTE) && is_twice(s, |pair| pair.then == s.a())),
    ("execute an idle task behind its firsts", |s| s.accepts(EXECUTE) && !firsts(s).is_empty() && s.had(Block::Idle)),
    ("execute a task again behind its firsts", |s| s.accepts(EXECUTE) && !firsts(s).is_empty() && !s.had(Block::Idle)),
    ("execute behind a first whose own first is idle", |s| {
        let behind_idle = |&first: &u8| s.before.configuration().firsts(first).any(|task| is_idle(s, task));
        s.accepts(EXECUTE) && firsts(s).iter().any(behind_idle)
    }),
    ("execute a first while a task behind it is idle", |s| {
        s.accepts(EXECUTE) && pairs(s).iter().any(|pair| pair.first == s.a() && is_idle(s, pair.then))
    }),
    ("execute a first while a task behind it runs on", |s| {
        let runs_on = |pair: &Pair| pair.first == s.a() && !is_idle(s, pair.then);
        s.accepts(EXECUTE) && s.had(Block::Idle) && pairs(s).iter().any(runs_on)
    }),
    ("execute while another task's first is idle", |s| {
        s.accepts(EXECUTE) && pairs(s).iter().any(|pair| pair.then != s.a() && is_idle(s, pair.first))
    }),
    ("execute with 64 pairs", |s| s.accepts(EXECUTE) && pairs(s).len() == MOST_PAIRS && !firsts(s).is_empty()),
    ("execute without pairs", |s| s.accepts(EXECUTE) && pairs(s).is_empty()),
    ("terminate a first, a task behind it keeps running", |s| {
        ends_before(s, |then| then == s.own() && s.answer.running() == then)
    }),
    ("terminate a first, a task behind it stays runnable", |s| {
        ends_before(s, |then| then != s.own() && s.now(then).blocks().is_empty())
    }),
    ("terminate a first, a task behind it waits on", |s| ends_before(s, |then| s.now(then).blocks().waits())),
    ("a first terminates itself, a task behind it runs", |s| {
        ends_before(s, |then| s.task() == s.own() && s.answer.running() == then)
    }),
    ("26, the only first", |s| refused(s) && firsts(s).len() == 1),
    ("26, the first of several, and no other", |s| {
        refused(s) && idle_firsts(s) == 1 && firsts(s).len() > 1 && is_idle(s, firsts(s)[0])
    }),
    ("26, the last of several, and no other", |s| {
        refused(s) && idle_firsts(s) == 1 && firsts(s).len() > 1 && is_idle(s, firsts(s)[firsts(s).len() - 1])
    }),
    ("26, several firsts", |s| refused(s) && idle_firsts(s) > 1 && idle_firsts(s) < firsts(s).len()),
    ("26, a pair that comes twice", |s| refused(s) && is_twice(s, |pair| pair.then == s.a() && is_idle(s, pair.first))),
    ("26, the last pair of all", |s| {
        let last = pairs(s).last();
        refused(s) && pairs(s).len() > 1 && last.is_some_and(|last| last.then == s.a() && is_idle(s, last.first))
    }),
    ("26, the last of 64 pairs, and no other", |s| {
        let last = pairs(s).last().filter(|_| pairs(s).len() == MOST_PAIRS);
        refused(s) && idle_firsts(s) == 1 && last.is_some_and(|last| last.then == s.a() && is_idle(s, last.first))
    }),
    ("26, the first is suspended too", |s| {
        let both = |&first: &u8| is_idle(s, first) && blocks_of(s, first).has(Block::Suspended);
        refused(s) && firsts(s).iter().any(both)
    }),
    ("26, of an idle task", |s| refused(s) && s.had(Block::Idle)),
    ("26, of a runnable task", |s| refused(s) && s.blocks().is_empty()),
    ("26, of a waiting task", |s| refused(s) && s.blocks().waits()),
    ("26, of a suspended task", |s| refused(s) && s.had(Block::Suspended) && !s.had(Block::Idle)),
    ("26, the caller's first is idle too", |s| {
        refused(s) && s.before.configuration().firsts(s.own()).any(|first| is_idle(s, first))
    }),
];
