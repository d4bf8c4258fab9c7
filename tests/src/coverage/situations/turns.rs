//! The turns of timers, and what comes between those of one timer. Refused frames count here too.

use super::{Situation, Step};
use crate::command::*;
use crate::numbers::HAS_A_TIMER;
use crate::semaphore::Semaphore;
use crate::tasks::Block;
use crate::tocks::Tocks;
use crate::turns::{Ended, Followed};

/// Those that have a turn with this frame.
fn turns<'a>(s: &'a Step) -> impl Iterator<Item = &'a Followed> + Clone {
    s.turns.timers().iter().filter(|timer| timer.has_turn)
}

/// Some timer has a turn that is not its first, such that this holds.
fn later_turn(s: &Step, fits: impl Fn(&Followed) -> bool) -> bool {
    turns(s).any(|timer| timer.turns > 1 && fits(timer))
}

/// The state of the timer's semaphore before the frame.
fn state(s: &Step, timer: &Followed) -> Semaphore {
    s.before.semaphore(timer.semaphore)
}

/// A cyclic timer of this task has a turn, and before the frame the task had this block.
fn blocked(s: &Step, block: Block) -> bool {
    turns(s).any(|timer| timer.is_cyclic() && s.old(timer.task).blocks().has(block))
}

fn two_on_one_semaphore(s: &Step) -> bool {
    let on = |semaphore: u8| turns(s).filter(|timer| timer.semaphore == semaphore).count();
    let leaves_done = |timer: &Followed| s.after.semaphore(timer.semaphore) == Semaphore::Done;
    turns(s).any(|timer| state(s, timer).is_waiting() && on(timer.semaphore) > 1 && leaves_done(timer))
}

/// How many different periods the cyclic timers with a turn have.
fn periods(s: &Step) -> usize {
    let mut periods: Vec<u32> = turns(s).map(|timer| timer.value.period()).filter(|&period| period != 0).collect();
    periods.sort_unstable();
    periods.dedup();
    periods.len()
}

/// This frame started a timer, and of the one before it for the same task and semaphore this holds.
fn second(s: &Step, fits: impl Fn(&Followed) -> bool) -> bool {
    let starts = s.answer.refusal() == 0 && starts_a_timer(s.code());
    starts && s.turns.of(s.task(), s.semaphore()).rev().nth(1).is_some_and(fits)
}

/// One for the same task and semaphore had its turn before.
fn is_behind_a_one_shot(s: &Step, timer: &Followed) -> bool {
    s.turns.of(timer.task, timer.semaphore).any(|other| other.ended == Some(Ended::Spent) && !other.has_turn)
}

/// With this code accepted, some timer runs on that had turns, such that this holds.
fn leaves(s: &Step, code: u8, fits: impl Fn(&Followed) -> bool) -> bool {
    let some = |timer: &Followed| timer.runs() && timer.turns > 0 && fits(timer);
    s.accepts(code) && s.turns.timers().iter().any(some)
}

/// Of a purge or a terminate.
fn ended_one_on(s: &Step, semaphore: u8) -> bool {
    s.timers().iter().any(|timer| timer.semaphore == semaphore && !s.after.timers().has(timer.task, timer.semaphore))
}

pub const TABLE: &[Situation] = &[
    ("a cyclic timer's third", |s| turns(s).any(|timer| timer.turns == 3)),
    ("a cyclic timer's tenth", |s| turns(s).any(|timer| timer.turns == 10)),
    ("a season timer's third", |s| turns(s).any(|timer| timer.turns == 3 && timer.code == SEASON_TIMER)),
    ("a cyclic delay's third", |s| turns(s).any(|timer| timer.turns == 3 && timer.code == DELAY)),
    ("of period 1, the third", |s| turns(s).any(|timer| timer.turns == 3 && timer.value == Tocks::Cyclic(1))),
    ("later, on DONE", |s| later_turn(s, |timer| state(s, timer) == Semaphore::Done)),
    ("later, on PENDING", |s| later_turn(s, |timer| state(s, timer) == Semaphore::Pending)),
    ("later, wakes its task", |s| later_turn(s, |timer| state(s, timer) == Semaphore::Waiting(timer.task))),
    ("later, in the null task", |s| s.own() == 0 && later_turn(s, |_| true)),
    ("later, with a tick that is not the tock's only one", |s| s.before.clock().ticks() > 0 && later_turn(s, |_| true)),
    ("the task is suspended", |s| blocked(s, Block::Suspended)),
    ("the task is idle", |s| blocked(s, Block::Idle)),
    ("two on one semaphore, the first wakes and the second leaves DONE", two_on_one_semaphore),
    ("two of one task", |s| turns(s).any(|one| turns(s).filter(|other| other.task == one.task).count() > 1)),
    ("of three periods in one tock", |s| periods(s) > 2),
    ("several while all records are in use", |s| s.before.timers().all_active() && turns(s).count() > 1),
    ("24 for one that had turns", |s| {
        s.answer.refusal() == HAS_A_TIMER
            && s.turns.of(s.task(), s.semaphore()).any(|timer| timer.runs() && timer.turns > 0)
    }),
    ("another behind a one-shot that had its turn", |s| second(s, |first| first.ended == Some(Ended::Spent))),
    ("another behind one that was purged", |s| second(s, |first| first.ended == Some(Ended::Purged))),
    ("another behind one that ended with its task", |s| second(s, |first| first.ended == Some(Ended::Terminated))),
    ("of another behind a one-shot that had its turn", |s| turns(s).any(|timer| is_behind_a_one_shot(s, timer))),
    ("purge of one leaves the task's other", |s| {
        leaves(s, PURGE, |timer| timer.task == s.task() && s.removed_timers() == 1)
    }),
    ("purge of nothing leaves the task's", |s| {
        leaves(s, PURGE, |timer| timer.task == s.task() && s.removed_timers() == 0)
    }),
    ("purge leaves another task's on the semaphore", |s| leaves(s, PURGE, |timer| ended_one_on(s, timer.semaphore))),
    ("terminate leaves another task's on the semaphore", |s| {
        leaves(s, TERMINATE, |timer| ended_one_on(s, timer.semaphore))
    }),
    ("execute leaves the task's", |s| leaves(s, EXECUTE, |timer| timer.task == s.task())),
    ("pend between two", |s| leaves(s, PEND, |timer| timer.semaphore == s.semaphore() && s.state() == Semaphore::Done)),
];
