//! Nobody is woken. The last task but one runs, and all messages lie.

use super::{but_one_name, start_all, start_but_one, BEHIND, NEW};
use crate::frames::{season_timer, service, timed};
use crate::session::Session;
use crate::stage::{Size, Stage, IDLE, TASKS};
use crate::storm::size_name;
use plain_executive::command::*;

/// Its low byte is 0, and the high byte has to be looked at.
const ALL_TIMERS: i16 = 0x100;
/// The caller.
const RUNS: u8 = TASKS - 1;
/// How many pairs the executed task has, and the first of the last one.
const PAIRS: [(usize, u8); 5] = [(0, RUNS), (1, RUNS), (64, RUNS), (1, IDLE), (64, IDLE)];

pub fn all(size: Size) -> Vec<Session> {
    let lie = format!("64 messages lie; {}", size_name(size));
    let mut purged = quiet(size);
    start_all(&mut purged);
    let mut sessions = vec![
        quiet(size).session(lie.clone(), service(PEND, 0, 1)),
        purged.session(format!("64 timers of the caller, X is $0100; {lie}"), timed(PURGE, 0, 0, ALL_TIMERS)),
    ];
    for frame in [timed(TIMER, 0, 0, NEW), season_timer(0, 0, NEW.into()), season_timer(0, 0, (-NEW).into())] {
        sessions.extend(BEHIND.map(|behind| {
            let mut stage = quiet(size);
            start_but_one(&mut stage, behind);
            stage.session(format!("{}; {lie}", but_one_name(behind)), frame.clone())
        }));
    }
    sessions.extend(PAIRS.into_iter().map(|(pairs, last)| executing(size, pairs, last, &lie)));
    sessions
}

/// Of the last task, which is idle, behind firsts that run, all but the last one perhaps.
fn executing(size: Size, pairs: usize, last: u8, lie: &str) -> Session {
    let mut stage = quiet(size);
    stage.pairs = [RUNS, TASKS].repeat(pairs);
    if let [.., first, _] = &mut stage.pairs[..] {
        *first = last;
    }
    let ends = if last == IDLE { "the last first is idle: 26" } else { "all firsts run" };
    let name = format!("an idle task behind the caller; {pairs} pairs, {ends}; {lie}");
    stage.session(name, service(EXECUTE, TASKS, 0))
}

fn quiet(size: Size) -> Stage {
    let mut stage = Stage::new(size, 1);
    stage.lay_down_all();
    stage.hand_over(RUNS);
    stage
}
