//! Season timers, and timers of both widths beside each other. Refused frames count here too.

use super::{Situation, Step};
use crate::command::*;
use crate::coverage::causes::causes;
use crate::numbers::*;
use crate::semaphore::Semaphore;
use crate::tasks::{Block, Outcome};
use crate::timers::Timer;

/// What an accepted season timer asks for; 0 stands for every other frame.
fn tocks(s: &Step) -> i32 {
    match s.frame {
        &[SEASON_TIMER, _, _, a, b, c, d] if s.accepts(SEASON_TIMER) => i32::from_be_bytes([a, b, c, d]),
        _ => 0,
    }
}

fn starts(s: &Step) -> bool {
    s.accepts(SEASON_TIMER)
}

fn starts_in_16_bits(s: &Step) -> bool {
    s.accepts(TIMER) || s.accepts(DELAY)
}

/// The timer directly before the one that this frame started, if it is due in the same tock.
fn equal_before<'a>(s: &'a Step) -> Option<&'a Timer> {
    let (timers, place) = (s.new_timers(), s.started_at());
    let before = timers.get(place.checked_sub(1)?)?;
    (before.due == timers[place].due).then_some(before)
}

// ---- due

/// The places of season timers among those that a tick found due, and of the others; with their periods.
fn due(s: &Step) -> [Vec<(usize, u32)>; 2] {
    let due = if s.accepts(TICK) { s.due() } else { Vec::new() };
    let places = due.iter().enumerate().map(|(place, timer)| (s.is_season(timer), (place, timer.period)));
    let (seasons, others): (Vec<_>, Vec<_>) = places.partition(|(season, _)| *season);
    [seasons, others].map(|timers| timers.into_iter().map(|(_, timer)| timer).collect())
}

/// Some season timer was due in the same tock as some other one, such that this holds of their places and periods.
fn due_together(s: &Step, fits: impl Fn((usize, u32), (usize, u32)) -> bool) -> bool {
    let [seasons, others] = due(s);
    seasons.iter().any(|&season| others.iter().any(|&other| fits(season, other)))
}

/// A season timer was due on a semaphore in such a state.
fn due_on(s: &Step, fits: impl Fn(Semaphore) -> bool) -> bool {
    let found = |timer: &Timer| s.is_season(timer) && fits(s.before.semaphore(timer.semaphore));
    s.accepts(TICK) && s.due().iter().any(found)
}

/// A cyclic season timer went in again directly behind a timer of this width that is due in the same tock, and was not due now.
fn again_behind(s: &Step, season: bool) -> bool {
    let due = if s.accepts(TICK) { s.due() } else { Vec::new() };
    let was_due = |timer: &Timer| due.iter().any(|old| (old.task, old.semaphore) == (timer.task, timer.semaphore));
    let fits = |pair: &[Timer]| {
        pair[0].due == pair[1].due
            && s.is_season(&pair[0]) == season
            && !was_due(&pair[0])
            && s.is_season(&pair[1])
            && was_due(&pair[1])
    };
    s.new_timers().windows(2).any(fits)
}

// ---- removed

/// How many season timers and how many others this frame removed, of a purge or a terminate.
fn removed(s: &Step, code: u8) -> [usize; 2] {
    let removed = |timer: &&Timer| s.accepts(code) && !s.after.timers().has(timer.task, timer.semaphore);
    let of_width =
        |season: bool| s.timers().iter().filter(removed).filter(|timer| s.is_season(timer) == season).count();
    [of_width(true), of_width(false)]
}

/// The task of the frame still has a timer of this width.
fn keeps(s: &Step, season: bool) -> bool {
    s.new_timers().iter().any(|timer| timer.task == s.task() && s.is_season(timer) == season)
}

// ---- refused

/// A frame with this code and length got this number.
fn refused(s: &Step, code: u8, number: Number, length: impl Fn(usize) -> bool) -> bool {
    s.frame.first() == Some(&code) && length(s.frame.len()) && s.answer.refusal() == number
}

/// A season timer got the first number, and the second would have been due too.
fn before(s: &Step, first: Number, second: Number) -> bool {
    refused(s, SEASON_TIMER, first, |length| length >= 5) && causes(s.before, s.frame)[1..].contains(&second)
}

/// A start by one of these codes got 24 for a timer of this width.
fn has_one(s: &Step, codes: &[u8], season: bool) -> bool {
    s.answer.refusal() == HAS_A_TIMER
        && codes.contains(&s.code())
        && s.seasons.contains(&(s.task(), s.semaphore())) == season
}

/// A start by one of these codes got 23, and some timer of this width is active.
fn all_active(s: &Step, codes: &[u8], season: bool) -> bool {
    s.answer.refusal() == ALL_TIMERS_ACTIVE
        && codes.contains(&s.code())
        && s.timers().iter().any(|timer| s.is_season(timer) == season)
}

const SIXTEEN: &[u8] = &[DELAY, TIMER];
const SEASON: &[u8] = &[SEASON_TIMER];

pub const TABLE: &[Situation] = &[
    ("one-shot", |s| tocks(s) > 0),
    ("cyclic", |s| tocks(s) < 0),
    ("00000001", |s| tocks(s) == 1),
    ("7FFFFFFF", |s| tocks(s) == i32::MAX),
    ("80000000", |s| tocks(s) == i32::MIN),
    ("80000001", |s| tocks(s) == i32::MIN + 1),
    ("FFFFFFFF", |s| tocks(s) == -1),
    ("00008000, one-shot", |s| tocks(s) == 0x8000),
    ("0000FFFF, one-shot", |s| tocks(s) == 0xFFFF),
    ("FFFF8000, the longest period of 16 bits", |s| tocks(s) == -0x8000),
    ("FFFF7FFF, a period that 16 bits don't have", |s| tocks(s) == -0x8001),
    ("the lower two bytes are 0, one-shot", |s| tocks(s) > 0 && tocks(s) as u16 == 0),
    ("the lower two bytes are 0, cyclic", |s| (i32::MIN + 1..0).contains(&tocks(s)) && tocks(s) as u16 == 0),
    ("the upper two bytes are 0, the lower ones alone would be cyclic", |s| (0x8000..0x1_0000).contains(&tocks(s))),
    ("all four bytes count", |s| tocks(s).to_be_bytes().iter().all(|byte| !matches!(byte, 0 | 0xFF))),
    ("for oneself by 0", |s| starts(s) && s.a() == 0),
    ("for another task, 0 as semaphore", |s| starts(s) && s.task() != s.own() && s.b() == 0),
    ("for an idle task", |s| starts(s) && s.had(Block::Idle)),
    ("on a WAITING semaphore", |s| starts(s) && s.state().is_waiting()),
    ("on DONE", |s| starts(s) && s.state() == Semaphore::Done),
    ("the caller's outcome becomes plain", |s| {
        starts(s) && s.old(s.own()).outcome != Outcome::Plain && s.now(s.own()).outcome == Outcome::Plain
    }),
    ("the last timer record is taken", |s| starts(s) && s.after.timers().all_active()),
    ("started before others", |s| starts(s) && s.started_at() + 1 < s.new_timers().len()),
    ("started behind a 16-bit timer due in the same tock", |s| {
        starts(s) && equal_before(s).is_some_and(|timer| !s.is_season(timer))
    }),
    ("started behind another due in the same tock", |s| {
        starts(s) && equal_before(s).is_some_and(|timer| s.is_season(timer))
    }),
    ("a 16-bit timer started behind one due in the same tock", |s| {
        starts_in_16_bits(s) && equal_before(s).is_some_and(|timer| s.is_season(timer))
    }),
    ("due, one-shot", |s| due(s)[0].iter().any(|&(_, period)| period == 0)),
    ("due, cyclic", |s| due(s)[0].iter().any(|&(_, period)| period != 0)),
    ("due alone", |s| due(s)[0].len() == 1 && due(s)[1].is_empty()),
    ("two due in one tock", |s| due(s)[0].len() > 1),
    ("due in one tock behind a 16-bit timer", |s| due_together(s, |season, other| other.0 < season.0)),
    ("due in one tock before a 16-bit timer", |s| due_together(s, |season, other| season.0 < other.0)),
    ("both widths due in one tock, both one-shot", |s| due_together(s, |season, other| season.1 == 0 && other.1 == 0)),
    ("both widths due in one tock, both cyclic", |s| due_together(s, |season, other| season.1 != 0 && other.1 != 0)),
    ("both widths due in one tock, the 16-bit one alone cyclic", |s| {
        due_together(s, |season, other| season.1 == 0 && other.1 != 0)
    }),
    ("both widths due in one tock, the season timer alone cyclic", |s| {
        due_together(s, |season, other| season.1 != 0 && other.1 == 0)
    }),
    ("both widths of one period due in one tock", |s| {
        due_together(s, |season, other| season.1 != 0 && season.1 == other.1)
    }),
    ("goes in again behind a 16-bit timer due in the same tock", |s| again_behind(s, false)),
    ("goes in again behind another due in the same tock", |s| again_behind(s, true)),
    ("due wakes a task", |s| due_on(s, Semaphore::is_waiting)),
    ("due on PENDING", |s| due_on(s, |state| state == Semaphore::Pending)),
    ("due on DONE", |s| due_on(s, |state| state == Semaphore::Done)),
    ("purge one, and the task keeps a 16-bit timer", |s| removed(s, PURGE) == [1, 0] && keeps(s, false)),
    ("purge one of 16 bits, and the task keeps it", |s| removed(s, PURGE) == [0, 1] && keeps(s, true)),
    ("purge several", |s| removed(s, PURGE)[0] > 1),
    ("purge both widths", |s| removed(s, PURGE).iter().all(|&number| number > 0)),
    ("terminate a task with one", |s| removed(s, TERMINATE)[0] > 0),
    ("terminate a task with both widths", |s| removed(s, TERMINATE).iter().all(|&number| number > 0)),
    ("terminate leaves another task's", |s| removed(s, TERMINATE)[0] > 0 && !s.new_seasons().is_empty()),
    ("execute a task with one", |s| s.accepts(EXECUTE) && keeps(s, true)),
    ("2, shorter than 5 bytes", |s| refused(s, SEASON_TIMER, LENGTH, |length| length < 5)),
    ("2, 5 bytes", |s| refused(s, SEASON_TIMER, LENGTH, |length| length == 5)),
    ("2, 6 bytes", |s| refused(s, SEASON_TIMER, LENGTH, |length| length == 6)),
    ("2, 8 bytes", |s| refused(s, SEASON_TIMER, LENGTH, |length| length == 8)),
    ("2, longer than 8 bytes", |s| refused(s, SEASON_TIMER, LENGTH, |length| length > 8)),
    ("2 before 20, 5 bytes", |s| before(s, LENGTH, NULL_TASK_RUNS) && s.frame.len() == 5),
    ("2 before 20, 6 bytes", |s| before(s, LENGTH, NULL_TASK_RUNS) && s.frame.len() == 6),
    ("2 before 20, longer", |s| before(s, LENGTH, NULL_TASK_RUNS) && s.frame.len() > 7),
    ("2 before 5", |s| before(s, LENGTH, TASK)),
    ("2 before 6", |s| before(s, LENGTH, SEMAPHORE)),
    ("2 before 24", |s| before(s, LENGTH, HAS_A_TIMER)),
    ("2 before 23", |s| before(s, LENGTH, ALL_TIMERS_ACTIVE)),
    ("20 before 5", |s| before(s, NULL_TASK_RUNS, TASK)),
    ("20 before 6", |s| before(s, NULL_TASK_RUNS, SEMAPHORE)),
    ("20 before 9", |s| before(s, NULL_TASK_RUNS, TOCK_VALUE)),
    ("5 before 6", |s| before(s, TASK, SEMAPHORE)),
    ("5 before 9", |s| before(s, TASK, TOCK_VALUE)),
    ("6 before 9", |s| before(s, SEMAPHORE, TOCK_VALUE)),
    ("9 before 24", |s| before(s, TOCK_VALUE, HAS_A_TIMER)),
    ("9 before 23", |s| before(s, TOCK_VALUE, ALL_TIMERS_ACTIVE)),
    ("24 before 23", |s| before(s, HAS_A_TIMER, ALL_TIMERS_ACTIVE)),
    ("24, it has a 16-bit timer", |s| has_one(s, SEASON, false)),
    ("24, it has a season timer", |s| has_one(s, SEASON, true)),
    ("24 for 16 bits, it has a season timer", |s| has_one(s, SIXTEEN, true)),
    ("23, a 16-bit timer among the active", |s| all_active(s, SEASON, false)),
    ("23 for 16 bits, a season timer among the active", |s| all_active(s, SIXTEEN, true)),
    ("2, timer in 7 bytes", |s| refused(s, TIMER, LENGTH, |length| length == 7)),
    ("2, delay in 7 bytes", |s| refused(s, DELAY, LENGTH, |length| length == 7)),
    ("4, code 13 in 5 bytes", |s| refused(s, SEASON_TIMER + 1, CODE, |length| length == 5)),
    ("4, code 13 in 7 bytes", |s| refused(s, SEASON_TIMER + 1, CODE, |length| length == 7)),
];
