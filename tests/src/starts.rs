//! A start for a new cyclic timer with which it never signals in the tock of another's signal. No common divisor is used: short periods
//! are decided by the rows of tocks themselves, longer ones by what the tocks leave when divided by the new period.

use crate::numbers::{require, Number, CYCLES};

/// A list has at most so many timers.
pub const MOST_CYCLES: usize = 8;
/// The longest period, given or new.
pub const LONGEST_CYCLE: u32 = 32_768;
/// Up to this period the rows are walked.
pub const WALKED: u32 = 64;

/// A cyclic timer, laid out as in C. Its row is start + period, start + 2 * period and so on without end.
#[repr(C)]
#[derive(Clone, Copy, Debug, PartialEq, Eq)]
pub struct Cycle {
    /// The tock that it was started in.
    pub start: u32,
    /// In tocks.
    pub period: u32,
}

/// The smallest start that collides with none of the timers, or `None` where every start from 0 on collides with some. Those below the
/// period are enough: a row that starts a period later is the same but for its first tock, and rows that share a tock share others
/// however late, so both collide with the same timers.
pub fn free_start(timers: &[Cycle], period: u32) -> Result<Option<u32>, Number> {
    require(timers.len() <= MOST_CYCLES, CYCLES)?;
    let periods: Vec<u32> = timers.iter().map(|timer| timer.period).chain([period]).collect();
    require(periods.iter().all(|period| (1..=LONGEST_CYCLE).contains(period)), CYCLES)?;
    let find = if periods.iter().all(|period| *period <= WALKED) { by_rows } else { by_rests };
    Ok(find(timers, period))
}

/// Each start is tried, and for it each timer's row.
pub fn by_rows(timers: &[Cycle], period: u32) -> Option<u32> {
    (0..period).find(|&start| !timers.iter().any(|timer| collide(*timer, Cycle { start, period })))
}

/// Whether some tock is in both rows. They are walked side by side above both starts, over as many tocks as the periods multiply to.
/// The first tock that they share is among these: so many tocks before a later one both rows have a tock too.
pub fn collide(one: Cycle, other: Cycle) -> bool {
    let from = u64::from(one.start.max(other.start));
    let end = from + u64::from(one.period) * u64::from(other.period);
    let [mut ones, mut others] = [one, other].map(|timer| first_above(from, timer));
    while ones != others && ones.max(others) <= end {
        if ones < others {
            ones += u64::from(one.period);
        } else {
            others += u64::from(other.period);
        }
    }
    ones == others
}

/// The first tock of a timer's row above a tock that is not before its start.
fn first_above(tock: u64, timer: Cycle) -> u64 {
    let (start, period) = (u64::from(timer.start), u64::from(timer.period));
    start + ((tock - start) / period + 1) * period
}

/// A start is taken if some tock of a timer's row leaves it when divided by the new period. For a tock of both rows leaves it: it is the
/// start and some periods more. And a tock of the timer's row that leaves it may come before the new row, but there are others with the
/// same rest however late: the one as many turns later as the new period has tocks, and so on. Above the start these are in both rows.
pub fn by_rests(timers: &[Cycle], period: u32) -> Option<u32> {
    let mut taken = vec![false; period as usize];
    timers.iter().for_each(|timer| take(&mut taken, *timer));
    taken.iter().position(|taken| !taken).map(|start| start as u32)
}

/// All rests of a row. When the first comes again so do those behind it, and it does: see above.
fn take(taken: &mut [bool], timer: Cycle) {
    let (period, step) = (taken.len(), timer.period as usize);
    let first = (timer.start as usize + step) % period;
    let mut rest = first;
    loop {
        taken[rest] = true;
        rest = (rest + step) % period;
        if rest == first {
            return;
        }
    }
}
