//! A list of timers through a program beside the other implementation: the first difference.

use std::ops::Add;

use plain_executive::numbers::Number;
use plain_executive::starts::{self, MOST_CYCLES};

use super::{Cycle, Program, NO_START};

/// What the start holds before a call.
const HELD: [u32; 3] = [0, u32::MAX, 0xA5A5_A5A5];

/// What is answered: a start, none or a number.
type Answer = Result<Option<u32>, Number>;

/// A list, and for some new periods what the other implementation answers.
pub struct Case {
    timers: Vec<Cycle>,
    asked: Vec<(u32, Answer)>,
}

/// How often a start was found, and in how many of these it is above 0; how often there is none, and in how many of these every timer
/// alone leaves one; how often 31. And the largest start.
#[derive(Clone, Copy, Debug, Default)]
pub struct Counts {
    pub found: usize,
    pub above_0: usize,
    pub none: usize,
    pub together: usize,
    pub refused: usize,
    pub largest: u32,
}

impl Add for Counts {
    type Output = Counts;

    fn add(self, other: Counts) -> Counts {
        Counts {
            found: self.found + other.found,
            above_0: self.above_0 + other.above_0,
            none: self.none + other.none,
            together: self.together + other.together,
            refused: self.refused + other.refused,
            largest: self.largest.max(other.largest),
        }
    }
}

impl Case {
    pub fn new(timers: Vec<Cycle>, periods: impl IntoIterator<Item = u32>) -> Self {
        let asked = periods.into_iter().map(|period| (period, starts::free_start(&timers, period))).collect();
        Case { timers, asked }
    }

    /// How many it has.
    pub fn timers(&self) -> usize {
        self.timers.len()
    }

    fn name(&self) -> String {
        format!("{} timers, {:?}", self.timers(), self.timers.iter().take(MOST_CYCLES + 1).collect::<Vec<_>>())
    }

    pub fn counts(&self) -> Counts {
        let counts = self.asked.iter().map(|(period, answer)| self.counts_of(*period, *answer));
        counts.fold(Counts::default(), Counts::add)
    }

    fn counts_of(&self, period: u32, answer: Answer) -> Counts {
        let alone_leaves_one = |timer: &Cycle| starts::free_start(&[*timer], period) != Ok(None);
        match answer {
            Ok(Some(start)) => {
                Counts { found: 1, above_0: usize::from(start > 0), largest: start, ..Counts::default() }
            }
            Ok(None) => {
                let together = usize::from(self.timers.iter().all(alone_leaves_one));
                Counts { none: 1, together, ..Counts::default() }
            }
            Err(_) => Counts { refused: 1, ..Counts::default() },
        }
    }

    /// Compared are the number and the start, which with any other number than 0 holds what it held; the timers stay as they are.
    pub fn difference(&self, program: Program) -> Option<String> {
        HELD.into_iter().find_map(|held| self.difference_with(program, held))
    }

    fn difference_with(&self, program: Program, held: u32) -> Option<String> {
        let mut lent = self.timers.clone();
        for &(period, answer) in &self.asked {
            let mut written = held;
            let number = program(&mut lent, period, &mut written);
            let due = match answer {
                Ok(Some(start)) => (0, start),
                Ok(None) => (NO_START, held),
                Err(number) => (number, held),
            };
            if (number, written) != due {
                let name = self.name();
                return Some(format!("{name}, period {period}: {number} with {written}, the other has {due:?}"));
            }
            if lent != self.timers {
                return Some(format!("{}, period {period}: a timer was written", self.name()));
            }
        }
        None
    }
}
