//! A free start once more, by another way than rows and rests, and in pieces that can be exchanged: the greatest common divisor of two
//! periods divides the distance of the starts exactly if the timers collide.

use plain_executive::numbers::{Number, CYCLES};
use plain_executive::starts::{LONGEST_CYCLE, MOST_CYCLES};

use super::{Cycle, NO_START};

/// How a program goes about it.
pub struct Way {
    pub most: usize,
    pub longest_given: u32,
    pub longest_new: u32,
    /// Those that are looked at, of an accepted list, and the new period.
    pub timers: fn(&[Cycle], u32) -> Vec<Cycle>,
    /// Those that are tried, with the new period.
    pub starts: fn(u32) -> Box<dyn Iterator<Item = u32>>,
    /// Of the timer's period and the new one.
    pub divisor: fn(u32, u32) -> u32,
    /// Whether the timer takes the start, with the divisor.
    pub takes: fn(u32, Cycle, u32) -> bool,
}

pub const RIGHT: Way = Way {
    most: MOST_CYCLES,
    longest_given: LONGEST_CYCLE,
    longest_new: LONGEST_CYCLE,
    timers: |timers, _| timers.to_vec(),
    starts: |period| Box::new(0..period),
    divisor: common_divisor,
    takes: |start, timer, divisor| start.abs_diff(timer.start) % divisor == 0,
};

pub fn common_divisor(one: u32, other: u32) -> u32 {
    if other == 0 {
        one
    } else {
        common_divisor(other, one % other)
    }
}

impl Way {
    pub fn run(&self, timers: &[Cycle], period: u32, written: &mut u32) -> Number {
        if self.refuses(timers, period) {
            return CYCLES;
        }
        match self.search(&(self.timers)(timers, period), period) {
            Some(start) => {
                *written = start;
                0
            }
            None => NO_START,
        }
    }

    fn refuses(&self, timers: &[Cycle], period: u32) -> bool {
        let is_bad = |timer: &Cycle| !(1..=self.longest_given).contains(&timer.period);
        timers.len() > self.most || !(1..=self.longest_new).contains(&period) || timers.iter().any(is_bad)
    }

    fn search(&self, timers: &[Cycle], period: u32) -> Option<u32> {
        let divisor = |timer: &Cycle| (*timer, (self.divisor)(timer.period, period));
        let timers: Vec<(Cycle, u32)> = timers.iter().map(divisor).collect();
        let is_free = |start: &u32| !timers.iter().any(|&(timer, divisor)| (self.takes)(*start, timer, divisor));
        (self.starts)(period).find(is_free)
    }
}
