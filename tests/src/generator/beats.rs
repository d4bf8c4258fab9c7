//! Sessions of many cyclic timers: half of the frames are ticks, and any other requests come between.

use super::cascade::service;
use super::configurations::within;
use super::season::{season, tick, timer};
use super::{Generator, Script};
use crate::command::*;
use crate::executive::Executive;
use crate::timers::Timer;

impl Generator {
    /// So many frames. Most timers have turns over a good part of them.
    pub fn beats(&mut self, frames: usize) -> Script {
        let mut draft = within(&mut self.random, self.limits, 2..=9);
        draft.named = self.random.between(2, 6);
        draft.timers = self.random.pick(&[4, 8, 20, self.limits.timers]).min(self.limits.timers);
        draft.ticks = self.random.pick(&[1, 1, 1, 2, 3]);
        self.script_by(draft.bytes(), frames, Generator::beat)
    }

    fn beat(&mut self, executive: &Executive) -> Vec<u8> {
        match self.random.below(40) {
            0..=19 => self.service(TICK, executive),
            20..=26 => self.start_of_turns(executive),
            27..=29 => self.about_a_timer(executive),
            _ => self.any_frame(executive),
        }
    }

    /// For any task, of either width or a delay; rarely of so many tocks that two bytes of them would mean a few.
    fn start_of_turns(&mut self, executive: &Executive) -> Vec<u8> {
        let configuration = executive.configuration();
        let task = self.random.between(0, configuration.tasks);
        let semaphore = self.random.between(0, configuration.nameable_semaphores());
        let few: i16 = self.random.pick(&[1, 1, 2, 2, 2, 3, 3, 4, 5, 7, 12]);
        let tocks = if self.random.percent(70) { -few } else { few };
        match self.random.below(20) {
            0..=2 => [vec![DELAY, task, semaphore], tocks.to_be_bytes().to_vec()].concat(),
            3..=10 => timer(task, semaphore, tocks),
            11 => season(task, semaphore, i32::from(tocks) + self.random.pick(&[-0x1_0000, 0x1_0000])),
            _ => season(task, semaphore, tocks.into()),
        }
    }

    /// One that runs: its task is suspended, resumed or executed, its semaphore pended or waited on, a second one is asked for, or
    /// another of its task is purged.
    fn about_a_timer(&mut self, executive: &Executive) -> Vec<u8> {
        let Some(Timer { task, semaphore, .. }) = self.random.pick_if(executive.timers().active()) else {
            return self.start_of_turns(executive);
        };
        let another = self.random.between(1, executive.configuration().nameable_semaphores());
        match self.random.below(9) {
            0 | 1 => service(SUSPEND, task, 0),
            2 => service(RESUME, task, 0),
            3 => service(EXECUTE, task, 0),
            4 => service(PEND, 0, semaphore),
            5 => service(WAIT, 0, semaphore),
            6 => timer(task, semaphore, 2),
            7 => season(task, semaphore, -2),
            _ => vec![PURGE, task, another, 0, 1],
        }
    }
}

/// Cyclic timers of both widths and of the periods 1 to 4, a cyclic delay, two that signal one semaphore, one of an idle task. Between
/// their turns come refused frames, a task that is suspended, and one that waits while no task runs; a one-shot has its turn, and its
/// task and semaphore get another. Then come purges and a terminate that end some, and leave those beside them.
pub fn together() -> Script {
    let configuration = vec![3, 4, 0, 8, 0, 1, 0, 125, 0, 0, 1];
    let starts = [
        timer(1, 1, -1),
        season(2, 1, -2),
        timer(2, 2, -3),
        season(1, 3, 2),
        timer(3, 2, -2),
        vec![DELAY, 2, 0, 0xFF, 0xFE],
        season(1, 2, -3),
        timer(2, 4, -4),
    ];
    let refused = [timer(1, 1, 5), season(2, 1, 5), timer(1, 4, 1), season(1, 4, 0), service(WAIT, 0, 9)];
    let again = [season(1, 3, 3), service(SUSPEND, 2, 0), tick(), season(1, 2, 9), tick()];
    let wait = service(WAIT, 0, 1);
    let waits = [wait.clone(), wait.clone(), timer(1, 4, 1), tick(), wait, tick()];
    let purges = [vec![PURGE, 1, 4, 0, 1], vec![PURGE, 1, 2, 0, 1], season(1, 2, -2), service(PEND, 0, 1)];
    let ends = [service(EXECUTE, 3, 0), service(TERMINATE, 2, 0), service(EXECUTE, 2, 0), timer(2, 2, -1)];
    let frames = [&starts[..], &refused, &[tick(), tick()], &again, &waits, &purges, &ends, &vec![tick(); 5]].concat();
    Script { configuration, frames }
}
