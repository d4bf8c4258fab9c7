//! The active timers, by due tock.

use crate::tocks::Tocks;

#[derive(Clone, Copy, Debug, PartialEq, Eq)]
pub struct Timer {
    pub task: u8,
    pub semaphore: u8,
    pub due: u64,
    /// 0 for a one-shot.
    pub period: u32,
}

/// What delay and the timers of both widths ask for.
#[derive(Clone, Copy, Debug, PartialEq, Eq)]
pub struct Start {
    pub task: u8,
    pub semaphore: u8,
    pub tocks: Tocks,
}

#[derive(Clone, Debug)]
pub struct Timers {
    active: Vec<Timer>,
    records: usize,
    /// By due tock; only timers that were given may be otherwise.
    sorted: bool,
}

impl Timers {
    pub fn fresh(records: u8) -> Self {
        let records = usize::from(records);
        Timers { active: Vec::with_capacity(records), records, sorted: true }
    }

    /// In any order.
    pub fn restored(records: u8, active: Vec<Timer>) -> Self {
        let sorted = active.is_sorted_by_key(|timer| timer.due);
        Timers { active, records: usize::from(records), sorted }
    }

    pub fn active(&self) -> &[Timer] {
        &self.active
    }

    pub fn all_active(&self) -> bool {
        self.active.len() == self.records
    }

    pub fn has(&self, task: u8, semaphore: u8) -> bool {
        self.active.iter().any(|timer| timer.task == task && timer.semaphore == semaphore)
    }

    pub fn start(&mut self, start: Start, now: u64) {
        self.insert(Timer {
            task: start.task,
            semaphore: start.semaphore,
            due: now + u64::from(start.tocks.first()),
            period: start.tocks.period(),
        });
    }

    /// Takes the first timer out that is due; a cyclic one goes back in for its next turn.
    pub fn take_due(&mut self, now: u64) -> Option<Timer> {
        let is_due = |timer: &Timer| timer.due <= now;
        let place = if self.sorted { 0 } else { self.active.iter().position(is_due)? };
        let timer = *self.active.get(place).filter(|timer| is_due(timer))?;
        self.active.remove(place);
        if timer.period != 0 {
            self.insert(Timer { due: now + u64::from(timer.period), ..timer });
        }
        Some(timer)
    }

    pub fn remove_of_task(&mut self, task: u8) {
        self.active.retain(|timer| timer.task != task);
    }

    pub fn remove(&mut self, task: u8, semaphore: u8) {
        self.active.retain(|timer| timer.task != task || timer.semaphore != semaphore);
    }

    /// Before the first that is due later, so behind those due in the same tock.
    fn insert(&mut self, timer: Timer) {
        let place = if self.sorted {
            self.active.partition_point(|other| other.due <= timer.due)
        } else {
            let later = self.active.iter().position(|other| other.due > timer.due);
            later.unwrap_or(self.active.len())
        };
        self.active.insert(place, timer);
    }
}
