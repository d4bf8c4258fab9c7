//! The fields of frames: mostly such that the executive's state gives them a meaning, sometimes wrong.

use super::Generator;
use crate::command::*;
use crate::executive::Executive;
use crate::semaphore::Semaphore;
use crate::tasks::{Block, Request};

impl Generator {
    /// A frame with this code. Fields that the code doesn't use are noise or 0.
    pub(super) fn service(&mut self, code: u8, executive: &Executive) -> Vec<u8> {
        let mut fields = if self.random.percent(50) { self.random.bytes(4) } else { vec![0; 4] };
        if code != TICK {
            self.choose(code, executive, &mut fields);
        }
        let mut frame = [vec![code], fields].concat();
        match code {
            ENQUEUE => frame.extend(self.entry(executive, frame[1])),
            SEASON_TIMER => frame.splice(3.., self.season_tocks()).for_each(drop),
            _ => {}
        }
        frame
    }

    fn choose(&mut self, code: u8, executive: &Executive, fields: &mut [u8]) {
        match code {
            DEQUEUE | ENQUEUE => fields[0] = self.queue(executive),
            WAIT | SIGNAL | PEND | INTERRUPT_EXIT => fields[1] = self.semaphore(executive),
            _ => fields[0] = self.task(code, executive),
        }
        if matches!(code, SEND | SENDW | PURGE) || starts_a_timer(code) {
            fields[1] = self.semaphore(executive);
        }
        match code {
            SEND | SENDW => fields[2..].copy_from_slice(&self.message(executive)),
            DELAY | TIMER => fields[2..].copy_from_slice(&self.tocks()),
            PURGE => fields[3] = self.random.pick(&[0, 0, 1, 0x80, 0xFF]),
            _ => {}
        }
        if (code == PURGE || starts_a_timer(code)) && self.random.percent(30) {
            self.name_a_timer(executive, fields);
        }
    }

    /// The task and the semaphore of an active timer.
    fn name_a_timer(&mut self, executive: &Executive, fields: &mut [u8]) {
        if let Some(timer) = self.random.pick_if(executive.timers().active()) {
            let own = executive.configuration().semaphore_of_task(timer.task) == timer.semaphore;
            fields[0] = timer.task;
            fields[1] = if own && self.random.percent(60) { 0 } else { timer.semaphore };
        }
    }

    fn task(&mut self, code: u8, executive: &Executive) -> u8 {
        let most = executive.configuration().tasks;
        if let Some(task) = self.paired_task(code, executive) {
            return task;
        }
        match self.random.below(100) {
            0..=3 => self.random.between(most + 1, 255),
            4..=19 => 0,
            20..=24 => executive.running(),
            25..=69 => self.fitting_task(code, executive),
            _ => self.random.between(1, most),
        }
    }

    /// Of an execute, a terminate or a suspend sometimes one that the pairs are about. Without pairs no number is drawn.
    fn paired_task(&mut self, code: u8, executive: &Executive) -> Option<u8> {
        let pairs = &executive.configuration().pairs;
        let last = pairs.last().filter(|_| self.random.percent(40))?;
        let pair = if self.random.percent(30) { *last } else { self.random.pick(pairs) };
        match code {
            EXECUTE if self.random.percent(80) => Some(pair.then),
            EXECUTE | TERMINATE | SUSPEND => Some(pair.first),
            _ => None,
        }
    }

    /// One in a state that the code is about, if there is any.
    fn fitting_task(&mut self, code: u8, executive: &Executive) -> u8 {
        let fits = |task: u8| {
            let blocks = executive.tasks().get(task).blocks();
            match code {
                SEND | SENDW => blocks.has(Block::MessageWait),
                RECEIVE => executive.mailboxes().letters(executive.running()).any(|letter| letter.sender == task),
                RESUME => blocks.has(Block::Suspended),
                SUSPEND => is_woken(executive, task) || blocks.waits(),
                TERMINATE => blocks.waits() || has_mail_or_timers(executive, task),
                EXECUTE => !blocks.is_empty(),
                DELAY => is_woken(executive, task) || blocks.has(Block::Suspended),
                _ => has_mail_or_timers(executive, task),
            }
        };
        let fitting: Vec<u8> = (1..=executive.configuration().tasks).filter(|&task| fits(task)).collect();
        self.random.pick_if(&fitting).unwrap_or(1)
    }

    fn semaphore(&mut self, executive: &Executive) -> u8 {
        let configuration = executive.configuration();
        let most = configuration.nameable_semaphores();
        match self.random.below(100) {
            0..=4 => self.random.between(most.saturating_add(1), 255),
            5 => most,
            6..=24 => 0,
            25..=29 => configuration.semaphore_of_task(executive.running().max(1)),
            30..=49 => self.semaphore_that(executive, Semaphore::is_waiting),
            50..=64 => self.semaphore_that(executive, |state| state == Semaphore::Done),
            65..=89 if configuration.named_semaphores > 0 => self.random.between(1, configuration.named_semaphores),
            _ => self.random.between(1, most),
        }
    }

    /// One that callers may name in such a state, if there is any.
    pub(super) fn semaphore_that(&mut self, executive: &Executive, fits: impl Fn(Semaphore) -> bool) -> u8 {
        let numbers = 1..=executive.configuration().nameable_semaphores();
        let fitting: Vec<u8> = numbers.filter(|&number| fits(executive.semaphore(number))).collect();
        self.random.pick_if(&fitting).unwrap_or(1)
    }

    fn queue(&mut self, executive: &Executive) -> u8 {
        let most = executive.configuration().queue_count();
        match self.random.below(100) {
            0..=2 => 0,
            3..=5 => self.random.between(most + 1, 255),
            _ => self.random.between(most.min(1), most),
        }
    }

    /// Of the queue's width, rarely of another.
    pub(super) fn entry(&mut self, executive: &Executive, queue: u8) -> Vec<u8> {
        let size = executive.configuration().queues.get(usize::from(queue).wrapping_sub(1));
        let width = match size {
            Some(size) if !self.random.percent(6) => usize::from(size.width),
            _ => self.random.below(19),
        };
        self.random.bytes(width)
    }

    fn message(&mut self, executive: &Executive) -> [u8; 2] {
        let most = executive.configuration().messages;
        let lying = self.random.percent(20);
        let number = match self.random.below(100) {
            0..=3 => 0,
            4..=7 => most + 1,
            _ => self.message_that(executive, lying).unwrap_or(1),
        };
        let high = if self.random.percent(4) { self.random.between(1, 255) } else { 0 };
        [high, number]
    }

    pub(super) fn message_that(&mut self, executive: &Executive, lies: bool) -> Option<u8> {
        let numbers = 1..=executive.configuration().messages;
        let fitting: Vec<u8> = numbers.filter(|&number| executive.mailboxes().holds(number) == lies).collect();
        self.random.pick_if(&fitting)
    }

    pub(super) fn tocks(&mut self) -> [u8; 2] {
        let value: i16 = match self.random.below(100) {
            0..=39 => 1 + self.random.below(3) as i16,
            40..=79 => -1 - self.random.below(3) as i16,
            80..=92 => self.random.pick(&[0, i16::MAX, -1, i16::MIN, i16::MIN + 1]),
            _ => self.random.number() as i16,
        };
        value.to_be_bytes()
    }

    /// Mostly so few that they pass within the session, as in the other width. Then the ends, and values of which two bytes would say
    /// something else.
    fn season_tocks(&mut self) -> [u8; 4] {
        let ends = [0, i32::MAX, -1, i32::MIN, i32::MIN + 1];
        let beyond = [0x7FFF, 0x8000, 0xFFFF, 0x1_0000, 0x1_0001, -0x8000, -0x8001, -0xFFFF, -0x1_0000, -0x1_0001];
        let value: i32 = match self.random.below(100) {
            0..=34 => 1 + self.random.below(3) as i32,
            35..=69 => -1 - self.random.below(3) as i32,
            70..=74 => 1 + self.random.below(20) as i32,
            75..=79 => -1 - self.random.below(20) as i32,
            80..=89 => self.random.pick(&ends),
            90..=95 => self.random.pick(&beyond),
            _ => self.random.number() as i32,
        };
        value.to_be_bytes()
    }

    /// A season timer but for its length.
    pub(super) fn season_of_another_length(&mut self, executive: &Executive) -> Vec<u8> {
        let mut frame = self.service(SEASON_TIMER, executive);
        let noise = self.random.byte();
        let length = self.random.pick(&[1, 4, 5, 5, 6, 6, 8, 8, 9, 12, 20]);
        frame.resize(length, noise);
        frame
    }
}

/// No longer waiting, but its request is still open.
pub(super) fn is_woken(executive: &Executive, task: u8) -> bool {
    let record = executive.tasks().get(task);
    record.request != Request::None && !record.blocks().waits()
}

fn has_mail_or_timers(executive: &Executive, task: u8) -> bool {
    executive.mailboxes().letters(task).next().is_some()
        || executive.timers().active().iter().any(|timer| timer.task == task)
}
