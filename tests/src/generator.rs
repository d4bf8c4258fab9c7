//! Random sessions. Frames are chosen by looking at the executive's state, so that they meet meaningful situations,
//! and are mixed with plain noise.

mod above;
mod beats;
mod cascade;
mod configurations;
mod damage;
mod dropping;
mod fields;
mod moves;
mod pairs;
mod release;
mod season;

use std::ops::RangeInclusive;

use crate::command::INTERRUPT_EXIT;
use crate::executive::Executive;
use crate::limits::Limits;
use crate::line;
use crate::random::Random;
use crate::tasks::Block;
use moves::Mood;

pub use cascade::cascade;
pub use configurations::largest;
pub use damage::LONGEST;
pub use release::{freed_with_a_request, release, Release, RELEASES};

/// Sessions that random ones hardly lead to.
pub fn prepared() -> Vec<Script> {
    let releases = RELEASES.into_iter().map(release);
    let timers = [season::together(), season::values(), season::refused(), beats::together()];
    [cascade()].into_iter().chain(releases).chain(freed_with_a_request()).chain(timers).collect()
}

/// A configuration and the frames behind it.
#[derive(Clone, Debug, PartialEq, Eq)]
pub struct Script {
    pub configuration: Vec<u8>,
    pub frames: Vec<Vec<u8>>,
}

impl Script {
    /// The session as lines that a person can replay. Frames too long for a line are left out.
    pub fn lines(&self) -> Vec<u8> {
        let frames = std::iter::once(&self.configuration).chain(&self.frames);
        frames.filter_map(|frame| line::write(frame).ok()).flat_map(|line| [line, vec![b'\n']].concat()).collect()
    }
}

/// How a frame is chosen by the state.
type Choose = fn(&mut Generator, &Executive) -> Vec<u8>;

pub struct Generator {
    limits: Limits,
    random: Random,
    mood: Mood,
}

impl Generator {
    /// Sessions for the controller.
    pub fn new(seed: u64) -> Self {
        Generator::within(Limits::CONTROLLER, seed)
    }

    /// Sessions for a caller with these limits.
    pub fn within(limits: Limits, seed: u64) -> Self {
        Generator { limits, random: Random::new(seed), mood: Mood::Any }
    }

    /// A configuration that is accepted, with so many tasks as far as the limits go, and this many frames.
    pub fn script(&mut self, tasks: RangeInclusive<u8>, frames: usize) -> Script {
        let configuration = configurations::within(&mut self.random, self.limits, tasks).bytes();
        self.script_of(configuration, frames)
    }

    /// This configuration, which is accepted, and this many frames.
    pub fn script_of(&mut self, configuration: Vec<u8>, frames: usize) -> Script {
        self.script_by(configuration, frames, Generator::any_frame)
    }

    fn script_by(&mut self, configuration: Vec<u8>, frames: usize, choose: Choose) -> Script {
        let mut executive = Executive::configure(&configuration).expect("an accepted configuration");
        let frames = (0..frames).map(|_| self.next_frame(&mut executive, choose)).collect();
        Script { configuration, frames }
    }

    /// The same, but a task runs most of the time: a long session of the other kind comes to an end with all of them blocked.
    pub fn lasting_script_of(&mut self, configuration: Vec<u8>, frames: usize) -> Script {
        let mut executive = Executive::configure(&configuration).expect("an accepted configuration");
        let frames = (0..frames).map(|_| self.next_lasting_frame(&mut executive)).collect();
        Script { configuration, frames }
    }

    /// A configuration that every caller refuses.
    pub fn refused_configuration(&mut self) -> Vec<u8> {
        configurations::refused(&mut self.random)
    }

    /// A configuration that the controller accepts, and the module refuses.
    pub fn configuration_above_module(&mut self) -> Vec<u8> {
        above::above(&mut self.random, Limits::MODULE)
    }

    /// Any bytes as the session program may find them: damaged lines, refused configurations, no last $0A.
    pub fn input(&mut self, frames: usize) -> Vec<u8> {
        let mut input = match self.random.below(16) {
            0 => self.refused_first_line(),
            1 => return self.random.pick(&[b"".as_slice(), b"\n", b"\n\n", b"\r\n", b" "]).to_vec(),
            _ => Vec::new(),
        };
        for line in self.script(1..=9, frames).lines().split_inclusive(|&byte| byte == b'\n') {
            if self.random.percent(8) {
                input.extend(damage::line(&mut self.random, &line[..line.len() - 1]));
                input.push(b'\n');
            }
            input.extend_from_slice(line);
        }
        if self.random.percent(30) {
            input.pop();
        }
        input
    }

    fn refused_first_line(&mut self) -> Vec<u8> {
        let frame = self.refused_configuration();
        let digits = line::write(&frame).unwrap_or_default();
        let mut line = if self.random.percent(50) { damage::line(&mut self.random, &digits) } else { digits };
        line.push(b'\n');
        line
    }

    /// Chosen again, up to some times, if it would leave no task that can ever run.
    fn next_frame(&mut self, executive: &mut Executive, choose: Choose) -> Vec<u8> {
        for _ in 0..20 {
            let frame = choose(self, executive);
            let mut after = executive.clone();
            after.frame(&frame);
            if is_alive(&after) || self.random.percent(1) {
                *executive = after;
                return frame;
            }
        }
        let frame = choose(self, executive);
        executive.frame(&frame);
        frame
    }

    fn next_lasting_frame(&mut self, executive: &mut Executive) -> Vec<u8> {
        loop {
            let frame = self.any_frame(executive);
            let mut after = executive.clone();
            after.frame(&frame);
            if after.running() != 0 || (self.random.percent(5) && is_at_rest(&after)) {
                *executive = after;
                return frame;
            }
        }
    }

    fn any_frame(&mut self, executive: &Executive) -> Vec<u8> {
        match self.random.below(100) {
            0..=3 => damage::frame(&mut self.random, executive),
            4 => self.random.bytes(5),
            5 if self.random.percent(50) => self.season_of_another_length(executive),
            _ => self.frame(executive),
        }
    }
}

/// An interrupt exit would leave a task that runs.
fn is_at_rest(executive: &Executive) -> bool {
    let wakes = |semaphore: u8| {
        let mut after = executive.clone();
        after.frame(&[INTERRUPT_EXIT, 0, semaphore, 0, 0]);
        after.running() != 0
    };
    (1..=executive.configuration().nameable_semaphores()).any(wakes)
}

/// Some task runs, or would run after an interrupt exit.
fn is_alive(executive: &Executive) -> bool {
    let nameable = 1..=executive.configuration().nameable_semaphores();
    let wakeable = |task: u8| {
        let record = executive.tasks().get(task);
        nameable.contains(&record.waits_on) && !record.blocks().has(Block::Suspended)
    };
    executive.running() != 0 || (1..=executive.configuration().tasks).any(wakeable)
}
