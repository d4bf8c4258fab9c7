//! A recorded session, run by the verified functions or by the other implementation.

use std::hint::black_box;

use c::caller::{call, Caller};
use c::lent::{pairs_at, Lent, Regions, COUNT, FRAME};
use plain_executive::configuration::Configuration;
use plain_executive::executive::Executive;
use plain_executive::generator::Script;
use plain_executive::line;
use plain_executive::numbers::MEMORY;

pub type Frame = Vec<u8>;

#[derive(Clone)]
pub struct Session {
    pub name: String,
    pub configuration: Frame,
    pub before: Vec<Frame>,
    pub frames: Vec<Frame>,
}

/// A byte of the lent memory, and a value that breaks a rule of number 11 there.
#[derive(Clone, Copy)]
pub enum Break {
    Config(usize, u8),
    Tables(usize, u8),
}

impl Break {
    fn byte(self, memory: &mut Lent) -> (&mut u8, u8) {
        match self {
            Break::Config(at, value) => (&mut memory.config[at], value),
            Break::Tables(at, value) => (&mut memory.tables[at], value),
        }
    }

    /// The number of a frame that is fed to the broken memory.
    fn frame(self, memory: &mut Lent, frame: &[u8], feed: impl Fn(&mut Lent, &[u8]) -> u8) -> u8 {
        let (byte, value) = self.byte(memory);
        let kept = std::mem::replace(byte, value);
        let number = feed(memory, frame);
        *self.byte(memory).0 = kept;
        number
    }
}

/// As `Lent::frame`, but the caller's function is looked up here and not with every frame.
fn feeding(memory: &Lent) -> impl Fn(&mut Lent, &[u8]) -> u8 {
    let function = memory.caller.feeding();
    move |memory, frame| unsafe { call(function, frame, memory.lend()) }
}

pub fn run_engine(frames: &[Frame], memory: &mut Lent) {
    let feed = feeding(memory);
    for frame in frames {
        black_box(feed(memory, black_box(frame)));
    }
}

pub fn run_other(frames: &[Frame], other: &mut Executive) {
    for frame in frames {
        black_box(other.frame(black_box(frame)));
    }
}

/// As `run_engine`, but each frame is first fed to memory that breaks a rule, which ends it behind the test for 11.
pub fn run_broken(frames: &[Frame], memory: &mut Lent, breaks: &[Break]) {
    let feed = feeding(memory);
    for (frame, rule) in frames.iter().zip(breaks) {
        black_box(rule.frame(memory, black_box(frame), &feed));
        black_box(feed(memory, black_box(frame)));
    }
}

impl Session {
    /// As lines that `replay` takes.
    pub fn lines(&self) -> Vec<u8> {
        let frames = [self.before.clone(), self.frames.clone()].concat();
        Script { configuration: self.configuration.clone(), frames }.lines()
    }

    /// From such lines, the first `before` frames as those that prepare.
    pub fn read(lines: &[u8], before: usize) -> Session {
        let mut frames = lines.split(|&byte| byte == b'\n').filter(|line| !line.is_empty());
        let mut next = || frames.next().map(|digits| line::read(digits).expect("a line of a frame"));
        let configuration = next().expect("a configuration");
        let before = (0..before).map(|_| next().expect("a frame")).collect();
        Session { name: String::new(), configuration, before, frames: std::iter::from_fn(next).collect() }
    }

    /// The controller's memory after the frames that prepare.
    pub fn memory(&self) -> Lent {
        self.memory_of(Caller::Controller)
    }

    /// A caller's.
    pub fn memory_of(&self, caller: Caller) -> Lent {
        let mut memory = Lent::of(caller, caller.sizes(), || 0);
        assert_eq!(memory.configure(&self.configuration), 0, "{}", self.name);
        for frame in &self.before {
            assert_eq!(memory.frame(frame), 0, "{}: {frame:02X?}", self.name);
        }
        memory
    }

    /// The other implementation after them.
    pub fn other(&self) -> Executive {
        let mut other = Executive::configure(&self.configuration).expect("accepted");
        for frame in &self.before {
            assert_eq!(other.frame(frame).refusal(), 0, "{}: {frame:02X?}", self.name);
        }
        other
    }

    /// The controller's and the other implementation give the same answers to the frames and hold the same in the end.
    pub fn check(&self) {
        self.check_of(Caller::Controller);
    }

    /// So do a caller's and the other implementation.
    pub fn check_of(&self, caller: Caller) {
        let (mut memory, mut other) = (self.memory_of(caller), self.other());
        for frame in &self.frames {
            let answer = other.frame(frame);
            assert_eq!(memory.frame(frame), answer.refusal(), "{}: {frame:02X?}", self.name);
            assert_eq!(memory.answered(), answer.bytes(), "{}: {frame:02X?}", self.name);
        }
        assert_eq!(memory.items(other.configuration()), other.items(), "{}", self.name);
    }

    /// Before each frame, the break that the test for 11 meets last: in the last message that lies if G lie, else in the last
    /// queue, else in S, by which the semaphore sum is too large.
    pub fn breaks(&self) -> Vec<Break> {
        let mut memory = self.memory();
        let configuration = Configuration::read(&self.configuration).expect("accepted");
        let messages = Regions::of(&configuration).messages;
        let mut next = |frame: &Frame| {
            let lying = usize::from(memory.tables[COUNT]);
            let number = (lying > 0).then(|| Break::Tables(messages + 4 * (lying - 1) + 1, 0));
            let last = pairs_at(&configuration) - 1;
            let depth = (!configuration.queues.is_empty()).then_some(Break::Config(last, 0));
            let sum = Break::Config(FRAME + 1, u8::MAX);
            let candidates = [number, depth, Some(sum)];
            let mut found = candidates.into_iter().flatten();
            let found =
                found.find(|rule| rule.frame(&mut memory.clone(), frame, Lent::frame) == MEMORY).expect("a break");
            memory.frame(frame);
            found
        };
        self.frames.iter().map(&mut next).collect()
    }
}
