//! A session fed line by line to a caller's exported functions, with the other implementation beside them.

use c::caller::Caller;
use c::lent::Lent;
use plain_executive::command::TERMINATE;
use plain_executive::executive::Executive;
use plain_executive::line::MOST_BYTES;
use plain_executive::numbers::{Number, LINE};
use plain_executive::tasks::Letter;
use plain_executive::trail::Event;

/// Why a session does not go on.
#[derive(Debug, PartialEq, Eq)]
pub enum Stop {
    /// The configuration, or the asked-for stretch, met this number.
    Refused(Number),
    /// The other implementation has another answer, item or stretch.
    Differs(String),
}

/// The exported function that a frame is fed to; a test may hand in another.
pub type Call = fn(&mut Lent, &[u8]) -> Number;

pub struct Replay {
    call: Call,
    memory: Lent,
    other: Executive,
    trail: Vec<Event>,
    dropped: Vec<Letter>,
    answer: Vec<u8>,
    frames: usize,
}

/// What a line did. The configuration is step 0.
pub struct Step<'run> {
    pub number: usize,
    pub line: &'run [u8],
    /// None for a line that is refused.
    pub frame: Option<&'run [u8]>,
    /// The task that ran before.
    pub caller: u8,
    pub answer: &'run [u8],
    /// Whether a tock passed.
    pub tock: bool,
    /// What the frame did on its way.
    pub trail: &'run [Event],
    /// The messages that a terminate dropped, in the order of the mailbox.
    pub dropped: &'run [Letter],
    /// After the step.
    pub memory: &'run Lent,
    pub other: &'run Executive,
}

impl Step<'_> {
    pub fn refusal(&self) -> Number {
        self.answer[0]
    }

    pub fn running(&self) -> u8 {
        self.answer[1]
    }
}

impl Replay {
    pub fn begin(caller: Caller, line: &[u8]) -> Result<Self, Stop> {
        Replay::begin_with(caller, line, Lent::frame)
    }

    pub fn begin_with(caller: Caller, line: &[u8], call: Call) -> Result<Self, Stop> {
        let mut room = [0; MOST_BYTES];
        let length = c::read_line(line, &mut room).map_err(Stop::Refused)?;
        let frame = &room[..length];
        let mut memory = Lent::of(caller, caller.sizes(), || 0);
        let number = memory.configure(frame);
        let other = Executive::configure_within(caller.limits(), frame);
        if other.as_ref().err().copied().unwrap_or(0) != number {
            return Err(Stop::Differs(format!("the configuration is answered with {number}, the other has {other:?}")));
        }
        let other = other.map_err(Stop::Refused)?;
        let answer = memory.answered().to_vec();
        Ok(Replay { call, memory, other, trail: Vec::new(), dropped: Vec::new(), answer, frames: 0 })
    }

    pub fn other(&self) -> &Executive {
        &self.other
    }

    /// The configuration as a step.
    pub fn first<'run>(&'run self, line: &'run [u8]) -> Step<'run> {
        let Replay { memory, other, answer, .. } = self;
        let (trail, dropped) = (&[], &[]);
        Step { number: 0, line, frame: Some(line), caller: 0, answer, tock: false, trail, dropped, memory, other }
    }

    /// Feeds a line. `room` holds its frame.
    pub fn feed<'run>(&'run mut self, line: &'run [u8], room: &'run mut [u8; MOST_BYTES]) -> Result<Step<'run>, Stop> {
        self.frames += 1;
        self.trail.clear();
        let (caller, tocks) = (self.other.running(), self.other.clock().tocks());
        let frame = c::read_line(line, room).ok().map(|length| &room[..length]);
        self.dropped = frame.map_or_else(Vec::new, |frame| left_by(frame, &self.other));
        match frame {
            Some(frame) => self.both(frame)?,
            None => self.refuse_line(),
        }
        if self.answer[0] != 0 {
            self.dropped.clear();
        }
        Ok(Step {
            number: self.frames,
            line,
            frame,
            caller,
            answer: &self.answer,
            tock: self.other.clock().tocks() != tocks,
            trail: &self.trail,
            dropped: &self.dropped,
            memory: &self.memory,
            other: &self.other,
        })
    }

    /// Feeds a frame to both, and compares their answers.
    fn both(&mut self, frame: &[u8]) -> Result<(), Stop> {
        let number = (self.call)(&mut self.memory, frame);
        let other = self.other.frame_noting(frame, &mut self.trail);
        self.answer.clear();
        self.answer.extend_from_slice(self.memory.answered());
        if self.answer == other.bytes() && number == other.refusal() {
            return Ok(());
        }
        let what = format!("the answer {:02X?}, number {number}; the other has {:02X?}", self.answer, other.bytes());
        Err(Stop::Differs(what))
    }

    /// A line that is refused reaches no frame call: the task that ran goes on.
    fn refuse_line(&mut self) {
        self.answer[0] = LINE;
        self.answer[2] = 0;
    }
}

/// What lies in the mailbox of the task that a frame would terminate.
fn left_by(frame: &[u8], other: &Executive) -> Vec<Letter> {
    match *frame {
        [TERMINATE, 0, ..] => other.mailboxes().letters(other.running()).collect(),
        [TERMINATE, task, ..] if task <= other.configuration().tasks => other.mailboxes().letters(task).collect(),
        _ => Vec::new(),
    }
}
