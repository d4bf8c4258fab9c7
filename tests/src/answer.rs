//! An answer's bytes: refusal, running task, reissues, outcome kind, value.

use crate::numbers::Number;
use crate::tasks::{Outcome, SLOT_BYTES};

pub const PLAIN: u8 = 0;
pub const BEGIN: u8 = 1;
pub const MESSAGE: u8 = 2;
pub const ENTRY: u8 = 3;
pub const REFUSED: u8 = 4;
pub const SEMAPHORE: u8 = 5;
pub const WOKE: u8 = 6;

const FIXED_BYTES: usize = 4;
pub const LONGEST_ANSWER: usize = FIXED_BYTES + SLOT_BYTES;

#[derive(Clone, Copy, Debug)]
pub struct Answer {
    bytes: [u8; LONGEST_ANSWER],
    length: usize,
}

impl Answer {
    pub fn new(refusal: Number, running: u8, reissues: u8, outcome: Outcome, slot: &[u8; SLOT_BYTES]) -> Self {
        let mut answer = Answer { bytes: [0; LONGEST_ANSWER], length: FIXED_BYTES };
        answer.bytes[..3].copy_from_slice(&[refusal, running, reissues]);
        match outcome {
            Outcome::Plain => answer.outcome(PLAIN, &[]),
            Outcome::Begin => answer.outcome(BEGIN, &[]),
            Outcome::Message(letter) => answer.outcome(MESSAGE, &[letter.message, letter.sender, letter.semaphore]),
            Outcome::Entry(width) => answer.outcome(ENTRY, &slot[..usize::from(width)]),
            Outcome::Refused(number) => answer.outcome(REFUSED, &[number]),
            Outcome::Semaphore(number) => answer.outcome(SEMAPHORE, &[number]),
            Outcome::Woke(task) => answer.outcome(WOKE, &[task]),
        }
        answer
    }

    /// The answer to a configuration that was refused.
    pub fn no_configuration(refusal: Number) -> Self {
        Answer::new(refusal, 0, 0, Outcome::Plain, &[0; SLOT_BYTES])
    }

    pub fn bytes(&self) -> &[u8] {
        &self.bytes[..self.length]
    }

    pub fn refusal(&self) -> Number {
        self.bytes[0]
    }

    pub fn running(&self) -> u8 {
        self.bytes[1]
    }

    pub fn reissues(&self) -> u8 {
        self.bytes[2]
    }

    pub fn kind(&self) -> u8 {
        self.bytes[3]
    }

    pub fn value(&self) -> &[u8] {
        &self.bytes()[FIXED_BYTES..]
    }

    fn outcome(&mut self, kind: u8, value: &[u8]) {
        self.bytes[3] = kind;
        self.length = FIXED_BYTES + value.len();
        self.bytes[FIXED_BYTES..self.length].copy_from_slice(value);
    }
}
