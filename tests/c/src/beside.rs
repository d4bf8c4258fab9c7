//! The archive's executive and the other one beside it, in the same state.

use plain_executive::executive::Executive;

use crate::caller::Caller;
use crate::lent::Lent;

pub struct Beside {
    pub memory: Lent,
    pub other: Executive,
}

impl Beside {
    /// By a configuration that is accepted.
    pub fn configured(caller: Caller, configuration: &[u8]) -> Self {
        let mut memory = Lent::of(caller, caller.sizes(), || 0xA5);
        assert_eq!(memory.configure(configuration), 0, "{configuration:02X?}");
        Beside { memory, other: Executive::configure(configuration).expect("accepted") }
    }

    /// Number, answer and items are the other's.
    pub fn feed(&mut self, frame: &[u8], what: &str) {
        let Beside { memory, other } = self;
        let answer = other.frame(frame);
        assert_eq!(memory.frame(frame), answer.refusal(), "{what}: {frame:02X?}");
        assert_eq!(memory.answered(), answer.bytes(), "{what}: {frame:02X?}");
        assert_eq!(memory.items(other.configuration()), other.items(), "{what}: {frame:02X?}");
    }
}
