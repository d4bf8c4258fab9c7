//! The numbers that calls are refused with.

pub type Number = u8;

pub const LINE: Number = 1;
pub const LENGTH: Number = 2;
pub const CONFIGURATION: Number = 3;
pub const CODE: Number = 4;
pub const TASK: Number = 5;
pub const SEMAPHORE: Number = 6;
pub const QUEUE: Number = 7;
pub const MESSAGE: Number = 8;
pub const TOCK_VALUE: Number = 9;
pub const MILLISECONDS: Number = 10;
pub const MEMORY: Number = 11;

pub const NULL_TASK_RUNS: Number = 20;
pub const SEMAPHORE_WAITING: Number = 21;
pub const MESSAGE_IN_MAILBOX: Number = 22;
pub const ALL_TIMERS_ACTIVE: Number = 23;
pub const HAS_A_TIMER: Number = 24;
pub const IDLE_OR_WAITING: Number = 25;
pub const BEFORE_FIRST: Number = 26;
pub const ABOVE_MODULE: Number = 27;
pub const STRETCH: Number = 28;
pub const CYCLES: Number = 31;

/// `Err(number)` unless the condition holds.
pub fn require(holds: bool, number: Number) -> Result<(), Number> {
    if holds {
        Ok(())
    } else {
        Err(number)
    }
}
