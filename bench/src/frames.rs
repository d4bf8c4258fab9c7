//! Frames by their fields.

use crate::session::Frame;
use plain_executive::command::*;

pub fn service(code: u8, a: u8, b: u8) -> Frame {
    vec![code, a, b, 0, 0]
}

/// Delay or timer. A negative number of tocks is cyclic.
pub fn timed(code: u8, task: u8, semaphore: u8, tocks: i16) -> Frame {
    let [high, low] = tocks.to_be_bytes();
    vec![code, task, semaphore, high, low]
}

/// The same of four bytes.
pub fn season_timer(task: u8, semaphore: u8, tocks: i32) -> Frame {
    [&[SEASON_TIMER, task, semaphore][..], &tocks.to_be_bytes()].concat()
}

/// Send or sendw.
pub fn message(code: u8, task: u8, semaphore: u8, message: u8) -> Frame {
    vec![code, task, semaphore, 0, message]
}

pub fn take(queue: u8) -> Frame {
    service(DEQUEUE, queue, 0)
}

pub fn put(queue: u8, entry: &[u8]) -> Frame {
    [service(ENQUEUE, queue, 0).as_slice(), entry].concat()
}

pub fn tick() -> Frame {
    service(TICK, 0, 0)
}
