//! A session whose last frame meets as many reissues as 126 tasks, 64 messages and 32 queues allow.

use super::Script;
use crate::command::*;

const TASKS: u8 = 126;
const QUEUES: u8 = 32;
const MESSAGES: u8 = 64;
/// Nobody gets a message from this task.
const SILENT: u8 = TASKS;
const FIRST_RECEIVER: u8 = 2 + QUEUES;
/// Wakes task 1, which arranges everything.
const NAMED: u8 = 1;

/// Task 1 arranges that 32 tasks find their queues emptied again, that 64 tasks got messages, but from a sender that
/// they don't want, and that one more task can put at last. When task 1 suspends itself, the 96 wait again, the put
/// completes, and it wakes the one that takes: 98 reissues.
pub fn cascade() -> Script {
    let mut frames = vec![service(WAIT, 0, NAMED)];
    frames.extend((1..=QUEUES).map(|queue| service(DEQUEUE, queue, 0)));
    frames.extend((1..=MESSAGES).map(|_| service(RECEIVE, SILENT, 0)));
    frames.push(service(INTERRUPT_EXIT, 0, NAMED));
    for queue in 1..=QUEUES {
        frames.push(service(SUSPEND, taker_of(queue), 0));
        frames.push(put(queue));
    }
    frames.push(service(WAIT, 0, NAMED));
    frames.push(put(1));
    frames.push(service(INTERRUPT_EXIT, 0, NAMED));
    frames.extend((1..=QUEUES).map(|queue| service(DEQUEUE, queue, 0)));
    frames.extend((1..=MESSAGES).map(send));
    frames.extend((1..=QUEUES).map(|queue| service(RESUME, taker_of(queue), 0)));
    frames.push(service(SUSPEND, 0, 0));
    Script { configuration: configuration(), frames }
}

fn configuration() -> Vec<u8> {
    let mut bytes = vec![TASKS, 1, QUEUES, 0, MESSAGES, 1, 0, 125];
    bytes.extend([0; TASKS as usize]);
    bytes.extend([1; 2 * QUEUES as usize]);
    bytes
}

fn taker_of(queue: u8) -> u8 {
    1 + queue
}

pub fn service(code: u8, a: u8, b: u8) -> Vec<u8> {
    vec![code, a, b, 0, 0]
}

pub fn put(queue: u8) -> Vec<u8> {
    vec![ENQUEUE, queue, 0, 0, 0, queue]
}

fn send(message: u8) -> Vec<u8> {
    vec![SEND, FIRST_RECEIVER + message - 1, 0, 0, message]
}
