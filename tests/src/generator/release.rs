//! Sessions whose last frame frees tasks: with as many messages as there may be, or one task that has an open request.

use super::cascade::{put, service};
use super::Script;
use crate::command::*;

/// The messages of the last frame: so many free a task that was delayed, one for each queue, and so many a task that waits with sendw.
#[derive(Clone, Copy)]
pub struct Release {
    pub queues: u8,
    pub senders: u8,
}

/// As many as the controller has room for, and the module.
pub const RELEASES: [Release; 2] = [Release { queues: 32, senders: 32 }, Release { queues: 6, senders: 2 }];

/// Task 1 arranges that a task each was woken at its queue, was delayed, and would find the queue empty again. It has a message with the
/// semaphore of each delay, and one each of the senders. When it terminates itself, they all are freed, and those of the queues wait
/// there again.
pub fn release(release: Release) -> Script {
    let Release { queues, senders } = release;
    let mut frames = vec![service(WAIT, 0, release.named())];
    frames.extend((1..=queues).map(|queue| service(DEQUEUE, queue, 0)));
    frames.extend((1..=senders).map(|sender| vec![SENDW, 1, 0, 0, queues + sender]));
    frames.push(service(INTERRUPT_EXIT, 0, release.named()));
    for queue in 1..=queues {
        frames.push(put(queue));
        frames.push(vec![DELAY, 1 + queue, queue, 0, 1]);
        frames.push(service(DEQUEUE, queue, 0));
        frames.push(vec![SEND, 1, queue, 0, queue]);
    }
    frames.push(service(TERMINATE, 0, 0));
    Script { configuration: release.configuration(), frames }
}

impl Release {
    /// The last named semaphore wakes task 1. Those before it are those of the delays.
    fn named(self) -> u8 {
        self.queues + 1
    }

    fn configuration(self) -> Vec<u8> {
        let Release { queues, senders } = self;
        let tasks = 1 + queues + senders;
        let mut bytes = vec![tasks, self.named(), queues, queues, queues + senders, 1, 0, 125];
        bytes.extend(vec![0; tasks.into()]);
        bytes.extend(vec![1; 2 * usize::from(queues)]);
        bytes
    }
}

/// Task 2 waits at the queue, is woken there and, before it runs, delayed; task 4 has a message with the semaphore of the delay. When
/// task 4 is terminated, task 2 is freed, and its request completes, or waits again, or meets 21, or completes and makes room for that
/// of task 1, which runs then.
pub fn freed_with_a_request() -> [Script; 4] {
    let taken = [service(DEQUEUE, 1, 0), service(WAIT, 0, 2)];
    let completes = vec![service(WAIT, 0, 2), service(TERMINATE, 4, 0)];
    let waits_again = [&taken[..], &[service(TERMINATE, 4, 0)]].concat();
    let meets_21 = [&taken[..], &[service(DEQUEUE, 1, 0), service(TERMINATE, 0, 0)]].concat();
    let makes_room = vec![put(1), service(TERMINATE, 4, 0)];
    [completes, waits_again, meets_21, makes_room].map(|rest| {
        let delayed = [
            service(WAIT, 0, 1),
            service(DEQUEUE, 1, 0),
            service(INTERRUPT_EXIT, 0, 1),
            put(1),
            vec![DELAY, 2, 1, 0, 5],
            vec![SEND, 4, 1, 0, 1],
        ];
        let configuration = vec![4, 2, 1, 1, 1, 1, 0, 125, 0, 0, 0, 0, 1, 1];
        Script { configuration, frames: [&delayed[..], &rest].concat() }
    })
}
