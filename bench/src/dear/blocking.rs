//! The caller blocks itself, and a storm follows.

use super::{but_one_name, start_all, start_but_one, BEHIND, ENDS, NEW};
use crate::frames::{message, service, take, timed};
use crate::session::Session;
use crate::stage::{Size, MESSAGES, SILENT};
use crate::storm::{Order, Storm};
use plain_executive::command::*;

/// How many messages of the caller free a task each, and where they lie.
const DROPPED: [(u8, Order); 6] = [
    (1, Order::Before),
    (1, Order::Behind),
    (32, Order::Before),
    (32, Order::Between),
    (32, Order::Behind),
    (64, Order::Before),
];

pub fn all(size: Size) -> Vec<Session> {
    let sessions = |storm: Storm| {
        let at_queues = [size.queues, size.queues - 1].into_iter().flat_map(|queue| at_a_queue(storm, queue)).collect();
        [plain(storm), at_queues, terminating(storm), delaying(storm)].concat()
    };
    ENDS.into_iter().flat_map(|ends| sessions(Storm::new(size, ends))).collect()
}

fn plain(storm: Storm) -> Vec<Session> {
    let last = storm.first() + storm.receivers - 1;
    let unsent = Storm { sent: MESSAGES - 1, ..storm };
    let name = format!("{}; the last receiver gets this message", storm.name());
    vec![
        storm.stage().session(storm.name(), service(WAIT, 0, 1)),
        storm.stage().session(storm.name(), service(SUSPEND, 0, 0)),
        storm.stage().session(storm.name(), service(RECEIVE, SILENT, 0)),
        unsent.stage().session(name, message(SENDW, last, 1, MESSAGES)),
    ]
}

/// The caller waits at a queue that is left to it.
fn at_a_queue(storm: Storm, queue: u8) -> [Session; 2] {
    let storm = Storm { spared: Some(queue), ..storm };
    let name = |state: &str| format!("{}; queue {queue} is {state}", storm.name());
    let mut full = storm.stage();
    full.fill(queue);
    let frame = full.put(queue);
    [storm.stage().session(name("empty"), take(queue)), full.session(name("full"), frame)]
}

/// All timers are the caller's. Of the messages none is; or all are, and signal nobody; or some or all are, and free a task each.
fn terminating(storm: Storm) -> Vec<Session> {
    let few = Storm { receivers: 0, sent: 0, ..storm };
    let session = |storm: Storm, state: &str, own: u8| {
        let mut stage = storm.stage();
        (1..=own).for_each(|number| stage.send(stage.arranger, number));
        start_all(&mut stage);
        stage.session(format!("{}; 64 timers of the caller{state}", storm.name()), service(TERMINATE, 0, 0))
    };
    let freeing = |(waiters, order): (u8, Order)| {
        let receivers = MESSAGES - waiters;
        let storm = Storm { receivers, sent: receivers, waiters, order, ..storm };
        let state = format!("; its messages, {waiters} {} the receivers', free a task each", order.name());
        session(storm, &state, 0)
    };
    let mut sessions = vec![session(storm, "", 0), session(few, "; its 64 messages free none", MESSAGES)];
    sessions.extend(DROPPED.map(freeing));
    sessions
}

fn delaying(storm: Storm) -> Vec<Session> {
    let session = |behind: u8| {
        let mut stage = storm.stage();
        start_but_one(&mut stage, behind);
        stage.session(format!("{}; {}", storm.name(), but_one_name(behind)), timed(DELAY, 0, 0, NEW))
    };
    BEHIND.map(session).to_vec()
}
