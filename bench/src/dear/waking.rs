//! The caller goes on, but wakes a task with a lower number, which has an open request.

use super::{BEHIND, ENDS, SOON};
use crate::frames::{message, service, timed};
use crate::session::{Frame, Session};
use crate::stage::{Ends, Size, Stage, MESSAGES, SILENT, TASKS};
use crate::storm::size_name;
use plain_executive::command::*;

const WOKEN: u8 = TASKS - 2;
const CALLER: u8 = TASKS - 1;
/// The semaphore that it waits on, if it was delayed.
const SEMAPHORE: u8 = 2;

pub fn all(size: Size) -> Vec<Session> {
    let relays = ENDS.into_iter().flat_map(|ends| woken(|| relaying(size, ends)));
    let sends = BEHIND.into_iter().flat_map(|behind| [true, false].map(|wanted| sending(size, behind, wanted)));
    relays.chain(woken(|| receiving(size))).chain(sends).collect()
}

/// Resumed; and signalled, after a delay.
fn woken(state: impl Fn() -> (Stage, String)) -> [Session; 3] {
    let by = |delayed: bool, frame: Frame| {
        let (mut stage, name) = state();
        if delayed {
            stage.does(timed(DELAY, WOKEN, SEMAPHORE, SOON));
            stage.does(service(RESUME, WOKEN, 0));
        }
        stage.hand_over(CALLER);
        stage.session(name, frame)
    };
    [
        by(false, service(RESUME, WOKEN, 0)),
        by(true, service(SIGNAL, 0, SEMAPHORE)),
        by(true, service(INTERRUPT_EXIT, 0, SEMAPHORE)),
    ]
}

/// Its request completes and wakes another task, at the last queue.
fn relaying(size: Size, ends: Ends) -> (Stage, String) {
    let mut stage = Stage::new(size, 1);
    stage.relay(ends, WOKEN, size.queues);
    stage.wait_at(ends, WOKEN - 1, size.queues);
    stage.lay_down_all();
    let name = format!("wakes a {}, that a {}; 64 messages lie; {}", ends.passing(), ends.waiting(), size_name(size));
    (stage, name)
}

/// It has all messages, and none of the sender that it wants.
fn receiving(size: Size) -> (Stage, String) {
    let mut stage = Stage::new(size, 1);
    stage.ask(WOKEN, service(RECEIVE, SILENT, 0));
    stage.does(service(SUSPEND, WOKEN, 0));
    (1..=MESSAGES).for_each(|number| stage.send(WOKEN, number));
    (stage, format!("wakes a receiver with 64 messages; {}", size_name(size)))
}

/// It gets the last message, which is the one that it wants, or is not. Of the others, so many stand behind it: their sender has a
/// higher number.
fn sending(size: Size, behind: u8, wanted: bool) -> Session {
    let mut stage = Stage::new(size, 1);
    stage.ask(WOKEN, service(RECEIVE, if wanted { CALLER } else { WOKEN }, 0));
    stage.does(service(SUSPEND, WOKEN, 0));
    let first = MESSAGES - behind;
    (1..first).for_each(|number| stage.send(WOKEN, number));
    for number in first..MESSAGES {
        stage.ask(TASKS, message(SEND, WOKEN, 0, number));
        stage.does(service(TERMINATE, TASKS, 0));
    }
    stage.does(service(RESUME, WOKEN, 0));
    stage.let_run();
    stage.hand_over(CALLER);
    let ends = if wanted { "wants it" } else { "does not want it" };
    let name =
        format!("to a receiver with 63 messages, {behind} of them behind this one, that {ends}; {}", size_name(size));
    stage.session(name, message(SEND, WOKEN, SEMAPHORE, MESSAGES))
}
