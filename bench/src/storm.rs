//! Frames after which as many tasks as can be issue their requests again: when a task that arranged it all blocks itself, and when
//! timers wake them.

use crate::frames::{message, service, tick, timed};
use crate::session::Frame;
use crate::stage::{Ends, Size, Stage, MESSAGES, SILENT, TASKS};
use plain_executive::command::*;

/// The arranger runs. Tasks behind it are woken: receivers that got a message, but of a sender that they don't want, and one task a
/// queue, which finds there nothing again. They all will wait again. Behind them one whose request completes and wakes the last
/// of those at the queues, whose request completes too, and settling ends. Behind them all tasks that only wait, and for each the
/// arranger has a message with the semaphore that it waits on.
#[derive(Clone, Copy)]
pub struct Storm {
    pub size: Size,
    pub ends: Ends,
    /// A queue that nobody waits at.
    pub spared: Option<u8>,
    pub receivers: u8,
    /// The receivers that got their message.
    pub sent: u8,
    pub waiters: u8,
    pub order: Order,
}

/// Where the arranger's messages lie, among those of the receivers.
#[derive(Clone, Copy)]
pub enum Order {
    Before,
    Between,
    Behind,
}

impl Order {
    pub fn name(self) -> &'static str {
        match self {
            Order::Before => "before",
            Order::Between => "between",
            Order::Behind => "behind",
        }
    }
}

impl Storm {
    pub fn new(size: Size, ends: Ends) -> Self {
        let (receivers, sent) = (MESSAGES, MESSAGES);
        Storm { size, ends, spared: None, receivers, sent, waiters: 0, order: Order::Before }
    }

    fn queues(self) -> Vec<u8> {
        (1..=self.size.queues).filter(|&queue| self.spared != Some(queue)).collect()
    }

    /// The first receiver. Those that wait at queues come behind the receivers, and then the one that completes.
    pub fn first(self) -> u8 {
        self.passing() - self.receivers - self.queues().len() as u8
    }

    fn passing(self) -> u8 {
        TASKS - self.waiters
    }

    pub fn stage(self) -> Stage {
        let (queues, first) = (self.queues(), self.first());
        let relayed = *queues.last().expect("a queue");
        let mut stage = Stage::new(self.size, first - 1);
        stage.relay(self.ends, self.passing(), relayed);
        for (&queue, task) in queues.iter().zip(first + self.receivers..) {
            if matches!(self.ends, Ends::Putters) && queue != relayed {
                stage.fill(queue);
            }
            stage.wait_at(self.ends, task, queue);
        }
        (0..self.receivers).for_each(|place| stage.ask(first + place, service(RECEIVE, SILENT, 0)));
        (self.passing() + 1..=TASKS).for_each(|task| stage.ask(task, service(WAIT, 0, 0)));
        queues.iter().for_each(|&queue| stage.tease(self.ends, queue));
        self.messages(stage.arranger).into_iter().for_each(|frame| stage.does(frame));
        stage.does(service(RESUME, self.passing(), 0));
        stage
    }

    fn messages(self, arranger: u8) -> Vec<Frame> {
        let first = self.first();
        let receivers = (1..=self.sent).map(|number| message(SEND, first + number - 1, 0, number));
        let waiter = |place: u8| self.size.semaphore_of(self.passing() + place);
        let own = (1..=self.waiters).map(|place| message(SEND, arranger, waiter(place), self.sent + place));
        match self.order {
            Order::Before => own.chain(receivers).collect(),
            Order::Behind => receivers.chain(own).collect(),
            Order::Between => {
                let (own, receivers): (Vec<Frame>, Vec<Frame>) = (own.collect(), receivers.collect());
                let pairs = (0..own.len().max(receivers.len())).map(|place| [own.get(place), receivers.get(place)]);
                pairs.flatten().flatten().cloned().collect()
            }
        }
    }

    pub fn name(self) -> String {
        let Storm { size, ends, receivers, .. } = self;
        let queues = self.queues().len();
        format!("storm: {receivers} receivers, {queues} {}s, a {}; {}", ends.waiting(), ends.passing(), size_name(size))
    }
}

pub fn size_name(size: Size) -> String {
    format!("Q {}, width {}", size.queues, size.width)
}

/// Nobody runs, and all 64 timers are due with the next tick: 63 wake receivers of a sender that they don't want, the last one a
/// task whose request completes and wakes another at its queue. Groups of so many timers have one period each, the longest first.
pub fn alarm(size: Size, ends: Ends, groups: &[u8]) -> Stage {
    let first = TASKS - MESSAGES;
    let mut stage = Stage::new(size, 1);
    stage.relay(ends, TASKS, size.queues);
    stage.wait_at(ends, first, size.queues);
    (1..MESSAGES).for_each(|place| stage.ask(first + place, service(RECEIVE, SILENT, 0)));
    (1..MESSAGES).for_each(|number| stage.send(first + number, number));
    stage.send(first + 1, MESSAGES);
    let mut started = 0;
    for (turn, &many) in groups.iter().enumerate() {
        if turn > 0 {
            stage.does(tick());
        }
        let period = (groups.len() - turn) as i16;
        (started + 1..=started + many).for_each(|number| stage.does(timed(DELAY, first + number, number, -period)));
        started += many;
    }
    stage.does(service(RESUME, TASKS, 0));
    stage.does(service(SUSPEND, 0, 0));
    stage
}
