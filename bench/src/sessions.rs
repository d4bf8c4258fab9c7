//! The sessions that are measured, the same in every run: frames that prepare, and the frames that count.

use crate::frames::{self, season_timer, service, take, tick, timed};
use crate::session::{Frame, Session};
use plain_executive::command::*;
use plain_executive::executive::Executive;
use plain_executive::random::Random;
use plain_executive::semaphore::Semaphore;

const FRAMES: usize = 20_000;
/// Of a session that repeats one frame.
const SAME_FRAMES: usize = 5_000;
/// Choices of a frame that would leave no task that runs, before one of them is taken all the same.
const TRIES: usize = 50;

/// The numbers of a configuration; all queues have one size.
#[derive(Clone, Copy)]
struct Numbers {
    tasks: u8,
    named: u8,
    queues: u8,
    timers: u8,
    messages: u8,
    ticks: u8,
    /// Tasks 1 to this one are idle at first.
    idle: u8,
    width: u8,
    depth: u8,
}

const SMALL: Numbers =
    Numbers { tasks: 8, named: 64, queues: 4, timers: 64, messages: 64, ticks: 4, idle: 0, width: 8, depth: 8 };
const LARGE: Numbers = Numbers { tasks: 126, queues: 32, depth: 16, ..SMALL };
/// All that the brake module has room for.
const MODULE: Numbers = Numbers { tasks: 16, queues: 8, timers: 8, messages: 8, depth: 4, ..SMALL };

impl Numbers {
    fn frame(self) -> Frame {
        let mut frame = vec![self.tasks, self.named, self.queues, self.timers, self.messages, self.ticks, 0, 125];
        frame.extend((1..=self.tasks).map(|task| u8::from(task <= self.idle)));
        frame.extend([self.width, self.depth].repeat(self.queues.into()));
        frame
    }

    fn name(self, kind: &str) -> String {
        format!("{kind}, T {}, Q {}", self.tasks, self.queues)
    }
}

/// A ride at work, in four mixtures of frames, small and large.
pub fn recorded() -> Vec<Session> {
    [SMALL, LARGE].into_iter().flat_map(mixtures).collect()
}

/// The same mixtures on a ride that the module has room for.
pub fn for_module() -> [Session; 4] {
    mixtures(MODULE)
}

fn mixtures(numbers: Numbers) -> [Session; 4] {
    [mixed(numbers), ticks(numbers), queues(numbers), messages(numbers)]
}

fn mixed(numbers: Numbers) -> Session {
    const CODES: [u8; 33] = [
        TICK,
        TICK,
        TICK,
        TICK,
        INTERRUPT_EXIT,
        INTERRUPT_EXIT,
        WAIT,
        WAIT,
        WAIT,
        SIGNAL,
        SIGNAL,
        SIGNAL,
        PEND,
        SEND,
        SEND,
        SEND,
        SENDW,
        RECEIVE,
        RECEIVE,
        RECEIVE,
        ENQUEUE,
        ENQUEUE,
        ENQUEUE,
        DEQUEUE,
        DEQUEUE,
        DEQUEUE,
        RESUME,
        SUSPEND,
        TERMINATE,
        EXECUTE,
        DELAY,
        TIMER,
        PURGE,
    ];
    record(numbers.name("mixed"), numbers, Vec::new(), |random, _| {
        let code = random.pick(&CODES);
        let task = random.between(u8::from(code != RECEIVE), numbers.tasks);
        let semaphore = random.between(0, numbers.named + numbers.tasks);
        let queue = random.between(1, numbers.queues);
        match code {
            SEND | SENDW => vec![code, task, semaphore, 0, random.between(1, numbers.messages)],
            ENQUEUE => put(random, numbers, queue),
            DEQUEUE => take(queue),
            DELAY | TIMER => vec![code, task, semaphore, random.pick(&[0, 0, 255]), random.between(1, 99)],
            _ => vec![code, task, semaphore, 0, 0],
        }
    })
}

/// Cyclic timers, as many as there may be, and tasks that wait for their semaphores. Most frames are ticks; each fourth tick ends a tock.
fn ticks(numbers: Numbers) -> Session {
    let starts = (1..=numbers.timers)
        .map(|number| timed(TIMER, 1 + number % numbers.tasks, number, -5 - i16::from(number)))
        .collect();
    record(numbers.name(&format!("ticks, {} timers", numbers.timers)), numbers, starts, |random, executive| {
        if executive.running() == 0 || random.percent(60) {
            return tick();
        }
        let pending = |number: &u8| executive.semaphore(*number) == Semaphore::Pending;
        let free: Vec<u8> = (1..=numbers.named).filter(pending).collect();
        match random.pick_if(&free) {
            Some(number) => vec![WAIT, 0, number, 0, 0],
            None => vec![PEND, 0, random.between(1, numbers.named), 0, 0],
        }
    })
}

/// Tasks that put and take at all queues, and wait there.
fn queues(numbers: Numbers) -> Session {
    record(numbers.name("queues"), numbers, Vec::new(), |random, _| {
        let queue = random.between(1, numbers.queues);
        if random.percent(50) {
            put(random, numbers, queue)
        } else {
            take(queue)
        }
    })
}

/// Tasks that send and receive, with about half of the messages lying in mailboxes.
fn messages(numbers: Numbers) -> Session {
    record(numbers.name("messages"), numbers, Vec::new(), |random, executive| {
        let message = random.between(1, numbers.messages);
        if executive.mailboxes().holds(message) {
            vec![RECEIVE, 0, 0, 0, 0]
        } else {
            vec![SEND, random.between(1, numbers.tasks), 0, 0, message]
        }
    })
}

fn put(random: &mut Random, numbers: Numbers, queue: u8) -> Frame {
    frames::put(queue, &random.bytes(numbers.width.into()))
}

/// Frames that are accepted and mostly leave a task that runs.
fn record(
    name: String,
    numbers: Numbers,
    before: Vec<Frame>,
    mut choose: impl FnMut(&mut Random, &Executive) -> Frame,
) -> Session {
    let mut session = Session { name, configuration: numbers.frame(), before, frames: Vec::new() };
    let mut random = Random::new(1);
    let mut executive = session.other();
    while session.frames.len() < FRAMES {
        let mut tries = 0;
        loop {
            let frame = choose(&mut random, &executive);
            let mut after = executive.clone();
            tries += 1;
            assert!(tries < 20 * TRIES, "{}: no frame is accepted", session.name);
            if after.frame(&frame).refusal() == 0 && (after.running() != 0 || frame[0] == TICK || tries > TRIES) {
                session.frames.push(frame);
                executive = after;
                break;
            }
        }
    }
    session
}

/// What the memory holds while one frame is repeated, which leaves it so.
#[derive(Clone, Copy)]
pub struct Held {
    pub tasks: u8,
    pub running: u8,
    pub queues: u8,
    pub messages: u8,
    pub timers: u8,
}

const LITTLE: Held = Held { tasks: 8, running: 1, queues: 0, messages: 0, timers: 0 };
const MUCH: Held = Held { tasks: 126, running: 126, queues: 32, messages: 64, timers: 64 };

impl Held {
    fn session(self, name: &str, frame: &[u8]) -> Session {
        let Held { tasks, running, queues, messages, timers } = self;
        let numbers = Numbers { tasks, queues, ticks: 1, idle: running - 1, depth: 16, ..SMALL };
        let sends = (1..=messages).map(|message| vec![SEND, tasks, 0, 0, message]);
        let starts = (1..=timers).map(|number| timed(TIMER, tasks, number, i16::MIN));
        Session {
            name: format!("{name} | {tasks} | {running} | {queues} | {messages} | {timers}"),
            configuration: numbers.frame(),
            before: sends.chain(starts).collect(),
            frames: vec![frame.to_vec(); SAME_FRAMES],
        }
    }
}

/// A signal of a semaphore that is DONE, a tick that ends a tock in which no timer is due, executes with pairs, and timers that are
/// started and purged.
pub fn growing() -> Vec<Session> {
    let signal = |held: Held| held.session("signal", &[SIGNAL, 0, 64, 0, 0]);
    let tick = |held: Held| held.session("tick", &tick());
    let mut sessions = vec![signal(LITTLE), signal(Held { running: 8, ..LITTLE })];
    sessions.extend([1, 32, 64, 126].map(|running| signal(Held { tasks: 126, running, ..LITTLE })));
    sessions.extend([4, 32].map(|queues| signal(Held { queues, ..LITTLE })));
    sessions.extend([16, 32, 63, 64].map(|messages| signal(Held { messages, ..LITTLE })));
    sessions.push(signal(MUCH));
    sessions.extend([0, 16, 32, 64].map(|timers| tick(Held { timers, ..LITTLE })));
    sessions.push(tick(MUCH));
    let sizes = [LITTLE, Held { tasks: 126, queues: 32, ..LITTLE }];
    sessions.extend(sizes.into_iter().flat_map(executing));
    sessions.extend(sizes.into_iter().flat_map(starting));
    sessions
}

/// Timers of both widths. Each is purged again, so that the next one finds the memory as it was.
fn starting(held: Held) -> [Session; 2] {
    const TOCKS: i16 = -1000;
    let session = |name: &str, start: Frame| {
        let frames = [start, service(PURGE, 0, 0)];
        Session { frames: frames.iter().cycle().take(SAME_FRAMES).cloned().collect(), ..held.session(name, &frames[0]) }
    };
    [
        session("timer, then purge", timed(TIMER, 0, 0, TOCKS)),
        session("season timer, then purge", season_timer(0, 0, TOCKS.into())),
    ]
}

/// Executes of the last task by the first: without a pair, with one, with 64, and with 64 of which the last refuses it.
fn executing(held: Held) -> [Session; 4] {
    let last = held.tasks;
    let session = |name: &str, pairs: &[u8]| {
        let mut session = held.session(name, &[EXECUTE, last, 0, 0, 0]);
        let idle = [last - 1, last].map(|task| 7 + usize::from(task));
        idle.into_iter().for_each(|state| session.configuration[state] = 1);
        session.configuration.extend(pairs);
        session
    };
    let many = [1, last].repeat(63);
    [
        session("execute", &[]),
        session("execute, 1 pair", &[1, last]),
        session("execute, 64 pairs", &[many.as_slice(), &[1, last]].concat()),
        session("execute, 26 by the last of 64 pairs", &[many.as_slice(), &[last - 1, last]].concat()),
    ]
}
