//! A frame's command, its fields already standing for what they mean; or the number the frame is refused with.
//! Nothing is changed here.

use crate::executive::Executive;
use crate::numbers::*;
use crate::tasks::{Block, Letter};
use crate::timers::Start;
use crate::tocks::{season_tock_value, tock_value, Tocks};

pub const WAIT: u8 = 0x01;
pub const SIGNAL: u8 = 0x02;
pub const PEND: u8 = 0x03;
pub const SEND: u8 = 0x04;
pub const SENDW: u8 = 0x05;
pub const RECEIVE: u8 = 0x06;
pub const DEQUEUE: u8 = 0x07;
pub const ENQUEUE: u8 = 0x08;
pub const RESUME: u8 = 0x09;
pub const SUSPEND: u8 = 0x0A;
pub const TERMINATE: u8 = 0x0B;
pub const EXECUTE: u8 = 0x0C;
pub const DELAY: u8 = 0x0D;
pub const TIMER: u8 = 0x0E;
pub const PURGE: u8 = 0x0F;
pub const TICK: u8 = 0x10;
pub const INTERRUPT_EXIT: u8 = 0x11;
pub const SEASON_TIMER: u8 = 0x12;

/// All but what comes from outside the tasks.
pub fn is_service(code: u8) -> bool {
    !matches!(code, TICK | INTERRUPT_EXIT)
}

/// Those whose X is a tock value.
pub fn starts_a_timer(code: u8) -> bool {
    matches!(code, DELAY | TIMER | SEASON_TIMER)
}

#[derive(Clone, Copy, Debug, PartialEq, Eq)]
pub enum Command<'frame> {
    Wait(u8),
    Signal(u8),
    Pend(u8),
    Send(u8, Letter),
    SendAndWait(u8, Letter),
    Receive(u8),
    Dequeue(u8),
    Enqueue(u8, &'frame [u8]),
    Resume(u8),
    Suspend(u8),
    Terminate(u8),
    Execute(u8),
    Delay(Start),
    Timer(Start),
    PurgeAll(u8),
    PurgeOne(u8, u8),
    Tick,
    /// With 0 it signals nothing.
    InterruptExit(u8),
}

struct Fields {
    code: u8,
    a: u8,
    b: u8,
    x: u16,
}

pub fn read<'frame>(executive: &Executive, frame: &'frame [u8]) -> Result<Command<'frame>, Number> {
    let &[code, a, b, high, low, ref behind @ ..] = frame else {
        return Err(LENGTH);
    };
    require((WAIT..=SEASON_TIMER).contains(&code), CODE)?;
    require(has_its_length(code, behind), LENGTH)?;
    let reader = Reader { executive, own: executive.running() };
    require(!is_service(code) || reader.own != 0, NULL_TASK_RUNS)?;
    reader.command(Fields { code, a, b, x: u16::from_be_bytes([high, low]) }, behind)
}

/// By what lies behind the first five bytes. How long an entry has to be depends on its queue.
fn has_its_length(code: u8, behind: &[u8]) -> bool {
    match code {
        ENQUEUE => true,
        SEASON_TIMER => behind.len() == 2,
        _ => behind.is_empty(),
    }
}

struct Reader<'executive> {
    executive: &'executive Executive,
    /// The running task.
    own: u8,
}

impl Reader<'_> {
    fn command<'frame>(&self, fields: Fields, behind: &'frame [u8]) -> Result<Command<'frame>, Number> {
        let Fields { code, a, b, x } = fields;
        match code {
            WAIT => self.free_semaphore(b).map(Command::Wait),
            SIGNAL => self.semaphore(b, self.own).map(Command::Signal),
            PEND => self.free_semaphore(b).map(Command::Pend),
            SEND => self.letter(&fields).map(|letter| Command::Send(a, letter)),
            SENDW => {
                let letter = self.letter(&fields)?;
                self.executive.not_waiting(letter.semaphore)?;
                Ok(Command::SendAndWait(a, letter))
            }
            RECEIVE => self.task_or_zero(a).map(Command::Receive),
            DEQUEUE => self.dequeue(a),
            ENQUEUE => self.enqueue(a, behind),
            RESUME => self.task(a).map(Command::Resume),
            SUSPEND => self.task_or_self(a).map(Command::Suspend),
            TERMINATE => self.task_or_self(a).map(Command::Terminate),
            EXECUTE => self.execute(a),
            DELAY => self.delay(&fields),
            TIMER => self.timer(&fields, tock_value(x)),
            PURGE => self.purge(&fields),
            TICK => Ok(Command::Tick),
            INTERRUPT_EXIT => self.interrupt_exit(b),
            _ => self.timer(&fields, season_tock_value(four_bytes(x, behind))),
        }
    }

    fn letter(&self, fields: &Fields) -> Result<Letter, Number> {
        self.task(fields.a)?;
        let semaphore = self.semaphore(fields.b, self.own)?;
        let messages = u16::from(self.executive.configuration().messages);
        require((1..=messages).contains(&fields.x), MESSAGE)?;
        let message = fields.x as u8;
        require(!self.executive.mailboxes().holds(message), MESSAGE_IN_MAILBOX)?;
        Ok(Letter { message, sender: self.own, semaphore })
    }

    fn dequeue(&self, a: u8) -> Result<Command<'static>, Number> {
        self.queue(a)?;
        self.executive.may_dequeue(a)?;
        Ok(Command::Dequeue(a))
    }

    fn enqueue<'frame>(&self, a: u8, entry: &'frame [u8]) -> Result<Command<'frame>, Number> {
        self.queue(a)?;
        require(entry.len() == self.executive.configuration().width(a), LENGTH)?;
        self.executive.may_enqueue(a)?;
        Ok(Command::Enqueue(a, entry))
    }

    fn execute(&self, a: u8) -> Result<Command<'static>, Number> {
        self.task(a)?;
        require(a != self.own, TASK)?;
        require(!self.executive.has_idle_first(a), BEFORE_FIRST)?;
        Ok(Command::Execute(a))
    }

    fn delay(&self, fields: &Fields) -> Result<Command<'static>, Number> {
        let start = self.start(fields, tock_value(fields.x))?;
        let blocks = self.executive.tasks().get(start.task).blocks();
        require(!blocks.has(Block::Idle) && !blocks.waits(), IDLE_OR_WAITING)?;
        self.executive.not_waiting(start.semaphore)?;
        self.free_timer(&start)?;
        Ok(Command::Delay(start))
    }

    fn timer(&self, fields: &Fields, tocks: Result<Tocks, Number>) -> Result<Command<'static>, Number> {
        let start = self.start(fields, tocks)?;
        self.free_timer(&start)?;
        Ok(Command::Timer(start))
    }

    fn start(&self, fields: &Fields, tocks: Result<Tocks, Number>) -> Result<Start, Number> {
        let task = self.task_or_self(fields.a)?;
        let semaphore = self.semaphore(fields.b, task)?;
        Ok(Start { task, semaphore, tocks: tocks? })
    }

    fn free_timer(&self, start: &Start) -> Result<(), Number> {
        let timers = self.executive.timers();
        require(!timers.has(start.task, start.semaphore), HAS_A_TIMER)?;
        require(!timers.all_active(), ALL_TIMERS_ACTIVE)
    }

    fn purge(&self, fields: &Fields) -> Result<Command<'static>, Number> {
        let task = self.task_or_self(fields.a)?;
        let semaphore = self.semaphore(fields.b, task)?;
        let all = fields.x as u8 == 0;
        Ok(if all { Command::PurgeAll(task) } else { Command::PurgeOne(task, semaphore) })
    }

    fn interrupt_exit(&self, b: u8) -> Result<Command<'static>, Number> {
        require(b <= self.executive.configuration().nameable_semaphores(), SEMAPHORE)?;
        Ok(Command::InterruptExit(b))
    }

    fn task(&self, a: u8) -> Result<u8, Number> {
        require(a != 0, TASK)?;
        self.task_or_zero(a)
    }

    fn task_or_zero(&self, a: u8) -> Result<u8, Number> {
        require(a <= self.executive.configuration().tasks, TASK)?;
        Ok(a)
    }

    fn task_or_self(&self, a: u8) -> Result<u8, Number> {
        self.task_or_zero(a)?;
        Ok(if a == 0 { self.own } else { a })
    }

    /// 0 means the semaphore of the given task.
    fn semaphore(&self, b: u8, task: u8) -> Result<u8, Number> {
        let configuration = self.executive.configuration();
        require(b <= configuration.nameable_semaphores(), SEMAPHORE)?;
        Ok(if b == 0 { configuration.semaphore_of_task(task) } else { b })
    }

    /// A semaphore that would be pended or waited on by the running task.
    fn free_semaphore(&self, b: u8) -> Result<u8, Number> {
        let semaphore = self.semaphore(b, self.own)?;
        self.executive.not_waiting(semaphore)?;
        Ok(semaphore)
    }

    fn queue(&self, a: u8) -> Result<(), Number> {
        require((1..=self.executive.configuration().queue_count()).contains(&a), QUEUE)
    }
}

/// X and the two bytes behind it, high first.
fn four_bytes(x: u16, behind: &[u8]) -> u32 {
    behind.iter().fold(x.into(), |value, &byte| value << 8 | u32::from(byte))
}
