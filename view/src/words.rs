//! Frames and answers in words.

use std::collections::BTreeSet;

use c::caller::Caller;
use plain_executive::answer;
use plain_executive::command::*;
use plain_executive::configuration::Configuration;
use plain_executive::numbers::Number;
use plain_executive::tasks::Letter;
use plain_executive::tocks::{season_tock_value, tock_value, Tocks};
use plain_executive::trail::Event;

use crate::names::Names;
use crate::refusals;
use crate::replay::Step;

pub struct Words<'a> {
    pub configuration: &'a Configuration,
    pub names: &'a Names,
}

/// "1 byte", "2 bytes".
pub fn counted(count: usize, what: &str) -> String {
    format!("{} {what}{}", grouped(count), if count == 1 { "" } else { "s" })
}

/// With a comma before each three digits.
pub fn grouped(count: usize) -> String {
    let digits = count.to_string();
    let parts: Vec<&str> = digits.as_bytes().rchunks(3).rev().map(|part| std::str::from_utf8(part).unwrap()).collect();
    parts.join(",")
}

/// "task 1", "task 1 and task 2", "task 1, task 2 and task 3".
pub fn listed(told: &[String]) -> String {
    match told {
        [front @ .., last] if !front.is_empty() => format!("{} and {last}", front.join(", ")),
        _ => told.concat(),
    }
}

pub fn hex(bytes: &[u8]) -> String {
    bytes.iter().map(|byte| format!("{byte:02X}")).collect()
}

/// Which of a queue's semaphores.
#[derive(Clone, Copy, PartialEq, Eq)]
pub enum Side {
    NotEmpty,
    NotFull,
}

/// The queue whose semaphore this is.
pub fn queue_of(configuration: &Configuration, semaphore: u8) -> Option<(u8, Side)> {
    let behind = semaphore.checked_sub(configuration.nameable_semaphores())?.checked_sub(1)?;
    let side = if behind % 2 == 0 { Side::NotEmpty } else { Side::NotFull };
    (behind / 2 < configuration.queue_count()).then_some((behind / 2 + 1, side))
}

impl Words<'_> {
    pub fn task(&self, task: u8) -> String {
        match self.names.of('t', task) {
            _ if task == 0 => "the null task".to_string(),
            Some(name) => name.to_string(),
            None => format!("task {task}"),
        }
    }

    /// Where the word task is clear: its number alone.
    fn number_of(&self, task: u8) -> String {
        self.names.of('t', task).map_or_else(|| task.to_string(), str::to_string)
    }

    pub fn semaphore(&self, number: u8) -> String {
        if let Some(name) = self.names.of('s', number) {
            return format!("semaphore {name}");
        }
        match queue_of(self.configuration, number) {
            Some((queue, Side::NotEmpty)) => return format!("not-empty of {}", self.queue(queue)),
            Some((queue, Side::NotFull)) => return format!("not-full of {}", self.queue(queue)),
            None => {}
        }
        let task = number.checked_sub(self.configuration.named_semaphores);
        let own = task.and_then(|task| self.names.of('t', task));
        own.map_or_else(|| format!("semaphore {number}"), |name| format!("{name}'s own semaphore"))
    }

    /// A semaphore in a sentence about a task: the task's own is its own, where only the task has a name.
    pub fn semaphore_of(&self, task: u8, number: u8) -> String {
        let own = task > 0 && number == self.configuration.semaphore_of_task(task);
        if own && self.names.of('t', task).is_some() && self.names.of('s', number).is_none() {
            return "its own semaphore".to_string();
        }
        self.semaphore(number)
    }

    pub fn queue(&self, number: u8) -> String {
        format!("queue {}", self.names.of('q', number).map_or_else(|| number.to_string(), str::to_string))
    }

    pub fn message(&self, number: u16) -> String {
        let name = u8::try_from(number).ok().and_then(|number| self.names.of('m', number));
        format!("message {}", name.map_or_else(|| number.to_string(), str::to_string))
    }

    /// The whole line of a step, with its number.
    pub fn line(&self, step: &Step) -> String {
        format!("{}  {}: {}", step.number, self.asked(step), self.answered(step))
    }

    /// What the frame asks for.
    pub fn asked(&self, step: &Step) -> String {
        if step.number == 0 {
            return configured(self.configuration) + on(step.memory.caller) + &self.only_after();
        }
        match step.frame {
            None => format!("a line of {}", counted(step.line.len(), "character")),
            Some(frame @ [code, a, b, high, low, ..]) if (WAIT..=SEASON_TIMER).contains(code) => {
                let x = u16::from_be_bytes([*high, *low]);
                let asked =
                    Asked { words: self, caller: step.caller, code: *code, a: *a, b: *b, x, behind: &frame[5..] };
                asked.words(step)
            }
            Some(frame) => format!("frame {}", hex(frame)),
        }
    }

    /// The tasks that must not be idle when a task is started, each once.
    pub fn firsts(&self, task: u8) -> BTreeSet<u8> {
        self.configuration.firsts(task).collect()
    }

    /// The pairs of the configuration, by the tasks that are started only after others.
    fn only_after(&self) -> String {
        let after = |task: u8| {
            let firsts: Vec<String> = self.firsts(task).into_iter().map(|first| self.task(first)).collect();
            (!firsts.is_empty()).then(|| format!("; {} starts only after {}", self.task(task), listed(&firsts)))
        };
        (1..=self.configuration.tasks).filter_map(after).collect()
    }

    /// The answer, and what the frame did that the answer does not show.
    pub fn answered(&self, step: &Step) -> String {
        let running = self.task(step.running());
        if step.refusal() != 0 {
            let rule = refusals::rule(self, step);
            let on = if step.running() == 0 { "runs" } else { "goes on" };
            return format!("refused {}, {rule}; {running} {on}", step.refusal());
        }
        let mut said = format!("{running} runs{}", self.outcome(step.running(), &step.answer[3..]));
        if step.answer[2] > 0 {
            said += &format!("; {} reissued", step.answer[2]);
        }
        said += &self.freed(step);
        step.trail.iter().filter_map(|event| self.lost(step, event)).for_each(|lost| said += &lost);
        said
    }

    /// What came of the signals of the messages that a terminate dropped.
    fn freed(&self, step: &Step) -> String {
        let mut seen = BTreeSet::new();
        let semaphores = step.dropped.iter().map(|letter| letter.semaphore).filter(|semaphore| seen.insert(*semaphore));
        semaphores.map(|semaphore| self.signalled(step, semaphore)).collect()
    }

    /// Each signal of the semaphore woke a task, was lost, or made it DONE. An answer that shows the woken task with it says so itself.
    fn signalled(&self, step: &Step, semaphore: u8) -> String {
        let woken = step.trail.iter().find_map(|event| woken_by(semaphore, event));
        let mut said = String::new();
        if let Some(task) = woken.filter(|task| !shows(step, *task, semaphore)) {
            said += &format!("; {} is woken by {}", self.task(task), self.semaphore_of(task, semaphore));
        }
        if signals_of(semaphore, step) > lost_of(semaphore, step) + usize::from(woken.is_some()) {
            said += &format!("; {} is DONE", self.semaphore(semaphore));
        }
        said
    }

    /// Of a semaphore that was DONE before the frame every signal is lost; else the frame's first one is not.
    fn lost(&self, step: &Step, event: &Event) -> Option<String> {
        let Event::Lost { semaphore } = *event else { return None };
        let name = self.semaphore(semaphore);
        Some(if signals_of(semaphore, step) > lost_of(semaphore, step) {
            format!("; a further signal of {name} is lost")
        } else {
            format!("; {name} was DONE, a signal is lost")
        })
    }

    fn outcome(&self, task: u8, outcome: &[u8]) -> String {
        match outcome {
            [answer::BEGIN, ..] => ", begins".to_string(),
            [answer::MESSAGE, message, sender, _] => {
                format!(", has {} from {}", self.message((*message).into()), self.number_of(*sender))
            }
            [answer::ENTRY, entry @ ..] => format!(", has entry {}", hex(entry)),
            [answer::REFUSED, number] => {
                format!(", its request met {number}: {}", refusals::SHORT[usize::from(*number)])
            }
            [answer::SEMAPHORE, number] => format!(", has {}", self.semaphore_of(task, *number)),
            [answer::WOKE, 0] => ", woke nobody".to_string(),
            [answer::WOKE, woken] => format!(", woke {}", self.task(*woken)),
            _ => String::new(),
        }
    }
}

/// How often the timers and the dropped messages of a frame signal this semaphore.
fn signals_of(semaphore: u8, step: &Step) -> usize {
    let due = |event: &&Event| matches!(event, Event::Due { semaphore: of, .. } if *of == semaphore);
    let dropped = step.dropped.iter().filter(|letter| letter.semaphore == semaphore);
    step.trail.iter().filter(due).count() + dropped.count()
}

/// How many signals of this semaphore a frame loses.
fn lost_of(semaphore: u8, step: &Step) -> usize {
    step.trail.iter().filter(|event| **event == Event::Lost { semaphore }).count()
}

/// The answer shows the task as running, with this semaphore as its outcome.
fn shows(step: &Step, task: u8, semaphore: u8) -> bool {
    step.running() == task && step.answer[3..] == [answer::SEMAPHORE, semaphore]
}

/// The task whose wait for this semaphore ended.
fn woken_by(semaphore: u8, event: &Event) -> Option<u8> {
    match *event {
        Event::Woken { task, semaphore: by } if by == semaphore => Some(task),
        _ => None,
    }
}

/// Behind what is said of a whole session: the caller, if it is not the controller.
pub fn on(caller: Caller) -> &'static str {
    match caller {
        Caller::Controller => "",
        Caller::Module => "; on the brake module",
    }
}

fn configured(configuration: &Configuration) -> String {
    let Configuration { tasks, named_semaphores, timers, messages, ticks_per_tock, milliseconds_per_tock, .. } =
        *configuration;
    let count = |count: u8, what: &str| counted(count.into(), what);
    format!(
        "configuration of {}, {}, {}, {}, {}; a tock is {} and {} ms",
        count(tasks, "task"),
        count(named_semaphores, "named semaphore"),
        count(configuration.queue_count(), "queue"),
        count(timers, "timer"),
        count(messages, "message"),
        count(ticks_per_tock, "tick"),
        grouped(milliseconds_per_tock.into())
    )
}

/// A frame's fields.
struct Asked<'a> {
    words: &'a Words<'a>,
    caller: u8,
    code: u8,
    a: u8,
    b: u8,
    x: u16,
    /// An entry, or the rest of a season timer's tocks.
    behind: &'a [u8],
}

impl Asked<'_> {
    fn words(&self, step: &Step) -> String {
        let Asked { words, a, x, .. } = self;
        let own = words.task(self.caller);
        match self.code {
            WAIT => format!("{own} waits for {}", self.semaphore(self.caller)),
            SIGNAL => format!("{own} signals {}", self.semaphore(self.caller)),
            PEND => format!("{own} pends {}", self.semaphore(self.caller)),
            SEND => format!("{own} {}", self.sends()),
            SENDW => format!("{own} {} and waits", self.sends()),
            RECEIVE if *a == 0 => format!("{own} receives from any task"),
            RECEIVE => format!("{own} receives from {}", words.task(*a)),
            DEQUEUE => format!("{own} takes from {}", words.queue(*a)),
            ENQUEUE => format!("{own} puts {} into {}", hex(self.behind), words.queue(*a)),
            RESUME => format!("{own} resumes {}", self.task_or("task 0")),
            SUSPEND => format!("{own} suspends {}", self.task_or("itself")),
            TERMINATE => format!("{own} terminates {}{}", self.task_or("itself"), self.drops(step)),
            EXECUTE => format!("{own} executes {}", self.task_or("task 0")),
            DELAY => {
                let by = tocks(tock_value(*x));
                format!("{own} delays {} by {by} on {}", self.task_or("itself"), self.semaphore(self.of_a()))
            }
            TIMER => self.timer(&own, "timer", &format!(" of {}", tocks(tock_value(*x)))),
            SEASON_TIMER => self.timer(&own, "season timer", &self.season()),
            PURGE => self.purge(&own),
            TICK => format!("tick{}", self.passed(step)),
            _ if self.b == 0 => "interrupt exit".to_string(),
            _ => format!("interrupt exit, signals {}", words.semaphore(self.b)),
        }
    }

    /// Semaphore B, 0 is that of a task; the null task has none.
    fn semaphore(&self, of: u8) -> String {
        match (self.b, of) {
            (0, 0) => "its own semaphore".to_string(),
            (0, of) if of > self.words.configuration.tasks => format!("the own semaphore of task {of}"),
            (0, of) => self.words.semaphore_of(self.caller, self.words.configuration.semaphore_of_task(of)),
            (named, _) => self.words.semaphore_of(self.caller, named),
        }
    }

    /// Task A, 0 is the caller.
    fn of_a(&self) -> u8 {
        if self.a == 0 {
            self.caller
        } else {
            self.a
        }
    }

    /// Task A, or what its number 0 means; the caller's own number is the caller.
    fn task_or(&self, zero: &str) -> String {
        match self.a {
            0 => zero.to_string(),
            own if own == self.caller => "itself".to_string(),
            other => self.words.task(other),
        }
    }

    fn sends(&self) -> String {
        let Asked { words, a, x, .. } = self;
        let to = if *a == 0 { "task 0".to_string() } else { words.task(*a) };
        format!("sends {} to {to} with {}", words.message(*x), self.semaphore(self.caller))
    }

    /// Of a terminate: the messages that it dropped.
    fn drops(&self, step: &Step) -> String {
        let letter = |letter: &Letter| {
            format!("{} from {}", self.words.message(letter.message.into()), self.words.task(letter.sender))
        };
        let dropped: Vec<String> = step.dropped.iter().map(letter).collect();
        match dropped.len() {
            0 => String::new(),
            1 => format!(", {} is dropped", listed(&dropped)),
            _ => format!(", {} are dropped", listed(&dropped)),
        }
    }

    fn timer(&self, own: &str, what: &str, of: &str) -> String {
        let whom = if self.of_a() == self.caller { String::new() } else { format!(" for {}", self.words.task(self.a)) };
        format!("{own} starts a {what}{whom}{of} on {}", self.semaphore(self.of_a()))
    }

    /// The tocks of a season timer; a frame of another length has none.
    fn season(&self) -> String {
        let [high, low] = self.x.to_be_bytes();
        match *self.behind {
            [next, last] => {
                format!(" of {}", tocks(season_tock_value(u32::from_be_bytes([high, low, next, last]))))
            }
            _ => String::new(),
        }
    }

    fn purge(&self, own: &str) -> String {
        let is_own = self.of_a() == self.caller;
        let all = self.x & 0xFF == 0;
        let whose = self.words.task(self.a);
        match (is_own, all) {
            (true, true) => format!("{own} purges all its timers"),
            (false, true) => format!("{own} purges all timers of {whose}"),
            (true, false) => format!("{own} purges its timer on {}", self.semaphore(self.caller)),
            (false, false) => format!("{own} purges the timer of {whose} on {}", self.semaphore(self.a)),
        }
    }

    /// Of a tick: the tock, and the timers that were due.
    fn passed(&self, step: &Step) -> String {
        let mut said = String::new();
        if step.tock {
            said += ", a tock passes";
        }
        for event in step.trail {
            if let Event::Due { task, semaphore } = event {
                let (task, semaphore) = (self.words.task(*task), self.words.semaphore_of(*task, *semaphore));
                said += &format!(", a timer of {task} signals {semaphore}");
            }
        }
        said
    }
}

/// A tock value.
fn tocks(value: Result<Tocks, Number>) -> String {
    match value {
        Err(_) => "0 tocks".to_string(),
        Ok(Tocks::OneShot(tocks)) => counted(tocks as usize, "tock"),
        Ok(Tocks::Cyclic(period)) => format!("{} (cyclic)", counted(period as usize, "tock")),
    }
}
