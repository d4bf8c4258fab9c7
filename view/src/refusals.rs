//! The rule that a refused frame broke, in words.

use plain_executive::command::*;
use plain_executive::configuration::{Configuration, QueueSize, MOST_PAIRS};
use plain_executive::executive::Executive;
use plain_executive::limits::Limits;
use plain_executive::line::{self, MOST_DIGITS};
use plain_executive::numbers::*;
use plain_executive::semaphore::Semaphore;
use plain_executive::tasks::Block;

use crate::replay::Step;
use crate::words::{counted, grouped, listed, Words};

/// Each number's rule in few words; empty where there is no such number.
pub const SHORT: [&str; 28] = {
    let mut short = [""; 28];
    short[1] = "no line of digits";
    short[2] = "length";
    short[3] = "configuration value";
    short[4] = "no such code";
    short[5] = "no such task, or not for this code";
    short[6] = "no such semaphore, or a queue's";
    short[7] = "no such queue";
    short[8] = "no such message";
    short[9] = "tock value 0";
    short[10] = "milliseconds without a tock value";
    short[11] = "lent memory";
    short[20] = "a service while the null task runs";
    short[21] = "the semaphore has a waiting task";
    short[22] = "the message is in a mailbox";
    short[23] = "all timers are active";
    short[24] = "task and semaphore have a timer";
    short[25] = "delay of a task that is idle or waiting";
    short[26] = "execute before a first task, one that is idle";
    short[27] = "a configuration above the module's limits";
    short
};

/// The rule that this refused step broke. A refused frame changes nothing, so the state after it is the one that it met.
pub fn rule(words: &Words, step: &Step) -> String {
    let Some(frame) = step.frame else { return line_rule(step.line) };
    let field = |place: usize| frame.get(place).copied().unwrap_or(0);
    let met = Met { words, executive: step.other, own: step.caller, code: field(0), a: field(1), b: field(2), frame };
    match step.refusal() {
        LENGTH => met.length(),
        CODE => format!("there is no code {:02X} (01 to 12)", met.code),
        TASK => met.no_task(),
        SEMAPHORE => met.no_semaphore(),
        QUEUE => none_of("queue", met.a.into(), words.configuration.queue_count()),
        MESSAGE => none_of("message", u16::from_be_bytes([field(3), field(4)]), words.configuration.messages),
        TOCK_VALUE => "the tock value is 0".to_string(),
        NULL_TASK_RUNS => "no task runs, and the null task asks for no service".to_string(),
        SEMAPHORE_WAITING => met.waiting(),
        MESSAGE_IN_MAILBOX => met.lies(field(4)),
        ALL_TIMERS_ACTIVE => match words.configuration.timers {
            0 => "there are no timers".to_string(),
            1 => "the only timer is active".to_string(),
            timers => format!("all {timers} timers are active"),
        },
        HAS_A_TIMER => format!("{} has a timer on {} already", words.task(met.of_a()), met.semaphore(met.of_a())),
        IDLE_OR_WAITING => met.idle_or_waiting(),
        BEFORE_FIRST => met.before_first(),
        number => SHORT[usize::from(number)].to_string(),
    }
}

/// What is wrong with a line.
pub fn line_rule(text: &[u8]) -> String {
    let wrong = text.iter().position(|digit| !b"0123456789ABCDEF".contains(digit));
    if let Some(place) = wrong {
        let what = match text[place] {
            b'\r' => "a carriage return: let lines end with a line feed alone".to_string(),
            letter @ b'a'..=b'f' => format!("'{}': digits are upper-case", char::from(letter)),
            other => format!("'{}', which is no digit", char::from(other).escape_default()),
        };
        return format!("character {} is {what}", place + 1);
    }
    match line::read(text) {
        Err(_) if text.len() > MOST_DIGITS => format!("the line is longer than {MOST_DIGITS} digits"),
        Err(_) => "the number of digits is odd".to_string(),
        Ok(_) => String::new(),
    }
}

/// What is wrong with a configuration that met this number.
pub fn configuration_rule(text: &[u8], number: Number) -> String {
    let Ok(frame) = line::read(text) else { return line_rule(text) };
    if number == ABOVE_MODULE {
        return Configuration::read(&frame)
            .map_or_else(|_| String::new(), |configuration| above_module(&configuration));
    }
    let [tasks, named, queues, timers, messages, ticks, high, low, ref rest @ ..] = frame[..] else {
        return format!("it has {}, and the first eight are needed", counted(frame.len(), "byte"));
    };
    let sum = usize::from(named) + usize::from(tasks) + 2 * usize::from(queues);
    if number == LENGTH {
        return wrong_length(frame.len(), 8 + usize::from(tasks) + 2 * usize::from(queues));
    }
    let told = |holds: bool, what: String| (!holds).then_some(what);
    told((1..=126).contains(&tasks), format!("T, the number of tasks, is {tasks}, not 1 to 126"))
        .or_else(|| told(queues <= 32, format!("Q, the number of queues, is {queues}, not 0 to 32")))
        .or_else(|| told(timers <= 64, format!("R, the number of timers, is {timers}, not 0 to 64")))
        .or_else(|| told(messages <= 64, format!("G, the number of messages, is {messages}, not 0 to 64")))
        .or_else(|| told(ticks > 0, "K, the ticks of a tock, is 0, not 1 to 255".to_string()))
        .or_else(|| told(high > 0 || low > 0, "a tock has 0 milliseconds, not 1 to 65,535".to_string()))
        .or_else(|| told(sum <= 255, format!("S + T + 2Q is {sum}, not at most 255")))
        .or_else(|| wrong_rest(rest, tasks.into(), queues.into()))
        .unwrap_or_else(|| SHORT[usize::from(CONFIGURATION)].to_string())
}

/// Which of the module's limits a configuration is above, and by how much.
fn above_module(configuration: &Configuration) -> String {
    let Limits { tasks, queues, timers, messages, queue_bytes } = Limits::MODULE;
    let counts = [
        ("task", configuration.tasks.into(), tasks.into()),
        ("queue", configuration.queues.len(), queues.into()),
        ("timer", configuration.timers.into(), timers.into()),
        ("message", configuration.messages.into(), messages.into()),
        ("queue byte", configuration.queues.iter().map(QueueSize::bytes).sum(), queue_bytes),
    ];
    let above = counts.into_iter().filter(|(_, count, most)| count > most);
    let by = |count: usize, most: usize| format!("({} above {})", grouped(count - most), grouped(most));
    let told = above.map(|(what, count, most)| format!("{} {}", counted(count, what), by(count, most)));
    format!("the module has no room for {}", listed(&told.collect::<Vec<_>>()))
}

/// Of a configuration of so many bytes, where 8 + T + 2Q is the other number.
fn wrong_length(bytes: usize, fixed: usize) -> String {
    match bytes.checked_sub(fixed) {
        None => format!("it has {}, and 8 + T + 2Q is {fixed}", counted(bytes, "byte")),
        Some(rest) if rest > 2 * MOST_PAIRS => {
            format!("it has {rest} bytes of pairs, and {MOST_PAIRS} pairs have {}", 2 * MOST_PAIRS)
        }
        Some(rest) => format!("it has {} of pairs, and a pair has two", counted(rest, "byte")),
    }
}

/// What stands behind the first eight bytes of a configuration whose length is right.
fn wrong_rest(rest: &[u8], tasks: usize, queues: usize) -> Option<String> {
    let (states, rest) = rest.split_at_checked(tasks)?;
    let (sizes, pairs) = rest.split_at_checked(2 * queues)?;
    wrong_state(states).or_else(|| wrong_size(sizes)).or_else(|| wrong_pair(pairs, states))
}

fn wrong_state(states: &[u8]) -> Option<String> {
    let place = states.iter().position(|state| *state > 1)?;
    Some(format!("the initial state of task {} is {}, not 0 or 1", place + 1, states[place]))
}

fn wrong_size(sizes: &[u8]) -> Option<String> {
    let mut bytes = 0;
    for (number, size) in (1..).zip(sizes.chunks_exact(2)) {
        let (width, depth) = (size[0], size[1]);
        if !(1..=16).contains(&width) || depth == 0 {
            return Some(format!("queue {number} has width {width} (1 to 16) and depth {depth} (1 to 255)"));
        }
        bytes += usize::from(width) * usize::from(depth);
    }
    (bytes > 4096).then(|| "the queues' widths times depths add up to more than 4,096".to_string())
}

fn wrong_pair(pairs: &[u8], states: &[u8]) -> Option<String> {
    let idle = |task: u8| states[usize::from(task) - 1] == 1;
    let wrong = |(number, pair): (usize, &[u8])| {
        let (first, then, tasks) = (pair[0], pair[1], states.len());
        let are_tasks = [first, then].iter().all(|task| (1..=tasks).contains(&usize::from(*task)));
        if !are_tasks {
            return Some(format!("pair {number} has first {first} and then {then}, not 1 to {tasks}"));
        }
        if first >= then {
            return Some(format!("pair {number} has first {first} and then {then}: the first has to be the lower"));
        }
        (idle(first) && !idle(then))
            .then(|| format!("task {then} starts runnable, and its first, task {first}, starts idle"))
    };
    (1..).zip(pairs.chunks_exact(2)).find_map(wrong)
}

fn none_of(what: &str, number: u16, most: u8) -> String {
    match most {
        0 => format!("there is no {what}"),
        1 => format!("there is no {what} {number}, only 1"),
        _ => format!("there is no {what} {number} (1 to {most})"),
    }
}

/// What a frame met.
struct Met<'a> {
    words: &'a Words<'a>,
    executive: &'a Executive,
    own: u8,
    code: u8,
    a: u8,
    b: u8,
    frame: &'a [u8],
}

impl Met<'_> {
    fn of_a(&self) -> u8 {
        if self.a == 0 {
            self.own
        } else {
            self.a
        }
    }

    fn number(&self, of: u8) -> u8 {
        if self.b == 0 {
            self.words.configuration.semaphore_of_task(of)
        } else {
            self.b
        }
    }

    fn semaphore(&self, of: u8) -> String {
        self.words.semaphore(self.number(of))
    }

    fn length(&self) -> String {
        let bytes = self.frame.len();
        if bytes < 5 {
            return format!("a frame has at least 5 bytes, not {bytes}");
        }
        if self.code == ENQUEUE {
            let (width, entry) = (self.words.configuration.width(self.a), bytes - 5);
            return format!("an entry of {} has {}, not {entry}", self.words.queue(self.a), counted(width, "byte"));
        }
        let due = if self.code == SEASON_TIMER { 7 } else { 5 };
        format!("a frame of code {:02X} has {due} bytes, not {bytes}", self.code)
    }

    fn no_task(&self) -> String {
        if self.code == EXECUTE && self.a == self.own {
            return "a task does not execute itself".to_string();
        }
        if self.a == 0 {
            return "task 0 is not allowed here".to_string();
        }
        none_of("task", self.a.into(), self.words.configuration.tasks)
    }

    fn no_semaphore(&self) -> String {
        let configuration = self.words.configuration;
        if self.b <= configuration.semaphores() {
            return format!("semaphore {} is {}, and nobody names it", self.b, self.words.semaphore(self.b));
        }
        format!("there is no semaphore {} (0 to {})", self.b, configuration.nameable_semaphores())
    }

    fn waiting(&self) -> String {
        let configuration = self.words.configuration;
        let queue = self.words.queue(self.a);
        let (number, why, what) = match self.code {
            DEQUEUE => (configuration.not_empty(self.a), format!("{queue} is empty, and "), "an entry".to_string()),
            ENQUEUE => (configuration.not_full(self.a), format!("{queue} is full, and "), "room".to_string()),
            DELAY => (self.number(self.of_a()), String::new(), self.semaphore(self.of_a())),
            _ => (self.number(self.own), String::new(), self.semaphore(self.own)),
        };
        match self.executive.semaphore(number) {
            Semaphore::Waiting(task) => format!("{why}{} waits for {what} already", self.words.task(task)),
            _ => SHORT[usize::from(SEMAPHORE_WAITING)].to_string(),
        }
    }

    fn lies(&self, message: u8) -> String {
        let holds = |task: &u8| self.executive.mailboxes().letters(*task).any(|letter| letter.message == message);
        let task =
            (1..=self.words.configuration.tasks).find(holds).map_or_else(String::new, |task| self.words.task(task));
        format!("{} still lies in the mailbox of {task}", self.words.message(message.into()))
    }

    fn idle_or_waiting(&self) -> String {
        let idle = self.executive.tasks().get(self.of_a()).blocks().has(Block::Idle);
        format!("{} {}", self.words.task(self.of_a()), if idle { "is idle" } else { "waits already" })
    }

    fn before_first(&self) -> String {
        let words = self.words;
        let firsts = words.firsts(self.a).into_iter();
        let idle = firsts.filter(|first| self.executive.tasks().get(*first).blocks().has(Block::Idle));
        let idle: Vec<String> = idle.map(|first| words.task(first)).collect();
        let (are, them) = if idle.len() == 1 { ("is", "it") } else { ("are", "them") };
        format!("{} {are} idle, and {} starts only after {them}", listed(&idle), words.task(self.a))
    }
}
