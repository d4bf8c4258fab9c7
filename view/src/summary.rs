//! What a whole session amounts to: shares, longest waits, high-water marks, turns of timers, lost signals, refusals, and who is stuck.

use std::collections::BTreeMap;

use plain_executive::configuration::Configuration;
use plain_executive::items::{Items, RequestItem, TaskItem};
use plain_executive::numbers::Number;
use plain_executive::semaphore::Semaphore;
use plain_executive::tasks::Block;
use plain_executive::trail::Event;

use crate::json::Json;
use crate::refusals::SHORT;
use crate::replay::Step;
use crate::stuck::Wakers;
use crate::turns::Turns;
use crate::words::{grouped, queue_of, Side, Words};

#[derive(Clone, Copy, Debug, PartialEq, Eq, PartialOrd, Ord)]
pub enum Cause {
    Semaphore(u8),
    /// From this task, or from any for 0.
    Message(u8),
    Suspended,
}

/// A stretch of frames: the last is the one that ended the wait, or the session's last.
#[derive(Clone, Copy)]
pub struct Wait {
    pub cause: Cause,
    pub from: usize,
    pub tock: u64,
}

struct Longest {
    times: usize,
    frames: usize,
    tocks: u64,
    from: usize,
    to: usize,
}

/// The largest value, and the first frame that has it.
#[derive(Clone, Copy, Default)]
struct Most {
    value: usize,
    frame: usize,
}

impl Most {
    fn meet(&mut self, value: usize, frame: usize) {
        if value > self.value {
            *self = Most { value, frame };
        }
    }
}

struct Counted {
    times: usize,
    first: usize,
    last: usize,
}

pub struct Summary {
    frames: usize,
    tocks: u64,
    /// By task, the null task first.
    ran: Vec<usize>,
    waiting: Vec<Option<Wait>>,
    longest: BTreeMap<(u8, Cause), Longest>,
    fill: Vec<Most>,
    messages: Most,
    timers: Most,
    turns: Turns,
    lost: BTreeMap<u8, Counted>,
    refusals: BTreeMap<Number, Counted>,
    wakers: Wakers,
}

impl Summary {
    pub fn new(configuration: &Configuration) -> Self {
        let tasks = usize::from(configuration.tasks) + 1;
        Summary {
            frames: 0,
            tocks: 0,
            ran: vec![0; tasks],
            waiting: vec![None; tasks],
            longest: BTreeMap::new(),
            fill: vec![Most::default(); configuration.queues.len()],
            messages: Most::default(),
            timers: Most::default(),
            turns: Turns::default(),
            lost: BTreeMap::new(),
            refusals: BTreeMap::new(),
            wakers: Wakers::default(),
        }
    }

    pub fn step(&mut self, step: &Step, items: &Items) {
        self.frames = step.number;
        self.tocks = step.other.clock().tocks();
        self.ran[usize::from(step.running())] += 1;
        self.turns.step(step);
        if step.refusal() != 0 {
            return count(&mut self.refusals, step.refusal(), step.number);
        }
        self.wakers.step(step);
        for event in step.trail {
            if let Event::Lost { semaphore } = event {
                count(&mut self.lost, *semaphore, step.number);
            }
        }
        self.waits(step.number, items);
        self.marks(step.number, items);
    }

    fn waits(&mut self, frame: usize, items: &Items) {
        for (task, cause) in (1..).zip(causes(items)) {
            let place = usize::from(task);
            let now = self.waiting[place];
            if now.map(|wait| wait.cause) == cause {
                continue;
            }
            if let Some(wait) = now {
                self.ended(task, wait, frame);
            }
            self.waiting[place] = cause.map(|cause| Wait { cause, from: frame, tock: self.tocks });
        }
    }

    fn ended(&mut self, task: u8, wait: Wait, frame: usize) {
        let (frames, tocks) = (frame - wait.from, self.tocks - wait.tock);
        let fresh = Longest { times: 0, frames: 0, tocks: 0, from: wait.from, to: frame };
        let longest = self.longest.entry((task, wait.cause)).or_insert(fresh);
        longest.times += 1;
        if frames > longest.frames {
            *longest = Longest { times: longest.times, frames, tocks, from: wait.from, to: frame };
        }
    }

    fn marks(&mut self, frame: usize, items: &Items) {
        for (most, entries) in self.fill.iter_mut().zip(&items.queues) {
            most.meet(entries.len(), frame);
        }
        self.messages.meet(items.mailboxes.iter().map(Vec::len).sum(), frame);
        self.timers.meet(items.timers.len(), frame);
    }

    /// All tables, after the last step.
    pub fn tables(mut self, words: &Words, items: &Items) -> Json {
        let still = std::mem::take(&mut self.waiting);
        let turns = std::mem::take(&mut self.turns);
        for (task, wait) in (0..).zip(&still) {
            if let Some(wait) = wait {
                self.ended(task, *wait, self.frames);
            }
        }
        Json::List(vec![
            self.shares(words),
            self.longest_waits(words, &still),
            self.high_water(words),
            turns.table(words),
            self.lost_signals(words),
            self.refused(),
            self.wakers.table(words, items, &still),
        ])
    }

    fn shares(&self, words: &Words) -> Json {
        let all = self.frames + 1;
        let mut ran: Vec<(usize, usize)> = self.ran.iter().copied().enumerate().collect();
        ran.sort_by_key(|(task, ran)| (std::cmp::Reverse(*ran), *task));
        let row = |(task, ran): (usize, usize)| {
            let percent = 100.0 * ran as f64 / all as f64;
            vec![words.task(task as u8), grouped(ran), format!("{percent:.1} %")]
        };
        let note = "After how many frames each task was the one that runs.";
        table("Share of frames", note, &["runs", "frames", "share"], ran.into_iter().map(row).collect())
    }

    fn longest_waits(&self, words: &Words, still: &[Option<Wait>]) -> Json {
        let mut waits: Vec<_> = self.longest.iter().collect();
        waits.sort_by_key(|(key, longest)| (std::cmp::Reverse(longest.frames), **key));
        let row = |((task, cause), longest): (&(u8, Cause), &Longest)| {
            let Longest { times, frames, tocks, from, to } = longest;
            let open = still[usize::from(*task)].is_some_and(|wait| wait.from == *from && wait.cause == *cause);
            let when = if open { format!("since #{from}") } else { format!("#{from} to #{to}") };
            let (task, cause) = (words.task(*task), caused(words, *cause));
            vec![task, cause, grouped(*frames), grouped(*tocks as usize), when, grouped(*times)]
        };
        let columns = ["who", "waits for", "frames", "tocks", "longest", "waits"];
        let note = "The longest wait of each task for each cause, and how many such waits there were.";
        table("Longest wait by cause", note, &columns, waits.into_iter().map(row).collect())
    }

    fn high_water(&self, words: &Words) -> Json {
        let Configuration { messages, timers, ref queues, .. } = *words.configuration;
        let mut rows: Vec<Vec<String>> = Vec::new();
        let mut row = |what: String, most: &Most, of: u8| {
            let first = if most.value > 0 { format!("#{}", most.frame) } else { String::new() };
            rows.push(vec![what, most.value.to_string(), of.to_string(), first]);
        };
        for (number, (most, size)) in (1..).zip(self.fill.iter().zip(queues)) {
            row(words.queue(number), most, size.depth);
        }
        row("messages lying".to_string(), &self.messages, messages);
        row("timers active".to_string(), &self.timers, timers);
        table("High-water marks", "The most that there was, and when first.", &["what", "most", "of", "first"], rows)
    }

    fn lost_signals(&self, words: &Words) -> Json {
        let row = |(semaphore, counted): (&u8, &Counted)| {
            let mut row = vec![words.semaphore(*semaphore)];
            row.extend(counted.cells());
            row
        };
        let note = "A signal of a semaphore that is DONE already does nothing.";
        let rows = self.lost.iter().map(row).collect();
        table("Signals lost on DONE", note, &["semaphore", "signals", "first", "last"], rows)
    }

    fn refused(&self) -> Json {
        let row = |(number, counted): (&Number, &Counted)| {
            let mut row = vec![number.to_string(), SHORT[usize::from(*number)].to_string()];
            row.extend(counted.cells());
            row
        };
        let rows = self.refusals.iter().map(row).collect();
        table("Refusals by number", "", &["number", "rule", "frames", "first", "last"], rows)
    }
}

impl Counted {
    fn cells(&self) -> [String; 3] {
        [grouped(self.times), format!("#{}", self.first), format!("#{}", self.last)]
    }
}

fn count<Key: Ord>(counts: &mut BTreeMap<Key, Counted>, key: Key, frame: usize) {
    let counted = counts.entry(key).or_insert(Counted { times: 0, first: frame, last: frame });
    counted.times += 1;
    counted.last = frame;
}

/// A table of the page. `#12` in a cell leads to that frame.
pub fn table(title: &str, note: &str, columns: &[&str], rows: Vec<Vec<String>>) -> Json {
    Json::Object(vec![
        ("title", title.into()),
        ("note", note.into()),
        ("columns", columns.to_vec().into()),
        ("rows", rows.into()),
    ])
}

/// Of each task what it waits for.
pub fn causes(items: &Items) -> Vec<Option<Cause>> {
    let mut waits: Vec<Option<Cause>> = items.tasks.iter().map(suspended_or_message).collect();
    for (number, state) in (1..).zip(&items.semaphores) {
        if let Semaphore::Waiting(task) = state {
            waits[usize::from(*task) - 1] = Some(Cause::Semaphore(number));
        }
    }
    waits
}

fn suspended_or_message(task: &TaskItem) -> Option<Cause> {
    if task.blocks.has(Block::MessageWait) {
        return Some(Cause::Message(if let RequestItem::Receive(from) = task.request { from } else { 0 }));
    }
    task.blocks.has(Block::Suspended).then_some(Cause::Suspended)
}

/// What a task waits for, in words.
pub fn caused(words: &Words, cause: Cause) -> String {
    match cause {
        Cause::Semaphore(number) => match queue_of(words.configuration, number) {
            Some((queue, Side::NotEmpty)) => format!("an entry of {}", words.queue(queue)),
            Some((queue, Side::NotFull)) => format!("room in {}", words.queue(queue)),
            None => words.semaphore(number),
        },
        Cause::Message(0) => "a message".to_string(),
        Cause::Message(from) => format!("a message from {}", words.task(from)),
        Cause::Suspended => "a resume".to_string(),
    }
}
