//! Who still waits when a session ends, and who could wake it: those who did such a thing before.

use std::collections::{BTreeMap, BTreeSet};

use plain_executive::command::*;
use plain_executive::items::{Items, TimerItem};
use plain_executive::trail::Event;

use crate::json::Json;
use crate::replay::Step;
use crate::summary::{caused, table, Cause, Wait};
use crate::words::{counted, queue_of, Side, Words};

#[derive(Clone, Copy, PartialEq, Eq, PartialOrd, Ord)]
enum Source {
    Task(u8),
    Interrupt,
    Timer,
}

/// What can end a wait.
#[derive(Clone, Copy, PartialEq, Eq, PartialOrd, Ord)]
enum Deed {
    Signals(u8),
    SendsTo(u8),
    PutsInto(u8),
    TakesFrom(u8),
    Resumes(u8),
}

/// How often each did it.
#[derive(Default)]
pub struct Wakers(BTreeMap<(Deed, Source), usize>);

impl Wakers {
    /// An accepted step.
    pub fn step(&mut self, step: &Step) {
        let Some(&[code, a, b, ..]) = step.frame.filter(|_| step.number > 0) else { return };
        let own = Source::Task(step.caller);
        let deed = match code {
            SIGNAL => {
                let number = step.other.configuration().semaphore_of_task(step.caller);
                Some((Deed::Signals(if b == 0 { number } else { b }), own))
            }
            INTERRUPT_EXIT if b != 0 => Some((Deed::Signals(b), Source::Interrupt)),
            SEND | SENDW => Some((Deed::SendsTo(a), own)),
            ENQUEUE => Some((Deed::PutsInto(a), own)),
            DEQUEUE => Some((Deed::TakesFrom(a), own)),
            RESUME => Some((Deed::Resumes(a), own)),
            _ => None,
        };
        deed.into_iter().for_each(|deed| self.add(deed));
        step.dropped.iter().for_each(|letter| self.add((Deed::Signals(letter.semaphore), own)));
        for event in step.trail {
            if let Event::Due { semaphore, .. } = event {
                self.add((Deed::Signals(*semaphore), Source::Timer));
            }
        }
    }

    fn add(&mut self, deed: (Deed, Source)) {
        *self.0.entry(deed).or_default() += 1;
    }

    pub fn table(&self, words: &Words, items: &Items, still: &[Option<Wait>]) -> Json {
        let stuck: BTreeSet<u8> = (0..).zip(still).filter_map(|(task, wait)| wait.map(|_| task)).collect();
        let row = |(task, wait): (u8, &Option<Wait>)| {
            let wait = (*wait)?;
            let could = self.could(words, items, task, wait.cause, &stuck);
            Some(vec![words.task(task), caused(words, wait.cause), format!("#{}", wait.from), could])
        };
        let rows = (0..).zip(still).filter_map(row).collect();
        let note = "Who still waits, and who could wake it, judged by who did so in this session.";
        table("Stuck at the end", note, &["who", "waits for", "since", "who could wake it"], rows)
    }

    fn could(&self, words: &Words, items: &Items, task: u8, cause: Cause, stuck: &BTreeSet<u8>) -> String {
        let (deed, how) = match cause {
            Cause::Semaphore(number) => match queue_of(words.configuration, number) {
                Some((queue, Side::NotEmpty)) => (Deed::PutsInto(queue), format!("a put into {}", words.queue(queue))),
                Some((queue, Side::NotFull)) => (Deed::TakesFrom(queue), format!("a take from {}", words.queue(queue))),
                None => (Deed::Signals(number), format!("a signal of {}", words.semaphore(number))),
            },
            Cause::Message(0) => (Deed::SendsTo(task), "a send to it".to_string()),
            Cause::Message(from) => (Deed::SendsTo(task), format!("a send to it by {}", words.task(from))),
            Cause::Suspended => (Deed::Resumes(task), "a resume".to_string()),
        };
        let mut could = format!("{how}; {}", self.known(words, deed, cause, stuck));
        if let Cause::Semaphore(number) = cause {
            let on = |timer: &&TimerItem| timer.semaphore == number;
            for timer in items.timers.iter().filter(on) {
                could += &format!("; a timer will in {}", counted(timer.tocks_left as usize, "tock"));
            }
        }
        could
    }

    fn known(&self, words: &Words, deed: Deed, cause: Cause, stuck: &BTreeSet<u8>) -> String {
        let by_wanted = |source: &Source| match cause {
            Cause::Message(from) if from != 0 => *source == Source::Task(from),
            _ => true,
        };
        let of_deed = self.0.iter().filter(|((found, source), _)| *found == deed && by_wanted(source));
        let sources: Vec<(Source, usize)> = of_deed.map(|((_, source), times)| (*source, *times)).collect();
        if sources.is_empty() {
            return "nobody did that in this session".to_string();
        }
        let told = |(source, times): &(Source, usize)| match source {
            Source::Task(task) if stuck.contains(task) => {
                format!("{} ({}, waits itself)", words.task(*task), counted(*times, "time"))
            }
            Source::Task(task) => format!("{} ({})", words.task(*task), counted(*times, "time")),
            Source::Interrupt => format!("interrupts ({})", counted(*times, "time")),
            Source::Timer => format!("timers ({})", counted(*times, "time")),
        };
        format!("before: {}", sources.iter().map(told).collect::<Vec<_>>().join(", "))
    }
}
