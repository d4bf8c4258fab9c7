//! The turns of every timer that a session starts: the ticks that remove it as due and signal for it. One that is started later for the
//! same task and semaphore is another timer.

use std::collections::BTreeMap;

use plain_executive::command::*;
use plain_executive::timers::Timer;
use plain_executive::trail::Event;

use crate::json::Json;
use crate::replay::Step;
use crate::summary::table;
use crate::words::{counted, grouped, Words};

/// So many one-shots of a task on a semaphore, and so many cyclic timers, have a row each. More of them share one.
const MOST: usize = 4;

#[derive(Clone, Copy)]
enum End {
    Turn,
    Purge,
    Terminate,
    /// It runs on when the session ends.
    None,
}

/// A timer, or all one-shots or all cyclic timers of a task on a semaphore.
struct Row {
    task: u8,
    semaphore: u8,
    cyclic: bool,
    /// The smallest and the largest period, or number of tocks of a one-shot.
    values: (u32, u32),
    /// The frames that started the first and the last.
    started: (usize, usize),
    turns: usize,
    /// Those that passed while it ran.
    tocks: u64,
    /// Signals that found the semaphore DONE.
    lost: usize,
    /// How many ended in each way, and the last frame that ended one.
    ends: [usize; 4],
    ended: usize,
}

/// A timer that runs, and the tock in which it was started.
struct Running {
    row: Row,
    tock: u64,
}

#[derive(Default)]
pub struct Turns {
    running: Vec<Running>,
    /// By task, semaphore and whether they are cyclic, in the order of their starts.
    ended: BTreeMap<(u8, u8, bool), Vec<Row>>,
    frame: usize,
    tocks: u64,
}

impl Turns {
    pub fn step(&mut self, step: &Step) {
        self.frame = step.number;
        self.tocks = step.other.clock().tocks();
        let Some(&[code, ..]) = step.frame.filter(|_| step.number > 0 && step.refusal() == 0) else { return };
        let active = step.other.timers().active();
        match code {
            DELAY | TIMER | SEASON_TIMER => self.start(active),
            TICK => self.tick(step.trail),
            PURGE => self.remove(active, End::Purge),
            TERMINATE => self.remove(active, End::Terminate),
            _ => {}
        }
    }

    fn place(&self, task: u8, semaphore: u8) -> Option<usize> {
        self.running.iter().position(|Running { row, .. }| row.task == task && row.semaphore == semaphore)
    }

    /// The one that did not run before.
    fn start(&mut self, active: &[Timer]) {
        let Some(timer) = active.iter().find(|timer| self.place(timer.task, timer.semaphore).is_none()) else { return };
        let value = (timer.due - self.tocks) as u32;
        let row = Row {
            task: timer.task,
            semaphore: timer.semaphore,
            cyclic: timer.period != 0,
            values: (value, value),
            started: (self.frame, self.frame),
            turns: 0,
            tocks: 0,
            lost: 0,
            ends: [0; 4],
            ended: 0,
        };
        self.running.push(Running { row, tock: self.tocks });
    }

    /// A signal that is lost is noted straight behind its timer.
    fn tick(&mut self, trail: &[Event]) {
        for (at, event) in trail.iter().enumerate() {
            let Event::Due { task, semaphore } = *event else { continue };
            let Some(place) = self.place(task, semaphore) else { continue };
            let row = &mut self.running[place].row;
            row.turns += 1;
            row.lost += usize::from(trail.get(at + 1) == Some(&Event::Lost { semaphore }));
            if !row.cyclic {
                self.end(place, End::Turn);
            }
        }
    }

    /// Those that run no more.
    fn remove(&mut self, active: &[Timer], how: End) {
        for place in (0..self.running.len()).rev() {
            let Row { task, semaphore, .. } = self.running[place].row;
            if !active.iter().any(|timer| timer.task == task && timer.semaphore == semaphore) {
                self.end(place, how);
            }
        }
    }

    fn end(&mut self, place: usize, how: End) {
        let Running { mut row, tock } = self.running.remove(place);
        row.tocks = self.tocks - tock;
        row.ends[how as usize] = 1;
        row.ended = self.frame;
        let rows = self.ended.entry((row.task, row.semaphore, row.cyclic)).or_default();
        let shared = rows.first().is_some_and(|first| first.timers() > 1);
        rows.push(row);
        if shared || rows.len() > MOST {
            *rows = rows.drain(..).reduce(Row::and).into_iter().collect();
        }
    }

    fn rows(mut self) -> Vec<Row> {
        (0..self.running.len()).rev().for_each(|place| self.end(place, End::None));
        self.ended.into_values().flatten().collect()
    }

    /// After the last step, a line for each row.
    pub fn lines(self, words: &Words) -> Vec<String> {
        self.rows().iter().map(|row| row.line(words)).collect()
    }

    pub fn table(self, words: &Words) -> Json {
        let rows = self.rows().iter().map(|row| row.cells(words)).collect();
        let note = "A turn: a tick removes the timer as due and signals for it; on DONE that signal is lost. \
                    Goes: in tocks. Tocks: those that passed while it ran. Where timers share a row, its numbers are added up.";
        let columns = ["whose", "on", "goes", "started", "turns", "tocks", "lost", "ended"];
        table("Turns of timers", note, &columns, rows)
    }
}

impl Row {
    fn timers(&self) -> usize {
        self.ends.iter().sum()
    }

    /// This one and a later one.
    fn and(self, later: Row) -> Row {
        let mut ends = self.ends;
        ends.iter_mut().zip(later.ends).for_each(|(mine, others)| *mine += others);
        Row {
            values: (self.values.0.min(later.values.0), self.values.1.max(later.values.1)),
            started: (self.started.0, later.started.1),
            turns: self.turns + later.turns,
            tocks: self.tocks + later.tocks,
            lost: self.lost + later.lost,
            ends,
            ..later
        }
    }

    /// "every 2", "once after 1 to 9".
    fn goes(&self) -> String {
        let how = if self.cyclic { "every" } else { "once after" };
        let (least, most) = (grouped(self.values.0 as usize), grouped(self.values.1 as usize));
        if least == most {
            format!("{how} {most}")
        } else {
            format!("{how} {least} to {most}")
        }
    }

    fn how_it_ended(&self) -> String {
        let ways = [
            (End::Turn, "had its turn", "had their turn"),
            (End::Purge, "purged", "purged"),
            (End::Terminate, "ended by terminate", "ended by terminate"),
            (End::None, "runs on", "run on"),
        ];
        let told = ways.into_iter().filter_map(|(way, one, several)| match (self.ends[way as usize], self.timers()) {
            (0, _) => None,
            (1, 1) if matches!(way, End::None) => Some(one.to_string()),
            (1, 1) => Some(format!("{one} #{}", self.ended)),
            (1, _) => Some(format!("1 {one}")),
            (count, _) => Some(format!("{} {several}", grouped(count))),
        });
        told.collect::<Vec<_>>().join(", ")
    }

    fn cells(&self, words: &Words) -> Vec<String> {
        let (first, last) = self.started;
        let started = match self.timers() {
            1 => format!("#{first}"),
            times => format!("{} times, #{first} to #{last}", grouped(times)),
        };
        let (whose, on) = (words.task(self.task), words.semaphore(self.semaphore));
        let [turns, tocks, lost] = [self.turns, self.tocks as usize, self.lost].map(grouped);
        vec![whose, on, self.goes(), started, turns, tocks, lost, self.how_it_ended()]
    }

    fn line(&self, words: &Words) -> String {
        let (first, last) = self.started;
        let (timers, started) = match self.timers() {
            1 => ("timer".to_string(), format!("#{first}")),
            times => (format!("{} timers", grouped(times)), format!("#{first} to #{last}")),
        };
        let (whose, on) = (words.task(self.task), words.semaphore_of(self.task, self.semaphore));
        let (goes, how) = (self.goes(), self.how_it_ended());
        let unit = if self.values.1 == 1 { "tock" } else { "tocks" };
        let (turns, tocks) = (counted(self.turns, "turn"), counted(self.tocks as usize, "tock"));
        let lost = match self.lost {
            0 => String::new(),
            lost => format!(", {} lost on DONE", counted(lost, "signal")),
        };
        format!("{timers} of {whose} on {on}, {goes} {unit}, started {started}: {turns} in {tocks}{lost}; {how}")
    }
}
