//! How often each named situation was reached.

pub mod causes;
mod configurations;
mod lines;
mod module;
mod refusals;
mod situations;
mod step;

use std::collections::BTreeMap;

pub use step::Step;

use crate::executive::Executive;
use crate::generator::{Script, LONGEST};
use crate::turns::Turns;

#[derive(Clone)]
pub struct Coverage {
    counts: BTreeMap<String, u64>,
    /// Of each frame length from 0 on.
    lengths: Vec<u64>,
}

impl Default for Coverage {
    fn default() -> Self {
        Coverage::new()
    }
}

impl Coverage {
    pub fn new() -> Self {
        let frames = situations::names().chain(refusals::names());
        let configurations = configurations::names().chain(module::names());
        let names = frames.chain(configurations).chain(lines::names());
        let counts: BTreeMap<String, u64> = names.map(|name| (name, 0)).collect();
        Coverage { counts, lengths: vec![0; LONGEST + 1] }
    }

    /// Every frame of a session.
    pub fn watch_script(&mut self, script: &Script) {
        self.watch_configuration(&script.configuration);
        let mut after = Executive::configure(&script.configuration).expect("an accepted configuration");
        after.keep_history();
        let mut seasons = Vec::new();
        let mut turns = Turns::fresh(after.configuration());
        let mut items = after.items();
        for frame in &script.frames {
            let before = after.clone();
            let answer = after.frame(frame);
            let old = std::mem::replace(&mut items, after.items());
            turns.watch(frame, answer.refusal(), &old, &items);
            let step = Step { before: &before, frame, answer, after: &after, seasons: &seasons, turns: &turns };
            self.watch(&step);
            seasons = step.new_seasons();
        }
    }

    pub fn watch(&mut self, step: &Step) {
        self.count(situations::reached(step));
        self.count(refusals::reached(step));
        if let Some(count) = self.lengths.get_mut(step.frame.len()) {
            *count += 1;
        }
    }

    pub fn watch_configuration(&mut self, frame: &[u8]) {
        self.count(configurations::reached(frame));
        self.count(module::reached(frame));
    }

    pub fn watch_input(&mut self, input: &[u8]) {
        self.count(lines::reached(input));
    }

    /// All situations with their counts, a line each.
    pub fn table(&self) -> String {
        let rows = self.counts.iter().map(|(name, count)| format!("{count:>9}  {name}\n"));
        let fewest = self.lengths.iter().min().copied().unwrap_or(0);
        rows.chain([format!("{fewest:>9}  frames of each length from 0 to {LONGEST}\n")]).collect()
    }

    /// The situations that were not reached.
    pub fn missing(&self) -> Vec<String> {
        let situations = self.counts.iter().filter(|(_, &count)| count == 0).map(|(name, _)| name.clone());
        let lengths = self.lengths.iter().enumerate().filter(|(_, &count)| count == 0);
        situations.chain(lengths.map(|(length, _)| format!("a frame of length {length}"))).collect()
    }

    /// The situations of frames that were not reached.
    pub fn missing_of_frames(&self) -> Vec<String> {
        situations::names().chain(refusals::names()).filter(|name| self.counts[name] == 0).collect()
    }

    /// The causes of refused configurations that were not reached.
    pub fn missing_of_refused(&self) -> Vec<String> {
        configurations::refused_names().filter(|name| self.counts[name] == 0).collect()
    }

    /// The situations of configurations on the module that were not reached.
    pub fn missing_of_module(&self) -> Vec<String> {
        module::names().filter(|name| self.counts[name] == 0).collect()
    }

    fn count(&mut self, reached: impl IntoIterator<Item = String>) {
        for name in reached {
            *self.counts.get_mut(&name).unwrap_or_else(|| panic!("no situation has this name: {name}")) += 1;
        }
    }
}
