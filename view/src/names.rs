//! Names of tasks, semaphores, queues and messages, from a file of lines such as `t1 gate`.

use std::collections::BTreeMap;

use plain_executive::configuration::Configuration;

/// By kind (`t`, `s`, `q`, `m`) and number.
#[derive(Clone, Debug, Default, PartialEq, Eq)]
pub struct Names(BTreeMap<(char, u8), String>);

const LINE: &str = "write a line as 't1 gate': t, s, q or m, a number and a name";

impl Names {
    /// Empty lines and lines that begin with # say nothing. An error tells the line and what to do.
    pub fn read(text: &str) -> Result<Self, String> {
        let mut names = Names::default();
        for (place, line) in text.lines().enumerate().map(|(place, line)| (place + 1, line.trim())) {
            if line.is_empty() || line.starts_with('#') {
                continue;
            }
            let (key, name) = read_line(line).ok_or_else(|| format!("line {place}: '{line}': {LINE}"))?;
            if names.0.insert(key, name).is_some() {
                return Err(format!("line {place}: '{line}': {}{} has a name already: leave one", key.0, key.1));
            }
        }
        Ok(names)
    }

    pub fn of(&self, kind: char, number: u8) -> Option<&str> {
        self.0.get(&(kind, number)).map(String::as_str)
    }

    pub fn all(&self) -> impl Iterator<Item = (String, &str)> {
        self.0.iter().map(|((kind, number), name)| (format!("{kind}{number}"), name.as_str()))
    }

    /// Whether the session has what the names are for.
    pub fn fit(&self, configuration: &Configuration) -> Result<(), String> {
        for (kind, number) in self.0.keys() {
            let (most, what) = match kind {
                't' => (configuration.tasks, "tasks"),
                's' => (configuration.nameable_semaphores(), "semaphores that have names"),
                'q' => (configuration.queue_count(), "queues"),
                _ => (configuration.messages, "messages"),
            };
            if *number > most {
                return Err(format!("{kind}{number}: this session has {most} {what}: take the line out"));
            }
        }
        Ok(())
    }
}

fn read_line(line: &str) -> Option<((char, u8), String)> {
    let (key, name) = line.split_once(char::is_whitespace)?;
    let kind = key.chars().next().filter(|kind| "tsqm".contains(*kind))?;
    let number = key[1..].parse().ok().filter(|number| *number > 0)?;
    Some(((kind, number), name.trim().to_string()))
}
