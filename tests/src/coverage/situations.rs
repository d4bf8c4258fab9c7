//! The named situations that frames can meet, a table for each subject.

mod answers;
mod clock;
mod dropped;
mod messages;
mod pairs;
mod queues;
mod seasons;
mod semaphores;
mod settling;
mod tasks;
mod timers;
mod turns;

use super::Step;

type Situation = (&'static str, fn(&Step) -> bool);

const TABLES: [(&str, &[Situation]); 12] = [
    ("answers", answers::TABLE),
    ("pairs", pairs::TABLE),
    ("season timers", seasons::TABLE),
    ("turns", turns::TABLE),
    ("semaphores", semaphores::TABLE),
    ("messages", messages::TABLE),
    ("dropped", dropped::TABLE),
    ("queues", queues::TABLE),
    ("settling", settling::TABLE),
    ("tasks", tasks::TABLE),
    ("timers", timers::TABLE),
    ("clock", clock::TABLE),
];

pub fn names() -> impl Iterator<Item = String> {
    TABLES.iter().flat_map(|(title, table)| table.iter().map(move |(name, _)| titled(title, name)))
}

/// Only accepted frames count, but for the answers, the pairs, the season timers and the turns.
pub fn reached(step: &Step) -> Vec<String> {
    let tables = if step.answer.refusal() == 0 { &TABLES[..] } else { &TABLES[..4] };
    let mut reached = Vec::new();
    for (title, table) in tables {
        reached.extend(table.iter().filter(|(_, fits)| fits(step)).map(|(name, _)| titled(title, name)));
    }
    reached
}

fn titled(title: &str, name: &str) -> String {
    format!("{title}: {name}")
}
