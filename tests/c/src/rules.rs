//! The rules of number 11, from docs/MEMORY.md.

use plain_executive::configuration::{Configuration, Pair, QueueSize};

use crate::lent::{ends, kept_frame, kept_length, Lent, Regions, COUNT, MARKS};

#[derive(Clone, Copy, Debug, PartialEq, Eq, PartialOrd, Ord)]
pub enum Rule {
    Sizes,
    Marks,
    Configuration,
    Messages,
}

/// The first rule that a frame finds broken.
pub fn broken(lent: &Lent) -> Option<Rule> {
    if lent.blocks().iter().zip(lent.caller.sizes()).any(|(block, size)| block.len() < size) {
        return Some(Rule::Sizes);
    }
    if !has_marks(lent) {
        return Some(Rule::Marks);
    }
    let Some(configuration) = configuration_of(lent) else {
        return Some(Rule::Configuration);
    };
    (!good_messages(&lent.tables, &configuration)).then_some(Rule::Messages)
}

/// Each block has its own at both ends of its size.
fn has_marks(lent: &Lent) -> bool {
    let mut marked = lent.blocks().into_iter().zip(lent.caller.sizes()).zip(MARKS);
    marked.all(|((block, size), mark)| ends(size).into_iter().all(|end| block[end] == mark))
}

/// What the frame in the block says, if it keeps its rule. The initial states are not read. Behind the queues every two bytes are a
/// pair; one whose first is no task refuses nothing, and is left out.
pub fn configuration_of(lent: &Lent) -> Option<Configuration> {
    let (most, config) = (lent.caller.limits(), &lent.config);
    let frame = kept_frame(config);
    let [tasks, named, queues, timers, messages, ticks, high, low] = *frame.first_chunk()?;
    let milliseconds = u16::from_be_bytes([high, low]);
    let semaphores = u32::from(named) + u32::from(tasks) + 2 * u32::from(queues);
    let good = (1..=most.tasks).contains(&tasks)
        && queues <= most.queues
        && timers <= most.timers
        && messages <= most.messages
        && ticks >= 1
        && milliseconds >= 1
        && semaphores <= 255;
    if !good || kept_length(config) > lent.caller.longest() {
        return None;
    }
    let (_, behind) = frame.split_at_checked(8 + usize::from(tasks))?;
    let (sizes, pairs) = behind.split_at_checked(2 * usize::from(queues))?;
    let sizes: Vec<QueueSize> = sizes.chunks(2).map(|size| QueueSize { width: size[0], depth: size[1] }).collect();
    let possible = |size: &QueueSize| (1..=16).contains(&size.width) && size.depth >= 1;
    let bytes: usize = sizes.iter().map(QueueSize::bytes).sum();
    (sizes.iter().all(possible) && bytes <= most.queue_bytes).then(|| Configuration {
        tasks,
        named_semaphores: named,
        timers,
        messages,
        ticks_per_tock: ticks,
        milliseconds_per_tock: milliseconds,
        starts_idle: vec![false; tasks.into()],
        queues: sizes,
        pairs: means_something(pairs, tasks).collect(),
    })
}

fn means_something(bytes: &[u8], tasks: u8) -> impl Iterator<Item = Pair> + '_ {
    let pairs = bytes.chunks_exact(2).map(|pair| Pair { first: pair[0], then: pair[1] });
    pairs.filter(move |pair| (1..=tasks).contains(&pair.first))
}

/// Where G messages lie, each has a number 1 to G, and no number occurs twice.
fn good_messages(tables: &[u8], configuration: &Configuration) -> bool {
    if tables[COUNT] < configuration.messages {
        return true;
    }
    let records = &tables[Regions::of(configuration).messages..][..4 * usize::from(configuration.messages)];
    let numbers: Vec<u8> = records.chunks(4).map(|record| record[1]).collect();
    (1..=configuration.messages).all(|number| numbers.contains(&number))
}
