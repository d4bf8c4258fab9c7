//! What a session leaves in the lent memory, byte by byte, as docs/MEMORY.md promises it.

use plain_executive::executive::Executive;
use plain_executive::items::Items;
use plain_executive::tasks::Letter;
use plain_executive::written::PLANES as BLOCKS;

use crate::lent::{ends, parts, slot, timer_row, Lent, Regions, COUNT, FRAME, MARKS, PART, PLANE, PLANES, TICKS};

/// What the page says of a byte.
#[derive(Clone, Copy, Debug, PartialEq, Eq)]
pub enum Left {
    Byte(u8),
    /// Of the clock on which the timers are due: where it stands is the program's own.
    Clock,
    Free,
    Outside,
}

/// What is the program's own: in which order messages for different tasks lie, and what time the timers' clock has.
struct Own {
    receivers: Vec<u8>,
    time: u32,
}

/// What a session leaves in config, tables, slots and timers. The other executive is in the same state, and keeps histories;
/// of the memory only what is the program's own is read.
pub fn left(frame: &[u8], other: &Executive, memory: &Lent) -> [Vec<Left>; 4] {
    let configuration = other.configuration();
    let regions = Regions::of(configuration);
    let records = memory.tables[regions.messages..regions.entries].chunks_exact(4);
    let own = Own { receivers: records.map(|record| record[0]).collect(), time: memory.of_timers(0, 2) };

    let sizes = memory.caller.sizes();
    let mut all = [0, 1, 2, 3].map(|block| vec![Left::Outside; sizes[block]]);
    for ((block, part), mark) in all.iter_mut().zip(parts(configuration)).zip(MARKS) {
        block[part].fill(Left::Free);
        ends(block.len()).into_iter().for_each(|end| put(block, end.start, &mark));
    }
    let [config, tables, slots, timers] = &mut all;
    let items = other.items();
    put(config, PART, &(frame.len() as u16).to_be_bytes());
    put(config, FRAME, frame);
    put_tables(tables, &regions, other, &items, &own);
    for (index, task) in items.tasks.iter().enumerate() {
        put(slots, slot(index), &task.slot);
    }
    put(timers, PART, &[items.timers.len() as u8]);
    if !items.timers.is_empty() {
        timers[timer_row(0) + 2..timer_row(1)].fill(Left::Clock);
    }
    for (row, timer) in (1..).zip(&items.timers) {
        put(timers, timer_row(row), &timer.written(own.time));
    }
    all
}

fn put(block: &mut [Left], from: usize, bytes: &[u8]) {
    block[from..].iter_mut().zip(bytes).for_each(|(place, byte)| *place = Left::Byte(*byte));
}

fn put_tables(tables: &mut [Left], regions: &Regions, other: &Executive, items: &Items, own: &Own) {
    let configuration = other.configuration();
    put(tables, TICKS, &[configuration.ticks_per_tock - items.ticks]);
    for (plane, block) in BLOCKS.into_iter().enumerate() {
        put(tables, PLANES + PLANE * plane, &items.plane(block));
    }
    for (index, task) in items.tasks.iter().enumerate() {
        put(tables, regions.records + 6 * index, &task.outcome.written());
        put(tables, regions.records + 6 * index + 4, &task.request.written());
        put(tables, regions.waiting + 16 * index, task.request.entry());
    }
    for (index, semaphore) in items.semaphores.iter().enumerate() {
        put(tables, regions.semaphores + index, &[semaphore.written()]);
    }

    let letters = lying(items, &own.receivers);
    put(tables, COUNT, &[letters.len() as u8]);
    for (index, (task, letter)) in letters.into_iter().enumerate() {
        put(tables, regions.messages + 4 * index, &letter.written(task));
    }

    let histories = other.history().expect("kept");
    let mut places = regions.entries;
    for (index, size) in configuration.queues.iter().enumerate() {
        let (width, depth) = (usize::from(size.width), usize::from(size.depth));
        let (taken, held) = (histories[index].copied.len(), &items.queues[index]);
        put(tables, regions.rings + 2 * index, &[(taken % depth) as u8, held.len() as u8]);
        for (turn, entry) in held.iter().enumerate() {
            put(tables, places + (taken + turn) % depth * width, entry);
        }
        places += width * depth;
    }
}

/// All messages with the tasks that they are for: in the order of these receivers, as far as it is one of the mailboxes.
fn lying(items: &Items, receivers: &[u8]) -> Vec<(u8, Letter)> {
    let mut mailboxes: Vec<_> = items.mailboxes.iter().map(|mailbox| mailbox.iter().copied()).collect();
    let mut lying = Vec::new();
    for &task in receivers {
        let letter = mailboxes.get_mut(usize::from(task.wrapping_sub(1))).and_then(Iterator::next);
        lying.extend(letter.map(|letter| (task, letter)));
    }
    for (task, rest) in (1..).zip(mailboxes) {
        lying.extend(rest.map(|letter| (task, letter)));
    }
    lying
}

const NAMES: [&str; 4] = ["config", "tables", "slots", "timers"];

/// The first byte that is not the one that is promised.
pub fn untidy(frame: &[u8], other: &Executive, memory: &Lent) -> Option<String> {
    let blocks = NAMES.into_iter().zip(memory.blocks()).zip(left(frame, other, memory));
    let mut bytes = blocks.flat_map(|((name, block), left)| {
        (0..).zip(block).zip(left).map(move |((place, byte), left)| (name, place, *byte, left))
    });
    bytes.find_map(|(name, place, byte, left): (_, usize, _, _)| match left {
        Left::Byte(promised) if promised != byte => {
            Some(format!("byte {place} of {name}: {byte:02X}, promised is {promised:02X}"))
        }
        _ => None,
    })
}

/// The first byte of the parts, and no free one, that two memories don't have alike after the same session.
pub fn unlike(frame: &[u8], other: &Executive, one: &Lent, another: &Lent) -> Option<String> {
    let lefts = [one, another].map(|memory| left(frame, other, memory));
    let places = parts(other.configuration()).into_iter().zip(NAMES).enumerate();
    let mut places = places.flat_map(|(block, (part, name))| part.map(move |place| (block, name, place)));
    places.find_map(|(block, name, place)| {
        let [ours, theirs] = [one, another].map(|memory| memory.blocks()[block][place]);
        let free = lefts.iter().all(|left| left[block][place] == Left::Free);
        (ours != theirs && !free).then(|| format!("byte {place} of {name}: {ours:02X} and {theirs:02X}"))
    })
}
