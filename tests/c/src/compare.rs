//! A session through the C functions beside the other implementation: the first difference, and a short session that has it.

use plain_executive::executive::Executive;
use plain_executive::generator::Script;
use plain_executive::items::{Items, TaskItem};
use plain_executive::line::MOST_BYTES;
use plain_executive::numbers::Number;
use plain_executive::random::Random;

use crate::caller::Caller;
use crate::lent::Lent;
use crate::strange::strange;
use crate::tidy::untidy;

/// How a frame is fed to the memory.
pub type Feed<'a> = &'a dyn Fn(&mut Lent, &[u8]) -> Number;

/// Sessions that are run to make one with a difference shorter.
const TRIES: usize = 2000;

#[derive(Clone, Debug)]
pub struct Difference {
    /// How many frames were fed, 0 where the configuration shows it.
    pub frames: usize,
    pub what: String,
}

/// Compared are, after the configuration and after every frame: the number, the answer, all items, the config block, that the
/// bytes are such as the program writes, and that each is the one that is promised; of a refused frame, that it wrote its answer
/// alone.
pub fn difference(caller: Caller, script: &Script, feed: Feed) -> Option<Difference> {
    let mut random = Random::new(script.configuration.len() as u64);
    let more = random.below(3);
    let mut memory = Lent::of(caller, caller.sizes().map(|size| size + more), || random.byte());
    let mut other = Executive::configure_within(caller.limits(), &script.configuration).expect("accepted");
    other.keep_history();
    let number = memory.configure(&script.configuration);
    let found = unequal(number, &memory, &other, 0, other.answer(0, 0).bytes(), &script.configuration);
    if let Some(what) = found {
        return Some(Difference { frames: 0, what });
    }
    for (index, frame) in script.frames.iter().enumerate() {
        let before = memory.clone();
        let answer = other.frame(frame);
        let number = feed(&mut memory, frame);
        let found = unequal(number, &memory, &other, answer.refusal(), answer.bytes(), &script.configuration);
        let wrote = || (number != 0 && wrote_more(&memory, before)).then(|| "a refused frame wrote".to_string());
        if let Some(what) = found.or_else(wrote) {
            return Some(Difference { frames: index + 1, what });
        }
    }
    None
}

fn wrote_more(memory: &Lent, before: Lent) -> bool {
    *memory != Lent { answer: memory.answer.clone(), ..before }
}

fn unequal(
    number: Number,
    memory: &Lent,
    other: &Executive,
    refusal: Number,
    answer: &[u8],
    configuration: &[u8],
) -> Option<String> {
    if number != refusal {
        return Some(format!("the number: {number}, the other has {refusal}"));
    }
    if memory.answered() != answer {
        return Some(format!("the answer: {:02X?}, the other has {answer:02X?}", memory.answered()));
    }
    if memory.kept_frame() != configuration {
        return Some(format!("the config block: {:02X?}", memory.kept_frame()));
    }
    let strange = || {
        let strange = strange(memory, other.configuration());
        (!strange.is_empty()).then(|| format!("the memory holds what the program never writes: {strange:?}"))
    };
    let items = unequal_items(&memory.items(other.configuration()), &other.items());
    items.or_else(strange).or_else(|| untidy(configuration, other, memory))
}

/// The first item that is not the other's.
pub fn unequal_items(ours: &Items, theirs: &Items) -> Option<String> {
    let Items { ticks, tasks, semaphores, mailboxes, queues, timers } = ours;
    let mut found = unequal_item("the ticks", ticks, &theirs.ticks);
    for (place, (ours, theirs)) in tasks.iter().zip(&theirs.tasks).enumerate() {
        let name = |what: &str| format!("the {what} of task {}", place + 1);
        let TaskItem { blocks, outcome, slot, request } = ours;
        found = found
            .or_else(|| unequal_item(&name("blocks"), blocks, &theirs.blocks))
            .or_else(|| unequal_item(&name("slot"), slot, &theirs.slot))
            .or_else(|| unequal_item(&name("outcome"), outcome, &theirs.outcome))
            .or_else(|| unequal_item(&name("request"), request, &theirs.request));
    }
    found
        .or_else(|| unequal_list("semaphore", semaphores, &theirs.semaphores))
        .or_else(|| unequal_list("the mailbox of task", mailboxes, &theirs.mailboxes))
        .or_else(|| unequal_list("queue", queues, &theirs.queues))
        .or_else(|| unequal_list("timer", timers, &theirs.timers))
        .or_else(|| (ours != theirs).then(|| "the items".to_string()))
}

fn unequal_item<Item: PartialEq + std::fmt::Debug>(name: &str, ours: &Item, theirs: &Item) -> Option<String> {
    (ours != theirs).then(|| format!("{name}: {ours:02X?}, the other has {theirs:02X?}"))
}

fn unequal_list<Item: PartialEq + std::fmt::Debug>(name: &str, ours: &[Item], theirs: &[Item]) -> Option<String> {
    let lengths = || (ours.len() != theirs.len()).then(|| format!("{name}s: {ours:02X?}, the other has {theirs:02X?}"));
    let mut pairs = ours.iter().zip(theirs).enumerate();
    let item = pairs.find_map(|(place, (ours, theirs))| unequal_item(&format!("{name} {}", place + 1), ours, theirs));
    item.or_else(lengths)
}

/// A session that has a difference as well and, as far as some tries go, no frame that it needs not.
pub fn shortened(caller: Caller, script: &Script, feed: Feed) -> Script {
    let upto = |script: Script| {
        let end = difference(caller, &script, feed)?.frames;
        Some(Script { frames: script.frames[..end].to_vec(), ..script })
    };
    let mut short = upto(script.clone()).expect("a difference");
    let (mut part, mut tries) = (short.frames.len().div_ceil(2), 0);
    while part > 0 && tries < TRIES {
        let mut from = 0;
        while from < short.frames.len() && tries < TRIES {
            let end = (from + part).min(short.frames.len());
            let frames = [&short.frames[..from], &short.frames[end..]].concat();
            tries += 1;
            match upto(Script { frames, ..short.clone() }) {
                Some(shorter) => short = shorter,
                None => from = end,
            }
        }
        part /= 2;
    }
    short
}

/// Ends the test at the first difference, with a session that `replay` takes.
pub fn compare(caller: Caller, script: &Script, feed: Feed, name: &str) {
    if difference(caller, script, feed).is_some() {
        let short = shortened(caller, script, feed);
        let Difference { frames, what } = difference(caller, &short, feed).expect("a difference");
        let long = short.frames.iter().filter(|frame| frame.len() > MOST_BYTES).count();
        let lines = String::from_utf8_lossy(&short.lines()).into_owned();
        panic!("{name}, with the last of these {frames} frames ({long} too long for a line): {what}\n{lines}");
    }
}
