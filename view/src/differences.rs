//! The first frame, answer and item in which two sessions differ.

use c::caller::Caller;
use plain_executive::items::Items;
use plain_executive::line::MOST_BYTES;
use plain_executive::session::lines;

use crate::json::Json;
use crate::names::Names;
use crate::replay::Replay;
use crate::words::Words;

/// One frame, and what is different there.
type First = Option<(usize, String)>;

#[derive(Default, Debug, PartialEq, Eq)]
pub struct Differences {
    pub frame: First,
    pub answer: First,
    pub item: First,
}

/// Of two sessions of a caller whose configurations are accepted.
pub fn between(caller: Caller, first: &[u8], second: &[u8], names: &Names) -> Differences {
    let mut found = Differences::default();
    let (mut ones, mut others) = (lines(first), lines(second));
    let (head, other_head) = (ones.next().unwrap_or_default(), others.next().unwrap_or_default());
    let begun = (Replay::begin(caller, head), Replay::begin(caller, other_head));
    let (Ok(mut one), Ok(mut other)) = begun else { return found };
    let configuration = one.other().configuration().clone();
    let words = Words { configuration: &configuration, names };
    if head != other_head {
        let told = format!("{} | {}", String::from_utf8_lossy(head), String::from_utf8_lossy(other_head));
        found.frame = Some((0, told));
    }
    let same_shape = configuration == *other.other().configuration();
    let mut number = 0;
    loop {
        number += 1;
        let (line, other_line) = match (ones.next(), others.next()) {
            (None, None) => return found,
            (Some(line), Some(other_line)) => (line, other_line),
            (line, _) => {
                let which = if line.is_none() { "first" } else { "second" };
                found.frame.get_or_insert((number, format!("the {which} session ends")));
                return found;
            }
        };
        let (mut room, mut other_room) = ([0; MOST_BYTES], [0; MOST_BYTES]);
        let (Ok(step), Ok(other_step)) = (one.feed(line, &mut room), other.feed(other_line, &mut other_room)) else {
            return found;
        };
        if line != other_line {
            let told = || (number, format!("{} | {}", words.asked(&step), words.asked(&other_step)));
            found.frame.get_or_insert_with(told);
        }
        if step.answer != other_step.answer {
            let told = || (number, format!("{} | {}", words.answered(&step), words.answered(&other_step)));
            found.answer.get_or_insert_with(told);
        }
        if found.item.is_none() && same_shape {
            let items = (step.other.items(), other_step.other.items());
            found.item = differing(&words, &items.0, &items.1).map(|what| (number, what));
        }
        if found.frame.is_some() && found.answer.is_some() && (found.item.is_some() || !same_shape) {
            return found;
        }
    }
}

/// The name of the first item that differs.
fn differing(words: &Words, one: &Items, other: &Items) -> Option<String> {
    if one == other {
        return None;
    }
    if one.ticks != other.ticks {
        return Some("the ticks in the tock".to_string());
    }
    let tasks = one.tasks.iter().zip(&other.tasks);
    let task = (1..).zip(tasks).find(|(_, (one, other))| one != other).map(|(number, (one, other))| {
        let what = if one.blocks != other.blocks {
            "blocks"
        } else if one.request != other.request {
            "open request"
        } else if one.outcome != other.outcome {
            "outcome"
        } else {
            "slot"
        };
        format!("the {what} of {}", words.task(number))
    });
    task.or_else(|| first_of(&one.semaphores, &other.semaphores).map(|number| words.semaphore(number)))
        .or_else(|| {
            let number = first_of(&one.mailboxes, &other.mailboxes)?;
            Some(format!("the mailbox of {}", words.task(number)))
        })
        .or_else(|| first_of(&one.queues, &other.queues).map(|number| words.queue(number)))
        .or_else(|| Some("the timers".to_string()))
}

fn first_of<Item: PartialEq>(one: &[Item], other: &[Item]) -> Option<u8> {
    let place = one.iter().zip(other).position(|(one, other)| one != other)?;
    Some(place as u8 + 1)
}

impl Differences {
    pub fn json(&self) -> Json {
        let parts = [("frame", &self.frame), ("answer", &self.answer), ("item", &self.item)];
        let told = parts.into_iter().filter_map(|(what, first)| {
            let (frame, how) = first.as_ref()?;
            Some(Json::Object(vec![("what", what.into()), ("frame", (*frame).into()), ("how", how.as_str().into())]))
        });
        Json::List(told.collect())
    }
}
