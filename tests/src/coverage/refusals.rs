//! Each refusal of each code, and each pair of causes of which the earlier one counts.

use super::causes::causes;
use super::Step;
use crate::command::*;
use crate::numbers::*;

const TOO_SHORT: &str = "refusals: 2, shorter than 5 bytes";
const UNKNOWN: &str = "refusals: 4, code 00";
const UNKNOWN_ABOVE: &str = "refusals: 4, code above 12";

/// The numbers that each code can be refused with.
const BY_CODE: [(u8, &[Number]); 18] = [
    (WAIT, &[2, 6, 20, 21]),
    (SIGNAL, &[2, 6, 20]),
    (PEND, &[2, 6, 20, 21]),
    (SEND, &[2, 5, 6, 8, 20, 22]),
    (SENDW, &[2, 5, 6, 8, 20, 21, 22]),
    (RECEIVE, &[2, 5, 20]),
    (DEQUEUE, &[2, 7, 20, 21]),
    (ENQUEUE, &[2, 7, 20, 21]),
    (RESUME, &[2, 5, 20]),
    (SUSPEND, &[2, 5, 20]),
    (TERMINATE, &[2, 5, 20]),
    (EXECUTE, &[2, 5, 20, 26]),
    (DELAY, &[2, 5, 6, 9, 20, 21, 23, 24, 25]),
    (TIMER, &[2, 5, 6, 9, 20, 23, 24]),
    (PURGE, &[2, 5, 6, 20]),
    (TICK, &[2]),
    (INTERRUPT_EXIT, &[2, 6]),
    (SEASON_TIMER, &[2, 5, 6, 9, 20, 23, 24]),
];

/// Causes that one frame can have at the same time: one, and those that it counts before.
const BEFORE: [(Number, &[Number]); 12] = [
    (4, &[2]),
    (2, &[5, 6, 20, 21, 26]),
    (20, &[2, 5, 6, 7, 8, 9, 26]),
    (5, &[6, 8, 9, 21, 22, 26]),
    (6, &[8, 9, 22, 25]),
    (7, &[2]),
    (8, &[21]),
    (9, &[21, 23, 24, 25]),
    (25, &[21, 23, 24]),
    (22, &[21]),
    (21, &[23, 24]),
    (24, &[23]),
];

pub fn names() -> impl Iterator<Item = String> {
    let refused = each(&BY_CODE).map(|(code, number)| by_code(code, number));
    let accepted = BY_CODE.iter().map(|&(code, _)| by_code(code, 0));
    let pairs = each(&BEFORE).map(|(first, second)| pair(first, second));
    accepted.chain(refused).chain(pairs).chain([TOO_SHORT, UNKNOWN, UNKNOWN_ABOVE].map(String::from))
}

fn each(table: &'static [(u8, &'static [Number])]) -> impl Iterator<Item = (u8, Number)> {
    table.iter().flat_map(|&(key, numbers)| numbers.iter().map(move |&number| (key, number)))
}

pub fn reached(step: &Step) -> Vec<String> {
    let refusal = step.answer.refusal();
    let Some(&code) = step.frame.first().filter(|_| step.frame.len() >= 5) else {
        return vec![TOO_SHORT.into()];
    };
    match code {
        0 => return vec![UNKNOWN.into()],
        WAIT..=SEASON_TIMER => {}
        _ => return unknown_above(step),
    }
    let mut reached = vec![by_code(code, refusal)];
    if refusal != 0 {
        reached.extend(pairs_of(step));
    }
    reached
}

fn unknown_above(step: &Step) -> Vec<String> {
    let mut reached = pairs_of(step);
    reached.push(UNKNOWN_ABOVE.into());
    reached
}

fn pairs_of(step: &Step) -> Vec<String> {
    let causes = causes(step.before, step.frame);
    let later = causes.iter().skip(1).map(|&second| (causes[0], second));
    later.filter(|found| each(&BEFORE).any(|pair| pair == *found)).map(|(first, second)| pair(first, second)).collect()
}

fn by_code(code: u8, number: Number) -> String {
    match number {
        0 => format!("codes: {code:02X} accepted"),
        _ => format!("refusals: {code:02X} with {number}"),
    }
}

fn pair(first: Number, second: Number) -> String {
    format!("order: {first} before {second}")
}
