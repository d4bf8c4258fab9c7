//! Frames and lines with faults.

use crate::command::{ENQUEUE, EXECUTE, SEASON_TIMER};
use crate::executive::Executive;
use crate::line::{MOST_BYTES, MOST_DIGITS};
use crate::random::Random;

/// Longer than the longest that a line has room for.
pub const LONGEST: usize = MOST_BYTES + 10;

/// Frames of any length from 0 to the longest.
pub fn frame(random: &mut Random, executive: &Executive) -> Vec<u8> {
    let length = if random.percent(40) { random.below(9) } else { random.below(211) };
    let mut aside = random.aside();
    let mut frame = random.bytes(length);
    if length > 150 && aside.percent(50) {
        let more = aside.below(LONGEST + 1 - length);
        frame.extend(aside.bytes(more));
    }
    if let Some(code) = frame.first_mut() {
        let near = *code % (SEASON_TIMER + 2); // also the first that there is not
        *code = random.pick(&[*code, near, near, ENQUEUE]);
    }
    if let (Some(queue), true) = (frame.get_mut(1), random.percent(70)) {
        *queue = 1 + *queue % executive.configuration().queue_count().max(1);
    }
    if let ([EXECUTE, task, ..], Some(pair)) = (&mut frame[..], aside.pick_if(&executive.configuration().pairs)) {
        *task = pair.then;
    }
    frame
}

/// A line with a fault in it, or one that is just within the limits.
pub fn line(random: &mut Random, digits: &[u8]) -> Vec<u8> {
    let mut line = digits.to_vec();
    match random.below(9) {
        0 => line.push(b'0'),
        1 => replace(random, &mut line, b"abcdef"),
        2 => replace(random, &mut line, b" \t"),
        3 => line.push(b'\r'),
        4 => return vec![b'0'; MOST_DIGITS + 1],
        5 => return vec![b'1'; MOST_DIGITS + 2 + random.below(40)],
        6 => return vec![b'0'; 2 * MOST_BYTES],
        7 => return Vec::new(),
        _ => replace(random, &mut line, b"G@/:\x00\xFF+-"),
    }
    line
}

fn replace(random: &mut Random, line: &mut Vec<u8>, others: &[u8]) {
    if line.is_empty() {
        line.push(b'0');
    }
    let place = random.below(line.len());
    line[place] = random.pick(others);
}
