//! Sessions of season timers: beside timers of 16 bits, with the values at which a width ends, and refused in every way.

use super::cascade::service;
use super::Script;
use crate::command::*;

/// The values of four bytes that two bytes, or three, would take for something else; with their opposites.
const VALUES: [i32; 12] =
    [1, 0x7F, 0x80, 0xFF, 0x100, 0x7FFF, 0x8000, 0xFFFF, 0x1_0000, 0x7F_FFFF, 0x80_0000, i32::MAX];

/// Two tasks, six named semaphores, so many timers, a tick a tock.
fn configuration(timers: u8) -> Vec<u8> {
    vec![2, 6, 0, timers, 0, 1, 0, 125, 0, 0]
}

pub fn tick() -> Vec<u8> {
    service(TICK, 0, 0)
}

pub fn timer(task: u8, semaphore: u8, tocks: i16) -> Vec<u8> {
    [vec![TIMER, task, semaphore], tocks.to_be_bytes().to_vec()].concat()
}

pub fn season(task: u8, semaphore: u8, tocks: i32) -> Vec<u8> {
    [vec![SEASON_TIMER, task, semaphore], tocks.to_be_bytes().to_vec()].concat()
}

/// Of both widths one-shots and cyclic ones fall due in the same tocks, now the one started first, now the other. Then a purge and a
/// terminate remove what is left of them.
pub fn together() -> Script {
    let starts = [
        timer(1, 1, 2),
        season(1, 2, 2),
        season(2, 3, -2),
        timer(2, 4, -2),
        season(1, 5, -1),
        timer(1, 6, -3),
        season(2, 1, i32::MIN),
        timer(2, 2, i16::MIN),
    ];
    let ends = [vec![PURGE, 1, 5, 0, 1], vec![PURGE, 1, 0, 0, 0], service(TERMINATE, 2, 0), tick()];
    let frames = [&starts[..], &vec![tick(); 6], &ends].concat();
    Script { configuration: configuration(8), frames }
}

/// Each is started and left for a tock; those of one tock are due in it.
pub fn values() -> Script {
    let opposites = VALUES.map(|value| -value);
    let each = VALUES.into_iter().chain(opposites).chain([i32::MIN, 0]);
    let frames = each.flat_map(|value| [season(0, 1, value), tick(), vec![PURGE, 0, 1, 0, 1]]).collect();
    Script { configuration: configuration(1), frames }
}

/// Every length, and every two numbers that a frame can have at once; the same again while the null task runs.
pub fn refused() -> Script {
    let lengths = (0..=9).map(|length| {
        let mut frame = season(0, 1, 1);
        frame.resize(length, 1);
        frame
    });
    let fields = [(3, 7), (3, 1), (0, 9), (0, 2), (0, 1)];
    let causes =
        fields.into_iter().flat_map(|(task, semaphore)| [season(task, semaphore, 0), season(task, semaphore, 1)]);
    let others =
        [vec![TIMER, 0, 1, 0, 0, 0, 1], vec![DELAY, 0, 1, 0, 0, 0, 1], vec![SEASON_TIMER + 1, 0, 1, 0, 0, 0, 1]];
    let each: Vec<Vec<u8>> = lengths.chain(causes).chain(others).chain([timer(0, 1, 1), timer(0, 2, 1)]).collect();
    let none_runs = [service(SUSPEND, 2, 0), service(SUSPEND, 1, 0)];
    let frames = [&each[..], &[vec![PURGE, 0, 0, 0, 0], timer(0, 1, 1)], &each, &none_runs, &each].concat();
    Script { configuration: configuration(1), frames }
}
