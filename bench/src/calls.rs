//! Nanoseconds and instructions of a call that a host makes beside its frames: by the C function, and in plain Rust.

use std::time::Instant;

use crate::cells;
use crate::measure::{counted, Cost};

/// Of all rounds and repetitions the least time is taken.
const ROUNDS: usize = 30;
const REPETITIONS: usize = 9;
/// Calls that callgrind counts; one digit, as none has.
const COUNTED: usize = 8;
/// Who is called: the C function, or the other.
pub const ENGINE: &str = "engine";
const OTHER: &str = "other";

/// A row for each that is asked for. `arguments` has this program make the calls of a row, with who and the calls behind them.
pub fn print<Asked: Copy>(
    heading: &[&str],
    asked: &[Asked],
    name: impl Fn(Asked) -> String,
    time: impl Fn(Asked, &mut Cost),
    arguments: impl Fn(Asked) -> Vec<String>,
) {
    let columns = [heading, &["ns", "plain", "ratio", "instructions", "plain", "ratio"]].concat();
    println!("| {} |\n|{}", columns.join(" | "), "---|".repeat(columns.len()));
    for (&asked, time) in asked.iter().zip(nanoseconds(asked, time)) {
        let instructions = instructions(arguments(asked)).map_or("no valgrind | - | -".to_string(), cells);
        println!("| {} | {} | {instructions} |", name(asked), cells(time));
    }
    println!();
}

fn nanoseconds<Asked: Copy>(asked: &[Asked], time: impl Fn(Asked, &mut Cost)) -> Vec<Cost> {
    let mut least = vec![Cost { engine: f64::MAX, other: f64::MAX }; asked.len()];
    for _ in 0..ROUNDS {
        asked.iter().zip(&mut least).for_each(|(&asked, least)| time(asked, least));
    }
    least
}

/// Makes so many calls of each, the two in turns, so that both meet the same noise.
pub fn repeat(calls: usize, least: &mut Cost, mut engine: impl FnMut(), mut other: impl FnMut()) {
    for _ in 0..REPETITIONS {
        least.engine = least.engine.min(timed(calls, &mut engine));
        least.other = least.other.min(timed(calls, &mut other));
    }
}

fn timed(calls: usize, run: impl FnOnce()) -> f64 {
    let start = Instant::now();
    run();
    start.elapsed().as_nanos() as f64 / calls as f64
}

/// Of a call, by callgrind, with the calls less without them. None where valgrind is missing.
fn instructions(arguments: Vec<String>) -> Option<Cost> {
    let of = |who: &str| {
        let all = |calls: usize| {
            let calls = calls.to_string();
            let arguments = arguments.iter().map(String::as_str);
            counted(&arguments.chain([who, &calls]).collect::<Vec<_>>())
        };
        Some((all(COUNTED)? - all(0)?) / COUNTED as f64)
    };
    Some(Cost { engine: of(ENGINE)?, other: of(OTHER)? })
}
