//! For each code the frames that may be the dearest, each behind the frames that make its state. Which of them it is depends on how
//! the functions are compiled: so each is counted, and the dearest is shown.

mod blocking;
mod quiet;
mod ticks;
mod waking;

use crate::frames::timed;
use crate::session::Session;
use crate::stage::{Ends, Size, Stage, TIMERS};
use plain_executive::command::TIMER;

/// Of 31 queues the last seven are added up one by one, and of 15 bytes the last ones are copied so.
const SIZES: [Size; 3] =
    [Size { queues: 32, width: 16 }, Size { queues: 32, width: 15 }, Size { queues: 31, width: 15 }];
const ENDS: [Ends; 2] = [Ends::Takers, Ends::Putters];
/// The tocks of timers that are due before and behind a new one, and those of the new one.
const SOON: i16 = 1000;
const LATE: i16 = 3000;
const NEW: i16 = 2000;
/// How many of 63 records stand behind one that is put in.
const BEHIND: [u8; 5] = [0, 1, 3, 31, 63];

pub fn candidates() -> Vec<Session> {
    let sized = |size: Size| [blocking::all(size), waking::all(size), quiet::all(size), ticks::all(size)].concat();
    SIZES.into_iter().flat_map(sized).collect()
}

/// All timers are the caller's.
fn start_all(stage: &mut Stage) {
    (1..=TIMERS).for_each(|number| stage.does(timed(TIMER, 0, number, SOON)));
}

/// 63 timers of the caller, so many of them due behind one that is then started.
fn start_but_one(stage: &mut Stage, behind: u8) {
    let tocks = |number: u8| if number < TIMERS - behind { SOON } else { LATE };
    (1..TIMERS).for_each(|number| stage.does(timed(TIMER, 0, number, tocks(number))));
}

fn but_one_name(behind: u8) -> String {
    format!("63 timers of the caller, {behind} of them due behind the new one")
}
