//! Examples worked out by hand from the papers: those that document 01 marks, and sessions for each request of document 02 that
//! changes what a frame or a configuration means, or says more about frames; the records of W9 and the timers of W11.

mod callers;
mod dropped;
mod marked;
mod pairs;
mod season;
mod starts;
mod stretch;
mod told;
mod turns;

use plain_executive::executive::Executive;
use plain_executive::line;

fn frame(digits: &str) -> Vec<u8> {
    line::read(digits.as_bytes()).expect("digits")
}

fn configured(digits: &str) -> Executive {
    Executive::configure(&frame(digits)).expect("an accepted configuration")
}

fn answer(executive: &mut Executive, frame: &[u8]) -> String {
    let answer = executive.frame(frame);
    String::from_utf8(line::write(answer.bytes()).expect("an answer")).expect("digits")
}

/// The answer to the last of the frames.
fn after(executive: &mut Executive, frames: &[&str]) -> String {
    let mut last = String::new();
    for digits in frames {
        last = answer(executive, &frame(digits));
    }
    last
}
