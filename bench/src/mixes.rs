//! Long random sessions by the generator of the tests: all codes, and states that no story leads to.

use crate::session::{Frame, Session};
use plain_executive::generator::Generator;
use plain_executive::line::MOST_BYTES;

const FRAMES: usize = 20_000;
/// Frames that no line has room for are left out, and those without a byte. They are refused, and change nothing.
const BYTES: std::ops::RangeInclusive<usize> = 1..=MOST_BYTES;
/// Tasks and queues; the number of tasks is the seed too.
const SIZES: [(u8, u8); 4] = [(6, 4), (33, 8), (65, 16), (125, 32)];

pub fn random() -> Vec<Session> {
    SIZES.map(|(tasks, queues)| session(tasks, queues)).to_vec()
}

/// A session of this size.
pub fn session(tasks: u8, queues: u8) -> Session {
    let configuration = configuration(tasks, queues);
    let mut frames = Generator::new(tasks.into()).lasting_script_of(configuration.clone(), FRAMES + FRAMES / 10).frames;
    frames.retain(|frame| BYTES.contains(&frame.len()));
    frames.truncate(FRAMES);
    assert_eq!(frames.len(), FRAMES);
    Session { name: format!("random, T {tasks}, Q {queues}"), configuration, before: Vec::new(), frames }
}

/// Twice as many timers and messages as queues.
fn configuration(tasks: u8, queues: u8) -> Frame {
    let mut frame = vec![tasks, 64, queues, 2 * queues, 2 * queues, 4, 0, 125];
    frame.extend(vec![0; tasks.into()]);
    frame.extend([8, 8].repeat(queues.into()));
    frame
}
