//! Nanoseconds and instructions a frame.

use std::fs;
use std::process::Command;
use std::time::Instant;

use c::caller::Caller;

use crate::session::{run_broken, run_engine, run_other, Frame, Session};

/// Of all rounds and repetitions the least time is taken, so that what else the machine does counts for little.
const ROUNDS: usize = 5;
const REPETITIONS: usize = 9;

/// Of a frame of a session, by the verified functions and by the other implementation.
#[derive(Clone, Copy)]
pub struct Cost {
    pub engine: f64,
    pub other: f64,
}

pub fn nanoseconds(sessions: &[Session]) -> Vec<Cost> {
    let mut least = vec![Cost { engine: f64::MAX, other: f64::MAX }; sessions.len()];
    for _ in 0..ROUNDS {
        for (least, session) in least.iter_mut().zip(sessions) {
            repeat(session, least);
        }
    }
    least
}

/// The two in turns, so that both meet the same noise.
fn repeat(session: &Session, least: &mut Cost) {
    let (memory, other) = (session.memory(), session.other());
    for _ in 0..REPETITIONS {
        let (mut memory, mut other) = (memory.clone(), other.clone());
        least.engine = least.engine.min(timed(session, |frames| run_engine(frames, &mut memory)));
        least.other = least.other.min(timed(session, |frames| run_other(frames, &mut other)));
    }
}

fn timed(session: &Session, run: impl FnOnce(&[Frame])) -> f64 {
    let start = Instant::now();
    run(&session.frames);
    start.elapsed().as_nanos() as f64 / session.frames.len() as f64
}

/// Who runs the frames: the verified functions by the controller's entry or by the module's, the other implementation, or the
/// controller's entry twice, first on memory that breaks a rule.
pub const ENGINE: &str = "engine";
pub const MODULE: &str = "module";
const OTHER: &str = "other";
const BROKEN: &str = "broken";

/// What `instructions_of` has counted: one of the four runs the frames of a session in a file, or nobody does.
pub fn run_one(who: &str, file: &str, before: usize, with_frames: bool) -> ! {
    let lines = fs::read(file).expect("a session");
    let session = Session::read(&lines, before);
    let (mut memory, mut other, breaks) = (session.memory(), session.other(), session.breaks());
    let frames: &[Frame] = if with_frames { &session.frames } else { &[] };
    match who {
        ENGINE => run_engine(frames, &mut memory),
        MODULE => run_engine(frames, &mut session.memory_of(Caller::Module)),
        OTHER => run_other(frames, &mut other),
        _ => run_broken(frames, &mut memory, &breaks),
    }
    std::process::exit(0)
}

/// The instructions of a frame, and those of them that test for 11.
pub struct Counted {
    pub cost: Cost,
    pub test: f64,
}

pub fn instructions(session: &Session) -> Option<Counted> {
    let cost = Cost { engine: instructions_of(session, ENGINE)?, other: instructions_of(session, OTHER)? };
    let test = instructions_of(session, BROKEN)? - cost.engine;
    Some(Counted { cost, test })
}

/// Of a frame, by callgrind, with the frames less without them. None where valgrind is missing.
pub fn instructions_of(session: &Session, who: &str) -> Option<f64> {
    let file = std::env::current_exe().expect("a name").with_file_name("session.txt");
    fs::write(&file, session.lines()).expect("a file beside the program");
    let (file, before) = (file.to_str().expect("a name"), session.before.len().to_string());
    let count = |frames: &str| counted(&[who, file, &before, frames]);
    Some((count("frames")? - count("none")?) / session.frames.len() as f64)
}

/// By callgrind, of all that this program does with these arguments. None where valgrind is missing.
pub fn counted(arguments: &[&str]) -> Option<f64> {
    let output = Command::new("valgrind")
        .args(["--tool=callgrind", "--callgrind-out-file=/dev/null"])
        .arg(std::env::current_exe().expect("a name"))
        .args(arguments)
        .output()
        .ok()?;
    let said = String::from_utf8_lossy(&output.stderr).into_owned();
    assert!(output.status.success(), "{said}");
    let collected = said.lines().find_map(|line| line.split("Collected :").nth(1)).expect("callgrind's count");
    collected.trim().parse::<f64>().ok()
}
