//! The dearest frame of each code: the instructions, the nanoseconds and the stack of one call.

use std::hint::black_box;
use std::path::PathBuf;
use std::process::Command;
use std::time::{Duration, Instant};

use c::lent::Lent;
use c::stack;

use crate::dear;
use crate::session::Session;

const CODES: [&str; 18] = [
    "wait",
    "signal",
    "pend",
    "send",
    "sendw",
    "receive",
    "dequeue",
    "enqueue",
    "resume",
    "suspend",
    "terminate",
    "execute",
    "delay",
    "timer",
    "purge",
    "tick",
    "interrupt exit",
    "season timer",
];
/// Of all rounds and repetitions the least time is taken, of so many calls each.
const ROUNDS: usize = 30;
const REPETITIONS: usize = 9;
const CALLS: u32 = 100;
/// What `run_all` is called with.
pub const RUN_ALL: &str = "dear";

pub fn print() {
    let candidates = dear::candidates();
    candidates.iter().for_each(Session::check);
    println!("| Code | Instructions | ns | Reissues | Stack | State |\n|{}", "---|".repeat(6));
    let Some(counts) = instructions(candidates.len()) else {
        println!("| no valgrind | - | - | - | - | - |\n");
        return;
    };
    let codes = 1..=CODES.len() as u8;
    let dearest: Vec<(&Session, u64)> = codes.map(|code| dearest(code, &candidates, &counts)).collect();
    let times = nanoseconds(&dearest);
    for (((session, count), time), name) in dearest.into_iter().zip(times).zip(CODES) {
        let (code, mut memory) = (session.frames[0][0], session.memory());
        let bytes = stack::bytes(memory.caller.feeding(), &session.frames[0], &mut memory);
        let reissues = memory.answered()[2];
        println!("| ${code:02X} {name} | {count} | {time:.0} | {reissues} | {bytes} | {} |", session.name);
    }
    println!();
}

/// Of the frames with this code.
fn dearest<'a>(code: u8, candidates: &'a [Session], counts: &[u64]) -> (&'a Session, u64) {
    let of_code = candidates.iter().zip(counts).filter(|(session, _)| session.frames[0][0] == code);
    let (session, &count) = of_code.max_by_key(|(_, &count)| count).expect("a frame of each code");
    (session, count)
}

fn nanoseconds(dearest: &[(&Session, u64)]) -> Vec<f64> {
    let mut least = vec![[Duration::MAX; 2]; dearest.len()];
    for _ in 0..ROUNDS {
        for ((session, _), least) in dearest.iter().zip(&mut least) {
            repeat(session, least);
        }
    }
    let frame = |[with, without]: [Duration; 2]| with.saturating_sub(without).as_nanos() as f64 / f64::from(CALLS);
    least.into_iter().map(frame).collect()
}

/// With the frame and without it, from the same state each time.
fn repeat(session: &Session, least: &mut [Duration; 2]) {
    let kept = session.memory();
    let mut memory = kept.clone();
    for _ in 0..REPETITIONS {
        for (fed, least) in [true, false].into_iter().zip(&mut *least) {
            let start = Instant::now();
            for _ in 0..CALLS {
                restore(black_box(&mut memory), &kept);
                if fed {
                    black_box(memory.frame(black_box(&session.frames[0])));
                }
            }
            *least = start.elapsed().min(*least);
        }
    }
}

fn restore(memory: &mut Lent, kept: &Lent) {
    for (block, kept) in memory.blocks_mut().into_iter().zip(kept.blocks()) {
        block.copy_from_slice(kept);
    }
}

/// What `instructions` has counted: each candidate's frame, once.
pub fn run_all() -> ! {
    for session in dear::candidates() {
        let mut memory = session.memory();
        bench_counted_frame(&session.frames[0], &mut memory);
    }
    std::process::exit(0)
}

/// Callgrind knows it by its name.
#[no_mangle]
#[inline(never)]
fn bench_counted_frame(frame: &[u8], memory: &mut Lent) {
    black_box(memory.frame(black_box(frame)));
}

/// From the call of the exported function to its return, by callgrind, which writes a file for each candidate. None where valgrind
/// is missing.
fn instructions(candidates: usize) -> Option<Vec<u64>> {
    let program = std::env::current_exe().expect("a name");
    let files = program.with_file_name("dear.callgrind");
    let output = Command::new("valgrind")
        .args(["--tool=callgrind", "--toggle-collect=mcx11_frame_blocks"])
        .args(["--zero-before=bench_counted_frame", "--dump-after=bench_counted_frame"])
        .arg(format!("--callgrind-out-file={}", files.display()))
        .arg(&program)
        .arg(RUN_ALL)
        .output()
        .ok()?;
    assert!(output.status.success(), "{}", String::from_utf8_lossy(&output.stderr));
    Some((1..=candidates).map(|number| counted(files.with_extension(format!("callgrind.{number}")))).collect())
}

/// The sum in one of callgrind's files.
fn counted(file: PathBuf) -> u64 {
    let text = std::fs::read_to_string(&file).expect("a file of callgrind");
    std::fs::remove_file(file).expect("a file of one's own");
    let sum = text.lines().find_map(|line| line.strip_prefix("totals:")).expect("callgrind's sum");
    sum.trim().parse().expect("a number")
}
