//! One value for one item: after a configuration and after every frame each byte of the lent memory is the one that docs/MEMORY.md
//! promises, whatever the memory held before. Free bytes may hold anything, and bytes outside stay.

use c::caller::Caller;
use c::lent::{timer_row, Lent};
use c::tidy::{left, untidy, Left};
use plain_executive::executive::Executive;
use plain_executive::generator::{Generator, Script};
use plain_executive::random::Random;

/// The floor of the timers' clock, which no promised byte shows.
const FLOOR: usize = timer_row(0) + 6;
const TASKS: [u8; 6] = [1, 2, 5, 12, 40, 126];

c::for_each_caller!(
    two_runs_over_other_bytes_leave_the_same,
    free_bytes_may_hold_anything,
    every_changed_byte_is_noticed,
);

fn scripts(caller: Caller, count: u64, frames: usize) -> impl Iterator<Item = Script> {
    (0..count).map(move |seed| {
        let tasks = TASKS[seed as usize % TASKS.len()];
        Generator::within(caller.limits(), seed).script(tasks..=tasks, frames)
    })
}

/// The other executive after the same configuration.
fn other(script: &Script) -> Executive {
    let mut other = Executive::configure(&script.configuration).expect("accepted");
    other.keep_history();
    other
}

fn assert_tidy(script: &Script, other: &Executive, memory: &Lent, what: &str) {
    let found = untidy(&script.configuration, other, memory);
    assert_eq!(found, None, "{what} of\n{}", String::from_utf8_lossy(&script.lines()));
}

/// The same memory with every bit changed.
fn opposite(memory: &Lent) -> Lent {
    let mut opposite = memory.clone();
    opposite.blocks_mut().into_iter().flatten().for_each(|byte| *byte = !*byte);
    opposite
}

// ---- two runs

/// How many bytes of both memories were equal, and how many free ones were not.
#[derive(Debug, Default)]
struct Compared {
    equal: u64,
    free: u64,
}

/// The bytes are equal but for the free ones and those outside, which are as different as they were before.
fn compare(script: &Script, other: &Executive, runs: &[Lent; 2], compared: &mut Compared, what: &str) {
    let [one, another] = runs;
    let both = [one, another].map(|run| left(&script.configuration, other, run));
    assert_eq!(both[0], both[1], "{what}");
    for (block, left) in both[0].iter().enumerate() {
        let bytes = one.blocks()[block].iter().zip(another.blocks()[block]).enumerate();
        for (place, (one, another)) in bytes {
            match left.get(place).unwrap_or(&Left::Outside) {
                Left::Byte(_) | Left::Clock => {
                    assert_eq!(one, another, "{what}: byte {place} of block {block}");
                    compared.equal += 1;
                }
                Left::Free => compared.free += u64::from(one != another),
                Left::Outside => assert_eq!(*one, !another, "{what}: byte {place} of block {block}, outside"),
            }
        }
    }
}

/// Each session twice: over what the session before it left, and over the opposite of that.
fn two_runs_over_other_bytes_leave_the_same(caller: Caller) {
    let mut random = Random::new(61);
    let mut memory = Lent::of(caller, caller.sizes().map(|size| size + 3), || random.byte());
    let mut compared = Compared::default();
    let (mut accepted, mut refused) = (0, 0);
    for (seed, script) in scripts(caller, 180, 150).enumerate() {
        let mut other = other(&script);
        let mut runs = [opposite(&memory), memory];
        for run in &mut runs {
            assert_eq!(run.configure(&script.configuration), 0, "seed {seed}");
            assert_tidy(&script, &other, run, &format!("seed {seed}, the configuration"));
        }
        compare(&script, &other, &runs, &mut compared, &format!("seed {seed}, the configuration"));
        for (index, frame) in script.frames.iter().enumerate() {
            let what = format!("seed {seed}, frame {index}");
            let answer = other.frame(frame);
            for run in &mut runs {
                assert_eq!(run.frame(frame), answer.refusal(), "{what}");
                assert_eq!(run.answered(), answer.bytes(), "{what}");
                assert_tidy(&script, &other, run, &what);
            }
            compare(&script, &other, &runs, &mut compared, &what);
            *if answer.refusal() == 0 { &mut accepted } else { &mut refused } += 1;
        }
        [_, memory] = runs;
    }
    println!("{accepted} accepted, {refused} refused, {compared:?}");
    assert!(accepted > 15_000 && refused > 3000, "{accepted} accepted, {refused} refused");
    assert!(compared.equal > 10_000_000 && compared.free > 1_000_000, "{compared:?}");
}

// ---- free bytes

/// Somebody writes all free bytes before every frame: the answers are the same, and so is each promised byte.
fn free_bytes_may_hold_anything(caller: Caller) {
    let mut random = Random::new(62);
    let mut written = 0;
    for (seed, script) in scripts(caller, 180, 150).enumerate() {
        let mut other = other(&script);
        let mut memory = Lent::of(caller, caller.sizes(), || random.byte());
        assert_eq!(memory.configure(&script.configuration), 0, "seed {seed}");
        for (index, frame) in script.frames.iter().enumerate() {
            let left = left(&script.configuration, &other, &memory);
            for (block, left) in memory.blocks_mut().into_iter().zip(left) {
                for (byte, _) in block.iter_mut().zip(left).filter(|(_, left)| *left == Left::Free) {
                    *byte = random.byte();
                    written += 1;
                }
            }
            let what = format!("seed {seed}, frame {index}");
            let answer = other.frame(frame);
            assert_eq!(memory.frame(frame), answer.refusal(), "{what}");
            assert_eq!(memory.answered(), answer.bytes(), "{what}");
            assert_eq!(memory.items(other.configuration()), other.items(), "{what}");
            assert_tidy(&script, &other, &memory, &what);
        }
    }
    println!("{written} free bytes were written");
    assert!(written > 1_000_000, "{written}");
}

// ---- the comparison itself

/// Each bit of each byte: a change is noticed if the byte is promised, and else not. Of the clock the time is noticed by the rows.
fn every_changed_byte_is_noticed(caller: Caller) {
    let mut random = Random::new(63);
    let (mut noticed, mut free, mut met) = (0, 0, [false; 4]);
    for (seed, script) in (0..40).map(|seed| (seed, Generator::within(caller.limits(), seed).script(3..=9, 80))) {
        let mut other = other(&script);
        let mut memory = Lent::of(caller, caller.sizes(), || random.byte());
        memory.configure(&script.configuration);
        for frame in &script.frames {
            other.frame(frame);
            memory.frame(frame);
        }
        assert_tidy(&script, &other, &memory, &format!("seed {seed}"));
        let items = other.items();
        met[0] |= items.tasks.iter().any(|task| !task.request.entry().is_empty());
        met[1] |= items.mailboxes.iter().filter(|mailbox| !mailbox.is_empty()).count() > 1;
        met[2] |= items.queues.iter().any(|queue| queue.len() > 1);
        met[3] |= items.timers.len() > 1;
        for (block, left) in left(&script.configuration, &other, &memory).iter().enumerate() {
            for (place, bit) in (0..left.len()).flat_map(|place| (0..8).map(move |bit| (place, bit))) {
                if left[place] == Left::Outside || (left[place] == Left::Clock && place >= FLOOR) {
                    continue;
                }
                memory.blocks_mut()[block][place] ^= 1 << bit;
                let found = untidy(&script.configuration, &other, &memory);
                memory.blocks_mut()[block][place] ^= 1 << bit;
                assert_eq!(found.is_some(), left[place] != Left::Free, "byte {place} of block {block}: {found:?}");
                *if found.is_some() { &mut noticed } else { &mut free } += 1;
            }
        }
    }
    println!("{noticed} noticed, {free} free");
    assert_eq!(met, [true; 4], "an open enqueue, messages for two tasks, entries, timers");
    assert!(noticed > 50_000 && free > 10_000, "{noticed} noticed, {free} free");
}
