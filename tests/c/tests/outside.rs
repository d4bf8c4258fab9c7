//! The marks, and the bytes outside the parts of the lent memory. A block that was cleared, exchanged, overrun across an end or
//! never configured gives 11, and nothing is written. A frame and a configuration change no byte that is not theirs.

use std::ops::Range;

use c::caller::Caller;
use c::lent::{ends, kept_frame, pairs_at, parts, Lent, FRAME, MARKS, PART};
use c::rules::{self, Rule};
use plain_executive::configuration::Configuration;
use plain_executive::executive::Executive;
use plain_executive::generator::{Generator, Script};
use plain_executive::numbers::MEMORY;
use plain_executive::random::Random;

const TICK: [u8; 5] = [0x10, 0, 0, 0, 0];
/// Blocks that have a mark.
const MARKED: Range<usize> = 0..4;
const TASKS: [u8; 6] = [1, 2, 5, 12, 40, 126];

c::for_each_caller!(
    a_block_cleared_whole,
    two_blocks_exchanged,
    a_block_overrun_across_an_end,
    memory_that_was_never_configured,
    every_byte_of_every_mark,
    every_length_of_the_frame,
    bytes_outside_stay_through_configurations_and_frames,
    bytes_outside_stay_through_a_second_configuration,
    a_byte_outside_is_noticed,
);

fn scripts(caller: Caller, count: u64, frames: usize) -> impl Iterator<Item = Script> {
    (0..count).map(move |seed| {
        let tasks = TASKS[seed as usize % TASKS.len()];
        Generator::within(caller.limits(), seed).script(tasks..=tasks, frames)
    })
}

/// A caller's memory of these sizes after a session.
fn after(caller: Caller, script: &Script, sizes: [usize; 5], random: &mut Random) -> Lent {
    let mut memory = Lent::of(caller, sizes, || random.byte());
    assert_eq!(memory.configure(&script.configuration), 0);
    for frame in &script.frames {
        memory.frame(frame);
    }
    assert_eq!(rules::broken(&memory), None);
    memory
}

/// A frame gives 11 for this rule, and writes nothing.
fn assert_11(memory: &Lent, frame: &[u8], rule: Rule, what: &str) {
    assert_eq!(rules::broken(memory), Some(rule), "{what}");
    let mut fed = memory.clone();
    assert_eq!(fed.frame(frame), MEMORY, "{what}");
    assert!(fed == *memory, "{what}: a byte was written with 11");
}

// ---- memory that gives 11

fn a_block_cleared_whole(caller: Caller) {
    let mut random = Random::new(51);
    for script in scripts(caller, 60, 40) {
        let memory = after(caller, &script, caller.sizes(), &mut random);
        for (block, value) in MARKED.flat_map(|block| [0, 1, 0x5A, 0xA5, 0xFF].map(|value| (block, value))) {
            let mut cleared = memory.clone();
            cleared.blocks_mut()[block].fill(value);
            assert_11(&cleared, &TICK, Rule::Marks, &format!("block {block} filled with {value:02X}"));
        }
    }
}

/// Each lent as the other, in blocks that are long enough for any.
fn two_blocks_exchanged(caller: Caller) {
    let mut random = Random::new(52);
    let largest = caller.sizes().into_iter().max().expect("five");
    for script in scripts(caller, 60, 40) {
        let memory = after(caller, &script, [largest; 5], &mut random);
        for (one, other) in (0..5).flat_map(|one| (0..one).map(move |other| (one, other))) {
            let mut blocks = memory.blocks().map(<[u8]>::to_vec);
            blocks.swap(one, other);
            let [config, tables, slots, timers, answer] = blocks;
            let exchanged = Lent { caller, config, tables, slots, timers, answer };
            assert_11(&exchanged, &TICK, Rule::Marks, &format!("blocks {one} and {other}"));
        }
    }
}

/// Somebody's bytes that begin before a block and end in it, or begin in it and end behind it.
fn a_block_overrun_across_an_end(caller: Caller) {
    let mut random = Random::new(53);
    for script in scripts(caller, 60, 40) {
        let memory = after(caller, &script, caller.sizes(), &mut random);
        for block in MARKED {
            let size = caller.sizes()[block];
            for reach in (1..=12).chain([size / 2, size]) {
                for (end, bytes) in [("front", 0..reach), ("back", size - reach..size)] {
                    let mut overrun = memory.clone();
                    let value = random.between(0, 0x40); // no letter
                    overrun.blocks_mut()[block][bytes].fill(value);
                    assert_11(&overrun, &TICK, Rule::Marks, &format!("{reach} bytes at the {end} of block {block}"));
                }
            }
        }
    }
}

fn memory_that_was_never_configured(caller: Caller) {
    let mut random = Random::new(54);
    for script in scripts(caller, 30, 20) {
        for value in [Some(0), Some(0xFF), Some(0xA5), Some(b'M'), None] {
            let more = random.below(3);
            let memory =
                Lent::of(caller, caller.sizes().map(|size| size + more), || value.unwrap_or_else(|| random.byte()));
            for frame in &script.frames {
                assert_11(&memory, frame, Rule::Marks, &format!("filled with {value:02X?}, {frame:02X?}"));
            }
        }
    }
}

/// Each byte of each mark, with each other value.
fn every_byte_of_every_mark(caller: Caller) {
    let mut random = Random::new(55);
    for (script, more) in scripts(caller, 6, 40).zip([0, 1, 7, 0, 64, 3]) {
        let memory = after(caller, &script, caller.sizes().map(|size| size + more), &mut random);
        for block in MARKED {
            for place in ends(caller.sizes()[block]).into_iter().flatten() {
                for change in 1..=u8::MAX {
                    let mut changed = memory.clone();
                    changed.blocks_mut()[block][place] ^= change;
                    assert_11(&changed, &TICK, Rule::Marks, &format!("block {block}, byte {place} by {change:02X}"));
                }
            }
        }
    }
}

/// Each length but those from the frame's own without pairs to the longest's.
fn every_length_of_the_frame(caller: Caller) {
    let mut random = Random::new(56);
    for (script, more) in scripts(caller, 6, 40).zip([0, 400, 0, 7, 0, 64]) {
        let mut memory = after(caller, &script, caller.sizes().map(|size| size + more), &mut random);
        let least = pairs_at(&Configuration::read(&script.configuration).expect("accepted")) - FRAME;
        for length in (0..=u16::MAX).filter(|length| !(least..=caller.longest()).contains(&usize::from(*length))) {
            memory.config[PART..FRAME].copy_from_slice(&length.to_be_bytes());
            assert_eq!(rules::broken(&memory), Some(Rule::Configuration), "{length}");
            let before = memory.clone();
            assert_eq!(memory.frame(&TICK), MEMORY, "{length}");
            assert!(memory == before, "{length}: a byte was written with 11");
        }
    }
}

// ---- bytes outside the parts

/// Which bytes of a block a call may write: its part; of a configuration also both marks.
fn is_its_own(caller: Caller, configuration: &Configuration, block: usize, place: usize, marks: bool) -> bool {
    let marked = marks && ends(caller.sizes()[block]).iter().any(|end| end.contains(&place));
    marked || parts(configuration)[block].contains(&place)
}

/// The first other byte that is not as it was: its block, and its place there.
fn changed_outside(before: &Lent, after: &Lent, configuration: &Configuration, marks: bool) -> Option<(usize, usize)> {
    let answer = 0..1 + usize::from(after.answer[0]);
    let blocks = before.blocks().into_iter().zip(after.blocks()).enumerate();
    let all = blocks.flat_map(|(block, (old, new))| (0..old.len()).map(move |at| ((block, at), old[at] != new[at])));
    let mut changed = all.filter_map(|(place, changed)| changed.then_some(place));
    changed.find(|&(block, at)| match block {
        4 => !answer.contains(&at),
        _ => !is_its_own(before.caller, configuration, block, at, marks),
    })
}

/// Sizes, and some with more behind them.
fn lengths(caller: Caller, random: &mut Random) -> [usize; 5] {
    caller.sizes().map(|size| size + random.pick(&[0, 0, 1, 4, 33]))
}

fn bytes_outside_stay_through_configurations_and_frames(caller: Caller) {
    let mut random = Random::new(57);
    let (mut accepted, mut refused) = (0, 0);
    for (seed, script) in scripts(caller, 120, 120).enumerate() {
        let configuration = Configuration::read(&script.configuration).expect("accepted");
        let pattern = random.byte();
        let mut turn = 0_u8;
        let mut memory = Lent::of(caller, lengths(caller, &mut random), || {
            turn = turn.wrapping_add(1);
            pattern ^ turn
        });
        let before = memory.clone();
        assert_eq!(memory.configure(&script.configuration), 0);
        assert_eq!(changed_outside(&before, &memory, &configuration, true), None, "seed {seed}, the configuration");
        for ((block, size), mark) in memory.blocks().into_iter().zip(caller.sizes()).zip(MARKS) {
            ends(size).into_iter().for_each(|end| assert_eq!(block[end], mark, "seed {seed}"));
        }
        assert_eq!(kept_frame(&memory.config), script.configuration, "seed {seed}");
        for (index, frame) in script.frames.iter().enumerate() {
            let before = memory.clone();
            let number = memory.frame(frame);
            let what = format!("seed {seed}, frame {index} with number {number}");
            assert_eq!(memory.config, before.config, "{what}");
            if number == 0 {
                accepted += 1;
                assert_eq!(changed_outside(&before, &memory, &configuration, false), None, "{what}");
            } else {
                refused += 1;
                let kept = Lent { answer: memory.answer.clone(), ..before };
                assert!(memory == kept, "{what}: it wrote");
            }
        }
    }
    assert!(accepted > 5000 && refused > 1000, "{accepted} accepted, {refused} refused");
}

/// A second configuration over the memory of a session, smaller or larger: what the first left outside the new parts stays.
fn bytes_outside_stay_through_a_second_configuration(caller: Caller) {
    let mut random = Random::new(58);
    let mut generator = Generator::new(58);
    for (seed, (first, second)) in scripts(caller, 60, 60).zip(scripts(caller, 61, 0).skip(1)).enumerate() {
        let sizes = lengths(caller, &mut random);
        let mut memory = after(caller, &first, sizes, &mut random);
        let before = memory.clone();
        let refused = generator.refused_configuration();
        let number = Executive::configure(&refused).expect_err("refused");
        assert_eq!(memory.configure(&refused), number, "seed {seed}");
        let kept = Lent { answer: memory.answer.clone(), ..before };
        assert!(memory == kept, "seed {seed}: a refused configuration wrote");
        assert_eq!(memory.answered(), [number, 0, 0, 0], "seed {seed}");
        assert_eq!(memory.answer[5..], kept.answer[5..], "seed {seed}");

        let before = memory.clone();
        let configuration = Configuration::read(&second.configuration).expect("accepted");
        assert_eq!(memory.configure(&second.configuration), 0, "seed {seed}");
        assert_eq!(changed_outside(&before, &memory, &configuration, true), None, "seed {seed}, the second");
        assert_eq!(kept_frame(&memory.config), second.configuration, "seed {seed}");
        assert_eq!(rules::broken(&memory), None, "seed {seed}");
    }
}

/// The check of this file finds a byte that was written outside.
fn a_byte_outside_is_noticed(caller: Caller) {
    let mut random = Random::new(59);
    let script = scripts(caller, 3, 40).nth(2).expect("three");
    let configuration = Configuration::read(&script.configuration).expect("accepted");
    let memory = after(caller, &script, caller.sizes().map(|size| size + 3), &mut random);
    for block in MARKED {
        let end = parts(&configuration)[block].end;
        let size = caller.sizes()[block];
        for (place, marks) in [(0, false), (size - 1, false), (end, true), (size - 5, true), (size + 2, true)] {
            let mut written = memory.clone();
            written.blocks_mut()[block][place] ^= 1;
            assert_eq!(changed_outside(&memory, &written, &configuration, marks), Some((block, place)));
        }
    }
    let mut written = memory.clone();
    *written.answer.last_mut().expect("bytes") ^= 1;
    assert_eq!(changed_outside(&memory, &written, &configuration, true), Some((4, caller.sizes()[4] + 2)));
}
