//! Damaged memory through the C functions, between closed pages: each call returns, number 11 comes exactly where a rule of
//! docs/MEMORY.md is broken, and then nothing is written; every other memory means a state, and the frame does to it what it
//! does to the other implementation in that state.

use c::caller::{Blocks, Caller};
use c::damage::{damage, frames, Counts, Watch};
use c::dropped::DROPPED;
use c::fence::{dies, now, Fences, Side, DYING};
use c::lent::{parts, Lent, Regions, COUNT, FRAME, PART, PLANE, PLANES, SIZES};
use c::rules::{self, Rule};
use c::strange::STRANGE;
use plain_executive::executive::Executive;
use plain_executive::generator::{largest, Generator, Script};
use plain_executive::numbers::{Number, MEMORY};
use plain_executive::random::Random;

type Frame = Vec<u8>;

c::for_each_caller!(
    any_damage,
    every_value_of_every_byte_of_a_small_memory,
    every_bit_of_the_largest_memory,
    every_value_of_every_byte_of_the_pairs,
    every_kept_length,
    every_semaphore_of_a_dropped_message,
    every_length_of_every_block,
    configurations_over_damaged_memory,
);

/// Calls between closed pages, now before and now behind each block.
fn fenced() -> Watch<impl FnMut(&mut Lent, &[u8]) -> Number> {
    let mut fences = Fences::new();
    let mut sides = [Side::Back, Side::Front].into_iter().cycle();
    Watch::new(move |memory: &mut Lent, frame: &[u8]| fences.feed(memory, frame, sides.next().expect("a side")))
}

/// A caller's memory after a configuration and some frames, over bytes that were there before.
fn after(caller: Caller, script: &Script, count: usize, random: &mut Random) -> Lent {
    let mut memory = Lent::of(caller, caller.sizes(), || random.byte());
    assert_eq!(memory.configure(&script.configuration), 0);
    for frame in &script.frames[..count] {
        memory.frame(frame);
    }
    memory
}

/// The session and the bytes that were changed behind it.
fn told(script: &Script, count: usize, before: &Lent, damaged: &Lent) -> String {
    let session = Script { frames: script.frames[..count].to_vec(), ..script.clone() };
    let mut text = format!("the session:\n{}", String::from_utf8_lossy(&session.lines()));
    let names = ["config", "tables", "slots", "timers", "answer"];
    for ((name, old), new) in names.into_iter().zip(before.blocks()).zip(damaged.blocks()) {
        if old.len() != new.len() {
            text += &format!("then {name} with {} bytes\n", new.len());
        }
        let changed = old.iter().zip(new).enumerate().filter(|(_, (old, new))| old != new);
        for (place, (old, new)) in changed.take(40) {
            text += &format!("then {name}[{place}] from {old:02X} to {new:02X}\n");
        }
    }
    text
}

fn any_damage(caller: Caller) {
    let mut random = Random::new(21);
    let mut watch = fenced();
    for seed in 0..1200_u64 {
        let tasks = [1, 2, 3, 5, 9, 20, 4, 6, 2, 126][seed as usize % 10];
        let script = Generator::within(caller.limits(), seed).script(tasks..=tasks, 60);
        let another = Generator::within(caller.limits(), !seed).script(1..=9, 40);
        let another = after(caller, &another, 40, &mut random);
        for count in [0, 25, 50] {
            let memory = after(caller, &script, count, &mut random);
            let configuration = rules::configuration_of(&memory).expect("accepted");
            for turn in 0..24 {
                let mut damaged = memory.clone();
                damage(&mut random, &mut damaged, &configuration, &another);
                let frames = frames(&mut random, &damaged, &script.frames[count..]);
                now([seed, count as u64, turn]);
                let told = || format!("seed {seed}, {}", told(&script, count, &memory, &damaged));
                watch.feed(damaged.clone(), &frames, &told);
            }
        }
    }
    all_met(&watch.counts);
    assert!(watch.counts.calls > 150_000, "{} calls", watch.counts.calls);
}

/// Each rule was broken, each service accepted, each number given, and each strange memory met by an accepted frame.
fn all_met(counts: &Counts) {
    let Counts { broken, filled, accepted, refused, strange, reissues, told_without_wait, decided, dropped, .. } =
        counts;
    let all = format!(
        "{broken:?}, {filled} by frames, accepted {accepted:?}, refused {refused:?}, {reissues} reissues, \
         {told_without_wait} told without wait, {decided:?}, {dropped:?}, {strange:#?}"
    );
    println!("{} calls: {all}", counts.calls);
    for rule in [Rule::Sizes, Rule::Marks, Rule::Configuration, Rule::Messages] {
        assert!(broken.get(&rule) > Some(&500), "{rule:?}: {all}");
    }
    for code in 0x01..=0x12 {
        assert!(accepted.get(&code) > Some(&200), "code {code:02X}: {all}");
    }
    for number in [2, 4, 5, 6, 7, 8, 9, 20, 21, 22, 23, 24, 25, 26] {
        assert!(refused.get(&number) > Some(&50), "number {number}: {all}");
    }
    for (name, _) in STRANGE {
        assert!(strange.get(name) > Some(&50), "{name}: {all}");
    }
    for (name, _) in DROPPED {
        assert!(dropped.get(name) > Some(&50), "{name}: {all}");
    }
    assert!(*reissues > 1000, "{all}");
    assert!(*filled > 20, "{all}");
    assert!(*told_without_wait > 20, "{all}");
    assert_eq!(decided.len(), 5, "{all}");
    // The module has room for few pairs behind 64: every_kept_length meets more of them.
    let often = decided.iter().filter(|(name, _)| **name != "a pair behind 64");
    assert!(often.into_iter().all(|(_, count)| *count > 10), "{all}");
}

/// A memory that needs few bytes: each of them, and each of the marks in front, with each value.
fn every_value_of_every_byte_of_a_small_memory(caller: Caller) {
    let mut random = Random::new(22);
    let mut watch = fenced();
    let scripts = (0..200).map(|seed| Generator::within(caller.limits(), seed).script(3..=3, 40));
    let small = |script: &Script| {
        let configuration = rules::configuration_of(&after(caller, script, 0, &mut Random::new(0))).expect("accepted");
        let all: usize = parts(&configuration)[..4].iter().map(ExactSizeIterator::len).sum();
        all < 270 && configuration.queue_count() > 0 && configuration.timers > 0 && configuration.messages > 1
    };
    for script in scripts.filter(small).take(3) {
        let memory = after(caller, &script, 40, &mut random);
        let parts = parts(&rules::configuration_of(&memory).expect("accepted"));
        for (block, part) in parts[..4].iter().enumerate() {
            for (place, value) in (0..part.end).flat_map(|place| (0..=u8::MAX).map(move |value| (place, value))) {
                let mut damaged = memory.clone();
                damaged.blocks_mut()[block][place] = value;
                now([block as u64, place as u64, value.into()]);
                let frames = &frames(&mut random, &damaged, &script.frames[20..])[..1];
                watch.feed(damaged.clone(), frames, &|| told(&script, 40, &memory, &damaged));
            }
        }
    }
    println!("{} calls: {:?}", watch.counts.calls, watch.counts.broken);
    assert!(watch.counts.calls > 100_000, "{} calls", watch.counts.calls);
}

/// The largest configuration needs every byte: each bit of each.
fn every_bit_of_the_largest_memory(caller: Caller) {
    let mut random = Random::new(23);
    let mut watch = fenced();
    let script = Generator::new(23).script_of(largest(caller.limits()), 400);
    let memory = after(caller, &script, 300, &mut random);
    for (block, size) in caller.sizes().into_iter().enumerate() {
        for (place, bit) in (0..size).flat_map(|place| (0..8).map(move |bit| (place, bit))) {
            let mut damaged = memory.clone();
            damaged.blocks_mut()[block][place] ^= 1 << bit;
            now([block as u64, place as u64, bit]);
            let frames = &frames(&mut random, &damaged, &script.frames[300..])[..1];
            watch.feed(damaged.clone(), frames, &|| told(&script, 300, &memory, &damaged));
        }
    }
    println!("{} calls: {:?}", watch.counts.calls, watch.counts.broken);
    assert_eq!(watch.counts.calls, 8 * caller.sizes().iter().sum::<usize>() as u64);
}

/// Four tasks, the second idle, the fourth idle behind it; task 1 runs.
fn with_pairs(caller: Caller, pairs: &[u8], random: &mut Random) -> Lent {
    let configuration = [&[4, 0, 0, 0, 0, 1, 0, 1], &[0, 1, 0, 1][..], pairs].concat();
    after(caller, &Script { configuration, frames: Vec::new() }, 0, random)
}

/// One execute of each task, each on the memory as it is given. How often 26 was met.
fn execute_each(watch: &mut Watch<impl FnMut(&mut Lent, &[u8]) -> Number>, memory: &Lent) -> u64 {
    let met = |watch: &Counts| watch.refused.get(&26).copied().unwrap_or(0);
    let before = met(&watch.counts);
    for task in 1..=4 {
        let frame = vec![0x0C, task, 0, 0, 0];
        watch.feed(memory.clone(), &[frame], &|| format!("execute {task}, config {:02X?}", memory.config));
    }
    met(&watch.counts) - before
}

fn every_value_of_every_byte_of_the_pairs(caller: Caller) {
    let mut random = Random::new(26);
    let mut watch = fenced();
    let pairs = [1, 3, 2, 4, 1, 4];
    let memory = with_pairs(caller, &pairs, &mut random);
    assert_eq!(execute_each(&mut watch, &memory), 1, "task 4 behind task 2");
    let mut met = [0; 3];
    for (place, value) in (0..pairs.len()).flat_map(|place| (0..=u8::MAX).map(move |value| (place, value))) {
        let mut damaged = memory.clone();
        damaged.config[memory.kept_frame().len() + FRAME - pairs.len() + place] = value;
        now([place as u64, value.into(), 0]);
        met[execute_each(&mut watch, &damaged) as usize] += 1;
    }
    println!("no 26, one, two: {met:?}");
    assert!(watch.counts.broken.is_empty(), "{:?}", watch.counts.broken);
    assert!(met.iter().all(|count| *count > 0), "{met:?}");
}

/// Every length that a frame may have is kept without 11, odd ones too, and with more than 64 pairs: what lies there is read two by
/// two, and one pair in it refuses if it is read whole.
fn every_kept_length(caller: Caller) {
    let longest = caller.longest();
    let lengths = 12..=longest;
    let mut random = Random::new(27);
    let mut watch = fenced();
    let mut memory = with_pairs(caller, &[], &mut random);
    let mut met = 0;
    let places =
        |length: usize| (12..longest).step_by(2).filter(move |place| place % 24 == 12 || place.abs_diff(length) < 6);
    for (length, place) in (0..=400).flat_map(|length| places(length).map(move |place| (length, place))) {
        memory.config[PART..FRAME].copy_from_slice(&(length as u16).to_be_bytes());
        for pair in memory.config[FRAME + 12..FRAME + longest].chunks_exact_mut(2) {
            pair.copy_from_slice(&[random.pick(&[0, 1, 3, 5, 255]), random.between(0, 5)]);
        }
        memory.config[FRAME + place..][..2].copy_from_slice(&[2, 4]);
        now([length as u64, place as u64, 0]);
        let whole = lengths.contains(&length) && place + 2 <= length;
        assert_eq!(execute_each(&mut watch, &memory), u64::from(whole), "length {length}, the pair at {place}");
        met += u64::from(whole);
    }
    assert!(met > 4 * longest as u64, "{met}");
    let behind = watch.counts.decided["a pair behind 64"];
    assert!(behind > 30, "{behind}");
    let refused: usize =
        (0..=400).filter(|length| !lengths.contains(length)).map(|length| 4 * places(length).count()).sum();
    assert_eq!(watch.counts.broken, [(Rule::Configuration, refused as u64)].into());
}

/// T 3, S 2, Q 2: nine semaphores. Task 1 terminates task 2, for which a message lies with each number as its semaphore, that in each
/// state. By the bytes alone: a number that there is not signals nothing, a queue's is signalled as the others are.
fn every_semaphore_of_a_dropped_message(caller: Caller) {
    let mut random = Random::new(26);
    let mut watch = fenced();
    let configuration = vec![3, 2, 2, 0, 2, 1, 0, 1, 0, 0, 0, 1, 1, 1, 1];
    let script = Script { configuration, frames: Vec::new() };
    let memory = after(caller, &script, 0, &mut random);
    let regions = Regions::of(&rules::configuration_of(&memory).expect("accepted"));
    let (semaphores, event_waits) = (regions.semaphores..regions.waiting, PLANES + 2 * PLANE);
    assert_eq!(semaphores.len(), 9);
    for (number, state) in (0..=u8::MAX).flat_map(|number| (0..=u8::MAX).map(move |state| (number, state))) {
        let mut damaged = memory.clone();
        damaged.tables[COUNT] = 1;
        damaged.tables[regions.messages..][..4].copy_from_slice(&[2, 1, 3, number]);
        let mut expected = vec![0; 9];
        if let Some(place) = (1..=9).contains(&number).then(|| usize::from(number) - 1) {
            damaged.tables[semaphores.start + place] = state;
            damaged.tables[event_waits] = if state == 2 || state == 3 { 1 << (state - 1) } else { 0 };
            expected[place] = if state == 1 || state == 3 { 0 } else { 255 };
        } else if state > 0 {
            continue;
        }
        now([number.into(), state.into(), 0]);
        watch.feed(damaged.clone(), &[vec![0x0B, 2, 0, 0, 0]], &|| told(&script, 0, &memory, &damaged));
        assert_eq!(damaged.frame(&[0x0B, 2, 0, 0, 0]), 0);
        assert_eq!(damaged.tables[semaphores.clone()], expected, "semaphore {number} in state {state}");
        assert_eq!((damaged.tables[COUNT], damaged.tables[event_waits]), (0, 0), "semaphore {number} in state {state}");
    }
    assert_eq!(watch.counts.accepted[&0x0B], 9 * 256 + 247);
}

/// Every length of every block, from none to some bytes more than its size, for frames and for configurations.
fn every_length_of_every_block(caller: Caller) {
    let mut random = Random::new(24);
    let mut fences = Fences::new();
    let script = Generator::within(caller.limits(), 24).script(4..=4, 40);
    let memory = after(caller, &script, 30, &mut random);
    let tick: Frame = vec![0x10, 0, 0, 0, 0];
    for (block, size) in caller.sizes().into_iter().enumerate() {
        for length in 0..size + 4 {
            let mut cut = memory.clone();
            cut.blocks_mut()[block].resize(length, 0x5A);
            now([block as u64, length as u64, 0]);
            for side in [Side::Front, Side::Back] {
                let (mut fed, mut configured) = (cut.clone(), cut.clone());
                let fed_number = fences.feed(&mut fed, &tick, side);
                let configured_number = fences.configure(&mut configured, &script.configuration, side);
                if length < size {
                    assert_eq!((fed_number, configured_number), (MEMORY, MEMORY), "block {block} of {length}");
                    assert!(fed == cut && configured == cut, "block {block} of {length} was written with 11");
                } else {
                    assert_eq!((fed_number, configured_number), (0, 0), "block {block} of {length}");
                    assert_eq!(configured.blocks()[block][size..], cut.blocks()[block][size..], "block {block}");
                }
            }
        }
    }
}

/// Configurations over any memory: only the lengths count, and nothing of what was there before is left.
fn configurations_over_damaged_memory(caller: Caller) {
    let mut random = Random::new(25);
    let mut fences = Fences::new();
    for seed in 0..3000 {
        let script = Generator::within(caller.limits(), seed).script(1..=126, 0);
        let sizes = caller.sizes().map(|size| size + random.below(3));
        let mut memory = Lent::of(caller, sizes, || random.byte());
        now([seed, 0, 0]);
        assert_eq!(fences.configure(&mut memory, &script.configuration, Side::Back), 0, "seed {seed}");
        assert_eq!(memory.kept_frame(), script.configuration, "seed {seed}");
        assert_eq!(memory.timers[PART..][..11], [0; 11], "seed {seed}");
        let fresh = Executive::configure(&script.configuration).expect("accepted");
        assert_eq!(memory.items(fresh.configuration()), fresh.items(), "seed {seed}");
        assert_eq!(memory.answered(), fresh.answer(0, 0).bytes(), "seed {seed}");
    }
}

/// Writes the byte behind the slots.
fn written_behind(_: &[u8], blocks: Blocks) -> Number {
    let slots = &mut *blocks[2];
    unsafe { slots.as_mut_ptr().add(slots.len()).write_volatile(1) };
    0
}

#[test]
#[should_panic = "a byte beside a lent part was written"]
fn a_write_beside_a_block_is_noticed() {
    let mut memory = Lent::of(Caller::Controller, SIZES, || 0);
    Fences::new().call(written_behind, &mut memory, &[], Side::Front);
}

/// The closed pages are closed: a child that reads one byte too far dies of it.
#[test]
fn a_read_outside_a_block_is_noticed() {
    ["reads_before_a_block", "reads_behind_a_block"].into_iter().for_each(dies);
}

#[test]
#[ignore = "dies; run by a_read_outside_a_block_is_noticed"]
fn reads_before_a_block() {
    now(DYING);
    Fences::new().read_outside(Side::Front);
}

#[test]
#[ignore = "dies; run by a_read_outside_a_block_is_noticed"]
fn reads_behind_a_block() {
    now(DYING);
    Fences::new().read_outside(Side::Back);
}
