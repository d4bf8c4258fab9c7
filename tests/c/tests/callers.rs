//! The two callers side by side, over bytes of their own: a configuration that both accept starts the same state, and frames are
//! answered alike; one that only the module has no room for gets 27 there; one that nobody accepts gets the same number from both.

use std::collections::BTreeMap;

use c::caller::Caller;
use c::lent::{Lent, SIZES};
use c::rules::{self, Rule};
use c::tidy::unlike;
use plain_executive::coverage::Coverage;
use plain_executive::executive::Executive;
use plain_executive::generator::{largest, Generator, Script};
use plain_executive::limits::Limits;
use plain_executive::numbers::{Number, ABOVE_MODULE, CONFIGURATION, LENGTH, MEMORY};
use plain_executive::random::Random;

const TICK: [u8; 5] = [0x10, 0, 0, 0, 0];

/// Memory of a caller, somewhat longer than it has to be, with any bytes.
fn any_memory(caller: Caller, random: &mut Random) -> Lent {
    let sizes = caller.sizes().map(|size| size + random.below(3));
    Lent::of(caller, sizes, || random.byte())
}

// ---- sessions that both accept

/// Both callers after the same frames, and the other implementation.
struct Both {
    memories: [Lent; 2],
    other: Executive,
}

impl Both {
    fn begin(configuration: &[u8], random: &mut Random) -> Self {
        let memories = Caller::ALL.map(|caller| {
            let mut memory = any_memory(caller, random);
            assert_eq!(memory.configure(configuration), 0, "{caller:?}: {configuration:02X?}");
            memory
        });
        let mut other = Executive::configure_within(Limits::MODULE, configuration).expect("accepted");
        other.keep_history();
        Both { memories, other }
    }

    fn feed(&mut self, frame: &[u8], what: &str) -> Number {
        let answer = self.other.frame(frame);
        for memory in &mut self.memories {
            assert_eq!(memory.frame(frame), answer.refusal(), "{:?}, {what}", memory.caller);
            assert_eq!(memory.answered(), answer.bytes(), "{:?}, {what}", memory.caller);
        }
        answer.refusal()
    }

    /// The items are the other's, and the bytes of the parts each other's.
    fn compare(&self, configuration: &[u8], what: &str) {
        for memory in &self.memories {
            assert_eq!(memory.items(self.other.configuration()), self.other.items(), "{:?}, {what}", memory.caller);
        }
        let [controller, module] = &self.memories;
        assert_eq!(unlike(configuration, &self.other, controller, module), None, "{what}");
    }
}

/// How many frames were accepted and refused.
fn run_both(script: &Script, random: &mut Random, what: &str) -> [u64; 2] {
    let Script { configuration, frames } = script;
    let mut both = Both::begin(configuration, random);
    let [controller, module] = &both.memories;
    assert_eq!(controller.answered(), module.answered(), "{what}");
    both.compare(configuration, what);
    let mut counts = [0, 0];
    for (index, frame) in frames.iter().enumerate() {
        let what = format!("{what}, frame {index} of\n{}", String::from_utf8_lossy(&script.lines()));
        counts[usize::from(both.feed(frame, &what) != 0)] += 1;
        both.compare(configuration, &what);
    }
    counts
}

#[test]
fn frames_are_answered_alike() {
    let mut random = Random::new(71);
    let mut counts = [0, 0];
    for seed in 0..300_u64 {
        let tasks = [1, 2, 5, 9, 16][seed as usize % 5];
        let script = Generator::within(Limits::MODULE, seed).script(tasks..=tasks, 150);
        let met = run_both(&script, &mut random, &format!("seed {seed}"));
        counts = [counts[0] + met[0], counts[1] + met[1]];
    }
    assert!(counts[0] > 20_000 && counts[1] > 5000, "{counts:?} accepted and refused");
}

#[test]
fn frames_are_answered_alike_in_the_largest_memory_of_the_module() {
    let script = Generator::new(72).script_of(largest(Limits::MODULE), 1000);
    run_both(&script, &mut Random::new(72), "the largest");
}

/// A byte of either memory that is not the other's, unless it is free.
#[test]
fn a_byte_that_is_not_alike_is_noticed() {
    const FREE: (usize, usize) = (1, 421);
    let configuration = largest(Limits::MODULE);
    let Both { memories, other } = Both::begin(&configuration, &mut Random::new(73));
    for (block, place) in [(0, 6), (0, 173), (1, 5), (1, 69), (1, 420), FREE, (2, 4), (2, 259), (3, 4)] {
        for changed in 0..2 {
            let mut memories = memories.clone();
            memories[changed].blocks_mut()[block][place] ^= 1;
            let [controller, module] = &memories;
            let found = unlike(&configuration, &other, controller, module);
            assert_eq!(found.is_none(), (block, place) == FREE, "byte {place} of block {block}: {found:?}");
        }
    }
}

// ---- configurations of every kind

/// The number that a caller gives: the other implementation's by its limits. A refused configuration writes the answer alone.
fn configured(caller: Caller, frame: &[u8], random: &mut Random) -> Number {
    let mut memory = any_memory(caller, random);
    let before = memory.clone();
    let number = memory.configure(frame);
    match Executive::configure_within(caller.limits(), frame) {
        Ok(fresh) => {
            assert_eq!(number, 0, "{caller:?}: {frame:02X?}");
            assert_eq!(memory.answered(), fresh.answer(0, 0).bytes(), "{caller:?}: {frame:02X?}");
            assert_eq!(memory.items(fresh.configuration()), fresh.items(), "{caller:?}: {frame:02X?}");
        }
        Err(expected) => {
            assert_eq!(number, expected, "{caller:?}: {frame:02X?}");
            let mut written = before;
            written.answer[..5].copy_from_slice(&[4, expected, 0, 0, 0]);
            assert_eq!(memory, written, "{caller:?}: {frame:02X?}");
        }
    }
    number
}

#[test]
fn configurations_of_every_kind() {
    let mut random = Random::new(74);
    let mut generator = Generator::within(Limits::MODULE, 74);
    let mut coverage = Coverage::new();
    let mut met: BTreeMap<[Number; 2], u64> = BTreeMap::new();
    let mut check = |frame: &[u8]| {
        coverage.watch_configuration(frame);
        *met.entry(Caller::ALL.map(|caller| configured(caller, frame, &mut random))).or_default() += 1;
    };
    check(&largest(Limits::MODULE));
    for _ in 0..3000 {
        check(&generator.script(1..=16, 0).configuration);
        check(&generator.refused_configuration());
        check(&generator.configuration_above_module());
    }
    let kinds = [[0, 0], [0, ABOVE_MODULE], [LENGTH, LENGTH], [CONFIGURATION, CONFIGURATION]];
    assert!(met.keys().copied().eq(kinds), "of the controller and the module: {met:?}");
    let missing = coverage.missing_of_module();
    assert!(missing.is_empty(), "not reached: {missing:#?}");
}

// ---- one memory, and the other caller

/// Blocks that are long enough for both: what one caller left there is no memory of the other's.
#[test]
fn memory_of_one_caller_gives_11_to_the_other() {
    let mut random = Random::new(75);
    for seed in 0..100 {
        let script = Generator::within(Limits::MODULE, seed).script(1..=16, 30);
        for [caller, other] in [[Caller::Controller, Caller::Module], [Caller::Module, Caller::Controller]] {
            let mut memory = Lent::of(caller, SIZES, || random.byte());
            assert_eq!(memory.configure(&script.configuration), 0);
            for frame in &script.frames {
                memory.frame(frame);
            }
            memory.caller = other;
            let before = memory.clone();
            assert_eq!(rules::broken(&memory), Some(Rule::Marks), "seed {seed}");
            assert_eq!(memory.frame(&TICK), MEMORY, "seed {seed}");
            assert_eq!(memory, before, "seed {seed}");
        }
    }
}

/// The same blocks, configured by the module and then by the controller: the marks of both stand, and the module goes on with what the
/// controller left, as the controller does itself.
#[test]
fn memory_that_both_configured_is_of_both() {
    let mut random = Random::new(76);
    for seed in 0..100 {
        let script = Generator::within(Limits::MODULE, seed).script(1..=16, 30);
        let mut memory = Lent::of(Caller::Module, SIZES, || random.byte());
        for caller in [Caller::Module, Caller::Controller] {
            memory.caller = caller;
            assert_eq!(memory.configure(&script.configuration), 0);
        }
        let mut other = memory.clone();
        other.caller = Caller::Module;
        for frame in &script.frames {
            assert_eq!(other.frame(frame), memory.frame(frame), "seed {seed}");
            assert_eq!(other.blocks(), memory.blocks(), "seed {seed}");
        }
    }
}
