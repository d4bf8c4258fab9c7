//! Random sessions through the C functions, against the other implementation: every answer, every number, and after every
//! frame every item of the lent memory. Other seeds, by the variable SEED, give other sessions.

use c::caller::Caller;
use c::compare::{compare, difference, shortened, Feed};
use c::lent::{slot, timer_row, Lent, Regions, COUNT, FRAME, PART, PLANES, TICKS};
use plain_executive::configuration::Configuration;
use plain_executive::coverage::Coverage;
use plain_executive::executive::Executive;
use plain_executive::generator::{prepared, Generator, Script};
use plain_executive::numbers::{Number, MEMORY};
use plain_executive::random::Random;
use plain_executive::session;

const TASKS: [u8; 5] = [1, 2, 5, 20, 126];

c::for_each_caller!(
    sessions_of_every_size,
    long_sessions,
    refused_configurations_write_the_answer_alone,
    every_item_is_compared,
    numbers_strange_and_promised_bytes_and_refused_frames_are_compared,
    a_difference_comes_as_a_short_session,
    a_short_block_gives_11_before_all_else,
);

/// Situations that the module has no room for.
const TOO_LARGE: [&str; 3] = ["answers: task 126 runs", "dropped: 64 tasks freed", "settling: 90 reissues or more"];

fn first_seed() -> u64 {
    let given = std::env::var("SEED").ok();
    given.map_or(0, |seed| seed.parse().expect("SEED is a number")) << 32
}

fn engine(memory: &mut Lent, frame: &[u8]) -> Number {
    memory.frame(frame)
}

/// The prepared ones that the caller has room for, and random sessions, some of them with many cyclic timers.
fn sessions(caller: Caller) -> impl Iterator<Item = (String, Script)> {
    let fits = move |script: &Script| Configuration::read_within(caller.limits(), &script.configuration).is_ok();
    let prepared = prepared().into_iter().filter(fits).enumerate();
    let prepared = prepared.map(|(place, script)| (format!("prepared session {place}"), script));
    let random = (first_seed()..first_seed() + 750).map(move |seed| {
        let tasks = TASKS[seed as usize % TASKS.len()];
        (format!("seed {seed}"), Generator::within(caller.limits(), seed).script(tasks..=tasks, 300))
    });
    let beats = (first_seed()..first_seed() + 60)
        .map(move |seed| (format!("beats, seed {seed}"), Generator::within(caller.limits(), seed).beats(300)));
    prepared.chain(random).chain(beats)
}

fn sessions_of_every_size(caller: Caller) {
    let mut coverage = Coverage::new();
    for (name, script) in sessions(caller) {
        compare(caller, &script, &engine, &name);
        coverage.watch_script(&script);
    }
    let expected: &[&str] = if caller == Caller::Module { &TOO_LARGE } else { &[] };
    let missing = coverage.missing_of_frames();
    assert!(missing == expected || first_seed() != 0, "not reached: {missing:#?}");
}

fn long_sessions(caller: Caller) {
    for seed in first_seed() + 1000..first_seed() + 1004 {
        let script = Generator::within(caller.limits(), seed).script(3..=12, 20_000);
        compare(caller, &script, &engine, &format!("seed {seed}"));
    }
}

fn refused_configurations_write_the_answer_alone(caller: Caller) {
    let mut random = Random::new(9);
    let mut generator = Generator::new(9);
    for turn in 0..5000 {
        let frame = generator.refused_configuration();
        let number: Number = Executive::configure(&frame).expect_err("refused");
        let mut memory = Lent::of(caller, caller.sizes(), || random.byte());
        let before = memory.clone();
        assert_eq!(memory.configure(&frame), number, "turn {turn}: {frame:02X?}");
        assert_eq!(memory.answered(), [number, 0, 0, 0], "turn {turn}: {frame:02X?}");
        assert_eq!(Lent { answer: before.answer.clone(), ..memory }, before, "turn {turn}: {frame:02X?}");
    }
}

// ---- the comparison itself

/// T 3, S 2, Q 1, R 2, G 2, K 3; width 2 and depth 2; a pair. Before its ticks there is one of everything: a timer, a message, entries,
/// an open enqueue. It ends with a refused frame.
const EVERYTHING: &str = "030201020203007D00000002020103
0E00010009
0402000001
0801000000AABB
0801000000CCDD
0801000000EEFF
0701000000
08010000001122
1000000000
1000000000
0700000000";

fn everything() -> Script {
    let frame = |digits: &str| plain_executive::line::read(digits.as_bytes()).expect("a line");
    let mut frames = EVERYTHING.lines().map(frame);
    Script { configuration: frames.next().expect("a configuration"), frames: frames.collect() }
}

/// What a byte that is changed is called in the difference.
type Fault = (&'static str, fn(&mut Lent, &Regions));

const FAULTS: [Fault; 25] = [
    ("the ticks", |memory, _| memory.tables[TICKS] = memory.tables[TICKS] % 3 + 1),
    ("the blocks of task 2", |memory, _| memory.tables[PLANES] ^= 2),
    ("the outcome of task 3", |memory, at| memory.tables[at.records + 12] ^= 1),
    ("the slot of task 2", |memory, _| memory.slots[slot(1) + 15] ^= 0x80),
    ("the request of task 2", |memory, at| memory.tables[at.records + 6 + 4] ^= 1),
    ("the request of task 1", |memory, at| memory.tables[at.waiting] ^= 1),
    ("semaphore 2", |memory, at| memory.tables[at.semaphores + 1] ^= 255),
    ("the mailbox of task 2", |memory, at| memory.tables[at.messages + 3] ^= 1),
    ("the mailbox of task 2", |memory, _| memory.tables[COUNT] = 0),
    ("queue 1", |memory, at| memory.tables[at.entries] ^= 1),
    ("queue 1", |memory, at| memory.tables[at.rings + 1] ^= 3),
    ("queue 1", |memory, at| memory.tables[at.rings] ^= 1),
    ("timer 1", |memory, _| memory.timers[timer_row(0) + 2] ^= 1),
    ("timer 1", |memory, _| memory.timers[timer_row(0) + 6] = 200),
    ("timer 1", |memory, _| memory.timers[timer_row(1)] ^= 3),
    ("timer 1", |memory, _| memory.timers[timer_row(1) + 1] ^= 3),
    ("timer 1", |memory, _| memory.timers[timer_row(1) + 2] ^= 1),
    ("timer 1", |memory, _| memory.timers[timer_row(1) + 5] ^= 0x80),
    ("timer 1", |memory, _| memory.timers[timer_row(1) + 6] ^= 1),
    ("timer 1", |memory, _| memory.timers[timer_row(1) + 9] ^= 0x80),
    ("timers", |memory, _| memory.timers[PART] = 0),
    ("the config block", |memory, _| memory.config[FRAME + 9] ^= 1),
    ("the config block", |memory, _| memory.config[FRAME + 14] ^= 1),
    ("the config block", |memory, _| memory.config[PART + 1] -= 2),
    ("the answer", |memory, _| memory.answer[3] ^= 1),
];

fn every_item_is_compared(caller: Caller) {
    let script = everything();
    let configuration = Configuration::read(&script.configuration).expect("accepted");
    assert!(difference(caller, &script, &engine).is_none(), "{:?}", difference(caller, &script, &engine));
    for (name, fault) in FAULTS {
        let faulty = |memory: &mut Lent, frame: &[u8]| {
            let number = memory.frame(frame);
            if frame[0] == 0x10 {
                fault(memory, &Regions::of(&configuration));
            }
            number
        };
        let found = difference(caller, &script, &faulty).unwrap_or_else(|| panic!("{name}: no difference"));
        assert!(found.what.starts_with(name), "{name}: {found:?}");
    }
}

fn numbers_strange_and_promised_bytes_and_refused_frames_are_compared(caller: Caller) {
    let faults: [(&str, Feed); 4] = [
        ("the number", &|memory, frame| if memory.frame(frame) == 7 { 6 } else { 0 }),
        ("the memory holds what the program never writes", &|memory, frame| {
            let number = memory.frame(frame);
            memory.tables[PLANES] |= 0x10;
            number
        }),
        ("byte 73 of tables: 01, promised is 00", &|memory, frame| {
            let number = memory.frame(frame);
            memory.tables[73] = 1; // the last of an outcome with one number
            number
        }),
        ("a refused frame wrote", &|memory, frame| {
            let number = memory.frame(frame);
            memory.timers[memory.caller.sizes()[3] - 5] ^= u8::from(number != 0);
            number
        }),
    ];
    for (name, faulty) in faults {
        let found = difference(caller, &everything(), faulty).unwrap_or_else(|| panic!("{name}: no difference"));
        assert!(found.what.starts_with(name), "{name}: {found:?}");
    }
}

/// A program that loses a bit of the entries that it hands out: the session that shows it is short, and replays.
fn a_difference_comes_as_a_short_session(caller: Caller) {
    let faulty = |memory: &mut Lent, frame: &[u8]| {
        let number = memory.frame(frame);
        if memory.answer[4] == 3 {
            memory.slots[slot(usize::from(memory.answer[2]) - 1)] &= 0x7F;
            memory.answer[5] &= 0x7F;
        }
        number
    };
    let script = Generator::new(1).script_of(everything().configuration, 2000);
    let found = difference(caller, &script, &faulty).expect("a difference");
    let short = shortened(caller, &script, &faulty);
    assert_eq!(short.frames.len(), 2, "{} frames, from {}", short.frames.len(), found.frames);
    let answers = session::run(&short.lines());
    assert_eq!(session::lines(&answers).count(), 3);
    let told = std::panic::catch_unwind(|| compare(caller, &script, &faulty, "faulty")).expect_err("a panic");
    let told = told.downcast::<String>().expect("a text");
    assert!(told.ends_with(&String::from_utf8_lossy(&short.lines()).into_owned()), "{told}");
    assert!(told.starts_with("faulty, with the last of these 2 frames (0 too long for a line): the answer"), "{told}");
}

fn a_short_block_gives_11_before_all_else(caller: Caller) {
    for short in 0..5 {
        let mut sizes = caller.sizes();
        sizes[short] -= 1;
        let mut memory = Lent::of(caller, sizes, || 0);
        assert_eq!((memory.configure(&[]), memory.frame(&[])), (MEMORY, MEMORY), "block {short}");
    }
    let mut memory = Lent::of(caller, caller.sizes(), || 0);
    assert_eq!((memory.configure(&[]), memory.frame(&[])), (2, MEMORY));
}
