//! Document 02, W8, through the C functions: every timer of a session has as many turns as its tocks ask for, counted from the timers of
//! the lent memory. Other seeds, by the variable SEED, give other sessions.

use c::caller::Caller;
use c::compare::Feed;
use c::lent::{timer_row, Lent, Regions, PART, PLANES, TICKS};
use plain_executive::command::*;
use plain_executive::configuration::Configuration;
use plain_executive::generator::{prepared, Generator, Script};
use plain_executive::items::{Items, TimerItem};
use plain_executive::numbers::{Number, HAS_A_TIMER, NULL_TASK_RUNS};
use plain_executive::random::Random;
use plain_executive::semaphore::Semaphore;
use plain_executive::tasks::Block;
use plain_executive::tocks::Tocks;
use plain_executive::turns::{Ended, Followed, Turns};

c::for_each_caller!(
    no_timer_misses_a_turn,
    long_periods,
    no_turn_is_missed_where_the_clock_is_set_back,
    a_program_that_misses_turns_is_found,
    a_timer_that_stays_behind_its_end_is_found,
);

fn first_seed() -> u64 {
    let given = std::env::var("SEED").ok();
    given.map_or(0, |seed| seed.parse().expect("SEED is a number")) << 32
}

fn engine(memory: &mut Lent, frame: &[u8]) -> Number {
    memory.frame(frame)
}

/// Memory of a caller, and what watches its timers.
struct Watched {
    configuration: Configuration,
    memory: Lent,
    /// What the memory means.
    items: Items,
    turns: Turns,
}

impl Watched {
    fn configured(caller: Caller, frame: &[u8]) -> Self {
        let configuration = Configuration::read_within(caller.limits(), frame).expect("accepted");
        let mut memory = Lent::of(caller, caller.sizes(), || 0xA5);
        assert_eq!(memory.configure(frame), 0, "{frame:02X?}");
        let turns = Turns::fresh(&configuration);
        Watched { items: memory.items(&configuration), configuration, memory, turns }
    }

    /// The frame with its number and with the items before it.
    fn feed<'frame>(&mut self, frame: &'frame [u8], feed: Feed) -> Seen<'frame> {
        let number = feed(&mut self.memory, frame);
        let before = std::mem::replace(&mut self.items, self.memory.items(&self.configuration));
        self.turns.watch(frame, number, &before, &self.items);
        Seen { frame, number, before }
    }

    /// Turns of each timer, in the order of their starts.
    fn counted(&self) -> Vec<u64> {
        self.turns.timers().iter().map(|timer| timer.turns).collect()
    }
}

struct Seen<'frame> {
    frame: &'frame [u8],
    number: Number,
    before: Items,
}

impl Seen<'_> {
    fn accepts(&self, code: u8) -> bool {
        self.number == 0 && self.frame[0] == code
    }

    fn starts(&self) -> bool {
        self.number == 0 && starts_a_timer(self.frame[0])
    }

    fn had(&self, task: u8, block: Block) -> bool {
        self.before.tasks[usize::from(task) - 1].blocks.has(block)
    }
}

// ---- random sessions

/// Something that frames meet, how often at least, and how often it is with this frame and the timers behind it.
type OfFrames = (&'static str, usize, fn(&Seen, &[Followed]) -> usize);

const FRAMES: [OfFrames; 14] = [
    ("turns", 40_000, |_, timers| having(timers, |_| true)),
    ("turns of period 1", 15_000, |_, timers| having(timers, |timer| timer.value == Tocks::Cyclic(1))),
    ("turns of cyclic season timers", 15_000, |_, timers| {
        having(timers, |timer| timer.code == SEASON_TIMER && timer.is_cyclic())
    }),
    ("turns of cyclic delays", 4000, |_, timers| having(timers, |timer| timer.code == DELAY && timer.is_cyclic())),
    ("turns of one-shots", 500, |_, timers| having(timers, |timer| !timer.is_cyclic())),
    ("turns of suspended tasks' timers", 10_000, |seen, timers| {
        having(timers, |timer| seen.had(timer.task, Block::Suspended))
    }),
    ("turns of idle tasks' timers", 5000, |seen, timers| having(timers, |timer| seen.had(timer.task, Block::Idle))),
    ("turns that wake a task", 300, |seen, timers| {
        let waits = |number: u8| seen.before.semaphores[usize::from(number) - 1].is_waiting();
        having(timers, |timer| waits(timer.semaphore))
    }),
    ("tocks with several turns", 10_000, |_, timers| usize::from(having(timers, |_| true) > 1)),
    ("tocks with several turns on one semaphore", 3500, |_, timers| {
        let on = |number: u8| having(timers, |timer| timer.semaphore == number);
        usize::from(timers.iter().any(|timer| on(timer.semaphore) > 1))
    }),
    ("another started behind a one-shot's turn", 150, |seen, timers| match timers.split_last() {
        Some((last, others)) if seen.starts() => {
            let first = others.iter().rfind(|timer| timer.is_of(last.task, last.semaphore));
            usize::from(first.is_some_and(|first| first.ended == Some(Ended::Spent)))
        }
        _ => 0,
    }),
    ("second starts refused with 24", 2000, |seen, _| usize::from(seen.number == HAS_A_TIMER)),
    ("refused while one runs that had turns", 8000, |seen, timers| {
        usize::from(seen.number != 0 && timers.iter().any(has_had_turns))
    }),
    ("purges that leave one that had turns", 500, |seen, timers| {
        usize::from(seen.accepts(PURGE) && timers.iter().any(has_had_turns))
    }),
];

fn having(timers: &[Followed], fits: impl Fn(&Followed) -> bool) -> usize {
    timers.iter().filter(|timer| timer.has_turn && fits(timer)).count()
}

fn has_had_turns(timer: &Followed) -> bool {
    timer.runs() && timer.turns > 0
}

/// Timers of a kind, and how many of them there are at least.
type OfTimers = (&'static str, usize, fn(&Followed) -> bool);

const TIMERS: [OfTimers; 5] = [
    ("timers", 2000, |_| true),
    ("cyclic timers with 30 turns or more", 400, |timer| timer.turns >= 30),
    ("cyclic timers purged behind turns", 250, |timer| timer.ended == Some(Ended::Purged) && timer.turns > 1),
    ("cyclic timers terminated behind turns", 200, |timer| timer.ended == Some(Ended::Terminated) && timer.turns > 1),
    ("season timers of more tocks than 16 bits have", 80, |timer| timer.value.first() > 0x8000),
];

/// With many cyclic timers, and the prepared ones that the caller has room for.
fn sessions(caller: Caller) -> impl Iterator<Item = (String, Script)> {
    let beats = (first_seed()..first_seed() + 200)
        .map(move |seed| (format!("seed {seed}"), Generator::within(caller.limits(), seed).beats(400)));
    let fits = move |script: &Script| Configuration::read_within(caller.limits(), &script.configuration).is_ok();
    let prepared = prepared().into_iter().filter(fits).enumerate();
    beats.chain(prepared.map(|(place, script)| (format!("prepared session {place}"), script)))
}

/// After every frame, of every timer that was ever started.
fn no_timer_misses_a_turn(caller: Caller) {
    let mut met = Met::default();
    for (name, script) in sessions(caller) {
        let mut watched = Watched::configured(caller, &script.configuration);
        for (index, frame) in script.frames.iter().enumerate() {
            let seen = watched.feed(frame, &engine);
            let what = || format!("{name}, frame {index} of\n{}", String::from_utf8_lossy(&script.lines()));
            assert_eq!(watched.turns.wrong(), None, "{}", what());
            assert!(watched.turns.follows_all(&watched.items), "{}: {:?}", what(), watched.items.timers);
            met.frame(&seen, watched.turns.timers());
        }
        met.session(watched.turns.timers());
    }
    met.compare();
}

#[derive(Default)]
struct Met {
    frames: [usize; FRAMES.len()],
    timers: [usize; TIMERS.len()],
}

impl Met {
    fn frame(&mut self, seen: &Seen, timers: &[Followed]) {
        self.frames.iter_mut().zip(FRAMES).for_each(|(met, (_, _, count))| *met += count(seen, timers));
    }

    fn session(&mut self, timers: &[Followed]) {
        let count = |fits: fn(&Followed) -> bool| timers.iter().filter(|timer| fits(timer)).count();
        self.timers.iter_mut().zip(TIMERS).for_each(|(met, (_, _, fits))| *met += count(fits));
    }

    /// With what is to be met at least.
    fn compare(&self) {
        let frames = FRAMES.iter().zip(self.frames).map(|((name, least, _), met)| (name, least, met));
        let timers = TIMERS.iter().zip(self.timers).map(|((name, least, _), met)| (name, least, met));
        for (name, &least, met) in frames.chain(timers) {
            println!("{met:>9}  {name}");
            assert!(met >= least || first_seed() != 0, "{name}: {met}, at least {least}");
        }
    }
}

// ---- long times

/// Two tasks, six named semaphores, eight timers, a tick a tock.
const CONFIGURATION: [u8; 10] = [2, 6, 0, 8, 0, 1, 0, 125, 0, 0];

fn timer(task: u8, semaphore: u8, tocks: i16) -> Vec<u8> {
    [vec![TIMER, task, semaphore], tocks.to_be_bytes().to_vec()].concat()
}

fn season(task: u8, semaphore: u8, tocks: i32) -> Vec<u8> {
    [vec![SEASON_TIMER, task, semaphore], tocks.to_be_bytes().to_vec()].concat()
}

fn tick() -> Vec<u8> {
    vec![TICK, 0, 0, 0, 0]
}

/// At the ends of 16 bits and beyond, in 200,000 tocks.
fn long_periods(caller: Caller) {
    let mut watched = Watched::configured(caller, &CONFIGURATION);
    let starts = [
        timer(1, 1, -32_767),
        timer(1, 2, i16::MIN),
        season(1, 3, -32_769),
        season(1, 4, -65_535),
        season(1, 5, -65_536),
        season(1, 6, -100_000),
        timer(2, 1, 32_767),
        season(2, 2, 199_999),
    ];
    starts.iter().for_each(|frame| assert_eq!(watched.feed(frame, &engine).number, 0));
    for tock in 1..=200_000 {
        watched.feed(&tick(), &engine);
        assert_eq!(watched.turns.wrong(), None, "tock {tock}");
    }
    assert_eq!(watched.counted(), [6, 6, 6, 3, 3, 2, 1, 1]);
}

/// So many tocks later: the memory is what a session of as many more would have left.
fn later(watched: &mut Watched, tocks: u32) {
    let memory = &mut watched.memory;
    let places = (1..=usize::from(memory.timers[PART])).map(|row| (row, 2)).chain([(0, 2), (0, 6)]);
    for (row, place) in places {
        let time = memory.of_timers(row, place).checked_add(tocks).expect("a time of four bytes");
        memory.timers[timer_row(row) + place..][..4].copy_from_slice(&time.to_le_bytes());
    }
    assert_eq!(watched.memory.items(&watched.configuration), watched.items);
}

/// The clock's four bytes end some tocks behind the starts.
fn no_turn_is_missed_where_the_clock_is_set_back(caller: Caller) {
    let mut random = Random::new(first_seed() + 8);
    let mut turns = 0;
    for turn in 0..200 {
        let mut watched = Watched::configured(caller, &CONFIGURATION);
        for semaphore in 1..=6 {
            let tocks = random.pick(&[-1, -2, -3, -5, -9, 1, 8]);
            let frame =
                if random.percent(50) { timer(1, semaphore, tocks) } else { season(1, semaphore, tocks.into()) };
            assert_eq!(watched.feed(&frame, &engine).number, 0);
        }
        let room = 9 + random.below(30) as u32;
        later(&mut watched, u32::MAX - room);
        for tock in 0..60 {
            watched.feed(&tick(), &engine);
            assert_eq!(watched.turns.wrong(), None, "turn {turn}, tock {tock}, {room} before the end");
        }
        assert!(watched.memory.of_timers(0, 2) < 60, "turn {turn}: the clock is at {}", watched.memory.of_timers(0, 2));
        turns += watched.counted().iter().sum::<u64>();
    }
    assert!(turns > 10_000, "{turns}");
}

// ---- the watching itself

/// A program that is not right about the turns, and what is found: the first timer that has not its turns has fewer, or more.
type Fault = (&'static str, Found, fn(&mut Lent, &[u8], &Configuration) -> Number);

#[derive(Clone, Copy, Debug, PartialEq, Eq)]
enum Found {
    Fewer,
    More,
}

/// Where the plane of event wait lies among the planes.
const EVENT_WAIT: usize = 32;

const FAULTS: [Fault; 13] = [
    ("a cyclic timer goes in again a tock late", Found::Fewer, |memory, frame, configuration| {
        let number = memory.frame(frame);
        if code(frame) == TICK && last_has_its_period_left(memory, configuration) {
            add(memory, memory.timers[PART].into(), 2, 1);
        }
        number
    }),
    ("one of several due timers is dropped", Found::Fewer, |memory, frame, configuration| {
        let due = memory.items(configuration).timers.iter().filter(is_due).count();
        let number = memory.frame(frame);
        if code(frame) == TICK && due > 1 && last_has_its_period_left(memory, configuration) {
            memory.timers[PART] -= 1;
        }
        number
    }),
    ("a due timer does not signal", Found::Fewer, |memory, frame, configuration| {
        let before = memory.items(configuration);
        let number = memory.frame(frame);
        let pending = |timer: &&TimerItem| before.semaphores[usize::from(timer.semaphore) - 1] == Semaphore::Pending;
        if let (TICK, Some(timer)) = (code(frame), before.timers.iter().filter(is_due).find(pending)) {
            memory.tables[Regions::of(configuration).semaphores + usize::from(timer.semaphore) - 1] = 0;
        }
        number
    }),
    ("a turn leaves its waiter waiting", Found::Fewer, |memory, frame, configuration| {
        let before = memory.items(configuration);
        let number = memory.frame(frame);
        let waiter = before.timers.iter().filter(is_due).find_map(|timer| {
            match before.semaphores[usize::from(timer.semaphore) - 1] {
                Semaphore::Waiting(task) => Some(usize::from(task) - 1),
                _ => None,
            }
        });
        if let (TICK, 0, Some(place)) = (code(frame), memory.items(configuration).ticks, waiter) {
            memory.tables[PLANES + EVENT_WAIT + place / 8] |= 1 << (place % 8);
        }
        number
    }),
    // of several ticks a tock it would also begin tocks at another tick, and give a timer that starts in between a turn too many
    ("the one tick of a tock is refused while no task runs", Found::Fewer, |memory, frame, configuration| {
        let runs = memory.items(configuration).tasks.iter().any(|task| task.blocks.is_empty());
        if code(frame) == TICK && !runs && configuration.ticks_per_tock == 1 {
            return NULL_TASK_RUNS;
        }
        memory.frame(frame)
    }),
    ("a due one-shot is not removed", Found::Fewer, |memory, frame, configuration| {
        let before = memory.items(configuration);
        let number = memory.frame(frame);
        let one_shot = before.timers.iter().filter(is_due).find(|timer| timer.period == 0);
        let passed = memory.items(configuration).ticks == 0;
        if let (TICK, true, Some(timer)) = (code(frame), passed, one_shot) {
            put_first(memory, TimerItem { tocks_left: 0, ..*timer });
        }
        number
    }),
    ("a one-shot goes in again", Found::More, |memory, frame, configuration| {
        let number = memory.frame(frame);
        let timers = memory.items(configuration).timers;
        for (row, timer) in (1..).zip(timers).filter(|(_, timer)| timer.period == 0) {
            add(memory, row, 6, timer.tocks_left as u32);
        }
        number
    }),
    ("a second start takes the place of the first", Found::Fewer, |memory, frame, _| {
        let number = memory.frame(frame);
        if number == HAS_A_TIMER {
            memory.frame(&[PURGE, frame[1], frame[2], 0, 1]);
            return memory.frame(frame);
        }
        number
    }),
    ("a purge of one purges all", Found::Fewer, |memory, frame, _| match *frame {
        [PURGE, a, b, high, _] => memory.frame(&[PURGE, a, b, high, 0]),
        _ => memory.frame(frame),
    }),
    ("an execute purges", Found::Fewer, |memory, frame, _| {
        let number = memory.frame(frame);
        if number == 0 && frame[0] == EXECUTE {
            memory.frame(&[PURGE, frame[1], 0, 0, 0]);
        }
        number
    }),
    ("a tock passes with every tick", Found::More, |memory, frame, _| {
        if code(frame) == TICK {
            memory.tables[TICKS] = 1;
        }
        memory.frame(frame)
    }),
    ("a start sets the ticks back", Found::Fewer, |memory, frame, configuration| {
        let number = memory.frame(frame);
        if number == 0 && starts_a_timer(frame[0]) {
            memory.tables[TICKS] = configuration.ticks_per_tock;
        }
        number
    }),
    ("a season timer takes the lower two bytes", Found::More, |memory, frame, _| match *frame {
        [SEASON_TIMER, a, b, _, _, high, low] => memory.frame(&[TIMER, a, b, high, low]),
        _ => memory.frame(frame),
    }),
];

fn code(frame: &[u8]) -> u8 {
    frame.first().copied().unwrap_or(0)
}

fn is_due(timer: &&TimerItem) -> bool {
    timer.tocks_left == 1
}

/// As where a cyclic timer just went in again.
fn last_has_its_period_left(memory: &Lent, configuration: &Configuration) -> bool {
    let timers = memory.items(configuration).timers;
    timers.last().is_some_and(|timer| timer.tocks_left == u64::from(timer.period))
}

/// Into the first row.
fn put_first(memory: &mut Lent, timer: TimerItem) {
    let rows = timer_row(1)..timer_row(1 + usize::from(memory.timers[PART]));
    memory.timers.copy_within(rows, timer_row(2));
    let row = timer.written(memory.of_timers(0, 2));
    memory.timers[timer_row(1)..timer_row(2)].copy_from_slice(&row);
    memory.timers[PART] += 1;
}

/// To four bytes of a row.
fn add(memory: &mut Lent, row: usize, place: usize, more: u32) {
    let value = memory.of_timers(row, place).wrapping_add(more);
    memory.timers[timer_row(row) + place..][..4].copy_from_slice(&value.to_le_bytes());
}

/// The first timer of the session that has not its turns.
fn found(caller: Caller, script: &Script, feed: Feed) -> Option<Followed> {
    let mut watched = Watched::configured(caller, &script.configuration);
    script.frames.iter().find_map(|frame| {
        watched.feed(frame, feed);
        watched.turns.wrong().copied()
    })
}

/// By the turns alone, in many of the sessions.
fn a_program_that_misses_turns_is_found(caller: Caller) {
    let scripts: Vec<Script> = sessions(caller).take(40).map(|(_, script)| script).collect();
    for (name, expected, fault) in FAULTS {
        let mut met = 0;
        for script in &scripts {
            let configuration = Configuration::read(&script.configuration).expect("accepted");
            let faulty = |memory: &mut Lent, frame: &[u8]| fault(memory, frame, &configuration);
            if let Some(timer) = found(caller, script, &faulty) {
                let what = if timer.turns < timer.asked_for() { Found::Fewer } else { Found::More };
                assert_eq!(what, expected, "{name}: {timer:?}");
                met += 1;
            }
        }
        println!("{met} of {}: {name}", scripts.len());
        assert!(met >= 5, "{name}: found in {met} of {}", scripts.len());
    }
}

/// Its turns are those of no timer that is followed. So are those of one that is there and was not started.
fn a_timer_that_stays_behind_its_end_is_found(caller: Caller) {
    let stays = |memory: &mut Lent, frame: &[u8]| {
        let timers = memory.timers.clone();
        let number = memory.frame(frame);
        memory.timers = timers;
        number
    };
    for end in [vec![TERMINATE, 2, 0, 0, 0], vec![PURGE, 2, 0, 0, 0]] {
        for (feed, expected) in [(&engine as Feed, true), (&stays, false)] {
            let mut watched = Watched::configured(caller, &CONFIGURATION);
            watched.feed(&timer(2, 1, -1), &engine);
            assert!(watched.turns.follows_all(&watched.items));
            assert_eq!(watched.feed(&end, feed).number, 0);
            assert_eq!(watched.turns.follows_all(&watched.items), expected, "{end:02X?}");
        }
    }
}
