//! Document 02, W11, through the C function: a free start beside lists of timers, against the other implementation's rows and rests.
//! Other seeds, by the variable SEED, give other lists.

use std::ops::Add;
use std::ptr;

use c::caller::Caller;
use c::fence::{dies, now, Side, DYING, EDGES};
use c::lent::Lent;
use c::starts::lists::{self, REFUSED};
use c::starts::{engine, free_start, mcx11_free_start, right, wrong};
use c::starts::{Case, Counts, Cycle, Exported, Fenced, Program};
use plain_executive::command::{TICK, TIMER};
use plain_executive::configuration::Configuration;
use plain_executive::numbers::CYCLES;
use plain_executive::random::Random;
use plain_executive::turns::Turns;

c::for_each_caller!(timers_of_sessions);

fn first_seed() -> u64 {
    let given = std::env::var("SEED").ok();
    given.map_or(0, |seed| seed.parse().expect("SEED is a number")) << 32
}

// ---- lists

/// What is answered for these lists: no start is above 255, for the reason that `wrong` gives.
fn compare(what: &str, cases: &[Case], program: Program) -> Counts {
    cases.iter().for_each(|case| assert_eq!(case.difference(program), None));
    let counts = cases.iter().map(Case::counts).fold(Counts::default(), Counts::add);
    println!("{what}: {} lists, {counts:?}", cases.len());
    assert!(counts.largest < 256, "{counts:?}");
    counts
}

/// Nothing is refused, and what there should be often is.
fn assert_often(counts: Counts, [found, above_0, none, together]: [usize; 4]) {
    assert_eq!(counts.refused, 0);
    assert!(counts.found > found && counts.above_0 > above_0, "{counts:?}");
    assert!(counts.none > none && counts.together >= together, "{counts:?}");
}

#[test]
fn every_timer_with_a_small_period() {
    let counts = compare("one timer", &lists::single(), &mut engine);
    assert_often(counts, [30_000, 10_000, 50_000, 0]);
}

#[test]
fn every_two_timers_with_small_periods_and_starts() {
    let counts = compare("two timers", &lists::pairs(), &mut engine);
    assert_often(counts, [13_000, 6000, 59_000, 2000]);
}

#[test]
fn random_lists_with_short_periods() {
    let counts = compare("short periods", &lists::short(first_seed() + 1, 6000), &mut engine);
    assert_often(counts, [20_000, 6000, 20_000, 3000]);
}

#[test]
fn random_lists_with_periods_of_up_to_32768() {
    let counts = compare("long periods", &lists::long(first_seed() + 2, 600), &mut engine);
    assert_often(counts, [2000, 400, 2000, 200]);
}

#[test]
fn timers_that_take_all_starts_and_all_but_one() {
    let taken = compare("all taken", &lists::all_taken(first_seed() + 3), &mut engine);
    let but_one = compare("all but one taken", &lists::all_but_one_taken(first_seed() + 4), &mut engine);
    assert_eq!([taken.found, taken.none, taken.together], [0, 234, 216]);
    assert_eq!([but_one.found, but_one.none], [1548, 0]);
    assert_eq!(but_one.largest, 255);
}

#[test]
fn more_than_eight_timers_and_periods_outside_give_31() {
    let within = compare("within", &lists::within(first_seed() + 5), &mut engine);
    assert_eq!([within.found + within.none, within.refused], [270, 0]);
    for ((what, list), refused) in REFUSED.into_iter().zip([81, 3240, 55]) {
        let counts = compare(what, &list(first_seed() + 6), &mut engine);
        assert_eq!([counts.found, counts.none, counts.refused], [0, 0, refused]);
    }
}

/// Where there are no timers, the list may have no address.
#[test]
fn no_list_at_all() {
    let given = |period: u32| {
        let mut written = 7;
        let number = unsafe { mcx11_free_start(ptr::null(), 0, period, &mut written) };
        (number, written)
    };
    assert_eq!([1, 7, 32_768].map(given), [(0, 0); 3]);
    assert_eq!([0, 32_769, u32::MAX].map(given), [(CYCLES, 7); 3]);
}

/// Start and period of each timer, the new period, and the start.
type Known = (&'static [(u32, u32)], u32, Option<u32>);

/// By hand.
const KNOWN: [Known; 12] = [
    (&[], 32_768, Some(0)),
    (&[(0, 1)], 32_768, None),
    (&[(0, 32_768)], 32_768, Some(1)),
    (&[(0, 32_768)], 32_767, None),
    (&[(32_768, 32_768)], 32_768, Some(1)),
    (&[(0, 40), (10, 60)], 100, Some(1)),
    (&[(0, 40), (10, 60), (1, 10)], 100, Some(2)),
    (&[(2, 3), (0, 3), (1, 3)], 3, None),
    (&[(2, 3), (0, 3), (1, 3)], 32_768, None),
    (&[(u32::MAX, 3)], 3, Some(1)),
    (&[(u32::MAX, 15), (u32::MAX - 1, 15)], 15, Some(1)),
    (&[(0, 2), (1, 4), (3, 8), (7, 16), (15, 32), (31, 64), (63, 128), (127, 256)], 32_768, Some(255)),
];

#[test]
fn known_ones() {
    for (timers, period, start) in KNOWN {
        let mut list: Vec<Cycle> = timers.iter().map(|&(start, period)| Cycle { start, period }).collect();
        assert_eq!(free_start(&mut list, period), Ok(start), "{timers:?}, period {period}");
    }
}

// ---- the comparison itself

/// Each wrong program is found in some of the lists, and one that is right in none.
#[test]
fn a_wrong_program_is_found() {
    let seed = first_seed();
    let random = [lists::short(seed + 1, 300), lists::long(seed + 2, 20)];
    let taken = [lists::all_taken(seed + 3), lists::all_but_one_taken(seed + 4), lists::within(seed + 5)];
    let within = [lists::single(), lists::pairs()].into_iter().chain(random).chain(taken).flatten();
    let cases: Vec<Case> = within.chain(REFUSED.into_iter().flat_map(|(_, list)| list(seed + 6))).collect();
    let found = |program: Program| cases.iter().filter(|case| case.difference(program).is_some()).count();
    assert_eq!(found(&mut right), 0);
    for (name, mut program) in wrong() {
        let met = found(&mut program);
        println!("{met} of {}: {name}", cases.len());
        assert!(met > 0, "{name}");
    }
}

// ---- closed pages

/// Directly behind and directly before a closed page, and four bytes from it.
#[test]
fn lists_between_closed_pages() {
    let seed = first_seed() + 7;
    let within = [lists::within(seed), lists::short(seed, 100), lists::all_but_one_taken(seed)].into_iter().flatten();
    let refused = REFUSED.into_iter().flat_map(|(_, list)| list(seed));
    let (short, long): (Vec<Case>, Vec<Case>) = within.chain(refused).partition(|case| case.timers() <= 16);
    for (cases, most, least) in [(short, 16, [1500, 300, 3336]), (long, 65_544, [0, 0, 40])] {
        let mut fenced = Fenced::new(most);
        for edge in EDGES {
            let mut engine = |timers: &mut [Cycle], period: u32, written: &mut u32| {
                now([edge.1.into(), timers.len() as u64, period.into()]);
                fenced.call(mcx11_free_start, edge, timers, period, written)
            };
            let Counts { found, none, refused, .. } = compare(&format!("{edge:?}"), &cases, &mut engine);
            assert!(found >= least[0] && none >= least[1] && refused == least[2], "{found}, {none}, {refused}");
        }
    }
}

/// A call of it with three timers.
fn call_fenced(function: Exported, side: Side) {
    now(DYING);
    let list = [3, 4, 5].map(|period| Cycle { start: 1, period });
    Fenced::new(3).call(function, (side, false), &list, 2, &mut 0);
}

unsafe extern "C" fn reads_before(timers: *const Cycle, _: usize, _: u32, _: *mut u32) -> u8 {
    unsafe { timers.sub(1).read_volatile().period as u8 }
}

unsafe extern "C" fn reads_behind(timers: *const Cycle, count: usize, _: u32, _: *mut u32) -> u8 {
    unsafe { timers.add(count).read_volatile().start as u8 }
}

unsafe extern "C" fn writes_eight_bytes(_: *const Cycle, _: usize, _: u32, start: *mut u32) -> u8 {
    unsafe { start.cast::<u64>().write_unaligned(0) };
    0
}

unsafe extern "C" fn writes_a_timer(timers: *const Cycle, _: usize, _: u32, _: *mut u32) -> u8 {
    unsafe { timers.cast_mut().cast::<u32>().write_volatile(0) };
    0
}

#[test]
#[should_panic = "a byte beside a lent part was written"]
fn a_write_beside_the_start_is_noticed() {
    call_fenced(writes_eight_bytes, Side::Front);
}

#[test]
#[should_panic = "the list was written"]
fn a_written_timer_is_noticed() {
    call_fenced(writes_a_timer, Side::Front);
}

/// A child that reads the timer before a list or behind it dies of it.
#[test]
fn a_read_outside_a_list_is_noticed() {
    ["reads_before_a_list", "reads_behind_a_list"].into_iter().for_each(dies);
}

#[test]
#[ignore = "dies; run by a_read_outside_a_list_is_noticed"]
fn reads_before_a_list() {
    call_fenced(reads_before, Side::Front);
}

#[test]
#[ignore = "dies; run by a_read_outside_a_list_is_noticed"]
fn reads_behind_a_list() {
    call_fenced(reads_behind, Side::Back);
}

// ---- timers of sessions

/// Eight timers, each on a named semaphore of its own, of one task that runs; a tick a tock.
const EIGHT: [u8; 9] = [1, 8, 0, 8, 0, 1, 0, 125, 0];

/// In how many tocks the last of the timers has a turn and another one too, when each is started in its tock by the executive.
fn tocks_shared(caller: Caller, timers: &[Cycle], tocks: u32) -> usize {
    let configuration = Configuration::read_within(caller.limits(), &EIGHT).expect("accepted");
    let mut memory = Lent::of(caller, caller.sizes(), || 0xA5);
    assert_eq!(memory.configure(&EIGHT), 0);
    let mut turns = Turns::fresh(&configuration);
    let mut feed = |frame: [u8; 5]| {
        let before = memory.items(&configuration);
        assert_eq!(memory.frame(&frame), 0, "{frame:02X?}");
        turns.watch(&frame, 0, &before, &memory.items(&configuration));
        let having: Vec<u8> =
            turns.timers().iter().filter(|timer| timer.has_turn).map(|timer| timer.semaphore).collect();
        having.len() > 1 && having.contains(&(timers.len() as u8))
    };
    let mut shared = 0;
    for tock in 0..tocks {
        for (semaphore, timer) in (1..).zip(timers).filter(|(_, timer)| timer.start == tock) {
            let [high, low] = (-(timer.period as i16)).to_be_bytes();
            feed([TIMER, 0, semaphore, high, low]);
        }
        shared += usize::from(feed([TICK, 0, 0, 0, 0]));
    }
    shared
}

/// What the function says of timers is what the executive does with them: started in the start that it finds, a new one never has a turn
/// in the tock of another's, and started before, it has.
fn timers_of_sessions(caller: Caller) {
    let random = &mut Random::new(first_seed() + 8);
    let [mut found, mut none, mut sessions] = [0; 3];
    for turn in 0..120 {
        let step = 1 + random.below(4);
        let mut timer = || {
            let period = (step * (1 + random.below(12 / step))) as u32;
            Cycle { start: random.below(30) as u32, period }
        };
        let mut list: Vec<Cycle> = (0..turn % 8).map(|_| timer()).collect();
        let period = timer().period;
        let answer = free_start(&mut list, period).expect("accepted");
        for start in 0..=answer.unwrap_or(period - 1) {
            let all = [list.as_slice(), &[Cycle { start, period }]].concat();
            let shared = tocks_shared(caller, &all, 30 + 12 * 12);
            assert_eq!(shared == 0, Some(start) == answer, "{all:?}: {shared} tocks");
            sessions += 1;
        }
        [found, none] = [found + usize::from(answer.is_some()), none + usize::from(answer.is_none())];
    }
    println!("{caller:?}: {sessions} sessions, {found} starts found, {none} times none");
    assert!(found > 40 && none > 20, "{found}, {none}");
}
