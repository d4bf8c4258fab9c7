//! Document 02, W9, through the C function: the busiest stretch of lists of records, against the other implementation's double loop.
//! Other seeds, by the variable SEED, give other lists and other sessions.

use c::caller::Caller;
use c::fence::{dies, now, Side, DYING, EDGES};
use c::lent::Lent;
use c::stretch::lists::{self, any, edges, every_w, records, CONTENTS, SHORT};
use c::stretch::{busiest, engine, mcx11_busiest, plain, right, Case, Exported, Fenced, Program, Record, WRONG};
use plain_executive::command::TICK;
use plain_executive::configuration::Configuration;
use plain_executive::executive::Executive;
use plain_executive::generator::{prepared, Generator, Script};
use plain_executive::numbers::{Number, STRETCH};
use plain_executive::random::Random;
use plain_executive::stretch::{self, Busiest, MOST_RECORDS};

c::for_each_caller!(records_of_sessions);

fn first_seed() -> u64 {
    let given = std::env::var("SEED").ok();
    given.map_or(0, |seed| seed.parse().expect("SEED is a number")) << 32
}

// ---- lists

/// How often a stretch is found in these lists, and how often 28.
fn compare(what: &str, cases: &[Case], program: Program) -> [usize; 2] {
    cases.iter().for_each(|case| assert_eq!(case.difference(program), None));
    let counts = cases.iter().map(Case::counts);
    let [found, refused] = counts.fold([0; 2], |all, case| [all[0] + case[0], all[1] + case[1]]);
    println!("{what}: {} lists, {found} stretches found, {refused} times 28", cases.len());
    [found, refused]
}

#[test]
fn every_length_up_to_40_with_every_w() {
    let counts = compare("every length up to 40", &lists::short(first_seed() + 1), &mut engine);
    let lists = |n: usize| 3 * CONTENTS.len() + n;
    let found: usize = (0..=SHORT).map(|n| n * lists(n)).sum();
    let asked = every_w().count() * (0..=SHORT).map(lists).sum::<usize>();
    assert_eq!(counts, [found, asked - found]);
}

#[test]
fn random_lists_of_up_to_4096() {
    let counts = compare("up to 4,096 records", &lists::long(first_seed() + 2, 180), &mut engine);
    assert_eq!(counts, [180 * 6, 180 * 5]);
}

#[test]
fn lists_above_4096_give_28() {
    let [within, above] = lists::at_the_limit(first_seed() + 3);
    assert_eq!(compare("4,095 and 4,096 records", &within, &mut engine), [12, 14]);
    assert_eq!(compare("above 4,096 records", &above, &mut engine), [0, 8 * 13]);
}

/// Where there are no records, the list may have no address.
#[test]
fn no_list_at_all() {
    for w in [0, 1, usize::MAX] {
        let mut written = (7, 8);
        let number = unsafe { mcx11_busiest(std::ptr::null(), 0, w, &mut written.0, &mut written.1) };
        assert_eq!((number, written), (STRETCH, (7, 8)), "w {w}");
    }
}

#[test]
fn the_largest_sum() {
    let mut all = records(&mut Random::new(4), &[u16::MAX; MOST_RECORDS]);
    assert_eq!(busiest(&mut all, MOST_RECORDS), Ok(Busiest { sum: 268_431_360, place: 0 }));
    assert_eq!(busiest(&mut all, MOST_RECORDS - 1), Ok(Busiest { sum: 268_365_825, place: 0 }));
}

/// Reissues, w, sum and place.
type Tie = (&'static [u16], usize, u32, usize);

/// By hand: equal ones first, last and in the middle, apart, side by side and overlapping.
const TIES: [Tie; 12] = [
    (&[3, 3, 0, 3, 3, 0, 3, 3], 2, 6, 0),
    (&[0, 3, 3, 0, 3, 3, 0, 3, 3], 2, 6, 1),
    (&[1, 3, 2, 0, 2, 3, 1], 2, 5, 1),
    (&[0, 2, 0, 2, 0, 2, 0], 2, 2, 0),
    (&[0, 2, 0, 2, 0, 2, 0], 3, 4, 1),
    (&[0, 0, 5, 0, 0, 0], 3, 5, 0),
    (&[0, 0, 0, 0, 5, 0], 3, 5, 2),
    (&[0, 0, 0, 0, 0, 5], 3, 5, 3),
    (&[1, 2, 1, 2, 1, 2], 4, 6, 0),
    (&[0, 1, 2, 1, 2, 1], 4, 6, 1),
    (&[9, 0, 0, 9, 0, 0, 9], 4, 18, 0),
    (&[8, 0, 0, 9, 0, 0, 9, 0, 0, 9], 4, 18, 3),
];

#[test]
fn of_equal_ones_the_earliest() {
    for (reissues, w, sum, place) in TIES {
        let mut records = records(&mut Random::new(5), reissues);
        assert_eq!(busiest(&mut records, w), Ok(Busiest { sum, place }), "{reissues:?}, w {w}");
    }
}

// ---- the comparison itself

/// Each wrong program is found in some of the lists, and one that is right in none.
#[test]
fn a_wrong_program_is_found() {
    let mut cases = lists::short(first_seed() + 1);
    cases.extend(lists::long(first_seed() + 2, 20));
    cases.extend(lists::at_the_limit(first_seed() + 3).into_iter().flatten());
    let found = |program: Program| cases.iter().filter(|case| case.difference(program).is_some()).count();
    assert_eq!(found(&mut right), 0);
    for (name, mut program) in WRONG {
        let met = found(&mut program);
        println!("{met} of {}: {name}", cases.len());
        assert!(met > 0, "{name}");
    }
}

// ---- closed pages

/// Directly behind and directly before a closed page, and four bytes from it.
#[test]
fn lists_between_closed_pages() {
    let mut random = Random::new(first_seed() + 6);
    let mut case = |n: usize, widths: &mut dyn Iterator<Item = usize>| {
        let reissues = any(n, &mut random);
        Case::new(format!("{n} records"), records(&mut random, &reissues), widths)
    };
    let short: Vec<Case> = (0..=SHORT).map(|n| case(n, &mut every_w())).collect();
    let long = [511, 512, 513, 4095, 4096, 4097].map(|n| case(n, &mut edges(n)));
    for (cases, most, counts) in [(short.as_slice(), SHORT, [820, 1066]), (&long, 4097, [20, 34])] {
        let mut fenced = Fenced::new(most);
        for edge in EDGES {
            let mut engine = |records: &mut [Record], w: usize, written: &mut Busiest| {
                now([edge.1.into(), records.len() as u64, w as u64]);
                fenced.call(mcx11_busiest, edge, records, w, written)
            };
            assert_eq!(compare(&format!("{edge:?}"), cases, &mut engine), counts);
        }
    }
}

/// A call of it with three records.
fn call_fenced(function: Exported, side: Side) {
    now(DYING);
    let list = records(&mut Random::new(7), &[1, 2, 3]);
    Fenced::new(3).call(function, (side, false), &list, 2, &mut Busiest { sum: 0, place: 0 });
}

unsafe extern "C" fn reads_before(records: *const Record, _: usize, _: usize, _: *mut u32, _: *mut usize) -> u8 {
    unsafe { records.sub(1).read_volatile().padding }
}

unsafe extern "C" fn reads_behind(records: *const Record, count: usize, _: usize, _: *mut u32, _: *mut usize) -> u8 {
    unsafe { records.add(count).read_volatile().padding }
}

unsafe extern "C" fn writes_eight_bytes(_: *const Record, _: usize, _: usize, sum: *mut u32, _: *mut usize) -> u8 {
    unsafe { sum.cast::<u64>().write_unaligned(0) };
    0
}

#[test]
#[should_panic = "a byte beside a lent part was written"]
fn a_write_beside_the_sum_is_noticed() {
    call_fenced(writes_eight_bytes, Side::Front);
}

/// A child that reads the record before a list or behind it dies of it.
#[test]
fn a_read_outside_a_list_is_noticed() {
    ["reads_before_a_list", "reads_behind_a_list"].into_iter().for_each(dies);
}

#[test]
#[ignore = "dies; run by a_read_outside_a_list_is_noticed"]
fn reads_before_a_list() {
    call_fenced(reads_before, Side::Front);
}

#[test]
#[ignore = "dies; run by a_read_outside_a_list_is_noticed"]
fn reads_behind_a_list() {
    call_fenced(reads_behind, Side::Back);
}

// ---- records of sessions

const TASKS: [u8; 5] = [1, 2, 5, 20, 126];

/// The prepared ones that the caller has room for, random sessions, and two of more frames than a list may have.
fn sessions(caller: Caller) -> impl Iterator<Item = (String, Script)> {
    let fits = move |script: &Script| Configuration::read_within(caller.limits(), &script.configuration).is_ok();
    let prepared = prepared().into_iter().filter(fits).enumerate();
    let prepared = prepared.map(|(place, script)| (format!("prepared session {place}"), script));
    let random = (first_seed()..first_seed() + 100).map(move |seed| {
        let tasks = TASKS[seed as usize % TASKS.len()];
        (format!("seed {seed}"), Generator::within(caller.limits(), seed).script(tasks..=tasks, 300))
    });
    let long = (first_seed() + 100..first_seed() + 102)
        .map(move |seed| (format!("seed {seed}"), Generator::within(caller.limits(), seed).script(3..=12, 4500)));
    prepared.chain(random).chain(long)
}

/// What a host keeps: one record a frame, with the tocks that passed up to then.
fn kept(caller: Caller, script: &Script) -> Vec<Record> {
    let mut memory = Lent::of(caller, caller.sizes(), || 0xA5);
    assert_eq!(memory.configure(&script.configuration), 0);
    let ticks_per_tock = u32::from(script.configuration[5]);
    let mut ticks = 0;
    let record = |frame: &Vec<u8>| {
        let number = memory.frame(frame);
        ticks += u32::from(number == 0 && frame[0] == TICK);
        let [running, reissues] = [memory.answered()[1], memory.answered()[2]];
        Record { tocks: ticks / ticks_per_tock, running, padding: 0xA5, reissues: reissues.into() }
    };
    script.frames.iter().map(record).collect()
}

/// The other implementation's own.
fn kept_by_other(caller: Caller, script: &Script) -> Vec<stretch::Record> {
    let mut other = Executive::configure_within(caller.limits(), &script.configuration).expect("accepted");
    let record = |frame: &Vec<u8>| {
        let answer = other.frame(frame);
        let tocks = other.clock().tocks() as u32;
        stretch::Record { tocks, running: answer.running(), reissues: answer.reissues().into() }
    };
    script.frames.iter().map(record).collect()
}

/// Of all sessions.
#[derive(Debug, Default)]
struct Met {
    sessions: usize,
    with_reissues: usize,
    stretches: usize,
    above_0: usize,
    behind_the_first: usize,
    refused: usize,
    largest: u32,
}

impl Met {
    fn answer(&mut self, answer: Result<Busiest, Number>) {
        match answer {
            Err(_) => self.refused += 1,
            Ok(Busiest { sum, place }) => {
                self.stretches += 1;
                self.above_0 += usize::from(sum > 0);
                self.behind_the_first += usize::from(place > 0);
                self.largest = self.largest.max(sum);
            }
        }
    }
}

/// All of so many records, and of too many also the latest.
fn starts(n: usize) -> Vec<usize> {
    if n > MOST_RECORDS {
        vec![0, n - MOST_RECORDS]
    } else {
        vec![0]
    }
}

fn records_of_sessions(caller: Caller) {
    let mut met = Met::default();
    for (name, script) in sessions(caller) {
        let (mut ours, others) = (kept(caller, &script), kept_by_other(caller, &script));
        assert_eq!(plain(&ours), others, "{name}");
        met.sessions += 1;
        met.with_reissues += usize::from(others.iter().any(|record| record.reissues > 0));
        for from in starts(others.len()) {
            let n = others.len() - from;
            for w in [1, 2, 3, 5, 10, 25, 100, n / 2, n] {
                let answer = stretch::busiest(&others[from..], w);
                assert_eq!(busiest(&mut ours[from..], w), answer, "{name}, from {from}, w {w}");
                met.answer(answer);
            }
        }
    }
    println!("{caller:?}: {met:?}");
    assert!(met.with_reissues > 50 && met.above_0 > 500 && met.behind_the_first > 300 && met.refused > 18, "{met:?}");
}
