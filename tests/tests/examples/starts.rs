//! Document 02, W11: a start that never collides.

use plain_executive::numbers::CYCLES;
use plain_executive::random::Random;
use plain_executive::starts::{by_rests, by_rows, collide, free_start, Cycle};

/// Start and period of each.
fn timers(all: &[(u32, u32)]) -> Vec<Cycle> {
    all.iter().map(|&(start, period)| Cycle { start, period }).collect()
}

fn found(all: &[(u32, u32)], period: u32) -> Option<u32> {
    free_start(&timers(all), period).expect("accepted")
}

fn is_refused(all: &[(u32, u32)], period: u32) -> bool {
    free_start(&timers(all), period) == Err(CYCLES)
}

#[test]
fn with_no_timers_it_is_0() {
    assert_eq!([1, 2, 7, 32_768].map(|period| found(&[], period)), [Some(0); 4]);
}

#[test]
fn one_timer() {
    assert_eq!(found(&[(0, 2)], 2), Some(1), "2, 4, 6 and 3, 5, 7");
    assert_eq!(found(&[(1, 2)], 2), Some(0), "3, 5, 7 and 2, 4, 6");
    assert_eq!(found(&[(0, 6)], 4), Some(1), "0 has 12 too; 5, 9, 13 are odd");
    assert_eq!(found(&[(1, 6)], 4), Some(0), "7, 13, 19 are odd");
    assert_eq!(found(&[(3, 9)], 6), Some(1), "12, 21, 30 and 0 has 12; 7, 13, 19 are no multiples of 3");
}

#[test]
fn without_a_common_divisor_there_is_none() {
    assert_eq!(found(&[(0, 2)], 3), None, "6, 4 and 8");
    assert_eq!(found(&[(5, 3)], 4), None, "8, 17, 14 and 11");
    assert_eq!(found(&[(0, 32_767)], 32_768), None);
    assert_eq!([1, 2, 32_768].map(|period| found(&[(9, 1)], period)), [None; 3], "every tock from 10 on");
    assert_eq!([1, 2, 32_768].map(|period| found(&[(9, period)], 1)), [None; 3], "the new one has every tock");
}

#[test]
fn equal_periods() {
    assert_eq!(found(&[(0, 3)], 3), Some(1));
    assert_eq!(found(&[(0, 3), (1, 3)], 3), Some(2));
    assert_eq!(found(&[(2, 3), (0, 3)], 3), Some(1));
    assert_eq!(found(&[(2, 3), (0, 3), (1, 3)], 3), None, "all three are taken");
    assert_eq!(found(&[(0, 3), (3, 3), (6, 3)], 3), Some(1), "all three take 0");
    assert_eq!(found(&[(0, 32_768), (1, 32_768), (3, 32_768)], 32_768), Some(2));
}

/// Brake checks each 40 tocks from 0 on and each 60 from 10 on, a lamp test each 100: 0 has 200 with the first, and 1 only odd tocks.
#[test]
fn a_lamp_test_beside_brake_checks() {
    assert_eq!(found(&[(0, 40), (10, 60)], 100), Some(1));
    assert_eq!(found(&[(0, 40), (10, 60), (1, 10)], 100), Some(2), "11, 21, 31 and 1 has 101");
    assert_eq!(found(&[(0, 40), (10, 60), (1, 2)], 100), Some(2), "1 and every odd one");
}

/// The halves, quarters and so on of the tocks: each takes half of what those before it leave.
const HALVES: [(u32, u32); 8] = [(0, 2), (1, 4), (3, 8), (7, 16), (15, 32), (31, 64), (63, 128), (127, 256)];

#[test]
fn together_they_take_all_or_all_but_one() {
    assert_eq!(found(&HALVES, 256), Some(255));
    assert_eq!(found(&HALVES, 32_768), Some(255));
    assert_eq!(found(&HALVES, 128), None, "the last takes 127");
    assert_eq!(found(&HALVES[..7], 128), Some(127));
    assert_eq!([3, 5, 7].map(|period| found(&HALVES, period)), [None; 3]);
    assert_eq!(found(&[(0, 2), (0, 3), (1, 4), (5, 6), (7, 12)], 12), None);
    assert_eq!(found(&[(0, 2), (0, 3), (1, 4), (5, 6)], 12), Some(7));
}

/// The given start counts as it is, however far above the new one.
#[test]
fn a_start_above_the_new_period() {
    assert_eq!(found(&[(10, 4)], 4), Some(0), "14, 18, 22, which 2 has");
    assert_eq!(found(&[(12, 4)], 4), Some(1), "16, 20, 24, which 0 has");
    assert_eq!(found(&[(1_000_000, 5)], 5), Some(1));
    assert_eq!(found(&[(1_000_001, 5)], 5), Some(0));
}

/// 2^32 - 1 is a multiple of 3, 5 and 17, and no tock is cut to 32 bits.
#[test]
fn a_start_near_the_end_of_32_bits() {
    for period in [3, 5, 17, 15, 85] {
        assert_eq!(found(&[(u32::MAX, period)], period), Some(1), "{period}: 0 has 2^32 - 1 + {period}");
        assert_eq!(found(&[(u32::MAX - 1, period)], period), Some(0), "{period}");
        assert_eq!(found(&[(u32::MAX, period), (u32::MAX - period + 1, period)], period), Some(2), "{period}");
    }
    assert_eq!(found(&[(u32::MAX, 32_768)], 32_768), Some(0), "2^32 - 1 leaves 32,767");
}

#[test]
fn nine_timers_and_periods_outside_1_to_32768_give_31() {
    assert_eq!(found(&[(0, 2); 8], 2), Some(1));
    assert!(is_refused(&[(0, 2); 9], 2));
    for outside in [0, 32_769, 65_536, 65_537, u32::MAX] {
        assert!(is_refused(&[], outside) && is_refused(&[(0, 2)], outside), "{outside}");
        assert!(is_refused(&[(0, outside)], 2) && is_refused(&[(0, 1), (0, outside), (0, 2)], 2), "{outside}");
    }
}

// ---- the two ways to it

#[test]
fn rows_begin_one_period_after_the_start() {
    let cycle = |start, period| Cycle { start, period };
    assert!(collide(cycle(0, 5), cycle(5, 5)), "10; 5 is in the first alone");
    assert!(collide(cycle(40, 6), cycle(0, 4)), "52");
    assert!(!collide(cycle(40, 6), cycle(1, 4)), "even and odd");
    assert!(collide(cycle(u32::MAX, 7), cycle(0, 5)), "2^32 + 34");
    assert!(collide(cycle(0, 7), cycle(0, 11)), "77, as late as can be");
}

/// Up to eight timers, and a new period. Often all periods have a divisor in common.
fn random_lists() -> Vec<(Vec<Cycle>, u32)> {
    let random = &mut Random::new(11);
    let list = |turn: usize| {
        let step = 1 + random.below(4);
        let mut timer = || {
            let period = (step * (1 + random.below(120 / step))) as u32;
            Cycle { start: random.below(200) as u32, period }
        };
        ((0..turn % 9).map(|_| timer()).collect(), timer().period)
    };
    (0..2000).map(list).collect()
}

#[test]
fn rests_tell_what_rows_do() {
    let single = |start: u32| (1..=12).map(move |period| vec![Cycle { start, period }]);
    let singles = (0..=30).flat_map(single).flat_map(|timer| (1..=12).map(move |new| (timer.clone(), new)));
    let mut found = [0; 2];
    for (timers, new) in random_lists().into_iter().chain(singles) {
        let answer = by_rests(&timers, new);
        assert_eq!(answer, by_rows(&timers, new), "{timers:?}, {new}");
        found[usize::from(answer.is_some())] += 1;
    }
    assert!(found.iter().all(|count| *count > 1000), "{found:?}");
}

/// The starts from the period on do what those below it do: where there is none, each of them collides too.
#[test]
fn larger_starts_are_no_other() {
    for (timers, period) in random_lists().into_iter().take(400) {
        let collides = |start: u32| timers.iter().any(|timer| collide(*timer, Cycle { start, period }));
        for start in 0..period {
            let below = collides(start);
            assert!(
                [1, 2, 5, 100].iter().all(|turns| collides(start + turns * period) == below),
                "{timers:?}, {start}"
            );
        }
    }
}
