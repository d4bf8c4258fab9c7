//! Document 02, W7: timers for a season, code $12 with four bytes of tocks.

use plain_executive::executive::Executive;
use plain_executive::numbers::TOCK_VALUE;
use plain_executive::semaphore::Semaphore;
use plain_executive::tocks::{season_tock_value, tock_value, Tocks};
use plain_executive::trail::Event;

use crate::{after, answer, configured, frame};

/// Two tasks, two named semaphores and those of the tasks, 3 and 4; three timers, a tick a tock.
const TWO: &str = "020200030001007D0000";
/// One task, six named semaphores and as many timers.
const SIX: &str = "010600060001007D00";
const TICK: &str = "1000000000";

/// Semaphore, tocks left and period of each timer.
fn timers(executive: &Executive) -> Vec<(u8, u64, u32)> {
    executive.items().timers.iter().map(|timer| (timer.semaphore, timer.tocks_left, timer.period)).collect()
}

/// The semaphores that the timers which are due with this tick signal, in that order.
fn due(executive: &mut Executive) -> Vec<u8> {
    let mut events = Vec::new();
    executive.frame_noting(&frame(TICK), &mut events);
    let due = |event: &Event| match event {
        Event::Due { semaphore, .. } => Some(*semaphore),
        _ => None,
    };
    events.iter().filter_map(due).collect()
}

// ---- the value

#[test]
fn the_ends_of_four_bytes() {
    assert_eq!(season_tock_value(0x0000_0001), Ok(Tocks::OneShot(1)));
    assert_eq!(season_tock_value(0x7FFF_FFFF), Ok(Tocks::OneShot(2_147_483_647)));
    assert_eq!(season_tock_value(0x8000_0000), Ok(Tocks::Cyclic(2_147_483_648)));
    assert_eq!(season_tock_value(0x8000_0001), Ok(Tocks::Cyclic(2_147_483_647)));
    assert_eq!(season_tock_value(0xFFFF_FFFF), Ok(Tocks::Cyclic(1)));
    assert_eq!(season_tock_value(0x0000_0000), Err(TOCK_VALUE));
}

#[test]
fn the_ends_in_frames() {
    let mut executive = configured(SIX);
    let starts = ["12000100000001", "1200027FFFFFFF", "12000380000000", "120004FFFFFFFF", "12000580000001"];
    assert_eq!(after(&mut executive, &starts), "00010000");
    let long = 2_147_483_647;
    let expected = [(1, 1, 0), (4, 1, 1), (2, u64::from(long), 0), (5, long.into(), long), (3, 1 << 31, 1 << 31)];
    assert_eq!(timers(&executive), expected);
    assert_eq!(after(&mut executive, &["12000600000000"]), "09010000");
}

/// What two bytes of it alone would say is something else.
#[test]
fn all_four_bytes_count() {
    assert_eq!(season_tock_value(0x0001_0000), Ok(Tocks::OneShot(65_536)));
    assert_eq!(season_tock_value(0x0000_8000), Ok(Tocks::OneShot(32_768)));
    assert_eq!(season_tock_value(0x0000_FFFF), Ok(Tocks::OneShot(65_535)));
    assert_eq!(season_tock_value(0xFFFF_0000), Ok(Tocks::Cyclic(65_536)));
    assert_eq!(season_tock_value(0x1234_5678), Ok(Tocks::OneShot(305_419_896)));
    // Three weeks, with a tock of 125 milliseconds.
    let mut executive = configured(TWO);
    assert_eq!(after(&mut executive, &["12000100DD7C00"]), "00010000");
    assert_eq!(timers(&executive), [(1, 3 * 7 * 24 * 60 * 60 * 8, 0)]);
}

#[test]
fn sixteen_bits_mean_what_they_meant() {
    for value in [1, 0x7FFF, -1, -0x7FFF, -0x8000, 0_i16] {
        assert_eq!(season_tock_value(i32::from(value) as u32), tock_value(value as u16), "{value}");
    }
    let mut executive = configured(TWO);
    assert_eq!(after(&mut executive, &["0E00018000", "120002FFFF8000"]), "00010000");
    assert_eq!(timers(&executive), [(1, 32_768, 32_768), (2, 32_768, 32_768)]);
}

// ---- the numbers

#[test]
fn shorter_than_five_is_2_before_the_code() {
    for digits in ["", "12", "12000100", "13", "13000100", "FF000100"] {
        assert_eq!(answer(&mut configured(TWO), &frame(digits)), "02010001", "{digits}");
    }
}

#[test]
fn codes_from_13_on_are_4_in_any_length() {
    for digits in ["1300010000", "130001000001", "13000100000001", "1300010000000100", "FF000100000001", "0000000000"] {
        assert_eq!(answer(&mut configured(TWO), &frame(digits)), "04010001", "{digits}");
    }
}

#[test]
fn exactly_seven_bytes_or_2() {
    let mut executive = configured(TWO);
    for digits in ["1200010001", "120001000001", "1200010000000100", "120001000000010000000000"] {
        assert_eq!(after(&mut executive, &[digits]), "02010001", "{digits}");
    }
    // The other codes have the lengths that they had.
    assert_eq!(after(&mut executive, &["0E000100000001"]), "02010001");
    assert_eq!(after(&mut executive, &["0D000100000001"]), "02010001");
    assert_eq!(timers(&executive), []);
    assert_eq!(after(&mut executive, &["12000100000001"]), "00010000");
}

#[test]
fn the_length_is_tested_before_20_and_20_before_the_fields() {
    let mut executive = configured(TWO);
    assert_eq!(after(&mut executive, &["0A02000000", "0A00000000"]), "00000000");
    for digits in ["1200010001", "120001000001", "1200010000000100"] {
        assert_eq!(after(&mut executive, &[digits]), "02000000", "{digits}");
    }
    // Task 3, semaphore 5 and no tocks; then nothing that is wrong.
    for digits in ["12030500000000", "12000500000000", "12000100000000", "12000100000001"] {
        assert_eq!(after(&mut executive, &[digits]), "14000000", "{digits}");
    }
}

#[test]
fn then_5_6_and_9() {
    let mut executive = configured(TWO);
    assert_eq!(after(&mut executive, &["12030500000000"]), "05010001");
    assert_eq!(after(&mut executive, &["12020500000000"]), "06010001");
    assert_eq!(after(&mut executive, &["12020400000000"]), "09010001");
    assert_eq!(after(&mut executive, &["12020400000001"]), "00010000");
}

#[test]
fn then_24_and_23() {
    let mut executive = configured(TWO);
    // A timer of each width on a semaphore of its own; the third is task 2's.
    assert_eq!(after(&mut executive, &["0E00010009", "12000200000009"]), "00010000");
    for digits in ["12000100000001", "12000200000001", "12010100000001", "0E00020001", "0D00020001"] {
        assert_eq!(after(&mut executive, &[digits]), "18010000", "{digits}");
    }
    assert_eq!(after(&mut executive, &["12020100000009"]), "00010000");
    // All three are active: 9 still comes first, then 24, and 23 where the two have none.
    assert_eq!(after(&mut executive, &["12000100000000"]), "09010000");
    assert_eq!(after(&mut executive, &["12000100000001"]), "18010000");
    assert_eq!(after(&mut executive, &["12000300000001"]), "17010000");
    assert_eq!(after(&mut executive, &["0E00030001"]), "17010000");
    assert_eq!(timers(&executive), [(1, 9, 0), (2, 9, 0), (1, 9, 0)]);
}

// ---- what it does

#[test]
fn the_callers_outcome_is_plain() {
    let mut executive = configured(TWO);
    assert_eq!(after(&mut executive, &["1200000000000F"]), "00010000");
    assert_eq!(after(&mut executive, &["0200010000", "0100010000"]), "0001000501");
    // A refused one leaves the outcome, an accepted one does not.
    assert_eq!(after(&mut executive, &["1200000000000F"]), "1801000501");
    assert_eq!(after(&mut executive, &["1200010000000F"]), "00010000");
}

/// It starts the timer only: task 2 goes on, and 0 as its semaphore is 4, its own.
#[test]
fn zero_is_self_and_the_semaphore_of_task_a() {
    let mut executive = configured(TWO);
    assert_eq!(after(&mut executive, &["12000000000005", "12020000000005"]), "00010000");
    let shown: Vec<(u8, u8)> = executive.items().timers.iter().map(|timer| (timer.task, timer.semaphore)).collect();
    assert_eq!(shown, [(1, 3), (2, 4)]);
    assert_eq!(after(&mut executive, &["0A00000000"]), "00020001");
}

#[test]
fn a_one_shot_wakes_who_waits_for_it_once() {
    let mut executive = configured(TWO);
    assert_eq!(after(&mut executive, &["12000100000002", "0100010000"]), "00020001");
    assert_eq!(after(&mut executive, &[TICK]), "00020001");
    assert_eq!(after(&mut executive, &[TICK]), "0001000501");
    assert_eq!(timers(&executive), []);
    assert_eq!(executive.semaphore(1), Semaphore::Pending);
    after(&mut executive, &[TICK, TICK]);
    assert_eq!(executive.semaphore(1), Semaphore::Pending);
}

#[test]
fn a_cyclic_one_goes_on_with_its_period() {
    let mut executive = configured(TWO);
    assert_eq!(after(&mut executive, &["120001FFFFFFFE"]), "00010000");
    for _ in 0..3 {
        assert_eq!(timers(&executive), [(1, 2, 2)]);
        assert_eq!(after(&mut executive, &["0300010000", TICK]), "00010000");
        assert_eq!((timers(&executive), executive.semaphore(1)), (vec![(1, 1, 2)], Semaphore::Pending));
        after(&mut executive, &[TICK]);
        assert_eq!(executive.semaphore(1), Semaphore::Done);
    }
}

/// In the order in which they were put in, whatever their widths are.
#[test]
fn both_widths_due_in_one_tock() {
    let mut executive = configured(SIX);
    let starts = ["0E00010002", "12000200000002", "120003FFFFFFFE", "0E0004FFFE", "120005FFFFFFFF", "0E0006FFFF"];
    assert_eq!(after(&mut executive, &starts), "00010000");
    assert_eq!(due(&mut executive), [5, 6]);
    // The two of period 1 went in again behind the four that are due next.
    assert_eq!(timers(&executive), [(1, 1, 0), (2, 1, 0), (3, 1, 2), (4, 1, 2), (5, 1, 1), (6, 1, 1)]);
    assert_eq!(due(&mut executive), [1, 2, 3, 4, 5, 6]);
    assert_eq!(timers(&executive), [(5, 1, 1), (6, 1, 1), (3, 2, 2), (4, 2, 2)]);
    assert_eq!(due(&mut executive), [5, 6]);
    assert_eq!(due(&mut executive), [3, 4, 5, 6]);
}

/// Started the other way round, the season timer signals first.
#[test]
fn of_two_due_in_one_tock_the_one_put_in_first_signals_first() {
    for (first, second) in [("0E00010001", "12000200000001"), ("12000100000001", "0E00020001")] {
        let mut executive = configured(TWO);
        assert_eq!(after(&mut executive, &[first, second]), "00010000");
        assert_eq!(due(&mut executive), [1, 2], "{first} and {second}");
    }
}

#[test]
fn purge_and_terminate_remove_it() {
    let mut executive = configured(TWO);
    let starts = ["12000180000000", "0E00028000", "12020180000000"];
    assert_eq!(after(&mut executive, &starts), "00010000");
    assert_eq!(after(&mut executive, &["0F00010001"]), "00010000");
    assert_eq!(timers(&executive), [(2, 32_768, 32_768), (1, 1 << 31, 1 << 31)]);
    assert_eq!(after(&mut executive, &["1200017FFFFFFF", "0F00000000"]), "00010000");
    assert_eq!(timers(&executive), [(1, 1 << 31, 1 << 31)]);
    assert_eq!(after(&mut executive, &["0B02000000"]), "00010000");
    assert_eq!(timers(&executive), []);
}
