//! Document 02, W8: the turns of timers in n tocks, counted by hand and by what watches them.

use plain_executive::executive::Executive;
use plain_executive::semaphore::Semaphore;
use plain_executive::turns::{Ended, Turns};

use crate::{configured, frame};

/// Two tasks, two named semaphores and those of the tasks, 3 and 4; four timers, a tick a tock.
const TWO: &str = "020200040001007D0000";
/// The same with two ticks a tock.
const TWO_TICKS: &str = "020200040002007D0000";
const TICK: &str = "1000000000";

/// An executive, and what watches its timers.
struct Watched {
    executive: Executive,
    turns: Turns,
}

impl Watched {
    fn new(configuration: &str) -> Self {
        let executive = configured(configuration);
        Watched { turns: Turns::fresh(executive.configuration()), executive }
    }

    /// Every timer has the turns that its tocks ask for behind it.
    fn feed(&mut self, digits: &str) -> u8 {
        let before = self.executive.items();
        let number = self.executive.frame(&frame(digits)).refusal();
        self.turns.watch(&frame(digits), number, &before, &self.executive.items());
        assert_eq!(self.turns.wrong(), None, "{digits}");
        number
    }

    fn accept(&mut self, frames: &[&str]) {
        frames.iter().for_each(|digits| assert_eq!(self.feed(digits), 0, "{digits}"));
    }

    fn ticks(&mut self, count: usize) {
        self.accept(&vec![TICK; count]);
    }

    /// Turns and tocks of each timer, in the order of their starts.
    fn counted(&self) -> Vec<(u64, u64)> {
        self.turns.timers().iter().map(|timer| (timer.turns, timer.tocks)).collect()
    }

    fn ended(&self) -> Vec<Option<Ended>> {
        self.turns.timers().iter().map(|timer| timer.ended).collect()
    }
}

/// Period 2, and period 3 beside it: in the sixth tock both have a turn. 7 / 2 is 3 and 7 / 3 is 2.
#[test]
fn a_cyclic_timer_of_period_2_has_three_turns_in_seven_tocks() {
    let mut watched = Watched::new(TWO);
    watched.accept(&["0E0001FFFE", "0E0201FFFD"]);
    watched.ticks(1);
    assert_eq!(watched.counted(), [(0, 1), (0, 1)]);
    // A second start for the pair, no such semaphore, no tocks, a tick that is too long, no such code: none is a tock or ends anything.
    let refused = ["0E0001FFFF", "0F00050001", "0E00020000", "100000000000", "FF00000000"];
    assert_eq!(refused.map(|digits| watched.feed(digits)), [24, 6, 9, 2, 4]);
    assert_eq!(watched.counted(), [(0, 1), (0, 1)]);
    watched.ticks(1);
    assert_eq!(watched.counted(), [(1, 2), (0, 2)]);
    watched.ticks(4);
    assert_eq!(watched.counted(), [(3, 6), (2, 6)]);
    assert!(watched.turns.timers().iter().all(|timer| timer.has_turn), "both in one tock");
    watched.ticks(1);
    assert_eq!(watched.counted(), [(3, 7), (2, 7)]);
    assert_eq!(watched.ended(), [None, None]);
}

/// It has its turn in the second tock. Then the same task and semaphore get another, which is not this one.
#[test]
fn a_one_shot_of_2_has_one_turn_and_a_later_one_its_own() {
    let mut watched = Watched::new(TWO);
    watched.accept(&["0E00010002"]);
    watched.ticks(1);
    assert_eq!(watched.counted(), [(0, 1)]);
    watched.ticks(1);
    assert_eq!((watched.counted(), watched.ended()), (vec![(1, 2)], vec![Some(Ended::Spent)]));
    watched.ticks(1);
    watched.accept(&["12000100000002"]);
    watched.ticks(2);
    assert_eq!(watched.counted(), [(1, 5), (1, 2)]);
    // A cyclic one in the same place.
    watched.accept(&["0E0001FFFF"]);
    watched.ticks(3);
    assert_eq!(watched.counted(), [(1, 8), (1, 5), (3, 3)]);
    assert_eq!(watched.ended(), [Some(Ended::Spent), Some(Ended::Spent), None]);
}

/// Of period 1. The task waits on its own semaphore, 3, until the first turn.
#[test]
fn a_delay_with_two_ticks_a_tock() {
    let mut watched = Watched::new(TWO_TICKS);
    watched.ticks(1);
    watched.accept(&["0D0000FFFF"]);
    assert_eq!(watched.executive.running(), 2);
    // The tick before the start counts in the tock that passes next.
    watched.ticks(1);
    assert_eq!((watched.counted(), watched.executive.running()), (vec![(1, 1)], 1));
    watched.ticks(1);
    assert_eq!(watched.counted(), [(1, 1)]);
    watched.ticks(4);
    assert_eq!(watched.counted(), [(3, 3)]);
    assert_eq!(watched.executive.semaphore(3), Semaphore::Done);
}

/// One of period 65,538, of which two bytes would say 2; one of period 2, and a timer of 16 bits beside it.
#[test]
fn season_timers() {
    let mut watched = Watched::new(TWO);
    watched.accept(&["120001FFFEFFFE", "120002FFFFFFFE", "0E0000FFFE"]);
    watched.ticks(5);
    assert_eq!(watched.counted(), [(0, 5), (2, 5), (2, 5)]);
    watched.ticks(65_532);
    assert_eq!(watched.counted(), [(0, 65_537), (32_768, 65_537), (32_768, 65_537)]);
    watched.ticks(1);
    assert_eq!(watched.counted(), [(1, 65_538), (32_769, 65_538), (32_769, 65_538)]);
}

/// Task 2 is suspended, and its semaphore has been DONE since the first turn.
#[test]
fn a_turn_that_wakes_nobody_is_one() {
    let mut watched = Watched::new(TWO);
    watched.accept(&["0E0200FFFF", "0A02000000"]);
    watched.ticks(4);
    assert_eq!((watched.counted(), watched.executive.semaphore(4)), (vec![(4, 4)], Semaphore::Done));
}

/// Task 1 waits on semaphore 1, which timers of both tasks signal in the second tock: the first wakes it, the other leaves DONE.
#[test]
fn two_turns_on_one_semaphore_in_one_tock() {
    let mut watched = Watched::new(TWO);
    watched.accept(&["0E0001FFFE", "12020100000002", "0100010000"]);
    assert_eq!(watched.executive.running(), 2);
    watched.ticks(2);
    assert_eq!(watched.counted(), [(1, 2), (1, 2)]);
    assert_eq!((watched.executive.running(), watched.executive.semaphore(1)), (1, Semaphore::Done));
}

/// Up to the purge it had 3 / 1 turns. Purges of another semaphore and of another task leave it.
#[test]
fn a_purged_timer_had_its_turns_up_to_the_purge() {
    let mut watched = Watched::new(TWO);
    watched.accept(&["0E0001FFFF", "0E0002FFFE", "0E0201FFFF"]);
    watched.ticks(2);
    watched.accept(&["0F00030001", "0F00020001", "0F02000000"]);
    watched.ticks(1);
    assert_eq!(watched.ended(), [None, Some(Ended::Purged), Some(Ended::Purged)]);
    assert_eq!(watched.counted(), [(3, 3), (1, 2), (2, 2)]);
    // By 0 it is semaphore 3 that is meant, and with 0 in the low byte of X all.
    watched.accept(&["0F00000001"]);
    assert_eq!(watched.ended()[0], None);
    watched.accept(&["0F00000100", TICK, TICK]);
    assert_eq!((watched.ended()[0], watched.counted()[0]), (Some(Ended::Purged), (3, 3)));
}

/// Another task's on the same semaphore goes on. The task is executed again, and what is started then is another.
#[test]
fn a_terminated_tasks_timer_had_its_turns_up_to_then() {
    let mut watched = Watched::new(TWO);
    watched.accept(&["120201FFFFFFFF", "0E0001FFFF"]);
    watched.ticks(2);
    watched.accept(&["0B02000000", "0C02000000"]);
    watched.ticks(3);
    assert_eq!(watched.counted(), [(2, 2), (5, 5)]);
    assert_eq!(watched.ended(), [Some(Ended::Terminated), None]);
    watched.accept(&["0E0201FFFE"]);
    watched.ticks(2);
    assert_eq!(watched.counted(), [(2, 2), (7, 7), (1, 2)]);
}

/// An execute leaves the timer of its task, and no turn is missed.
#[test]
fn an_executed_tasks_timer_goes_on() {
    let mut watched = Watched::new(TWO);
    watched.accept(&["0E0200FFFE", TICK, "0C02000000", TICK, TICK, "0C02000000", TICK]);
    assert_eq!((watched.counted(), watched.ended()), (vec![(2, 4)], vec![None]));
}
