//! Document 02, W9: the busiest stretch of a run's records.

use plain_executive::numbers::STRETCH;
use plain_executive::stretch::{busiest, Busiest, Record};

use crate::{configured, frame};

/// Records with these reissues. Their tocks fall and their tasks rise: neither counts.
fn records(reissues: &[u16]) -> Vec<Record> {
    let record = |(place, &reissues): (usize, &u16)| Record { tocks: !(place as u32), running: place as u8, reissues };
    reissues.iter().enumerate().map(record).collect()
}

/// Sum and place.
fn found(reissues: &[u16], w: usize) -> (u32, usize) {
    let Busiest { sum, place } = busiest(&records(reissues), w).expect("a stretch");
    (sum, place)
}

fn is_refused(reissues: &[u16], w: usize) -> bool {
    busiest(&records(reissues), w) == Err(STRETCH)
}

#[test]
fn every_w_of_five_records() {
    let reissues = [1, 0, 4, 2, 3];
    assert_eq!(found(&reissues, 1), (4, 2), "4");
    assert_eq!(found(&reissues, 2), (6, 2), "4 + 2");
    assert_eq!(found(&reissues, 3), (9, 2), "4 + 2 + 3");
    assert_eq!(found(&reissues, 4), (9, 1), "0 + 4 + 2 + 3");
    assert_eq!(found(&reissues, 5), (10, 0), "all");
}

#[test]
fn the_earliest_of_equal_ones() {
    assert_eq!(found(&[0, 2, 0, 2, 0], 1), (2, 1));
    assert_eq!(found(&[0, 2, 0, 2, 0], 2), (2, 0), "four stretches that overlap");
    assert_eq!(found(&[0, 2, 0, 2, 0], 3), (4, 1));
    assert_eq!(found(&[7; 6], 4), (28, 0));
    assert_eq!(found(&[0; 6], 4), (0, 0));
}

#[test]
fn first_last_and_in_the_middle() {
    assert_eq!(found(&[5, 5, 1, 1, 1, 4], 2), (10, 0));
    assert_eq!(found(&[4, 1, 1, 1, 5, 5], 2), (10, 4));
    assert_eq!(found(&[4, 1, 5, 5, 1, 4], 2), (10, 2));
    assert_eq!(found(&[9, 0, 4, 4, 4], 3), (13, 0), "9 + 0 + 4");
}

#[test]
fn the_largest_sum() {
    assert_eq!(found(&[65_535; 4096], 4096), (268_431_360, 0));
    assert_eq!(found(&[65_535; 2], 2), (131_070, 0));
}

#[test]
fn a_list_above_4096_and_w_outside_it_give_28() {
    for w in [0, 1, 4096, 4097, usize::MAX] {
        assert!(is_refused(&[1; 4097], w), "{w}");
    }
    assert_eq!(found(&[1; 4096], 1), (1, 0));
    assert!(is_refused(&[1; 4096], 4097));
    assert_eq!([0, 1, 2, 3, 4].map(|w| is_refused(&[1; 3], w)), [true, false, false, false, true]);
    assert!(is_refused(&[1; 3], usize::MAX));
    assert_eq!([0, 1].map(|w| is_refused(&[], w)), [true; 2]);
}

/// The session that document 01 lists: the put of task 2 has the take of task 1 issued again.
#[test]
fn the_listed_session() {
    let mut executive = configured("020101010101007D00000101");
    let frames = ["0701000000", "080100000041", "0D00000002", "1000000000", "1000000000", "0702000000"];
    let kept = frames.map(|digits| {
        let answer = executive.frame(&frame(digits));
        let tocks = executive.clock().tocks() as u32;
        Record { tocks, running: answer.running(), reissues: answer.reissues().into() }
    });
    assert_eq!(kept.map(|record| record.tocks), [0, 0, 0, 1, 2, 2]);
    assert_eq!(kept.map(|record| record.running), [2, 1, 2, 2, 1, 1]);
    assert_eq!(kept.map(|record| record.reissues), [0, 1, 0, 0, 0, 0]);
    let found = [1, 2, 3, 6].map(|w| busiest(&kept, w).map(|busiest| (busiest.sum, busiest.place)));
    assert_eq!(found, [Ok((1, 1)), Ok((1, 0)), Ok((1, 0)), Ok((1, 0))]);
}
