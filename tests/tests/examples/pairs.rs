//! Document 02, W3: start only after.

use plain_executive::executive::Executive;
use plain_executive::numbers::{Number, CONFIGURATION, LENGTH};
use plain_executive::tasks::Block;

use crate::after;

/// Three tasks, one named semaphore, a timer, a message; these initial states and pairs.
fn three(states: [u8; 3], pairs: &[(u8, u8)]) -> Result<Executive, Number> {
    Executive::configure(&three_bytes(states, &pair_bytes(pairs)))
}

fn three_bytes(states: [u8; 3], rest: &[u8]) -> Vec<u8> {
    [&[3, 1, 0, 1, 1, 1, 0, 1], &states[..], rest].concat()
}

fn pair_bytes(pairs: &[(u8, u8)]) -> Vec<u8> {
    pairs.iter().flat_map(|&(first, then)| [first, then]).collect()
}

/// The number that a configuration with these states and pairs is refused with, or 0.
fn refusal(states: [u8; 3], pairs: &[(u8, u8)]) -> Number {
    three(states, pairs).err().unwrap_or(0)
}

/// Task 2 is the station and idle, task 3 the lap task.
const STATION_IDLE: [u8; 3] = [0, 1, 1];

#[test]
fn a_task_is_not_started_while_its_first_is_idle() {
    let mut executive = three(STATION_IDLE, &[(2, 3)]).expect("accepted");
    let before = executive.items();
    assert_eq!(after(&mut executive, &["0C03000000"]), "1A010001");
    assert_eq!(executive.items(), before, "a refused frame changes nothing");
    assert_eq!(after(&mut executive, &["0C02000000"]), "00010000");
    assert_eq!(after(&mut executive, &["0C03000000"]), "00010000");
    // Without the pair nothing is asked.
    let mut executive = three(STATION_IDLE, &[]).expect("accepted");
    assert_eq!(after(&mut executive, &["0C03000000"]), "00010000");
}

#[test]
fn a_first_that_is_suspended_or_waits_does_not_refuse() {
    // Task 1 waits on semaphore 1, task 2 does something of its own, the interrupt exit wakes task 1.
    let waits = [
        &["0A02000000"][..],                                       // task 1 suspends task 2
        &["0100010000", "0A00000000", "1100010000"],               // task 2 suspends itself
        &["0100010000", "0100030000", "1100010000"],               // waits on its own semaphore
        &["0100010000", "0600000000", "1100010000"],               // waits for a message
        &["0100010000", "0D00000001", "1100010000"],               // delays itself
        &["0100010000", "0100030000", "1100010000", "0A02000000"], // waits, and is suspended too
    ];
    for frames in waits {
        let mut executive = three([0, 0, 1], &[(2, 3)]).expect("accepted");
        after(&mut executive, frames);
        assert!(!executive.tasks().get(2).blocks().is_empty(), "{frames:?}");
        let last = after(&mut executive, &["0C03000000"]);
        assert!(last.starts_with("00"), "{frames:?}: {last}");
    }
}

/// An idle first refuses also if it is suspended besides.
#[test]
fn idle_is_the_idle_block_alone() {
    let mut executive = three(STATION_IDLE, &[(2, 3)]).expect("accepted");
    assert_eq!(after(&mut executive, &["0A02000000", "0C03000000"]), "1A010000");
    assert!(executive.tasks().get(2).blocks().has(Block::Suspended));
}

#[test]
fn the_order_of_26() {
    // 20 is earlier: the only runnable task ends itself.
    let mut executive = three(STATION_IDLE, &[(2, 3)]).expect("accepted");
    assert_eq!(after(&mut executive, &["0B00000000", "0C03000000"]), "14000000");
    // 5 is earlier: task 3 runs, its first has ended itself, and it names itself.
    let mut executive = three([1, 0, 0], &[(2, 3)]).expect("accepted");
    assert_eq!(after(&mut executive, &["0B00000000"]), "00030001");
    assert_eq!(after(&mut executive, &["0C03000000"]), "05030001");
    // 2 is earlier, both for a frame of four bytes and for one of six.
    let mut executive = three(STATION_IDLE, &[(2, 3)]).expect("accepted");
    assert_eq!(after(&mut executive, &["0C030000"]), "02010001");
    assert_eq!(after(&mut executive, &["0C0300000000"]), "02010001");
    // The fields that execute does not use are not looked at.
    assert_eq!(after(&mut executive, &["0C03FFFFFF"]), "1A010001");
}

#[test]
fn terminating_a_first_leaves_the_others_running() {
    let mut executive = three([0, 0, 0], &[(1, 3), (2, 3)]).expect("accepted");
    assert_eq!(after(&mut executive, &["0B02000000"]), "00010000");
    assert!(executive.tasks().get(3).blocks().is_empty());
    assert_eq!(after(&mut executive, &["0B00000000"]), "00030001");
    // And the task whose firsts are idle is not started a second time, not even while it is runnable.
    let mut executive = three([0, 0, 0], &[(2, 3)]).expect("accepted");
    assert_eq!(after(&mut executive, &["0B02000000", "0C03000000"]), "1A010000");
    assert!(executive.tasks().get(3).blocks().is_empty());
}

#[test]
fn any_of_several_firsts_refuses() {
    for pairs in [[(1, 3), (2, 3)], [(2, 3), (1, 3)]] {
        let mut executive = three(STATION_IDLE, &pairs).expect("accepted");
        assert_eq!(after(&mut executive, &["0C03000000"]), "1A010001");
        assert_eq!(after(&mut executive, &["0C02000000", "0C03000000"]), "00010000");
    }
    // The last of 64, behind 63 of a task that runs.
    let mut pairs = vec![(1, 3); 63];
    pairs.push((2, 3));
    let mut executive = three(STATION_IDLE, &pairs).expect("accepted");
    assert_eq!(after(&mut executive, &["0C03000000"]), "1A010001");
    assert_eq!(after(&mut executive, &["0C02000000", "0C03000000"]), "00010000");
}

/// A pair binds its own second task alone, and in one direction.
#[test]
fn a_pair_binds_its_then_alone() {
    let mut executive = three([0, 1, 1], &[(2, 3)]).expect("accepted");
    assert_eq!(after(&mut executive, &["0C02000000"]), "00010000");
    // In a chain the nearest first counts: task 3 starts behind task 2, though task 1 has ended.
    let mut executive = three([0, 0, 1], &[(1, 2), (2, 3)]).expect("accepted");
    assert_eq!(after(&mut executive, &["0B00000000"]), "00020001");
    assert_eq!(after(&mut executive, &["0C03000000"]), "00020000");
}

#[test]
fn no_frame_changes_the_pairs() {
    let mut executive = three([0, 0, 1], &[(2, 3)]).expect("accepted");
    let round = ["0B02000000", "0C03000000", "0C02000000", "0C03000000", "0B03000000"];
    for _ in 0..3 {
        let answers: Vec<String> = round.iter().map(|frame| after(&mut executive, &[frame])).collect();
        assert_eq!(answers, ["00010000", "1A010000", "00010000", "00010000", "00010000"]);
    }
}

#[test]
fn pairs_that_are_accepted() {
    assert_eq!(refusal([0, 0, 0], &[]), 0);
    assert_eq!(refusal([0, 0, 0], &[(1, 2)]), 0);
    assert_eq!(refusal([0, 0, 0], &[(1, 3), (2, 3), (1, 2)]), 0, "several firsts, and a chain");
    assert_eq!(refusal([0, 0, 0], &[(1, 3), (1, 3)]), 0, "a pair twice");
    assert_eq!(refusal([0, 0, 0], &[(2, 3); 64]), 0, "64 pairs");
    assert_eq!(refusal([1, 1, 1], &[(1, 2), (2, 3)]), 0, "idle behind an idle first");
    assert_eq!(refusal([0, 1, 1], &[(1, 2)]), 0, "idle behind a runnable first");
}

#[test]
fn pairs_that_are_refused() {
    assert_eq!(refusal([0, 0, 0], &[(0, 1)]), CONFIGURATION);
    assert_eq!(refusal([0, 0, 0], &[(1, 0)]), CONFIGURATION);
    assert_eq!(refusal([0, 0, 0], &[(3, 4)]), CONFIGURATION, "T + 1");
    assert_eq!(refusal([0, 0, 0], &[(4, 5)]), CONFIGURATION);
    assert_eq!(refusal([0, 0, 0], &[(1, 255)]), CONFIGURATION);
    assert_eq!(refusal([0, 0, 0], &[(2, 2)]), CONFIGURATION, "equal");
    assert_eq!(refusal([0, 0, 0], &[(3, 1)]), CONFIGURATION, "the first is the higher");
    assert_eq!(refusal([1, 0, 0], &[(1, 2)]), CONFIGURATION, "runnable behind an idle first");
    assert_eq!(refusal([0, 1, 0], &[(1, 3), (2, 3)]), CONFIGURATION, "behind the second of two firsts");
    let mut pairs = [(1, 2); 64];
    pairs[63] = (2, 1);
    assert_eq!(refusal([0, 0, 0], &pairs), CONFIGURATION, "the last of 64");
}

#[test]
fn the_length_of_the_pairs() {
    let refused = |rest: &[u8]| Executive::configure(&three_bytes([0, 0, 0], rest)).err().unwrap_or(0);
    assert_eq!(refused(&[1, 2].repeat(64)), 0);
    assert_eq!(refused(&[1, 2].repeat(65)), LENGTH);
    assert_eq!(refused(&[1, 2].repeat(66)), LENGTH);
    for odd in [1, 3, 127, 129] {
        assert_eq!(refused(&vec![1; odd]), LENGTH, "{odd} bytes");
    }
    // The length comes before the rest, and behind the first eight bytes.
    assert_eq!(refused(&[2, 1].repeat(65)), LENGTH);
    assert_eq!(refused(&[9]), LENGTH);
    assert_eq!(Executive::configure(&three_bytes([9, 0, 0], &[1])).err(), Some(LENGTH));
    let no_tick = [&[3, 1, 0, 1, 1, 0, 0, 1][..], &[0, 0, 0], &[1]].concat();
    assert_eq!(Executive::configure(&no_tick).err(), Some(CONFIGURATION));
    let short = three_bytes([0, 0, 0], &[]);
    assert_eq!(Executive::configure(&short[..10]).err(), Some(LENGTH));
}

/// Behind the queues' bytes, of which there are as many as the third byte says.
#[test]
fn pairs_lie_behind_the_queues() {
    let both = |queues: u8, rest: &[u8]| {
        let frame = [&[2, 0, queues, 0, 0, 1, 0, 1], &[0, 0][..], rest].concat();
        Executive::configure(&frame).map(|executive| {
            let configuration = executive.configuration();
            (configuration.queues.len(), configuration.pairs.len())
        })
    };
    assert_eq!(both(1, &[1, 2]), Ok((1, 0)));
    assert_eq!(both(1, &[1, 2, 1, 2]), Ok((1, 1)));
    assert_eq!(both(2, &[1, 2, 1, 2]), Ok((2, 0)));
    assert_eq!(both(0, &[1, 2, 1, 2]), Ok((0, 2)));
    assert_eq!(both(2, &[1, 2]), Err(LENGTH));
}
