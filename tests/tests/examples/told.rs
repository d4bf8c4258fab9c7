//! Document 02, W2: a signal tells whom it woke.

use plain_executive::tasks::Block;

use crate::{after, configured};

/// Three tasks, one named semaphore, a queue of width and depth 1, a timer.
const THREE: &str = "03010101000100010000000101";

#[test]
fn a_signal_tells_whom_it_woke() {
    let mut executive = configured(THREE);
    assert_eq!(after(&mut executive, &["0200010000"]), "0001000600");
    assert_eq!(after(&mut executive, &["0300010000", "0100020000", "0100010000"]), "00030001");
    // Task 3 wakes task 2, which runs first; task 3 is told once it runs again.
    assert_eq!(after(&mut executive, &["0200010000"]), "0002000501");
    assert_eq!(after(&mut executive, &["0100010000"]), "0003000602");
    // An interrupt exit wakes too, and tells nobody: task 2 waits again, and task 3 shows what it was told before.
    assert_eq!(after(&mut executive, &["1100010000"]), "0002000501");
    assert_eq!(after(&mut executive, &["0100010000"]), "0003000602");
}

#[test]
fn a_woken_task_that_is_suspended_is_told() {
    let mut executive = configured(THREE);
    let frames = ["0100020000", "0100010000", "0A02000000", "0200010000"];
    assert_eq!(after(&mut executive, &frames), "0003000602");
    assert!(executive.tasks().get(2).blocks().has(Block::Suspended));
    assert!(!executive.tasks().get(2).blocks().has(Block::EventWait));
}

#[test]
fn a_woken_task_that_waits_again_in_the_same_frame_is_told() {
    let mut executive = configured(THREE);
    let frames = [
        "0100010000",   // task 1 waits on semaphore 1
        "0701000000",   // task 2 waits on the empty queue
        "1100010000",   // the interrupt exit wakes task 1
        "080100000041", // task 1 puts, which wakes task 2
        "0D02000005",   // delays task 2, whose request is open, on its own semaphore, 3
        "0701000000",   // takes the entry itself
        "0100010000",   // and waits: task 3 begins
    ];
    assert_eq!(after(&mut executive, &frames), "00030001");
    // Task 3 signals semaphore 3: task 2 runs, finds the queue empty, and has event wait again.
    assert_eq!(after(&mut executive, &["0200030000"]), "0003010602");
    assert!(executive.tasks().get(2).blocks().has(Block::EventWait));
}
