//! Document 01's marked examples, and the session that it lists.

use plain_executive::executive::Executive;
use plain_executive::numbers::{CONFIGURATION, MILLISECONDS, TOCK_VALUE};
use plain_executive::semaphore::Semaphore;
use plain_executive::session;
use plain_executive::tasks::Letter;
use plain_executive::tocks::{tock_value, tocks_of_milliseconds, Tocks};

use crate::{after, configured};

#[test]
fn the_listed_session() {
    let input = "020101010101007D00000101\n0701000000\n080100000041\n0D00000002\n\
                 1000000000\n1000000000\n0702000000\n";
    let output = "00010001\n00020001\n0001010341\n00020000\n00020000\n00010000\n07010000\n";
    assert_eq!(session::run(input.as_bytes()), output.as_bytes());
}

#[test]
fn signal_on_pending_and_on_done() {
    let mut executive = configured("010100000001000100");
    assert_eq!(executive.semaphore(1), Semaphore::Pending);
    assert_eq!(after(&mut executive, &["0200010000"]), "0001000600");
    assert_eq!(executive.semaphore(1), Semaphore::Done);
    assert_eq!(after(&mut executive, &["0200010000"]), "0001000600");
    assert_eq!(executive.semaphore(1), Semaphore::Done);
}

#[test]
fn wait_on_done() {
    let mut executive = configured("010100000001000100");
    assert_eq!(after(&mut executive, &["0200010000", "0100010000"]), "0001000501");
    assert_eq!(executive.semaphore(1), Semaphore::Pending);
}

#[test]
fn tock_values() {
    assert_eq!(tock_value(0x7FFF), Ok(Tocks::OneShot(32_767)));
    assert_eq!(tock_value(0xFFFF), Ok(Tocks::Cyclic(1)));
    assert_eq!(tock_value(0x8000), Ok(Tocks::Cyclic(32_768)));
    assert_eq!(tock_value(0x0000), Err(TOCK_VALUE));
}

#[test]
fn tock_values_in_frames() {
    let mut executive = configured("010300040001000100");
    let starts = ["0E00017FFF", "0E0002FFFF", "0E00038000"];
    assert_eq!(after(&mut executive, &starts), "00010000");
    let timers = executive.items().timers;
    let shown: Vec<_> = timers.iter().map(|timer| (timer.semaphore, timer.tocks_left, timer.period)).collect();
    assert_eq!(shown, [(2, 1, 1), (1, 32_767, 0), (3, 32_768, 32_768)]);
    assert_eq!(after(&mut executive, &["0E00000000"]), "09010000");
}

#[test]
fn messages_lie_by_sender() {
    // Task 3 sends message 1, task 1 sends message 2, task 3 sends message 3, all to task 4.
    let mut executive = configured("040200000301000100000000");
    let frames = [
        "0100010000", // task 1 waits on semaphore 1
        "0100020000", // task 2 waits on semaphore 2
        "0404000001", // task 3 sends message 1
        "1100010000", // the interrupt exit wakes task 1
        "0404000002", // task 1 sends message 2
        "0100010000", // task 1 waits again
        "0404000003", // task 3 sends message 3
    ];
    after(&mut executive, &frames);
    let messages: Vec<u8> = executive.mailboxes().letters(4).map(|letter| letter.message).collect();
    assert_eq!(messages, [2, 1, 3]);
    let first = executive.mailboxes().letters(4).next();
    assert_eq!(first, Some(Letter { message: 2, sender: 1, semaphore: 3 }));
}

#[test]
fn most_semaphores() {
    let most = |named: u8| {
        let mut bytes = vec![126, named, 1, 0, 0, 1, 0, 1];
        bytes.extend([0; 126]);
        bytes.extend([1, 1]);
        Executive::configure(&bytes).map(|_| ())
    };
    assert_eq!(most(127), Ok(()));
    assert_eq!(most(128), Err(CONFIGURATION));
}

#[test]
fn milliseconds() {
    assert_eq!(tocks_of_milliseconds(250, 125), Ok(2));
    assert_eq!(tocks_of_milliseconds(249, 125), Ok(2));
    assert_eq!(tocks_of_milliseconds(124, 125), Ok(1));
    assert_eq!(tocks_of_milliseconds(49, 100), Err(MILLISECONDS));
    assert_eq!(tocks_of_milliseconds(50, 100), Ok(1));
    assert_eq!(tocks_of_milliseconds(149, 100), Ok(1));
    assert_eq!(tocks_of_milliseconds(150, 100), Ok(2));
    assert_eq!(tocks_of_milliseconds(32_767, 1), Ok(32_767));
    assert_eq!(tocks_of_milliseconds(32_768, 1), Err(MILLISECONDS));
    assert_eq!(tocks_of_milliseconds(65_534, 2), Ok(32_767));
    assert_eq!(tocks_of_milliseconds(65_535, 2), Err(MILLISECONDS));
    assert_eq!(tocks_of_milliseconds(0, 0), Err(CONFIGURATION));
    assert_eq!(tocks_of_milliseconds(0, 1), Err(MILLISECONDS));
}

#[test]
fn a_reissue_that_meets_21() {
    let mut executive = configured("020101000001000100000101");
    let frames = [
        "0100010000",   // task 1 waits on the named semaphore
        "0701000000",   // task 2 waits on the empty queue
        "1100010000",   // the interrupt exit signals the semaphore
        "080100000041", // task 1 puts
        "0701000000",   // takes
        "0701000000",   // and takes again
    ];
    assert_eq!(after(&mut executive, &frames), "0002010415");
}
