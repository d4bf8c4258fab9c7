//! Document 02, W5: the brake module as a second caller.

use plain_executive::executive::Executive;
use plain_executive::limits::Limits;
use plain_executive::numbers::{Number, ABOVE_MODULE, CONFIGURATION, LENGTH};

/// The numbers of the controller and of the module for T, S, Q, R and G, the queues' bytes and what stands behind them.
fn numbers([tasks, named, queues, timers, messages]: [u8; 5], rest: &[u8]) -> [Number; 2] {
    let frame = [&[tasks, named, queues, timers, messages, 1, 0, 1], &vec![0; tasks.into()][..], rest].concat();
    [Limits::CONTROLLER, Limits::MODULE].map(|limits| Executive::configure_within(limits, &frame).err().unwrap_or(0))
}

#[test]
fn what_the_module_has_room_for() {
    let all = [16, 223, 8, 8, 8];
    assert_eq!(numbers(all, &[1, 32].repeat(8)), [0, 0]);
    for (place, name) in [(0, "tasks"), (2, "queues"), (3, "timers"), (4, "messages")] {
        let mut more = [16, 200, 8, 8, 8];
        more[place] += 1;
        let queues = more[2].into();
        assert_eq!(numbers(more, &[1, 28].repeat(queues)), [0, ABOVE_MODULE], "{name}");
    }
    assert_eq!(numbers([2, 0, 2, 0, 0], &[16, 15, 1, 16]), [0, 0]);
    assert_eq!(numbers([2, 0, 2, 0, 0], &[16, 15, 1, 17]), [0, ABOVE_MODULE], "queue bytes");
}

#[test]
fn every_other_number_comes_before_27() {
    let above = [17, 0, 0, 9, 9];
    assert_eq!(numbers(above, &[1, 2]), [0, ABOVE_MODULE]);
    assert_eq!(numbers(above, &[1]), [LENGTH; 2]);
    assert_eq!(numbers(above, &[1, 2].repeat(65)), [LENGTH; 2]);
    assert_eq!(numbers(above, &[2, 1]), [CONFIGURATION; 2], "a pair");
    assert_eq!(numbers([17, 0, 1, 9, 9], &[0, 1]), [CONFIGURATION; 2], "a width");
    assert_eq!(numbers([17, 239, 0, 9, 9], &[]), [CONFIGURATION; 2], "256 semaphores");
    assert_eq!(numbers([127, 0, 0, 0, 0], &[]), [CONFIGURATION; 2], "above both");
    assert_eq!(numbers([1, 0, 0, 65, 0], &[]), [CONFIGURATION; 2], "above both");
}
