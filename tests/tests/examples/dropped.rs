//! Document 02, W6: a dropped message frees its sender.

use plain_executive::executive::Executive;
use plain_executive::generator::{freed_with_a_request, Script};
use plain_executive::items::{Items, OutcomeItem, RequestItem};
use plain_executive::semaphore::Semaphore;
use plain_executive::tasks::{Block, Blocks, Letter};
use plain_executive::trail::Event;

use crate::{after, answer, configured, frame};

/// Four tasks, two named semaphores, a queue of width and depth 1, a timer, four messages. The semaphore of task t is 2 + t.
const FOUR: &str = "0402010104010001000000000101";

/// After these frames, each of which is answered so.
fn four(lines: &[(&str, &str)]) -> Executive {
    let mut executive = configured(FOUR);
    go_on(&mut executive, lines);
    executive
}

fn go_on(executive: &mut Executive, lines: &[(&str, &str)]) {
    for (place, (frame, answer)) in lines.iter().enumerate() {
        assert_eq!(after(executive, &[frame]), *answer, "line {place}, {frame}");
    }
}

/// What is there now is what a fresh start has, but for this.
fn has(executive: &Executive, change: impl Fn(&mut Items)) {
    let mut items = configured(FOUR).items();
    change(&mut items);
    assert_eq!(executive.items(), items);
}

/// This task has these blocks, or none, and this outcome.
fn is<const N: usize>(items: &mut Items, task: usize, blocks: [Block; N], outcome: OutcomeItem) {
    items.tasks[task - 1].blocks = Blocks::of(blocks);
    items.tasks[task - 1].outcome = outcome;
}

fn state(items: &mut Items, semaphore: usize, state: Semaphore) {
    items.semaphores[semaphore - 1] = state;
}

#[test]
fn terminate_frees_a_task_that_waits_with_sendw() {
    let mut executive = four(&[
        ("0100010000", "00020001"), // task 1 waits on semaphore 1
        ("0504000001", "00030001"), // task 2 sends message 1 to task 4, and waits on its own semaphore
    ]);
    assert_eq!(executive.semaphore(4), Semaphore::Waiting(2));
    // Task 3 terminates task 4: task 2 runs, with the outcome of its sendw.
    go_on(&mut executive, &[("0B04000000", "0002000504")]);
    has(&executive, |items| {
        is(items, 1, [Block::EventWait], OutcomeItem::Semaphore(1));
        is(items, 2, [], OutcomeItem::Semaphore(4));
        is(items, 3, [], OutcomeItem::Plain);
        is(items, 4, [Block::Idle], OutcomeItem::Plain);
        state(items, 1, Semaphore::Waiting(1));
    });
}

/// The caller is told nothing, whether a task lost its wait or not.
#[test]
fn terminate_makes_pending_done() {
    let mut executive = four(&[
        ("0404010001", "0001000501"), // task 1 sends message 1 to task 4 with semaphore 1
        ("0B04000000", "00010000"),   // and terminates it
    ]);
    has(&executive, |items| {
        is(items, 1, [], OutcomeItem::Plain);
        is(items, 4, [Block::Idle], OutcomeItem::Plain);
        state(items, 1, Semaphore::Done);
    });
    // The messages of an idle task signal too: the wait on semaphore 2 goes on.
    go_on(&mut executive, &[("0404020001", "0001000502"), ("0B04000000", "00010000"), ("0100020000", "0001000502")]);
    // DONE stays DONE: one wait goes on, the next one waits.
    go_on(
        &mut executive,
        &[
            ("0404010001", "0001000501"),
            ("0B04000000", "00010000"),
            ("0100010000", "0001000501"),
            ("0100010000", "00020001"),
        ],
    );
}

/// Its wait is withdrawn first, so the message finds PENDING.
#[test]
fn the_semaphore_that_the_terminated_task_waited_on_ends_done() {
    let mut executive = four(&[
        ("0402010001", "0001000501"), // task 1 sends message 1 to task 2 with semaphore 1
        ("0100020000", "00020001"),   // and waits on semaphore 2
        ("0100010000", "00030001"),   // task 2 waits on semaphore 1
        ("0B02000000", "00030000"),   // task 3 terminates task 2
    ]);
    has(&executive, |items| {
        is(items, 1, [Block::EventWait], OutcomeItem::Semaphore(2));
        is(items, 2, [Block::Idle], OutcomeItem::Plain);
        is(items, 3, [], OutcomeItem::Plain);
        state(items, 1, Semaphore::Done);
        state(items, 2, Semaphore::Waiting(1));
    });
    go_on(&mut executive, &[("0100010000", "0003000501"), ("0100010000", "00040001")]);
}

/// The same of a task that sends to itself and waits for its own receipt.
#[test]
fn a_task_that_sent_to_itself_with_sendw_leaves_its_semaphore_done() {
    let executive = four(&[
        ("0501000001", "00020001"), // task 1 sends message 1 to itself, and waits
        ("0B01000000", "00020000"), // task 2 terminates it
    ]);
    has(&executive, |items| {
        is(items, 1, [Block::Idle], OutcomeItem::Plain);
        is(items, 2, [], OutcomeItem::Plain);
        state(items, 3, Semaphore::Done);
    });
}

#[test]
fn of_two_senders_the_lower_one_runs() {
    let mut executive = four(&[
        ("0504000001", "00020001"),   // task 1 sends message 1 to task 4, and waits
        ("0504000002", "00030001"),   // task 2 sends message 2 to it, and waits
        ("0B04000000", "0001000503"), // task 3 terminates it
    ]);
    has(&executive, |items| {
        is(items, 1, [], OutcomeItem::Semaphore(3));
        is(items, 2, [], OutcomeItem::Semaphore(4));
        is(items, 3, [], OutcomeItem::Plain);
        is(items, 4, [Block::Idle], OutcomeItem::Plain);
    });
    go_on(&mut executive, &[("0A00000000", "0002000504"), ("0A00000000", "00030000")]);
}

/// Messages 1, 2 and 3 of tasks 3, 1 and 2: the lowest sender's signals first.
#[test]
fn the_messages_signal_in_the_order_of_the_mailbox() {
    let mut executive = four(&[
        ("0100010000", "00020001"),   // task 1 waits on semaphore 1
        ("0100020000", "00030001"),   // task 2 waits on semaphore 2
        ("0504000001", "00040001"),   // task 3 sends message 1 to task 4, and waits
        ("1100010000", "0001000501"), // the interrupt exit wakes task 1
        ("0504000002", "00040001"),   // which sends message 2, and waits
        ("1100020000", "0002000502"), // the interrupt exit wakes task 2
        ("0504000003", "00040001"),   // which sends message 3, and waits
    ]);
    let mut events = Vec::new();
    executive.frame_noting(&frame("0B00000000"), &mut events);
    let woken = [(1, 3), (2, 4), (3, 5)].map(|(task, semaphore)| Event::Woken { task, semaphore });
    assert_eq!(events, woken);
    assert_eq!(executive.running(), 1);
}

#[test]
fn a_semaphore_in_two_messages_is_signalled_twice() {
    let mut executive = four(&[
        ("0404000001", "0001000503"), // task 1 sends message 1 to task 4 with its own semaphore
        ("0504000002", "00020001"),   // and message 2, with which it waits
        ("0B04000000", "0001000503"), // task 2 terminates task 4
    ]);
    has(&executive, |items| {
        is(items, 1, [], OutcomeItem::Semaphore(3));
        is(items, 2, [], OutcomeItem::Plain);
        is(items, 4, [Block::Idle], OutcomeItem::Plain);
        state(items, 3, Semaphore::Done);
    });
    go_on(&mut executive, &[("0100000000", "0001000503"), ("0100000000", "00020000")]);
}

#[test]
fn a_task_terminates_itself_with_messages_lying() {
    let executive = four(&[
        ("0504000001", "00020001"),   // task 1 sends message 1 to task 4, and waits
        ("0404010002", "0002000501"), // task 2 sends message 2 to it with semaphore 1
        ("0504000003", "00030001"),   // and message 3, and waits
        ("0A00000000", "00040001"),   // task 3 suspends itself
        ("0404000004", "0004000506"), // task 4 sends message 4 to itself
        ("0B00000000", "0001000503"), // and terminates itself
    ]);
    has(&executive, |items| {
        is(items, 1, [], OutcomeItem::Semaphore(3));
        is(items, 2, [], OutcomeItem::Semaphore(4));
        is(items, 3, [Block::Suspended], OutcomeItem::Plain);
        is(items, 4, [Block::Idle], OutcomeItem::Plain);
        state(items, 1, Semaphore::Done);
        state(items, 6, Semaphore::Done);
    });
}

/// Task 2, that never ran, is delayed by another, and a message with the semaphore of its delay is dropped. Its timer stays.
#[test]
fn a_freed_task_runs_with_the_outcome_that_it_had() {
    let executive = four(&[
        ("0D02010005", "00010000"),   // task 1 delays task 2 on semaphore 1
        ("0404010001", "0001000501"), // sends message 1 to task 4 with semaphore 1
        ("0100020000", "00030001"),   // and waits on semaphore 2
        ("0B04000000", "00020001"),   // task 3 terminates task 4: task 2 begins
    ]);
    has(&executive, |items| {
        is(items, 1, [Block::EventWait], OutcomeItem::Semaphore(2));
        is(items, 3, [], OutcomeItem::Plain);
        is(items, 4, [Block::Idle], OutcomeItem::Plain);
        state(items, 2, Semaphore::Waiting(1));
        items.timers = executive.items().timers;
    });
    let timers: Vec<_> = executive.timers().active().iter().map(|timer| (timer.task, timer.semaphore)).collect();
    assert_eq!(timers, [(2, 1)]);
}

#[test]
fn a_freed_task_that_is_suspended_stays_so() {
    let mut executive = four(&[
        ("0504000001", "00020001"), // task 1 sends message 1 to task 4, and waits
        ("0A01000000", "00020000"), // task 2 suspends task 1
        ("0B04000000", "00020000"), // and terminates task 4
    ]);
    has(&executive, |items| {
        is(items, 1, [Block::Suspended], OutcomeItem::Semaphore(3));
        is(items, 2, [], OutcomeItem::Plain);
        is(items, 4, [Block::Idle], OutcomeItem::Plain);
    });
    go_on(&mut executive, &[("0901000000", "0001000503")]);
}

/// Messages for others stay, those that the terminated task sent too, and signal nothing. The dropped ones can be sent again.
#[test]
fn other_mailboxes_stay() {
    let mut executive = four(&[
        ("0402010001", "0001000501"), // task 1 sends message 1 to task 2 with semaphore 1
        ("0403020002", "0001000502"), // message 2 to task 3 with semaphore 2
        ("0402000003", "0001000503"), // message 3 to task 2 with its own
        ("0100060000", "00020001"),   // and waits on that of task 4
        ("0503000004", "00030001"),   // task 2 sends message 4 to task 3, and waits
        ("0B02000000", "00030000"),   // task 3 terminates task 2
    ]);
    has(&executive, |items| {
        is(items, 1, [Block::EventWait], OutcomeItem::Semaphore(6));
        is(items, 2, [Block::Idle], OutcomeItem::Plain);
        is(items, 3, [], OutcomeItem::Plain);
        state(items, 1, Semaphore::Done);
        state(items, 3, Semaphore::Done);
        state(items, 6, Semaphore::Waiting(1));
        let sent = [(2, 1, 2), (4, 2, 4)];
        items.mailboxes[2] = sent.map(|(message, sender, semaphore)| Letter { message, sender, semaphore }).to_vec();
    });
    go_on(&mut executive, &[("0404000001", "0003000505"), ("0404000002", "1603000505")]);
}

/// A task waits with an open request on a semaphore that can be named if it was woken at a queue and then delayed, before it ran.
/// Task 2 is such a one, on semaphore 1, and task 4 has a message with it. Task 1 runs. So are the first frames answered.
const DELAYED_WITH_A_REQUEST: [&str; 6] = [
    "00020001",   // task 1 waits on semaphore 1
    "00030001",   // task 2 waits on the empty queue
    "0001000501", // the interrupt exit wakes task 1
    "00010000",   // which puts 1, and so wakes task 2
    "00010000",   // delays it
    "0001000501", // and sends message 1 to task 4
];

/// What is there after a session that begins so, and whose other frames are answered with the rest.
fn settled(Script { configuration, frames }: Script, rest: &[&str]) -> Items {
    let mut executive = Executive::configure(&configuration).expect("an accepted configuration");
    let answers: Vec<String> = frames.iter().map(|frame| answer(&mut executive, frame)).collect();
    assert_eq!(answers, [&DELAYED_WITH_A_REQUEST, rest].concat());
    executive.items()
}

/// Semaphores have the numbers that FOUR gives them, and 7 is the queue's not-empty.
#[test]
fn a_freed_task_settles() {
    let [completes, waits_again, meets_21, makes_room] = freed_with_a_request();
    // It completes: task 1 waits on semaphore 2, and task 3 terminates task 4.
    settled(completes, &["00030001", "0002010301"]);
    // It waits again, for task 1 took the entry: on the queue's semaphore, and no longer on 1.
    let items = settled(waits_again, &["0001000301", "00030001", "00030100"]);
    assert_eq!((items.semaphores[0], items.semaphores[6]), (Semaphore::Pending, Semaphore::Waiting(2)));
    assert_eq!(items.tasks[1].blocks, Blocks::of([Block::EventWait]));
    assert_eq!(items.tasks[1].request, RequestItem::Dequeue(1));
    // It meets 21, for task 3 waits there by now. Task 4 terminates itself.
    let items = settled(meets_21, &["0001000301", "00030001", "00040001", "0002010415"]);
    assert_eq!(items.tasks[1].request, RequestItem::None);
    assert_eq!(items.semaphores[6], Semaphore::Waiting(3));
    // It completes, so task 1, which waits for room, puts and runs: neither the caller, task 3, nor the freed task does.
    let items = settled(makes_room, &["00030001", "00010200"]);
    assert_eq!(items.tasks[1].outcome, OutcomeItem::Entry(vec![1]));
    assert_eq!(items.queues, [[[1]]]);
}

/// Execute drops nothing.
#[test]
fn execute_frees_no_sender() {
    let executive = four(&[
        ("0504000001", "00020001"), // task 1 sends message 1 to task 4, and waits
        ("0C04000000", "00020000"), // task 2 executes task 4
    ]);
    has(&executive, |items| {
        is(items, 1, [Block::EventWait], OutcomeItem::Semaphore(3));
        is(items, 2, [], OutcomeItem::Plain);
        state(items, 3, Semaphore::Waiting(1));
        items.mailboxes[3] = vec![Letter { message: 1, sender: 1, semaphore: 3 }];
    });
}
