//! What holds after every frame of every random session.

use std::cell::Cell;

use plain_executive::answer::Answer;
use plain_executive::command::{EXECUTE, SEASON_TIMER, SIGNAL, TERMINATE, TIMER};
use plain_executive::coverage::causes::causes;
use plain_executive::executive::Executive;
use plain_executive::generator::{cascade, prepared, release, Generator, Script, RELEASES};
use plain_executive::items::{OutcomeItem, RequestItem, TaskItem};
use plain_executive::semaphore::Semaphore;
use plain_executive::tasks::{Block, Blocks, Outcome, Request};

const SESSIONS: u64 = 600;
const FRAMES: usize = 200;

struct Step<'a> {
    configuration: &'a [u8],
    before: Executive,
    frame: Vec<u8>,
    answer: Answer,
    after: Executive,
}

/// Every frame of every session.
fn each_step(holds: impl Fn(&Step)) {
    let random = (0..SESSIONS).map(|seed| Generator::new(seed).script(tasks(seed), FRAMES));
    for Script { configuration, frames } in random.chain(prepared()) {
        let mut before = Executive::configure(&configuration).expect("an accepted configuration");
        before.keep_history();
        for frame in frames {
            let mut after = before.clone();
            let answer = after.frame(&frame);
            let step = Step { configuration: &configuration, before, frame, answer, after };
            holds(&step);
            before = step.after;
        }
    }
}

fn tasks(seed: u64) -> std::ops::RangeInclusive<u8> {
    match seed % 20 {
        0 => 1..=1,
        1 => 126..=126,
        _ => 2..=20,
    }
}

#[test]
fn a_refused_frame_changes_nothing() {
    each_step(|step| {
        if step.answer.refusal() != 0 {
            assert_eq!(step.before.items(), step.after.items());
            assert_eq!(step.before.clock().tocks(), step.after.clock().tocks());
            assert_eq!(step.answer.reissues(), 0);
            assert_eq!(step.answer.bytes()[1..], step.before.answer(0, 0).bytes()[1..]);
        }
    });
}

#[test]
fn the_first_cause_is_the_refusal() {
    each_step(|step| {
        let first = causes(&step.before, &step.frame).first().copied();
        assert_eq!(step.answer.refusal(), first.unwrap_or(0), "{:02X?}", step.frame);
    });
}

#[test]
fn the_lowest_runnable_task_runs() {
    each_step(|step| {
        let items = step.after.items();
        let lowest = items.tasks.iter().position(|task| task.blocks.is_empty());
        assert_eq!(usize::from(step.answer.running()), lowest.map_or(0, |place| place + 1));
    });
}

#[test]
fn reissues_are_at_most_twice_the_tasks() {
    each_step(|step| {
        let most = 2 * u32::from(step.after.configuration().tasks);
        assert!(u32::from(step.answer.reissues()) <= most);
    });
}

#[test]
fn copied_and_held_is_what_was_put() {
    each_step(|step| {
        let histories = step.after.history().expect("kept");
        for (queue, history) in (1u8..).zip(histories) {
            let seen = [history.copied.clone(), step.after.held(queue)].concat();
            assert_eq!(seen, history.put);
        }
    });
}

/// What a frame adds to what was copied stands in slots when the frame ends, each entry in that of another task, whose
/// outcome it is; no other slot changes.
#[test]
fn what_was_copied_stands_in_slots() {
    each_step(|step| {
        let (before, after) = (step.before.items(), step.after.items());
        let histories = step.before.history().expect("kept").iter().zip(step.after.history().expect("kept"));
        let mut takers: Vec<usize> = Vec::new();
        for entry in histories.flat_map(|(old, new)| &new.copied[old.copied.len()..]) {
            let took =
                |task: &TaskItem| task.slot.starts_with(entry) && task.outcome == OutcomeItem::Entry(entry.clone());
            let mut places =
                (0..after.tasks.len()).filter(|place| took(&after.tasks[*place]) && !takers.contains(place));
            takers.push(places.next().expect("a task that took the entry"));
        }
        let changed = before.tasks.iter().zip(&after.tasks).filter(|(old, new)| old.slot != new.slot).count();
        assert!(changed <= takers.len(), "{changed} slots changed for {} entries", takers.len());
    });
}

#[test]
fn waits_and_semaphores_agree() {
    each_step(|step| {
        let after = &step.after;
        for task in 1..=after.configuration().tasks {
            let waited_on: Vec<u8> = (1..=after.configuration().semaphores())
                .filter(|&number| after.semaphore(number) == Semaphore::Waiting(task))
                .collect();
            let waits = after.tasks().get(task).blocks().has(Block::EventWait);
            assert_eq!(waited_on.len(), usize::from(waits));
            assert_eq!(waited_on.first().copied().unwrap_or(0), after.tasks().get(task).waits_on);
        }
    });
}

/// By the blocks and the semaphores before the frame alone.
#[test]
fn a_signal_tells_the_task_that_lost_its_event_wait() {
    each_step(|step| {
        if step.answer.refusal() != 0 || step.frame[0] != SIGNAL {
            return;
        }
        let (before, caller) = (&step.before, step.before.running());
        let named = if step.frame[2] == 0 { before.configuration().semaphore_of_task(caller) } else { step.frame[2] };
        let lost = |&task: &u8| {
            let waited = before.tasks().get(task).blocks().has(Block::EventWait);
            waited && before.semaphore(named) == Semaphore::Waiting(task)
        };
        let woken = (1..=before.configuration().tasks).find(lost).unwrap_or(0);
        assert_eq!(step.after.tasks().get(caller).outcome, Outcome::Woke(woken), "{:02X?}", step.frame);
        if step.answer.running() == caller {
            assert_eq!(step.answer.bytes()[3..], [6, woken], "{:02X?}", step.frame);
        }
    });
}

/// Ticks, interrupt exits, queues and terminates wake too, and tell nobody.
#[test]
fn only_the_caller_of_a_signal_is_told() {
    each_step(|step| {
        let told = |executive: &Executive, task: u8| match executive.tasks().get(task).outcome {
            Outcome::Woke(woken) => Some(woken),
            _ => None,
        };
        for task in 1..=step.after.configuration().tasks {
            let asked = step.frame.first() == Some(&SIGNAL) && task == step.before.running();
            let (was, is) = (told(&step.before, task), told(&step.after, task));
            assert!(asked || is.is_none() || is == was, "task {task}: {was:?}, {is:?}, {:02X?}", step.frame);
        }
    });
}

/// By the bytes of the configuration and the blocks before the frame alone. And refused with 26 is nothing else.
#[test]
fn no_task_is_started_while_a_first_is_idle() {
    each_step(|step| {
        let idle = |task: u8| step.before.tasks().get(task).blocks().has(Block::Idle);
        let named = |then: u8| step.frame.first() == Some(&EXECUTE) && step.frame.get(1) == Some(&then);
        let mut pairs = pairs_of(step.configuration);
        let before_first = pairs.any(|(first, then)| named(then) && idle(first));
        let number = step.answer.refusal();
        assert!(number != 0 || !before_first, "{:02X?}", step.frame);
        assert!(number != 26 || before_first, "{:02X?}", step.frame);
    });
}

/// The bytes behind the queues, two by two.
fn pairs_of(configuration: &[u8]) -> impl Iterator<Item = (u8, u8)> + '_ {
    let behind = 8 + usize::from(configuration[0]) + 2 * usize::from(configuration[2]);
    configuration[behind..].chunks(2).map(|pair| (pair[0], pair[1]))
}

/// After any frame they are what the configuration's bytes say.
#[test]
fn the_pairs_never_change() {
    let some = Cell::new(0);
    each_step(|step| {
        let pairs = &step.after.configuration().pairs;
        assert!(pairs.iter().map(|pair| (pair.first, pair.then)).eq(pairs_of(step.configuration)));
        some.set(some.get() + usize::from(!pairs.is_empty()));
    });
    assert!(some.get() > 20_000, "{} frames behind a configuration with pairs", some.get());
}

/// Every accepted terminate, with the task that it ends.
fn each_terminate(holds: impl Fn(&Step, u8)) {
    each_step(|step| {
        if step.answer.refusal() == 0 && step.frame[0] == TERMINATE {
            let ended = if step.frame[1] == 0 { step.before.running() } else { step.frame[1] };
            holds(step, ended);
        }
    });
}

/// How many messages with this semaphore lay in the mailbox of the task that ended.
fn dropped(step: &Step, ended: u8, semaphore: u8) -> usize {
    step.before.mailboxes().letters(ended).filter(|letter| letter.semaphore == semaphore).count()
}

/// The task waited on a semaphore of a dropped message.
fn is_freed(step: &Step, ended: u8, task: u8) -> bool {
    let numbers = 1..=step.before.configuration().semaphores();
    let waits = |number: u8| step.before.semaphore(number) == Semaphore::Waiting(task);
    task != ended && numbers.into_iter().any(|number| waits(number) && dropped(step, ended, number) > 0)
}

/// Of the blocks those that are not event wait.
fn without_event_wait(blocks: Blocks) -> Blocks {
    let others = [Block::Idle, Block::Suspended, Block::MessageWait];
    Blocks::of(others.into_iter().filter(|&block| blocks.has(block)))
}

/// Nothing of a task but the terminated one is taken away, whatever the pairs say, but for the event wait of one whom a dropped
/// message frees: the others' blocks and outcomes stay, but for those whom settling reaches.
#[test]
fn terminating_a_first_leaves_the_others_running() {
    each_terminate(|step, ended| {
        let (before, after) = (step.before.items(), step.after.items());
        for (task, (old, new)) in (1..).zip(before.tasks.iter().zip(&after.tasks)) {
            let freed = is_freed(step, ended, task);
            let blocks = if freed { without_event_wait(old.blocks) } else { old.blocks };
            let reached = step.answer.reissues() > 0 || task == step.before.running();
            let kept = TaskItem { blocks, ..old.clone() };
            assert!(task == ended || reached || kept == *new, "task {task}, {:02X?}", step.frame);
            assert!(task == ended || !new.blocks.has(Block::Idle) || old.blocks.has(Block::Idle), "task {task}");
        }
    });
}

/// Settling touches no semaphore that can be named, so the states are those that the terminate alone leaves: the ended task's own
/// wait is withdrawn, and then each dropped message signals once.
#[test]
fn each_dropped_message_signals_once() {
    let [twice, own] = [0, 0].map(Cell::new);
    each_terminate(|step, ended| {
        for number in 1..=step.before.configuration().nameable_semaphores() {
            let (old, signals) = (step.before.semaphore(number), dropped(step, ended, number));
            let withdrawn = if old == Semaphore::Waiting(ended) { Semaphore::Pending } else { old };
            let expected = match (withdrawn, signals) {
                (state, 0) => state,
                (Semaphore::Waiting(_), 1) => Semaphore::Pending,
                _ => Semaphore::Done,
            };
            assert_eq!(step.after.semaphore(number), expected, "semaphore {number}, {:02X?}", step.frame);
            twice.set(twice.get() + usize::from(withdrawn.is_waiting() && signals == 2));
            own.set(own.get() + usize::from(withdrawn != old && signals > 0));
        }
    });
    assert!(twice.get() > 50 && own.get() > 50, "{} WAITING in two messages, {} withdrawn", twice.get(), own.get());
}

/// It has no event wait, unless its request was issued again and waits at a queue. If it had none, it is runnable or was blocked
/// otherwise, and shows what it had.
#[test]
fn a_freed_task_waits_no_longer() {
    let [plain, open] = [0, 0].map(Cell::new);
    each_terminate(|step, ended| {
        for task in (1..=step.before.configuration().tasks).filter(|&task| is_freed(step, ended, task)) {
            let (old, new) = (step.before.tasks().get(task), step.after.tasks().get(task));
            if old.request == Request::None {
                assert_eq!((new.blocks(), new.outcome), (without_event_wait(old.blocks()), old.outcome));
                plain.set(plain.get() + 1);
            } else {
                let configuration = step.before.configuration();
                let at_its_queue = match new.request {
                    Request::Dequeue(queue) => new.waits_on == configuration.not_empty(queue),
                    Request::Enqueue(queue, _) => new.waits_on == configuration.not_full(queue),
                    _ => false,
                };
                assert!(at_its_queue || !new.blocks().has(Block::EventWait), "task {task}, {:02X?}", step.frame);
                open.set(open.get() + 1);
            }
        }
    });
    assert!(plain.get() > 500 && open.get() > 60, "{} freed, {} with a request", plain.get(), open.get());
}

/// Of the others, a receive that was issued again may have taken one message out.
#[test]
fn only_the_ended_tasks_mailbox_is_emptied() {
    each_terminate(|step, ended| {
        let (before, after) = (step.before.items(), step.after.items());
        for task in 1..=step.before.configuration().tasks {
            let place = usize::from(task) - 1;
            let mut expected = before.mailboxes[place].clone();
            match (&before.tasks[place].request, &after.tasks[place].request, &after.tasks[place].outcome) {
                _ if task == ended => expected.clear(),
                (RequestItem::Receive(_), RequestItem::None, OutcomeItem::Message(taken)) => {
                    expected.retain(|letter| letter != taken);
                }
                _ => {}
            }
            assert_eq!(after.mailboxes[place], expected, "the mailbox of task {task}, {:02X?}", step.frame);
        }
    });
}

/// Whomever it freed, nobody is told; and the ended task is idle and nothing else.
#[test]
fn a_terminate_tells_nobody_whom_it_freed() {
    each_terminate(|step, ended| {
        let after = step.after.items();
        let caller = step.before.running();
        assert_eq!(after.tasks[usize::from(caller) - 1].outcome, OutcomeItem::Plain, "{:02X?}", step.frame);
        let TaskItem { blocks, outcome, request, slot } = &after.tasks[usize::from(ended) - 1];
        assert_eq!((blocks, outcome, request), (&Blocks::of([Block::Idle]), &OutcomeItem::Plain, &RequestItem::None));
        assert_eq!(*slot, step.before.tasks().get(ended).slot);
        assert!(after.timers.iter().all(|timer| timer.task != ended));
        for (old, new) in step.before.items().tasks.iter().zip(&after.tasks) {
            assert!(!matches!(new.outcome, OutcomeItem::Woke(_)) || old.outcome == new.outcome, "{:02X?}", step.frame);
        }
    });
}

#[test]
fn queue_semaphores_are_never_done() {
    each_step(|step| {
        let configuration = step.after.configuration();
        for number in configuration.nameable_semaphores()..configuration.semaphores() {
            assert_ne!(step.after.semaphore(number + 1), Semaphore::Done);
        }
    });
}

#[test]
fn tables_stay_within_their_sizes() {
    each_step(|step| {
        let (items, configuration) = (step.after.items(), step.after.configuration());
        assert!(items.timers.len() <= usize::from(configuration.timers));
        for (held, size) in items.queues.iter().zip(&configuration.queues) {
            assert!(held.len() <= usize::from(size.depth));
        }
        let mut messages: Vec<u8> = items.mailboxes.concat().iter().map(|letter| letter.message).collect();
        let lying = messages.len();
        messages.sort_unstable();
        messages.dedup();
        assert_eq!(messages.len(), lying, "a message lies in two places");
    });
}

#[test]
fn lists_are_in_order() {
    each_step(|step| {
        let items = step.after.items();
        assert!(items.timers.is_sorted_by_key(|timer| timer.tocks_left));
        assert!(items.timers.iter().all(|timer| (1..=1 << 31).contains(&timer.tocks_left)));
        assert!(items.mailboxes.iter().all(|mailbox| mailbox.is_sorted_by_key(|letter| letter.sender)));
        assert!(items.ticks < step.after.configuration().ticks_per_tock);
    });
}

/// A timer of 16 bits as the season timer of the same tocks.
fn widened(frame: &[u8]) -> Option<Vec<u8>> {
    let &[TIMER, a, b, high, low] = frame else { return None };
    let tocks = i32::from(i16::from_be_bytes([high, low])).to_be_bytes();
    Some([&[SEASON_TIMER, a, b], &tocks[..]].concat())
}

#[test]
fn a_timer_in_four_bytes_does_the_same() {
    let (accepted, refused) = (Cell::new(0), Cell::new(0));
    each_step(|step| {
        let Some(season) = widened(&step.frame) else { return };
        let mut after = step.before.clone();
        assert_eq!(after.frame(&season).bytes(), step.answer.bytes(), "{:02X?}", step.frame);
        assert_eq!(after.items(), step.after.items(), "{:02X?}", step.frame);
        let counted = if step.answer.refusal() == 0 { &accepted } else { &refused };
        counted.set(counted.get() + 1);
    });
    assert!(accepted.get() > 1000 && refused.get() > 1000, "{accepted:?} accepted, {refused:?} refused");
}

#[test]
fn restored_from_its_items_it_goes_on_the_same() {
    each_step(|step| {
        let mut restored = Executive::restored(step.before.configuration().clone(), &step.before.items());
        assert_eq!(restored.items(), step.before.items());
        assert_eq!(restored.frame(&step.frame).bytes(), step.answer.bytes(), "{:02X?}", step.frame);
        assert_eq!(restored.items(), step.after.items(), "{:02X?}", step.frame);
    });
}

#[test]
fn the_cascade_counts_98_reissues() {
    let script = cascade();
    let mut executive = Executive::configure(&script.configuration).expect("an accepted configuration");
    let answers: Vec<Answer> = script.frames.iter().map(|frame| executive.frame(frame)).collect();
    assert!(answers.iter().all(|answer| answer.refusal() == 0));
    let last = answers.last().expect("an answer");
    assert_eq!(last.bytes(), [0, 2, 98, 3, 1]);
}

/// Those of the queues wait there again, and the first sender runs, with its own semaphore.
#[test]
fn the_releases_free_as_many_tasks_as_there_are_messages() {
    for (messages, each) in [64, 8].into_iter().zip(RELEASES) {
        let script = release(each);
        let mut executive = Executive::configure(&script.configuration).expect("an accepted configuration");
        let (last, others) = script.frames.split_last().expect("a frame");
        assert!(others.iter().all(|frame| executive.frame(frame).refusal() == 0));
        let waiting = |executive: &Executive| {
            let nameable = 1..=executive.configuration().nameable_semaphores();
            nameable.into_iter().filter(|&number| executive.semaphore(number).is_waiting()).count()
        };
        assert_eq!(waiting(&executive), messages);
        let (queues, sender) = (each.queues, each.queues + 2);
        assert_eq!(executive.frame(last).bytes(), [0, sender, queues, 5, queues + 1 + sender]);
        assert_eq!(waiting(&executive), 0);
    }
}
