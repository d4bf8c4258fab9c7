//! Every limit of both callers from both sides, with the numbers by hand: in a configuration, and in the frame that the memory keeps.

use c::caller::Caller;
use c::compare::compare;
use c::lent::{parts, Lent, FRAME, PART};
use plain_executive::configuration::Configuration;
use plain_executive::generator::{largest, Generator};
use plain_executive::numbers::{Number, MEMORY};

const TICK: [u8; 5] = [0x10, 0, 0, 0, 0];

/// The numbers of the controller and of the module.
type Numbers = [Number; 2];
const BOTH: Numbers = [0, 0];
const NOT_THE_MODULE: Numbers = [0, 27];
const NEITHER: Numbers = [3, 3];

/// A configuration with few of everything, its tasks runnable.
#[derive(Clone)]
struct Draft {
    tasks: u8,
    named: u8,
    timers: u8,
    messages: u8,
    /// Ticks per tock, and milliseconds.
    time: [u8; 3],
    queues: Vec<[u8; 2]>,
    pairs: Vec<[u8; 2]>,
}

const FEW: Draft =
    Draft { tasks: 3, named: 1, timers: 1, messages: 1, time: [1, 0, 125], queues: Vec::new(), pairs: Vec::new() };

impl Draft {
    fn bytes(&self) -> Vec<u8> {
        let mut frame = vec![self.tasks, self.named, self.queues.len() as u8, self.timers, self.messages];
        frame.extend(self.time);
        frame.extend(vec![0; self.tasks.into()]);
        frame.extend(self.queues.iter().chain(&self.pairs).flatten());
        frame
    }
}

fn tasks(tasks: u8) -> Draft {
    Draft { tasks, ..FEW }
}

fn queues(queues: usize) -> Draft {
    Draft { queues: vec![[1, 1]; queues], ..FEW }
}

fn timers(timers: u8) -> Draft {
    Draft { timers, ..FEW }
}

fn messages(messages: u8) -> Draft {
    Draft { messages, ..FEW }
}

fn sized(queues: &[[u8; 2]]) -> Draft {
    Draft { queues: queues.to_vec(), ..FEW }
}

/// Each limit met, and passed by one.
fn limits() -> Vec<(Draft, Numbers)> {
    vec![
        (tasks(1), BOTH),
        (tasks(16), BOTH),
        (tasks(17), NOT_THE_MODULE),
        (tasks(126), NOT_THE_MODULE),
        (tasks(127), NEITHER),
        (queues(8), BOTH),
        (queues(9), NOT_THE_MODULE),
        (queues(32), NOT_THE_MODULE),
        (queues(33), NEITHER),
        (timers(8), BOTH),
        (timers(9), NOT_THE_MODULE),
        (timers(64), NOT_THE_MODULE),
        (timers(65), NEITHER),
        (messages(8), BOTH),
        (messages(9), NOT_THE_MODULE),
        (messages(64), NOT_THE_MODULE),
        (messages(65), NEITHER),
        (sized(&[[1, 255], [1, 1]]), BOTH),
        (sized(&[[16, 16]]), BOTH),
        (sized(&[[1, 255], [1, 2]]), NOT_THE_MODULE),
        (sized(&[[1, 1], [16, 16]]), NOT_THE_MODULE),
        (sized(&[[16, 255], [16, 1]]), NOT_THE_MODULE),
        (sized(&[[16, 255], [1, 17]]), NEITHER),
        // The sum of semaphores is the only limit of S.
        (Draft { tasks: 16, named: 223, queues: vec![[1, 1]; 8], ..FEW }, BOTH),
        (Draft { tasks: 16, named: 224, queues: vec![[1, 1]; 8], ..FEW }, NEITHER),
        (Draft { tasks: 1, named: 254, ..FEW }, BOTH),
        (Draft { tasks: 1, named: 255, ..FEW }, NEITHER),
    ]
}

/// Over memory of its own; the number, and what the memory holds then.
fn configured(caller: Caller, frame: &[u8]) -> (Number, Lent) {
    let mut memory = Lent::of(caller, caller.sizes(), || 0xA5);
    (memory.configure(frame), memory)
}

fn assert_numbers(frame: &[u8], numbers: Numbers) {
    for (caller, expected) in Caller::ALL.into_iter().zip(numbers) {
        let (number, memory) = configured(caller, frame);
        assert_eq!(number, expected, "{caller:?}: {frame:02X?}");
        let answer = if number == 0 { [0, 1, 0, 1] } else { [number, 0, 0, 0] };
        assert_eq!(memory.answered(), answer, "{caller:?}: {frame:02X?}");
    }
}

#[test]
fn each_limit_of_a_configuration() {
    for (draft, numbers) in limits() {
        assert_numbers(&draft.bytes(), numbers);
    }
}

/// Whichever limit is passed, everything else that is wrong comes first.
#[test]
fn every_other_number_before_27() {
    let above = [tasks(17), queues(9), timers(9), messages(9), sized(&[[16, 15], [1, 17]])];
    for draft in above {
        let with_a_pair = |first: u8, then: u8| Draft { pairs: vec![[1, 2], [first, then]], ..draft.clone() };
        let with_time = |time: [u8; 3]| Draft { time, ..draft.clone() };
        let with_a_size = |size: [u8; 2]| Draft { queues: [&draft.queues[..], &[size]].concat(), ..draft.clone() };
        let with_a_state = |task: usize, state: u8, draft: &Draft| {
            let mut frame = draft.bytes();
            frame[7 + task] = state;
            frame
        };
        let frame = draft.bytes();
        let pairs = |count: usize| [&frame[..], &[1, 2].repeat(count)].concat();
        assert_numbers(&frame, NOT_THE_MODULE);
        assert_numbers(&pairs(64), NOT_THE_MODULE);

        assert_numbers(&frame[..7], [2, 2]);
        assert_numbers(&frame[..frame.len() - 1], [2, 2]);
        assert_numbers(&[&frame[..], &[1]].concat(), [2, 2]);
        assert_numbers(&pairs(65), [2, 2]);

        assert_numbers(&with_time([0, 0, 125]).bytes(), NEITHER);
        assert_numbers(&with_time([1, 0, 0]).bytes(), NEITHER);
        assert_numbers(&Draft { named: 255, ..draft.clone() }.bytes(), NEITHER);
        for size in [[0, 1], [17, 1], [1, 0]] {
            assert_numbers(&with_a_size(size).bytes(), NEITHER);
        }
        assert_numbers(&with_a_state(1, 2, &draft), NEITHER);
        assert_numbers(&with_a_state(1, 1, &with_a_pair(2, 3)), NEITHER);
        for [first, then] in [[0, 2], [2, 1], [2, 2], [1, draft.tasks + 1]] {
            assert_numbers(&with_a_pair(first, then).bytes(), NEITHER);
        }
        assert_numbers(&with_a_pair(2, 3).bytes(), NOT_THE_MODULE);
    }
}

/// Rule 1 of number 11 has the same limits: the frame that is kept is replaced by one that meets or passes them.
#[test]
fn each_limit_of_the_frame_that_is_kept() {
    for (draft, numbers) in limits() {
        let frame = draft.bytes();
        for (caller, number) in Caller::ALL.into_iter().zip(numbers) {
            let (_, mut memory) = configured(caller, &FEW.bytes());
            memory.config[PART..FRAME].copy_from_slice(&(frame.len() as u16).to_be_bytes());
            memory.config[FRAME..][..frame.len()].copy_from_slice(&frame);
            let before = memory.clone();
            let expected = if number == 0 { 0 } else { MEMORY };
            assert_eq!(memory.frame(&TICK), expected, "{caller:?}: {frame:02X?}");
            assert!(expected == 0 || memory == before, "{caller:?}: {frame:02X?}: a byte was written with 11");
        }
    }
}

/// The largest configuration of a caller has no byte to spare, and a session runs on it.
#[test]
fn the_largest_configuration_needs_every_byte() {
    for caller in Caller::ALL {
        let frame = largest(caller.limits());
        assert_eq!(frame.len(), caller.longest(), "{caller:?}");
        let configuration = Configuration::read_within(caller.limits(), &frame).expect("accepted");
        let needed = parts(&configuration).map(|part| part.end);
        let [config, tables, slots, timers, answer] = caller.sizes();
        assert_eq!(needed, [config - 4, tables - 4, slots - 4, timers - 4, answer], "{caller:?}");
        let script = Generator::new(81).script_of(frame, 3000);
        compare(caller, &script, &|memory, frame| memory.frame(frame), &format!("{caller:?}"));
    }
}
