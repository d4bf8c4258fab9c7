//! How much stack a configuration or a frame takes, measured on a painted stack over random sessions, and a free start; how much memory
//! a ride: docs/HOST.md and README have these figures.

mod tools;

use c::caller::Caller;
use c::lent::{Lent, SIZES};
use c::stack;
use plain_executive::configuration::Configuration;
use plain_executive::generator::{largest, prepared, Generator, Script};
use plain_executive::line;
use plain_executive::random::Random;
use plain_executive::starts::{Cycle, LONGEST_CYCLE, MOST_CYCLES};
use tools::{frames_of, stories, text};

/// What the papers say, of a configuration or a frame and of a free start.
const FEWER: usize = 700;
const FEWER_IN_START: usize = 100;

fn story(name: String) -> Script {
    let lines = frames_of(&name);
    let mut frames = lines.split(|&byte| byte == b'\n').filter_map(|digits| line::read(digits).ok());
    Script { configuration: frames.next().expect("a configuration"), frames: frames.collect() }
}

/// Those that the caller accepts.
fn sessions(caller: Caller) -> impl Iterator<Item = Script> {
    let random = (0..200).map(move |seed| {
        let tasks = [1, 2, 5, 20, 126][seed as usize % 5];
        Generator::within(caller.limits(), seed).script(tasks..=tasks, 300)
    });
    let large = Generator::new(200).script_of(largest(caller.limits()), 300);
    let all = stories().into_iter().map(story).chain(random).chain([large]).chain(prepared());
    all.filter(move |script| Configuration::read_within(caller.limits(), &script.configuration).is_ok())
}

/// The most that a call writes, a configuration or a frame, and how many calls there were.
fn measured(caller: Caller) -> (usize, usize) {
    let (mut most, mut calls) = (0, 0);
    for Script { configuration, frames } in sessions(caller) {
        let mut memory = Lent::of(caller, caller.sizes(), || 0);
        most = most.max(stack::bytes(caller.configuring(), &configuration, &mut memory));
        for frame in &frames {
            most = most.max(stack::bytes(caller.feeding(), frame, &mut memory));
        }
        calls += 1 + frames.len();
    }
    (most, calls)
}

#[test]
fn a_configuration_or_a_frame_writes_fewer_bytes_of_stack_than_the_papers_say() {
    for caller in Caller::ALL {
        let (most, calls) = measured(caller);
        println!("{caller:?}: {most} bytes in {calls} calls");
        assert!(calls > 50_000, "{calls}");
        assert!((FEWER / 2..FEWER).contains(&most), "{caller:?}: {most} bytes of stack: mend FEWER and the papers");
    }
}

/// A timer's period and the new one: neighbours of 1, 2, 3, 5, 8 and so on, whose common divisor takes the most remainder steps, and any.
fn periods() -> impl Iterator<Item = (u32, u32)> {
    let pairs = std::iter::successors(Some((1, 2)), |&(one, next)| Some((next, one + next)));
    let pairs = pairs.take_while(|&(_, next)| next <= LONGEST_CYCLE).flat_map(|(one, next)| [(one, next), (next, one)]);
    let mut random = Random::new(11);
    let mut any = move || 1 + random.below(LONGEST_CYCLE as usize) as u32;
    pairs.chain((0..2000).map(move |_| (any(), any())))
}

#[test]
fn a_free_start_writes_fewer_bytes_of_stack_than_the_page_says() {
    let list = |period| [Cycle { start: 5, period }; MOST_CYCLES];
    let most = periods().map(|(given, new)| stack::of_free_start(&list(given), new)).max().expect("some");
    println!("a free start: {most} bytes");
    assert!(
        (FEWER_IN_START / 2..FEWER_IN_START).contains(&most),
        "{most} bytes of stack: mend FEWER_IN_START and HOST"
    );
}

#[test]
fn the_papers_have_the_measured_stack_and_the_memory() {
    let total = SIZES.iter().sum::<usize>();
    let memory = format!("{},{:03} bytes of memory", total / 1000, total % 1000);
    let has = |paper: &str, figure: &str| text(paper).split_whitespace().collect::<Vec<_>>().join(" ").contains(figure);
    assert!(has("docs/HOST.md", &format!("a configuration or a frame wrote fewer than {FEWER} bytes")), "docs/HOST.md");
    assert!(has("docs/HOST.md", &format!("a free start fewer than {FEWER_IN_START};")), "docs/HOST.md");
    assert!(
        has("README.md", &format!("a configuration or a frame took fewer than {FEWER} bytes of stack")),
        "README.md"
    );
    assert!(has("README.md", &memory), "README.md: {memory}");
}
