//! The ledger's own definitions, computed by the checker on random sessions: their answers byte for byte, their items
//! afterwards and the turns of the timers that they start are those of this implementation.

mod antt;
mod compared;
mod facts;
mod followed;
mod scratch;

use std::iter::once;

use facts::{followed, Fact, Results};
use plain_executive::command::{PURGE, TICK, TIMER};
use plain_executive::coverage::Coverage;
use plain_executive::generator::{largest, prepared, Generator, Script};
use plain_executive::limits::Limits;
use plain_executive::random::Random;
use plain_executive::turns::{Ended, Followed};
use scratch::File;

const FRAMES: usize = 60;
const FURTHER: usize = 60;
const REFUSED: usize = 60;
const BEATS: usize = 28;
const BEAT_FRAMES: usize = 50;

/// Other seeds, by the variable SEED, give other sessions.
fn seed() -> u64 {
    let given = std::env::var("SEED").ok();
    given.map_or(1, |seed| seed.parse().expect("SEED is a number")) << 32
}

/// Sessions of 126 tasks, the prepared ones, and small ones that together reach every situation.
fn scripts() -> Vec<Script> {
    let large = (0..4).map(|session| Generator::new(seed() + session).script(126..=126, FRAMES));
    let mut scripts: Vec<Script> = large.chain(prepared()).collect();
    scripts.extend(small(&scripts));
    scripts
}

/// Of a row of items those that make less missing than all before them did, and so many more; until nothing is missing.
fn chosen<T>(items: impl Iterator<Item = T>, more: usize, mut missing_after: impl FnMut(&T) -> usize) -> Vec<T> {
    let (mut chosen, mut further, mut missing) = (Vec::new(), Vec::new(), usize::MAX);
    for item in items {
        let left = missing_after(&item);
        if left < missing {
            chosen.push(item);
        } else if further.len() < more {
            further.push(item);
        } else if left == 0 {
            break;
        }
        missing = left;
    }
    chosen.extend(further);
    chosen
}

/// Sessions that together reach every situation which the others don't.
fn small(others: &[Script]) -> Vec<Script> {
    let mut coverage = covered(others);
    let scripts = (100..10_000).map(|session| {
        let tasks = if session % 50 == 0 { 126..=126 } else { 1..=20 };
        Generator::new(seed() + session).script(tasks, FRAMES)
    });
    chosen(scripts, FURTHER, |script| {
        coverage.watch_script(script);
        coverage.missing_of_frames().len()
    })
}

fn covered(scripts: &[Script]) -> Coverage {
    let mut coverage = Coverage::new();
    scripts.iter().for_each(|script| coverage.watch_script(script));
    coverage
}

fn sessions(scripts: &[Script]) -> Vec<Fact> {
    let numbered = scripts.iter().enumerate();
    numbered.map(|(number, script)| facts::session(number, script, &Results::of(script))).collect()
}

/// Sessions with timers that together reach every situation of turns: the prepared ones but for the longest, and random ones.
fn timed() -> Vec<Script> {
    let starts = |script: &Script| !followed(script).is_empty();
    let short = prepared().into_iter().filter(|script| script.frames.len() <= 100);
    let mut scripts: Vec<Script> = short.filter(starts).collect();
    let mut coverage = covered(&scripts);
    let random = (10_000..20_000).map(|session| Generator::new(seed() + session).beats(BEAT_FRAMES));
    scripts.extend(chosen(random.filter(starts), BEATS, |script| {
        coverage.watch_script(script);
        missing_of_turns(&coverage).len()
    }));
    scripts
}

fn missing_of_turns(coverage: &Coverage) -> Vec<String> {
    coverage.missing_of_frames().into_iter().filter(|name| name.starts_with("turns: ")).collect()
}

/// All timers of these sessions.
fn turns() -> Vec<Fact> {
    let scripts = timed();
    let timers: Vec<Followed> = scripts.iter().flat_map(followed).collect();
    let cyclic = timers.iter().filter(|timer| timer.is_cyclic()).count();
    let ended = timers.iter().filter(|timer| !timer.is_spared()).count();
    let turns: u64 = timers.iter().map(|timer| timer.turns).sum();
    println!("{} timers, {cyclic} cyclic, {ended} that a frame ended, {turns} turns", timers.len());
    assert!(cyclic > 120 && ended > 35 && turns > 400);
    let missing = missing_of_turns(&covered(&scripts));
    assert!(missing.is_empty(), "not compared: {missing:#?}");
    let numbered = scripts.iter().enumerate();
    numbered.map(|(number, script)| facts::turns(number, script, &followed(script))).collect()
}

/// Frames that together have every cause of a refused configuration.
fn refused_configurations() -> Vec<Fact> {
    let mut generator = Generator::new(seed() + 13);
    let mut coverage = Coverage::new();
    let frames = chosen((0..100_000).map(|_| generator.refused_configuration()), REFUSED, |frame| {
        coverage.watch_configuration(frame);
        coverage.missing_of_refused().len()
    });
    let missing = coverage.missing_of_refused();
    assert!(missing.is_empty(), "not compared: {missing:#?}");
    frames.iter().enumerate().map(|(number, frame)| facts::refused_configuration(number, frame)).collect()
}

/// Frames that together have every cause of 27, every limit of the module met, and every other number behind a limit that is passed.
fn configurations_of_the_module() -> Vec<Fact> {
    let mut generator = Generator::within(Limits::MODULE, seed() + 16);
    let mut coverage = Coverage::new();
    let random = (0..100_000).map(|turn| match turn % 3 {
        0 => generator.script(1..=Limits::MODULE.tasks, 0).configuration,
        1 => generator.refused_configuration(),
        _ => generator.configuration_above_module(),
    });
    let frames = chosen(once(largest(Limits::MODULE)).chain(random), REFUSED, |frame| {
        coverage.watch_configuration(frame);
        coverage.missing_of_module().len()
    });
    let missing = coverage.missing_of_module();
    assert!(missing.is_empty(), "not compared: {missing:#?}");
    frames.iter().enumerate().map(|(number, frame)| facts::on_the_module(number, frame)).collect()
}

fn inputs() -> Vec<Fact> {
    let mut generator = Generator::new(seed() + 14);
    (0..60).map(|number| facts::input(number, &generator.input(8))).collect()
}

fn times() -> Vec<Fact> {
    let mut random = Random::new(seed() + 15);
    let mut values = vec![0, 1, 0x7FFF, 0x8000, 0x8001, 0xFFFF];
    for _ in 0..60 {
        let bits = random.below(16);
        values.push((random.number() as u16) >> bits);
    }
    let tocks = values.iter().enumerate().map(|(number, &x)| facts::tock_value(number, x));
    let seasons = season_values(&mut random).into_iter().enumerate();
    let seasons = seasons.map(|(number, x)| facts::season_tock_value(number, x));
    let pairs = values.iter().zip(&values[1..]).map(|(&one, &other)| (one.max(other), one.min(other)));
    let milliseconds = pairs.enumerate().map(|(number, (a, b))| facts::milliseconds(number, a, b));
    tocks.chain(seasons).chain(milliseconds).collect()
}

fn season_values(random: &mut Random) -> Vec<u32> {
    let ends =
        [0, 1, 0x7FFF_FFFF, 0x8000_0000, 0x8000_0001, 0xFFFF_FFFF, 0x7FFF, 0x8000, 0xFFFF, 0x1_0000, 0xFFFF_0000];
    let random = (0..60).map(|turn| (random.number() as u32) >> (turn % 32));
    ends.into_iter().chain(random).collect()
}

#[test]
fn the_ledger_computes_the_same() {
    let scripts = scripts();
    let sessions = sessions(&scripts);
    let mut files: Vec<File> = sessions.chunks(8).map(|group| (facts::SESSIONS, group.to_vec())).collect();
    files.extend(turns().chunks(8).map(|group| (facts::TURNS, group.to_vec())));
    files.push((facts::SESSIONS, refused_configurations()));
    files.push((facts::SESSIONS, configurations_of_the_module()));
    files.push((facts::SESSIONS, inputs()));
    files.push((facts::TIMES, times()));
    if let Err(difference) = scratch::check("ledger-sessions", &files) {
        panic!("{difference}");
    }
    let missing = covered(&scripts).missing_of_frames();
    assert!(missing.is_empty(), "not compared: {missing:#?}");
}

/// What stands in front of two facts, of which the second doesn't hold.
type Altered = (&'static str, Fact, Fact);

/// One altered byte of an answer, and one altered item.
fn altered_sessions() -> Vec<Altered> {
    let script = Generator::new(seed()).script(5..=5, 12);
    let honest = Results::of(&script);
    let mut altered = [honest.clone(), honest.clone()];
    altered[0].answers[7][1] ^= 1;
    altered[1].items.ticks ^= 1;
    let fact = |number, results| facts::session(number, &script, results);
    (1..).zip(&altered).map(|(number, results)| (facts::SESSIONS, fact(0, &honest), fact(number, results))).collect()
}

/// Of two timers the second is purged. A turn too many, a tock too many, each taken for one as the other is, and a timer too few.
fn altered_turns() -> Vec<Altered> {
    let timer = |semaphore: u8| [TIMER, 0, semaphore, 0xFF, 0xFF];
    let tick = [TICK, 0, 0, 0, 0];
    let frames = [timer(1), timer(2), tick, [PURGE, 0, 2, 0, 1], tick].map(Vec::from);
    let script = Script { configuration: vec![1, 2, 0, 2, 0, 1, 0, 125, 0], frames: frames.to_vec() };
    let honest = followed(&script);
    let mut altered = vec![honest.clone(); 5];
    altered[0][0].turns += 1;
    altered[1][0].tocks += 1;
    altered[2][0].ended = Some(Ended::Purged);
    altered[3][1] = Followed { ended: None, tocks: 0, ..honest[1] };
    altered[4].pop();
    let fact = |number, timers| facts::turns(number, &script, timers);
    (1..).zip(&altered).map(|(number, timers)| (facts::TURNS, fact(0, &honest), fact(number, timers))).collect()
}

/// The comparison can fail.
#[test]
fn an_altered_result_is_found() {
    for (head, honest, altered) in altered_sessions().into_iter().chain(altered_turns()) {
        let found = scratch::check("ledger-altered", &[(head, vec![honest, altered.clone()])]);
        let difference = found.expect_err("a difference");
        assert!(difference.starts_with(&format!("{} differs", altered.name)), "{difference}");
    }
}
