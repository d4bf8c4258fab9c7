//! Document 02, W8, on random sessions: after every frame each timer that was ever started has as many turns as its tocks ask for. One
//! that a frame ended had them up to that frame.

use plain_executive::command::{DELAY, SEASON_TIMER};
use plain_executive::executive::Executive;
use plain_executive::generator::{prepared, Generator, Script};
use plain_executive::turns::{Ended, Followed, Turns};

/// All timers of a session.
fn followed(script: &Script) -> Vec<Followed> {
    let mut executive = Executive::configure(&script.configuration).expect("an accepted configuration");
    let mut turns = Turns::fresh(executive.configuration());
    let mut after = executive.items();
    for (index, frame) in script.frames.iter().enumerate() {
        let before = after;
        let number = executive.frame(frame).refusal();
        after = executive.items();
        turns.watch(frame, number, &before, &after);
        let lines = || String::from_utf8_lossy(&script.lines()).into_owned();
        assert_eq!(turns.wrong(), None, "frame {index} of\n{}", lines());
        assert!(turns.follows_all(&after), "frame {index} of\n{}", lines());
    }
    turns.timers().to_vec()
}

/// How many had turns and are such, and how many turns these had.
fn had(timers: &[Followed], fits: impl Fn(&Followed) -> bool) -> (usize, u64) {
    let fitting = timers.iter().filter(|timer| timer.turns > 0 && fits(timer));
    (fitting.clone().count(), fitting.map(|timer| timer.turns).sum())
}

#[test]
fn no_timer_misses_a_turn() {
    let random = (0..800).map(|seed| {
        let tasks = [1, 2, 5, 20, 126][seed as usize % 5];
        Generator::new(seed).script(tasks..=tasks, 250)
    });
    let timers: Vec<Followed> = random.chain(prepared()).flat_map(|script| followed(&script)).collect();
    let cyclic = had(&timers, Followed::is_cyclic);
    let others = had(&timers, |timer| !timer.is_cyclic());
    println!("{} timers; with turns, and their turns: {cyclic:?} cyclic, {others:?} one-shots", timers.len());
    assert!(cyclic.0 > 1500 && cyclic.1 > 8000 && others.0 > 1500, "{cyclic:?}, {others:?}");
    assert_eq!(others.0 as u64, others.1);
}

#[test]
fn none_of_many_cyclic_timers_misses_a_turn() {
    let scripts = (0..200).map(|seed| Generator::new(seed).beats(400));
    let timers: Vec<Followed> = scripts.flat_map(|script| followed(&script)).collect();
    let cyclic = |fits: fn(&Followed) -> bool| had(&timers, |timer| timer.is_cyclic() && fits(timer));
    let [seasons, delays] = [cyclic(|timer| timer.code == SEASON_TIMER), cyclic(|timer| timer.code == DELAY)];
    let purged = cyclic(|timer| timer.ended == Some(Ended::Purged));
    let terminated = cyclic(|timer| timer.ended == Some(Ended::Terminated));
    let most = timers.iter().map(|timer| timer.turns).max();
    println!("{} timers, {:?} cyclic, the most turns {most:?}", timers.len(), cyclic(|_| true));
    println!("{seasons:?} season timers, {delays:?} delays, {purged:?} purged, {terminated:?} terminated");
    assert!(seasons.1 > 20_000 && delays.1 > 5000 && purged.1 > 5000 && terminated.1 > 5000 && most > Some(100));
}
