//! examples/: over all stories each number that a session can meet, each kind of outcome and many reissues; in one of them each
//! code; in another the turns of its timers.

use plain_executive::executive::Executive;
use plain_executive::line;
use plain_executive::numbers::{MEMORY, MILLISECONDS};
use plain_executive::trail::Event;
use std::collections::{BTreeMap, BTreeSet};
use std::fs;
use std::path::{Path, PathBuf};

/// The frames of a story, or nothing for a line that is none, each with its answer.
type Story = Vec<(Option<Vec<u8>>, Vec<u8>)>;

fn folder() -> PathBuf {
    Path::new(env!("CARGO_MANIFEST_DIR")).join("../examples")
}

fn stories() -> BTreeMap<String, Story> {
    let paths = fs::read_dir(folder()).expect("examples/").map(|file| file.expect("a file").path());
    let sessions = paths.filter(|path| path.extension().is_some_and(|ending| ending == "session"));
    let story = |path: &Path| {
        let (lines, answers) = (fs::read_to_string(path), fs::read_to_string(path.with_extension("answers")));
        let (lines, answers) = (lines.expect("its lines"), answers.expect("its answers"));
        let pair = |(fed, answer): (&str, &str)| {
            (line::read(fed.as_bytes()).ok(), line::read(answer.as_bytes()).expect("an answer is a line"))
        };
        lines.lines().zip(answers.lines()).map(pair).collect()
    };
    sessions.map(|path| (path.file_stem().unwrap().to_string_lossy().into_owned(), story(&path))).collect()
}

fn of_answers(place: usize) -> BTreeSet<u8> {
    stories().values().flatten().map(|(_, answer)| answer[place]).collect()
}

#[test]
fn every_number_that_a_session_can_meet() {
    let numbers = (0..=11).chain(20..=26).filter(|number| ![MILLISECONDS, MEMORY].contains(number));
    assert_eq!(of_answers(0), numbers.collect());
}

#[test]
fn every_kind_of_outcome_and_many_reissues() {
    assert_eq!(of_answers(3), (0..=6).collect());
    assert!(of_answers(2).contains(&3), "three reissues in one frame");
}

#[test]
fn the_ghost_train_has_every_code() {
    let frames = &stories()["ghost"][1..];
    let codes: BTreeSet<u8> = frames.iter().map(|(frame, _)| frame.as_ref().expect("a frame")[0]).collect();
    assert_eq!(codes, (0x01..=0x12).collect());
    assert!(frames.iter().all(|(_, answer)| answer[0] == 0), "none is refused");
}

#[test]
fn in_the_race_another_task_takes_the_entry_first() {
    let answers: Vec<_> = stories()["race"].iter().map(|(_, answer)| answer.clone()).collect();
    assert!(answers.contains(&vec![0, 2, 1, 4, 21]), "accepted, task 2, one reissue, refused with 21");
}

/// The turns of all timers of a task on a semaphore, after each tock of a story.
fn turns(story: &Story, of: (u8, u8)) -> Vec<usize> {
    let frames: Vec<&Vec<u8>> = story.iter().map(|(frame, _)| frame.as_ref().expect("a frame")).collect();
    let mut executive = Executive::configure(frames[0]).expect("accepted");
    let (mut had, mut after) = (0, Vec::new());
    for frame in &frames[1..] {
        let (tocks, mut trail) = (executive.clock().tocks(), Vec::new());
        executive.frame_noting(frame, &mut trail);
        had += trail
            .iter()
            .filter(|event| matches!(event, Event::Due { task, semaphore } if (*task, *semaphore) == of))
            .count();
        after.extend((executive.clock().tocks() > tocks).then_some(had));
    }
    after
}

/// A row of a page's table, without its name. What is no number is 0: a timer that was not started yet, or has ended.
fn numbers_in(page: &str, row: &str) -> Vec<usize> {
    let line = page.lines().find_map(|line| line.strip_prefix(&format!("| {row}"))).unwrap_or_else(|| panic!("{row}"));
    line.trim_end_matches('|').split('|').skip(1).map(|cell| cell.trim().parse().unwrap_or(0)).collect()
}

#[test]
fn the_beat_has_the_turns_of_its_table() {
    let (story, page) = (&stories()["beat"], fs::read_to_string(folder().join("beat.md")).expect("its page"));
    assert_eq!(numbers_in(&page, "After tock"), (1..=10).collect::<Vec<_>>());
    let (drum, lamp) = (turns(story, (1, 1)), turns(story, (2, 2)));
    assert_eq!(drum, (1..=10).map(|tocks| tocks / 2).collect::<Vec<_>>());
    assert_eq!(lamp[..9], (1..=9).map(|tocks| tocks / 3).collect::<Vec<_>>());
    assert_eq!(numbers_in(&page, "the drum's"), drum);
    assert_eq!(numbers_in(&page, "the lamp's")[..9], lamp[..9]);
    assert_eq!(numbers_in(&page, "the fog's"), turns(story, (3, 4)));
    let bangs = numbers_in(&page, "the first bang's").into_iter().zip(numbers_in(&page, "the second bang's"));
    assert_eq!(bangs.map(|(first, second)| first + second).collect::<Vec<_>>(), turns(story, (3, 3)));
}
