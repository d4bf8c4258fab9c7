//! examples/: each story's answers are the other implementation's, and its page goes through every frame and answer in order.

use plain_executive::session;
use std::collections::BTreeSet;
use std::fs;
use std::path::{Path, PathBuf};

fn folder() -> PathBuf {
    Path::new(env!("CARGO_MANIFEST_DIR")).join("../examples")
}

fn text(file: &str) -> String {
    let path = folder().join(file);
    fs::read_to_string(&path).unwrap_or_else(|error| panic!("{}: {error}", path.display()))
}

/// The names of the stories: of the files in the folder, those without their endings.
fn stories() -> BTreeSet<String> {
    let files = fs::read_dir(folder()).expect("examples/");
    let names = files.map(|file| file.unwrap().file_name().into_string().unwrap());
    let story = |name: String| {
        let (story, ending) = name.rsplit_once('.').unwrap_or((&name, ""));
        assert!(["session", "answers", "md", "names"].contains(&ending), "examples/{name} belongs to no story");
        story.to_string()
    };
    names.filter(|name| name != "README.md").map(story).collect()
}

/// The first and the third cell of each row of the page's table of frames.
fn rows(page: &str) -> Vec<(String, String)> {
    let lines = page.lines().skip_while(|line| !line.starts_with("| Frame | Asks | Answer | What happened |"));
    let row = |line: &str| {
        let cells: Vec<&str> = line.trim_matches('|').split('|').map(str::trim).collect();
        assert_eq!(cells.len(), 4, "{line}");
        let quoted = |cell: &str| cell.strip_prefix('`').and_then(|cell| cell.strip_suffix('`')).map(str::to_string);
        let both = quoted(cells[0]).zip(quoted(cells[2]));
        both.unwrap_or_else(|| panic!("no frame or no answer in {line}"))
    };
    lines.skip(2).take_while(|line| line.starts_with('|')).map(row).collect()
}

#[test]
fn the_stories_are_those_of_the_list() {
    let list = text("README.md");
    let linked = list.lines().filter_map(|line| line.strip_prefix("| [")?.split_once(']'));
    let linked: BTreeSet<String> = linked.map(|(story, _)| story.to_string()).collect();
    assert_eq!(linked, stories());
}

#[test]
fn the_answers_are_those_of_the_other_implementation() {
    for story in stories() {
        let answers = session::run(text(&format!("{story}.session")).as_bytes());
        assert_eq!(text(&format!("{story}.answers")), String::from_utf8(answers).unwrap(), "{story}");
    }
}

#[test]
fn each_page_has_every_frame_and_answer_in_order() {
    for story in stories() {
        let (frames, answers) = (text(&format!("{story}.session")), text(&format!("{story}.answers")));
        let lines = frames.lines().zip(answers.lines());
        let lines: Vec<_> = lines.map(|(frame, answer)| (frame.to_string(), answer.to_string())).collect();
        assert!(!lines.is_empty() && frames.lines().count() == answers.lines().count(), "{story}");
        assert_eq!(rows(&text(&format!("{story}.md"))), lines, "{story}");
    }
}
