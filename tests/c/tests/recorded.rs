//! Sessions that release 5.0.0 answered, before there was code $12 (tests/recorded/): the archive and the other implementation give the
//! same lines.

use std::collections::BTreeSet;
use std::fs;
use std::path::{Path, PathBuf};

use c::caller::Caller;
use c::lent::Lent;
use plain_executive::command::{INTERRUPT_EXIT, SEASON_TIMER, WAIT};
use plain_executive::configuration::Configuration;
use plain_executive::generator::Script;
use plain_executive::line::{self, MOST_BYTES, MOST_DIGITS};
use plain_executive::session;

c::for_each_caller!(the_archive_answers_as_release_5_did);

/// A session and its answers, as lines.
struct Recorded {
    name: String,
    session: Vec<u8>,
    answers: Vec<u8>,
}

impl Recorded {
    fn read(path: &Path) -> Self {
        let bytes = |path: &Path| fs::read(path).unwrap_or_else(|error| panic!("{}: {error}", path.display()));
        let name = path.display().to_string();
        Recorded { name, session: bytes(path), answers: bytes(&path.with_extension("answers")) }
    }

    fn script(&self) -> Script {
        let mut frames = session::lines(&self.session).map(|digits| line::read(digits).expect("a frame"));
        Script { configuration: frames.next().expect("a configuration"), frames: frames.collect() }
    }

    /// Bytes of the answers to frames.
    fn answered(&self) -> impl Iterator<Item = Vec<u8>> + '_ {
        session::lines(&self.answers).skip(1).map(|digits| line::read(digits).expect("an answer"))
    }
}

fn recorded() -> Vec<Recorded> {
    let folder = Path::new(env!("CARGO_MANIFEST_DIR")).join("../recorded");
    let entries = fs::read_dir(&folder).unwrap_or_else(|error| panic!("{}: {error}", folder.display()));
    let mut paths: Vec<PathBuf> = entries.map(|entry| entry.expect("an entry").path()).collect();
    paths.retain(|path| path.extension().is_some_and(|extension| extension == "session"));
    paths.sort();
    paths.iter().map(|path| Recorded::read(path)).collect()
}

/// Each line is read, fed and answered in a line by the functions of the archive.
fn lines_of_the_archive(caller: Caller, session: &[u8]) -> Vec<u8> {
    let mut memory = Lent::of(caller, caller.sizes(), || 0xC3);
    let mut answers = Vec::new();
    for (index, digits) in session::lines(session).enumerate() {
        let (mut frame, mut line) = ([0; MOST_BYTES], [0; MOST_DIGITS]);
        let length = c::read_line(digits, &mut frame).expect("a frame");
        let call = if index == 0 { Lent::configure } else { Lent::frame };
        call(&mut memory, &frame[..length]);
        let length = c::write_line(memory.answered(), &mut line).expect("a line");
        answers.extend_from_slice(&line[..length]);
        answers.push(b'\n');
    }
    answers
}

/// The first line in which they differ.
fn assert_same(who: &str, recorded: &Recorded, given: &[u8]) {
    let lines = session::lines(&recorded.answers).zip(session::lines(given)).zip(session::lines(&recorded.session));
    for (number, ((old, new), frame)) in (1..).zip(lines) {
        let [old, new, frame] = [old, new, frame].map(String::from_utf8_lossy);
        assert_eq!(new, old, "{who}, line {number} of {}: {frame}", recorded.name);
    }
    assert_eq!(given, recorded.answers, "{who}, {}", recorded.name);
}

fn the_archive_answers_as_release_5_did(caller: Caller) {
    let mut sessions = 0;
    for recorded in recorded() {
        if Configuration::read_within(caller.limits(), &recorded.script().configuration).is_ok() {
            let given = lines_of_the_archive(caller, &recorded.session);
            assert_same(&format!("{caller:?}"), &recorded, &given);
            sessions += 1;
        }
    }
    assert_eq!(sessions, if caller == Caller::Module { 5 } else { 10 });
}

#[test]
fn the_other_implementation_answers_as_release_5_did() {
    for recorded in recorded() {
        assert_same("the other implementation", &recorded, &session::run(&recorded.session));
    }
}

/// No frame has the new code and the length of one, and together they have every code, number and outcome that there was.
#[test]
fn the_recorded_sessions_are_of_before_and_have_everything() {
    let (mut codes, mut numbers, mut outcomes) = (BTreeSet::new(), BTreeSet::new(), BTreeSet::new());
    for recorded in recorded() {
        let Script { frames, .. } = recorded.script();
        assert_eq!(frames.len(), 300, "{}", recorded.name);
        for (frame, answer) in frames.iter().zip(recorded.answered()) {
            assert!(frame.len() < 5 || frame[0] != SEASON_TIMER, "{}: {frame:02X?}", recorded.name);
            codes.extend(frame.first().filter(|_| answer[0] == 0).copied());
            numbers.insert(answer[0]);
            outcomes.insert(answer[3]);
        }
    }
    assert_eq!(codes, (WAIT..=INTERRUPT_EXIT).collect());
    assert_eq!(numbers, [0, 2].into_iter().chain(4..=9).chain(20..=26).collect());
    assert_eq!(outcomes, (0..=6).collect());
}
