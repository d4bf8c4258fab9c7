//! `view words` as a program: the words of every story, the rule of every refusal, the turns of timers, the busiest stretch, statuses
//! and messages.

#[path = "busiest/words.rs"]
mod busiest;

use std::collections::BTreeSet;
use std::fs;
use std::io::Write;
use std::path::{Path, PathBuf};
use std::process::{Command, Output, Stdio};
use std::time::Instant;

use plain_executive::generator::{freed_with_a_request, Generator};
use plain_executive::limits::Limits;

fn repository() -> PathBuf {
    Path::new(env!("CARGO_MANIFEST_DIR")).join("..")
}

fn view(arguments: &[&str], input: &[u8]) -> Output {
    let mut child = Command::new(env!("CARGO_BIN_EXE_view"))
        .args(arguments)
        .current_dir(repository())
        .stdin(Stdio::piped())
        .stdout(Stdio::piped())
        .stderr(Stdio::piped())
        .spawn()
        .expect("the program");
    let mut stdin = child.stdin.take().expect("piped");
    let input = input.to_vec();
    let feeder = std::thread::spawn(move || stdin.write_all(&input).is_ok());
    let output = child.wait_with_output().expect("it ends");
    feeder.join().expect("fed");
    output
}

fn text(bytes: &[u8]) -> String {
    String::from_utf8(bytes.to_vec()).expect("UTF-8")
}

/// What it prints for an input that it takes: a line a frame, and behind an empty line one for each timer.
fn told(input: &[u8]) -> (String, String) {
    let output = view(&["words"], input);
    assert_eq!(output.status.code(), Some(0), "{}", text(&output.stderr));
    parted(&text(&output.stdout))
}

fn parted(said: &str) -> (String, String) {
    match said.split_once("\n\n") {
        Some((frames, timers)) => (format!("{frames}\n"), timers.to_string()),
        None => (said.to_string(), String::new()),
    }
}

/// The frames' lines.
fn words(input: &[u8]) -> String {
    told(input).0
}

/// A file with this content, for the time of a test.
fn file(name: &str, content: &str) -> String {
    let path = Path::new(env!("CARGO_TARGET_TMPDIR")).join(name);
    fs::write(&path, content).expect("written");
    path.to_str().expect("a name").to_string()
}

/// What stands in `examples/`: each story's name, and whether it has names.
fn stories() -> Vec<(String, bool)> {
    let entries =
        fs::read_dir(repository().join("examples")).expect("examples/").map(|entry| entry.expect("a file").path());
    let sessions = entries.filter(|path| path.extension().is_some_and(|end| end == "session"));
    let stem = |path: &Path| path.file_stem().unwrap().to_str().unwrap().to_string();
    sessions.map(|path| (stem(&path), path.with_extension("names").exists())).collect()
}

#[test]
fn the_words_of_every_story_are_as_stored() {
    let folder = Path::new(env!("CARGO_MANIFEST_DIR")).join("tests/words");
    let mut told = 0;
    // a story whose configuration is refused ends with 1
    let mut compare = |arguments: &[&str], stored: &str, refused: bool| {
        let output = view(arguments, b"");
        let due =
            fs::read_to_string(folder.join(stored)).unwrap_or_else(|_| panic!("view/tests/words/{stored} is missing"));
        assert_eq!(text(&output.stdout), due, "{stored}");
        assert_eq!(output.status.code(), Some(refused.into()), "{stored}");
        assert_eq!(output.stderr.is_empty(), !refused, "{stored}");
        told += 1;
    };
    for (story, named) in stories() {
        let session = format!("examples/{story}.session");
        let answers = fs::read_to_string(repository().join(format!("examples/{story}.answers"))).expect("its answers");
        let refused = answers.lines().next().is_some_and(|first| !first.starts_with("00"));
        compare(&["words", &session], &format!("{story}.words"), refused);
        if named {
            let names = format!("examples/{story}.names");
            compare(&["words", &session, "--names", &names], &format!("{story}-named.words"), refused);
        }
    }
    assert!(told > 5 && told == fs::read_dir(&folder).unwrap().count(), "each stored file belongs to a story");
}

/// The commands of README and of view/README.md, with the program in place of `view/run`, which builds and runs it.
#[test]
fn the_commands_run_as_printed() {
    let folder = Path::new(env!("CARGO_TARGET_TMPDIR")).join("printed");
    let _ = fs::remove_dir_all(&folder);
    fs::create_dir_all(folder.join("examples")).expect("a folder");
    let copy = |from: String, to: &str| fs::copy(repository().join(from), folder.join(to)).expect("copied");
    for (story, named) in stories() {
        copy(format!("examples/{story}.session"), &format!("examples/{story}.session"));
        if named {
            copy(format!("examples/{story}.names"), &format!("examples/{story}.names"));
        }
    }
    copy("examples/station.session".to_string(), "a.session");
    copy("examples/queue.session".to_string(), "b.session");
    for page in ["README.md", "view/README.md"] {
        let page = fs::read_to_string(repository().join(page)).expect("the page");
        let commands: Vec<&str> = page.lines().filter_map(|line| line.trim_start().strip_prefix("view/run ")).collect();
        assert!(commands.len() >= 2, "two commands");
        for command in commands {
            let words: Vec<&str> = command.split_whitespace().take_while(|word| *word != "#").collect();
            let output =
                Command::new(env!("CARGO_BIN_EXE_view")).args(&words).current_dir(&folder).output().expect("run");
            assert_eq!(output.status.code(), Some(0), "{command}: {}", text(&output.stderr));
            let page = words.iter().skip_while(|word| **word != "-o").nth(1);
            assert!(page.map_or(!output.stdout.is_empty(), |page| folder.join(page).exists()), "{command}");
        }
    }
}

#[test]
fn a_send_that_ends_a_wait() {
    let said = words(b"02010000040100640000\n0602000000\n0401020001\n");
    let due = "2  task 2 sends message 1 to task 1 with semaphore 2: task 1 runs, has message 1 from 2; 1 reissued";
    assert_eq!(said.lines().last(), Some(due));
}

/// Each frame behind this configuration is answered with its words; all that is printed.
fn is_told(configuration: &str, frames: &[(&str, &str)]) -> String {
    let lines: String = frames.iter().map(|(frame, _)| format!("{frame}\n")).collect();
    let said = words(format!("{configuration}\n{lines}").as_bytes());
    let answers = said.lines().skip(1).map(|line| line.split_once(": ").expect("an answer").1);
    assert_eq!(answers.collect::<Vec<_>>(), frames.iter().map(|(_, due)| *due).collect::<Vec<_>>());
    said
}

#[test]
fn a_signal_says_whom_it_woke() {
    let frames = [
        ("0200010000", "task 1 runs, woke nobody"),
        ("0200010000", "task 1 runs, woke nobody; semaphore 1 was DONE, a signal is lost"),
        ("0300010000", "task 1 runs"),
        ("0100000000", "task 2 runs, begins"),
        ("0100010000", "the null task runs"),
        ("1100020000", "task 1 runs, has semaphore 2"),
        ("0200010000", "task 1 runs, woke task 2"),
        ("0100000000", "task 2 runs, has semaphore 1"),
        ("0200020000", "task 1 runs, has semaphore 2"),
        ("0100000000", "task 2 runs, woke task 1"),
    ];
    is_told("02010000000100640000", &frames);
}

/// Four tasks, two named semaphores, a queue of width and depth 1, two timers, eight messages.
const FOUR: &str = "0402010208010064000000000101";

/// Semaphore 3 wakes task 1, which runs; 1 comes with two messages and wakes task 2 first; 2 is DONE before. Then a task ends itself.
#[test]
fn a_terminate_says_which_messages_it_dropped_and_whom_that_woke() {
    let frames = [
        ("0504000001", "task 2 runs, begins"),
        ("0404010002", "task 2 runs, has semaphore 1"),
        ("0504010003", "task 3 runs, begins"),
        ("0200020000", "task 3 runs, woke nobody"),
        ("0404020004", "task 3 runs, has semaphore 2"),
        ("0B0400000000", "refused 2, a frame of code 0B has 5 bytes, not 6; task 3 goes on"),
        (
            "0B04000000",
            "task 1 runs, has semaphore 3; task 2 is woken by semaphore 1; semaphore 1 is DONE; semaphore 2 was DONE, a signal is lost",
        ),
        ("0401000004", "task 1 runs, has semaphore 3"),
        ("0B00000000", "task 2 runs, has semaphore 1; semaphore 3 is DONE"),
        ("0B04000000", "task 2 runs"),
    ];
    let said = is_told(FOUR, &frames);
    let asked: Vec<&str> =
        said.lines().filter_map(|line| line.split_once(" terminates ")?.1.split(": ").next()).collect();
    let due = [
        "task 4",
        "task 4, message 1 from task 1, message 2 from task 2, message 3 from task 2 and message 4 from task 3 are dropped",
        "itself, message 4 from task 1 is dropped",
        "task 4",
    ];
    assert_eq!(asked, due);
}

/// A freed task that never ran begins, and one with a request settles: no outcome says by which semaphore it was woken.
#[test]
fn a_terminate_says_whom_it_woke_where_the_outcome_does_not() {
    let frames = [
        ("0D02010005", "task 1 runs"),
        ("0404010001", "task 1 runs, has semaphore 1"),
        ("0100020000", "task 3 runs, begins"),
        ("0B04000000", "task 2 runs, begins; task 2 is woken by semaphore 1"),
    ];
    is_told(FOUR, &frames);
    let due = [
        "task 2 runs, has entry 01; 1 reissued",
        "task 3 runs; 1 reissued",
        "task 2 runs, its request met 21: the semaphore has a waiting task; 1 reissued",
        "task 1 runs; 2 reissued",
    ];
    for (script, due) in freed_with_a_request().iter().zip(due) {
        let said = words(&script.lines());
        assert!(said.ends_with(&format!(": {due}; task 2 is woken by semaphore 1\n")), "{said}");
    }
}

/// Semaphore 1 is PENDING, then DONE, and comes with two messages each time; task 1 waits on its own, which comes with three. Then two
/// timers signal semaphore 1 in each tock.
#[test]
fn a_signal_that_is_lost_says_whether_the_semaphore_was_done() {
    let frames = [
        ("0404010001", "task 1 runs, has semaphore 1"),
        ("0404010002", "task 1 runs, has semaphore 1"),
        ("0B04000000", "task 1 runs; semaphore 1 is DONE; a further signal of semaphore 1 is lost"),
        ("0404010001", "task 1 runs, has semaphore 1"),
        ("0404010002", "task 1 runs, has semaphore 1"),
        ("0B04000000", "task 1 runs; semaphore 1 was DONE, a signal is lost; semaphore 1 was DONE, a signal is lost"),
        ("0404000001", "task 1 runs, has semaphore 3"),
        ("0404000002", "task 1 runs, has semaphore 3"),
        ("0504000003", "task 2 runs, begins"),
        ("0B04000000", "task 1 runs, has semaphore 3; semaphore 3 is DONE; a further signal of semaphore 3 is lost"),
        ("0300010000", "task 1 runs"),
        ("0E0001FFFF", "task 1 runs"),
        ("0E0201FFFF", "task 1 runs"),
        ("1000000000", "task 1 runs; a further signal of semaphore 1 is lost"),
        ("1000000000", "task 1 runs; semaphore 1 was DONE, a signal is lost; semaphore 1 was DONE, a signal is lost"),
    ];
    is_told(FOUR, &frames);
}

/// Tasks 1 and 2, a named semaphore, 8 timers, two ticks a tock.
const TWO: &str = "02010008000200640000";
const TICK: &str = "1000000000";

/// What is said of the timers of a session; T stands for a tock.
fn timers(frames: &str) -> Vec<String> {
    let tock = format!("{TICK}\n{TICK}");
    let lines: Vec<&str> = frames.split_whitespace().map(|frame| if frame == "T" { &tock } else { frame }).collect();
    let (_, said) = told(format!("{TWO}\n{}\n", lines.join("\n")).as_bytes());
    said.lines().map(str::to_string).collect()
}

#[test]
fn each_timer_says_its_turns_and_how_it_ended() {
    assert_eq!(timers("0200010000 T 0E00010000"), Vec::<String>::new());
    // every 2 tocks, from the middle of a tock on; a second start is refused, and neither a purge of others nor an execute ends it
    let due = "timer of task 2 on semaphore 1, every 2 tocks, started #2: 3 turns in 7 tocks, 2 signals lost on DONE; runs on";
    assert_eq!(
        timers("1000000000 0E0201FFFE 0E0201FFFE 0F02000001 0F00000000 T 0C02000000 T T 0A02000000 T T T T")[..],
        [due]
    );
    // one-shots: one that is due, one that is not yet, one for the same task and semaphore behind the first
    let due = [
        "timer of task 1 on semaphore 1, once after 2 tocks, started #1: 1 turn in 2 tocks; had its turn #6",
        "timer of task 1 on semaphore 1, once after 1 tock, started #7: 1 turn in 1 tock, 1 signal lost on DONE; had its turn #9",
        "timer of task 1 on semaphore 2, once after 70,000 tocks, started #2: 0 turns in 3 tocks; runs on",
    ];
    assert_eq!(timers("0E00010002 12000000011170 T T 0E00010001 T"), due);
    // a purge of one, a purge of all, a terminate; one of the same task and semaphore behind it
    let due = [
        "timer of task 1 on semaphore 1, every 1 tock, started #1: 1 turn in 1 tock; purged #5",
        "timer of task 1 on semaphore 2, every 1 tock, started #2: 2 turns in 2 tocks, 1 signal lost on DONE; purged #9",
        "timer of task 2 on semaphore 3, every 2 tocks, started #6: 0 turns in 1 tock; ended by terminate #10",
        "timer of task 2 on semaphore 3, every 3 tocks, started #11: 0 turns in 0 tocks; runs on",
    ];
    assert_eq!(timers("0E0001FFFF 0E0000FFFF T 0F00010001 0E0200FFFE T 0F00000000 0B02000000 0E0200FFFD"), due);
}

/// Four have a line each; the fifth, and it may have another tock value, makes them one.
#[test]
fn many_timers_of_a_task_on_a_semaphore_share_a_line() {
    let cyclic = "0E0001FFFE T T T 0F00010001 ";
    assert_eq!(timers(&cyclic.repeat(4)).len(), 4);
    let due = "5 timers of task 1 on semaphore 1, every 2 tocks, started #1 to #33: 5 turns in 15 tocks, 4 signals lost on DONE; 5 purged";
    assert_eq!(timers(&cyclic.repeat(5))[..], [due]);
    let once = "0D00000001 T 0E00000003 0F00000000 ".repeat(3);
    let due = "7 timers of task 1 on semaphore 2, once after 1 to 3 tocks, started #1 to #16: 3 turns in 4 tocks; 3 had their turn, 3 purged, 1 runs on";
    assert_eq!(timers(&format!("0A02000000 {once}")).len(), 1);
    assert_eq!(timers(&format!("{once} 0E00000002 T"))[..], [due]);
    let due = "5 timers of task 1 on semaphore 2, once after 1 tock, started #1 to #13: 4 turns in 4 tocks; 4 had their turn, 1 ended by terminate";
    assert_eq!(timers(&format!("{} 0D00000001 0B01000000 T", "0D00000001 T ".repeat(4)))[..], [due]);
}

/// What a line says of a timer: whether it is cyclic, its tock value, its turns and the tocks that passed.
fn turns_of(line: &str) -> (bool, usize, usize, usize) {
    let number = |behind: &str| {
        let (_, rest) = line.split_once(behind).unwrap_or_else(|| panic!("{behind}: {line}"));
        rest.split([' ', ';']).next().unwrap().replace(',', "").parse::<usize>().unwrap_or_else(|_| panic!("{line}"))
    };
    let cyclic = line.contains(", every ");
    let value = number(if cyclic { ", every " } else { ", once after " });
    (cyclic, value, number(": "), number(" in "))
}

/// Over random sessions: n tocks have n / p turns of a period p, and a one-shot of p one if they are p.
#[test]
fn no_timer_misses_a_turn() {
    let mut met = BTreeSet::new();
    for seed in 0..200 {
        let input = Generator::new(1300 + seed).script(1..=12, 600).lines();
        let (frames, timers) = told(&input);
        let (mut turns, mut started) = (0, 0);
        for line in timers.lines() {
            let (cyclic, value, had, tocks) = turns_of(line);
            turns += had;
            started +=
                line.split_once(" timers of ").map_or(1, |(many, _)| many.replace(',', "").parse::<usize>().unwrap());
            if line.starts_with("timer of ") {
                assert_eq!(had, if cyclic { tocks / value } else { usize::from(tocks >= value) }, "{line}");
                met.insert((cyclic, value > 65_535, had.min(3)));
            }
        }
        let accepted = frames.lines().filter(|line| !line.contains(": refused "));
        let starts = |line: &&str| {
            [" starts a timer", " starts a season timer", " delays "].iter().any(|word| line.contains(word))
        };
        assert_eq!(started, accepted.filter(starts).count(), "seed {seed}");
        assert_eq!(turns, frames.matches(", a timer of ").count(), "seed {seed}");
    }
    let due = [
        (true, false, 0),
        (true, false, 1),
        (true, false, 3),
        (true, true, 0),
        (false, false, 0),
        (false, false, 1),
        (false, true, 0),
    ];
    assert!(due.iter().all(|met_by| met.contains(met_by)), "{met:?}");
}

#[test]
fn pairs_say_who_starts_only_after_whom() {
    let frames = [
        ("0C04000000", "refused 26, task 3 is idle, and task 4 starts only after it; task 1 goes on"),
        ("0B02000000", "task 1 runs"),
        ("0C03000000", "refused 26, task 2 is idle, and task 3 starts only after it; task 1 goes on"),
        ("0B00000000", "task 5 runs, begins"),
        ("0C03000000", "refused 26, task 1 and task 2 are idle, and task 3 starts only after them; task 5 goes on"),
    ];
    let said = is_told("050000000001006400000101000103020303040103", &frames);
    let configuration = "0  configuration of 5 tasks, 0 named semaphores, 0 queues, 0 timers, 0 messages; a tock is 1 tick and \
                         100 ms; task 3 starts only after task 1 and task 2; task 4 starts only after task 3: task 1 runs, begins";
    assert_eq!(said.lines().next(), Some(configuration));
}

/// Sessions with a frame for each number, and what is said of it.
#[test]
fn each_refusal_says_its_rule() {
    let head = "020101010101007D00000101\n";
    let cases: [(&str, &str); 26] = [
        ("0701", "refused 2, a frame has at least 5 bytes, not 2; task 1 goes on"),
        ("070100000", "refused 1, the number of digits is odd; task 1 goes on"),
        ("07010000zz", "refused 1, character 9 is 'z', which is no digit; task 1 goes on"),
        ("07010000ff", "refused 1, character 9 is 'f': digits are upper-case; task 1 goes on"),
        (
            "0701000000\r",
            "refused 1, character 11 is a carriage return: let lines end with a line feed alone; task 1 goes on",
        ),
        ("070100000000", "refused 2, a frame of code 07 has 5 bytes, not 6; task 1 goes on"),
        ("08010000004142", "refused 2, an entry of queue 1 has 1 byte, not 2; task 1 goes on"),
        ("1300000000", "refused 4, there is no code 13 (01 to 12); task 1 goes on"),
        ("1200000000", "refused 2, a frame of code 12 has 7 bytes, not 5; task 1 goes on"),
        ("1200000000000001", "refused 2, a frame of code 12 has 7 bytes, not 8; task 1 goes on"),
        ("12000000000000", "refused 9, the tock value is 0; task 1 goes on"),
        ("12000080000000\n0E00000001", "refused 24, task 1 has a timer on semaphore 2 already; task 1 goes on"),
        ("0900000000", "refused 5, task 0 is not allowed here; task 1 goes on"),
        ("0903000000", "refused 5, there is no task 3 (1 to 2); task 1 goes on"),
        ("0C01000000", "refused 5, a task does not execute itself; task 1 goes on"),
        ("0100040000", "refused 6, semaphore 4 is not-empty of queue 1, and nobody names it; task 1 goes on"),
        ("0100090000", "refused 6, there is no semaphore 9 (0 to 3); task 1 goes on"),
        ("0702000000", "refused 7, there is no queue 2, only 1; task 1 goes on"),
        ("0402000002", "refused 8, there is no message 2, only 1; task 1 goes on"),
        ("0D00000000", "refused 9, the tock value is 0; task 1 goes on"),
        ("0B02000000\n0D02000001", "refused 25, task 2 is idle; task 1 goes on"),
        ("0402000001\n0402000001", "refused 22, message 1 still lies in the mailbox of task 2; task 1 goes on"),
        ("0E00000001\n0E00000001", "refused 24, task 1 has a timer on semaphore 2 already; task 1 goes on"),
        ("0E00000001\n0E00010001", "refused 23, the only timer is active; task 1 goes on"),
        ("0100010000\n0300010000", "refused 21, task 1 waits for semaphore 1 already; task 2 goes on"),
        (
            "0701000000\n0701000000",
            "refused 21, queue 1 is empty, and task 1 waits for an entry already; task 2 goes on",
        ),
    ];
    for (frames, rule) in cases {
        let said = words(format!("{head}{frames}\n").as_bytes());
        let last = said.lines().last().unwrap();
        assert!(last.ends_with(rule), "{frames}: {last}");
    }
    let none = words(format!("{head}0100010000\n0100000000\n0100000000\n").as_bytes());
    assert!(none.ends_with("3  the null task waits for its own semaphore: refused 20, no task runs, and the null task asks for no service; the null task runs\n"), "{none}");
}

/// The words of random sessions, damaged lines too, hold every number of the state and of the input.
#[test]
fn random_sessions_are_told_whole() {
    let mut met = BTreeSet::new();
    for seed in 0..60 {
        let tasks = [1, 2, 5, 20, 126][seed as usize % 5];
        let input = Generator::new(900 + seed).script(tasks..=tasks, 400).lines();
        let said = words(&input);
        let answers = plain_executive::session::run(&input);
        for (line, answer) in said.lines().zip(text(&answers).lines()) {
            let number = u8::from_str_radix(&answer[..2], 16).unwrap();
            let (_, told) = line.split_once(": ").unwrap();
            assert_eq!(number != 0, told.starts_with("refused "), "{line}");
            assert!(number == 0 || told.starts_with(&format!("refused {number}, ")), "{line}");
            assert!(!told.contains(", ; ") && !told.contains("  "), "{line}");
            met.insert(number);
        }
        assert_eq!(said.lines().count(), text(&answers).lines().count());
    }
    let due: BTreeSet<u8> = [0, 2, 4, 5, 6, 7, 8, 9, 20, 21, 22, 23, 24, 25, 26].into();
    assert!(met.is_superset(&due), "{met:?}");
}

#[test]
fn a_refused_configuration_ends_with_1_and_says_why() {
    let too_many = format!("0200000000010001{}", "00".repeat(2) + &"0102".repeat(65));
    let cases = [
        ("00010101010100010000", "is refused with 3, so the session ends: T, the number of tasks, is 0, not 1 to 126"),
        ("0101", "is refused with 2, so the session ends: it has 2 bytes, and the first eight are needed"),
        ("020101010101007D000001", "is refused with 2, so the session ends: it has 11 bytes, and 8 + T + 2Q is 12"),
        (
            "020101010101007D00000001",
            "is refused with 3, so the session ends: queue 1 has width 0 (1 to 16) and depth 1 (1 to 255)",
        ),
        (
            "020101010101007D00020101",
            "is refused with 3, so the session ends: the initial state of task 2 is 2, not 0 or 1",
        ),
        (
            "03000000000100010000010104",
            "is refused with 3, so the session ends: pair 1 has first 1 and then 4, not 1 to 3",
        ),
        (
            "030000000001000100000101030301",
            "is refused with 3, so the session ends: pair 2 has first 3 and then 1: the first has to be the lower",
        ),
        (
            "03000000000100010100000103",
            "is refused with 3, so the session ends: task 3 starts runnable, and its first, task 1, starts idle",
        ),
        (
            "030000000001000100000101",
            "is refused with 2, so the session ends: it has 1 byte of pairs, and a pair has two",
        ),
        (&too_many, "is refused with 2, so the session ends: it has 130 bytes of pairs, and 64 pairs have 128"),
        ("02zz", "is refused with 1, so the session ends: character 3 is 'z', which is no digit"),
    ];
    for (line, rule) in cases {
        let output = view(&["words"], line.as_bytes());
        assert_eq!(output.status.code(), Some(1), "{line}");
        assert_eq!(text(&output.stderr), format!("view: -: line 1, the configuration, {rule}\n"));
        let (_, why) = rule.split_once("ends: ").unwrap();
        let said = text(&output.stdout);
        assert!(
            said.starts_with("0  configuration: refused ") && said.ends_with(&format!(", {why}; the session ends\n"))
        );
    }
}

/// What the module says of a session is what the controller says, and that it is the module.
#[test]
fn a_session_of_the_module_is_told_as_the_controllers() {
    for seed in 0..10 {
        let input = Generator::within(Limits::MODULE, 700 + seed).script(1..=16, 300).lines();
        let output = view(&["words", "--module"], &input);
        assert_eq!(output.status.code(), Some(0), "{}", text(&output.stderr));
        let first = text(&output.stdout);
        assert_eq!(first.matches("; on the brake module").count(), 1);
        assert_eq!(parted(&first.replace("; on the brake module", "")), told(&input));
    }
}

#[test]
fn a_configuration_above_the_module_says_by_how_much() {
    let states = "00".repeat(17);
    let cases = [
        (format!("1100000000010001{states}"), "17 tasks (1 above 16)"),
        (format!("0100090000010001{}{}", "00", "0101".repeat(9)), "9 queues (1 above 8)"),
        ("010000400001000100".to_string(), "64 timers (56 above 8)"),
        ("010000000A01000100".to_string(), "10 messages (2 above 8)"),
        ("0100020000010001001010".to_string() + "0101", "257 queue bytes (1 above 256)"),
        (
            format!("11000109090100{}{states}10FF", "01"),
            "17 tasks (1 above 16), 9 timers (1 above 8), 9 messages (1 above 8) and 4,080 queue bytes (3,824 above 256)",
        ),
    ];
    for (line, what) in cases {
        assert!(words(line.as_bytes()).starts_with("0  configuration of "), "the controller accepts {line}");
        let output = view(&["words", "--module"], line.as_bytes());
        assert_eq!(output.status.code(), Some(1), "{line}");
        let due = format!("0  configuration: refused 27, the module has no room for {what}; the session ends\n");
        assert_eq!(text(&output.stdout), due);
    }
    let (output, due) = (view(&["words", "--module"], b"7F00000000010001"), "refused with 3, so the session ends: T, ");
    assert!(text(&output.stderr).contains(due), "{}", text(&output.stderr));
}

#[test]
fn wrong_commands_and_files_end_with_2_and_say_what_to_do() {
    let bad = file("bad-names.txt", "t1 gate\nx2 lap\n");
    let far = file("far-names.txt", "t3 third\n");
    let cases: [(&[&str], &str); 13] = [
        (&[], "say what to show: 'words' or 'page'"),
        (&["show"], "there is no command 'show': say 'words' or 'page'"),
        (&["words", "a", "b"], "'words' takes one file"),
        (&["page"], "'page' takes one file, or two to compare them"),
        (&["page", "a", "-o"], "'-o' needs a file behind it"),
        (&["words", "a", "--busiest"], "'--busiest' needs a number of frames behind it"),
        (&["words", "a", "--busiest", "few"], "'few' is no number of frames: write '--busiest 10'"),
        (&["page", "a", "--busiest", "-1"], "'-1' is no number of frames: write '--busiest 10'"),
        (&["words", "--colour"], "there is no option '--colour'"),
        (&["words", "no-such-file"], "no-such-file cannot be read: "),
        (&["words", "-"], "- is empty: a session begins with the line of its configuration"),
        (&["words", "examples/station.session", "--names", &bad], "line 2: 'x2 lap': write a line as 't1 gate'"),
        (&["words", "examples/station.session", "--names", &far], "t3: this session has 2 tasks: take the line out"),
    ];
    for (arguments, what) in cases {
        let output = view(arguments, b"");
        assert_eq!(output.status.code(), Some(2), "{arguments:?}");
        assert!(text(&output.stderr).contains(what), "{arguments:?}: {}", text(&output.stderr));
    }
    assert_eq!(view(&["--help"], b"").status.code(), Some(0));
}

#[test]
fn a_million_frames_in_seconds_with_a_line_on_the_way() {
    let input = Generator::new(1).script(8..=8, 1_000_000).lines();
    let began = Instant::now();
    let output = view(&["words"], &input);
    let took = began.elapsed();
    println!("a million frames in words: {took:?}");
    let (frames, timers) = parted(&text(&output.stdout));
    assert_eq!(frames.lines().count(), plain_executive::session::lines(&input).count());
    assert!(timers.lines().count() < 1000, "as many lines as readers may bear");
    assert!(text(&output.stderr).contains("view: 500,000 frames"), "{}", text(&output.stderr));
    assert!(took.as_secs() < 60, "{took:?}");
}
