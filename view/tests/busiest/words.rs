//! The busiest stretch in words: the last line, and where there is none.

use std::fs;
use std::path::Path;

use plain_executive::generator::Generator;
use view::words::counted;

use super::{parted, repository, text, view, TICK, TWO};

/// Behind all else, which stays as it is stored. In the queue's story #4 and #13 have a reissue, in the philosophers' no frame has.
#[test]
fn the_busiest_stretch_is_the_last_line() {
    let cases = [
        ("race", 1, "\nbusiest stretch of 1 frame, #10: 3 reissues, tock 0\n"),
        ("race", 3, "\nbusiest stretch of 3 frames, #8 to #10: 3 reissues, tock 0\n"),
        ("race", 5, "\nbusiest stretch of 5 frames, #10 to #14: 4 reissues, tock 0\n"),
        ("race", 16, "\nbusiest stretch of 16 frames, #1 to #16: 5 reissues, tock 0\n"),
        ("queue", 1, "busiest stretch of 1 frame, #4: 1 reissue, tock 0\n"),
        ("queue", 10, "busiest stretch of 10 frames, #4 to #13: 2 reissues, tocks 0 to 2\n"),
        ("philosophers", 7, "busiest stretch of 7 frames, #1 to #7: 0 reissues, tock 0\n"),
    ];
    for (story, w, due) in cases {
        let stored = fs::read_to_string(repository().join(format!("view/tests/words/{story}.words"))).expect("words");
        let output = view(&["words", &format!("examples/{story}.session"), "--busiest", &w.to_string()], b"");
        assert_eq!((output.status.code(), text(&output.stderr)), (Some(0), String::new()));
        assert_eq!(text(&output.stdout), stored + due, "{story}, {w}");
    }
    // a line that is refused is a frame, too
    let race = fs::read_to_string(repository().join("examples/race.session")).expect("a session");
    let lines: Vec<&str> = race.lines().collect();
    let damaged = [&lines[..11], &["no frame"], &lines[11..]].concat().join("\n");
    let output = view(&["words", "--busiest", "5"], damaged.as_bytes());
    assert!(text(&output.stdout).ends_with("\n\nbusiest stretch of 5 frames, #6 to #10: 3 reissues, tock 0\n"));
}

/// Of random sessions, by the answers and by the tocks that the words say.
#[test]
fn the_busiest_stretch_is_the_earliest_of_those_with_the_most_reissues() {
    let mut ties = 0;
    for seed in 0..30 {
        let input = Generator::new(1700 + seed).script(1..=12, 300).lines();
        let answers = text(&plain_executive::session::run(&input));
        let reissues: Vec<usize> =
            answers.lines().skip(1).map(|answer| usize::from_str_radix(&answer[4..6], 16).unwrap()).collect();
        for w in [1, 2, 9, reissues.len()] {
            let sums: Vec<usize> = reissues.windows(w).map(|stretch| stretch.iter().sum()).collect();
            let most = *sums.iter().max().unwrap();
            let first = 1 + sums.iter().position(|sum| *sum == most).unwrap();
            ties += usize::from(most > 0 && sums.iter().filter(|sum| **sum == most).count() > 1);
            let output = view(&["words", "--busiest", &w.to_string()], &input);
            let (frames, whole) = parted(&text(&output.stdout));
            let tocks =
                |frame: usize| frames.lines().take(frame + 1).filter(|line| line.contains(", a tock passes")).count();
            let line = whole.lines().last().expect("a line");
            let which = if w == 1 { format!("#{first}") } else { format!("#{first} to #{}", first + w - 1) };
            let when = match (tocks(first), tocks(first + w - 1)) {
                (from, to) if from == to => format!("tock {from}"),
                (from, to) => format!("tocks {from} to {to}"),
            };
            let due =
                format!("busiest stretch of {}, {which}: {}, {when}", counted(w, "frame"), counted(most, "reissue"));
            assert_eq!(line, due, "seed {seed}");
        }
    }
    assert!(ties > 20, "{ties} ties");
}

/// With 28 there are no words and there is no page.
#[test]
fn a_stretch_that_is_refused_ends_with_2_and_says_what_to_do() {
    let ticks = |count: usize| format!("{TWO}\n{}", format!("{TICK}\n").repeat(count));
    let page = Path::new(env!("CARGO_TARGET_TMPDIR")).join("refused.html");
    let _ = fs::remove_file(&page);
    let long =
        "the session has 4,097 frames, more than 4,096; keep its first 4,097 lines, the configuration and 4,096 frames";
    let cases = [
        (3, "0", "a stretch has 1 frame at least; say a number from 1 to 3"),
        (3, "4", "the session has 3 frames; say a number from 1 to 3"),
        (1, "2", "the session has 1 frame; say a number from 1 to 1"),
        (0, "0", "the session has no frame behind its configuration; leave the option out"),
        (0, "1", "the session has no frame behind its configuration; leave the option out"),
        (4_096, "4097", "the session has 4,096 frames; say a number from 1 to 4096"),
        (4_097, "1", long),
        (4_097, "0", long),
        (4_097, "4098", long),
    ];
    for (frames, w, rule) in cases {
        let input = ticks(frames);
        let words = view(&["words", "--busiest", w], input.as_bytes());
        let paged = view(&["page", "-", "--busiest", w, "-o", page.to_str().unwrap()], input.as_bytes());
        for output in [words, paged] {
            assert_eq!(output.status.code(), Some(2), "{frames}, {w}");
            assert_eq!(text(&output.stderr), format!("view: -: --busiest {w} is refused with 28: {rule}\n"));
            assert!(output.stdout.is_empty() && !page.exists());
        }
    }
    let most = view(&["words", "--busiest", "4096"], ticks(4_096).as_bytes());
    assert!(text(&most.stdout)
        .ends_with("\n\nbusiest stretch of 4,096 frames, #1 to #4096: 0 reissues, tocks 0 to 2,048\n"));
    // of two sessions the second is too short
    let two =
        ["page", "examples/race.session", "examples/marked.session", "--busiest", "7", "-o", page.to_str().unwrap()];
    let output = view(&two, b"");
    let due = "view: examples/marked.session: --busiest 7 is refused with 28: the session has 6 frames; say a number from 1 to 6\n";
    assert_eq!((output.status.code(), text(&output.stderr)), (Some(2), due.to_string()));
    assert!(!page.exists());
}
