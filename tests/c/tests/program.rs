//! The session program, as `./build session` builds it: its output for an input, against the other implementation's.

use std::fs;
use std::io::{BufRead, BufReader, Read, Write};
use std::os::fd::OwnedFd;
use std::os::unix::net::{UnixDatagram, UnixStream};
use std::path::{Path, PathBuf};
use std::process::{Child, Command, Stdio};
use std::thread;

use plain_executive::generator::Generator;
use plain_executive::session;

fn root() -> PathBuf {
    Path::new(env!("CARGO_MANIFEST_DIR")).join("../..")
}

fn program(stdin: Stdio, stdout: Stdio) -> Child {
    let path = root().join("target/bin/session");
    let child = Command::new(&path).stdin(stdin).stdout(stdout).stderr(Stdio::piped()).spawn();
    child.unwrap_or_else(|error| panic!("{}: {error}: run './build session' first", path.display()))
}

/// What the program prints for an input.
fn printed(input: &[u8]) -> Vec<u8> {
    let mut child = program(Stdio::piped(), Stdio::piped());
    let mut stdin = child.stdin.take().expect("piped");
    let input = input.to_vec();
    // a session that has ended reads no further, so that the feeding may fail
    let feeder = thread::spawn(move || stdin.write_all(&input).is_ok());
    let output = child.wait_with_output().expect("it ends");
    feeder.join().expect("fed");
    assert!(output.stderr.is_empty(), "{}", String::from_utf8_lossy(&output.stderr));
    output.stdout
}

/// The same, with the input in datagrams: each is one read of the program's, and an empty one is the end of the input.
fn printed_in(input: &[u8], block: usize) -> Vec<u8> {
    let (ours, theirs) = UnixDatagram::pair().expect("a pair");
    let child = program(Stdio::from(OwnedFd::from(theirs)), Stdio::piped());
    for part in input.chunks(block) {
        ours.send(part).expect("read");
    }
    ours.send(b"").expect("read");
    child.wait_with_output().expect("it ends").stdout
}

fn same(input: &[u8], what: &str) {
    compare(input, &printed(input), what);
}

fn compare(input: &[u8], got: &[u8], what: &str) {
    let due = session::run(input);
    if got == due {
        return;
    }
    let place = got.split(|&b| b == b'\n').zip(due.split(|&b| b == b'\n')).position(|(a, b)| a != b);
    let line = place.unwrap_or(0);
    let of =
        |text: &[u8]| String::from_utf8_lossy(text.split(|&b| b == b'\n').nth(line).unwrap_or(b"(none)")).into_owned();
    panic!(
        "{what}: line {} is answered {}, and not {}; the lines up to it:\n{}",
        line + 1,
        of(got),
        of(&due),
        first(input, line + 1)
    );
}

fn first(input: &[u8], lines: usize) -> String {
    session::lines(input).take(lines).map(|line| String::from_utf8_lossy(line).into_owned() + "\n").collect()
}

const CONFIGURATION: &[u8] = b"020101010101007D00000101\n";

/// The configuration, and behind it these bytes.
fn configured(rest: &[u8]) -> Vec<u8> {
    [CONFIGURATION, rest].concat()
}

#[test]
fn the_stories_run_as_printed() {
    let mut stories = 0;
    for entry in fs::read_dir(root().join("examples")).expect("examples/") {
        let path = entry.expect("a file").path();
        if path.extension().is_some_and(|end| end == "session") {
            let due = fs::read(path.with_extension("answers")).expect("its answers");
            assert_eq!(printed(&fs::read(&path).expect("its lines")), due, "{}", path.display());
            stories += 1;
        }
    }
    assert!(stories > 0, "no stories in examples/");
}

#[test]
fn where_lines_end() {
    let cases: [&[u8]; 12] = [
        b"",
        b"\n",
        b"\n\n",
        b"020101010101007D00000101",
        b"020101010101007D00000101\r\n0701000000\n",
        b"020101010101007D0000010",
        b"00\n0701000000\n",
        b"7F0101010101007D0000\n0701000000\n",
        b" 020101010101007D00000101\n",
        b"\x00\n",
        b"\xff\xff",
        b"020101010101007d00000101\n",
    ];
    for input in cases {
        same(input, &format!("{:?}", String::from_utf8_lossy(input)));
    }
    let rests: [&[u8]; 8] = [
        b"",
        b"\n",
        b"\n\n0701000000",
        b"0701000000",
        b"0701000000\r\n080100000041\n",
        b"07010000001\n0701000000\n",
        b"0701000000\n\n\n0701000000\n",
        b"\x000701000000\n0701000000",
    ];
    for rest in rests {
        same(&configured(rest), &format!("behind the configuration {:?}", String::from_utf8_lossy(rest)));
    }
}

#[test]
fn lines_of_every_length_around_the_longest_and_very_long_ones() {
    for digits in (0..12).chain(395..410).chain(645..660).chain([8100, 8191, 8192, 8193, 16384, 65536, 3_000_000]) {
        let long = [b"0".repeat(digits), b"\n0701000000\n080100000041".to_vec()].concat();
        same(&configured(&long), &format!("a line of {digits} digits"));
        same(&long, &format!("a configuration of {digits} digits"));
    }
}

/// The longest configuration of all, with 64 pairs, and one byte or one pair more.
#[test]
fn the_longest_configuration() {
    let longest = [b"7E4120404001007D".to_vec(), b"00".repeat(126), b"1001".repeat(32), b"017E".repeat(64)].concat();
    assert_eq!(longest.len(), 652);
    for more in ["", "01", "017E"] {
        let input = [longest.clone(), more.into(), b"\n0C7E000000\n0B00000000\n0C7E000000\n".to_vec()].concat();
        same(&input, &format!("64 pairs and {more:?}"));
    }
}

#[test]
fn blocks_of_every_kind() {
    let script = Generator::new(77).script(5..=5, 300);
    let long = configured(
        &[b"0".repeat(1957), b"\n0701000000\n".to_vec(), b"0".repeat(652), b"\n080100000041".to_vec()].concat(),
    );
    for block in [1, 2, 3, 7, 64, 400, 652, 653, 654, 8192] {
        for input in [&script.lines(), &long] {
            compare(input, &printed_in(input, block), &format!("blocks of {block} bytes"));
        }
    }
    // an empty line for each byte: the most output for an input
    same(&configured(&b"\n".repeat(40_000)), "40,000 empty lines");
    // lines that lie across the program's own blocks at every place
    for front in 0..16 {
        let rest = [b"\n".repeat(front), b"0701000000\n".repeat(3000)].concat();
        same(&configured(&rest), &format!("{front} empty lines in front"));
    }
}

#[test]
fn random_sessions() {
    for seed in 0..60 {
        let tasks = [1, 2, 5, 20, 126][seed as usize % 5];
        let script = Generator::new(5000 + seed).script(tasks..=tasks, 400);
        same(&script.lines(), &format!("seed {}", 5000 + seed));
        let damaged = Generator::new(6000 + seed).input(200);
        same(&damaged, &format!("damaged lines, seed {}", 6000 + seed));
    }
}

#[test]
fn a_million_lines() {
    let script = Generator::new(1).script(8..=8, 1_000_000);
    same(&script.lines(), "a million lines");
}

#[test]
fn an_answer_comes_before_the_next_line() {
    let mut child = program(Stdio::piped(), Stdio::piped());
    let mut stdin = child.stdin.take().expect("piped");
    let mut stdout = BufReader::new(child.stdout.take().expect("piped"));
    for (line, due) in [("020101010101007D00000101\n", "00010001\n"), ("0701000000\n", "00020001\n")] {
        stdin.write_all(line.as_bytes()).expect("read");
        let mut answer = String::new();
        stdout.read_line(&mut answer).expect("an answer");
        assert_eq!(answer, due);
    }
    drop(stdin);
    assert!(child.wait().expect("it ends").success());
}

/// A read that fails behind half a line: what came before is answered, the half is not, and the failure is said.
#[test]
fn a_failed_read_ends_no_line() {
    let (ours, theirs) = UnixStream::pair().expect("a pair");
    theirs.set_nonblocking(true).expect("set");
    (&ours).write_all(&configured(b"0701000000\n07010000")).expect("room");
    let child = program(Stdio::from(OwnedFd::from(theirs)), Stdio::piped());
    let output = child.wait_with_output().expect("it ends");
    assert_eq!(String::from_utf8_lossy(&output.stdout), "00010001\n00020001\n");
    assert_eq!(String::from_utf8_lossy(&output.stderr), "session: the input cannot be read\n");
}

/// A write that fails: the output is the front of what is due, and the failure is said.
#[test]
fn a_failed_write_ends_no_line() {
    let input = configured(&b"0701000000\n".repeat(100_000));
    let (ours, theirs) = UnixStream::pair().expect("a pair");
    theirs.set_nonblocking(true).expect("set");
    let mut child = program(Stdio::piped(), Stdio::from(OwnedFd::from(theirs)));
    let mut stdin = child.stdin.take().expect("piped");
    let due = session::run(&input);
    let feeder = thread::spawn(move || stdin.write_all(&input).is_ok());
    let output = child.wait_with_output().expect("it ends");
    feeder.join().expect("fed");
    let mut got = Vec::new();
    (&ours).read_to_end(&mut got).expect("what was written");
    assert!(got.len() < due.len() && due.starts_with(&got), "{} bytes of {}", got.len(), due.len());
    assert_eq!(String::from_utf8_lossy(&output.stderr), "session: the output cannot be written\n");
}
