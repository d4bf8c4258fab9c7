//! Inputs of the session program.

use crate::line::{self, MOST_DIGITS};
use crate::session;

type Situation = (&'static str, fn(&[u8]) -> bool);

const INPUTS: [Situation; 6] = [
    ("empty input", |input| input.is_empty()),
    ("input of one $0A", |input| input == b"\n"),
    ("last line without $0A", |input| !input.is_empty() && !input.ends_with(b"\n")),
    ("last line with $0A", |input| input.ends_with(b"\n")),
    ("first line damaged", |input| first(input).is_some_and(|line| line::read(line).is_err())),
    ("refused configuration with lines behind it", |input| {
        first(input).is_some_and(|line| line.len() > 2) && session::run(input).ends_with(b"000000\n") && many(input)
    }),
];

/// Of lines behind an accepted configuration.
const LINES: [Situation; 9] = [
    ("empty line", |line| line.is_empty()),
    ("odd number of digits", |line| line.len() % 2 == 1 && all_digits(line) && line.len() < MOST_DIGITS),
    ("lower-case digit", |line| line.len() % 2 == 0 && line.iter().any(|byte| (b'a'..=b'f').contains(byte))),
    ("blank", |line| line.contains(&b' ')),
    ("carriage return", |line| line.ends_with(b"\r")),
    ("another character", |line| line.iter().any(|byte| b"G@/:\x00\xFF".contains(byte))),
    ("652 digits", |line| line.len() == 652 && all_digits(line)),
    ("653 digits", |line| line.len() == 653 && all_digits(line)),
    ("654 digits or more, even", |line| line.len() > 653 && line.len() % 2 == 0 && all_digits(line)),
];

pub fn names() -> impl Iterator<Item = String> {
    INPUTS.iter().chain(&LINES).map(|(name, _)| titled(name))
}

pub fn reached(input: &[u8]) -> Vec<String> {
    let mut reached: Vec<String> = fitting(&INPUTS, input).collect();
    if session::run(input).starts_with(b"00") {
        reached.extend(session::lines(input).skip(1).flat_map(|line| fitting(&LINES, line)));
    }
    reached
}

fn fitting<'a>(table: &'static [Situation], bytes: &'a [u8]) -> impl Iterator<Item = String> + 'a {
    table.iter().filter(move |(_, fits)| fits(bytes)).map(|(name, _)| titled(name))
}

fn titled(name: &str) -> String {
    format!("lines: {name}")
}

fn first(input: &[u8]) -> Option<&[u8]> {
    session::lines(input).next()
}

fn many(input: &[u8]) -> bool {
    session::lines(input).nth(1).is_some() && session::lines(&session::run(input)).nth(1).is_none()
}

fn all_digits(line: &[u8]) -> bool {
    line.iter().all(|byte| byte.is_ascii_digit() || (b'A'..=b'F').contains(byte))
}
