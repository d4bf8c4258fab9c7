//! The session program: lines of frames in, lines of answers out.

use crate::answer::{Answer, LONGEST_ANSWER};
use crate::executive::Executive;
use crate::line::{read_into, write_into, MOST_BYTES};
use crate::numbers::Number;

/// What the session program prints for this input.
pub fn run(input: &[u8]) -> Vec<u8> {
    let mut output = Vec::new();
    let mut lines = lines(input);
    let Some(first) = lines.next() else {
        return output;
    };
    match configure(first) {
        Err(refusal) => print(&Answer::no_configuration(refusal), &mut output),
        Ok(mut executive) => {
            print(&executive.answer(0, 0), &mut output);
            for line in lines {
                print(&answer_to(&mut executive, line), &mut output);
            }
        }
    }
    output
}

/// An $0A that ends the input opens no further line.
pub fn lines(input: &[u8]) -> impl Iterator<Item = &[u8]> {
    input.split_inclusive(|&byte| byte == b'\n').map(|line| line.strip_suffix(b"\n").unwrap_or(line))
}

fn configure(line: &[u8]) -> Result<Executive, Number> {
    let mut frame = [0; MOST_BYTES];
    let length = read_into(line, &mut frame)?;
    Executive::configure(&frame[..length])
}

fn answer_to(executive: &mut Executive, line: &[u8]) -> Answer {
    let mut frame = [0; MOST_BYTES];
    match read_into(line, &mut frame) {
        Err(refusal) => executive.answer(refusal, 0),
        Ok(length) => executive.frame(&frame[..length]),
    }
}

fn print(answer: &Answer, output: &mut Vec<u8>) {
    let mut digits = [0; 2 * LONGEST_ANSWER];
    let length = write_into(answer.bytes(), &mut digits).expect("an answer fits a line");
    output.extend_from_slice(&digits[..length]);
    output.push(b'\n');
}
