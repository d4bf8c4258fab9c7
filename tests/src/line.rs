//! Lines of upper-case digits, and frames.

use crate::numbers::{require, Number, LINE, MEMORY};

pub const MOST_DIGITS: usize = 652;
pub const MOST_BYTES: usize = MOST_DIGITS / 2;

/// The frame that a line stands for.
pub fn read(line: &[u8]) -> Result<Vec<u8>, Number> {
    let mut frame = [0; MOST_BYTES];
    let length = read_into(line, &mut frame)?;
    Ok(frame[..length].to_vec())
}

/// Reads a line into a lent buffer and tells the frame's length. A refusal writes nothing.
pub fn read_into(line: &[u8], frame: &mut [u8]) -> Result<usize, Number> {
    require(line.len() % 2 == 0 && line.len() <= MOST_DIGITS, LINE)?;
    require(line.iter().all(|&digit| value(digit).is_some()), LINE)?;
    let length = line.len() / 2;
    require(length <= frame.len(), MEMORY)?;
    for (byte, pair) in frame.iter_mut().zip(line.chunks_exact(2)) {
        *byte = 16 * value(pair[0]).unwrap_or(0) + value(pair[1]).unwrap_or(0);
    }
    Ok(length)
}

/// The line that stands for a frame.
pub fn write(frame: &[u8]) -> Result<Vec<u8>, Number> {
    let mut line = [0; MOST_DIGITS];
    let length = write_into(frame, &mut line)?;
    Ok(line[..length].to_vec())
}

/// Writes a frame's digits into a lent buffer and tells how many. A refusal writes nothing.
pub fn write_into(frame: &[u8], line: &mut [u8]) -> Result<usize, Number> {
    require(frame.len() <= MOST_BYTES, LINE)?;
    let length = 2 * frame.len();
    require(length <= line.len(), MEMORY)?;
    for (pair, &byte) in line.chunks_exact_mut(2).zip(frame) {
        pair.copy_from_slice(&[digit(byte >> 4), digit(byte & 15)]);
    }
    Ok(length)
}

fn value(digit: u8) -> Option<u8> {
    match digit {
        b'0'..=b'9' => Some(digit - b'0'),
        b'A'..=b'F' => Some(digit - b'A' + 10),
        _ => None,
    }
}

fn digit(value: u8) -> u8 {
    b"0123456789ABCDEF"[usize::from(value)]
}
