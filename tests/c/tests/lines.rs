//! The line reader and the line writer through the C functions, against the other implementation: the result, and every byte of
//! the lent buffer.

use std::cell::RefCell;

use c::fence::{Fence, Side};
use c::{read_line, write_line};
use plain_executive::line::{read_into, write, write_into, MOST_BYTES, MOST_DIGITS};
use plain_executive::numbers::{Number, LINE, MEMORY};
use plain_executive::random::Random;

type Call = fn(&[u8], &mut [u8]) -> Result<usize, Number>;

thread_local! {
    /// For what is read and for what is written.
    static FENCES: RefCell<[Fence; 2]> = RefCell::new([Fence::new(4096), Fence::new(4096)]);
}

/// The verified function, between closed pages.
fn fenced(verified: Call, source: &[u8], target: &mut [u8], side: Side) -> Result<usize, Number> {
    FENCES.with_borrow_mut(|[from, to]| {
        let result = verified(from.fill(source, side), to.fill(target, side));
        let mut kept = source.to_vec();
        from.empty(&mut kept, side);
        assert_eq!(kept, source, "what is read was written");
        to.empty(target, side);
        result
    })
}

/// Calls both with buffers of `room` bytes that hold the same old bytes, and gives the result.
fn same(verified: Call, plain: Call, source: &[u8], room: usize) -> Result<usize, Number> {
    let old = Random::new(room as u64).bytes(room);
    let mut there = old.clone();
    let result = plain(source, &mut there);
    for side in [Side::Front, Side::Back] {
        let mut here = old.clone();
        assert_eq!(fenced(verified, source, &mut here, side), result, "{source:?} with room {room}");
        assert_eq!(here, there, "{source:?} with room {room}");
        let written = result.unwrap_or(0);
        assert_eq!(here[written..], old[written..], "the bytes behind the result stay");
    }
    result
}

fn reads(line: &[u8], room: usize) -> Result<usize, Number> {
    same(read_line, read_into, line, room)
}

fn writes(frame: &[u8], room: usize) -> Result<usize, Number> {
    same(write_line, write_into, frame, room)
}

fn line_of(frame: &[u8]) -> Vec<u8> {
    write(frame).expect("a frame that fits")
}

#[test]
fn every_length_of_a_frame() {
    let mut random = Random::new(1);
    for length in 0..=MOST_BYTES + 10 {
        let frame = random.bytes(length);
        let result = writes(&frame, MOST_DIGITS + 20);
        assert_eq!(result, if length <= MOST_BYTES { Ok(2 * length) } else { Err(LINE) });
    }
}

#[test]
fn every_length_of_a_line() {
    let mut random = Random::new(2);
    for length in 0..=MOST_DIGITS + 20 {
        let line: Vec<u8> = (0..length).map(|_| random.pick(b"0123456789ABCDEF")).collect();
        let result = reads(&line, MOST_BYTES + 10);
        let good = length <= MOST_DIGITS && length % 2 == 0;
        assert_eq!(result, if good { Ok(length / 2) } else { Err(LINE) });
    }
}

#[test]
fn every_byte_at_every_place_of_a_frame() {
    for byte in 0..=u8::MAX {
        for length in [1, 2, 5, 17] {
            for place in 0..length {
                let mut frame = vec![0x5A; length];
                frame[place] = byte;
                assert_eq!(writes(&frame, 2 * length), Ok(2 * length));
                assert_eq!(reads(&line_of(&frame), length), Ok(length));
            }
        }
    }
}

/// The paper's own figures.
#[test]
fn the_longest_line_and_frame() {
    assert_eq!((MOST_DIGITS, MOST_BYTES), (652, 326));
    assert_eq!((reads(&[b'7'; 652], 326), reads(&[b'7'; 654], 327)), (Ok(326), Err(LINE)));
    assert_eq!((writes(&[7; 326], 652), writes(&[7; 327], 654)), (Ok(652), Err(LINE)));
}

#[test]
fn what_is_written_reads_back() {
    let mut random = Random::new(3);
    for length in 0..=MOST_BYTES {
        let frame = random.bytes(length);
        let (mut line, mut back) = ([0; MOST_DIGITS], [0; MOST_BYTES]);
        let digits = write_line(&frame, &mut line).expect("a frame that fits");
        let bytes = read_line(&line[..digits], &mut back).expect("its line");
        assert_eq!(back[..bytes], frame);
    }
}

#[test]
fn every_damaged_digit() {
    let mut random = Random::new(4);
    for length in [1, 5, 12, 33, MOST_BYTES] {
        let line = line_of(&random.bytes(length));
        for place in 0..line.len() {
            let mut damaged = line.clone();
            for character in 0..=u8::MAX {
                damaged[place] = character;
                let good = b"0123456789ABCDEF".contains(&character);
                assert_eq!(reads(&damaged, length), if good { Ok(length) } else { Err(LINE) });
            }
        }
    }
}

#[test]
fn several_damaged_digits_and_any_bytes() {
    let mut random = Random::new(5);
    for _ in 0..20_000 {
        let length = random.below(24);
        let mut line: Vec<u8> = (0..length).map(|_| random.pick(b"0123456789ABCDEF")).collect();
        for _ in 0..random.below(3) {
            if !line.is_empty() {
                let place = random.below(line.len());
                line[place] = random.byte();
            }
        }
        reads(&line, random.below(16)).ok();
    }
}

#[test]
fn every_room_around_the_need() {
    let mut random = Random::new(6);
    for length in [0, 1, 2, 5, 8, 31, 100, 200, 201, 325, MOST_BYTES] {
        let frame = random.bytes(length);
        let line = line_of(&frame);
        for room in 0..=2 * length + 4 {
            assert_eq!(writes(&frame, room), if room < 2 * length { Err(MEMORY) } else { Ok(2 * length) });
            assert_eq!(reads(&line, room), if room < length { Err(MEMORY) } else { Ok(length) });
        }
    }
}

#[test]
fn a_wrong_line_or_frame_comes_before_a_short_buffer() {
    for room in 0..=5 {
        for line in [&b"0"[..], b"01020304050", b"0102030405g0", b"0a0203040506", &[b'0'; 653], &[b'0'; 654]] {
            assert_eq!(reads(line, room), Err(LINE));
        }
        for length in [327, 328, 652, 1000] {
            assert_eq!(writes(&vec![7; length], room), Err(LINE));
        }
    }
}
