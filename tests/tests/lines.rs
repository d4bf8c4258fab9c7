//! Lines and the session program.

use plain_executive::executive::Executive;
use plain_executive::generator::Generator;
use plain_executive::line::{read, read_into, write, write_into};
use plain_executive::numbers::{LINE, MEMORY};
use plain_executive::random::Random;
use plain_executive::session::run;

const CONFIGURATION: &str = "020101010101007D00000101";

fn digits(frame: &[u8]) -> Vec<u8> {
    frame.iter().map(|byte| format!("{byte:02X}")).collect::<String>().into_bytes()
}

#[test]
fn reading_undoes_writing() {
    let mut random = Random::new(1);
    for length in 0..=326 {
        let frame = random.bytes(length);
        let line = write(&frame).expect("a frame that fits");
        assert_eq!(line, digits(&frame));
        assert_eq!(read(&line), Ok(frame));
    }
}

#[test]
fn limits_of_lines_and_frames() {
    assert_eq!(write(&[0; 327]), Err(LINE));
    assert_eq!(read(&[b'0'; 652]), Ok(vec![0; 326]));
    assert_eq!(read(&[b'0'; 653]), Err(LINE));
    assert_eq!(read(&[b'0'; 654]), Err(LINE));
    assert_eq!(write(&[0; 326]), Ok(vec![b'0'; 652]));
    assert_eq!(read(b"012"), Err(LINE));
    assert_eq!(read(b""), Ok(vec![]));
}

#[test]
fn every_other_character_is_refused() {
    for character in 0..=u8::MAX {
        let digit = b"0123456789ABCDEF".contains(&character);
        assert_eq!(read(&[b'0', character]).is_ok(), digit);
        assert_eq!(read(&[character, b'0']).is_ok(), digit);
    }
}

#[test]
fn short_buffers_give_11_after_1_and_stay_as_they_were() {
    let mut buffer = [7; 3];
    assert_eq!(read_into(b"010203G4", &mut buffer), Err(LINE));
    assert_eq!(read_into(b"01020304", &mut buffer), Err(MEMORY));
    assert_eq!(write_into(&[1, 2], &mut buffer), Err(MEMORY));
    assert_eq!(write_into(&[1; 327], &mut buffer), Err(LINE));
    assert_eq!(buffer, [7; 3]);
    assert_eq!(read_into(b"0102", &mut buffer), Ok(2));
    assert_eq!(buffer, [1, 2, 7]);
    assert_eq!(write_into(&[0xA5], &mut buffer), Ok(2));
    assert_eq!(buffer, [b'A', b'5', 7]);
}

#[test]
fn ends_of_the_input() {
    assert_eq!(run(b""), b"");
    assert_eq!(run(b"\n"), b"02000000\n");
    assert_eq!(run(b"\n0701000000\n"), b"02000000\n");
    let twice = format!("{CONFIGURATION}\n0701000000");
    assert_eq!(run(twice.as_bytes()), b"00010001\n00020001\n");
    assert_eq!(run(format!("{twice}\n").as_bytes()), b"00010001\n00020001\n");
    assert_eq!(run(format!("{twice}\n\n").as_bytes()), b"00010001\n00020001\n02020001\n");
}

#[test]
fn a_refused_configuration_ends_the_session() {
    assert_eq!(run(b"0\n0701000000\n"), b"01000000\n");
    assert_eq!(run(b"00000000000000\n0701000000\n"), b"02000000\n");
    assert_eq!(run(b"0000000000000000\n0701000000\n"), b"03000000\n");
}

#[test]
fn a_malformed_line_later_is_answered_1_and_the_session_goes_on() {
    let long = "0".repeat(654);
    for line in ["070100000", "070100000a", "07 1000000", "0701000000\r", long.as_str()] {
        let input = format!("{CONFIGURATION}\n{line}\n0701000000\n");
        assert_eq!(run(input.as_bytes()), b"00010001\n01010001\n00020001\n", "{line:?}");
    }
}

/// The longest configuration of all, with 64 pairs, is a line; so is a frame of 326 bytes, which is refused with 2.
#[test]
fn the_longest_lines_are_read_by_a_session() {
    let mut configuration = vec![126, 65, 32, 64, 64, 1, 0, 125];
    configuration.extend([0; 126]);
    configuration.extend([1, 1].repeat(32));
    configuration.extend([1, 126].repeat(64));
    let first = String::from_utf8(digits(&configuration)).expect("digits");
    assert_eq!(first.len(), 652);
    let input = format!("{first}\n{}\n{}\n", "01".repeat(326), "01".repeat(327));
    assert_eq!(run(input.as_bytes()), b"00010001\n02010001\n01010001\n");
    assert_eq!(run(format!("{first}00\n").as_bytes()), b"01000000\n");
}

#[test]
fn a_session_prints_the_answers_to_its_frames() {
    for seed in 0..200 {
        let script = Generator::new(seed).script(1..=12, 100);
        let mut executive = Executive::configure(&script.configuration).expect("an accepted configuration");
        let mut expected = [digits(executive.answer(0, 0).bytes()), vec![b'\n']].concat();
        for frame in script.frames.iter().filter(|frame| frame.len() <= 326) {
            expected.extend(digits(executive.frame(frame).bytes()));
            expected.push(b'\n');
        }
        assert_eq!(run(&script.lines()), expected);
    }
}

#[test]
fn every_line_of_any_input_is_answered_unless_the_configuration_is_refused() {
    for seed in 0..400 {
        let input = Generator::new(seed).input(30);
        let output = run(&input);
        let count = |bytes: &[u8]| bytes.iter().filter(|&&byte| byte == b'\n').count();
        let lines = count(&input) + usize::from(!input.is_empty() && !input.ends_with(b"\n"));
        let refused = !output.is_empty() && !output.starts_with(b"00");
        assert_eq!(count(&output), if refused { 1 } else { lines });
    }
}
