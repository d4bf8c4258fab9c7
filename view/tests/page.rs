//! What needs no browser: a page is refused where the implementations differ, the stretch that it is told of, two sessions' first
//! differences, and the packing.

use std::fs;
use std::path::{Path, PathBuf};
use std::process::Command;

use c::caller::Caller;
use c::lent::{slot, Lent};
use c::stretch::Record;
use plain_executive::numbers::Number;
use plain_executive::random::Random;
use plain_executive::stretch::Busiest;
use view::busiest::{self, Find, Stretch};
use view::names::Names;
use view::recording::Recording;
use view::replay::Stop;
use view::{deflate, differences, page};

fn repository() -> PathBuf {
    Path::new(env!("CARGO_MANIFEST_DIR")).join("..")
}

fn story(name: &str) -> Vec<u8> {
    fs::read(repository().join("examples").join(name).with_extension("session")).expect("a story")
}

/// The exported function, but task 2's answers are another's.
fn wrong_answer(memory: &mut Lent, frame: &[u8]) -> Number {
    let number = memory.frame(frame);
    if memory.answer[2] == 2 {
        memory.answer[2] = 1;
    }
    number
}

/// The exported function, but a slot is written.
fn wrong_item(memory: &mut Lent, frame: &[u8]) -> Number {
    let number = memory.frame(frame);
    memory.slots[slot(1) + 4] = 1;
    number
}

#[test]
fn no_page_where_the_other_implementation_differs() {
    let station = story("station");
    let sessions: [(&str, &[u8]); 1] = [("station.session", &station)];
    for caller in Caller::ALL {
        assert!(page::make(caller, &sessions, &Names::default(), &[]).is_ok());
        for (call, line) in [(wrong_answer as fn(&mut Lent, &[u8]) -> Number, 2), (wrong_item, 2)] {
            let failed = page::make_with(caller, &sessions, &Names::default(), &[], call).err().expect("no page");
            assert!(
                matches!(&failed, (file, at, Stop::Differs(_)) if file == "station.session" && *at == line),
                "{failed:?}"
            );
        }
    }
}

/// The exported function, but a record too far on, a reissue too many, always refused, never refused.
const WRONG: [Find; 4] = [
    |records, w| c::stretch::busiest(records, w).map(|found| Busiest { place: found.place + 1, ..found }),
    |records, w| c::stretch::busiest(records, w).map(|found| Busiest { sum: found.sum + 1, ..found }),
    |_, _| Err(28),
    |records, w| c::stretch::busiest(records, w).or(Ok(Busiest { sum: 0, place: 0 })),
];

fn records(name: &str) -> Vec<Record> {
    busiest::records(Caller::Controller, &story(name)).expect("no difference")
}

#[test]
fn no_stretch_where_the_other_implementation_differs() {
    let mut records = records("race");
    let found = Stretch { reissues: 4, frames: (10, 14), tocks: (0, 0) };
    assert_eq!(busiest::of(&mut records, 5, c::stretch::busiest), Ok(found));
    assert_eq!(busiest::of(&mut records, 0, c::stretch::busiest), Err(Stop::Refused(28)));
    for (find, w) in WRONG.into_iter().zip([5, 5, 5, 0]) {
        let differs = busiest::of(&mut records, w, find);
        assert!(matches!(differs, Err(Stop::Differs(_))), "{differs:?}");
    }
}

#[test]
fn a_page_is_told_of_the_stretch() {
    let (race, names) = (story("race"), Names::default());
    let found = busiest::of(&mut records("race"), 5, c::stretch::busiest).expect("found");
    let due = "\"busiest\":{\"from\":10,\"to\":14,\"label\":\"busiest stretch of 5: 4 reissues\",\
               \"words\":\"busiest stretch of 5 frames, #10 to #14: 4 reissues, tock 0\"}}";
    let stretches = [found];
    for shown in [&stretches[..], &[]] {
        let recording =
            Recording::of(Caller::Controller, "race", &race, &names, shown.first(), Lent::frame).expect("recorded");
        assert_eq!(recording.header.to_string().ends_with(due), !shown.is_empty());
        let html = page::make(Caller::Controller, &[("race", &race)], &names, shown).expect("a page").html;
        assert!(!html.contains("{{"));
    }
}

#[test]
fn the_program_writes_a_page_and_says_so() {
    let path = Path::new(env!("CARGO_TARGET_TMPDIR")).join("station.html");
    let output = Command::new(env!("CARGO_BIN_EXE_view"))
        .args(["page", "examples/station.session", "-o"])
        .arg(&path)
        .current_dir(repository())
        .output()
        .expect("the program");
    assert_eq!(output.status.code(), Some(0));
    assert!(String::from_utf8_lossy(&output.stderr).contains("has 18 frames in "), "{output:?}");
    let html = fs::read_to_string(&path).expect("the page");
    assert!(html.starts_with("<!DOCTYPE html>") && !html.contains("{{"), "a page");
    for outside in ["http:", "https:", "src=", "<link", "@import", "url("] {
        assert!(!html.contains(outside), "the page needs nothing else: {outside}");
    }
    let nowhere = Command::new(env!("CARGO_BIN_EXE_view"))
        .args(["page", "examples/station.session", "-o", "no/such/folder/page.html"])
        .current_dir(repository())
        .output()
        .expect("the program");
    assert_eq!(nowhere.status.code(), Some(2));
}

#[test]
fn the_first_differences_of_two_sessions() {
    let station = story("station");
    let text = String::from_utf8(station.clone()).unwrap();
    let other = text.replace("1100020000", "1100030000").into_bytes();
    let between =
        |first: &[u8], second: &[u8]| differences::between(Caller::Controller, first, second, &Names::default());
    let found = between(&station, &other);
    let asked = "interrupt exit, signals semaphore 2 | interrupt exit, signals semaphore 3";
    assert_eq!(found.frame, Some((14, asked.to_string())));
    assert_eq!(found.answer, Some((14, "task 2 runs, has semaphore 2 | the null task runs".to_string())));
    assert_eq!(found.item, Some((14, "the blocks of task 2".to_string())));
    assert_eq!(between(&station, &station), differences::Differences::default());
    let longer = [&station[..], b"1000000000\n"].concat();
    let found = between(&station, &longer);
    assert_eq!(found.frame, Some((19, "the first session ends".to_string())));
    assert_eq!((found.answer, found.item), (None, None));
}

#[test]
fn what_is_packed_unpacks_to_the_same() {
    let mut random = Random::new(7);
    for size in [0, 1, 3, 4, 5, 258, 259, 1000, 40_000, 200_000] {
        for letters in [1, 2, 5, 256] {
            let bytes: Vec<u8> = (0..size).map(|_| random.below(letters) as u8).collect();
            assert!(unpacked(&deflate::write(&bytes)) == bytes, "{size} bytes of {letters} kinds");
        }
    }
    let text = "12  tick, a tock passes: task 1 runs\n".repeat(10_000);
    let packed = deflate::write(text.as_bytes());
    assert!(unpacked(&packed) == text.as_bytes() && packed.len() * 50 < text.len(), "{}", packed.len());
}

/// Reads one block with fixed codes, by RFC 1951.
fn unpacked(packed: &[u8]) -> Vec<u8> {
    let mut bits = packed.iter().flat_map(|byte| (0..8).map(move |bit| u32::from(byte >> bit & 1)));
    let mut low = |count: u32| (0..count).fold(0, |sum, bit| sum | bits.next().expect("a bit") << bit);
    assert_eq!(low(3), 0b011);
    let mut out: Vec<u8> = Vec::new();
    loop {
        let mut code = (0..7).fold(0, |code, _| code << 1 | low(1));
        let symbol = if code < 24 {
            256 + code
        } else {
            code = code << 1 | low(1);
            match code {
                0x30..=0xBF => code - 0x30,
                0xC0..=0xC7 => 280 + code - 0xC0,
                _ => (code << 1 | low(1)) - 0x190 + 144,
            }
        };
        match symbol {
            0..=255 => out.push(symbol as u8),
            256 => return out,
            _ => {
                let (base, extra) = length_code(symbol - 257);
                let length = base + low(extra);
                let code = (0..5).fold(0, |code, _| code << 1 | low(1));
                let (base, extra) =
                    if code < 4 { (code + 1, 0) } else { (((2 + code % 2) << (code / 2 - 1)) + 1, code / 2 - 1) };
                let from = out.len() - (base + low(extra)) as usize;
                (0..length as usize).for_each(|place| out.push(out[from + place]));
            }
        }
    }
}

fn length_code(code: u32) -> (u32, u32) {
    match code {
        0..=7 => (code + 3, 0),
        28 => (258, 0),
        _ => (((4 + code % 4) << (code / 4 - 1)) + 3, code / 4 - 1),
    }
}
