//! Tock values through the C functions: a timer started with each, against the other implementation. All of two bytes; of four those at
//! which something changes, and random ones.

use c::beside::Beside;
use c::caller::Caller;
use c::lent::PART;
use plain_executive::command::{PURGE, SEASON_TIMER, TICK, TIMER};
use plain_executive::numbers::TOCK_VALUE;
use plain_executive::random::Random;

const CONFIGURATION: [u8; 9] = [1, 1, 0, 1, 0, 1, 0, 125, 0];

c::for_each_caller!(all_tock_values, tock_values_of_four_bytes);

/// Starts a timer with these bytes, which are this number: it says what the record is to hold. Then a tock passes, and a timer that is
/// still there is purged.
fn start(both: &mut Beside, code: u8, bytes: &[u8], value: i64) {
    both.feed(&[&[code, 0, 1], bytes].concat(), "the start");
    let memory = &both.memory;
    assert_eq!(memory.answered()[0], if value == 0 { TOCK_VALUE } else { 0 }, "{bytes:02X?}");
    assert_eq!(memory.timers[PART], u8::from(value != 0), "{bytes:02X?}");
    if value != 0 {
        let left = i64::from(memory.of_timers(1, 2)) - i64::from(memory.of_timers(0, 2));
        let period = i64::from(memory.of_timers(1, 6));
        assert_eq!((left, period), (value.abs(), (-value).max(0)), "{bytes:02X?}");
    }
    both.feed(&[TICK, 0, 0, 0, 0], "behind the start");
    both.feed(&[PURGE, 0, 1, 0, 0], "behind the start");
}

fn all_tock_values(caller: Caller) {
    let mut both = Beside::configured(caller, &CONFIGURATION);
    for value in i16::MIN..=i16::MAX {
        start(&mut both, TIMER, &value.to_be_bytes(), value.into());
    }
}

/// Those around each power of two of either sign, so every single bit and every end; all that two bytes have, and some beyond; random
/// ones of every length.
fn tock_values_of_four_bytes(caller: Caller) {
    let mut both = Beside::configured(caller, &CONFIGURATION);
    let mut random = Random::new(71);
    let powers = (0..32).flat_map(|bit| (-3..=3).map(move |off| (1_i64 << bit) + off));
    let narrow = -0x1_0010..=0x1_0010;
    let random = (0..40_000).map(|turn| i64::from(random.number() as i32 >> (turn % 32)));
    let (mut tried, mut wide) = (0, 0);
    for value in powers.flat_map(|power| [power, -power]).chain(narrow).chain(random) {
        let Ok(bytes) = i32::try_from(value).map(i32::to_be_bytes) else { continue };
        start(&mut both, SEASON_TIMER, &bytes, value);
        tried += 1;
        wide += u32::from(value.abs() > 0x1_0000);
    }
    println!("{tried} values, {wide} above 65,536");
    assert!(wide > 15_000, "{wide}");
}
