//! Tock values and milliseconds: over all of their numbers, of four bytes over all of either half.

use plain_executive::numbers::{CONFIGURATION, MILLISECONDS, TOCK_VALUE};
use plain_executive::tocks::{season_tock_value, tock_value, tocks_of_milliseconds, Tocks};

#[test]
fn every_tock_value() {
    assert_eq!(tock_value(0), Err(TOCK_VALUE));
    for tocks in 1..=0x7FFF {
        assert_eq!(tock_value(tocks), Ok(Tocks::OneShot(u32::from(tocks))));
    }
    for period in 1..=0x8000u32 {
        let x = (0x1_0000 - period) as u16;
        assert_eq!(tock_value(x), Ok(Tocks::Cyclic(period)));
    }
}

/// Every upper half with the ends of the lower one, and every lower half with those of the upper.
#[test]
fn every_half_of_a_season_tock_value() {
    const ENDS: [u32; 6] = [0, 1, 0x7FFF, 0x8000, 0x8001, 0xFFFF];
    let values = (0..=0xFFFF).flat_map(|half| ENDS.map(|end| [half << 16 | end, end << 16 | half])).flatten();
    for x in values {
        let expected = match x {
            0 => Err(TOCK_VALUE),
            1..=0x7FFF_FFFF => Ok(Tocks::OneShot(x)),
            _ => Ok(Tocks::Cyclic((0x1_0000_0000 - u64::from(x)) as u32)),
        };
        assert_eq!(season_tock_value(x), expected, "{x:08X}");
    }
}

#[test]
fn a_tock_without_milliseconds_is_tested_first() {
    assert_eq!(tocks_of_milliseconds(0, 0), Err(CONFIGURATION));
    assert_eq!(tocks_of_milliseconds(65_535, 0), Err(CONFIGURATION));
}

/// The rule as document 02 words it, without a division: 2m lies from (2r - 1)p, included, up to (2r + 1)p, left out.
fn is_nearest(milliseconds: u16, per_tock: u16, tocks: u16) -> bool {
    let [m, p, r] = [milliseconds, per_tock, tocks].map(i64::from);
    (2 * r - 1) * p <= 2 * m && 2 * m < (2 * r + 1) * p
}

#[test]
fn milliseconds_at_one_and_two_a_tock() {
    for milliseconds in 0..=u16::MAX {
        let one = if (1..=32_767).contains(&milliseconds) { Ok(milliseconds) } else { Err(MILLISECONDS) };
        assert_eq!(tocks_of_milliseconds(milliseconds, 1), one);
        let two = match milliseconds {
            0 | u16::MAX => Err(MILLISECONDS),
            _ => Ok(milliseconds.div_ceil(2)),
        };
        assert_eq!(tocks_of_milliseconds(milliseconds, 2), two);
    }
}

#[test]
fn milliseconds_at_every_length_of_a_tock() {
    for per_tock in 3..=u16::MAX {
        let half = per_tock.div_ceil(2);
        assert_eq!(tocks_of_milliseconds(half - 1, per_tock), Err(MILLISECONDS));
        assert_eq!(tocks_of_milliseconds(half, per_tock), Ok(1));
        let rest = u16::MAX % per_tock;
        for milliseconds in [per_tock, u16::MAX - rest, u16::MAX] {
            let tocks = tocks_of_milliseconds(milliseconds, per_tock).expect("at most 21,846 tocks");
            assert!(is_nearest(milliseconds, per_tock, tocks), "{milliseconds} at {per_tock}: {tocks}");
        }
    }
}
