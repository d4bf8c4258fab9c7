//! Milliseconds through the C function, against the other implementation; its examples are in `tests/examples/marked.rs` there.

use c::milliseconds;
use plain_executive::tocks::tocks_of_milliseconds;

#[test]
fn all_milliseconds_at_some_lengths_of_a_tock() {
    for per in [0, 1, 2, 3, 4, 7, 10, 50, 99, 100, 124, 125, 126, 1000, 32_767, 32_768, 65_534, 65_535] {
        for ms in 0..=u16::MAX {
            assert_eq!(milliseconds(ms, per), tocks_of_milliseconds(ms, per), "{ms} at {per}");
        }
    }
}

#[test]
fn all_lengths_of_a_tock_at_some_milliseconds() {
    for ms in [0, 1, 2, 49, 50, 124, 125, 249, 250, 32_767, 32_768, 65_534, 65_535] {
        for per in 0..=u16::MAX {
            assert_eq!(milliseconds(ms, per), tocks_of_milliseconds(ms, per), "{ms} at {per}");
        }
    }
}
