//! Lists of timers, each in a heap block of exactly its length, with a start that is not set: for tests/memcheck. Argument: `lists`, or
//! `outside` for one read of the timer behind a list, or `unset` for a look at a start that a call with no free one left as it was.

use c::starts::{lists, mcx11_free_start, Case, Cycle, NO_START};
use plain_executive::numbers::Number;

/// The start has a block of its own. It is taken out with 0 alone.
fn in_blocks(timers: &mut [Cycle], period: u32, written: &mut u32) -> Number {
    let list: Box<[Cycle]> = timers.into();
    let mut start = Box::<u32>::new_uninit();
    let number = unsafe { mcx11_free_start(list.as_ptr(), list.len(), period, start.as_mut_ptr()) };
    if number == 0 {
        *written = *unsafe { start.assume_init() };
    }
    number
}

fn compare(cases: impl IntoIterator<Item = Case>) {
    cases.into_iter().for_each(|case| assert_eq!(case.difference(&mut in_blocks), None));
}

fn main() {
    let list: Box<[Cycle]> = [3, 4, 5].map(|period| Cycle { start: 1, period }).into();
    match std::env::args().nth(1).as_deref() {
        Some("outside") => println!("{}", unsafe { list.as_ptr_range().end.cast::<u64>().read_volatile() }),
        Some("unset") => {
            let mut start = Box::<u32>::new_uninit();
            assert_eq!(unsafe { mcx11_free_start(list.as_ptr(), list.len(), 7, start.as_mut_ptr()) }, NO_START);
            println!("{}", unsafe { start.assume_init() });
        }
        _ => {
            compare(lists::within(1).into_iter().chain(lists::short(2, 200)).chain(lists::all_taken(3)));
            compare(lists::REFUSED.into_iter().flat_map(|(_, list)| list(4)));
        }
    }
}
