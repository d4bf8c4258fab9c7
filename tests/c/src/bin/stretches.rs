//! Lists of records, each in a heap block of exactly its length and with nothing set but the reissues: for tests/memcheck. Argument:
//! `lists`, or `outside` for one read of the record behind a list, or `unset` for a look at a running task that was not set.

use std::mem::MaybeUninit;
use std::ptr::{addr_of, addr_of_mut};

use c::stretch::lists::{any, edges, every_w, SHORT};
use c::stretch::{mcx11_busiest, Record};
use plain_executive::numbers::Number;
use plain_executive::random::Random;
use plain_executive::stretch::{self, Busiest};

type List = Box<[MaybeUninit<Record>]>;

fn list(reissues: &[u16]) -> List {
    let mut list = Box::new_uninit_slice(reissues.len());
    for (record, reissues) in list.iter_mut().zip(reissues) {
        let record: *mut Record = record.as_mut_ptr();
        unsafe { addr_of_mut!((*record).reissues).write(*reissues) };
    }
    list
}

/// Sum and place have blocks of their own, which are not set either.
fn busiest(list: &List, w: usize) -> Result<Busiest, Number> {
    let (mut sum, mut place) = (Box::<u32>::new_uninit(), Box::<usize>::new_uninit());
    let to = (sum.as_mut_ptr(), place.as_mut_ptr());
    match unsafe { mcx11_busiest(list.as_ptr().cast(), list.len(), w, to.0, to.1) } {
        0 => Ok(unsafe { Busiest { sum: *sum.assume_init(), place: *place.assume_init() } }),
        number => Err(number),
    }
}

fn compare(random: &mut Random, n: usize, widths: impl Iterator<Item = usize>) {
    let reissues = any(n, random);
    let plain: Vec<_> = reissues.iter().map(|&reissues| stretch::Record { tocks: 0, running: 0, reissues }).collect();
    let list = list(&reissues);
    widths.for_each(|w| assert_eq!(busiest(&list, w), stretch::busiest(&plain, w), "{n} records, w {w}"));
}

fn main() {
    let list = list(&[1, 2, 3]);
    match std::env::args().nth(1).as_deref() {
        Some("outside") => println!("{}", unsafe { list.as_ptr_range().end.cast::<u64>().read_volatile() }),
        Some("unset") => println!("{}", unsafe { addr_of!((*list[1].as_ptr()).running).read_volatile() }),
        _ => {
            let random = &mut Random::new(9);
            (0..=SHORT).for_each(|n| compare(random, n, every_w()));
            [511, 512, 513, 4095, 4096, 4097].into_iter().for_each(|n| compare(random, n, edges(n)));
        }
    }
}
