//! The busiest stretch by its C function, which is handed records as a C host has them.

mod case;
mod fenced;
pub mod lists;
mod wrong;

use plain_executive::numbers::Number;
use plain_executive::stretch::{self, Busiest};

pub use case::Case;
pub use fenced::Fenced;
pub use wrong::{right, WRONG};

/// A record as C lays it out.
#[repr(C)]
#[derive(Clone, Copy, Debug, PartialEq, Eq)]
pub struct Record {
    pub tocks: u32,
    pub running: u8,
    /// C has no name for this byte.
    pub padding: u8,
    pub reissues: u16,
}

/// As the other implementation has them.
pub fn plain(records: &[Record]) -> Vec<stretch::Record> {
    let plain = |&Record { tocks, running, reissues, .. }: &Record| stretch::Record { tocks, running, reissues };
    records.iter().map(plain).collect()
}

extern "C" {
    pub fn mcx11_busiest(records: *const Record, count: usize, w: usize, sum: *mut u32, place: *mut usize) -> u8;
}

/// Such a function.
pub type Exported = unsafe extern "C" fn(*const Record, usize, usize, *mut u32, *mut usize) -> u8;

/// What is asked for the busiest stretch. With 0 it writes sum and place.
pub type Program<'a> = &'a mut dyn FnMut(&mut [Record], usize, &mut Busiest) -> Number;

/// The C function as such a program.
pub fn engine(records: &mut [Record], w: usize, written: &mut Busiest) -> Number {
    unsafe { mcx11_busiest(records.as_mut_ptr(), records.len(), w, &mut written.sum, &mut written.place) }
}

/// By the C function.
pub fn busiest(records: &mut [Record], w: usize) -> Result<Busiest, Number> {
    let mut busiest = Busiest { sum: u32::MAX, place: usize::MAX };
    match engine(records, w, &mut busiest) {
        0 => Ok(busiest),
        number => Err(number),
    }
}
