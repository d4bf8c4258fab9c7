//! A free start by its C function, which is handed timers as a C host has them.

mod case;
mod fenced;
pub mod lists;
mod way;
mod wrong;

use plain_executive::numbers::Number;
pub use plain_executive::starts::Cycle;

pub use case::{Case, Counts};
pub use fenced::Fenced;
pub use wrong::{right, wrong};

/// What the function returns where every start collides.
pub const NO_START: Number = 255;

extern "C" {
    pub fn mcx11_free_start(timers: *const Cycle, count: usize, period: u32, start: *mut u32) -> u8;
}

/// Such a function.
pub type Exported = unsafe extern "C" fn(*const Cycle, usize, u32, *mut u32) -> u8;

/// What is asked for a free start. With 0 it writes it.
pub type Program<'a> = &'a mut dyn FnMut(&mut [Cycle], u32, &mut u32) -> Number;

/// The C function as such a program.
pub fn engine(timers: &mut [Cycle], period: u32, written: &mut u32) -> Number {
    unsafe { mcx11_free_start(timers.as_mut_ptr(), timers.len(), period, written) }
}

/// By the C function.
pub fn free_start(timers: &mut [Cycle], period: u32) -> Result<Option<u32>, Number> {
    let mut start = u32::MAX;
    match engine(timers, period, &mut start) {
        0 => Ok(Some(start)),
        NO_START => Ok(None),
        number => Err(number),
    }
}
