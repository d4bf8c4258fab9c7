//! The exported C functions, wrapped. A result from 0 up is what was computed; a negative one is a number of the paper with a
//! minus sign.

pub mod beside;
pub mod caller;
pub mod compare;
pub mod damage;
pub mod decided;
pub mod dropped;
pub mod fence;
pub mod lent;
pub mod rules;
pub mod stack;
pub mod starts;
pub mod strange;
pub mod stretch;
pub mod tidy;

use plain_executive::numbers::Number;

extern "C" {
    fn mcx11_read_line(line: *const u8, digits: usize, frame: *mut u8, room: usize) -> i32;
    fn mcx11_write_line(frame: *const u8, bytes: usize, line: *mut u8, room: usize) -> i32;
    fn mcx11_milliseconds(ms: u16, per: u16) -> i32;
}

/// Reads a line into the front of `frame` and tells the frame's length.
pub fn read_line(line: &[u8], frame: &mut [u8]) -> Result<usize, Number> {
    told(unsafe { mcx11_read_line(line.as_ptr(), line.len(), frame.as_mut_ptr(), frame.len()) })
}

/// Writes a frame's digits into the front of `line` and tells how many.
pub fn write_line(frame: &[u8], line: &mut [u8]) -> Result<usize, Number> {
    told(unsafe { mcx11_write_line(frame.as_ptr(), frame.len(), line.as_mut_ptr(), line.len()) })
}

/// Milliseconds as tocks of `per` milliseconds each.
pub fn milliseconds(ms: u16, per: u16) -> Result<u16, Number> {
    told(unsafe { mcx11_milliseconds(ms, per) }).map(|tocks| u16::try_from(tocks).expect("tocks fit 16 bits"))
}

fn told(result: i32) -> Result<usize, Number> {
    usize::try_from(result).map_err(|_| Number::try_from(-result).expect("a number is one byte"))
}
