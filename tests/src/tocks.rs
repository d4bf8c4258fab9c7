//! Tock values and milliseconds.

use crate::numbers::{require, Number, CONFIGURATION, MILLISECONDS, TOCK_VALUE};

#[derive(Clone, Copy, Debug, PartialEq, Eq)]
pub enum Tocks {
    OneShot(u32),
    /// With its period.
    Cyclic(u32),
}

impl Tocks {
    /// Tocks from the start to the first signal.
    pub fn first(self) -> u32 {
        match self {
            Tocks::OneShot(tocks) | Tocks::Cyclic(tocks) => tocks,
        }
    }

    /// 0 for a one-shot.
    pub fn period(self) -> u32 {
        match self {
            Tocks::OneShot(_) => 0,
            Tocks::Cyclic(period) => period,
        }
    }
}

/// X as a signed 16-bit number.
pub fn tock_value(x: u16) -> Result<Tocks, Number> {
    signed((x as i16).into())
}

/// The four bytes of a season timer as a signed 32-bit number.
pub fn season_tock_value(x: u32) -> Result<Tocks, Number> {
    signed(x as i32)
}

/// Of either width.
fn signed(value: i32) -> Result<Tocks, Number> {
    let tocks = value.unsigned_abs();
    match value {
        0 => Err(TOCK_VALUE),
        1.. => Ok(Tocks::OneShot(tocks)),
        _ => Ok(Tocks::Cyclic(tocks)),
    }
}

/// The number of tocks whose time is nearest; of two that are as near, the upper one.
fn nearest(milliseconds: u32, per_tock: u32) -> u32 {
    let off = |tocks: u32| milliseconds.abs_diff(tocks * per_tock);
    let below = milliseconds / per_tock;
    if off(below + 1) <= off(below) {
        below + 1
    } else {
        below
    }
}

/// The tock value for a number of milliseconds.
pub fn tocks_of_milliseconds(milliseconds: u16, per_tock: u16) -> Result<u16, Number> {
    require(per_tock != 0, CONFIGURATION)?;
    let tocks = nearest(milliseconds.into(), per_tock.into());
    require((1..=32_767).contains(&tocks), MILLISECONDS)?;
    Ok(tocks as u16)
}
