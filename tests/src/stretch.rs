//! The busiest stretch of a run, from the records that a host keeps.

use crate::numbers::{require, Number, STRETCH};

/// A list has at most so many.
pub const MOST_RECORDS: usize = 4096;

/// What a host keeps of a frame.
#[derive(Clone, Copy, Debug, PartialEq, Eq)]
pub struct Record {
    /// Since the start.
    pub tocks: u32,
    /// The task that runs behind the frame.
    pub running: u8,
    pub reissues: u16,
}

#[derive(Clone, Copy, Debug, PartialEq, Eq)]
pub struct Busiest {
    /// The largest sum of reissues.
    pub sum: u32,
    /// Where the earliest such stretch begins; the first record is place 0.
    pub place: usize,
}

/// Of w consecutive records. All stretches are looked at, and all records of each.
pub fn busiest(records: &[Record], w: usize) -> Result<Busiest, Number> {
    require(records.len() <= MOST_RECORDS, STRETCH)?;
    require(w != 0 && w <= records.len(), STRETCH)?;
    let mut busiest = Busiest { sum: sum(&records[..w]), place: 0 };
    for place in 1..=records.len() - w {
        let sum = sum(&records[place..place + w]);
        if sum > busiest.sum {
            busiest = Busiest { sum, place };
        }
    }
    Ok(busiest)
}

fn sum(stretch: &[Record]) -> u32 {
    stretch.iter().map(|record| u32::from(record.reissues)).sum()
}
