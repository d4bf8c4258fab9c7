//! Programs that are wrong about the busiest stretch, each in one way.

use plain_executive::numbers::{Number, STRETCH};
use plain_executive::stretch::{Busiest, MOST_RECORDS};

use super::Record;

type Wrong = (&'static str, fn(&mut [Record], usize, &mut Busiest) -> Number);

pub const WRONG: [Wrong; 20] = [
    ("the latest of equal ones", |records, w, written| {
        let number = right(records, w, written);
        if number == 0 {
            written.place = sums(records, w).iter().rposition(|sum| *sum == written.sum).expect("its sum");
        }
        number
    }),
    ("a stretch of w + 1", |records, w, written| {
        let more = if (1..records.len()).contains(&w) { w + 1 } else { w };
        right(records, more, written)
    }),
    ("the first stretch left out", |records, w, written| {
        let left_out = usize::from(w < records.len() && records.len() <= MOST_RECORDS);
        let number = right(&mut records[left_out..], w, written);
        written.place += if number == 0 { left_out } else { 0 };
        number
    }),
    ("the last stretch left out", |records, w, written| {
        let left_out = usize::from(w < records.len() && records.len() <= MOST_RECORDS);
        let end = records.len() - left_out;
        right(&mut records[..end], w, written)
    }),
    ("28 for w equal to the number of records", |records, w, written| {
        if w == records.len() {
            return STRETCH;
        }
        right(records, w, written)
    }),
    ("28 for 4,096 records", |records, w, written| right_up_to(MOST_RECORDS - 1, records, w, written)),
    ("4,097 records accepted", |records, w, written| right_up_to(MOST_RECORDS + 1, records, w, written)),
    ("the number of records cut to 16 bits", |records, w, written| {
        let end = usize::from(records.len() as u16);
        right(&mut records[..end], w, written)
    }),
    ("w cut to 32 bits", |records, w, written| right(records, w as u32 as usize, written)),
    ("w cut to 16 bits", |records, w, written| right(records, (w as u16).into(), written)),
    ("w above the number of records taken for it", |records, w, written| right(records, w.min(records.len()), written)),
    ("w 0 found with 0", |records, w, written| {
        if w == 0 && records.len() <= MOST_RECORDS {
            *written = Busiest { sum: 0, place: 0 };
            return 0;
        }
        right(records, w, written)
    }),
    ("the place counted from 1", |records, w, written| {
        let number = right(records, w, written);
        written.place += usize::from(number == 0);
        number
    }),
    ("the sum cut to 16 bits", |records, w, written| {
        let number = right(records, w, written);
        written.sum &= if number == 0 { 0xFFFF } else { u32::MAX };
        number
    }),
    ("running counted in place of reissues", |records, w, written| {
        let swap = |record: &Record| Record { reissues: record.running.into(), ..*record };
        right(&mut records.iter().map(swap).collect::<Vec<_>>(), w, written)
    }),
    ("the byte before the reissues counted with them", |records, w, written| {
        let shift = |record: &Record| Record { reissues: record.reissues << 8 | u16::from(record.padding), ..*record };
        right(&mut records.iter().map(shift).collect::<Vec<_>>(), w, written)
    }),
    ("the place left as it is where it is 0", |records, w, written| {
        let held = written.place;
        let number = right(records, w, written);
        if written.place == 0 {
            written.place = held;
        }
        number
    }),
    ("the place not found where the sum is 0", |records, w, written| {
        let held = written.place;
        let number = right(records, w, written);
        if number == 0 && written.sum == 0 {
            written.place = held;
        }
        number
    }),
    ("the sum written with 28", |records, w, written| {
        let number = right(records, w, written);
        written.sum = if number == 0 { written.sum } else { 0 };
        number
    }),
    ("a record written", |records, w, written| {
        let number = right(records, w, written);
        records.iter_mut().take(1).for_each(|record| record.padding = 0);
        number
    }),
];

/// As it should be, by another way than the double loop.
pub fn right(records: &mut [Record], w: usize, written: &mut Busiest) -> Number {
    right_up_to(MOST_RECORDS, records, w, written)
}

/// Where a list may have so many records.
fn right_up_to(most: usize, records: &[Record], w: usize, written: &mut Busiest) -> Number {
    if records.len() > most || w == 0 || w > records.len() {
        return STRETCH;
    }
    let sums = sums(records, w);
    let sum = *sums.iter().max().expect("a stretch");
    *written = Busiest { sum, place: sums.iter().position(|other| *other == sum).expect("its sum") };
    0
}

/// That of each stretch: what the records up to its end have, less what those before it have.
fn sums(records: &[Record], w: usize) -> Vec<u32> {
    let mut sum = 0;
    let mut upto = vec![0];
    upto.extend(records.iter().map(|record| {
        sum += u32::from(record.reissues);
        sum
    }));
    upto.iter().zip(&upto[w..]).map(|(before, end)| end - before).collect()
}
