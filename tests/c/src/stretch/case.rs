//! A list of records through a program beside the other implementation: the first difference.

use plain_executive::numbers::Number;
use plain_executive::stretch::{self, Busiest};

use super::{plain, Program, Record};

/// What sum and place hold before a call.
const HELD: [Busiest; 3] = [
    Busiest { sum: 0, place: 0 },
    Busiest { sum: u32::MAX, place: usize::MAX },
    Busiest { sum: 0xA5A5_A5A5, place: 0x5A5A_5A5A_5A5A_5A5A },
];

/// A list, and for some w what the other implementation answers.
pub struct Case {
    name: String,
    records: Vec<Record>,
    asked: Vec<(usize, Result<Busiest, Number>)>,
}

impl Case {
    pub fn new(name: String, records: Vec<Record>, widths: impl IntoIterator<Item = usize>) -> Self {
        let plain = plain(&records);
        let asked = widths.into_iter().map(|w| (w, stretch::busiest(&plain, w))).collect();
        Case { name, records, asked }
    }

    /// How many w are answered with a stretch, and how many with 28.
    pub fn counts(&self) -> [usize; 2] {
        let found = self.asked.iter().filter(|(_, answer)| answer.is_ok()).count();
        [found, self.asked.len() - found]
    }

    /// Compared are the number, and sum and place, which with 28 hold what they held; the records stay as they are. What a record
    /// holds beside its reissues changes nothing: a second run has the opposite there.
    pub fn difference(&self, program: Program) -> Option<String> {
        let opposite: Vec<Record> = self.records.iter().map(opposite).collect();
        let mut runs = [&self.records, &opposite, &self.records].into_iter().zip(HELD);
        runs.find_map(|(records, held)| self.difference_in(program, records, held))
    }

    fn difference_in(&self, program: Program, records: &[Record], held: Busiest) -> Option<String> {
        let mut lent = records.to_vec();
        for &(w, answer) in &self.asked {
            let mut written = held;
            let number = program(&mut lent, w, &mut written);
            let due = answer.map_or_else(|number| (number, held), |busiest| (0, busiest));
            if (number, written) != due {
                return Some(format!("{}, w {w}: {number} with {written:?}, the other has {due:?}", self.name));
            }
            if lent != records {
                return Some(format!("{}, w {w}: a record was written", self.name));
            }
        }
        None
    }
}

fn opposite(record: &Record) -> Record {
    let Record { tocks, running, padding, reissues } = *record;
    Record { tocks: !tocks, running: !running, padding: !padding, reissues }
}
