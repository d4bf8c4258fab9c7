//! Calls that are lent their list, their sum and their place between closed pages.

use plain_executive::numbers::Number;
use plain_executive::stretch::Busiest;

use super::{Exported, Record};
use crate::fence::{Edge, Fence, List};

pub struct Fenced {
    list: List,
    sum: Fence,
    place: Fence,
}

impl Fenced {
    /// For lists of so many records.
    pub fn new(most: usize) -> Self {
        let [sum, place] = [size_of::<u32>(), size_of::<usize>()].map(Fence::new);
        Fenced { list: List::new::<Record>(most), sum, place }
    }

    pub fn call(
        &mut self,
        function: Exported,
        edge: Edge,
        records: &[Record],
        w: usize,
        written: &mut Busiest,
    ) -> Number {
        let (side, _) = edge;
        let (mut sum, mut place) = (written.sum.to_ne_bytes(), written.place.to_ne_bytes());
        let cells = [self.sum.fill(&sum, side), self.place.fill(&place, side)].map(|part| part.as_mut_ptr());
        let call = |list| unsafe { function(list, records.len(), w, cells[0].cast(), cells[1].cast()) };
        let number = self.list.lend(records, edge, call);
        self.sum.empty(&mut sum, side);
        self.place.empty(&mut place, side);
        *written = Busiest { sum: u32::from_ne_bytes(sum), place: usize::from_ne_bytes(place) };
        number
    }
}
