//! Calls that are lent their list and their start between closed pages.

use plain_executive::numbers::Number;

use super::{Cycle, Exported};
use crate::fence::{Edge, Fence, List};

pub struct Fenced {
    list: List,
    start: Fence,
}

impl Fenced {
    /// For lists of so many timers.
    pub fn new(most: usize) -> Self {
        Fenced { list: List::new::<Cycle>(most), start: Fence::new(size_of::<u32>()) }
    }

    pub fn call(&mut self, function: Exported, edge: Edge, timers: &[Cycle], period: u32, written: &mut u32) -> Number {
        let (side, _) = edge;
        let mut start = written.to_ne_bytes();
        let cell = self.start.fill(&start, side).as_mut_ptr();
        let call = |list| unsafe { function(list, timers.len(), period, cell.cast()) };
        let number = self.list.lend(timers, edge, call);
        self.start.empty(&mut start, side);
        *written = u32::from_ne_bytes(start);
        number
    }
}
