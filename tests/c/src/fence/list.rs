//! A list that is lent at a closed page, or four bytes from it.

use std::slice;

use super::{Fence, Side};

pub struct List {
    fence: Fence,
}

/// The side of a closed page at which all lies that is lent, and whether there is a gap between that page and the list.
pub type Edge = (Side, bool);

pub const EDGES: [Edge; 4] = [(Side::Front, false), (Side::Back, false), (Side::Front, true), (Side::Back, true)];

/// With it 4 divides the addresses of items of eight bytes, and 8 does not.
const GAP: [u8; 4] = [0xC5; 4];

impl List {
    /// For lists of so many items.
    pub fn new<Item>(most: usize) -> Self {
        List { fence: Fence::new(most * size_of::<Item>() + GAP.len()) }
    }

    /// What is told of a list that is lent. It stays as it is.
    pub fn lend<Item, Told>(
        &mut self,
        list: &[Item],
        (side, gap): Edge,
        tell: impl FnOnce(*const Item) -> Told,
    ) -> Told {
        let (before, bytes) = with_gap(list, side, if gap { &GAP } else { &[] });
        let told = tell(self.fence.fill(&bytes, side)[before..].as_ptr().cast());
        let mut after = bytes.clone();
        self.fence.empty(&mut after, side);
        assert_eq!(after, bytes, "the list was written");
        told
    }
}

/// The bytes of a list with those between it and the closed page, and how many of these come before it.
fn with_gap<Item>(list: &[Item], side: Side, gap: &[u8]) -> (usize, Vec<u8>) {
    let list = unsafe { slice::from_raw_parts(list.as_ptr().cast(), size_of_val(list)) };
    match side {
        Side::Front => (gap.len(), [gap, list].concat()),
        Side::Back => (0, [list, gap].concat()),
    }
}
