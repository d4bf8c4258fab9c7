//! The queues: one ring of entries each, all in one run of bytes.

use crate::configuration::QueueSize;

#[derive(Clone, Debug)]
struct Ring {
    start: usize,
    width: usize,
    depth: usize,
    /// The place of the oldest entry, counted in entries.
    oldest: usize,
    held: usize,
}

impl Ring {
    /// Where the entry with this many before it begins.
    fn at(&self, before: usize) -> usize {
        let mut place = self.oldest + before;
        if place >= self.depth {
            place -= self.depth;
        }
        self.start + place * self.width
    }
}

#[derive(Clone, Debug)]
pub struct Queues {
    rings: Vec<Ring>,
    bytes: Vec<u8>,
}

impl Queues {
    pub fn fresh(sizes: &[QueueSize]) -> Self {
        let mut start = 0;
        let mut rings = Vec::with_capacity(sizes.len());
        for size in sizes {
            let (width, depth) = (usize::from(size.width), usize::from(size.depth));
            rings.push(Ring { start, width, depth, oldest: 0, held: 0 });
            start += width * depth;
        }
        Queues { rings, bytes: vec![0; start] }
    }

    pub fn is_empty(&self, queue: u8) -> bool {
        self.ring(queue).held == 0
    }

    pub fn is_full(&self, queue: u8) -> bool {
        let ring = self.ring(queue);
        ring.held == ring.depth
    }

    pub fn held(&self, queue: u8) -> usize {
        self.ring(queue).held
    }

    /// Puts an entry into a queue that isn't full.
    pub fn put(&mut self, queue: u8, entry: &[u8]) {
        let ring = &mut self.rings[usize::from(queue) - 1];
        let at = ring.at(ring.held);
        self.bytes[at..at + ring.width].copy_from_slice(entry);
        ring.held += 1;
    }

    /// Copies the oldest entry of a queue that isn't empty to the front of the slot; gives its width.
    pub fn take(&mut self, queue: u8, slot: &mut [u8]) -> usize {
        let ring = &mut self.rings[usize::from(queue) - 1];
        let at = ring.at(0);
        slot[..ring.width].copy_from_slice(&self.bytes[at..at + ring.width]);
        ring.oldest = if ring.oldest + 1 == ring.depth { 0 } else { ring.oldest + 1 };
        ring.held -= 1;
        ring.width
    }

    /// What the queue holds, oldest first.
    pub fn entries(&self, queue: u8) -> impl Iterator<Item = &[u8]> {
        let ring = self.ring(queue);
        (0..ring.held).map(move |before| &self.bytes[ring.at(before)..][..ring.width])
    }

    fn ring(&self, queue: u8) -> &Ring {
        &self.rings[usize::from(queue) - 1]
    }
}
