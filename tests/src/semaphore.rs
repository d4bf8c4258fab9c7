//! The three states of a semaphore.

#[derive(Clone, Copy, Debug, PartialEq, Eq)]
pub enum Semaphore {
    Pending,
    Done,
    /// With the one task that waits.
    Waiting(u8),
}

impl Semaphore {
    pub fn is_waiting(self) -> bool {
        matches!(self, Semaphore::Waiting(_))
    }
}
