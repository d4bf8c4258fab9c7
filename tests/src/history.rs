//! What went through a queue, kept only when asked for.

#[derive(Clone, Debug, Default, PartialEq, Eq)]
pub struct History {
    /// All entries ever put.
    pub put: Vec<Vec<u8>>,
    /// At each dequeue that completed, the first width bytes that the task's slot then held.
    pub copied: Vec<Vec<u8>>,
}
