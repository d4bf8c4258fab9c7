//! How much a caller of the executive has room for.

#[derive(Clone, Copy, Debug, PartialEq, Eq)]
pub struct Limits {
    pub tasks: u8,
    pub queues: u8,
    pub timers: u8,
    pub messages: u8,
    /// The widths times depths of all queues.
    pub queue_bytes: usize,
}

impl Limits {
    /// The ride controller's.
    pub const CONTROLLER: Limits = Limits { tasks: 126, queues: 32, timers: 64, messages: 64, queue_bytes: 4096 };

    /// The brake module's.
    pub const MODULE: Limits = Limits { tasks: 16, queues: 8, timers: 8, messages: 8, queue_bytes: 256 };
}
