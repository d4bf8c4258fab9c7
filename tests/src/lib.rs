//! The task executive in plain Rust, written from the paper alone. It is the other implementation that the
//! verified executive and the ledger's definitions are compared with.

pub mod answer;
pub mod clock;
pub mod command;
pub mod configuration;
pub mod executive;
pub mod history;
pub mod items;
pub mod limits;
pub mod line;
pub mod mailboxes;
pub mod numbers;
pub mod queues;
pub mod semaphore;
mod services;
pub mod session;
mod settling;
pub mod starts;
pub mod stretch;
pub mod tasks;
pub mod timers;
pub mod tocks;
pub mod trail;
pub mod written;

pub mod coverage;
pub mod generator;
pub mod random;
pub mod restored;
pub mod turns;
