//! A recorded session, shown: in words, or as a page for a browser. What is shown is what the exported functions answered and
//! left in the lent memory; the other implementation runs beside them and must agree.

pub mod arguments;
pub mod base64;
pub mod busiest;
pub mod changes;
pub mod deflate;
pub mod differences;
pub mod json;
pub mod names;
pub mod page;
pub mod progress;
pub mod recording;
pub mod refusals;
pub mod replay;
pub mod stuck;
pub mod summary;
pub mod turns;
pub mod words;
