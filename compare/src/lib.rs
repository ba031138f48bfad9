//! An independent reckoning of bills and of whole runs of lines by
//! docs/tariffs.md, docs/protocol.md and docs/bills.md, with generators of
//! input and a comparison of runs with a program's.

pub mod bills;
pub mod block;
pub mod coverage;
pub mod generator;
pub mod image;
pub mod law;
pub mod lines;
pub mod random;
pub mod requests;
pub mod runs;
pub mod serve;
pub mod session;
pub mod spoiler;
pub mod tariffs;
pub mod trial;
