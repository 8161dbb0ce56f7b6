//! Seeded generation of cases, lists, mixes and dock streams. The same seed gives the same bytes.

pub mod cases;
pub mod commands;
pub mod contents;
pub mod counting;
pub mod expressions;
pub mod frames;
pub mod held;
pub mod lists;
pub mod mixes;
pub mod names;
pub mod queues;
pub mod random;
pub mod stores;
pub mod streams;
