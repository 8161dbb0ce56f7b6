//! The MIR that the libraries hold, held against the MIR in the terms that are checked, and against what these are made from: one grammar, one comparison.

mod antt;
pub mod difference;
pub mod grammar;
pub mod library;
pub mod modules;
pub mod terms;
