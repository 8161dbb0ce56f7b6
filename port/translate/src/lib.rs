//! Prints the MIR of the proved library as portable C99: read, checked against its types and the headers, printed. What is not known is refused.
//! `same` holds that MIR against the MIR in the terms that are checked.

mod body;
pub mod file;
pub mod header;
pub mod instances;
pub mod interface;
pub mod json;
pub mod libraries;
pub mod mir;
pub mod read;
pub mod same;
mod types;

/// What was asked for, or why it cannot be had.
pub type Answer<T> = Result<T, String>;
