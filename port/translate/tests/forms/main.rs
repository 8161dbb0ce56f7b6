//! The tests of the translator and of `same`: what is printed, by hand, what is refused, and what is noticed.

mod common;
mod generics;
mod headers;
mod json;
mod layout;
mod modules;
mod refusals;
mod same;
mod statements;
