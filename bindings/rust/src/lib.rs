//! A secure element's object store for Rust hosts: a safe interface to the proved library `libfirmware.a`.
//!
//! The host keeps a store (the objects) and a [`Session`] (four bytes), and lends both to an [`Element`]. A command answers with its data or
//! with an [`Error`]; a refused command changes nothing but the last error. Every command that is done may change the store, a read too: where the
//! store is kept over a reset, keep it before the answer goes out.
//!
//! ```
//! use element::{Element, Length, ObjectNumber, Offset, Session, FACTORY_STORE_SIZE, HEADER, LEAD};
//!
//! const FARES: ObjectNumber = ObjectNumber(0xF1D0);
//!
//! let mut store = [0; FACTORY_STORE_SIZE];
//! let mut session = Session::fresh();
//! let mut element = Element::factory(&mut store, &mut session)?;
//!
//! let mut scratch = [0; LEAD + 8]; // a write is put together here
//! let mut room = [0; HEADER + 8]; // a response is put here
//! element.open()?;
//! element.write(FARES, Offset(0), b"FARE 001", &mut scratch)?;
//! let fare = element.read(FARES, Offset(0), Length(8), &mut room)?;
//! assert_eq!(fare, b"FARE 001");
//! # Ok::<(), element::Error>(())
//! ```
//!
//! A store may hold counters: [`Element::count`] moves one towards its threshold and not past it, [`Element::counter`] and
//! [`Element::set_counter`] read and set its [`Counter`]. The factory's store has none; [`kind`] says how a record tells that it is one. An access
//! expression may ask for a counter, and each command that it grants then uses that up by one: [`expression::counter`].
//!
//! A store may hold queues of fares: [`Element::append`] puts a fare behind the others, and a full queue refuses it; [`Element::queue`] reads the fares
//! with their numbers, and [`Element::acknowledge`] takes away those that are uploaded. Nothing else takes a fare away.
//!
//! At the dock, commands and responses travel in frames, cut into pieces of any size: [`dock::Stream`] receives them, [`dock::write_frame`] sends them.
//!
//! The crate needs `core` only and takes no memory of its own: all buffers are lent, and no call has a large one on the stack (an append has the
//! largest, 206 bytes). No input panics.
//! A command may also be given as bytes: [`Element::send`], [`Element::carry_out`] and, for a list, [`Element::run`].
#![no_std]
#![deny(missing_docs, unsafe_code, unsafe_op_in_unsafe_fn)]

mod counter;
mod element;
mod error;
mod library;
mod queue;
mod session;

pub mod command;
pub mod dock;
pub mod expression;
pub mod kind;
pub mod tag;

pub use counter::Counter;
pub use element::{Answer, Element, Length, ObjectNumber, Offset};
pub use error::{Error, Refusal};
pub use library::check_store;
pub use queue::{Fare, FareNumber, Fares, Queue};
pub use session::Session;

/// The exact size of the store that [`Element::factory`] fills.
pub const FACTORY_STORE_SIZE: usize = 6024;
/// The most bytes of a well-formed store.
pub const LARGEST_STORE: usize = 16384;
/// The most data of an object.
pub const LARGEST_OBJECT: usize = 1500;
/// The data of a counter: maximum and used of each.
pub const COUNTER_SIZE: usize = 8;
/// The next number of a queue, which stands before its fares: the data of an empty queue, and the least maximum of one.
pub const QUEUE_HEAD: usize = 4;
/// What stands before the body in a fare: length, kind and number.
pub const FARE_HEAD: usize = 8;
/// The kind that stands in every fare.
pub const FARE_KIND: u16 = 0x0001;
/// The most bytes of a fare's body; it has at least one.
pub const LARGEST_BODY: usize = 200;
/// The most bytes of a command; scratch for every write.
pub const LARGEST_COMMAND: usize = 1557;
/// The bytes before InData in a command and before OutData in a response.
pub const HEADER: usize = 4;
/// The bytes before the data in a write, and before the fields in a metadata write: the scratch has as many more than what is written.
pub const LEAD: usize = 8;
/// Room for a status; with less, a command has no answer.
pub const LEAST_ROOM: usize = 4;
/// Room for every response.
pub const LARGEST_ROOM: usize = 1504;

/// The first life cycle state.
pub const CREATION: u8 = 0x01;
/// The second life cycle state.
pub const INITIALISATION: u8 = 0x03;
/// The third life cycle state: in service.
pub const OPERATIONAL: u8 = 0x07;
/// The last life cycle state.
pub const TERMINATION: u8 = 0x0F;

/// The example of README.md runs too.
#[cfg(doctest)]
#[doc = include_str!("../README.md")]
struct Readme;
