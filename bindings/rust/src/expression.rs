//! The bytes of access expressions.
//!
//! An expression is [`ALWAYS`], [`NEVER`], or conditions joined by [`AND`] and [`OR`], where and binds first: at most 7 conditions, at most 3
//! groups joined by or. A condition is a life cycle, an operator and a state, or a counter that the command uses up.
//!
//! ```
//! use element::{expression, OPERATIONAL};
//!
//! // The factory's: written only while the object's state is below operational.
//! let change = [expression::LCSO, expression::LESS, OPERATIONAL];
//! assert_eq!(change, [0xE1, 0xFC, 0x07]);
//! ```
//!
//! # Conditions that use up a counter
//!
//! The condition [`counter(number)`](counter) holds while a counter of that number that counts up is in the store with its value below its
//! threshold. Where an expression grants a command, its first group from the left that holds decides: each counter named in that group goes up by
//! one, once, if the command is done. So a read that is done can change the store too: keep the store after every command that is done. A refused
//! command moves nothing. A read shows a counter before its step; a counter that the command itself writes or counts steps after that, at most onto
//! its threshold.
//!
//! ```
//! # use element::{kind, Counter, Element, Error, Length, ObjectNumber, Offset, Refusal, Session, HEADER, LEAD};
//! use element::{expression, tag};
//! # let record = |kind: u16, object: u16, data: &[u8]| {
//! #     let size = data.len() as u16;
//! #     let mut record = [96 + size, kind, object, size, size, 1].map(u16::to_le_bytes).concat();
//! #     for _ in 0..3 {
//! #         record.push(1);
//! #         record.resize(record.len() + 27, 0);
//! #     }
//! #     record.extend(data);
//! #     record
//! # };
//! # let trips = Counter { value: 0, threshold: 2 };
//! # let mut store = [record(kind::COUNTER_UP, 0xE120, &trips.to_bytes()), record(kind::DATA, 0xE121, b"TICKET")].concat();
//! # let mut session = Session::fresh();
//! # let mut element = Element::new(&mut store, &mut session);
//! # element.open()?;
//!
//! // Each read of the ticket is a trip.
//! let trips = ObjectNumber(0xE120); // counts up: value 0, threshold 2
//! let ticket = ObjectNumber(0xE121);
//! let [first, high, low] = expression::counter(trips);
//! element.set_metadata(ticket, &[tag::READ, 3, first, high, low], &mut [0; LEAD + 5])?;
//!
//! let mut room = [0; HEADER + 6];
//! assert_eq!(element.read(ticket, Offset(0), Length::ALL, &mut room)?, b"TICKET");
//! assert_eq!(element.counter(trips)?, Counter { value: 1, threshold: 2 });
//! assert_eq!(element.read(ticket, Offset(0), Length::ALL, &mut room)?, b"TICKET");
//! let third = element.read(ticket, Offset(0), Length::ALL, &mut room);
//! assert_eq!(third, Err(Error::Refused(Refusal::AccessDenied)));
//! # Ok::<(), Error>(())
//! ```

use crate::ObjectNumber;

/// Always granted; stands alone.
pub const ALWAYS: u8 = 0x00;
/// Never granted; stands alone.
pub const NEVER: u8 = 0xFF;
/// The chip's life cycle.
pub const LCSG: u8 = 0x70;
/// The application's life cycle.
pub const LCSA: u8 = 0xE0;
/// The object's life cycle.
pub const LCSO: u8 = 0xE1;
/// A counter that counts up, whose number follows in two bytes: see [`counter`].
pub const COUNTER: u8 = 0x40;
/// The state is equal to the one that follows.
pub const EQUAL: u8 = 0xFA;
/// The state is greater than the one that follows.
pub const GREATER: u8 = 0xFB;
/// The state is less than the one that follows.
pub const LESS: u8 = 0xFC;
/// Both hold.
pub const AND: u8 = 0xFD;
/// One of both holds.
pub const OR: u8 = 0xFE;
/// The most bytes of an expression: seven conditions.
pub const LARGEST: usize = 27;

/// The condition that a counter is below its threshold; a command that it grants uses it up by one. Any number is well formed, and where no counter
/// that counts up has it, the condition does not hold.
///
/// ```
/// use element::{expression, ObjectNumber};
///
/// assert_eq!(expression::counter(ObjectNumber(0xE120)), [0x40, 0xE1, 0x20]);
/// ```
pub const fn counter(object: ObjectNumber) -> [u8; 3] {
    let [high, low] = object.0.to_be_bytes();
    [COUNTER, high, low]
}
