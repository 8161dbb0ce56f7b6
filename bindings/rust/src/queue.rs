//! What a queue holds, read from its bytes.

use crate::{FARE_HEAD, FARE_KIND, LARGEST_BODY};
use core::iter::FusedIterator;

/// The sequence number of a fare. A queue gives them by ones and none twice.
#[derive(Clone, Copy, Debug, PartialEq, Eq, PartialOrd, Ord, Hash)]
pub struct FareNumber(pub u32);

impl FareNumber {
    /// No fare has it: where it is the next number, the queue refuses every append with 0D.
    pub const NONE: FareNumber = FareNumber(0xFFFF_FFFF);
}

/// A fare of a queue.
#[derive(Clone, Copy, Debug, PartialEq, Eq, Hash)]
pub struct Fare<'a> {
    /// The number that it was given when it was appended.
    pub number: FareNumber,
    /// What was appended: 1 to [`LARGEST_BODY`] bytes.
    pub body: &'a [u8],
}

/// A queue, as the bytes of its data in use have it: the next number in 4 bytes, then the fares end to end, the oldest first. A fare is its length in 2
/// bytes ([`FARE_HEAD`] more than its body has), [`FARE_KIND`] in 2, its number in 4, its body; all least significant byte first. The fares are numbered
/// by ones up to just below the next number.
///
/// ```
/// use element::{FareNumber, Queue};
///
/// let bytes = b"\x09\0\0\0\x0D\0\x01\0\x07\0\0\0BUS 4\x0C\0\x01\0\x08\0\0\0TRAM";
/// let queue = Queue::from_bytes(bytes).expect("two fares");
/// assert_eq!(queue.next_number(), FareNumber(9));
/// let fares: Vec<_> = queue.fares().map(|fare| (fare.number, fare.body)).collect();
/// assert_eq!(fares, [(FareNumber(7), &b"BUS 4"[..]), (FareNumber(8), b"TRAM")]);
///
/// assert!(Queue::from_bytes(&bytes[..28]).is_none()); // a byte of the last fare is missing
/// ```
#[derive(Clone, Copy, Debug, PartialEq, Eq, Hash)]
pub struct Queue<'a> {
    next: FareNumber,
    fares: &'a [u8],
}

impl<'a> Queue<'a> {
    /// The queue whose data in use these bytes are, all of them; none where they are no queue.
    pub fn from_bytes(bytes: &'a [u8]) -> Option<Queue<'a>> {
        let (next, fares) = bytes.split_first_chunk()?;
        let next = FareNumber(u32::from_le_bytes(*next));
        are_numbered(fares, next).then_some(Queue { next, fares })
    }

    /// The number that the next fare will be given.
    pub fn next_number(&self) -> FareNumber {
        self.next
    }

    /// The fares, the oldest first.
    pub fn fares(&self) -> Fares<'a> {
        Fares { rest: self.fares }
    }
}

/// The fares of a [`Queue`], the oldest first.
#[derive(Clone, Debug)]
pub struct Fares<'a> {
    rest: &'a [u8],
}

impl<'a> Iterator for Fares<'a> {
    type Item = Fare<'a>;

    fn next(&mut self) -> Option<Fare<'a>> {
        let (fare, rest) = split_fare(self.rest)?;
        self.rest = rest;
        Some(fare)
    }
}

impl FusedIterator for Fares<'_> {}

/// Whether these bytes are whole fares, numbered by ones up to just below the next number.
fn are_numbered(mut fares: &[u8], next: FareNumber) -> bool {
    let mut due = None;
    while !fares.is_empty() {
        let Some((fare, rest)) = split_fare(fares) else {
            return false;
        };
        if fare.number >= next || due.is_some_and(|due| due != fare.number) {
            return false;
        }
        due = Some(FareNumber(fare.number.0 + 1));
        fares = rest;
    }
    due.is_none_or(|due| due == next)
}

/// The fare at the front and what stands behind it, unless no whole fare stands there.
fn split_fare(bytes: &[u8]) -> Option<(Fare<'_>, &[u8])> {
    let (head, rest) = bytes.split_first_chunk::<FARE_HEAD>()?;
    let [l0, l1, k0, k1, n0, n1, n2, n3] = *head;
    let size = usize::from(u16::from_le_bytes([l0, l1])).checked_sub(FARE_HEAD)?;
    if u16::from_le_bytes([k0, k1]) != FARE_KIND || size == 0 || size > LARGEST_BODY {
        return None;
    }
    let (body, rest) = rest.split_at_checked(size)?;
    let number = FareNumber(u32::from_le_bytes([n0, n1, n2, n3]));
    Some((Fare { number, body }, rest))
}

#[cfg(test)]
mod tests {
    use super::*;

    /// Next number 9, the fares 7 (`BUS 4`) and 8 (`TRAM`).
    const TWO: [u8; 29] = *b"\x09\0\0\0\x0D\0\x01\0\x07\0\0\0BUS 4\x0C\0\x01\0\x08\0\0\0TRAM";

    /// The same with one byte changed.
    fn two_with(at: usize, byte: u8) -> [u8; 29] {
        let mut bytes = TWO;
        bytes[at] = byte;
        bytes
    }

    /// The queue of the next number and one fare of zeros with that length and number.
    fn one<const SIZE: usize>(next: u32, length: u16, number: u32) -> [u8; SIZE] {
        let mut bytes = [0; SIZE];
        bytes[..4].copy_from_slice(&next.to_le_bytes());
        bytes[4..6].copy_from_slice(&length.to_le_bytes());
        bytes[6] = 1;
        bytes[8..12].copy_from_slice(&number.to_le_bytes());
        bytes
    }

    #[test]
    fn two_fares_are_given_in_order() {
        let queue = Queue::from_bytes(&TWO).unwrap();
        assert_eq!(queue.next_number(), FareNumber(9));
        let [bus, tram] = [(7, &b"BUS 4"[..]), (8, b"TRAM")].map(|(number, body)| Fare {
            number: FareNumber(number),
            body,
        });
        assert!(queue.fares().eq([bus, tram]));
    }

    #[test]
    fn an_empty_queue_has_any_next_number() {
        for next in [0, 1, 0x0102_0304, u32::MAX] {
            let bytes = next.to_le_bytes();
            let queue = Queue::from_bytes(&bytes).unwrap();
            assert_eq!(queue.next_number(), FareNumber(next));
            assert_eq!(queue.fares().next(), None);
        }
    }

    #[test]
    fn what_is_cut_or_followed_is_no_queue() {
        for size in 0..TWO.len() {
            let empty = size == 4;
            assert_eq!(Queue::from_bytes(&TWO[..size]).is_some(), empty, "{size}");
        }
        let first = two_with(0, 8);
        assert!(Queue::from_bytes(&first[..17]).is_some());
        let mut longer = [0; 30];
        longer[..29].copy_from_slice(&TWO);
        assert_eq!(Queue::from_bytes(&longer), None);
    }

    #[test]
    fn numbers_rise_by_ones_up_to_just_below_the_next() {
        for (at, byte) in [(0, 8), (0, 10), (1, 1), (8, 6), (8, 8), (21, 7), (21, 9)] {
            assert_eq!(
                Queue::from_bytes(&two_with(at, byte)),
                None,
                "{byte} at {at}"
            );
        }
        assert!(Queue::from_bytes(&one::<13>(u32::MAX, 9, u32::MAX - 1)).is_some());
        assert!(Queue::from_bytes(&one::<13>(0, 9, u32::MAX)).is_none());
        assert!(Queue::from_bytes(&one::<13>(u32::MAX, 9, u32::MAX)).is_none());
    }

    #[test]
    fn a_fare_has_its_kind_and_a_body_of_1_to_200_bytes() {
        for (at, byte) in [(6, 0), (6, 2), (7, 1), (4, 12), (4, 14), (5, 1)] {
            assert_eq!(
                Queue::from_bytes(&two_with(at, byte)),
                None,
                "{byte} at {at}"
            );
        }
        for length in 0..9 {
            assert!(
                Queue::from_bytes(&one::<12>(1, length, 0)).is_none(),
                "{length}"
            );
        }
        assert!(Queue::from_bytes(&one::<13>(1, 9, 0)).is_some());
        assert!(Queue::from_bytes(&one::<212>(1, 208, 0)).is_some());
        assert!(Queue::from_bytes(&one::<213>(1, 209, 0)).is_none());
    }
}
