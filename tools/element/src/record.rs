//! The layout of a store: its records one by one, as far as their lengths lead.
use element::kind;

use crate::names;

/// The bytes of a record before its data.
pub const HEAD: usize = 96;
/// The bytes of a slot: the length of the expression, the expression, zeros.
pub const SLOT: usize = 28;
/// The most bytes of an object.
pub const LARGEST_OBJECT: usize = 1500;
/// The most records of a store.
pub const RECORDS: usize = 32;
/// The most bytes of a store.
pub const LARGEST_STORE: usize = 16384;
/// The kinds of records.
pub const KINDS: [u16; 4] = [
    kind::DATA,
    kind::COUNTER_UP,
    kind::QUEUE,
    kind::COUNTER_DOWN,
];

const FIRST_SLOT: usize = 12;

/// One record as its bytes stand; nothing is said of whether they are well formed.
#[derive(Clone, Copy, Debug, PartialEq, Eq)]
pub struct Record<'s> {
    /// Where it begins in the store.
    pub place: usize,
    /// All its bytes.
    pub bytes: &'s [u8],
}

impl<'s> Record<'s> {
    /// A byte of the record.
    pub fn byte(&self, at: usize) -> u8 {
        self.bytes.get(at).copied().unwrap_or(0)
    }

    /// A number of two bytes, least significant first.
    pub fn number(&self, at: usize) -> u16 {
        u16::from_le_bytes([self.byte(at), self.byte(at + 1)])
    }

    /// A part of the record.
    pub fn part(&self, from: usize, to: usize) -> &'s [u8] {
        self.bytes.get(from..to).unwrap_or(&[])
    }

    /// The kind of the record.
    pub fn kind(&self) -> u16 {
        self.number(2)
    }

    /// The object's number.
    pub fn object(&self) -> u16 {
        self.number(4)
    }

    /// The most bytes that the object holds.
    pub fn maximum(&self) -> usize {
        self.number(6).into()
    }

    /// The bytes in use.
    pub fn used(&self) -> usize {
        self.number(8).into()
    }

    /// The object's life cycle state.
    pub fn lcso(&self) -> u8 {
        self.byte(10)
    }

    /// A slot as it stands: 0 change, 1 read, 2 execute.
    pub fn slot(&self, index: usize) -> &'s [u8] {
        let from = FIRST_SLOT + SLOT * index;
        self.part(from, from + SLOT)
    }

    /// The expression in a slot: 0 change, 1 read, 2 execute.
    pub fn expression(&self, index: usize) -> &'s [u8] {
        match self.slot(index) {
            [length, rest @ ..] => rest.get(..usize::from(*length)).unwrap_or(rest),
            [] => &[],
        }
    }

    /// The data in use.
    pub fn data(&self) -> &'s [u8] {
        self.part(HEAD, HEAD + self.used())
    }
}

/// The records of a store from the front, as far as their lengths lead.
pub fn records(store: &[u8]) -> Vec<Record<'_>> {
    let mut records = Vec::new();
    let mut place = 0;
    while let Ok(length) = length_at(store, place) {
        let bytes = store.get(place..place + length).unwrap_or(&[]);
        records.push(Record { place, bytes });
        place += length;
    }
    records
}

/// The record of an object, if one has its number.
pub fn find(store: &[u8], object: u16) -> Option<Record<'_>> {
    records(store)
        .into_iter()
        .find(|record| record.object() == object)
}

/// The length of the record at a place, if one stands there whole; else why not.
pub fn length_at(store: &[u8], place: usize) -> Result<usize, String> {
    let rest = store.get(place..).unwrap_or(&[]);
    let least = HEAD + 1;
    let [low, high, ..] = rest else {
        return Err(format!(
            "{} left, expected a record of at least {least}",
            names::count(rest.len(), "byte")
        ));
    };
    let length = usize::from(u16::from_le_bytes([*low, *high]));
    let most = HEAD + LARGEST_OBJECT;
    if !(least..=most).contains(&length) {
        return Err(format!("length {length}, expected {least} to {most}"));
    }
    if length > rest.len() {
        return Err(format!(
            "length {length}, but only {} are left in the store",
            names::count(rest.len(), "byte")
        ));
    }
    Ok(length)
}

#[cfg(test)]
mod tests {
    use super::*;
    use crate::description;

    #[test]
    fn a_record_is_read() {
        let line = "F1D0 maximum 4 lcso creation change \"LcsO < operational\" read always execute never data 09 08\n";
        let store =
            description::to_store(&format!("{line}{}", line.replace("F1D0", "F1D1"))).unwrap();
        let records = records(&store);
        assert_eq!(records.len(), 2);
        let record = records[0];
        assert_eq!((record.place, record.bytes.len()), (0, 100));
        assert_eq!(record.object(), 0xF1D0);
        assert_eq!((record.maximum(), record.used()), (4, 2));
        assert_eq!(record.lcso(), 1);
        assert_eq!(record.expression(0), [0xE1, 0xFC, 0x07]);
        assert_eq!(record.expression(2), [0xFF]);
        assert_eq!(record.data(), [9, 8]);
        assert_eq!((records[1].place, records[1].object()), (100, 0xF1D1));
        assert_eq!(find(&store, 0xF1D1), Some(records[1]));
        assert_eq!(find(&store, 0xF1D2), None);
    }

    #[test]
    fn a_walk_ends_where_no_record_stands() {
        assert_eq!(records(&[]), []);
        assert_eq!(records(&[0xFF; 1000]), []);
        assert_eq!(records(&[97, 0, 1]), []);
    }
}
