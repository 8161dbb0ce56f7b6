//! The factory store, from one fixed table.

use crate::expression::{ALWAYS, LCSO, LESS};
use crate::session::{CREATION, OPERATIONAL};
use crate::store::{self, RecordKind, Slot};

/// Object number and maximum of each factory object.
pub const FACTORY_OBJECTS: [(u16, usize); 14] = [
    (0xF1D0, 140),
    (0xF1D1, 140),
    (0xF1D2, 140),
    (0xF1D3, 140),
    (0xF1D4, 140),
    (0xF1D5, 140),
    (0xF1D6, 140),
    (0xF1D7, 140),
    (0xF1D8, 140),
    (0xF1D9, 140),
    (0xF1DA, 140),
    (0xF1DB, 140),
    (0xF1E0, 1_500),
    (0xF1E1, 1_500),
];

/// The size of the factory store.
pub const FACTORY_SIZE: usize = factory_size();

const fn factory_size() -> usize {
    let mut size = 0;
    let mut place = 0;
    while place < FACTORY_OBJECTS.len() {
        size += store::DATA + FACTORY_OBJECTS[place].1;
        place += 1;
    }
    size
}

/// Makes the factory store: 0, or 2 and nothing changed if the size is another.
pub fn make_factory_store(buffer: &mut [u8]) -> u8 {
    if buffer.len() != FACTORY_SIZE {
        return 2;
    }
    buffer.fill(0);
    let mut rest = buffer;
    for (object, maximum) in FACTORY_OBJECTS {
        let (record, after) = rest.split_at_mut(store::DATA + maximum);
        make_record(record, object, maximum);
        rest = after;
    }
    0
}

/// Makes a factory record in zeroed bytes.
fn make_record(record: &mut [u8], object: u16, maximum: usize) {
    put_number(record, store::LENGTH, record.len() as u16);
    put_number(record, store::KIND, RecordKind::Data.number());
    put_number(record, store::OBJECT, object);
    put_number(record, store::MAXIMUM, maximum as u16);
    record[store::LCSO] = CREATION;
    put_expression(record, Slot::Change, &[LCSO, LESS, OPERATIONAL]);
    put_expression(record, Slot::Read, &[ALWAYS]);
    put_expression(record, Slot::Execute, &[ALWAYS]);
}

fn put_number(record: &mut [u8], place: usize, number: u16) {
    record[place..place + 2].copy_from_slice(&number.to_le_bytes());
}

fn put_expression(record: &mut [u8], slot: Slot, expression: &[u8]) {
    let bytes = &mut record[slot.place()];
    bytes[0] = expression.len() as u8;
    bytes[1..1 + expression.len()].copy_from_slice(expression);
}
