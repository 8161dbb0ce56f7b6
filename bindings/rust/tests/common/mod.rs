//! What the tests share: elements as the bench sheet begins with them, and errors by their numbers.
#![allow(dead_code)]

use element::{Element, Error, Length, ObjectNumber, Offset, Refusal, Session};
use element::{CREATION, FACTORY_STORE_SIZE, LARGEST_COMMAND, LARGEST_ROOM, LEAD};

/// The first object of the factory table, 140 bytes.
pub const FARES: ObjectNumber = ObjectNumber(0xF1D0);
/// A large object of the factory table, 1,500 bytes.
pub const LARGE: ObjectNumber = ObjectNumber(0xF1E0);

/// P1 of the bench sheet.
pub const OPEN: [u8; 20] = [
    0x70, 0x00, 0x00, 0x10, 0xD2, 0x76, 0x00, 0x00, 0x04, 0x47, 0x65, 0x6E, 0x41, 0x75, 0x74, 0x68,
    0x41, 0x70, 0x70, 0x6C,
];
pub const CLOSE: [u8; 4] = [0x71, 0x00, 0x00, 0x00];
pub const READ_ERROR: [u8; 10] = [0x01, 0x00, 0x00, 0x06, 0xF1, 0xC2, 0x00, 0x00, 0x00, 0x01];

pub fn factory_store() -> Vec<u8> {
    let mut store = vec![0; FACTORY_STORE_SIZE];
    Element::factory(&mut store, &mut Session::fresh()).expect("6,024 bytes are a factory store");
    store
}

/// A record whose data is all in use and always granted, byte by byte.
pub fn record(kind: u16, object: ObjectNumber, data: &[u8]) -> Vec<u8> {
    record_up_to(data.len(), kind, object, data)
}

/// The same with a maximum of its own: zeros stand behind the data in use.
pub fn record_up_to(maximum: usize, kind: u16, object: ObjectNumber, data: &[u8]) -> Vec<u8> {
    let [maximum, used] = [maximum, data.len()].map(|size| size as u16);
    let mut record = [96 + maximum, kind, object.0, maximum, used]
        .map(u16::to_le_bytes)
        .concat();
    record.extend([CREATION, 0]);
    for _ in 0..3 {
        record.push(1);
        record.resize(record.len() + 27, 0);
    }
    record.extend(data);
    record.resize(96 + usize::from(maximum), 0);
    record
}

/// The data of a queue: the next number, then each fare with its number.
pub fn queue_bytes(next: u32, fares: &[(u32, Vec<u8>)]) -> Vec<u8> {
    let mut bytes = next.to_le_bytes().to_vec();
    for (number, body) in fares {
        bytes.extend((8 + body.len() as u16).to_le_bytes());
        bytes.extend([1, 0]);
        bytes.extend(number.to_le_bytes());
        bytes.extend(body);
    }
    bytes
}

/// An element over a store and a session of its own.
pub fn element_of(store: Vec<u8>, session: Session) -> Element<'static> {
    Element::new(store.leak(), Box::leak(Box::new(session)))
}

/// Fresh store and session.
pub fn fresh() -> Element<'static> {
    element_of(factory_store(), Session::fresh())
}

/// Fresh store and session, opened.
pub fn opened() -> Element<'static> {
    let mut element = fresh();
    element.open().expect("P1");
    element
}

pub fn refused<T>(refusal: Refusal) -> Result<T, Error> {
    Err(Error::Refused(refusal))
}

pub fn write(
    element: &mut Element,
    object: ObjectNumber,
    offset: u16,
    bytes: &[u8],
) -> Result<(), Error> {
    element.write(
        object,
        Offset(offset),
        bytes,
        &mut vec![0; LEAD + bytes.len()],
    )
}

pub fn set_metadata(
    element: &mut Element,
    object: ObjectNumber,
    fields: &[u8],
) -> Result<(), Error> {
    element.set_metadata(object, fields, &mut [0; LARGEST_COMMAND])
}

pub fn read(
    element: &mut Element,
    object: ObjectNumber,
    offset: u16,
    length: u16,
) -> Result<Vec<u8>, Error> {
    let mut room = [0xEE; LARGEST_ROOM];
    let data = element.read(object, Offset(offset), Length(length), &mut room);
    data.map(<[u8]>::to_vec)
}

pub fn metadata(element: &mut Element, object: ObjectNumber) -> Result<Vec<u8>, Error> {
    let mut room = [0xEE; LARGEST_ROOM];
    element.metadata(object, &mut room).map(<[u8]>::to_vec)
}

/// The last error by a read, which clears it.
pub fn take_error(element: &mut Element) -> u8 {
    read(element, ObjectNumber::LAST_ERROR, 0, 1).expect("F1C2 is always read")[0]
}
