//! What is malformed in a store: which record, and why.
use element::{kind, COUNTER_SIZE, QUEUE_HEAD};

use crate::counter::Direction;
use crate::expression;
use crate::names;
use crate::queue::Queue;
use crate::record::{
    length_at, records, Record, HEAD, KINDS, LARGEST_OBJECT, LARGEST_STORE, RECORDS, SLOT,
};

/// What is malformed.
#[derive(Clone, Debug, PartialEq, Eq)]
pub struct Fault {
    /// The record, counted from 1, with its place; none where it is the store as a whole.
    pub record: Option<(usize, usize)>,
    /// The number of its object, where the record is there whole.
    pub object: Option<u16>,
    /// What stands there, and what was expected.
    pub why: String,
}

impl Fault {
    /// The fault in one line.
    pub fn line(&self) -> String {
        let object = self.object.map(|object| format!(" ({object:04X})"));
        match self.record {
            Some((number, place)) => format!(
                "record {number}{} at byte {place}: {}",
                object.unwrap_or_default(),
                self.why
            ),
            None => self.why.clone(),
        }
    }
}

/// All that is malformed, in the order of the bytes; nothing for a well-formed store.
pub fn faults(store: &[u8]) -> Vec<Fault> {
    let of_store = |why: String| {
        vec![Fault {
            record: None,
            object: None,
            why,
        }]
    };
    if store.is_empty() {
        return of_store("the store is empty, expected 1 to 32 records".into());
    }
    if store.len() > LARGEST_STORE {
        return of_store(format!(
            "the store has more than {LARGEST_STORE} bytes, expected at most that"
        ));
    }
    let records = records(store);
    let mut faults = Vec::new();
    let mut before = None;
    for (index, record) in records.iter().enumerate() {
        let found = record_faults(record, before);
        faults.extend(found.into_iter().map(|why| Fault {
            record: Some((index + 1, record.place)),
            object: Some(record.object()),
            why,
        }));
        before = Some(record.object());
    }
    faults.extend(end_fault(store, &records));
    if records.len() > RECORDS {
        let why = format!("{} records, expected 1 to {RECORDS}", records.len());
        faults.extend(of_store(why));
    }
    faults
}

/// What stands behind the last whole record, if anything does.
fn end_fault(store: &[u8], records: &[Record]) -> Option<Fault> {
    let place = records
        .last()
        .map_or(0, |record| record.place + record.bytes.len());
    if place == store.len() {
        return None;
    }
    let why = length_at(store, place).err()?;
    Some(Fault {
        record: Some((records.len() + 1, place)),
        object: None,
        why,
    })
}

fn record_faults(record: &Record, before: Option<u16>) -> Vec<String> {
    let mut faults = Vec::new();
    faults.extend(number_faults(record));
    faults.extend(object_fault(record.object(), before));
    if names::state(record.lcso()).is_none() {
        faults.push(format!(
            "LcsO {:02X}, expected 01, 03, 07 or 0F",
            record.lcso()
        ));
    }
    if record.byte(11) != 0 {
        faults.push(format!("{:02X} behind LcsO, expected 00", record.byte(11)));
    }
    for (index, name) in names::SLOTS.iter().enumerate() {
        faults.extend(slot_fault(record.slot(index)).map(|why| format!("{name} slot: {why}")));
    }
    faults.extend(queue_fault(record));
    faults.extend(tail_fault(record));
    faults
}

fn number_faults(record: &Record) -> Vec<String> {
    let mut faults = Vec::new();
    let (maximum, length) = (record.maximum(), record.bytes.len());
    if !KINDS.contains(&record.kind()) {
        faults.push(format!(
            "kind {:04X}, expected 0001, 0002, 0003 or 0004",
            record.kind()
        ));
    }
    if let Some(why) = maximum_fault(record) {
        faults.push(why);
    } else if length != HEAD + maximum {
        faults.push(format!(
            "length {length} with a maximum of {maximum}, expected {}",
            HEAD + maximum
        ));
    }
    faults.extend(used_fault(record));
    faults
}

fn is_counter(record: &Record) -> bool {
    Direction::of_kind(record.kind()).is_some()
}

fn is_queue(record: &Record) -> bool {
    record.kind() == kind::QUEUE
}

fn maximum_fault(record: &Record) -> Option<String> {
    let maximum = record.maximum();
    if is_counter(record) {
        return (maximum != COUNTER_SIZE)
            .then(|| format!("maximum {maximum} of a counter, expected {COUNTER_SIZE}"));
    }
    let (of_what, least) = match is_queue(record) {
        true => (" of a queue", QUEUE_HEAD),
        false => ("", 1),
    };
    (!(least..=LARGEST_OBJECT).contains(&maximum))
        .then(|| format!("maximum {maximum}{of_what}, expected {least} to {LARGEST_OBJECT}"))
}

fn used_fault(record: &Record) -> Option<String> {
    let (maximum, used) = (record.maximum(), record.used());
    if is_counter(record) {
        return (used != COUNTER_SIZE)
            .then(|| format!("used {used} of a counter, expected {COUNTER_SIZE}"));
    }
    (used > maximum).then(|| format!("used {used}, expected at most the maximum of {maximum}"))
}

/// What stands in a queue, where all its bytes in use are there.
fn queue_fault(record: &Record) -> Option<String> {
    let (data, maximum) = (record.data(), record.maximum());
    (is_queue(record) && data.len() == record.used() && data.len() <= maximum)
        .then(|| Queue::read(data, maximum).err())
        .flatten()
}

/// Why an object number may not stand in a store behind the one before it.
pub fn object_fault(object: u16, before: Option<u16>) -> Option<String> {
    if let Some(name) = names::session_object(object) {
        return Some(format!(
            "object {object:04X} is {name}, which lives in the session, expected another number"
        ));
    }
    let before = before.filter(|before| *before >= object)?;
    Some(format!(
        "object {object:04X} behind {before:04X}, expected a number above that"
    ))
}

fn slot_fault(slot: &[u8]) -> Option<String> {
    let [length, rest @ ..] = slot else {
        return Some(format!("cut short, expected {SLOT} bytes"));
    };
    let length = usize::from(*length);
    let Some((expression, zeros)) = rest.split_at_checked(length) else {
        return Some(format!("expression of {length} bytes, expected 1 to 27"));
    };
    if let Err(why) = expression::to_text(expression) {
        return Some(why);
    }
    let (at, byte) = first_not_zero(zeros)?;
    Some(format!(
        "{byte:02X} at byte {} of the slot, expected 00 behind the expression",
        1 + length + at
    ))
}

/// Data past used is zero; of a counter all is in use.
fn tail_fault(record: &Record) -> Option<String> {
    if is_counter(record) {
        return None;
    }
    let from = HEAD + record.used();
    let (at, byte) = first_not_zero(record.part(from, record.bytes.len()))?;
    Some(format!(
        "{byte:02X} at byte {} of the data, expected 00 past the {} in use",
        record.used() + at,
        record.used()
    ))
}

fn first_not_zero(bytes: &[u8]) -> Option<(usize, u8)> {
    let at = bytes.iter().position(|byte| *byte != 0)?;
    bytes.get(at).map(|byte| (at, *byte))
}

#[cfg(test)]
mod tests {
    use super::*;
    use crate::check::is_well_formed;

    /// A store of one object of 4 bytes with two in use.
    fn small() -> Vec<u8> {
        let mut store = vec![100, 0, 1, 0, 0xD0, 0xF1, 4, 0, 2, 0, 1, 0];
        for expression in [&[3, 0xE1, 0xFC, 0x07][..], &[1, 0], &[1, 0]] {
            let mut slot = expression.to_vec();
            slot.resize(SLOT, 0);
            store.extend(slot);
        }
        store.extend([9, 8, 0, 0]);
        store
    }

    /// The faults of the small store with one byte changed, which the library finds malformed too.
    fn changed(at: usize, byte: u8) -> Vec<String> {
        let mut store = small();
        store[at] = byte;
        assert!(!is_well_formed(&store), "byte {at} is {byte:02X}");
        faults(&store).iter().map(Fault::line).collect()
    }

    #[test]
    fn a_well_formed_store_has_none() {
        assert!(is_well_formed(&small()));
        assert_eq!(faults(&small()), []);
    }

    /// A byte of the small store, its new value, and what is said of it.
    const CHANGES: [(usize, u8, &str); 14] = [
        (2, 5, "kind 0005, expected 0001, 0002, 0003 or 0004"),
        (3, 1, "kind 0101, expected 0001, 0002, 0003 or 0004"),
        (6, 5, "length 100 with a maximum of 5, expected 101"),
        (7, 6, "maximum 1540, expected 1 to 1500"),
        (8, 5, "used 5, expected at most the maximum of 4"),
        (10, 4, "LcsO 04, expected 01, 03, 07 or 0F"),
        (11, 1, "01 behind LcsO, expected 00"),
        (
            12,
            28,
            "change slot: expression of 28 bytes, expected 1 to 27",
        ),
        (
            12,
            0,
            "change slot: 0 bytes, expected 00, FF or 4k - 1 bytes for k conditions",
        ),
        (
            15,
            4,
            "change slot: 04 at byte 2, expected a state: 01, 03, 07 or 0F",
        ),
        (
            16,
            7,
            "change slot: 07 at byte 4 of the slot, expected 00 behind the expression",
        ),
        (
            41,
            5,
            "read slot: 1 byte, expected 00, FF or 4k - 1 bytes for k conditions",
        ),
        (
            95,
            1,
            "execute slot: 01 at byte 27 of the slot, expected 00 behind the expression",
        ),
        (
            99,
            5,
            "05 at byte 3 of the data, expected 00 past the 2 in use",
        ),
    ];

    #[test]
    fn each_fault_is_told() {
        for (at, byte, why) in CHANGES {
            let expected = format!("record 1 (F1D0) at byte 0: {why}");
            assert_eq!(changed(at, byte), [expected]);
        }
    }

    /// A store of one counter, with one byte changed.
    fn counter(at: usize, byte: u8) -> Vec<u8> {
        let mut store = vec![104, 0, 2, 0, 0xD0, 0xF1, 8, 0, 8, 0, 1, 0];
        for _ in 0..3 {
            store.push(1);
            store.resize(store.len() + SLOT - 1, 0);
        }
        store.extend([0, 0, 0, 12, 0, 0, 1, 44]);
        store[at] = byte;
        store
    }

    #[test]
    fn any_value_with_any_threshold_is_sound() {
        for (at, byte) in [(2, 2), (2, 4), (96, 0xFF), (99, 0), (103, 0)] {
            let store = counter(at, byte);
            assert!(is_well_formed(&store), "byte {at} is {byte:02X}");
            assert_eq!(faults(&store), []);
        }
    }

    /// A byte of the counter's store, its new value, and what is said of it.
    const OF_A_COUNTER: [(usize, u8, &str); 7] = [
        (2, 6, "kind 0006, expected 0001, 0002, 0003 or 0004"),
        (6, 9, "maximum 9 of a counter, expected 8"),
        (6, 0, "maximum 0 of a counter, expected 8"),
        (8, 7, "used 7 of a counter, expected 8"),
        (8, 9, "used 9 of a counter, expected 8"),
        (9, 1, "used 264 of a counter, expected 8"),
        (10, 2, "LcsO 02, expected 01, 03, 07 or 0F"),
    ];

    #[test]
    fn each_fault_of_a_counter_is_told() {
        for (at, byte, why) in OF_A_COUNTER {
            let store = counter(at, byte);
            assert!(!is_well_formed(&store), "byte {at} is {byte:02X}");
            let told: Vec<String> = faults(&store).iter().map(Fault::line).collect();
            assert_eq!(told, [format!("record 1 (F1D0) at byte 0: {why}")]);
        }
    }

    #[test]
    fn a_counter_of_another_size_is_told() {
        let mut store = small();
        store[2] = 4;
        assert!(!is_well_formed(&store));
        let told: Vec<String> = faults(&store).into_iter().map(|fault| fault.why).collect();
        assert_eq!(
            told,
            [
                "maximum 4 of a counter, expected 8",
                "used 2 of a counter, expected 8"
            ]
        );
    }

    /// A store of a queue of 32 bytes: fares 1 and 2 with a body of a byte each, the next number 3.
    fn queue() -> Vec<u8> {
        let mut store = vec![128, 0, 3, 0, 0xD3, 0xF1, 32, 0, 22, 0, 1, 0];
        for _ in 0..3 {
            store.push(1);
            store.resize(store.len() + SLOT - 1, 0);
        }
        store.extend([3, 0, 0, 0, 9, 0, 1, 0, 1, 0, 0, 0, 0x41]);
        store.extend([9, 0, 1, 0, 2, 0, 0, 0, 0]);
        store.resize(128, 0);
        store
    }

    #[test]
    fn any_next_number_of_an_empty_queue_is_sound() {
        assert!(is_well_formed(&queue()));
        assert_eq!(faults(&queue()), []);
        let mut store = queue();
        store[8] = 4;
        store[96..118].fill(0);
        for next in [0, 1, 3, 0x0102_0304, u32::MAX] {
            store[96..100].copy_from_slice(&next.to_le_bytes());
            assert!(is_well_formed(&store), "{next}");
            assert_eq!(faults(&store), []);
        }
    }

    /// A byte of the queue's store, its new value, and what is said of it.
    const OF_A_QUEUE: [(usize, u8, &str); 12] = [
        (8, 33, "used 33, expected at most the maximum of 32"),
        (
            8,
            21,
            "fare 2 at byte 13 of the data: cut short, 8 bytes in use from there on, expected a fare of at least 9",
        ),
        (
            8,
            23,
            "fare 3 at byte 22 of the data: cut short, 1 byte in use from there on, expected a fare of at least 9",
        ),
        (
            96,
            1,
            "2 fares with the next number 1, expected at most 1",
        ),
        (
            96,
            4,
            "the last fare has number 2, expected 3, just below the next number 4",
        ),
        (
            100,
            8,
            "fare 1 at byte 4 of the data: length 8, expected 9 to 208",
        ),
        (
            109,
            209,
            "fare 2 at byte 13 of the data: length 209, expected 9 to 208",
        ),
        (
            109,
            10,
            "fare 2 at byte 13 of the data: length 10, but only 9 bytes are in use from there on",
        ),
        (
            102,
            3,
            "fare 1 at byte 4 of the data: kind 0003, expected 0001",
        ),
        (
            113,
            3,
            "fare 2 at byte 13 of the data: number 3, expected 2",
        ),
        (
            104,
            2,
            "fare 1 at byte 4 of the data: number 2, expected 1",
        ),
        (
            118,
            9,
            "09 at byte 22 of the data, expected 00 past the 22 in use",
        ),
    ];

    #[test]
    fn each_fault_of_a_queue_is_told() {
        for (at, byte, why) in OF_A_QUEUE {
            let mut store = queue();
            store[at] = byte;
            assert!(!is_well_formed(&store), "byte {at} is {byte:02X}");
            let told: Vec<String> = faults(&store).iter().map(Fault::line).collect();
            assert_eq!(told, [format!("record 1 (F1D3) at byte 0: {why}")]);
        }
    }

    #[test]
    fn a_queue_has_at_least_its_next_number() {
        let mut store = small();
        store[2] = 3;
        let told = |store: &[u8]| -> Vec<String> {
            assert!(!is_well_formed(store));
            faults(store).into_iter().map(|fault| fault.why).collect()
        };
        assert_eq!(told(&store), ["used 2 of a queue, expected at least 4"]);
        store[8] = 4;
        assert!(is_well_formed(&store));
        store.pop();
        (store[0], store[6], store[8]) = (99, 3, 3);
        assert_eq!(
            told(&store),
            [
                "maximum 3 of a queue, expected 4 to 1500",
                "used 3 of a queue, expected at least 4"
            ]
        );
    }

    #[test]
    fn a_length_that_leads_nowhere_is_told() {
        let tells = |at, byte, why: &str| {
            assert_eq!(changed(at, byte), [format!("record 1 at byte 0: {why}")]);
        };
        tells(0, 96, "length 96, expected 97 to 1596");
        tells(1, 1, "length 356, but only 100 bytes are left in the store");
    }

    #[test]
    fn faults_of_the_store_are_told() {
        let first = |store: &[u8]| faults(store).first().map(Fault::line);
        assert!(first(&[]).is_some_and(|line| line.contains("empty")));
        assert!(first(&[0; LARGEST_STORE + 1]).is_some_and(|line| line.contains("16384")));
        let twice = small().repeat(2);
        assert_eq!(
            first(&twice).as_deref(),
            Some("record 2 (F1D0) at byte 100: object F1D0 behind F1D0, expected a number above that")
        );
        let mut many = Vec::new();
        for number in 0..33u8 {
            let mut one = small();
            one[4] = number;
            many.extend(one);
        }
        assert_eq!(
            first(&many).as_deref(),
            Some("33 records, expected 1 to 32")
        );
        assert!(!is_well_formed(&many));
        assert!(is_well_formed(&many[..3200]));
        let mut cut = small();
        cut.push(0);
        assert_eq!(
            first(&cut).as_deref(),
            Some("record 2 at byte 100: 1 byte left, expected a record of at least 97")
        );
    }

    #[test]
    fn objects_of_the_session_are_told() {
        for object in [0xE0C0, 0xF1C0, 0xF1C2] {
            assert!(object_fault(object, None).is_some());
        }
        assert_eq!(object_fault(0xF1C1, Some(0xF1BF)), None);
    }
}
