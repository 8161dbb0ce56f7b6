//! Stores that break one clause each.

mod common;

use common::{
    counter_record, factory_store, fare, get_metadata, queue_data, queue_record, Element,
};
use reference::check_store;
use reference::generator::random::Random;
use reference::generator::stores::{valid_store, Damage};
use reference::queue::QueueFault;
use reference::store::{judge_store, Fault, Slot};

/// A record with always in each slot and no used bytes.
fn record(object: u16, maximum: u16) -> Vec<u8> {
    let mut bytes = Vec::new();
    for number in [96 + maximum, 1, object, maximum, 0] {
        bytes.extend_from_slice(&number.to_le_bytes());
    }
    bytes.extend_from_slice(&[1, 0]);
    for _ in 0..3 {
        let start = bytes.len();
        bytes.push(1);
        bytes.resize(start + 28, 0);
    }
    bytes.resize(96 + usize::from(maximum), 0);
    bytes
}

fn records(count: u16, maximum: u16) -> Vec<u8> {
    (0..count)
        .flat_map(|place| record(0x1000 + place, maximum))
        .collect()
}

/// Judges the store and checks that a command is refused for it.
fn fault_of(store: &[u8]) -> Option<Fault> {
    let fault = judge_store(store).err();
    assert_eq!(check_store(store), fault.is_none());
    let mut element = Element::opened();
    element.store = store.to_vec();
    let code = element.code(&get_metadata(0x0001));
    assert_eq!(code, if fault.is_some() { 0x06 } else { 0x01 });
    fault
}

/// The fault of a record of two bytes with one byte changed.
fn fault_with(place: usize, byte: u8) -> Option<Fault> {
    let mut store = record(0x1000, 2);
    store[place] = byte;
    fault_of(&store)
}

fn fault_with_slot(slot: Slot, expression: &[u8]) -> Option<Fault> {
    let mut store = record(0x1000, 2);
    let bytes = &mut store[slot.place()];
    bytes.fill(0);
    bytes[0] = expression.len() as u8;
    for (byte, wanted) in bytes[1..].iter_mut().zip(expression) {
        *byte = *wanted;
    }
    fault_of(&store)
}

#[test]
fn well_formed_stores() {
    assert_eq!(fault_of(&factory_store()), None);
    assert_eq!(fault_of(&record(0x1000, 1)), None);
    assert_eq!(fault_of(&record(0x1000, 1_500)), None);
    assert_eq!(fault_of(&records(32, 1)), None);
    // 32 records of 512 bytes are 16,384 bytes.
    assert_eq!(fault_of(&records(32, 416)), None);
    for object in [
        0x0000, 0xE0BF, 0xE0C1, 0xF1C1, 0xF1C3, 0xFFFF, 0xC0E0, 0xC0F1,
    ] {
        assert_eq!(judge_store(&record(object, 1)), Ok(()), "{object:04X}");
    }
}

#[test]
fn counts_and_sizes() {
    assert_eq!(fault_of(&[]), Some(Fault::NoRecord));
    assert_eq!(fault_of(&records(33, 1)), Some(Fault::TooManyRecords));
    let mut store = records(31, 416);
    store.extend(record(0x2000, 417));
    assert_eq!(store.len(), 16_385);
    assert_eq!(fault_of(&store), Some(Fault::TooLong));
}

#[test]
fn cut_short_and_trailing() {
    let store = records(2, 5);
    for length in 1..store.len() {
        let expected = (length != 101).then_some(Fault::CutShort);
        assert_eq!(fault_of(&store[..length]), expected, "{length}");
    }
    for trailing in 1..96 {
        let mut longer = store.clone();
        longer.resize(store.len() + trailing, 0);
        assert_eq!(fault_of(&longer), Some(Fault::CutShort));
    }
    let mut longer = store.clone();
    longer.resize(store.len() + 200, 0);
    assert_eq!(fault_of(&longer), Some(Fault::Maximum));
}

#[test]
fn record_length() {
    for length in [0u16, 1, 2, 96, 97, 99, 98 << 8, 0xFFFF] {
        let mut store = record(0x1000, 2);
        store[..2].copy_from_slice(&length.to_le_bytes());
        assert_eq!(fault_of(&store), Some(Fault::RecordLength), "{length}");
    }
}

#[test]
fn kind() {
    for byte in 0..=255 {
        let expected = match byte {
            1 => None,
            // A counter of two bytes.
            2 | 4 => Some(Fault::CounterMaximum),
            // A queue without its next number.
            3 => Some(Fault::Queue(QueueFault::Used)),
            _ => Some(Fault::Kind),
        };
        assert_eq!(fault_with(2, byte), expected);
    }
    for byte in 1..=255 {
        assert_eq!(fault_with(3, byte), Some(Fault::Kind));
    }
}

#[test]
fn kinds_of_a_counter() {
    for byte in 0..=255 {
        let expected = match byte {
            1 | 2 | 4 => None,
            // A next number, and 4 bytes that are no fare.
            3 => Some(Fault::Queue(QueueFault::CutShort)),
            _ => Some(Fault::Kind),
        };
        let fault = fault_of(&counter_record(byte, 0x1000, 7, 9));
        assert_eq!(fault, expected, "{byte}");
    }
    for kind in [1, 2, 4] {
        for high in 1..=255 {
            let mut store = counter_record(kind, 0x1000, 7, 9);
            store[3] = high;
            assert_eq!(fault_of(&store), Some(Fault::Kind));
            // As it would be, most significant byte first.
            store[2] = 0;
            assert_eq!(fault_of(&store), Some(Fault::Kind));
        }
    }
}

#[test]
fn values_and_thresholds_of_a_counter() {
    let numbers = [0, 1, 7, 8, 9, 0x7FFF_FFFF, 0xFFFF_FFFE, 0xFFFF_FFFF];
    for kind in [2, 4] {
        for value in numbers {
            for threshold in numbers {
                let store = counter_record(kind, 0x1000, value, threshold);
                assert_eq!(fault_of(&store), None);
            }
        }
    }
}

/// A record of this kind with so many bytes of data, all zero.
fn sized_record(kind: u8, maximum: u16, used: u16) -> Vec<u8> {
    let mut store = record(0x1000, maximum);
    store[2] = kind;
    store[8..10].copy_from_slice(&used.to_le_bytes());
    store
}

#[test]
fn sizes_of_a_counter() {
    for kind in [2, 4] {
        for maximum in 1..=20 {
            for used in 0..=20 {
                let expected = match (maximum, used) {
                    (8, 8) => None,
                    (8, _) => Some(Fault::CounterUsed),
                    _ => Some(Fault::CounterMaximum),
                };
                let store = sized_record(kind, maximum, used);
                assert_eq!(fault_of(&store), expected, "{maximum} {used}");
            }
        }
        for used in [0x0008 << 8, 0x0108, 0x8008, 0xFFFF] {
            let fault = fault_of(&sized_record(kind, 8, used));
            assert_eq!(fault, Some(Fault::CounterUsed));
        }
        for maximum in [0x0108, 1_500] {
            let fault = fault_of(&sized_record(kind, maximum, 8));
            assert_eq!(fault, Some(Fault::CounterMaximum));
        }
        assert_eq!(fault_of(&sized_record(kind, 0, 0)), Some(Fault::Maximum));
        let above = sized_record(kind, 1_501, 8);
        assert_eq!(fault_of(&above), Some(Fault::Maximum));
    }
    // Data of 8 bytes may be used in part.
    for used in 0..=8 {
        assert_eq!(fault_of(&sized_record(1, 8, used)), None);
    }
}

#[test]
fn other_clauses_of_a_counter() {
    for kind in [2, 4] {
        let fault_with = |place: usize, byte: u8| {
            let mut store = counter_record(kind, 0x1000, 7, 9);
            store[place] = byte;
            fault_of(&store)
        };
        assert_eq!(fault_with(0, 103), Some(Fault::RecordLength));
        assert_eq!(fault_with(10, 0x04), Some(Fault::LifeCycle));
        assert_eq!(fault_with(11, 1), Some(Fault::ZeroByte));
        assert_eq!(fault_with(13, 1), Some(Fault::Expression(Slot::Change)));
        assert_eq!(fault_with(67, 1), Some(Fault::SlotTail(Slot::Read)));
        let order = [0x1000, 0x1000].map(|object| counter_record(kind, object, 7, 9));
        assert_eq!(fault_of(&order.concat()), Some(Fault::Order));
        for object in [0xE0C0, 0xF1C0, 0xF1C2] {
            let fault = fault_of(&counter_record(kind, object, 7, 9));
            assert_eq!(fault, Some(Fault::SessionObject));
        }
    }
}

#[test]
fn maximum() {
    assert_eq!(fault_of(&record(0x1000, 0)), Some(Fault::Maximum));
    assert_eq!(fault_of(&record(0x1000, 1_501)), Some(Fault::Maximum));
    assert_eq!(fault_of(&record(0x1000, 10_000)), Some(Fault::Maximum));
}

#[test]
fn used() {
    assert_eq!(fault_with(8, 2), None);
    assert_eq!(fault_with(8, 3), Some(Fault::Used));
    assert_eq!(fault_with(9, 1), Some(Fault::Used));
    assert_eq!(fault_with(9, 255), Some(Fault::Used));
}

#[test]
fn life_cycle_and_zero_byte() {
    for byte in 0..=255 {
        let expected = match byte {
            0x01 | 0x03 | 0x07 | 0x0F => None,
            _ => Some(Fault::LifeCycle),
        };
        assert_eq!(fault_with(10, byte), expected);
    }
    for byte in 1..=255 {
        assert_eq!(fault_with(11, byte), Some(Fault::ZeroByte));
    }
}

#[test]
fn expressions_in_each_slot() {
    for slot in Slot::ALL {
        let good: [&[u8]; 5] = [
            &[0x00],
            &[0xFF],
            &[0x70, 0xFA, 0x01],
            &[0xE0, 0xFB, 0x03, 0xFE, 0xE1, 0xFC, 0x0F],
            &common::chain(7),
        ];
        for expression in good {
            assert_eq!(fault_with_slot(slot, expression), None);
        }
        let bad: [&[u8]; 10] = [
            &[],
            &[0x01],
            &[0x00, 0x00],
            &[0x70, 0xFA],
            &[0x71, 0xFA, 0x01],
            &[0x70, 0xFD, 0x01],
            &[0x70, 0xFA, 0x04],
            &[0x70, 0xFA, 0x01, 0xFC, 0x70, 0xFA, 0x01],
            &[0x70, 0xFA, 0x01, 0xFD, 0x00],
            &common::chain(8),
        ];
        for expression in bad {
            assert_eq!(
                fault_with_slot(slot, expression),
                Some(Fault::Expression(slot)),
                "{expression:02X?}"
            );
        }
        let mut four_groups = common::chain(4);
        for join in [3, 7, 11] {
            four_groups[join] = 0xFE;
        }
        let fault = fault_with_slot(slot, &four_groups);
        assert_eq!(fault, Some(Fault::Expression(slot)));
        for length in 28..=255 {
            let mut store = record(0x1000, 2);
            store[slot.place().start] = length;
            assert_eq!(fault_of(&store), Some(Fault::Expression(slot)));
        }
    }
}

#[test]
fn zeros_after_each_expression() {
    for slot in Slot::ALL {
        for place in slot.place().skip(2) {
            assert_eq!(fault_with(place, 1), Some(Fault::SlotTail(slot)));
        }
    }
}

#[test]
fn zeros_after_used() {
    let mut store = record(0x1000, 9);
    store[8] = 4;
    store[96..100].fill(0xFF);
    assert_eq!(fault_of(&store), None);
    for place in 100..105 {
        let mut dirty = store.clone();
        dirty[place] = 1;
        assert_eq!(fault_of(&dirty), Some(Fault::DataTail));
    }
}

#[test]
fn order_of_numbers() {
    let pair = |first, second| [record(first, 1), record(second, 2)].concat();
    assert_eq!(fault_of(&pair(0x00FF, 0x0100)), None);
    assert_eq!(fault_of(&pair(0x0100, 0x00FF)), Some(Fault::Order));
    assert_eq!(fault_of(&pair(0x0100, 0x0100)), Some(Fault::Order));
    assert_eq!(fault_of(&pair(0x0001, 0x0000)), Some(Fault::Order));
    assert_eq!(fault_of(&pair(0x0000, 0x0000)), Some(Fault::Order));
}

#[test]
fn session_objects() {
    for object in [0xE0C0, 0xF1C0, 0xF1C2] {
        let fault = fault_of(&record(object, 1));
        assert_eq!(fault, Some(Fault::SessionObject));
    }
}

#[test]
fn faults_of_a_later_record() {
    for place in 0..14 {
        let start = match place {
            0..=12 => place * 236,
            _ => 12 * 236 + 1_596,
        };
        let mut store = factory_store();
        store[start + 11] = 1;
        assert_eq!(fault_of(&store), Some(Fault::ZeroByte), "{place}");
    }
}

/// The fault of a queue of this maximum with these used bytes.
fn queue_fault(maximum: u16, used: &[u8]) -> Option<Fault> {
    fault_of(&queue_record(0x1000, maximum, used))
}

/// The fault of a queue whose fares have these numbers and one byte each.
fn numbers_fault(next: u32, numbers: &[u32]) -> Option<Fault> {
    let fares: Vec<Vec<u8>> = numbers.iter().map(|&number| fare(number, &[7])).collect();
    queue_fault(100, &queue_data(next, &fares))
}

#[test]
fn used_of_a_queue() {
    for maximum in 1..=20 {
        for used in 0..=20 {
            let expected = match used {
                _ if used > maximum => Some(Fault::Used),
                0..=3 => Some(Fault::Queue(QueueFault::Used)),
                4 => None,
                // Zeros are no fare: their head is cut short, or its length is 0.
                5..=11 => Some(Fault::Queue(QueueFault::CutShort)),
                _ => Some(Fault::Queue(QueueFault::BodySize)),
            };
            let store = sized_record(3, maximum, used);
            assert_eq!(fault_of(&store), expected, "{maximum} {used}");
        }
    }
    assert_eq!(fault_of(&sized_record(3, 1_500, 4)), None);
    let above = sized_record(3, 1_501, 4);
    assert_eq!(fault_of(&above), Some(Fault::Maximum));
}

#[test]
fn next_number_of_an_empty_queue() {
    for next in [0, 1, 255, 256, 0x8000_0000, u32::MAX - 1, u32::MAX] {
        assert_eq!(numbers_fault(next, &[]), None);
    }
}

#[test]
fn body_size_of_a_fare() {
    for size in 0..=400 {
        let used = queue_data(1, &[fare(0, &vec![0x5A; size])]);
        let expected = match size {
            1..=200 => None,
            _ => Some(Fault::Queue(QueueFault::BodySize)),
        };
        assert_eq!(queue_fault(500, &used), expected, "{size}");
        // Behind another fare too.
        let used = queue_data(9, &[fare(7, &[1]), fare(8, &vec![0; size])]);
        assert_eq!(queue_fault(500, &used), expected, "{size}");
    }
    // The length, least significant byte first, of a fare with 3 bytes.
    for length in 0..=0xFFFFu16 {
        let mut used = queue_data(1, &[fare(0, &[1, 2, 3])]);
        used[4..6].copy_from_slice(&length.to_le_bytes());
        let expected = match length {
            11 => None,
            // A body of 1 or 2, and then fewer bytes than a head has.
            9 | 10 | 12..=208 => Some(Fault::Queue(QueueFault::CutShort)),
            _ => Some(Fault::Queue(QueueFault::BodySize)),
        };
        let store = queue_record(0x1000, 15, &used);
        assert_eq!(judge_store(&store).err(), expected, "{length}");
    }
}

#[test]
fn whole_fares_up_to_used() {
    let whole = queue_data(3, &[fare(1, &[1, 2, 3]), fare(2, &[4])]);
    assert_eq!(whole.len(), 24);
    for used in 4..=24 {
        let expected = match used {
            4 | 24 => None,
            15 => Some(Fault::Queue(QueueFault::NextNumber)),
            _ => Some(Fault::Queue(QueueFault::CutShort)),
        };
        assert_eq!(queue_fault(40, &whole[..used]), expected, "{used}");
    }
}

#[test]
fn kind_of_a_fare() {
    for kind in 0..=0xFFFFu16 {
        let mut used = queue_data(2, &[fare(0, &[1]), fare(1, &[2])]);
        // The second fare's kind.
        used[15..17].copy_from_slice(&kind.to_le_bytes());
        let expected = (kind != 1).then_some(Fault::Queue(QueueFault::FareKind));
        let store = queue_record(0x1000, 40, &used);
        assert_eq!(judge_store(&store).err(), expected, "{kind:04X}");
    }
}

#[test]
fn numbers_of_fares() {
    for (next, numbers) in [
        (1, &[0][..]),
        (4, &[0, 1, 2, 3]),
        (4, &[3]),
        (257, &[254, 255, 256]),
        (0x0100_0001, &[0x00FF_FFFF, 0x0100_0000]),
        (u32::MAX, &[u32::MAX - 3, u32::MAX - 2, u32::MAX - 1]),
    ] {
        assert_eq!(numbers_fault(next, numbers), None, "{numbers:?}");
    }
    let fare_number = Some(Fault::Queue(QueueFault::FareNumber));
    for (next, numbers) in [
        // The first, a middle and the last one off by one.
        (8, &[3, 5, 6, 7][..]),
        (8, &[5, 5, 6, 7]),
        (8, &[4, 5, 7, 7]),
        (8, &[4, 5, 5, 7]),
        (8, &[4, 5, 6, 8]),
        (8, &[4, 5, 6, 6]),
        (8, &[7, 6, 5, 4]),
        // More fares than numbers below the next one.
        (1, &[u32::MAX, 0]),
        (2, &[u32::MAX - 1, u32::MAX, 0, 1]),
        // Most significant byte first.
        (8, &[0x0600_0000, 0x0700_0000]),
    ] {
        assert_eq!(numbers_fault(next, numbers), fare_number, "{numbers:?}");
    }
    let next_number = Some(Fault::Queue(QueueFault::NextNumber));
    for (next, numbers) in [
        (7, &[4, 5, 6, 7][..]),
        (9, &[4, 5, 6, 7]),
        (4, &[4, 5, 6, 7]),
        (0, &[4, 5, 6, 7]),
        (0x0800_0000, &[4, 5, 6, 7]),
        (0, &[0]),
        (0, &[u32::MAX]),
        (u32::MAX, &[u32::MAX]),
        (0, &[u32::MAX - 1, u32::MAX]),
    ] {
        assert_eq!(numbers_fault(next, numbers), next_number, "{numbers:?}");
    }
}

#[test]
fn other_clauses_of_a_queue() {
    let right = queue_record(0x1000, 20, &queue_data(1, &[fare(0, &[1, 2, 3])]));
    assert_eq!(fault_of(&right), None);
    let fault_with = |place: usize, byte: u8| {
        let mut store = right.clone();
        store[place] = byte;
        fault_of(&store)
    };
    assert_eq!(fault_with(0, 115), Some(Fault::RecordLength));
    assert_eq!(fault_with(3, 3), Some(Fault::Kind));
    assert_eq!(fault_with(8, 21), Some(Fault::Used));
    assert_eq!(fault_with(10, 0x04), Some(Fault::LifeCycle));
    assert_eq!(fault_with(11, 1), Some(Fault::ZeroByte));
    assert_eq!(fault_with(13, 1), Some(Fault::Expression(Slot::Change)));
    assert_eq!(fault_with(67, 1), Some(Fault::SlotTail(Slot::Read)));
    // 15 of 20 bytes are used.
    for place in 96 + 15..96 + 20 {
        assert_eq!(fault_with(place, 1), Some(Fault::DataTail));
    }
    let twice = [right.clone(), right.clone()].concat();
    assert_eq!(fault_of(&twice), Some(Fault::Order));
    for object in [0xE0C0, 0xF1C0, 0xF1C2] {
        let fault = fault_of(&queue_record(object, 4, &[0; 4]));
        assert_eq!(fault, Some(Fault::SessionObject));
    }
}

#[test]
fn generated_stores_are_as_meant() {
    let mut random = Random::new(77);
    for _ in 0..200 {
        assert_eq!(judge_store(&valid_store(&mut random)), Ok(()));
    }
    for damage in Damage::all() {
        for _ in 0..40 {
            let store = damage.make(&mut random);
            assert_eq!(judge_store(&store), Err(damage.fault()), "{damage:?}");
        }
    }
}
