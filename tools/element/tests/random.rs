//! Random bytes and texts: no panic, library and explainer agree, and what is written is read back.
mod common;

use common::Numbers;
use element::Session;
use element_tool::keep::Kept;
use element_tool::queue::{Fare, Queue};
use element_tool::{check, command, description, expression, faults, list, metadata, record, run};

/// The words of both texts, and some that belong to none.
const WORDS: [&str; 41] = [
    "F1D0",
    "F1E0",
    "E0C0",
    "maximum",
    "counter",
    "up",
    "down",
    "value",
    "threshold",
    "queue",
    "next",
    "fare",
    "4294967296",
    "140",
    "1501",
    "lcso",
    "creation",
    "07",
    "change",
    "read",
    "execute",
    "always",
    "never",
    "data",
    "\"",
    "LcsG",
    "LcsO",
    "=",
    "<",
    ">",
    "and",
    "or",
    "operational",
    "#",
    "01",
    "é",
    "\u{0}",
    "0",
    "empty",
    "\r",
    "\u{FEFF}",
];

fn agree(store: &[u8]) -> bool {
    let well_formed = check::is_well_formed(store);
    let faults = faults::faults(store);
    assert_eq!(faults.is_empty(), well_formed, "{faults:?} {store:02X?}");
    well_formed
}

#[test]
fn descriptions_go_both_ways() {
    let mut numbers = Numbers::new(1);
    for _ in 0..300 {
        let text = common::description(&mut numbers);
        let store = description::to_store(&text).unwrap();
        if store.is_empty() {
            continue;
        }
        assert!(agree(&store), "{text}");
        let written = description::of_store(&store);
        let (_, lines) = written.split_once('\n').unwrap();
        assert_eq!(lines, text);
    }
}

#[test]
fn library_and_explainer_agree_on_changed_stores() {
    let mut numbers = Numbers::new(2);
    let mut well_formed = 0;
    for _ in 0..60 {
        let text = common::description(&mut numbers);
        let store = description::to_store(&text).unwrap();
        for _ in 0..300 {
            let mut changed = store.clone();
            change(&mut numbers, &mut changed);
            well_formed += usize::from(agree(&changed));
        }
    }
    assert!((500..17000).contains(&well_formed), "{well_formed}");
}

/// Changes some bytes, mostly of the first 120 of a record, or cuts or lengthens the store.
fn change(numbers: &mut Numbers, store: &mut Vec<u8>) {
    let heads: Vec<usize> = record::records(store).iter().map(|r| r.place).collect();
    for _ in 0..1 + numbers.below(2) {
        let near = match heads.is_empty() {
            true => 0,
            false => numbers.one(&heads) + numbers.below(120),
        };
        let special = [
            0, 1, 2, 3, 4, 7, 8, 0x0F, 0x1B, 0x40, 0x70, 0xE0, 0xE1, 0xFA, 0xFC, 0xFD, 0xFE, 0xFF,
        ];
        let byte = match numbers.below(3) {
            0 => numbers.byte(),
            _ => numbers.one(&special),
        };
        if let Some(place) = store.get_mut(near) {
            *place = byte;
        }
    }
    match numbers.below(20) {
        0 => store.truncate(numbers.below(store.len() + 1)),
        1 => store.extend(numbers.bytes(120)),
        2 => store.extend(store.clone()),
        _ => {}
    }
}

#[test]
fn library_and_explainer_agree_on_random_bytes() {
    let mut numbers = Numbers::new(3);
    for _ in 0..3000 {
        let mut bytes = numbers.bytes(600);
        if numbers.below(2) == 0 {
            let front = [
                0x61,
                0,
                1,
                0,
                numbers.byte(),
                numbers.byte(),
                1,
                0,
                0,
                0,
                1,
                0,
            ];
            bytes.splice(0..0, front);
        }
        agree(&bytes);
    }
}

#[test]
fn expressions_go_both_ways() {
    let mut numbers = Numbers::new(4);
    for _ in 0..5000 {
        let text = common::expression(&mut numbers);
        let bytes = expression::from_text(&text, 1).unwrap();
        assert_eq!(expression::to_text(&bytes), Ok(text));
    }
    for _ in 0..20000 {
        let count = numbers.below(32);
        let bytes: Vec<u8> = (0..count)
            .map(|_| {
                numbers.one(&[
                    0x40, 0x70, 0xE0, 0xE1, 0xFA, 0xFB, 0xFC, 0xFD, 0xFE, 0x00, 0xFF, 7,
                ])
            })
            .collect();
        if let Ok(text) = expression::to_text(&bytes) {
            assert_eq!(expression::from_text(&text, 1), Ok(bytes));
        }
    }
}

#[test]
fn random_texts_are_read_or_told() {
    let mut numbers = Numbers::new(5);
    for _ in 0..20000 {
        let text = numbers.text(&WORDS);
        for slip in description::to_store(&text).err().into_iter().flatten() {
            assert!(slip.line >= 1 && slip.column >= 1, "{slip:?}");
        }
        for slip in list::parse(&text).err().into_iter().flatten() {
            assert!(slip.line >= 1 && slip.column >= 1, "{slip:?}");
        }
        let _ = expression::from_text(&text, 1);
        let noise = numbers.bytes(200);
        let _ = list::parse(&String::from_utf8_lossy(&noise));
        let _ = description::to_store(&String::from_utf8_lossy(&noise));
    }
}

#[test]
fn random_commands_are_told() {
    let mut numbers = Numbers::new(6);
    for _ in 0..20000 {
        let mut bytes = numbers.bytes(40);
        if let [cmd, param, high, low, ..] = bytes.as_mut_slice() {
            *cmd = numbers.one(&[1, 2, 0x70, 0x71, 0x81, 0x82, 0x55]);
            *param = numbers.one(&[0, 1, 0x40, 2, 3, 4, 5]);
            (*high, *low) = (0, numbers.byte());
        }
        assert!(!command::in_words(&bytes).is_empty());
        assert!(!metadata::in_words(&bytes).is_empty());
    }
}

/// What a read gives: the bytes in use from its offset on, at most its length, where the room has 4 bytes more than these. The store changes exactly
/// where a counter is told to have stepped.
#[test]
fn random_reads_give_what_is_in_use() {
    let mut numbers = Numbers::new(8);
    let mut seen = [0; 4];
    for _ in 0..20 {
        let store = description::to_store(&common::description(&mut numbers)).unwrap();
        for _ in 0..1000 {
            seen[check_read(&mut numbers, &store)] += 1;
        }
    }
    assert!(seen.iter().all(|count| *count > 1000), "{seen:?}");
}

/// A read near the end of what is in use. Gives 0 where access is denied, 1 past the bytes in use, 2 without room for the answer, 3 where it is done.
fn check_read(numbers: &mut Numbers, store: &[u8]) -> usize {
    let record = numbers.one(&record::records(store));
    let used = record.used();
    let offset = match numbers.below(3) {
        0 => used + numbers.below(3),
        _ => numbers.below(used + 1),
    };
    let length = match numbers.below(3) {
        0 => 0xFFFF,
        _ => numbers.below(used + 3),
    };
    let parts = [record.object(), offset as u16, length as u16].map(u16::to_be_bytes);
    let command = [&[[0x01, 0x00], [0, 6]][..], &parts].concat().concat();
    let space = numbers.one(&[4, 7, 20, 1504]);
    let mut kept = Kept {
        store: store.to_vec(),
        session: Session {
            opened: 1,
            ..Session::fresh()
        },
    };
    let exchange = run::send(&mut kept, &command, space);
    assert_eq!(kept.store == store, exchange.steps.is_empty());
    let given = record.data().get(offset..used.min(offset + length));
    let told = exchange.response.get(4..).unwrap_or(&[]);
    match (exchange.refused, given) {
        (Some(0x07), _) => 0,
        (Some(0x08), None) => 1,
        (Some(0x0D), Some(data)) if 4 + data.len() > space => 2,
        (None, Some(data)) if data == told && 4 + data.len() <= space => 3,
        _ => panic!("{command:02X?} in a room of {space}: {exchange:?}"),
    }
}

/// On any store, session and room: a refusal has a number, and it changes no byte of the store.
#[test]
fn random_commands_are_run() {
    let mut numbers = Numbers::new(7);
    let text = common::description(&mut numbers);
    let first = description::to_store(&text).unwrap();
    let mut kept = Kept {
        store: first,
        session: Session {
            opened: 1,
            ..Session::fresh()
        },
    };
    let objects: Vec<u16> = record::records(&kept.store)
        .iter()
        .map(|r| r.object())
        .collect();
    for _ in 0..20000 {
        let [high, low] = numbers.one(&objects).to_be_bytes();
        let content = numbers.bytes(12);
        let param = numbers.one(&[0, 1, 2, 4, 5, 0x40]);
        let mut bytes = vec![numbers.one(&[1, 2, 0x81]), param, 0];
        bytes.push(2 + content.len() as u8);
        bytes.extend([high, low]);
        bytes.extend(content);
        let before = kept.store.clone();
        let exchange = run::send(&mut kept, &bytes, numbers.one(&[0, 3, 4, 20, 1504]));
        if let Some(number) = exchange.refused {
            assert!(element::Refusal::from_number(number).is_some(), "{number}");
            assert_eq!(kept.store, before);
            assert!(exchange.last_error >= number);
        }
    }
}

/// A queue's days, beside a list of fares that the test keeps: what the element holds, and what is told of it, is that list.
#[test]
fn random_days_of_a_queue_lose_nothing() {
    let mut numbers = Numbers::new(9);
    let mut seen = [0; 5];
    for maximum in [4, 12, 13, 40, 300, 1500] {
        for next in [0, 7, u32::MAX - 9] {
            let mut kept = queue(maximum, next);
            let mut due = Queue::numbered(&[], Some(next), maximum).unwrap();
            for _ in 0..600 {
                seen[day_step(&mut numbers, &mut kept, &mut due)] += 1;
            }
        }
    }
    assert!(seen.iter().all(|count| *count > 100), "{seen:?}");
}

/// An open element with an empty queue between two other objects.
fn queue(maximum: usize, next: u32) -> Kept {
    let rest = "lcso creation change always read always execute never";
    let text = format!("E130 maximum 3 {rest} data FF\nE131 queue next {next} maximum {maximum} {rest}\nE132 maximum 3 {rest} data FF");
    Kept {
        store: description::to_store(&text).unwrap(),
        session: Session {
            opened: 1,
            ..Session::fresh()
        },
    }
}

/// An append or an acknowledgement, on the element and on the list. Gives 0 where one is appended, 1 without room, 2 without a number, 3 where some are
/// acknowledged, 4 where the number is absent.
fn day_step(numbers: &mut Numbers, kept: &mut Kept, due: &mut Queue) -> usize {
    let (command, refused, case) = match numbers.below(3) {
        0 => acknowledgement(numbers, due),
        _ => append(numbers, due),
    };
    let exchange = run::send(kept, &command, 4);
    assert_eq!(exchange.refused, refused, "{command:02X?} {due:?}");
    let (_, left) = exchange.queues.unwrap();
    assert_eq!(left, *due);
    assert!(agree(&kept.store));
    case
}

fn append(numbers: &mut Numbers, due: &mut Queue) -> (Vec<u8>, Option<u8>, usize) {
    let size = numbers.one(&[1, 2, 30, 200]);
    let body: Vec<u8> = (0..size).map(|_| numbers.byte()).collect();
    let command = [&[2, 4, 0, 2 + size as u8, 0xE1, 0x31][..], &body].concat();
    if due.used() + 8 + size > due.maximum {
        return (command, Some(0x08), 1);
    }
    if due.next == u32::MAX {
        return (command, Some(0x0D), 2);
    }
    let number = due.next;
    due.fares.push(Fare { number, body });
    due.next += 1;
    (command, None, 0)
}

fn acknowledgement(numbers: &mut Numbers, due: &mut Queue) -> (Vec<u8>, Option<u8>, usize) {
    let near = due.next.saturating_sub(numbers.below(6) as u32);
    let number = near.saturating_add(numbers.below(2) as u32);
    let command = [&[2, 5, 0, 6, 0xE1, 0x31][..], &number.to_be_bytes()].concat();
    match due.fares.iter().position(|fare| fare.number == number) {
        Some(place) => {
            due.fares.drain(..=place);
            (command, None, 3)
        }
        None => (command, Some(0x05), 4),
    }
}
