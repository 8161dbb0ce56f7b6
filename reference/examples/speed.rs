//! Prints how many commands per second `execute` takes over the factory store.

use std::hint::black_box;
use std::time::Instant;

use reference::factory::FACTORY_SIZE;
use reference::generator::commands::right_open;
use reference::queue;
use reference::store::{DATA, KIND, USED};
use reference::{check_store, execute, fresh_session, make_factory_store, Session};

const ROUNDS: usize = 200_000;

fn main() {
    let mut store = vec![0; FACTORY_SIZE];
    make_factory_store(&mut store);
    let mut room = [0; 1_504];
    let mut session = execute(&right_open(), &mut store, fresh_session(), &mut room).session;
    let commands: [(&str, &[u8]); 5] = [
        (
            "write of 8 bytes",
            b"\x02\x00\x00\x0C\xF1\xD0\x00\x09\x01\x02\x03\x04\x05\x06\x07\x08",
        ),
        (
            "read of 17 bytes",
            b"\x01\x00\x00\x06\xF1\xD0\x00\x00\x00\x11",
        ),
        ("read of metadata", b"\x01\x01\x00\x02\xF1\xE1"),
        (
            "write of metadata",
            b"\x02\x01\x00\x07\xF1\xE1\x20\x03\xC0\x01\x03",
        ),
        (
            "refused, no such object",
            b"\x01\x00\x00\x06\xF1\xDF\x00\x00\x00\x01",
        ),
    ];
    for (name, command) in commands {
        let start = Instant::now();
        for _ in 0..ROUNDS {
            session = execute(black_box(command), &mut store, session, &mut room).session;
        }
        report(name, start);
    }
    let start = Instant::now();
    for _ in 0..ROUNDS {
        black_box(check_store(black_box(&store)));
    }
    report("check of the store alone", start);
    append_and_acknowledge(&mut store, session);
}

/// Fares of 8 bytes, each acknowledged before the next; the first object is made an
/// empty queue of 140 bytes.
fn append_and_acknowledge(store: &mut [u8], session: Session) {
    let mut room = [0; 1_504];
    store[KIND] = 0x03;
    store[USED] = queue::EMPTY as u8;
    store[DATA..DATA + 140].fill(0);
    assert!(check_store(store));
    let append = b"\x02\x04\x00\x0A\xF1\xD0\x01\x02\x03\x04\x05\x06\x07\x08";
    let mut acknowledge = *b"\x02\x05\x00\x06\xF1\xD0\x00\x00\x00\x00";
    let start = Instant::now();
    for number in 0..ROUNDS as u32 / 2 {
        acknowledge[6..].copy_from_slice(&number.to_be_bytes());
        execute(black_box(append), store, session, &mut room);
        execute(black_box(&acknowledge), store, session, &mut room);
    }
    assert_eq!(store[USED], queue::EMPTY as u8);
    report("append, then acknowledge", start);
}

fn report(name: &str, start: Instant) {
    let rate = ROUNDS as f64 / start.elapsed().as_secs_f64();
    println!("{name:<26} {rate:>12.0} per second");
}
