//! Measures the search for a record, in stores of 1 to 32 records, each numbered two above the one before.
//!
//! Every figure is the median of the rounds, in time of the processor; each round measures every cell. What is found is compared with
//! where the record was put.

#[allow(dead_code)]
mod clock;
#[allow(dead_code)]
mod queues;
#[allow(dead_code)]
mod stores;

use std::hint::black_box;

use reference::generator::random::Random;
use reference::store::DATA;

use clock::Clock;
use stores::Object;

extern "C" {
    fn search_record(store: *const u8, len: usize, number: u16) -> usize;
}

fn search(store: &[u8], number: u16) -> usize {
    // SAFETY: the pointer is good for its length, and the store is sound.
    unsafe { search_record(store.as_ptr(), store.len(), number) }
}

/// What is given where there is no record.
const NOTHING: usize = 16_384;

const ROUNDS: usize = 101;
const TIMES: usize = 20_000;
const MAXIMUM: usize = 16;
const FIRST: u16 = 0xF200;

fn store_of(count: usize, random: &mut Random) -> Vec<u8> {
    let mut store = Vec::new();
    for place in 0..count {
        let object = Object {
            number: number_at(place),
            maximum: MAXIMUM,
            used: 0,
        };
        store.extend(stores::record(object, stores::SHORT_ONES, random));
    }
    store
}

fn number_at(place: usize) -> u16 {
    FIRST + 2 * place as u16
}

/// A search: the number, and where its record begins.
type Asked = (u16, usize);

/// The columns: objects that are there, then objects that are not.
const COLUMNS: [&str; 6] = [
    "first",
    "middle",
    "last",
    "absent, below all",
    "absent, in the middle",
    "absent, above all",
];

fn asked(count: usize) -> [Asked; 6] {
    let there = |place: usize| (number_at(place), place * (DATA + MAXIMUM));
    let middle = count / 2;
    [
        there(0),
        there(middle),
        there(count - 1),
        (FIRST - 1, NOTHING),
        (number_at(middle) - 1, NOTHING),
        (number_at(count - 1) + 1, NOTHING),
    ]
}

/// Nanoseconds of one search.
fn time(store: &[u8], (number, place): Asked) -> f64 {
    let start = Clock::start();
    for _ in 0..TIMES {
        assert_eq!(search(black_box(store), black_box(number)), place);
    }
    start.nanoseconds() / TIMES as f64
}

fn median(mut values: Vec<f64>) -> f64 {
    values.sort_by(f64::total_cmp);
    values[values.len() / 2]
}

fn main() {
    let random = &mut Random::new(5);
    let mut cells = Vec::new();
    for count in [1, 2, 4, 8, 16, 32] {
        let store = store_of(count, random);
        cells.push((count, store, [const { Vec::new() }; COLUMNS.len()]));
    }
    for _ in 0..ROUNDS {
        for (count, store, times) in &mut cells {
            for (asked, times) in asked(*count).into_iter().zip(times) {
                times.push(time(store, asked));
            }
        }
    }
    println!("Search for a record, ns\n");
    println!("| records | {} |", COLUMNS.join(" | "));
    println!("|---{}|", "|---".repeat(COLUMNS.len()));
    for (count, _, times) in cells {
        let times = times.map(|times| format!("{:.1}", median(times)));
        println!("| {count} | {} |", times.join(" | "));
    }
}
