//! Fare queues: their bytes, and what the lists need to know of one in a store.

use std::ops::Range;

use reference::generator::random::Random;
use reference::store::DATA;

/// The bytes of a queue before its fares, and of a fare before its body.
pub const HEAD: usize = 4;
pub const FARE_HEAD: usize = 8;

pub const LONGEST_BODY: usize = 200;

/// The last sequence number: no fare gets it.
pub const NO_MORE: u32 = u32::MAX;

/// Where a record has its bytes in use, and where a fare has its sequence number.
const USED: usize = 8;
const NUMBER: usize = 4;

/// The fares of a queue: its next sequence number, how many it has, and the size of their bodies.
#[derive(Clone, Copy)]
pub struct Fares {
    pub next: u32,
    pub count: usize,
    pub body: usize,
}

impl Fares {
    pub const fn used(self) -> usize {
        HEAD + self.count * (FARE_HEAD + self.body)
    }

    /// So many fares, the first under number 1,000.
    pub fn some(count: usize, body: usize) -> Fares {
        let next = 1_000 + count as u32;
        Fares { next, count, body }
    }

    /// As many fares of this body as a maximum holds.
    pub fn filling(maximum: usize, body: usize) -> Fares {
        Fares::some((maximum - HEAD) / (FARE_HEAD + body), body)
    }

    /// How many, and the bytes of each.
    pub fn words(self) -> String {
        let size = FARE_HEAD + self.body;
        match self.count {
            0 => "no fare".to_string(),
            1 => format!("1 fare of {size} bytes"),
            count => format!("{count} fares of {size} bytes"),
        }
    }

    /// The data of the queue up to used, with random bodies.
    pub fn to_data(self, random: &mut Random) -> Vec<u8> {
        let mut data = self.next.to_le_bytes().to_vec();
        for number in self.next - self.count as u32..self.next {
            data.extend_from_slice(&((FARE_HEAD + self.body) as u16).to_le_bytes());
            data.extend_from_slice(&[0x01, 0x00]);
            data.extend_from_slice(&number.to_le_bytes());
            data.extend_from_slice(&random.bytes(self.body));
        }
        data
    }
}

/// A queue in a store: its number, where its record begins, its maximum.
#[derive(Clone, Copy)]
pub struct Queue {
    pub number: u16,
    pub at: usize,
    pub maximum: usize,
}

impl Queue {
    /// The bytes of its record.
    pub fn record(self) -> Range<usize> {
        self.at..self.at + DATA + self.maximum
    }

    fn used(self, store: &[u8]) -> usize {
        let place = self.at + USED;
        usize::from(u16::from_le_bytes([store[place], store[place + 1]]))
    }

    /// The bytes that are not in use.
    pub fn left(self, store: &[u8]) -> usize {
        self.maximum - self.used(store)
    }

    pub fn next(self, store: &[u8]) -> u32 {
        number_at(store, self.at + DATA)
    }

    /// The number of the first fare; the next number where there is none.
    pub fn first(self, store: &[u8]) -> u32 {
        match self.used(store) {
            HEAD => self.next(store),
            _ => number_at(store, self.at + DATA + HEAD + NUMBER),
        }
    }
}

fn number_at(store: &[u8], place: usize) -> u32 {
    let bytes = [0, 1, 2, 3].map(|byte| store[place + byte]);
    u32::from_le_bytes(bytes)
}
