//! Long random days of fare queues: thousands of commands from a fixed seed. Each answer, and the whole store after it, is compared with lists that the
//! test keeps; at the end the fares acknowledged and then those present are those accepted.
mod common;

use std::collections::BTreeSet;

use common::*;
use element::expression::{counter, ALWAYS};
use element::{kind, tag, Counter, Element, Error, FareNumber, ObjectNumber, Offset};
use element::{Refusal, Session, LARGEST_ROOM, LEAD};

const TRIPS: ObjectNumber = ObjectNumber(0xE120);
const FIRST: ObjectNumber = ObjectNumber(0xE130);
const SECOND: ObjectNumber = ObjectNumber(0xE131);
const PLAIN: ObjectNumber = ObjectNumber(0xE140);
const MISSING: ObjectNumber = ObjectNumber(0xE150);
const PLAIN_MAXIMUM: usize = 32;

const TURNS: usize = 6000;
/// In every second hour the queues fill up: an acknowledgement names at most the first fare.
const HOUR: usize = 200;

type Fares = Vec<(u32, Vec<u8>)>;

/// Numbers by chance, from a seed that is not 0.
struct Chance(u32);

impl Chance {
    fn number(&mut self) -> u32 {
        self.0 ^= self.0 << 13;
        self.0 ^= self.0 >> 17;
        self.0 ^= self.0 << 5;
        self.0
    }

    fn below(&mut self, limit: usize) -> usize {
        self.number() as usize % limit
    }

    fn bytes(&mut self, size: usize) -> Vec<u8> {
        (0..size).map(|_| self.number() as u8).collect()
    }

    /// Mostly a body of up to 40 bytes; also none, and those at the limits.
    fn body(&mut self) -> Vec<u8> {
        let size = match self.below(16) {
            0 => 0,
            1 => 1,
            2 => 200,
            3 => 201,
            _ => 1 + self.below(40),
        };
        self.bytes(size)
    }
}

/// A queue as the test keeps it.
struct Kept {
    object: ObjectNumber,
    maximum: usize,
    /// Whether its change expression asks for the counter of trips, or nothing.
    limited: bool,
    next: u32,
    present: Fares,
    acknowledged: Fares,
    accepted: Fares,
}

impl Kept {
    fn empty(object: ObjectNumber, maximum: usize, next: u32) -> Kept {
        Kept {
            object,
            maximum,
            limited: false,
            next,
            present: vec![],
            acknowledged: vec![],
            accepted: vec![],
        }
    }

    fn bytes(&self) -> Vec<u8> {
        queue_bytes(self.next, &self.present)
    }

    fn record(&self) -> Vec<u8> {
        let mut record = record_up_to(self.maximum, kind::QUEUE, self.object, &self.bytes());
        if self.limited {
            record[12] = 3;
            record[13..16].copy_from_slice(&counter(TRIPS));
        }
        record
    }

    fn first(&self) -> u32 {
        self.next - self.present.len() as u32
    }

    fn append(&mut self, body: &[u8]) -> Result<(), Error> {
        if self.bytes().len() + 8 + body.len() > self.maximum {
            return refused(Refusal::BoundaryExceeded);
        }
        if self.next == 0xFFFF_FFFF {
            return refused(Refusal::InsufficientBuffer);
        }
        let fare = (self.next, body.to_vec());
        self.accepted.push(fare.clone());
        self.present.push(fare);
        self.next += 1;
        Ok(())
    }

    fn acknowledge(&mut self, number: u32) -> Result<(), Error> {
        let found = self.present.iter().position(|fare| fare.0 == number);
        let Some(at) = found else {
            return refused(Refusal::InvalidData);
        };
        self.acknowledged.extend(self.present.drain(..=at));
        Ok(())
    }
}

struct Day {
    element: Element<'static>,
    queues: [Kept; 2],
    trips: Counter,
    /// What is in use of the object of data.
    plain: Vec<u8>,
    chance: Chance,
    /// Each call with its answer: 0 where it was done, FF where the crate sent nothing.
    seen: BTreeSet<(&'static str, u8)>,
}

impl Day {
    fn begin(seed: u32, maxima: [usize; 2], next: u32) -> Day {
        let session = Session {
            opened: 1,
            ..Session::fresh()
        };
        let mut day = Day {
            element: element_of(vec![], session),
            queues: [
                Kept::empty(FIRST, maxima[0], next),
                Kept::empty(SECOND, maxima[1], 0),
            ],
            trips: Counter {
                value: 0,
                threshold: 50,
            },
            plain: vec![],
            chance: Chance(seed),
            seen: BTreeSet::new(),
        };
        day.element = element_of(day.store(), session);
        assert!(day.element.check_store());
        day
    }

    /// What the store must be.
    fn store(&self) -> Vec<u8> {
        [
            record(kind::COUNTER_UP, TRIPS, &self.trips.to_bytes()),
            self.queues[0].record(),
            self.queues[1].record(),
            record_up_to(PLAIN_MAXIMUM, kind::DATA, PLAIN, &self.plain),
        ]
        .concat()
    }

    fn check(&mut self, call: &'static str, came: Result<(), Error>, due: Result<(), Error>) {
        assert_eq!(came, due, "{call}");
        assert!(self.element.store() == self.store(), "{call}: the store");
        let answer = match came {
            Ok(()) => 0,
            Err(Error::Refused(refusal)) => refusal.number(),
            Err(_) => 0xFF,
        };
        self.seen.insert((call, answer));
    }

    /// What a change of a queue must answer: access, then its own rule; where it is done, a counter that granted it steps.
    fn due(
        &mut self,
        which: usize,
        own: impl FnOnce(&mut Kept) -> Result<(), Error>,
    ) -> Result<(), Error> {
        let limited = self.queues[which].limited;
        if limited && self.trips.value >= self.trips.threshold {
            return refused(Refusal::AccessDenied);
        }
        own(&mut self.queues[which])?;
        self.trips.value += u32::from(limited);
        Ok(())
    }

    fn turn(&mut self, at: usize) {
        let which = self.chance.below(2);
        let filling = at / HOUR % 2 == 0;
        match self.chance.below(32) {
            0..14 => self.append(which),
            14..20 => self.acknowledge(which, filling),
            20 | 21 => self.write(which),
            22 => self.count(which),
            23 | 24 => self.set_metadata(which),
            25 | 26 => self.read(which),
            27 => self.wrong_sizes(which),
            28 => self.other_objects(),
            29 => self.write_data(),
            30 => self.set_counter(),
            _ => self.reset(which),
        }
    }

    fn append(&mut self, which: usize) {
        let body = self.chance.body();
        let due = match body.len() {
            0 => refused(Refusal::InvalidLength),
            201.. => Err(Error::WrongSize),
            _ => self.due(which, |queue| queue.append(&body)),
        };
        let came = self.element.append(self.queues[which].object, &body);
        self.check("append", came, due);
        self.read_back(which);
    }

    fn acknowledge(&mut self, which: usize, filling: bool) {
        let number = self.number(which, filling);
        let due = self.due(which, |queue| queue.acknowledge(number));
        let object = self.queues[which].object;
        let came = self.element.acknowledge(object, FareNumber(number));
        self.check("acknowledge", came, due);
        self.read_back(which);
    }

    /// The first number, a past one, a future one, any; else that of the last fare, or of any that is present.
    fn number(&mut self, which: usize, filling: bool) -> u32 {
        let queue = &self.queues[which];
        let (first, next) = (queue.first(), queue.next);
        match self.chance.below(if filling { 4 } else { 8 }) {
            0 => first,
            1 => first.wrapping_sub(1),
            2 => next,
            3 => self.chance.number(),
            4 => next.wrapping_sub(1),
            _ => first + self.chance.below(queue.present.len().max(1)) as u32,
        }
    }

    fn read_back(&mut self, which: usize) {
        let queue = &self.queues[which];
        let mut room = [0xEE; LARGEST_ROOM];
        let came = self.element.queue(queue.object, &mut room).unwrap();
        assert_eq!(came.next_number(), FareNumber(queue.next));
        let fares = came.fares().map(|fare| (fare.number.0, fare.body.to_vec()));
        assert!(fares.eq(queue.present.iter().cloned()));
    }

    /// Whatever the change expression says.
    fn write(&mut self, which: usize) {
        let object = self.queues[which].object;
        let offset = self.chance.below(self.queues[which].maximum + 2) as u16;
        let size = 1 + self.chance.below(8);
        let bytes = self.chance.bytes(size);
        let denied = refused(Refusal::AccessDenied);
        let came = write(&mut self.element, object, offset, &bytes);
        self.check("write", came, denied);
        let scratch = &mut [0; LEAD + 8];
        let came = (self.element).erase_and_write(object, Offset(offset), &bytes, scratch);
        self.check("write", came, denied);
    }

    fn count(&mut self, which: usize) {
        let due = self.due(which, |_| refused(Refusal::InvalidParam));
        let step = self.chance.number() as u8;
        let came = self.element.count(self.queues[which].object, step);
        self.check("count", came, due);
    }

    /// Another change expression, or one that is not well formed.
    fn set_metadata(&mut self, which: usize) {
        let [a, b, c] = counter(TRIPS);
        let (fields, limited) = match self.chance.below(4) {
            0 => (vec![tag::CHANGE, 1, 0x40], None),
            1 => (vec![tag::CHANGE, 3, a, b, c], Some(true)),
            _ => (vec![tag::CHANGE, 1, ALWAYS], Some(false)),
        };
        let due = self.due(which, |queue| match limited {
            Some(limited) => {
                queue.limited = limited;
                Ok(())
            }
            None => refused(Refusal::InvalidData),
        });
        let came = set_metadata(&mut self.element, self.queues[which].object, &fields);
        self.check("set metadata", came, due);
    }

    /// A part of the data, and how many bytes are in use by the metadata.
    fn read(&mut self, which: usize) {
        let object = self.queues[which].object;
        let bytes = self.queues[which].bytes();
        let offset = self.chance.below(bytes.len() + 3);
        let length = self.chance.below(bytes.len() + 9);
        let due = match bytes.get(offset..) {
            Some(rest) => Ok(rest[..length.min(rest.len())].to_vec()),
            None => refused(Refusal::BoundaryExceeded),
        };
        let came = read(&mut self.element, object, offset as u16, length as u16);
        assert_eq!(came, due);
        self.check("read", came.map(|_| ()), due.map(|_| ()));
        let fields = metadata(&mut self.element, object).unwrap();
        let [high, low] = (bytes.len() as u16).to_be_bytes();
        assert_eq!(fields[7..11], [tag::USED, 2, high, low]);
    }

    /// Commands that step 7 refuses: bodies of 0 and of over 200 bytes, numbers of other than 4.
    fn wrong_sizes(&mut self, which: usize) {
        let (param, size) = match self.chance.below(3) {
            0 => (4, 0),
            1 => (4, 201 + self.chance.below(60)),
            _ => (5, [0, 1, 3, 5, 8, 200][self.chance.below(6)]),
        };
        let [high, low] = (2 + size as u16).to_be_bytes();
        let [a, b] = self.queues[which].object.0.to_be_bytes();
        let command = [vec![2, param, high, low, a, b], self.chance.bytes(size)].concat();
        let came = self.element.carry_out(&command, &mut [0; 4]).map(|_| ());
        self.check("wrong size", came, refused(Refusal::InvalidLength));
    }

    fn other_objects(&mut self) {
        let (object, refusal) = [
            (PLAIN, Refusal::InvalidParam),
            (TRIPS, Refusal::InvalidParam),
            (ObjectNumber::LCSG, Refusal::InvalidParam),
            (ObjectNumber::LCSA, Refusal::InvalidParam),
            (ObjectNumber::LAST_ERROR, Refusal::AccessDenied),
            (MISSING, Refusal::InvalidObject),
        ][self.chance.below(6)];
        let came = self.element.append(object, b"FARE");
        self.check("append elsewhere", came, refused(refusal));
        let number = FareNumber(self.chance.number());
        let came = self.element.acknowledge(object, number);
        self.check("acknowledge elsewhere", came, refused(refusal));
    }

    fn write_data(&mut self) {
        let offset = self.chance.below(PLAIN_MAXIMUM + 4);
        let size = 1 + self.chance.below(12);
        let bytes = self.chance.bytes(size);
        let end = offset + bytes.len();
        let due = if end > PLAIN_MAXIMUM {
            refused(Refusal::BoundaryExceeded)
        } else {
            self.plain.resize(end.max(self.plain.len()), 0);
            self.plain[offset..end].copy_from_slice(&bytes);
            Ok(())
        };
        let came = write(&mut self.element, PLAIN, offset as u16, &bytes);
        self.check("write data", came, due);
    }

    fn set_counter(&mut self) {
        self.trips = Counter {
            value: self.chance.below(4) as u32,
            threshold: self.chance.below(50) as u32,
        };
        let came = self.element.set_counter(TRIPS, self.trips);
        self.check("set counter", came, Ok(()));
    }

    /// A closed application takes no fare, and keeps those that it has.
    fn reset(&mut self, which: usize) {
        let came = self.element.close();
        self.check("close", came, Ok(()));
        let object = self.queues[which].object;
        let came = self.element.append(object, b"FARE");
        self.check(
            "append to a closed application",
            came,
            refused(Refusal::NotAvailable),
        );
        let came = self.element.open();
        self.check("open", came, Ok(()));
        self.read_back(which);
    }
}

/// A day, and what was seen on it.
fn live(seed: u32, maxima: [usize; 2], next: u32) -> BTreeSet<(&'static str, u8)> {
    let mut day = Day::begin(seed, maxima, next);
    for at in 0..TURNS {
        day.turn(at);
    }
    for (queue, begin) in day.queues.into_iter().zip([next, 0]) {
        let numbers = queue.accepted.iter().map(|fare| fare.0);
        assert!(numbers.eq(begin..queue.next), "by ones, none twice");
        let due = [queue.acknowledged, queue.present].concat();
        assert!(
            due == queue.accepted,
            "acknowledged, then present: accepted"
        );
    }
    day.seen
}

#[test]
fn no_fare_is_lost_on_long_days() {
    let mut seen = BTreeSet::new();
    seen.extend(live(1, [64, 300], 0));
    seen.extend(live(2, [1500, 40], 0));
    seen.extend(live(3, [4, 13], 7));
    seen.extend(live(4, [212, 12], 0x00FF_FFF0));
    seen.extend(live(5, [1000, 213], 0xFFFF_FE00));
    seen.extend(live(6, [100, 1500], 0xFFFF_FFFF));
    for (call, answers) in [
        ("append", &[0, 4, 7, 8, 0x0D, 0xFF][..]),
        ("acknowledge", &[0, 5, 7]),
        ("write", &[7]),
        ("count", &[3, 7]),
        ("set metadata", &[0, 5, 7]),
        ("read", &[0, 8]),
        ("append elsewhere", &[1, 3, 7]),
        ("acknowledge elsewhere", &[1, 3, 7]),
        ("write data", &[0, 8]),
    ] {
        let came: Vec<u8> = seen
            .iter()
            .filter(|(other, _)| *other == call)
            .map(|(_, answer)| *answer)
            .collect();
        assert_eq!(came, answers, "{call}");
    }
}
