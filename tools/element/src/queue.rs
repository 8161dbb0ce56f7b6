//! Fare queues: a queue's bytes read and made, what it holds in words, and what is malformed in one.
use element::{kind, FareNumber, FARE_HEAD, FARE_KIND, LARGEST_BODY, QUEUE_HEAD};

use crate::hex;
use crate::names;
use crate::record::Record;

const LEAST_FARE: usize = FARE_HEAD + 1;
const LARGEST_FARE: usize = FARE_HEAD + LARGEST_BODY;
/// The next number with which none is left to be given.
const LAST: u32 = FareNumber::NONE.0;

/// A fare with its number.
#[derive(Clone, Debug, PartialEq, Eq)]
pub struct Fare {
    /// The sequence number that it was appended under.
    pub number: u32,
    /// What it holds.
    pub body: Vec<u8>,
}

impl Fare {
    fn size(&self) -> usize {
        FARE_HEAD + self.body.len()
    }

    fn bytes(&self) -> Vec<u8> {
        let size = u16::try_from(self.size()).unwrap_or(u16::MAX);
        let mut bytes = Vec::new();
        bytes.extend(size.to_le_bytes());
        bytes.extend(FARE_KIND.to_le_bytes());
        bytes.extend(self.number.to_le_bytes());
        bytes.extend(&self.body);
        bytes
    }
}

/// A queue with its maximum.
#[derive(Clone, Debug, PartialEq, Eq)]
pub struct Queue {
    /// The most bytes that it holds.
    pub maximum: usize,
    /// The number that the next fare gets.
    pub next: u32,
    /// The fares, oldest first.
    pub fares: Vec<Fare>,
}

impl Queue {
    /// The queue that a record holds, if it holds a sound one.
    pub fn of(record: &Record) -> Option<Queue> {
        (record.kind() == kind::QUEUE)
            .then(|| Queue::read(record.data(), record.maximum()).ok())
            .flatten()
    }

    /// The queue in the bytes in use, or why they are none.
    pub fn read(data: &[u8], maximum: usize) -> Result<Queue, String> {
        let Some((front, _)) = data.split_first_chunk() else {
            let used = data.len();
            return Err(format!(
                "used {used} of a queue, expected at least {QUEUE_HEAD}"
            ));
        };
        let next = u32::from_le_bytes(*front);
        let fares = read_fares(data)?;
        match number_fault(next, &fares) {
            Some(why) => Err(why),
            None => Ok(Queue {
                maximum,
                next,
                fares,
            }),
        }
    }

    /// The queue of these bodies, numbered by ones up to just below the next number, or why there is none. Without a next number they are numbered
    /// from 0 on.
    pub fn numbered(
        bodies: &[Vec<u8>],
        next: Option<u32>,
        maximum: usize,
    ) -> Result<Queue, String> {
        let count = u32::try_from(bodies.len()).unwrap_or(u32::MAX);
        let next = next.unwrap_or(count);
        let first = next
            .checked_sub(count)
            .ok_or_else(|| too_many(bodies.len(), next))?;
        let fare = |(body, number): (&Vec<u8>, u32)| Fare {
            number,
            body: body.clone(),
        };
        let fares = bodies.iter().zip(first..).map(fare).collect();
        let queue = Queue {
            maximum,
            next,
            fares,
        };
        match queue.used() <= maximum {
            true => Ok(queue),
            false => Err(format!(
                "the next number and {} take {} bytes, expected at most the maximum of {maximum}",
                names::count(bodies.len(), "fare"),
                queue.used()
            )),
        }
    }

    /// Its bytes in use.
    pub fn bytes(&self) -> Vec<u8> {
        let fares = self.fares.iter().flat_map(Fare::bytes);
        self.next.to_le_bytes().into_iter().chain(fares).collect()
    }

    /// How many bytes are in use.
    pub fn used(&self) -> usize {
        QUEUE_HEAD + sizes(&self.fares)
    }

    /// How many bytes are free.
    pub fn free(&self) -> usize {
        self.maximum.saturating_sub(self.used())
    }

    /// Which fares are present.
    pub fn present(&self) -> String {
        told(&self.fares, "present")
    }

    /// Which fares are present, and how many bytes are free.
    pub fn in_words(&self) -> String {
        format!("{}; {}", self.present(), free_in_words(self.free()))
    }

    /// The next number, and whether it can be given.
    pub fn next_in_words(&self) -> String {
        match self.next {
            LAST => format!("{LAST} ({LAST:08X}), which is never given"),
            next => next.to_string(),
        }
    }

    /// The next number, and each fare with its number and its body as text.
    pub fn listed(&self) -> String {
        let fare = |fare: &Fare| format!(", fare {} \"{}\"", fare.number, hex::text(&fare.body));
        let fares: String = self.fares.iter().map(fare).collect();
        format!("next number {}{fares}", self.next)
    }

    /// What an append did that left this queue behind.
    pub fn appended(&self, after: &Queue) -> String {
        format!("fare {} is appended; {}", self.next, after.in_words())
    }

    /// What an acknowledgement did that left this queue behind.
    pub fn acknowledged(&self, after: &Queue) -> String {
        let count = self.fares.len().saturating_sub(after.fares.len());
        let gone = self.fares.get(..count).unwrap_or(&[]);
        format!("{}; {}", told(gone, "gone"), after.in_words())
    }

    /// Why a body of so many bytes does not fit.
    pub fn full(&self, body: usize) -> String {
        let needed = names::count(FARE_HEAD + body, "byte");
        format!("{needed} are needed, {}", free_in_words(self.free()))
    }

    /// Why no fare gets a number any more.
    pub fn out_of_numbers(&self) -> String {
        format!("the next number is {}", self.next_in_words())
    }

    /// Why a number cannot be acknowledged.
    pub fn absent(&self, number: u32) -> String {
        format!("fare {number} is not present; {}", self.present())
    }
}

/// Why no body has so many bytes, if none has.
pub fn body_fault(count: usize) -> Option<String> {
    (!(1..=LARGEST_BODY).contains(&count)).then(|| {
        let bytes = names::count(count, "byte");
        format!("{bytes} of a fare's body, expected 1 to {LARGEST_BODY}")
    })
}

fn sizes(fares: &[Fare]) -> usize {
    fares.iter().map(Fare::size).sum()
}

fn free_in_words(free: usize) -> String {
    match free {
        1 => "1 byte is free".into(),
        _ => format!("{free} bytes are free"),
    }
}

/// How many fares are present or gone, and which.
fn told(fares: &[Fare], what: &str) -> String {
    match fares {
        [] => format!("no fare is {what}"),
        [fare] => format!("1 fare is {what}, number {}", fare.number),
        [first, .., last] => format!(
            "{} fares are {what}, {} to {}",
            fares.len(),
            first.number,
            last.number
        ),
    }
}

/// The fares behind the next number, one after another.
fn read_fares(data: &[u8]) -> Result<Vec<Fare>, String> {
    let mut fares = Vec::new();
    let mut place = QUEUE_HEAD;
    while let Some(rest) = data.get(place..).filter(|rest| !rest.is_empty()) {
        let fare = read_fare(rest).map_err(|why| of_fare(fares.len(), place, &why))?;
        place += fare.size();
        fares.push(fare);
    }
    Ok(fares)
}

/// What is said of a fare, which is counted from 1.
fn of_fare(index: usize, place: usize, why: &str) -> String {
    format!("fare {} at byte {place} of the data: {why}", index + 1)
}

/// The fare in front of all bytes that are in use from there on.
fn read_fare(rest: &[u8]) -> Result<Fare, String> {
    let left = names::count(rest.len(), "byte");
    let [l1, l2, k1, k2, n1, n2, n3, n4, behind @ ..] = rest else {
        return Err(cut_short(&left));
    };
    if behind.is_empty() {
        return Err(cut_short(&left));
    }
    let length = usize::from(u16::from_le_bytes([*l1, *l2]));
    if !(LEAST_FARE..=LARGEST_FARE).contains(&length) {
        return Err(format!(
            "length {length}, expected {LEAST_FARE} to {LARGEST_FARE}"
        ));
    }
    let Some(body) = behind.get(..length - FARE_HEAD) else {
        return Err(format!(
            "length {length}, but only {left} are in use from there on"
        ));
    };
    let told = u16::from_le_bytes([*k1, *k2]);
    if told != FARE_KIND {
        return Err(format!("kind {told:04X}, expected {FARE_KIND:04X}"));
    }
    Ok(Fare {
        number: u32::from_le_bytes([*n1, *n2, *n3, *n4]),
        body: body.to_vec(),
    })
}

fn cut_short(left: &str) -> String {
    format!("cut short, {left} in use from there on, expected a fare of at least {LEAST_FARE}")
}

/// Why these fares are not numbered by ones up to just below the next number, if they are not. Where their own numbers rise by ones, the last is told.
fn number_fault(next: u32, fares: &[Fare]) -> Option<String> {
    let Some(first) = u32::try_from(fares.len())
        .ok()
        .and_then(|count| next.checked_sub(count))
    else {
        return Some(too_many(fares.len(), next));
    };
    let (index, (fare, due)) = fares
        .iter()
        .zip(first..)
        .enumerate()
        .find(|(_, (fare, due))| fare.number != *due)?;
    match fares.last() {
        Some(last) if rise_by_ones(fares) => Some(format!(
            "the last fare has number {}, expected {}, just below the next number {next}",
            last.number,
            next - 1
        )),
        _ => {
            let place = QUEUE_HEAD + sizes(fares.get(..index)?);
            let why = format!("number {}, expected {due}", fare.number);
            Some(of_fare(index, place, &why))
        }
    }
}

fn rise_by_ones(fares: &[Fare]) -> bool {
    fares.windows(2).all(|two| match two {
        [one, other] => one.number.checked_add(1) == Some(other.number),
        _ => true,
    })
}

/// Numbers begin at 0 and never wrap.
fn too_many(count: usize, next: u32) -> String {
    format!(
        "{} with the next number {next}, expected at most {next}",
        names::count(count, "fare")
    )
}

#[cfg(test)]
mod tests {
    use super::*;

    /// Fares 1 "FARE" and 2 "TWO", next number 3.
    const TWO: [u8; 27] = [
        3, 0, 0, 0, 12, 0, 1, 0, 1, 0, 0, 0, 0x46, 0x41, 0x52, 0x45, 11, 0, 1, 0, 2, 0, 0, 0, 0x54,
        0x57, 0x4F,
    ];

    fn bodies() -> Vec<Vec<u8>> {
        vec![b"FARE".to_vec(), b"TWO".to_vec()]
    }

    fn two() -> Queue {
        Queue::read(&TWO, 64).unwrap()
    }

    fn empty(next: u32) -> Queue {
        Queue::read(&next.to_le_bytes(), 4).unwrap()
    }

    #[test]
    fn bytes_are_read_and_made() {
        let queue = two();
        assert_eq!((queue.next, queue.used(), queue.free()), (3, 27, 37));
        let fares: Vec<_> = queue.fares.iter().map(|one| one.number).collect();
        assert_eq!(fares, [1, 2]);
        assert_eq!(queue.fares[1].body, b"TWO");
        assert_eq!(queue.bytes(), TWO);
        assert_eq!(Queue::numbered(&bodies(), Some(3), 64), Ok(queue));
        for next in [0, 1, 0x0102_0304, u32::MAX] {
            let queue = empty(next);
            assert_eq!((queue.next, queue.used(), queue.free()), (next, 4, 0));
            assert_eq!(queue.bytes(), next.to_le_bytes());
        }
    }

    #[test]
    fn fares_are_numbered_up_to_just_below_the_next() {
        let first = |next| -> Result<(u32, u32), String> {
            let queue = Queue::numbered(&bodies(), next, 64)?;
            assert_eq!(Queue::read(&queue.bytes(), 64), Ok(queue.clone()));
            Ok((queue.next, queue.fares[0].number))
        };
        assert_eq!(first(None), Ok((2, 0)));
        assert_eq!(first(Some(2)), Ok((2, 0)));
        assert_eq!(first(Some(u32::MAX)), Ok((u32::MAX, u32::MAX - 2)));
        let many = "2 fares with the next number 1, expected at most 1";
        assert_eq!(first(Some(1)), Err(many.into()));
        let none = Queue::numbered(&[], None, 4).unwrap();
        assert_eq!((none.next, none.fares.len()), (0, 0));
    }

    #[test]
    fn what_is_above_the_maximum_is_told() {
        assert!(Queue::numbered(&bodies(), None, 27).is_ok());
        let past = "the next number and 2 fares take 27 bytes, expected at most the maximum of 26";
        assert_eq!(Queue::numbered(&bodies(), None, 26), Err(past.into()));
    }

    #[test]
    fn bodies_have_1_to_200_bytes() {
        for size in [1, 2, 199, 200] {
            assert_eq!(body_fault(size), None);
            let queue = Queue::numbered(&[vec![7; size]], Some(9), 1500).unwrap();
            assert_eq!(queue.bytes().len(), 12 + size);
            assert_eq!(Queue::read(&queue.bytes(), 1500), Ok(queue));
        }
        for size in [0, 201] {
            assert!(body_fault(size).is_some());
            let queue = Queue::numbered(&[vec![7; size]], Some(9), 1500).unwrap();
            assert!(Queue::read(&queue.bytes(), 1500).is_err());
        }
    }

    #[test]
    fn a_queue_is_told() {
        let queue = two();
        assert_eq!(
            queue.in_words(),
            "2 fares are present, 1 to 2; 37 bytes are free"
        );
        assert_eq!(
            queue.listed(),
            "next number 3, fare 1 \"FARE\", fare 2 \"TWO\""
        );
        assert_eq!(queue.next_in_words(), "3");
        assert_eq!(queue.full(30), "38 bytes are needed, 37 bytes are free");
        assert_eq!(
            queue.absent(3),
            "fare 3 is not present; 2 fares are present, 1 to 2"
        );
        let last = empty(u32::MAX);
        assert_eq!(last.in_words(), "no fare is present; 0 bytes are free");
        assert_eq!(
            last.out_of_numbers(),
            "the next number is 4294967295 (FFFFFFFF), which is never given"
        );
    }

    #[test]
    fn a_change_is_told() {
        let before = two();
        let bodies = [bodies(), vec![vec![0x41; 28]]].concat();
        let after = Queue::numbered(&bodies, Some(4), 64).unwrap();
        assert_eq!(
            before.appended(&after),
            "fare 3 is appended; 3 fares are present, 1 to 3; 1 byte is free"
        );
        let left = |count| Queue::numbered(&bodies[count..], Some(4), 64).unwrap();
        assert_eq!(
            after.acknowledged(&left(1)),
            "1 fare is gone, number 1; 2 fares are present, 2 to 3; 13 bytes are free"
        );
        assert_eq!(
            after.acknowledged(&left(2)),
            "2 fares are gone, 1 to 2; 1 fare is present, number 3; 24 bytes are free"
        );
        assert_eq!(
            after.acknowledged(&left(3)),
            "3 fares are gone, 1 to 3; no fare is present; 60 bytes are free"
        );
    }

    /// A byte of the queue of two fares, its new value, and what is said of it.
    const CHANGES: [(usize, u8, &str); 14] = [
        (
            0,
            4,
            "the last fare has number 2, expected 3, just below the next number 4",
        ),
        (
            3,
            1,
            "the last fare has number 2, expected 16777218, just below the next number 16777219",
        ),
        (0, 1, "2 fares with the next number 1, expected at most 1"),
        (0, 0, "2 fares with the next number 0, expected at most 0"),
        (
            4,
            8,
            "fare 1 at byte 4 of the data: length 8, expected 9 to 208",
        ),
        (
            4,
            209,
            "fare 1 at byte 4 of the data: length 209, expected 9 to 208",
        ),
        (
            5,
            1,
            "fare 1 at byte 4 of the data: length 268, expected 9 to 208",
        ),
        (
            4,
            24,
            "fare 1 at byte 4 of the data: length 24, but only 23 bytes are in use from there on",
        ),
        (
            4,
            15,
            "fare 2 at byte 19 of the data: cut short, 8 bytes in use from there on, expected a fare of at least 9",
        ),
        (
            16,
            10,
            "fare 3 at byte 26 of the data: cut short, 1 byte in use from there on, expected a fare of at least 9",
        ),
        (
            6,
            2,
            "fare 1 at byte 4 of the data: kind 0002, expected 0001",
        ),
        (
            19,
            1,
            "fare 2 at byte 16 of the data: kind 0101, expected 0001",
        ),
        (
            8,
            7,
            "fare 1 at byte 4 of the data: number 7, expected 1",
        ),
        (
            23,
            1,
            "fare 2 at byte 16 of the data: number 16777218, expected 2",
        ),
    ];

    #[test]
    fn each_fault_is_told() {
        for (at, byte, why) in CHANGES {
            let mut data = TWO;
            data[at] = byte;
            assert_eq!(Queue::read(&data, 64), Err(why.into()), "{at} {byte}");
        }
        assert_eq!(
            Queue::read(&TWO[..3], 64),
            Err("used 3 of a queue, expected at least 4".into())
        );
    }

    #[test]
    fn numbers_do_not_wrap() {
        let fare = |number: u32| {
            let body = vec![7];
            Fare { number, body }.bytes()
        };
        let read = |next: u32, numbers: &[u32]| {
            let fares = numbers.iter().flat_map(|number| fare(*number));
            let data: Vec<u8> = next.to_le_bytes().into_iter().chain(fares).collect();
            Queue::read(&data, 64).map(|queue| queue.fares.len())
        };
        assert_eq!(read(1, &[0]), Ok(1));
        assert_eq!(read(u32::MAX, &[u32::MAX - 2, u32::MAX - 1]), Ok(2));
        let many = "1 fare with the next number 0, expected at most 0";
        assert_eq!(read(0, &[u32::MAX]), Err(many.into()));
        let many = "2 fares with the next number 1, expected at most 1";
        assert_eq!(read(1, &[u32::MAX, 0]), Err(many.into()));
        let why = "fare 1 at byte 4 of the data: number 4294967295, expected 0";
        assert_eq!(read(2, &[u32::MAX, 0]), Err(why.into()));
        let last = "the last fare has number 4294967295, expected 4294967294, just below the next number 4294967295";
        assert_eq!(read(u32::MAX, &[u32::MAX]), Err(last.into()));
    }
}
