//! Fare queues for stores, sound ones and ones that break a single clause, and what
//! appends and acknowledgements bring to them.

use crate::generator::random::Random;
use crate::queue::{fare_size, Queue, QueueFault, EMPTY, FARE_HEAD, FARE_KIND, LONGEST_BODY};
use crate::store::{Fault, LARGEST_MAXIMUM};

const SMALLEST_FARE: usize = FARE_HEAD + 1;
const LARGEST_FARE: usize = FARE_HEAD + LONGEST_BODY;

/// A fare as its bytes have it, right or not.
#[derive(Clone, Debug)]
struct Fare {
    length: u16,
    kind: u16,
    number: u32,
    body: Vec<u8>,
}

impl Fare {
    fn new(number: u32, body: Vec<u8>) -> Fare {
        Fare {
            length: fare_size(body.len()) as u16,
            kind: FARE_KIND,
            number,
            body,
        }
    }

    fn put_into(&self, data: &mut Vec<u8>) {
        data.extend_from_slice(&self.length.to_le_bytes());
        data.extend_from_slice(&self.kind.to_le_bytes());
        data.extend_from_slice(&self.number.to_le_bytes());
        data.extend_from_slice(&self.body);
    }
}

/// The next number and the fares before it.
#[derive(Clone, Debug)]
struct Fares {
    next: u32,
    fares: Vec<Fare>,
}

impl Fares {
    /// Fares of these sizes; their numbers wrap where there are more than `next`.
    fn new(next: u32, sizes: &[usize], random: &mut Random) -> Fares {
        let first = next.wrapping_sub(sizes.len() as u32);
        let numbers = (0..).map(|place| first.wrapping_add(place));
        let fares = numbers
            .zip(sizes)
            .map(|(number, size)| Fare::new(number, random.bytes(size - FARE_HEAD)))
            .collect();
        Fares { next, fares }
    }

    /// The used bytes.
    fn data(&self) -> Vec<u8> {
        let mut data = self.next.to_le_bytes().to_vec();
        for fare in &self.fares {
            fare.put_into(&mut data);
        }
        data
    }
}

/// A maximum with room for no fare, for one, or for some.
pub fn queue_maximum(random: &mut Random) -> usize {
    match random.below(10) {
        0 => random.pick(&[EMPTY, 12, 13, 14]),
        1 | 2 => EMPTY + LARGEST_FARE + random.below(3) - 1,
        3 | 4 => random.between(EMPTY, 90),
        5..=8 => random.between(30, 420),
        _ => random.between(EMPTY, LARGEST_MAXIMUM),
    }
}

/// The used bytes of a sound queue of this maximum.
pub fn queue_data(maximum: usize, random: &mut Random) -> Vec<u8> {
    let total = maximum - EMPTY - space_left(maximum, random);
    let sizes = fare_sizes(total, random);
    let next = next_number(sizes.len() as u32, random);
    Fares::new(next, &sizes, random).data()
}

/// The bytes after the last fare.
fn space_left(maximum: usize, random: &mut Random) -> usize {
    let most = maximum - EMPTY;
    let left = match random.below(10) {
        0..=2 => random.pick(&[0, 1, 7, 8, 9, 10]),
        3 | 4 => random.pick(&[207, 207, 208, 208, 209]),
        5 | 6 => most,
        _ => random.between(0, most),
    };
    match most.saturating_sub(left) {
        // No fare has so few bytes.
        0..SMALLEST_FARE => most,
        _ => left,
    }
}

/// Sizes of fares that fill so many bytes: many small ones, or fewer.
fn fare_sizes(total: usize, random: &mut Random) -> Vec<usize> {
    let largest = random.pick(&[SMALLEST_FARE, 12, 20, 60, LARGEST_FARE]);
    let mut left = total;
    let mut sizes = Vec::new();
    while left > 0 {
        let size = match left {
            0..=17 => left,
            217.. if random.chance(10) => LARGEST_FARE,
            _ => random.between(SMALLEST_FARE, largest.min(left - SMALLEST_FARE)),
        };
        sizes.push(size);
        left -= size;
    }
    sizes
}

/// A next number at an end, at which a byte carries, or any, with so many below it.
fn next_number(fares: u32, random: &mut Random) -> u32 {
    let near = fares + random.below(4) as u32;
    let next = match random.below(14) {
        0 | 1 => fares,
        2 => fares + 1,
        3 => fares + random.below(60) as u32,
        4 | 5 => u32::MAX,
        6 | 7 => u32::MAX - 1,
        8 => u32::MAX - random.between(2, 6) as u32,
        9 | 10 => (1 << random.pick(&[8, 16, 24, 31])) + random.below(near as usize + 1) as u32,
        11 | 12 => (1 << random.pick(&[8, 9, 16, 24, 31])) - random.between(1, 3) as u32,
        _ => random.number() as u32,
    };
    next.max(fares)
}

/// The ways in which the data of a queue is malformed.
#[derive(Clone, Copy, Debug, PartialEq, Eq)]
pub enum QueueDamage {
    /// The maximum has no room for the next number.
    MaximumBelow4,
    UsedBelow4,
    /// Used ends in the head of a fare.
    HeadCutShort,
    /// Used ends in the body of a fare.
    BodyCutShort,
    /// The last fare's length reaches past used.
    LengthPastUsed,
    /// Used counts some zeros behind the last fare, or behind the next number alone.
    TrailingZeros,
    /// And there are as many as a head has.
    TrailingHeadOfZeros,
    LengthBelowHead,
    BodyOf0,
    BodyOf201,
    BodyAbove201,
    LengthSwapped,
    OtherKind,
    KindSwapped,
    FirstNumber,
    MiddleNumber,
    LastNumber,
    /// That of a fare alone.
    OnlyNumber,
    NumbersRepeat,
    NumbersFall,
    /// All numbers stand most significant byte first.
    NumbersSwapped,
    NextOneAbove,
    NextOneBelow,
    /// The next number is the first or last one's, or any.
    NextOther,
    /// 0 after FFFFFFFF: more fares than numbers.
    WrapBetweenFares,
    /// FFFFFFFF is the last fare's number and the next is 0.
    WrapAtNext,
    Tail,
}

impl QueueDamage {
    pub const ALL: [QueueDamage; 27] = [
        QueueDamage::MaximumBelow4,
        QueueDamage::UsedBelow4,
        QueueDamage::HeadCutShort,
        QueueDamage::BodyCutShort,
        QueueDamage::LengthPastUsed,
        QueueDamage::TrailingZeros,
        QueueDamage::TrailingHeadOfZeros,
        QueueDamage::LengthBelowHead,
        QueueDamage::BodyOf0,
        QueueDamage::BodyOf201,
        QueueDamage::BodyAbove201,
        QueueDamage::LengthSwapped,
        QueueDamage::OtherKind,
        QueueDamage::KindSwapped,
        QueueDamage::FirstNumber,
        QueueDamage::MiddleNumber,
        QueueDamage::LastNumber,
        QueueDamage::OnlyNumber,
        QueueDamage::NumbersRepeat,
        QueueDamage::NumbersFall,
        QueueDamage::NumbersSwapped,
        QueueDamage::NextOneAbove,
        QueueDamage::NextOneBelow,
        QueueDamage::NextOther,
        QueueDamage::WrapBetweenFares,
        QueueDamage::WrapAtNext,
        QueueDamage::Tail,
    ];

    /// The clause that the damage breaks.
    pub fn fault(self) -> Fault {
        let fault = match self {
            QueueDamage::MaximumBelow4 | QueueDamage::UsedBelow4 => QueueFault::Used,
            QueueDamage::HeadCutShort
            | QueueDamage::BodyCutShort
            | QueueDamage::LengthPastUsed
            | QueueDamage::TrailingZeros => QueueFault::CutShort,
            QueueDamage::LengthBelowHead
            | QueueDamage::TrailingHeadOfZeros
            | QueueDamage::BodyOf0
            | QueueDamage::BodyOf201
            | QueueDamage::BodyAbove201
            | QueueDamage::LengthSwapped => QueueFault::BodySize,
            QueueDamage::OtherKind | QueueDamage::KindSwapped => QueueFault::FareKind,
            QueueDamage::FirstNumber
            | QueueDamage::MiddleNumber
            | QueueDamage::LastNumber
            | QueueDamage::NumbersRepeat
            | QueueDamage::NumbersFall
            | QueueDamage::NumbersSwapped
            | QueueDamage::WrapBetweenFares => QueueFault::FareNumber,
            QueueDamage::OnlyNumber
            | QueueDamage::NextOneAbove
            | QueueDamage::NextOneBelow
            | QueueDamage::NextOther
            | QueueDamage::WrapAtNext => QueueFault::NextNumber,
            QueueDamage::Tail => return Fault::DataTail,
        };
        Fault::Queue(fault)
    }

    /// A maximum and used bytes that break this clause only.
    pub(super) fn make(self, random: &mut Random) -> (usize, Vec<u8>) {
        if self == QueueDamage::MaximumBelow4 {
            let maximum = random.between(1, EMPTY - 1);
            let used = random.between(0, maximum);
            return (maximum, random.bytes(used));
        }
        let mut fares = some_fares(random);
        self.damage(&mut fares, random);
        let mut data = fares.data();
        self.damage_used(&mut data, &fares, random);
        let least = data.len().max(EMPTY);
        // Past used, at least one byte for the tail.
        let spare = random.pick(&[1, 8, 9, 40]);
        let tight = self != QueueDamage::Tail && random.chance(40);
        (least + if tight { 0 } else { spare }, data)
    }

    fn damage(self, queue: &mut Fares, random: &mut Random) {
        let last = queue.fares.len() - 1;
        let any = random.below(last + 1);
        match self {
            QueueDamage::LengthPastUsed => lengthen(&mut queue.fares[last], random),
            QueueDamage::LengthBelowHead => {
                queue.fares[any].length = random.below(FARE_HEAD) as u16;
            }
            QueueDamage::BodyOf0 => resize(&mut queue.fares[any], 0, random),
            QueueDamage::BodyOf201 => resize(&mut queue.fares[any], LONGEST_BODY + 1, random),
            QueueDamage::BodyAbove201 => {
                let size = random.pick(&[LONGEST_BODY + 2, 248, 256, 257, 300, 456]);
                resize(&mut queue.fares[any], size, random);
            }
            QueueDamage::LengthSwapped => {
                queue.fares[any].length = queue.fares[any].length.swap_bytes();
            }
            QueueDamage::OtherKind => queue.fares[any].kind = other_kind(random),
            QueueDamage::KindSwapped => queue.fares[any].kind = FARE_KIND.swap_bytes(),
            QueueDamage::NextOneAbove => queue.next += 1,
            QueueDamage::NextOneBelow => queue.next -= 1,
            QueueDamage::NextOther => queue.next = other_next(queue, random),
            QueueDamage::OnlyNumber => {
                queue.fares.drain(..last);
                queue.fares[0].number ^= random.pick(&[1, 2, 1 << 8, 1 << 24]);
            }
            QueueDamage::WrapAtNext => *queue = wrapping(0, last + 1, random),
            QueueDamage::WrapBetweenFares => {
                let past = random.between(1, last);
                *queue = wrapping(past as u32, last + 1, random);
            }
            _ => self.damage_numbers(&mut queue.fares, random),
        }
    }

    fn damage_numbers(self, fares: &mut [Fare], random: &mut Random) {
        let last = fares.len() - 1;
        let step = random.pick(&[1, u32::MAX, 1 << 8, 1 << 16, 1 << 24, 1 << 31]);
        let off = |number: u32| number.wrapping_add(step);
        match self {
            QueueDamage::FirstNumber => fares[0].number = off(fares[0].number),
            QueueDamage::MiddleNumber => {
                let middle = random.between(1, last - 1);
                fares[middle].number = off(fares[middle].number);
            }
            QueueDamage::LastNumber => fares[last].number = off(fares[last].number),
            QueueDamage::NumbersRepeat => fares[last - 1].number = fares[last].number,
            QueueDamage::NumbersFall => {
                let (first, end) = (fares[0].number, fares[last].number);
                for fare in fares {
                    fare.number = end - (fare.number - first);
                }
            }
            QueueDamage::NumbersSwapped => {
                for fare in fares {
                    fare.number = fare.number.swap_bytes();
                }
            }
            _ => {}
        }
    }

    /// Damage by which used is too low or too high.
    fn damage_used(self, data: &mut Vec<u8>, queue: &Fares, random: &mut Random) {
        let whole = data.len();
        let start = match random.chance(40) {
            true => EMPTY,
            false => whole,
        };
        let used = match (self, queue.fares.last()) {
            (QueueDamage::UsedBelow4, _) => random.below(EMPTY),
            (QueueDamage::HeadCutShort, Some(last)) => {
                whole - last.body.len() - random.between(1, FARE_HEAD - 1)
            }
            (QueueDamage::BodyCutShort, Some(last)) => whole - random.between(1, last.body.len()),
            (QueueDamage::TrailingZeros, _) => {
                data.truncate(start);
                start + random.between(1, FARE_HEAD - 1)
            }
            (QueueDamage::TrailingHeadOfZeros, _) => {
                data.truncate(start);
                start + random.between(FARE_HEAD, 20)
            }
            _ => whole,
        };
        data.resize(used, 0);
    }
}

/// Three fares or more, with numbers on both sides.
fn some_fares(random: &mut Random) -> Fares {
    let count = random.between(3, 5);
    let sizes: Vec<usize> = (0..count)
        .map(|_| match random.below(4) {
            0 => LARGEST_FARE,
            1 => SMALLEST_FARE,
            _ => random.between(SMALLEST_FARE, 60),
        })
        .collect();
    let next = match random.below(3) {
        0 => random.between(count + 1, 90) as u32,
        1 => (1 << random.pick(&[8, 16, 24])) + random.below(count) as u32,
        _ => random.between(count + 1, u32::MAX as usize - 1) as u32,
    };
    Fares::new(next, &sizes, random)
}

/// Fares of which `past` have numbers after FFFFFFFF.
fn wrapping(past: u32, count: usize, random: &mut Random) -> Fares {
    Fares::new(past, &vec![SMALLEST_FARE + 3; count], random)
}

fn lengthen(fare: &mut Fare, random: &mut Random) {
    resize(fare, random.between(1, LONGEST_BODY - 1), random);
    let most = LARGEST_FARE as u16 - fare.length;
    fare.length += match random.chance(50) {
        true => 1,
        false => random.between(1, usize::from(most)) as u16,
    };
}

fn resize(fare: &mut Fare, size: usize, random: &mut Random) {
    *fare = Fare::new(fare.number, random.bytes(size));
}

fn other_kind(random: &mut Random) -> u16 {
    match random.below(3) {
        0 => random.pick(&[0x0000, 0x0002, 0x0003, 0x0004, 0x0101, 0x8001, 0xFFFF]),
        _ => loop {
            let kind = random.number() as u16;
            if kind != FARE_KIND {
                break kind;
            }
        },
    }
}

/// Another next number than the one due and its neighbours.
fn other_next(queue: &Fares, random: &mut Random) -> u32 {
    let due = queue.next;
    let first = queue.fares[0].number;
    let candidates = [
        0,
        first,
        due.swap_bytes(),
        due ^ 1 << 8,
        random.number() as u32,
    ];
    let next = random.pick(&candidates);
    if next == due {
        return first;
    }
    next
}

/// The size of a body, mostly right, often at the edge of the bytes that are left.
pub fn body_size(left: usize, random: &mut Random) -> usize {
    // The largest that fits, if any does.
    let fits = left.saturating_sub(FARE_HEAD);
    // Next to the room of the largest fare.
    if (LARGEST_FARE - 1..=LARGEST_FARE).contains(&left) && random.chance(60) {
        return LONGEST_BODY;
    }
    match random.below(40) {
        0 | 1 => 0,
        2..=4 => 1,
        5 | 6 => LONGEST_BODY,
        7 | 8 => LONGEST_BODY + 1,
        9 => random.between(LONGEST_BODY + 1, 400),
        10..=15 => fits.clamp(1, LONGEST_BODY),
        16..=18 => (fits + 1).min(LONGEST_BODY),
        19..=21 => fits.saturating_sub(1).clamp(1, LONGEST_BODY),
        22..=35 => random.between(1, 16),
        _ => random.between(1, LONGEST_BODY),
    }
}

/// A number to acknowledge: present, acknowledged before, not yet given, or any.
pub fn number_to_acknowledge(queue: Queue<'_>, random: &mut Random) -> u32 {
    let next = queue.next_number().0;
    let count = queue.fares().count() as u32;
    let first = next - count;
    let present = first + random.below(count.max(1) as usize) as u32;
    match random.below(40) {
        0..=13 => first,
        14..=20 => present,
        21..=23 => next.wrapping_sub(1),
        24..=26 => first.wrapping_sub(1),
        27 => random.below(first as usize + 1) as u32,
        28..=31 => next,
        32 => next.saturating_add(1 + random.below(300) as u32),
        33..=35 => present.swap_bytes(),
        36 => random.pick(&[0, 1, u32::MAX - 1, u32::MAX]),
        37 | 38 => present ^ 1 << random.below(32),
        _ => random.number() as u32,
    }
}
