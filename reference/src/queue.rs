//! Fare queues: the next sequence number, then fares end to end, least significant byte first.

use crate::kinds::Offset;

/// Bytes of the next number, all that an empty queue uses.
pub const EMPTY: usize = 4;
/// Bytes of a fare before its body: length 2, kind 2, sequence number 4.
pub const FARE_HEAD: usize = 8;
pub const SHORTEST_BODY: usize = 1;
pub const LONGEST_BODY: usize = 200;
pub const FARE_KIND: u16 = 0x0001;

/// The number by which a fare is acknowledged.
#[derive(Clone, Copy, Debug, PartialEq, Eq)]
pub struct SequenceNumber(pub u32);

impl SequenceNumber {
    /// The next number at which a queue takes no fare any more: numbers never wrap.
    pub const LAST: SequenceNumber = SequenceNumber(u32::MAX);
}

/// The clause of a queue's form that its used bytes break first.
#[derive(Clone, Copy, Debug, PartialEq, Eq)]
pub enum QueueFault {
    /// Fewer bytes than the next number has.
    Used,
    /// The last fare lacks bytes of its head or body.
    CutShort,
    BodySize,
    FareKind,
    /// A fare's number is not one above that of the fare before it.
    FareNumber,
    /// The last fare's number is not one below the next number.
    NextNumber,
}

/// Whether a fare may have a body of this size.
pub fn is_body_size(size: usize) -> bool {
    (SHORTEST_BODY..=LONGEST_BODY).contains(&size)
}

/// Bytes of a fare with a body of this size.
pub fn fare_size(body: usize) -> usize {
    FARE_HEAD + body
}

/// Judges the used bytes of a queue, each fare once.
pub fn judge(used: &[u8]) -> Result<(), QueueFault> {
    let (next, mut rest) = used.split_first_chunk().ok_or(QueueFault::Used)?;
    // Wider than a sequence number, so that none follows the largest.
    let next = u64::from(u32::from_le_bytes(*next));
    let mut due = None;
    while !rest.is_empty() {
        let (head, after) = split_fare(rest)?;
        let number = u64::from(head.number.0);
        if due.is_some_and(|due| due != number) {
            return Err(QueueFault::FareNumber);
        }
        due = Some(number + 1);
        rest = after;
    }
    match due {
        Some(due) if due != next => Err(QueueFault::NextNumber),
        _ => Ok(()),
    }
}

/// The head of the fare at the front of the bytes, and the bytes after the fare.
fn split_fare(bytes: &[u8]) -> Result<(FareHead, &[u8]), QueueFault> {
    let head = bytes.first_chunk().ok_or(QueueFault::CutShort)?;
    let head = FareHead::read(head);
    if !head.length.checked_sub(FARE_HEAD).is_some_and(is_body_size) {
        return Err(QueueFault::BodySize);
    }
    if head.kind != FARE_KIND {
        return Err(QueueFault::FareKind);
    }
    let after = bytes.get(head.length..).ok_or(QueueFault::CutShort)?;
    Ok((head, after))
}

/// What stands before a fare's body.
#[derive(Clone, Copy, Debug, PartialEq, Eq)]
struct FareHead {
    /// Bytes of the whole fare.
    length: usize,
    kind: u16,
    number: SequenceNumber,
}

impl FareHead {
    fn read(bytes: &[u8; FARE_HEAD]) -> FareHead {
        let [l0, l1, k0, k1, n0, n1, n2, n3] = *bytes;
        FareHead {
            length: usize::from(u16::from_le_bytes([l0, l1])),
            kind: u16::from_le_bytes([k0, k1]),
            number: SequenceNumber(u32::from_le_bytes([n0, n1, n2, n3])),
        }
    }

    fn bytes(self) -> [u8; FARE_HEAD] {
        let [l0, l1] = (self.length as u16).to_le_bytes();
        let [k0, k1] = self.kind.to_le_bytes();
        let [n0, n1, n2, n3] = self.number.0.to_le_bytes();
        [l0, l1, k0, k1, n0, n1, n2, n3]
    }
}

/// A fare of a queue.
#[derive(Clone, Copy, Debug, PartialEq, Eq)]
pub struct Fare<'q> {
    pub number: SequenceNumber,
    pub body: &'q [u8],
    /// Where the fare after it begins.
    pub end: Offset,
}

/// A well-formed queue, to be read.
#[derive(Clone, Copy, Debug)]
pub struct Queue<'q> {
    used: &'q [u8],
}

impl<'q> Queue<'q> {
    /// The queue of these used bytes, which are well formed.
    pub fn from_used(used: &'q [u8]) -> Queue<'q> {
        Queue { used }
    }

    /// The number of the next fare.
    pub fn next_number(self) -> SequenceNumber {
        next_number(self.used)
    }

    /// The fares present, the oldest first.
    pub fn fares(self) -> impl Iterator<Item = Fare<'q>> {
        let mut start = EMPTY;
        std::iter::from_fn(move || {
            let head = FareHead::read(self.used[start..].first_chunk()?);
            let end = start + head.length;
            let body = &self.used[start + FARE_HEAD..end];
            start = end;
            Some(Fare {
                number: head.number,
                body,
                end: Offset(end),
            })
        })
    }

    /// Where the fare of this number ends, if it is present.
    pub fn end_of(self, number: SequenceNumber) -> Option<Offset> {
        let fare = self.fares().find(|fare| fare.number == number)?;
        Some(fare.end)
    }
}

fn next_number(data: &[u8]) -> SequenceNumber {
    SequenceNumber(u32::from_le_bytes([data[0], data[1], data[2], data[3]]))
}

/// Puts a fare with the next number behind the last one; gives used after it.
/// The fare fits, and the next number is not the last.
pub fn append(data: &mut [u8], used: usize, body: &[u8]) -> usize {
    let number = next_number(data);
    debug_assert!(is_body_size(body.len()) && number != SequenceNumber::LAST);
    let head = FareHead {
        length: fare_size(body.len()),
        kind: FARE_KIND,
        number,
    };
    let end = used + head.length;
    let (head_place, body_place) = data[used..end].split_at_mut(FARE_HEAD);
    head_place.copy_from_slice(&head.bytes());
    body_place.copy_from_slice(body);
    data[..EMPTY].copy_from_slice(&(number.0 + 1).to_le_bytes());
    end
}

/// Removes all fares before `end`; gives used after it. The others move to the front,
/// the bytes past them become zero, the next number stays.
pub fn acknowledge(data: &mut [u8], used: usize, end: Offset) -> usize {
    data.copy_within(end.0..used, EMPTY);
    let left = used - (end.0 - EMPTY);
    data[left..used].fill(0);
    left
}

#[cfg(test)]
mod tests {
    use super::*;

    /// The bytes of a fare with a body of 5A.
    fn fare(number: u32, body: usize) -> Vec<u8> {
        let mut bytes = (8 + body as u16).to_le_bytes().to_vec();
        bytes.extend_from_slice(&[0x01, 0x00]);
        bytes.extend_from_slice(&number.to_le_bytes());
        bytes.resize(8 + body, 0x5A);
        bytes
    }

    /// The used bytes of a queue with fares of these numbers and bodies of 2 bytes.
    fn queue(next: u32, numbers: &[u32]) -> Vec<u8> {
        let mut bytes = next.to_le_bytes().to_vec();
        bytes.extend(numbers.iter().flat_map(|&number| fare(number, 2)));
        bytes
    }

    #[test]
    fn any_next_number_of_an_empty_queue() {
        for next in [0, 1, 255, 256, 0x0102_0304, u32::MAX - 1, u32::MAX] {
            assert_eq!(judge(&queue(next, &[])), Ok(()));
        }
        for used in 0..4 {
            assert_eq!(judge(&[0; 4][..used]), Err(QueueFault::Used));
        }
    }

    #[test]
    fn numbers_go_up_by_ones_to_the_next_number() {
        for (next, numbers, expected) in [
            (1, &[0][..], Ok(())),
            (3, &[0, 1, 2], Ok(())),
            (3, &[2], Ok(())),
            (257, &[254, 255, 256], Ok(())),
            (u32::MAX, &[u32::MAX - 2, u32::MAX - 1], Ok(())),
            (3, &[0, 1], Err(QueueFault::NextNumber)),
            (2, &[0, 1, 2], Err(QueueFault::NextNumber)),
            (0, &[0], Err(QueueFault::NextNumber)),
            (3, &[0, 2], Err(QueueFault::FareNumber)),
            (3, &[1, 1, 2], Err(QueueFault::FareNumber)),
            (3, &[2, 1, 0], Err(QueueFault::FareNumber)),
            // Numbers do not wrap, neither at the next number nor before it.
            (0, &[u32::MAX], Err(QueueFault::NextNumber)),
            (1, &[u32::MAX, 0], Err(QueueFault::FareNumber)),
        ] {
            assert_eq!(judge(&queue(next, numbers)), expected, "{numbers:?}");
        }
    }

    #[test]
    fn sizes_of_a_fare() {
        for body in 0..=300 {
            let used = [&1u32.to_le_bytes()[..], &fare(0, body)].concat();
            let expected = match body {
                1..=200 => Ok(()),
                _ => Err(QueueFault::BodySize),
            };
            assert_eq!(judge(&used), expected, "{body}");
        }
        let whole = queue(2, &[0, 1]);
        for used in 4..whole.len() {
            let expected = match used {
                4 => Ok(()),
                14 => Err(QueueFault::NextNumber),
                _ => Err(QueueFault::CutShort),
            };
            assert_eq!(judge(&whole[..used]), expected, "{used}");
        }
    }

    #[test]
    fn bytes_of_an_append() {
        let mut data = [0; 20];
        data[0] = 0xFF;
        assert_eq!(append(&mut data, 4, &[0xA1, 0xA2]), 14);
        let expected = [
            0x00, 0x01, 0, 0, 10, 0, 1, 0, 0xFF, 0, 0, 0, 0xA1, 0xA2, 0, 0, 0, 0, 0, 0,
        ];
        assert_eq!(data, expected);
        let read = Queue::from_used(&data[..14]);
        assert_eq!(read.next_number(), SequenceNumber(0x100));
        assert_eq!(read.end_of(SequenceNumber(0xFF)), Some(Offset(14)));
        assert_eq!(read.end_of(SequenceNumber(0x100)), None);
    }

    #[test]
    fn an_acknowledgement_moves_the_rest_to_the_front() {
        let whole = queue(3, &[0, 1, 2]);
        for (number, left) in [(0, &[1, 2][..]), (1, &[2]), (2, &[])] {
            let mut data = whole.clone();
            let queue_before = Queue::from_used(&whole);
            let end = queue_before.end_of(SequenceNumber(number)).unwrap();
            let used = acknowledge(&mut data, whole.len(), end);
            let expected = queue(3, left);
            assert_eq!(data[..used], expected);
            assert!(data[used..].iter().all(|&byte| byte == 0));
        }
    }
}
