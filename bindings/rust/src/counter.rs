//! What a counter holds, and its eight bytes.

use crate::COUNTER_SIZE;

/// The value and the threshold of a counter. Which way it counts, its record's [`kind`](crate::kind) says. Any value may stand with any
/// threshold, also one past it.
///
/// ```
/// use element::Counter;
///
/// let trips = Counter { value: 12, threshold: 300 };
/// assert_eq!(trips.to_bytes(), [0, 0, 0, 12, 0, 0, 0x01, 0x2C]);
/// assert_eq!(Counter::from_bytes([0, 0, 0, 12, 0, 0, 0x01, 0x2C]), trips);
/// ```
#[derive(Clone, Copy, Debug, PartialEq, Eq, Hash)]
pub struct Counter {
    /// What a count changes.
    pub value: u32,
    /// What a count does not pass.
    pub threshold: u32,
}

impl Counter {
    /// The data of the object: the value, then the threshold, each most significant byte first.
    pub const fn to_bytes(self) -> [u8; COUNTER_SIZE] {
        let [a, b, c, d] = self.value.to_be_bytes();
        let [e, f, g, h] = self.threshold.to_be_bytes();
        [a, b, c, d, e, f, g, h]
    }

    /// The counter whose data this is.
    pub const fn from_bytes(bytes: [u8; COUNTER_SIZE]) -> Counter {
        let [a, b, c, d, e, f, g, h] = bytes;
        Counter {
            value: u32::from_be_bytes([a, b, c, d]),
            threshold: u32::from_be_bytes([e, f, g, h]),
        }
    }
}

#[cfg(test)]
mod tests {
    use super::*;

    #[test]
    fn both_numbers_stand_most_significant_byte_first() {
        let counter = Counter {
            value: 0x0102_0304,
            threshold: 0xF5F6_F7F8,
        };
        let bytes = [0x01, 0x02, 0x03, 0x04, 0xF5, 0xF6, 0xF7, 0xF8];
        assert_eq!(counter.to_bytes(), bytes);
        assert_eq!(Counter::from_bytes(bytes), counter);
    }

    #[test]
    fn the_least_and_the_largest_go_both_ways() {
        for (value, threshold) in [(0, u32::MAX), (u32::MAX, 0), (u32::MAX, u32::MAX)] {
            let counter = Counter { value, threshold };
            assert_eq!(Counter::from_bytes(counter.to_bytes()), counter);
        }
    }
}
