//! Counters: a value that goes by steps to its threshold, up or down.

/// The bytes of a counter's data: value 4, threshold 4, most significant byte first.
pub const SIZE: usize = 8;

/// Bytes of the value, and of the threshold after it.
const NUMBER: usize = 4;

/// The direction in which a counter counts.
#[derive(Clone, Copy, Debug, PartialEq, Eq)]
pub enum Direction {
    Up,
    Down,
}

impl Direction {
    pub const ALL: [Direction; 2] = [Direction::Up, Direction::Down];
}

/// A counter as its data has it.
#[derive(Clone, Copy, Debug, PartialEq, Eq)]
pub struct Counter {
    pub direction: Direction,
    pub value: u32,
    pub threshold: u32,
}

impl Counter {
    /// The counter of 8 bytes of data.
    pub fn from_data(direction: Direction, data: &[u8]) -> Counter {
        Counter {
            direction,
            value: number_at(data, 0),
            threshold: number_at(data, NUMBER),
        }
    }

    /// The data of the counter.
    pub fn to_data(self) -> [u8; SIZE] {
        let mut data = [0; SIZE];
        data[..NUMBER].copy_from_slice(&self.value.to_be_bytes());
        data[NUMBER..].copy_from_slice(&self.threshold.to_be_bytes());
        data
    }

    /// Whether the value is at its threshold or past it.
    pub fn is_reached(self) -> bool {
        match self.direction {
            Direction::Up => self.value >= self.threshold,
            Direction::Down => self.value <= self.threshold,
        }
    }

    /// The counter after a step, unless its threshold is reached before it.
    pub fn count(self, step: u8) -> Option<Counter> {
        if self.is_reached() {
            return None;
        }
        let step = u32::from(step);
        // A sum out of 32 bits is past every threshold.
        let value = match self.direction {
            Direction::Up => self.value.saturating_add(step).min(self.threshold),
            Direction::Down => self.value.saturating_sub(step).max(self.threshold),
        };
        Some(Counter { value, ..self })
    }

    /// The up counter after a step that a condition takes: never refused, and to
    /// the threshold at most, also from a value past it.
    pub fn used_up(self) -> Counter {
        debug_assert_eq!(self.direction, Direction::Up);
        let value = self.value.saturating_add(1).min(self.threshold);
        Counter { value, ..self }
    }
}

fn number_at(data: &[u8], place: usize) -> u32 {
    u32::from_be_bytes([
        data[place],
        data[place + 1],
        data[place + 2],
        data[place + 3],
    ])
}

#[cfg(test)]
mod tests {
    use super::*;

    /// The value after a step, none where the count is refused.
    fn counted(direction: Direction, value: u32, threshold: u32, step: u8) -> Option<u32> {
        let counter = Counter {
            direction,
            value,
            threshold,
        };
        let after = counter.count(step)?;
        assert_eq!((after.direction, after.threshold), (direction, threshold));
        Some(after.value)
    }

    #[test]
    fn data_is_value_then_threshold() {
        let data = [0x01, 0x02, 0x03, 0x04, 0xF5, 0xF6, 0xF7, 0xF8];
        for direction in Direction::ALL {
            let counter = Counter::from_data(direction, &data);
            assert_eq!(counter.value, 0x0102_0304);
            assert_eq!(counter.threshold, 0xF5F6_F7F8);
            assert_eq!(counter.to_data(), data);
        }
    }

    #[test]
    fn up() {
        let up = |value, threshold, step| counted(Direction::Up, value, threshold, step);
        // Below, onto and past the threshold.
        assert_eq!(up(10, 20, 0), Some(10));
        assert_eq!(up(10, 20, 1), Some(11));
        assert_eq!(up(10, 20, 9), Some(19));
        assert_eq!(up(10, 20, 10), Some(20));
        assert_eq!(up(10, 20, 11), Some(20));
        assert_eq!(up(10, 20, 255), Some(20));
        assert_eq!(up(19, 20, 0), Some(19));
        assert_eq!(up(19, 20, 1), Some(20));
        // At the threshold and past it.
        for step in [0, 1, 255] {
            assert_eq!(up(20, 20, step), None);
            assert_eq!(up(21, 20, step), None);
            assert_eq!(up(0xFFFF_FFFF, 20, step), None);
            assert_eq!(up(0, 0, step), None);
            assert_eq!(up(0xFFFF_FFFF, 0, step), None);
            assert_eq!(up(0xFFFF_FFFF, 0xFFFF_FFFF, step), None);
        }
    }

    #[test]
    fn used_up() {
        for (value, threshold, after) in [
            (10, 20, 11),
            (18, 20, 19),
            (19, 20, 20),
            (20, 20, 20),
            (21, 20, 20),
            (u32::MAX, 20, 20),
            (0, 0, 0),
            (u32::MAX, 0, 0),
            (u32::MAX - 1, u32::MAX, u32::MAX),
            (u32::MAX, u32::MAX, u32::MAX),
        ] {
            let direction = Direction::Up;
            let [before, after] = [value, after].map(|value| Counter {
                direction,
                value,
                threshold,
            });
            assert_eq!(before.used_up(), after);
        }
    }

    #[test]
    fn up_without_wrapping() {
        let up = |value, step| counted(Direction::Up, value, 0xFFFF_FFFF, step);
        assert_eq!(up(0, 255), Some(255));
        assert_eq!(up(0x00FF_FFFF, 1), Some(0x0100_0000));
        assert_eq!(up(0xFFFF_FF00, 254), Some(0xFFFF_FFFE));
        assert_eq!(up(0xFFFF_FF00, 255), Some(0xFFFF_FFFF));
        assert_eq!(up(0xFFFF_FF01, 255), Some(0xFFFF_FFFF));
        assert_eq!(up(0xFFFF_FFFE, 255), Some(0xFFFF_FFFF));
        let near_end = counted(Direction::Up, 0xFFFF_FFF0, 0xFFFF_FFF1, 255);
        assert_eq!(near_end, Some(0xFFFF_FFF1));
    }

    #[test]
    fn down() {
        let down = |value, threshold, step| counted(Direction::Down, value, threshold, step);
        // Above, onto and past the threshold.
        assert_eq!(down(20, 10, 0), Some(20));
        assert_eq!(down(20, 10, 1), Some(19));
        assert_eq!(down(20, 10, 9), Some(11));
        assert_eq!(down(20, 10, 10), Some(10));
        assert_eq!(down(20, 10, 11), Some(10));
        assert_eq!(down(20, 10, 255), Some(10));
        assert_eq!(down(11, 10, 0), Some(11));
        assert_eq!(down(11, 10, 1), Some(10));
        // At the threshold and past it.
        for step in [0, 1, 255] {
            assert_eq!(down(10, 10, step), None);
            assert_eq!(down(9, 10, step), None);
            assert_eq!(down(0, 10, step), None);
            assert_eq!(down(0, 0, step), None);
            assert_eq!(down(0, 0xFFFF_FFFF, step), None);
            assert_eq!(down(0xFFFF_FFFF, 0xFFFF_FFFF, step), None);
        }
    }

    #[test]
    fn down_without_wrapping() {
        let down = |value, step| counted(Direction::Down, value, 0, step);
        assert_eq!(down(0xFFFF_FFFF, 255), Some(0xFFFF_FF00));
        assert_eq!(down(0x0100_0000, 1), Some(0x00FF_FFFF));
        assert_eq!(down(0x0000_00FF, 254), Some(1));
        assert_eq!(down(0x0000_00FF, 255), Some(0));
        assert_eq!(down(0x0000_00FE, 255), Some(0));
        assert_eq!(down(0x0000_0001, 255), Some(0));
        assert_eq!(counted(Direction::Down, 15, 14, 255), Some(14));
    }

    /// The value after as many counts by one, until the threshold.
    fn counted_by_one(direction: Direction, mut value: u32, threshold: u32, step: u8) -> u32 {
        for _ in 0..step {
            if value != threshold {
                match direction {
                    Direction::Up => value += 1,
                    Direction::Down => value -= 1,
                }
            }
        }
        value
    }

    #[test]
    fn a_step_is_as_many_steps_of_one() {
        for away in [1, 2, 3, 100, 254, 255, 256, 257] {
            for low in [0, 1, 0xFF, 0xFF80, 0x7FFF_FFFF, u32::MAX - away] {
                for step in 0..=255 {
                    for (direction, value, threshold) in [
                        (Direction::Up, low, low + away),
                        (Direction::Down, low + away, low),
                    ] {
                        let expected = counted_by_one(direction, value, threshold, step);
                        assert_eq!(counted(direction, value, threshold, step), Some(expected));
                    }
                }
            }
        }
    }
}
