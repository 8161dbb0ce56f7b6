//! Counters: which way one counts, how far it is, and what a condition on it finds.
use element::kind;

use crate::record::{self, Record};

/// Which way a counter counts.
#[derive(Clone, Copy, Debug, PartialEq, Eq)]
pub enum Direction {
    /// Up to its threshold.
    Up,
    /// Down to its threshold.
    Down,
}

impl Direction {
    /// The direction of a record's kind, if that is a counter's.
    pub fn of_kind(kind: u16) -> Option<Direction> {
        match kind {
            kind::COUNTER_UP => Some(Direction::Up),
            kind::COUNTER_DOWN => Some(Direction::Down),
            _ => None,
        }
    }

    /// The kind of such a counter's record.
    pub fn kind(self) -> u16 {
        match self {
            Direction::Up => kind::COUNTER_UP,
            Direction::Down => kind::COUNTER_DOWN,
        }
    }

    /// The direction that a word names.
    pub fn of_name(word: &str) -> Option<Direction> {
        [Direction::Up, Direction::Down]
            .into_iter()
            .find(|direction| word.eq_ignore_ascii_case(direction.name()))
    }

    /// The word for the direction.
    pub fn name(self) -> &'static str {
        match self {
            Direction::Up => "up",
            Direction::Down => "down",
        }
    }
}

/// A counter with its direction.
#[derive(Clone, Copy, Debug, PartialEq, Eq)]
pub struct Counter {
    /// Which way it counts.
    pub direction: Direction,
    /// Its value and its threshold.
    pub state: element::Counter,
}

impl Counter {
    /// The counter that a record holds, if it holds one.
    pub fn of(record: &Record) -> Option<Counter> {
        Some(Counter {
            direction: Direction::of_kind(record.kind())?,
            state: element::Counter::from_bytes(record.data().try_into().ok()?),
        })
    }

    /// How far the value is from the threshold; nothing where it is past it.
    pub fn to_go(&self) -> Option<u32> {
        let element::Counter { value, threshold } = self.state;
        match self.direction {
            Direction::Up => threshold.checked_sub(value),
            Direction::Down => value.checked_sub(threshold),
        }
    }

    /// The counter after a count by a step: towards its threshold, at most onto it.
    pub fn counted(self, step: u8) -> Counter {
        let element::Counter { value, threshold } = self.state;
        let by = self.to_go().unwrap_or(0).min(step.into());
        let value = match self.direction {
            Direction::Up => value + by,
            Direction::Down => value - by,
        };
        let state = element::Counter { value, threshold };
        Counter { state, ..self }
    }

    /// Value and threshold, and how far the one is from the other.
    pub fn in_words(&self) -> String {
        let element::Counter { value, threshold } = self.state;
        let both = match self.direction {
            Direction::Up => format!("{value} of {threshold}"),
            Direction::Down => format!("{value} down to {threshold}"),
        };
        match self.to_go() {
            None => format!("{both}, past its threshold"),
            Some(0) => format!("{both}, at its threshold"),
            Some(left) => format!("{both}, {left} to go"),
        }
    }
}

/// The counters of a store by their numbers.
pub fn all(store: &[u8]) -> Vec<(u16, Counter)> {
    record::records(store)
        .iter()
        .filter_map(|record| Some((record.object(), Counter::of(record)?)))
        .collect()
}

/// What a condition on a counter finds under its number.
pub fn found(store: &[u8], number: u16) -> String {
    let Some(record) = record::find(store, number) else {
        return format!("{number:04X} is not in the store");
    };
    match Counter::of(&record) {
        Some(counter) if counter.direction == Direction::Up => {
            format!("{number:04X} is {}", counter.in_words())
        }
        _ => format!("{number:04X} is no counter up"),
    }
}

#[cfg(test)]
mod tests {
    use super::*;
    use crate::description;

    fn said(direction: Direction, value: u32, threshold: u32) -> String {
        let state = element::Counter { value, threshold };
        Counter { direction, state }.in_words()
    }

    #[test]
    fn kinds_and_names_go_both_ways() {
        for (direction, kind, name) in [
            (Direction::Up, 0x0002, "up"),
            (Direction::Down, 0x0004, "down"),
        ] {
            assert_eq!((direction.kind(), direction.name()), (kind, name));
            assert_eq!(Direction::of_kind(kind), Some(direction));
            assert_eq!(Direction::of_name(&name.to_uppercase()), Some(direction));
        }
        assert_eq!(Direction::of_kind(0x0001), None);
        assert_eq!(Direction::of_kind(0x0003), None);
        assert_eq!(Direction::of_name("upward"), None);
    }

    #[test]
    fn up_is_told_by_what_is_left() {
        let up = |value, threshold| said(Direction::Up, value, threshold);
        assert_eq!(up(12, 300), "12 of 300, 288 to go");
        assert_eq!(up(300, 300), "300 of 300, at its threshold");
        assert_eq!(up(301, 300), "301 of 300, past its threshold");
        assert_eq!(up(0, 0), "0 of 0, at its threshold");
        assert_eq!(up(0, u32::MAX), "0 of 4294967295, 4294967295 to go");
    }

    #[test]
    fn down_is_told_by_what_is_left() {
        let down = |value, threshold| said(Direction::Down, value, threshold);
        assert_eq!(down(10, 2), "10 down to 2, 8 to go");
        assert_eq!(down(2, 2), "2 down to 2, at its threshold");
        assert_eq!(down(1, 2), "1 down to 2, past its threshold");
        assert_eq!(down(u32::MAX, 0), "4294967295 down to 0, 4294967295 to go");
    }

    #[test]
    fn a_count_stops_on_the_threshold() {
        let counted = |direction, value, threshold, step| {
            let state = element::Counter { value, threshold };
            Counter { direction, state }.counted(step).state.value
        };
        assert_eq!(counted(Direction::Up, 12, 300, 5), 17);
        assert_eq!(counted(Direction::Up, 299, 300, 5), 300);
        assert_eq!(counted(Direction::Up, 301, 300, 5), 301);
        assert_eq!(
            counted(Direction::Up, u32::MAX - 1, u32::MAX, 255),
            u32::MAX
        );
        assert_eq!(counted(Direction::Down, 10, 2, 5), 5);
        assert_eq!(counted(Direction::Down, 10, 2, 9), 2);
        assert_eq!(counted(Direction::Down, 1, 2, 9), 1);
    }

    #[test]
    fn what_a_condition_finds_is_told() {
        let rest = "lcso creation change always read always execute never";
        let text = format!("E120 counter up value 1 threshold 3 {rest}\nE121 counter down value 3 threshold 1 {rest}\nE122 maximum 8 {rest}");
        let store = description::to_store(&text).unwrap();
        assert_eq!(found(&store, 0xE120), "E120 is 1 of 3, 2 to go");
        assert_eq!(found(&store, 0xE121), "E121 is no counter up");
        assert_eq!(found(&store, 0xE122), "E122 is no counter up");
        assert_eq!(found(&store, 0xE123), "E123 is not in the store");
        let numbers: Vec<u16> = all(&store).iter().map(|(number, _)| *number).collect();
        assert_eq!(numbers, [0xE120, 0xE121]);
    }
}
