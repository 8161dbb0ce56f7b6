//! Answers in words.
use element::{Length, Refusal, COUNTER_SIZE, HEADER};

use crate::command::{self, Action};
use crate::counter::Counter;
use crate::hex;
use crate::list::Entry;
use crate::metadata;
use crate::names;
use crate::queue::{self, Queue};

/// What came of a command.
#[derive(Debug, PartialEq, Eq)]
pub struct Exchange {
    /// 0 where a response stands.
    pub outcome: u8,
    /// The response; empty where none stands.
    pub response: Vec<u8>,
    /// The number of the refusal, where the command is refused.
    pub refused: Option<u8>,
    /// The last error after the command.
    pub last_error: u8,
    /// The counter that the command names, as the command itself leaves it, before any step of a condition.
    pub counter: Option<Counter>,
    /// The bytes in use of the object that the command names, as the command leaves it.
    pub used: Option<usize>,
    /// The queue that the command names, before it and after it.
    pub queues: Option<(Queue, Queue)>,
    /// The counters that the conditions of the command's expression moved, by their numbers, as they stand then.
    pub steps: Vec<(u16, Counter)>,
    /// Where access is denied, the expression that was asked, if it names counters.
    pub asked: Option<String>,
}

impl Exchange {
    /// Whether a response stands and is no refusal.
    pub fn is_done(&self) -> bool {
        self.outcome == 0 && self.refused.is_none()
    }

    /// The line that the program `bench` prints.
    pub fn plain(&self) -> String {
        format!("{} {}\n", self.outcome, hex::joined(&self.response))
    }

    /// The command and its answer, with what they say.
    pub fn shown(&self, entry: &Entry) -> String {
        let note = match entry.note.is_empty() {
            true => String::new(),
            false => format!("  # {}", entry.note),
        };
        format!(
            "line {}: {}{note}\n{}{}    {}\n\n",
            entry.line,
            command::in_words(&entry.bytes),
            hex::wrapped(&entry.bytes, "  > "),
            hex::wrapped(&self.response, "  < "),
            self.in_words(&entry.bytes)
        )
    }

    fn in_words(&self, command: &[u8]) -> String {
        match self.refused {
            _ if self.outcome != 0 => {
                format!(
                    "outcome {}: no room for a response, nothing changed",
                    self.outcome
                )
            }
            Some(number) if number == self.last_error => {
                format!("refused {}", self.refused_in_words(command, number))
            }
            Some(number) => format!(
                "refused {} (the last error stays {:02X})",
                self.refused_in_words(command, number),
                self.last_error
            ),
            None => format!("{}{}", self.done_in_words(command), self.steps_in_words()),
        }
    }

    fn steps_in_words(&self) -> String {
        let step = |(number, counter): &(u16, Counter)| {
            format!("; counter {number:04X} steps to {}", counter.in_words())
        };
        self.steps.iter().map(step).collect()
    }

    /// Why a count is refused, a write to a counter, a read past the bytes in use, what a queue refuses, or what names a counter; all else by the
    /// refusal's name.
    fn refused_in_words(&self, command: &[u8], number: u8) -> String {
        let action = command::action(command);
        match (action.and_then(|one| self.why(one, number)), &self.asked) {
            (Some(why), _) => format!("{number:02X}: {why}"),
            (None, Some(asked)) => format!("{} ({asked})", refusal(number)),
            (None, None) => refusal(number),
        }
    }

    fn why(&self, action: Action, number: u8) -> Option<String> {
        Some(match (action, number, self.counter) {
            (Action::Count { .. }, 0x03, _) => "this object is no counter".into(),
            (Action::Count { offset: 1.. }, 0x08, _) => "a count is at offset 0".into(),
            (Action::Count { .. }, 0x08, Some(counter)) => {
                format!("nothing to count, {}", counter.in_words())
            }
            (Action::Write, 0x08, Some(_)) => {
                "a write to a counter sets its 8 bytes at offset 0".into()
            }
            (Action::Read { offset, .. }, 0x08, _) => format!(
                "offset {offset} is past the {} in use",
                names::count(self.used?, "byte")
            ),
            (Action::Append { .. } | Action::Acknowledge { .. }, 0x03, _) => {
                "this object is no queue".into()
            }
            (Action::Append { body }, 0x04, _) => queue::body_fault(body)?,
            _ => return self.why_of_queue(action, number),
        })
    }

    fn why_of_queue(&self, action: Action, number: u8) -> Option<String> {
        let (queue, _) = self.queues.as_ref()?;
        match (action, number) {
            (Action::Write, 0x07) => Some("plain writes to a queue are never granted".into()),
            (Action::Append { body }, 0x08) => Some(queue.full(body)),
            (Action::Append { .. }, 0x0D) => Some(queue.out_of_numbers()),
            (Action::Acknowledge { number }, 0x05) => Some(queue.absent(number)),
            _ => None,
        }
    }

    /// What was done with a queue; what a count or a write leaves in a counter, or a read of the whole of it gives; all else by the data. A read that
    /// gave less than it asked for says so.
    fn done_in_words(&self, command: &[u8]) -> String {
        let data = self.response.get(HEADER..).unwrap_or(&[]);
        if let Some(words) = self.done_with_queue(command, data) {
            return format!("done: {words}");
        }
        match (command::action(command), self.counter, data.len()) {
            (Some(Action::Count { .. } | Action::Write), Some(counter), _) => {
                format!("done: {}", counter.in_words())
            }
            (Some(Action::Read { length, .. }), Some(counter), COUNTER_SIZE) => {
                format!(
                    "done: {}{}",
                    counter.in_words(),
                    beside(length, COUNTER_SIZE)
                )
            }
            _ => done(command, data),
        }
    }

    /// What an append or an acknowledgement did, or what a read of the whole of a queue gives.
    fn done_with_queue(&self, command: &[u8], data: &[u8]) -> Option<String> {
        let (before, after) = self.queues.as_ref()?;
        match command::action(command)? {
            Action::Append { .. } => Some(before.appended(after)),
            Action::Acknowledge { .. } => Some(before.acknowledged(after)),
            Action::Read { offset: 0, length } if data.len() == before.used() => Some(format!(
                "{}{}: {}",
                names::count(data.len(), "byte"),
                of_asked(length, data.len()),
                before.listed()
            )),
            _ => None,
        }
    }
}

/// A refusal by its number and name.
fn refusal(number: u8) -> String {
    match Refusal::from_number(number) {
        Some(refusal) => refusal.to_string(),
        None => format!("{number:02X}: a number that no refusal has"),
    }
}

/// What a command answered that is done.
fn done(command: &[u8], data: &[u8]) -> String {
    let object = match command {
        [_, _, _, _, high, low, ..] => names::session_object(u16::from_be_bytes([*high, *low])),
        _ => None,
    };
    let length = match command::action(command) {
        Some(Action::Read { length, .. }) => length,
        _ => Length(data.len() as u16),
    };
    let note = beside(length, data.len());
    match (command, object, data) {
        (_, _, []) if length != Length(0) => "done: no byte is in use from there on".into(),
        (_, _, []) => "done".into(),
        ([_, 0x01, ..], _, _) => format!("done: {}", metadata::in_words(data)),
        (_, Some("last error"), [0]) => format!("done: no error{note}"),
        (_, Some("last error"), [number]) => format!("done: last error {}{note}", refusal(*number)),
        (_, Some(name), [state]) => format!("done: {name} {}{note}", names::state_shown(*state)),
        _ => format!(
            "done: {}{}, \"{}\"",
            names::count(data.len(), "byte"),
            of_asked(length, data.len()),
            hex::text(data)
        ),
    }
}

/// What stands behind the count of bytes that a read gave.
fn of_asked(length: Length, given: usize) -> String {
    match length {
        Length::ALL => ", all from there on".into(),
        Length(asked) if usize::from(asked) > given => format!(" of the {asked} asked for"),
        _ => String::new(),
    }
}

/// What stands behind words for all that an object holds.
fn beside(length: Length, given: usize) -> String {
    let bytes = names::count(given, "byte");
    match length {
        Length(asked) if length != Length::ALL && usize::from(asked) > given => {
            format!(" ({bytes} of the {asked} asked for)")
        }
        _ => String::new(),
    }
}

#[cfg(test)]
mod tests {
    use super::*;
    use crate::counter::Direction;

    #[test]
    fn answers_in_words() {
        let error = [0x01, 0x00, 0, 6, 0xF1, 0xC2, 0, 0, 0, 1];
        assert!(done(&error, &[8]).starts_with("done: last error 08"));
        assert_eq!(done(&error, &[0]), "done: no error");
        assert_eq!(
            done(&[0x01, 0, 0, 6, 0xE0, 0xC0], &[7]),
            "done: LcsG 07 operational"
        );
        assert_eq!(
            done(&[0x01, 0, 0, 6, 0xF1, 0xD0], b"AB"),
            "done: 2 bytes, \"AB\""
        );
        assert_eq!(
            done(&[0x01, 1, 0, 2, 0xF1, 0xD0], &[0x20, 3, 0xC0, 1, 7]),
            "done: LcsO 07 operational"
        );
        assert_eq!(done(&[], &[]), "done");
        assert!(refusal(0x02).contains("no refusal"));
    }

    #[test]
    fn a_higher_last_error_is_told_beside_the_refusals_own() {
        let exchange = Exchange {
            outcome: 0,
            response: vec![0xFF, 0, 0, 0],
            refused: Some(0x01),
            last_error: 0x08,
            counter: None,
            used: None,
            queues: None,
            steps: Vec::new(),
            asked: None,
        };
        let words = exchange.in_words(&[]);
        assert!(words.starts_with("refused 01"), "{words}");
        assert!(words.ends_with("(the last error stays 08)"), "{words}");
        assert_eq!(exchange.plain(), "0 FF000000\n");
    }

    /// What is said of a command that names a counter up of this value, with the threshold 300.
    fn of_counter(command: &[u8], response: &[u8], refused: Option<u8>, value: u32) -> String {
        let direction = Direction::Up;
        let state = element::Counter {
            value,
            threshold: 300,
        };
        let exchange = Exchange {
            outcome: 0,
            response: response.to_vec(),
            refused,
            last_error: refused.unwrap_or(0),
            counter: Some(Counter { direction, state }),
            used: Some(COUNTER_SIZE),
            queues: None,
            steps: Vec::new(),
            asked: None,
        };
        exchange.in_words(command)
    }

    #[test]
    fn the_steps_of_conditions_are_told_behind_the_answer() {
        let direction = Direction::Up;
        let at = |value| {
            let state = element::Counter {
                value,
                threshold: 3,
            };
            Counter { direction, state }
        };
        let mut exchange = Exchange {
            outcome: 0,
            response: vec![0, 0, 0, 2, 0x41, 0x42],
            refused: None,
            last_error: 0,
            counter: None,
            used: Some(2),
            queues: None,
            steps: vec![(0xE120, at(2)), (0xE123, at(3))],
            asked: None,
        };
        let read = [0x01, 0x00, 0, 6, 0xE1, 0x21, 0, 0, 0, 2];
        assert_eq!(
            exchange.in_words(&read),
            "done: 2 bytes, \"AB\"; counter E120 steps to 2 of 3, 1 to go; counter E123 steps to 3 of 3, at its threshold"
        );
        exchange.response = vec![0, 0, 0, 8, 0, 0, 0, 1, 0, 0, 0, 3];
        exchange.counter = Some(at(1));
        exchange.steps = vec![(0xE120, at(2))];
        let own = [0x01, 0x00, 0, 6, 0xE1, 0x20, 0, 0, 0, 8];
        assert_eq!(
            exchange.in_words(&own),
            "done: 1 of 3, 2 to go; counter E120 steps to 2 of 3, 1 to go"
        );
        exchange.response = REFUSED.to_vec();
        exchange.refused = Some(0x07);
        exchange.last_error = 0x08;
        exchange.steps.clear();
        exchange.asked = Some("read: counter E120; E120 is 3 of 3, at its threshold".into());
        assert_eq!(
            exchange.in_words(&own),
            "refused 07: the access condition does not hold (read: counter E120; E120 is 3 of 3, at its threshold) (the last error stays 08)"
        );
    }

    const DONE: [u8; 4] = [0; 4];
    const REFUSED: [u8; 4] = [0xFF, 0, 0, 0];
    const COUNT: [u8; 9] = [0x02, 0x02, 0, 5, 0xF1, 0xD0, 0, 0, 5];

    #[test]
    fn what_stands_in_a_counter_is_told() {
        assert_eq!(
            of_counter(&COUNT, &DONE, None, 17),
            "done: 17 of 300, 283 to go"
        );
        let write = [
            0x02, 0x40, 0, 12, 0xF1, 0xD0, 0, 0, 0, 0, 1, 44, 0, 0, 1, 44,
        ];
        assert_eq!(
            of_counter(&write, &DONE, None, 300),
            "done: 300 of 300, at its threshold"
        );
        let read = [0x81, 0x00, 0, 6, 0xF1, 0xD0, 0, 0, 0, 8];
        let whole = [0, 0, 0, 8, 0, 0, 0, 12, 0, 0, 1, 44];
        assert_eq!(
            of_counter(&read, &whole, None, 12),
            "done: 12 of 300, 288 to go"
        );
        let part = [0, 0, 0, 4, 0, 0, 1, 44];
        let read = [0x01, 0x00, 0, 6, 0xF1, 0xD0, 0, 4, 0, 4];
        assert_eq!(
            of_counter(&read, &part, None, 12),
            "done: 4 bytes, \"...,\""
        );
        let lcso = [0x02, 0x01, 0, 7, 0xF1, 0xD0, 0x20, 3, 0xC0, 1, 7];
        assert_eq!(of_counter(&lcso, &DONE, None, 12), "done");
    }

    /// A read at offset 5 of a length.
    fn read_at_5(object: u16, length: u16) -> Vec<u8> {
        let [object, length] = [object, length].map(u16::to_be_bytes);
        [[0x01, 0x00], [0, 6], object, [0, 5], length].concat()
    }

    #[test]
    fn a_read_that_gave_less_than_it_asked_for_says_so() {
        let read = |length| read_at_5(0xF1D0, length);
        assert_eq!(done(&read(2), b"AB"), "done: 2 bytes, \"AB\"");
        assert_eq!(
            done(&read(3), b"AB"),
            "done: 2 bytes of the 3 asked for, \"AB\""
        );
        assert_eq!(
            done(&read(1500), b"A"),
            "done: 1 byte of the 1500 asked for, \"A\""
        );
        assert_eq!(
            done(&read(0xFFFF), b"AB"),
            "done: 2 bytes, all from there on, \"AB\""
        );
        assert_eq!(done(&read(0), &[]), "done");
        for length in [1, 0xFFFF] {
            assert_eq!(
                done(&read(length), &[]),
                "done: no byte is in use from there on"
            );
        }
    }

    #[test]
    fn of_a_byte_of_the_session_too() {
        assert_eq!(
            done(&read_at_5(0xE0C0, 9), &[7]),
            "done: LcsG 07 operational (1 byte of the 9 asked for)"
        );
        assert_eq!(
            done(&read_at_5(0xF1C0, 0xFFFF), &[7]),
            "done: LcsA 07 operational"
        );
        assert_eq!(
            done(&read_at_5(0xF1C2, 2), &[0]),
            "done: no error (1 byte of the 2 asked for)"
        );
        assert_eq!(
            done(&read_at_5(0xF1C2, 2), &[7]),
            "done: last error 07: the access condition does not hold (1 byte of the 2 asked for)"
        );
        assert_eq!(
            done(&read_at_5(0xF1C2, 2), &[]),
            "done: no byte is in use from there on"
        );
    }

    #[test]
    fn of_a_counter_too() {
        let whole = [0, 0, 0, 8, 0, 0, 0, 12, 0, 0, 1, 44];
        let read = |low| [0x01, 0x00, 0, 6, 0xF1, 0xD0, 0, 0, 0, low];
        assert_eq!(
            of_counter(&read(8), &whole, None, 12),
            "done: 12 of 300, 288 to go"
        );
        assert_eq!(
            of_counter(&read(9), &whole, None, 12),
            "done: 12 of 300, 288 to go (8 bytes of the 9 asked for)"
        );
        assert_eq!(
            of_counter(
                &[0x01, 0, 0, 6, 0xF1, 0xD0, 0, 0, 0xFF, 0xFF],
                &whole,
                None,
                12
            ),
            "done: 12 of 300, 288 to go"
        );
    }

    #[test]
    fn a_read_past_the_bytes_in_use_says_how_many_there_are() {
        let said = |used| {
            let exchange = Exchange {
                outcome: 0,
                response: REFUSED.to_vec(),
                refused: Some(0x08),
                last_error: 0x08,
                counter: None,
                used,
                queues: None,
                steps: Vec::new(),
                asked: None,
            };
            exchange.in_words(&read_at_5(0xF1D0, 1))
        };
        assert_eq!(
            said(Some(4)),
            "refused 08: offset 5 is past the 4 bytes in use"
        );
        assert_eq!(
            said(Some(1)),
            "refused 08: offset 5 is past the 1 byte in use"
        );
        assert!(said(None).starts_with("refused 08: an offset past the bytes in use"));
    }

    #[test]
    fn a_refused_count_says_why() {
        let refused =
            |command: &[u8], number, value| of_counter(command, &REFUSED, Some(number), value);
        assert_eq!(
            refused(&COUNT, 0x08, 300),
            "refused 08: nothing to count, 300 of 300, at its threshold"
        );
        assert_eq!(
            refused(&COUNT, 0x08, 301),
            "refused 08: nothing to count, 301 of 300, past its threshold"
        );
        let elsewhere = [0x02, 0x02, 0, 5, 0xF1, 0xD0, 0, 1, 5];
        assert_eq!(
            refused(&elsewhere, 0x08, 12),
            "refused 08: a count is at offset 0"
        );
        assert_eq!(
            refused(&COUNT, 0x03, 12),
            "refused 03: this object is no counter"
        );
        let write = [0x02, 0x00, 0, 5, 0xF1, 0xD0, 0, 0, 1];
        assert_eq!(
            refused(&write, 0x08, 12),
            "refused 08: a write to a counter sets its 8 bytes at offset 0"
        );
        assert_eq!(
            refused(&COUNT, 0x07, 12),
            "refused 07: the access condition does not hold"
        );
        let unknown = [0x02, 0x03, 0, 5, 0xF1, 0xD0, 0, 0, 5];
        assert!(refused(&unknown, 0x03, 12).starts_with("refused 03: unknown Param"));
    }
}
