//! Commands in words. Nothing is judged here: the words say what stands in the bytes, the library says what it leads to.
use element::Length;

use crate::hex;
use crate::metadata;
use crate::names;
use crate::queue;

/// The bytes that open the application.
const IDENTIFIER: &[u8] = b"\xD2\x76\x00\x00\x04GenAuthAppl";
const FLUSH: u8 = 0x80;

/// A command, named and taken apart.
pub fn in_words(command: &[u8]) -> String {
    let [cmd, param, high, low, data @ ..] = command else {
        return format!(
            "{} of a command, expected at least 4",
            names::count(command.len(), "byte")
        );
    };
    let what = match (cmd & !FLUSH, *param) {
        (0x01, 0x00) => read(data),
        (0x01, 0x01) => read_metadata(data),
        (0x02, 0x00) => write("write", data),
        (0x02, 0x40) => write("erase and write", data),
        (0x02, 0x01) => write_metadata(data),
        (0x02, 0x02) => count(data),
        (0x02, 0x04) => append(data),
        (0x02, 0x05) => acknowledge(data),
        (0x70, 0x00) => open(data),
        (0x71, 0x00) => close(data),
        (known, _) => unknown(known, *param),
    };
    let flush = if cmd & FLUSH != 0 { "flush, " } else { "" };
    format!("{flush}{what}{}", length_note(*high, *low, data))
}

/// What a command does with an object's data, by its Cmd and Param.
#[derive(Clone, Copy, Debug, PartialEq, Eq)]
pub enum Action {
    /// Reads it.
    Read {
        /// The place that it names.
        offset: u16,
        /// How many bytes it asks for.
        length: Length,
    },
    /// Writes it, erasing or not.
    Write,
    /// Counts.
    Count {
        /// The place that it names.
        offset: u16,
    },
    /// Appends a fare.
    Append {
        /// The bytes of its body.
        body: usize,
    },
    /// Acknowledges fares.
    Acknowledge {
        /// The number of the last of them.
        number: u32,
    },
}

/// What a command of a whole header does with an object's data, if anything.
pub fn action(command: &[u8]) -> Option<Action> {
    match command {
        [0x01 | 0x81, 0x00, _, _, _, _, a1, a2, l1, l2] => Some(Action::Read {
            offset: pair(a1, a2),
            length: Length(pair(l1, l2)),
        }),
        [0x02 | 0x82, 0x00 | 0x40, _, _, ..] => Some(Action::Write),
        [0x02 | 0x82, 0x02, _, _, _, _, high, low, ..] => Some(Action::Count {
            offset: pair(high, low),
        }),
        [0x02 | 0x82, 0x04, _, _, _, _, body @ ..] => Some(Action::Append { body: body.len() }),
        [0x02 | 0x82, 0x05, _, _, _, _, n1, n2, n3, n4] => Some(Action::Acknowledge {
            number: u32::from_be_bytes([*n1, *n2, *n3, *n4]),
        }),
        _ => None,
    }
}

/// The object that a command names, if it is a get or a set that has one.
pub fn object(command: &[u8]) -> Option<u16> {
    match command {
        [0x01 | 0x81 | 0x02 | 0x82, _, _, _, high, low, ..] => Some(pair(high, low)),
        _ => None,
    }
}

fn length_note(high: u8, low: u8, data: &[u8]) -> String {
    let in_len = usize::from(u16::from_be_bytes([high, low]));
    match in_len == data.len() {
        true => String::new(),
        false => format!(
            " (InLen says {in_len}, {} follow)",
            names::count(data.len(), "byte")
        ),
    }
}

fn pair(high: &u8, low: &u8) -> u16 {
    u16::from_be_bytes([*high, *low])
}

fn short(what: &str, data: &[u8], expected: &str) -> String {
    format!(
        "{what} with {} of InData, expected {expected}",
        names::count(data.len(), "byte")
    )
}

fn read(data: &[u8]) -> String {
    let [o1, o2, a1, a2, l1, l2] = data else {
        return short("read", data, "6: object, offset, length");
    };
    let length = match Length(pair(l1, l2)) {
        Length::ALL => "all bytes".into(),
        Length(length) => names::count(length.into(), "byte"),
    };
    format!(
        "read {} at {}: {length}",
        names::object(pair(o1, o2)),
        pair(a1, a2)
    )
}

fn read_metadata(data: &[u8]) -> String {
    match data {
        [o1, o2] => format!("read metadata of {}", names::object(pair(o1, o2))),
        _ => short("read metadata", data, "2: object"),
    }
}

fn write(what: &str, data: &[u8]) -> String {
    match data {
        [o1, o2, a1, a2, bytes @ ..] if !bytes.is_empty() => format!(
            "{what} {} at {}: {}",
            names::object(pair(o1, o2)),
            pair(a1, a2),
            names::count(bytes.len(), "byte")
        ),
        _ => short(what, data, "at least 5: object, offset, bytes"),
    }
}

fn write_metadata(data: &[u8]) -> String {
    match data {
        [o1, o2, content @ ..] if content.len() >= 2 => format!(
            "write metadata of {}: {}",
            names::object(pair(o1, o2)),
            metadata::in_words(content)
        ),
        _ => short("write metadata", data, "at least 4: object, 20, L"),
    }
}

/// The offset is told only where it is not the 0 that it must be.
fn count(data: &[u8]) -> String {
    let [o1, o2, a1, a2, step] = data else {
        return short("count", data, "5: object, offset, step");
    };
    let object = names::object(pair(o1, o2));
    match pair(a1, a2) {
        0 => format!("count {object} by {step}"),
        offset => format!("count {object} at {offset} by {step}"),
    }
}

fn append(data: &[u8]) -> String {
    match data {
        [o1, o2, body @ ..] if queue::body_fault(body.len()).is_none() => format!(
            "append to {}: {}",
            names::object(pair(o1, o2)),
            names::count(body.len(), "byte")
        ),
        _ => short("append", data, "3 to 202: object, a body of 1 to 200"),
    }
}

fn acknowledge(data: &[u8]) -> String {
    match data {
        [o1, o2, n1, n2, n3, n4] => format!(
            "acknowledge {} up to fare {}",
            names::object(pair(o1, o2)),
            u32::from_be_bytes([*n1, *n2, *n3, *n4])
        ),
        _ => short("acknowledge", data, "6: object, number"),
    }
}

fn open(data: &[u8]) -> String {
    match data {
        IDENTIFIER => "open the application".into(),
        _ if data.len() == IDENTIFIER.len() => format!(
            "open with another identifier, {} \"{}\"",
            hex::spaced(data),
            hex::text(data)
        ),
        _ => short("open", data, "16: the identifier"),
    }
}

fn close(data: &[u8]) -> String {
    match data {
        [] => "close the application".into(),
        _ => short("close", data, "none"),
    }
}

fn unknown(cmd: u8, param: u8) -> String {
    let (name, expected) = match cmd {
        0x01 => ("get", "00 or 01"),
        0x02 => ("set", "00, 01, 02, 04, 05 or 40"),
        0x70 => ("open", "00"),
        0x71 => ("close", "00"),
        _ => return format!("unknown Cmd {cmd:02X}, expected 01, 02, 70 or 71"),
    };
    format!("{name} with unknown Param {param:02X}, expected {expected}")
}

#[cfg(test)]
mod tests {
    use super::*;

    fn said(hex_text: &str) -> String {
        in_words(&hex::bytes(hex_text, 1).unwrap())
    }

    #[test]
    fn every_row_of_the_command_table() {
        assert_eq!(
            said("01 00 00 06 F1 D0 00 00 00 11"),
            "read F1D0 at 0: 17 bytes"
        );
        assert_eq!(
            said("01 00 00 06 F1 D0 00 05 FF FF"),
            "read F1D0 at 5: all bytes"
        );
        assert_eq!(
            said("01 00 00 06 F1 D0 00 05 FF FE"),
            "read F1D0 at 5: 65534 bytes"
        );
        assert_eq!(said("01 01 00 02 F1 D0"), "read metadata of F1D0");
        assert_eq!(
            said("02 00 00 0C F1 D0 00 09 01 02 03 04 05 06 07 08"),
            "write F1D0 at 9: 8 bytes"
        );
        assert_eq!(
            said("02 40 00 05 E0 C0 00 00 03"),
            "erase and write E0C0 (LcsG) at 0: 1 byte"
        );
        assert_eq!(
            said("02 01 00 07 F1 D0 20 03 C0 01 07"),
            "write metadata of F1D0: LcsO 07 operational"
        );
        assert_eq!(said("02 02 00 05 F1 D0 00 00 05"), "count F1D0 by 5");
        assert_eq!(
            said("02 04 00 06 F1 D3 46 41 52 45"),
            "append to F1D3: 4 bytes"
        );
        assert_eq!(
            said("02 05 00 06 F1 D3 00 00 01 02"),
            "acknowledge F1D3 up to fare 258"
        );
        assert_eq!(
            said("70 00 00 10 D2 76 00 00 04 47 65 6E 41 75 74 68 41 70 70 6C"),
            "open the application"
        );
        assert_eq!(said("F1 00 00 00"), "flush, close the application");
    }

    #[test]
    fn what_a_command_does_with_data() {
        let of = |text| action(&hex::bytes(text, 1).unwrap());
        let offset = 0x0102;
        let length = Length(0x0304);
        assert_eq!(
            of("81 00 00 06 F1 D0 01 02 03 04"),
            Some(Action::Read { offset, length })
        );
        assert_eq!(of("02 00 00 05 F1 D0"), Some(Action::Write));
        assert_eq!(of("82 40 00 05 F1 D0"), Some(Action::Write));
        assert_eq!(
            of("02 02 00 05 F1 D0 01 02 05"),
            Some(Action::Count { offset })
        );
        assert_eq!(
            of("82 04 00 04 F1 D3 46 41"),
            Some(Action::Append { body: 2 })
        );
        assert_eq!(
            of("02 05 00 06 F1 D3 FF 00 00 01"),
            Some(Action::Acknowledge {
                number: 0xFF00_0001
            })
        );
        for text in [
            "02 04 00 01 F1",
            "02 05 00 05 F1 D3 00 00 01",
            "02 05 00 07 F1 D3 00 00 00 00 01",
            "01 00 00 05 F1 D0 01 02 03",
            "01 01 00 02 F1 D0",
            "02 01 00 02 F1 D0",
            "01 02 00 00",
            "02 00",
        ] {
            assert_eq!(of(text), None, "{text}");
        }
        assert_eq!(object(&[0x82, 2, 0, 5, 0xF1, 0xD0, 0]), Some(0xF1D0));
        assert_eq!(object(&[0x70, 0, 0, 2, 0xF1, 0xD0]), None);
        assert_eq!(object(&[0x01, 0, 0, 1, 0xF1]), None);
    }

    #[test]
    fn commands_that_fit_no_row() {
        assert_eq!(said(""), "0 bytes of a command, expected at least 4");
        assert_eq!(
            said("55 00 00 00"),
            "unknown Cmd 55, expected 01, 02, 70 or 71"
        );
        assert_eq!(
            said("01 40 00 00"),
            "get with unknown Param 40, expected 00 or 01"
        );
        assert_eq!(
            said("02 03 00 00"),
            "set with unknown Param 03, expected 00, 01, 02, 04, 05 or 40"
        );
        assert_eq!(
            said("71 00 00 01"),
            "close the application (InLen says 1, 0 bytes follow)"
        );
        assert_eq!(
            said("01 00 00 01 F1"),
            "read with 1 byte of InData, expected 6: object, offset, length"
        );
        assert_eq!(
            said("02 00 00 04 F1 D0 00 00"),
            "write with 4 bytes of InData, expected at least 5: object, offset, bytes"
        );
        assert_eq!(
            said("82 02 00 05 E0 C0 00 01 FF"),
            "flush, count E0C0 (LcsG) at 1 by 255"
        );
        assert_eq!(
            said("02 02 00 04 F1 D0 00 00"),
            "count with 4 bytes of InData, expected 5: object, offset, step"
        );
        assert_eq!(
            said("02 02 00 06 F1 D0 00 00 01 01"),
            "count with 6 bytes of InData, expected 5: object, offset, step"
        );
        assert_eq!(
            said("70 00 00 01 D2"),
            "open with 1 byte of InData, expected 16: the identifier"
        );
    }

    #[test]
    fn commands_for_a_queue_that_fit_no_row() {
        let append = "append with 2 bytes of InData, expected 3 to 202: object, a body of 1 to 200";
        assert_eq!(said("02 04 00 02 F1 D3"), append);
        assert_eq!(
            said(&format!("02 04 00 CB F1 D3 {}", "00".repeat(201))),
            append.replace("with 2", "with 203")
        );
        assert_eq!(
            said(&format!("02 04 00 CA F1 D3 {}", "00".repeat(200))),
            "append to F1D3: 200 bytes"
        );
        assert_eq!(
            said("02 05 00 05 F1 D3 00 00 01"),
            "acknowledge with 5 bytes of InData, expected 6: object, number"
        );
    }
}
