//! The constants are those of include/element.h and include/dock.h.
use element::dock::{Fault, Kind, WriteError};
use element::{command, dock, expression, kind, FareNumber, Length, ObjectNumber, Refusal};

fn text_of(name: &str) -> String {
    let path = format!("{}/../../include/{name}", env!("CARGO_MANIFEST_DIR"));
    std::fs::read_to_string(&path).expect(&path)
}

fn text() -> String {
    text_of("element.h")
}

/// Each `ELEMENT_NAME = NUMBER` of the header.
fn header() -> Vec<(String, usize)> {
    text().lines().flat_map(constants).collect()
}

fn constants(line: &str) -> Vec<(String, usize)> {
    let plain = line.split("/*").next().unwrap_or("");
    let parts = plain.split([',', '{', '}', ';']);
    parts.filter_map(constant).collect()
}

fn constant(text: &str) -> Option<(String, usize)> {
    let (name, number) = text.split_once('=')?;
    let name = name.trim();
    let name = name
        .strip_prefix("ELEMENT_")
        .or_else(|| name.starts_with("DOCK_").then_some(name))?;
    let number = number.trim();
    let value = match number.strip_prefix("0x") {
        Some(hex) => usize::from_str_radix(hex, 16),
        None => number.parse(),
    };
    Some((name.to_string(), value.ok()?))
}

fn refusals() -> Vec<(&'static str, usize)> {
    [
        ("INVALID_OBJECT", Refusal::InvalidObject),
        ("INVALID_PARAM", Refusal::InvalidParam),
        ("INVALID_LENGTH", Refusal::InvalidLength),
        ("INVALID_DATA", Refusal::InvalidData),
        ("INTERNAL_ERROR", Refusal::InternalError),
        ("ACCESS_DENIED", Refusal::AccessDenied),
        ("BOUNDARY_EXCEEDED", Refusal::BoundaryExceeded),
        ("INVALID_COMMAND", Refusal::InvalidCommand),
        ("NOT_AVAILABLE", Refusal::NotAvailable),
        ("INSUFFICIENT_BUFFER", Refusal::InsufficientBuffer),
    ]
    .map(|(name, refusal)| (name, refusal.number().into()))
    .to_vec()
}

fn codes() -> Vec<(&'static str, usize)> {
    [
        ("STATUS_DONE", command::DONE),
        ("STATUS_REFUSED", command::REFUSED),
        ("CREATION", element::CREATION),
        ("INITIALISATION", element::INITIALISATION),
        ("OPERATIONAL", element::OPERATIONAL),
        ("TERMINATION", element::TERMINATION),
        ("GET", command::GET),
        ("SET", command::SET),
        ("OPEN", command::OPEN),
        ("CLOSE", command::CLOSE),
        ("FLUSH", command::FLUSH),
        ("DATA", command::DATA),
        ("METADATA", command::METADATA),
        ("COUNT", command::COUNT),
        ("APPEND", command::APPEND),
        ("ACKNOWLEDGE", command::ACKNOWLEDGE),
        ("ERASE_AND_WRITE", command::ERASE_AND_WRITE),
        ("ALWAYS", expression::ALWAYS),
        ("NEVER", expression::NEVER),
        ("CONDITION_LCSG", expression::LCSG),
        ("CONDITION_LCSA", expression::LCSA),
        ("CONDITION_LCSO", expression::LCSO),
        ("CONDITION_COUNTER", expression::COUNTER),
        ("EQUAL", expression::EQUAL),
        ("GREATER", expression::GREATER),
        ("LESS", expression::LESS),
        ("AND", expression::AND),
        ("OR", expression::OR),
    ]
    .map(|(name, code)| (name, code.into()))
    .to_vec()
}

fn sizes() -> Vec<(&'static str, usize)> {
    vec![
        ("LCSG", ObjectNumber::LCSG.0.into()),
        ("LCSA", ObjectNumber::LCSA.0.into()),
        ("LAST_ERROR", ObjectNumber::LAST_ERROR.0.into()),
        ("WHOLE", Length::ALL.0.into()),
        ("KIND_DATA", kind::DATA.into()),
        ("KIND_COUNTER_UP", kind::COUNTER_UP.into()),
        ("KIND_QUEUE", kind::QUEUE.into()),
        ("KIND_COUNTER_DOWN", kind::COUNTER_DOWN.into()),
        ("COUNTER_SIZE", element::COUNTER_SIZE),
        ("QUEUE_HEAD", element::QUEUE_HEAD),
        ("FARE_HEAD", element::FARE_HEAD),
        ("FARE_KIND", element::FARE_KIND.into()),
        ("LARGEST_BODY", element::LARGEST_BODY),
        ("IDENTIFIER_SIZE", command::IDENTIFIER.len()),
        ("FACTORY_STORE_SIZE", element::FACTORY_STORE_SIZE),
        ("LARGEST_STORE", element::LARGEST_STORE),
        ("LARGEST_OBJECT", element::LARGEST_OBJECT),
        ("LARGEST_COMMAND", element::LARGEST_COMMAND),
        ("HEADER", element::HEADER),
        ("LEAST_ROOM", element::LEAST_ROOM),
        ("LARGEST_ROOM", element::LARGEST_ROOM),
    ]
}

#[test]
fn constants_are_those_of_the_header() {
    let header = header();
    for (name, value) in [refusals(), codes(), sizes()].concat() {
        let pair = (name.to_string(), value);
        assert!(
            header.contains(&pair),
            "{name} is {value} here: expected {:?}",
            header.iter().find(|(other, _)| other == name)
        );
    }
}

/// All constants of dock.h, in its order.
#[test]
fn constants_of_the_dock_are_those_of_its_header() {
    let long = WriteError::BodyTooLong { size: 0 };
    let small = WriteError::RoomTooSmall { size: 0, needed: 0 };
    let due = [
        ("DOCK_COMMAND", Kind::Command.number().into()),
        ("DOCK_RESPONSE", Kind::Response.number().into()),
        ("DOCK_RUNNING", 0),
        ("DOCK_BAD_LENGTH", Fault::BadLength.number().into()),
        ("DOCK_UNKNOWN_KIND", Fault::UnknownKind.number().into()),
        ("DOCK_BAD_CHECK", Fault::BadCheck.number().into()),
        ("DOCK_WRITTEN", 0),
        ("DOCK_BODY_TOO_LONG", long.number().into()),
        ("DOCK_ROOM_TOO_SMALL", small.number().into()),
        ("DOCK_HEAD", dock::HEAD),
        ("DOCK_AROUND", dock::AROUND),
        ("DOCK_LONGEST_FRAME", dock::LONGEST_FRAME),
        ("DOCK_LONGEST_BODY", dock::LONGEST_BODY),
    ];
    let due = due.map(|(name, number)| (name.to_string(), number));
    let found: Vec<_> = text_of("dock.h").lines().flat_map(constants).collect();
    assert_eq!(found, due);
}

#[test]
fn the_version_begins_with_that_of_the_header() {
    let major = env!("CARGO_PKG_VERSION_MAJOR");
    let minor = env!("CARGO_PKG_VERSION_MINOR");
    for (name, number) in [("MAJOR", major), ("MINOR", minor)] {
        let line = format!("#define ELEMENT_VERSION_{name} {number}");
        assert!(text().lines().any(|other| other == line), "{line}");
    }
}

#[test]
fn the_number_that_no_fare_has_is_that_of_the_header() {
    let line = format!("#define ELEMENT_NO_NUMBER 0x{:08X}U", FareNumber::NONE.0);
    assert!(text().lines().any(|other| other == line), "{line}");
}

#[test]
fn metadata_tags_and_expression_bytes_are_those_of_the_rules() {
    use element::{expression as e, tag};
    let tags = [tag::METADATA, tag::LCSO, tag::MAXIMUM, tag::USED];
    assert_eq!(tags, [0x20, 0xC0, 0xC4, 0xC5]);
    assert_eq!([tag::CHANGE, tag::READ, tag::EXECUTE], [0xD0, 0xD1, 0xD3]);
    assert_eq!([e::ALWAYS, e::NEVER], [0x00, 0xFF]);
    assert_eq!(
        [e::COUNTER, e::LCSG, e::LCSA, e::LCSO],
        [0x40, 0x70, 0xE0, 0xE1]
    );
    assert_eq!([e::EQUAL, e::GREATER, e::LESS], [0xFA, 0xFB, 0xFC]);
    assert_eq!([e::AND, e::OR, e::LARGEST as u8], [0xFD, 0xFE, 27]);
}
