//! Metadata in words: a tag, its length and its value, one after another.
use crate::expression;
use crate::hex;
use crate::names;

/// Metadata with 20 and L in front, in words; what cannot be taken apart is shown as hex.
pub fn in_words(bytes: &[u8]) -> String {
    match bytes {
        [0x20, length, content @ ..] if usize::from(*length) == content.len() => fields(content),
        [0x20, length, content @ ..] => format!(
            "{} (L says {length}, {} follow)",
            fields(content),
            names::count(content.len(), "byte")
        ),
        _ => format!("{} (expected 20 and L in front)", hex::spaced(bytes)),
    }
}

fn fields(content: &[u8]) -> String {
    let mut words = Vec::new();
    let mut rest = content;
    while let [tag, length, behind @ ..] = rest {
        let Some((value, after)) = behind.split_at_checked(usize::from(*length)) else {
            break;
        };
        words.push(field(*tag, value));
        rest = after;
    }
    if !rest.is_empty() {
        words.push(format!("{} (no whole field)", hex::spaced(rest)));
    }
    match words.is_empty() {
        true => "no field".into(),
        false => words.join(", "),
    }
}

fn field(tag: u8, value: &[u8]) -> String {
    match (tag, value) {
        (0xC0, [state]) => format!("LcsO {}", names::state_shown(*state)),
        (0xC4, [high, low]) => format!("maximum {}", u16::from_be_bytes([*high, *low])),
        (0xC5, [high, low]) => format!("used {}", u16::from_be_bytes([*high, *low])),
        (0xD0, _) => expression_in_words("change", value),
        (0xD1, _) => expression_in_words("read", value),
        (0xD3, _) => expression_in_words("execute", value),
        _ => format!("tag {tag:02X} with {}", shown(value)),
    }
}

fn expression_in_words(name: &str, value: &[u8]) -> String {
    match expression::to_text(value) {
        Ok(text) => format!("{name}: {text}"),
        Err(why) => format!("{name}: {} ({why})", shown(value)),
    }
}

fn shown(value: &[u8]) -> String {
    match value.is_empty() {
        true => "no bytes".into(),
        false => hex::spaced(value),
    }
}

#[cfg(test)]
mod tests {
    use super::*;

    #[test]
    fn the_sheets_metadata_in_words() {
        let bytes = hex::bytes(
            "20 16 C0 01 01 C4 02 00 8C C5 02 00 00 D0 03 E1 FC 07 D1 01 00 D3 01 00",
            1,
        );
        assert_eq!(
            in_words(&bytes.unwrap()),
            "LcsO 01 creation, maximum 140, used 0, change: LcsO < operational, read: always, execute: always"
        );
    }

    #[test]
    fn what_is_no_metadata_is_shown() {
        assert_eq!(in_words(&[]), " (expected 20 and L in front)");
        assert_eq!(in_words(&[0x20, 0]), "no field");
        assert_eq!(in_words(&[0x20, 3, 0xC0, 1, 4]), "LcsO 04 (no state)");
        assert_eq!(
            in_words(&[0x20, 9, 0xC0, 2]),
            "C0 02 (no whole field) (L says 9, 2 bytes follow)"
        );
        assert_eq!(in_words(&[0x20, 2, 0xC1, 0]), "tag C1 with no bytes");
    }
}
