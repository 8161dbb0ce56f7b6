//! Bytes as hex and as text, and hex read back.
use crate::trouble::Slip;

/// `01 02 0A`.
pub fn spaced(bytes: &[u8]) -> String {
    let digits: Vec<String> = bytes.iter().map(|byte| format!("{byte:02X}")).collect();
    digits.join(" ")
}

/// `01020A`.
pub fn joined(bytes: &[u8]) -> String {
    bytes.iter().map(|byte| format!("{byte:02X}")).collect()
}

/// The printable characters of ASCII, a point for every other byte.
pub fn text(bytes: &[u8]) -> String {
    let shown = |byte: &u8| match byte {
        0x20..=0x7E => char::from(*byte),
        _ => '.',
    };
    bytes.iter().map(shown).collect()
}

/// Rows of 16 bytes: the place of the first, hex, text. Each begins with the indent.
pub fn rows(bytes: &[u8], indent: &str) -> String {
    let row = |(index, row): (usize, &[u8])| {
        let place = index * 16;
        format!("{indent}{place:>4}  {:<47}  {}\n", spaced(row), text(row))
    };
    bytes.chunks(16).enumerate().map(row).collect()
}

/// Lines of 24 bytes; the first begins with one text, the others with blanks of the same width.
pub fn wrapped(bytes: &[u8], first: &str) -> String {
    if bytes.is_empty() {
        return format!("{first}(no bytes)\n");
    }
    let blank = " ".repeat(first.chars().count());
    let line = |(index, part): (usize, &[u8])| {
        let front = if index == 0 { first } else { &blank };
        format!("{front}{}\n", spaced(part))
    };
    bytes.chunks(24).enumerate().map(line).collect()
}

/// A number of four hex digits.
pub fn number(word: &str) -> Option<u16> {
    let digits = word.len() == 4 && word.chars().all(|c| c.is_ascii_hexdigit());
    digits.then(|| u16::from_str_radix(word, 16).ok()).flatten()
}

/// The bytes of hex digits in pairs, upper or lower case, with blanks between bytes. `first` is the column of the first character.
pub fn bytes(text: &str, first: usize) -> Result<Vec<u8>, Slip> {
    let mut bytes = Vec::new();
    let mut half: Option<(u8, usize)> = None;
    for (index, character) in text.chars().enumerate() {
        let column = first + index;
        half = match (digit(character), half) {
            (Some(low), Some((high, _))) => {
                bytes.push(high << 4 | low);
                None
            }
            (Some(high), None) => Some((high, column)),
            (None, Some((_, lone))) if is_blank(character) => return Err(half_a_byte(lone)),
            (None, None) if is_blank(character) => None,
            (None, _) => return Err(no_digit(character, column)),
        };
    }
    match half {
        Some((_, lone)) => Err(half_a_byte(lone)),
        None => Ok(bytes),
    }
}

/// What may stand between two bytes or two words.
pub fn is_blank(character: char) -> bool {
    matches!(character, ' ' | '\t')
}

fn digit(character: char) -> Option<u8> {
    character
        .to_digit(16)
        .and_then(|value| u8::try_from(value).ok())
}

fn half_a_byte(column: usize) -> Slip {
    Slip::at(
        column,
        "half a byte: one hex digit stands alone, expected two to a byte".into(),
    )
}

fn no_digit(character: char, column: usize) -> Slip {
    Slip::at(
        column,
        format!("{character:?} is no hex digit, expected 0 to 9 or A to F"),
    )
}

#[cfg(test)]
mod tests {
    use super::*;

    #[test]
    fn pairs_are_read_in_both_cases() {
        assert_eq!(bytes("f1D0 00\t0a ", 1), Ok(vec![0xF1, 0xD0, 0x00, 0x0A]));
        assert_eq!(bytes("", 1), Ok(vec![]));
    }

    #[test]
    fn a_lone_digit_is_told_by_its_column() {
        assert_eq!(bytes("70 0 00", 1).unwrap_err().column, 4);
        assert_eq!(bytes("70 001", 1).unwrap_err().column, 6);
        assert_eq!(bytes("7", 9).unwrap_err().column, 9);
    }

    #[test]
    fn another_character_is_told_by_its_column() {
        let slip = bytes("70 0é", 1).unwrap_err();
        assert_eq!(slip.column, 5);
        assert_eq!(slip.why, "'é' is no hex digit, expected 0 to 9 or A to F");
        assert_eq!(bytes("70\u{0}", 1).unwrap_err().column, 3);
    }

    #[test]
    fn bytes_are_shown() {
        assert_eq!(spaced(&[1, 0xAB]), "01 AB");
        assert_eq!(joined(&[1, 0xAB]), "01AB");
        assert_eq!(text(b"FARE\x00\x7F\xFF~"), "FARE...~");
        assert_eq!(rows(&[0x41; 17], "").lines().count(), 2);
        assert_eq!(wrapped(&[0; 25], "> ").lines().nth(1), Some("  00"));
        assert_eq!(wrapped(&[], "> "), "> (no bytes)\n");
    }

    #[test]
    fn what_is_shown_is_read_back() {
        let all: Vec<u8> = (0..=255).collect();
        assert_eq!(bytes(&spaced(&all), 1), Ok(all.clone()));
        assert_eq!(bytes(&joined(&all), 1), Ok(all));
    }
}
