//! Lists of commands in readable hex, one to a line.
use crate::hex;
use crate::scan;
use crate::trouble::Slip;

/// A command of a list.
#[derive(Debug, PartialEq, Eq)]
pub struct Entry {
    /// The line where it stands.
    pub line: usize,
    /// What stands behind `#`.
    pub note: String,
    /// Its bytes.
    pub bytes: Vec<u8>,
}

/// The commands of a text, or the first slip of each line that has one. The word `empty` is the command of no bytes.
pub fn parse(text: &str) -> Result<Vec<Entry>, Vec<Slip>> {
    let mut entries = Vec::new();
    let mut slips = Vec::new();
    for (line, front, note) in scan::lines(text) {
        let word = front.trim_matches(hex::is_blank);
        if word.is_empty() {
            continue;
        }
        let bytes = match word.eq_ignore_ascii_case("empty") {
            true => Ok(Vec::new()),
            false => hex::bytes(front, 1),
        };
        match bytes {
            Ok(bytes) => entries.push(Entry {
                line,
                note: printable(note),
                bytes,
            }),
            Err(slip) => slips.push(slip.on(line)),
        }
    }
    match slips.is_empty() {
        true => Ok(entries),
        false => Err(slips),
    }
}

/// A note reaches a terminal: control characters become blanks.
fn printable(note: &str) -> String {
    let shown = |character: char| match character.is_control() {
        true => ' ',
        false => character,
    };
    note.chars().map(shown).collect()
}

#[cfg(test)]
mod tests {
    use super::*;

    #[test]
    fn every_way_to_write_a_list() {
        let text =
            "# heading\r\n\r\n71 00 00 00 # close\r\n71000000#close\n  7100 0000\nempty # none\nf1";
        let entries = parse(text).unwrap();
        let told: Vec<_> = entries
            .iter()
            .map(|entry| (entry.line, entry.note.as_str(), entry.bytes.len()))
            .collect();
        assert_eq!(
            told,
            [
                (3, "close", 4),
                (4, "close", 4),
                (5, "", 4),
                (6, "none", 0),
                (7, "", 1)
            ]
        );
        assert_eq!(entries[4].bytes, [0xF1]);
    }

    #[test]
    fn slips_have_line_and_column() {
        let slips = parse("71 00 00 0\n71 0x\n71\n7 1 # lone").unwrap_err();
        let places: Vec<_> = slips.iter().map(|slip| (slip.line, slip.column)).collect();
        assert_eq!(places, [(1, 10), (2, 5), (4, 1)]);
    }

    #[test]
    fn a_carriage_return_inside_a_line_is_told() {
        let slips = parse("71 00\r00 00").unwrap_err();
        assert_eq!((slips[0].line, slips[0].column), (1, 6));
    }

    #[test]
    fn notes_hold_no_control_characters() {
        assert_eq!(parse("71 # a\u{1B}[2Jb").unwrap()[0].note, "a [2Jb");
    }
}
