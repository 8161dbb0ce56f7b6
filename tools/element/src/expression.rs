//! Access expressions: their bytes, and their readable form such as `LcsG = operational or LcsO < operational and counter E120`.
use element::expression::{ALWAYS, AND, COUNTER, NEVER, OR};

use crate::hex;
use crate::names;
use crate::scan::Scan;
use crate::trouble::Slip;

/// The most conditions of an expression.
pub const CONDITIONS: usize = 7;
/// The most groups joined by or.
pub const GROUPS: usize = 3;

/// The word before the number of a counter.
const COUNTER_WORD: &str = "counter";

const SUBJECTS: [(u8, &str); 3] = [(0x70, "LcsG"), (0xE0, "LcsA"), (0xE1, "LcsO")];
const COMPARISONS: [(u8, &str); 3] = [(0xFA, "="), (0xFB, ">"), (0xFC, "<")];

fn name_of(table: &[(u8, &'static str)], byte: u8) -> Option<&'static str> {
    let (_, name) = table.iter().find(|(number, _)| *number == byte)?;
    Some(name)
}

fn byte_of(table: &[(u8, &str)], name: &str) -> Option<u8> {
    let (byte, _) = table
        .iter()
        .find(|(_, word)| word.eq_ignore_ascii_case(name))?;
    Some(*byte)
}

/// The readable form, or why the bytes are no well-formed expression.
pub fn to_text(bytes: &[u8]) -> Result<String, String> {
    match bytes {
        [ALWAYS] => return Ok("always".into()),
        [NEVER] => return Ok("never".into()),
        _ => {}
    }
    if bytes.len() % 4 != 3 {
        return Err(format!(
            "{}, expected 00, FF or 4k - 1 bytes for k conditions",
            names::count(bytes.len(), "byte")
        ));
    }
    let mut words = Vec::new();
    for (index, part) in bytes.chunks(4).enumerate() {
        words.push(condition(part, index * 4)?);
        if let Some(joint) = part.get(3) {
            words.push(joint_name(*joint, index * 4 + 3)?.into());
        }
    }
    within_limits(bytes)?;
    Ok(words.join(" "))
}

/// The counters that the conditions of a well-formed expression name, each once, from the left.
pub fn counters(bytes: &[u8]) -> Vec<u16> {
    let mut named = Vec::new();
    for part in bytes.chunks(4) {
        if let [COUNTER, high, low, ..] = part {
            let number = u16::from_be_bytes([*high, *low]);
            if !named.contains(&number) {
                named.push(number);
            }
        }
    }
    named
}

fn condition(part: &[u8], at: usize) -> Result<String, String> {
    let [subject, comparison, state, ..] = part else {
        return Err(format!("a condition of 3 bytes is expected at byte {at}"));
    };
    if *subject == COUNTER {
        return Ok(format!("{COUNTER_WORD} {comparison:02X}{state:02X}"));
    }
    let wrong = |place: usize, byte: u8, expected: &str| {
        format!("{byte:02X} at byte {}, expected {expected}", at + place)
    };
    let subject = name_of(&SUBJECTS, *subject).ok_or_else(|| {
        wrong(
            0,
            *subject,
            "40 (counter), 70 (LcsG), E0 (LcsA) or E1 (LcsO)",
        )
    })?;
    let comparison = name_of(&COMPARISONS, *comparison)
        .ok_or_else(|| wrong(1, *comparison, "FA (=), FB (>) or FC (<)"))?;
    let state =
        names::state(*state).ok_or_else(|| wrong(2, *state, "a state: 01, 03, 07 or 0F"))?;
    Ok(format!("{subject} {comparison} {state}"))
}

fn joint_name(byte: u8, at: usize) -> Result<&'static str, String> {
    match byte {
        AND => Ok("and"),
        OR => Ok("or"),
        _ => Err(format!(
            "{byte:02X} at byte {at}, expected FD (and) or FE (or)"
        )),
    }
}

fn within_limits(bytes: &[u8]) -> Result<(), String> {
    let conditions = bytes.len().div_ceil(4);
    let groups = 1 + bytes
        .chunks(4)
        .filter(|part| part.get(3) == Some(&OR))
        .count();
    if conditions > CONDITIONS {
        return Err(format!(
            "{conditions} conditions, expected at most {CONDITIONS}"
        ));
    }
    if groups > GROUPS {
        return Err(format!(
            "{groups} groups joined by or, expected at most {GROUPS}"
        ));
    }
    Ok(())
}

/// The bytes of a readable form. `first` is the column of the first character.
pub fn from_text(text: &str, first: usize) -> Result<Vec<u8>, Slip> {
    let mut scan = Scan::new(text, first);
    if let Some(byte) = alone(&scan.peek()) {
        scan.word();
        scan.end("nothing more: always and never stand alone")?;
        return Ok(vec![byte]);
    }
    let mut bytes = Vec::new();
    read_condition(&mut scan, &mut bytes)?;
    while !scan.is_end() {
        let column = scan.column();
        bytes.push(read_joint(&mut scan)?);
        read_condition(&mut scan, &mut bytes)?;
        within_limits(&bytes).map_err(|why| Slip::at(column, why))?;
    }
    Ok(bytes)
}

fn alone(word: &str) -> Option<u8> {
    byte_of(&[(ALWAYS, "always"), (NEVER, "never")], word)
}

fn read_condition(scan: &mut Scan, bytes: &mut Vec<u8>) -> Result<(), Slip> {
    let subject = if bytes.is_empty() {
        "always, never, LcsG, LcsA, LcsO or counter"
    } else {
        "LcsG, LcsA, LcsO or counter"
    };
    let first = scan.one_of(subject, |word| {
        byte_of(&SUBJECTS, word).or_else(|| byte_of(&[(COUNTER, COUNTER_WORD)], word))
    })?;
    bytes.push(first);
    if first == COUNTER {
        let number = scan.one_of("the number of a counter, four hex digits", hex::number)?;
        bytes.extend(number.to_be_bytes());
        return Ok(());
    }
    bytes.push(scan.one_of("=, > or <", |word| byte_of(&COMPARISONS, word))?);
    bytes.push(scan.one_of(names::STATES_EXPECTED, names::state_of)?);
    Ok(())
}

fn read_joint(scan: &mut Scan) -> Result<u8, Slip> {
    scan.one_of("and, or, or the end of the expression", |word| {
        byte_of(&[(AND, "and"), (OR, "or")], word)
    })
}

#[cfg(test)]
mod tests {
    use super::*;

    const P11: [u8; 11] = [
        0x70, 0xFA, 0x07, 0xFE, 0xE1, 0xFC, 0x07, 0xFD, 0xE0, 0xFB, 0x03,
    ];

    #[test]
    fn the_sheets_expression_goes_both_ways() {
        let text = "LcsG = operational or LcsO < operational and LcsA > initialisation";
        assert_eq!(to_text(&P11).as_deref(), Ok(text));
        assert_eq!(from_text(text, 1), Ok(P11.to_vec()));
        assert_eq!(
            from_text("lcsg=07 OR LCSO<Operational  and\tlcsa>03", 1),
            Ok(P11.to_vec())
        );
    }

    #[test]
    fn always_and_never_stand_alone() {
        assert_eq!(from_text("always", 1), Ok(vec![0x00]));
        assert_eq!(from_text(" never ", 1), Ok(vec![0xFF]));
        assert_eq!(to_text(&[0x00]).as_deref(), Ok("always"));
        assert_eq!(to_text(&[0xFF]).as_deref(), Ok("never"));
        assert_eq!(from_text("always or never", 5).unwrap_err().column, 12);
        assert_eq!(from_text("LcsO < 07 or never", 1).unwrap_err().column, 14);
    }

    #[test]
    fn limits_are_kept() {
        let seven = ["LcsO < 07"; 7].join(" and ");
        let bytes = from_text(&seven, 1).unwrap();
        assert_eq!(bytes.len(), 27);
        assert!(to_text(&bytes).is_ok());
        assert!(from_text(&format!("{seven} and LcsO < 07"), 1).is_err());
        assert!(from_text(&["LcsO < 07"; 3].join(" or "), 1).is_ok());
        assert!(from_text(&["LcsO < 07"; 4].join(" or "), 1).is_err());
        let four = [0xE1, 0xFC, 0x07, 0xFE].repeat(4);
        assert!(to_text(&four[..15]).unwrap_err().contains("4 groups"));
    }

    #[test]
    fn malformed_bytes_are_explained() {
        assert_eq!(
            to_text(&[0xE1, 0xFC, 0x04]).unwrap_err(),
            "04 at byte 2, expected a state: 01, 03, 07 or 0F"
        );
        assert!(to_text(&[]).unwrap_err().starts_with("0 bytes"));
        assert!(to_text(&[0x05]).unwrap_err().starts_with("1 byte,"));
        assert!(to_text(&[0x00, 0xFA, 0x07]).is_err());
        let mut bytes = P11;
        bytes[7] = 0xFC;
        assert_eq!(
            to_text(&bytes).unwrap_err(),
            "FC at byte 7, expected FD (and) or FE (or)"
        );
    }

    #[test]
    fn a_slip_has_its_column() {
        let slip = from_text("LcsO < ready", 10).unwrap_err();
        assert_eq!(slip.column, 17);
        let expected = names::STATES_EXPECTED;
        assert_eq!(
            slip.why,
            format!("'ready' stands here, expected {expected}")
        );
        assert_eq!(
            from_text("", 10).unwrap_err().why,
            "nothing stands here, expected always, never, LcsG, LcsA, LcsO or counter"
        );
    }

    #[test]
    fn a_condition_on_a_counter_goes_both_ways() {
        let text = "counter E120 and LcsO = operational or counter 00FE";
        let bytes = [
            0x40, 0xE1, 0x20, 0xFD, 0xE1, 0xFA, 0x07, 0xFE, 0x40, 0x00, 0xFE,
        ];
        assert_eq!(to_text(&bytes).as_deref(), Ok(text));
        assert_eq!(from_text(text, 1), Ok(bytes.to_vec()));
        assert_eq!(
            from_text("COUNTER e120", 1),
            Ok(vec![0x40, 0xE1, 0x20]),
            "case does not matter"
        );
    }

    #[test]
    fn a_counters_number_may_have_any_bytes() {
        for high in 0..=0xFF {
            for low in 0..=0xFF {
                let bytes = [0x40, high, low, 0xFE, 0x40, low, high];
                let text = format!("counter {high:02X}{low:02X} or counter {low:02X}{high:02X}");
                assert_eq!(to_text(&bytes).as_deref(), Ok(text.as_str()));
                assert_eq!(from_text(&text, 1), Ok(bytes.to_vec()));
            }
        }
        let joints = [0xFE, 0xFE, 0xFD].map(|low| [0x40, 0xFE, low, 0xFE]);
        assert!(to_text(&joints.concat()[..11]).is_ok());
    }

    #[test]
    fn a_slip_in_a_condition_on_a_counter_is_told() {
        let expected = "expected the number of a counter, four hex digits";
        for (text, column, found) in [
            ("counter", 17, "nothing"),
            ("counter E12", 18, "'E12'"),
            ("counter E1200", 18, "'E1200'"),
            ("counter E12G", 18, "'E12G'"),
            ("counter < 3", 18, "'<'"),
        ] {
            let slip = from_text(text, 10).unwrap_err();
            assert_eq!(
                (slip.column, slip.why),
                (column, format!("{found} stands here, {expected}"))
            );
        }
        assert_eq!(
            from_text("counter E120 < 3", 1).unwrap_err().why,
            "'<' stands here, expected and, or, or the end of the expression"
        );
        assert_eq!(
            to_text(&[0x41, 0xE1, 0x20]).unwrap_err(),
            "41 at byte 0, expected 40 (counter), 70 (LcsG), E0 (LcsA) or E1 (LcsO)"
        );
        assert!(to_text(&[0x40, 0xE1]).unwrap_err().starts_with("2 bytes,"));
    }

    #[test]
    fn the_counters_of_an_expression_are_named_once() {
        let of = |text| counters(&from_text(text, 1).unwrap());
        assert_eq!(of("always"), []);
        assert_eq!(of("LcsO < operational"), []);
        assert_eq!(
            of("counter E121 and LcsO < 07 and counter E120 or counter E121 or counter 4040"),
            [0xE121, 0xE120, 0x4040]
        );
    }
}
