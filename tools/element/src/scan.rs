//! Words of a line with their columns.
use crate::hex;
use crate::trouble::Slip;

/// Steps through a line word by word; `=`, `>` and `<` are words of their own, and a quoted text is one.
pub struct Scan {
    characters: Vec<char>,
    place: usize,
    first: usize,
}

impl Scan {
    /// Begins at the front of the text, whose first character has the column `first`.
    pub fn new(text: &str, first: usize) -> Scan {
        let mut scan = Scan {
            characters: text.chars().collect(),
            place: 0,
            first,
        };
        scan.skip_blanks();
        scan
    }

    /// The column of the next word.
    pub fn column(&self) -> usize {
        self.first + self.place
    }

    /// Whether no word is left.
    pub fn is_end(&self) -> bool {
        self.place >= self.characters.len()
    }

    /// The next word, left in its place; empty at the end.
    pub fn peek(&self) -> String {
        self.rest()
            .get(..self.width())
            .unwrap_or(&[])
            .iter()
            .collect()
    }

    /// Takes the next word; empty at the end.
    pub fn word(&mut self) -> String {
        let word = self.peek();
        self.place += self.width();
        self.skip_blanks();
        word
    }

    /// Takes a word that the reader knows, or says what was expected.
    pub fn one_of<T>(
        &mut self,
        expected: &str,
        read: impl Fn(&str) -> Option<T>,
    ) -> Result<T, Slip> {
        let value = read(&self.peek()).ok_or_else(|| self.slip(expected))?;
        self.word();
        Ok(value)
    }

    /// The end of the line, or what was expected there.
    pub fn end(&self, expected: &str) -> Result<(), Slip> {
        match self.is_end() {
            true => Ok(()),
            false => Err(self.slip(expected)),
        }
    }

    /// Takes a text in double quotes, with the column of its first character.
    pub fn quoted(&mut self) -> Result<(String, usize), Slip> {
        let column = self.column() + 1;
        let mut inside = self.rest().iter().skip(1);
        let Some(width) = inside.position(|character| *character == '"') else {
            return Err(Slip::at(
                self.column(),
                "this quote is not closed, expected another \" on the same line".into(),
            ));
        };
        let text = self.rest().iter().skip(1).take(width).collect();
        self.place += width + 2;
        self.skip_blanks();
        Ok((text, column))
    }

    /// Takes all that is left as hex.
    pub fn hex(&mut self) -> Result<Vec<u8>, Slip> {
        let text: String = self.rest().iter().collect();
        let bytes = hex::bytes(&text, self.column())?;
        self.place = self.characters.len();
        Ok(bytes)
    }

    /// Takes hex up to the next such word, or all that is left.
    pub fn hex_before(&mut self, word: &str) -> Result<Vec<u8>, Slip> {
        let (from, column) = (self.place, self.column());
        while !self.is_end() && !self.peek().eq_ignore_ascii_case(word) {
            self.word();
        }
        let taken = self.characters.get(from..self.place).unwrap_or(&[]);
        hex::bytes(&taken.iter().collect::<String>(), column)
    }

    /// What stands here is not what was expected.
    pub fn slip(&self, expected: &str) -> Slip {
        let why = match self.is_end() {
            true => format!("nothing stands here, expected {expected}"),
            false => format!("{} stands here, expected {expected}", shown(&self.peek())),
        };
        Slip::at(self.column(), why)
    }

    fn rest(&self) -> &[char] {
        self.characters.get(self.place..).unwrap_or(&[])
    }

    fn width(&self) -> usize {
        match self.rest() {
            [] => 0,
            ['=' | '>' | '<' | '"', ..] => 1,
            rest => rest
                .iter()
                .position(|character| {
                    hex::is_blank(*character) || matches!(character, '=' | '>' | '<' | '"')
                })
                .unwrap_or(rest.len()),
        }
    }

    fn skip_blanks(&mut self) {
        while self.rest().first().is_some_and(|next| hex::is_blank(*next)) {
            self.place += 1;
        }
    }
}

/// A word in quotes, cut where it is long, with control characters escaped.
fn shown(word: &str) -> String {
    let mut shown: String = word.chars().take(24).flat_map(char::escape_debug).collect();
    if word.chars().nth(24).is_some() {
        shown.push_str("..");
    }
    format!("'{shown}'")
}

/// The lines of a text with their numbers: CRLF ends a line too, a note from `#` on is cut off and given beside it.
pub fn lines(text: &str) -> impl Iterator<Item = (usize, &str, &str)> {
    let text = text.strip_prefix('\u{FEFF}').unwrap_or(text);
    text.lines().enumerate().map(|(index, line)| {
        let line = line.strip_suffix('\r').unwrap_or(line);
        let (front, note) = line.split_once('#').unwrap_or((line, ""));
        (index + 1, front, note.trim())
    })
}

#[cfg(test)]
mod tests {
    use super::*;

    #[test]
    fn words_and_columns() {
        let mut scan = Scan::new("  LcsO<07 \"a b\" x", 1);
        assert_eq!((scan.column(), scan.word().as_str()), (3, "LcsO"));
        assert_eq!((scan.column(), scan.word().as_str()), (7, "<"));
        assert_eq!((scan.column(), scan.word().as_str()), (8, "07"));
        assert_eq!(scan.quoted(), Ok(("a b".into(), 12)));
        assert!(!scan.is_end());
        assert_eq!(scan.word(), "x");
        assert!(scan.is_end());
        assert_eq!(scan.word(), "");
    }

    #[test]
    fn hex_ends_before_a_word() {
        let mut scan = Scan::new(" 0102 03 Fare 04\tfare", 1);
        assert_eq!(scan.hex_before("fare"), Ok(vec![1, 2, 3]));
        assert_eq!((scan.column(), scan.word().as_str()), (10, "Fare"));
        assert_eq!(scan.hex_before("fare"), Ok(vec![4]));
        assert_eq!(scan.word(), "fare");
        assert_eq!(scan.hex_before("fare"), Ok(vec![]));
        let told = |text| Scan::new(text, 1).hex_before("fare").unwrap_err().column;
        assert_eq!(told("01 2 fare"), 4);
        assert_eq!(told("0102fare 03"), 7);
        assert_eq!(told("01 \"02\""), 4);
    }

    #[test]
    fn an_open_quote_is_told() {
        assert_eq!(Scan::new(" \"abc", 1).quoted().unwrap_err().column, 2);
        assert!(Scan::new("", 1).quoted().is_err());
    }

    #[test]
    fn lines_end_in_every_way() {
        let text = "\u{FEFF}01 # a\r\n\r\n02#b#c\n03\r";
        let all: Vec<_> = lines(text).collect();
        assert_eq!(
            all,
            [
                (1, "01 ", "a"),
                (2, "", ""),
                (3, "02", "b#c"),
                (4, "03", "")
            ]
        );
    }

    #[test]
    fn a_long_word_is_cut() {
        assert_eq!(shown(&"x".repeat(30)), format!("'{}..'", "x".repeat(24)));
    }
}
