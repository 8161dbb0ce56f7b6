//! What a subcommand gives back: a report for standard output with a status, or trouble for standard error.

/// How the tool ends.
#[derive(Clone, Copy, Debug, PartialEq, Eq)]
pub enum Status {
    /// What was asked for is done.
    Done,
    /// A store is malformed, two things differ, or a command was refused.
    Differs,
    /// Bad use, or a file that cannot be read, understood or written.
    Bad,
}

impl Status {
    /// The exit status.
    pub fn number(self) -> u8 {
        match self {
            Status::Done => 0,
            Status::Differs => 1,
            Status::Bad => 2,
        }
    }
}

/// What is printed, and how the tool ends.
#[derive(Debug, PartialEq, Eq)]
pub struct Report {
    /// The text for standard output.
    pub text: String,
    /// How the tool ends.
    pub status: Status,
}

impl Report {
    /// A report of what is done.
    pub fn done(text: String) -> Report {
        Report {
            text,
            status: Status::Done,
        }
    }
}

/// Why nothing is done: each line says what is wrong and what was expected.
#[derive(Debug, PartialEq, Eq)]
pub struct Trouble(pub Vec<String>);

impl Trouble {
    /// Trouble of one line.
    pub fn one(line: String) -> Trouble {
        Trouble(vec![line])
    }

    /// The slips of a text file, the first ten of them.
    pub fn slips(file: &str, slips: &[Slip]) -> Trouble {
        let mut lines: Vec<String> = slips.iter().take(10).map(|slip| slip.of(file)).collect();
        if let Some(more) = slips.len().checked_sub(10).filter(|more| *more > 0) {
            lines.push(format!("{file}: and {more} more lines with errors"));
        }
        Trouble(lines)
    }
}

/// A place in a text where something else was expected; line and column count from 1, a column is a character.
#[derive(Clone, Debug, PartialEq, Eq)]
pub struct Slip {
    /// The line.
    pub line: usize,
    /// The column.
    pub column: usize,
    /// What stands there, and what was expected.
    pub why: String,
}

impl Slip {
    /// A slip in a line whose number is not known yet.
    pub fn at(column: usize, why: String) -> Slip {
        Slip {
            line: 0,
            column,
            why,
        }
    }

    /// The same slip with its line.
    pub fn on(self, line: usize) -> Slip {
        Slip { line, ..self }
    }

    fn of(&self, file: &str) -> String {
        format!(
            "{file}, line {}, column {}: {}",
            self.line, self.column, self.why
        )
    }
}

#[cfg(test)]
mod tests {
    use super::*;

    #[test]
    fn ten_slips_are_told_and_the_rest_counted() {
        let slips: Vec<Slip> = (1..=12)
            .map(|line| Slip::at(3, "x".into()).on(line))
            .collect();
        let Trouble(lines) = Trouble::slips("f", &slips);
        assert_eq!(lines.len(), 11);
        assert_eq!(lines[0], "f, line 1, column 3: x");
        assert_eq!(lines[10], "f: and 2 more lines with errors");
        assert_eq!(Trouble::slips("f", &slips[..10]).0.len(), 10);
    }
}
