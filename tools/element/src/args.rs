//! The arguments.
use std::ffi::OsString;
use std::path::{Path, PathBuf};

use crate::help;
use crate::run::Options;
use crate::trouble::Trouble;

const LARGEST: usize = 65535;

/// What the arguments ask for.
#[derive(Debug, PartialEq, Eq)]
#[allow(missing_docs)]
pub enum Request {
    Text(String),
    New {
        file: PathBuf,
        force: bool,
    },
    Make {
        file: PathBuf,
        description: PathBuf,
        force: bool,
    },
    Check {
        file: PathBuf,
    },
    Show {
        file: PathBuf,
        description: bool,
    },
    Run {
        file: PathBuf,
        list: PathBuf,
        options: Options,
    },
}

/// What a subcommand takes.
struct Form {
    name: &'static str,
    operands: &'static [&'static str],
    options: &'static [&'static str],
    help: &'static str,
}

const FORMS: [Form; 5] = [
    Form {
        name: "new",
        operands: &["FILE"],
        options: &["--force"],
        help: help::NEW,
    },
    Form {
        name: "make",
        operands: &["FILE", "DESCRIPTION"],
        options: &["--force"],
        help: help::MAKE,
    },
    Form {
        name: "check",
        operands: &["FILE"],
        options: &[],
        help: help::CHECK,
    },
    Form {
        name: "show",
        operands: &["FILE"],
        options: &["--description"],
        help: help::SHOW,
    },
    Form {
        name: "run",
        operands: &["FILE", "LIST"],
        options: &["--dry", "--accept-refusals", "--plain", "--room"],
        help: help::RUN,
    },
];

/// The arguments of a subcommand, told apart.
#[derive(Default)]
struct Given {
    operands: Vec<PathBuf>,
    options: Vec<String>,
    room: Option<usize>,
    help: bool,
}

impl Given {
    fn has(&self, option: &str) -> bool {
        self.options.iter().any(|given| given == option)
    }
}

/// What the arguments ask for, or what is wrong with them.
pub fn parse(arguments: &[OsString]) -> Result<Request, Trouble> {
    let Some((first, rest)) = arguments.split_first() else {
        return Err(bad(
            "no subcommand, expected new, make, check, show or run",
            "",
        ));
    };
    let word = first.to_string_lossy();
    match word.as_ref() {
        "--help" | "-h" => return Ok(Request::Text(help::ELEMENT.into())),
        "--version" | "-V" => return Ok(Request::Text(help::version())),
        _ => {}
    }
    let form = FORMS.iter().find(|form| form.name == word).ok_or_else(|| {
        let said = format!("{word:?} is no subcommand, expected new, make, check, show or run");
        bad(&said, "")
    })?;
    let given = told_apart(form, rest)?;
    match given.help {
        true => Ok(Request::Text(form.help.into())),
        false => request(form, given),
    }
}

fn told_apart(form: &Form, arguments: &[OsString]) -> Result<Given, Trouble> {
    let mut given = Given::default();
    let mut rest = arguments.iter();
    let mut options_end = false;
    while let Some(argument) = rest.next() {
        let word = argument.to_string_lossy();
        let is_option = !options_end && word.starts_with('-') && word != "-";
        match word.as_ref() {
            _ if !is_option => given.operands.push(argument.into()),
            "--" => options_end = true,
            "--help" | "-h" => given.help = true,
            "--room" if form.options.contains(&"--room") => {
                given.room = Some(room(rest.next(), form)?);
            }
            option if form.options.contains(&option) => given.options.push(option.into()),
            option => {
                let all = [form.options, &["--help"]].concat();
                let said = format!("unknown option {option:?}, expected {}", either(&all));
                return Err(bad(&said, form.name));
            }
        }
    }
    Ok(given)
}

fn room(value: Option<&OsString>, form: &Form) -> Result<usize, Trouble> {
    let word = value.map(|value| value.to_string_lossy());
    let number = word
        .as_deref()
        .and_then(|word| word.parse::<usize>().ok())
        .filter(|number| *number <= LARGEST);
    number.ok_or_else(|| {
        let said = format!(
            "--room {:?}, expected a number of bytes from 0 to {LARGEST}",
            word.as_deref().unwrap_or("")
        );
        bad(&said, form.name)
    })
}

/// `a`, `a or b`, `a, b or c`.
fn either(words: &[&str]) -> String {
    match words {
        [front @ .., last] if !front.is_empty() => format!("{} or {last}", front.join(", ")),
        _ => words.concat(),
    }
}

fn request(form: &Form, given: Given) -> Result<Request, Trouble> {
    let force = given.has("--force");
    Ok(match (form.name, given.operands.as_slice()) {
        ("new", [file]) => Request::New {
            file: file.clone(),
            force,
        },
        ("make", [file, description]) => Request::Make {
            file: file.clone(),
            description: description.clone(),
            force,
        },
        ("check", [file]) => Request::Check { file: file.clone() },
        ("show", [file]) => Request::Show {
            file: file.clone(),
            description: given.has("--description"),
        },
        ("run", [file, list]) => Request::Run {
            file: file.clone(),
            list: list.clone(),
            options: run_options(&given),
        },
        (_, operands) => return Err(miscounted(form, operands)),
    })
}

fn run_options(given: &Given) -> Options {
    Options {
        dry: given.has("--dry"),
        accept_refusals: given.has("--accept-refusals"),
        plain: given.has("--plain"),
        room: given.room.unwrap_or(Options::default().room),
    }
}

fn miscounted(form: &Form, operands: &[PathBuf]) -> Trouble {
    let expected = form.operands.join(" and ");
    let said = match form.operands.get(operands.len()..) {
        Some([missing, ..]) => format!("{missing} is missing, expected {expected}"),
        _ => {
            let one_more = operands.get(form.operands.len());
            let shown = one_more.map(PathBuf::as_path).unwrap_or(Path::new(""));
            format!("{shown:?} is one too many, expected {expected}")
        }
    };
    bad(&said, form.name)
}

/// What is wrong, and where to read on.
fn bad(said: &str, subcommand: &str) -> Trouble {
    let (front, help) = match subcommand {
        "" => (String::new(), "element --help".into()),
        name => (format!("{name}: "), format!("element {name} --help")),
    };
    Trouble(vec![
        format!("{front}{said}"),
        format!("`{help}` says more"),
    ])
}

#[cfg(test)]
mod tests {
    use super::*;

    fn parsed(text: &str) -> Result<Request, Trouble> {
        let words: Vec<OsString> = text.split_whitespace().map(OsString::from).collect();
        parse(&words)
    }

    fn wrong(text: &str) -> String {
        parsed(text).unwrap_err().0[0].clone()
    }

    #[test]
    fn options_stand_anywhere() {
        let expected = Request::Run {
            file: "a".into(),
            list: "-".into(),
            options: Options {
                dry: true,
                accept_refusals: true,
                plain: false,
                room: 28,
            },
        };
        assert_eq!(
            parsed("run --dry a --room 28 - --accept-refusals"),
            Ok(expected)
        );
        let expected = Request::New {
            file: "--force".into(),
            force: false,
        };
        assert_eq!(parsed("new -- --force"), Ok(expected));
    }

    #[test]
    fn help_is_there_for_each() {
        for form in &FORMS {
            let help = parsed(&format!("{} --help", form.name));
            assert_eq!(help, Ok(Request::Text(form.help.into())));
            for option in form.options {
                assert!(form.help.contains(option), "{} {option}", form.name);
            }
        }
        assert_eq!(parsed("--help"), Ok(Request::Text(help::ELEMENT.into())));
    }

    #[test]
    fn bad_use_is_told() {
        assert_eq!(
            wrong(""),
            "no subcommand, expected new, make, check, show or run"
        );
        assert_eq!(
            wrong("old"),
            "\"old\" is no subcommand, expected new, make, check, show or run"
        );
        assert_eq!(wrong("new"), "new: FILE is missing, expected FILE");
        assert_eq!(
            wrong("run a"),
            "run: LIST is missing, expected FILE and LIST"
        );
        assert_eq!(
            wrong("check a b"),
            "check: \"b\" is one too many, expected FILE"
        );
        assert_eq!(
            wrong("check a --force"),
            "check: unknown option \"--force\", expected --help"
        );
        assert_eq!(
            wrong("new a --dry"),
            "new: unknown option \"--dry\", expected --force or --help"
        );
        assert_eq!(
            wrong("run a b --room"),
            "run: --room \"\", expected a number of bytes from 0 to 65535"
        );
        assert_eq!(
            wrong("run a b --room -1"),
            "run: --room \"-1\", expected a number of bytes from 0 to 65535"
        );
    }
}
