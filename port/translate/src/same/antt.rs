//! A module of antt as `rt check --generated` writes it: what it uses, and its definitions as terms.

use std::collections::HashMap;
use std::iter::Peekable;

/// A word with what it is applied to. A pair has the head `,`, and a record the head `record` with
/// the names of its fields behind it.
#[derive(Debug)]
pub struct Term {
    pub head: String,
    pub parts: Vec<Term>,
}

#[derive(Default)]
pub struct Module {
    /// The modules and the single definitions that it uses: name here, and path.
    uses: HashMap<String, String>,
    /// Name and text.
    definitions: HashMap<String, String>,
}

impl Module {
    /// Empty lines stand between the parts. What a part defines is taken if it begins with `abbrev pub`
    /// or `unfoldable pub`; no other definition is known here, and to name one is an error.
    pub fn new(source: &str) -> Result<Module, String> {
        let mut module = Module::default();
        for part in source.split("\n\n") {
            let defined = ["abbrev pub ", "unfoldable pub "].map(|word| part.strip_prefix(word));
            if let [Some(definition), _] | [_, Some(definition)] = defined {
                module.add_definition(definition)?;
                continue;
            }
            for line in part.lines() {
                let used = line
                    .strip_prefix("pub ")
                    .unwrap_or(line)
                    .strip_prefix("use ");
                used.map_or(Ok(()), |used| module.add_use(used))?;
            }
        }
        Ok(module)
    }

    /// `NAME : TYPE`, and on a line of its own `NAME = TERM`.
    fn add_definition(&mut self, part: &str) -> Result<(), String> {
        let (name, rest) = part.split_once(" :").ok_or("a definition has no type")?;
        let equation = rest.split_once(&format!("\n{name} ="));
        let (_, text) = equation.ok_or_else(|| format!("`{name} =` is expected"))?;
        match self.definitions.insert(name.to_string(), text.to_string()) {
            Some(_) => Err(format!("{name} is defined twice")),
            None => Ok(()),
        }
    }

    /// `PATH`, `PATH as NAME` or `PATH.{NAME, ..}`.
    fn add_use(&mut self, used: &str) -> Result<(), String> {
        let mut add = |name: &str, path: String| match self.uses.insert(name.to_string(), path) {
            Some(_) => Err(format!("the name {name} is given twice by `use`")),
            None => Ok(()),
        };
        if let Some((path, names)) = used.split_once(".{") {
            let mut names = names.trim_end_matches('}').split(", ");
            return names.try_for_each(|name| add(name, format!("{path}.{name}")));
        }
        let last = used.rsplit('.').next().unwrap_or(used);
        let (path, name) = used.split_once(" as ").unwrap_or((used, last));
        add(name, path.to_string())
    }

    /// The term that a name of this module is defined as.
    pub fn definition(&self, name: &str) -> Option<Result<Term, String>> {
        let text = self.definitions.get(name)?;
        Some(whole(text).map_err(|wrong| format!("the definition of {name}: {wrong}")))
    }

    /// Where a name that is not defined here stands: the path of that module, and the name there.
    pub fn used<'a>(&'a self, name: &'a str) -> Option<(&'a str, &'a str)> {
        if let Some(path) = self.uses.get(name) {
            return path.rsplit_once('.');
        }
        let (module, member) = name.split_once('.')?;
        Some((self.uses.get(module)?, member))
    }
}

const SIGNS: [char; 6] = ['(', ')', '{', '}', ',', ';'];

type Tokens<'a> = Peekable<std::vec::IntoIter<&'a str>>;

fn ends_word(c: char) -> bool {
    c.is_whitespace() || SIGNS.contains(&c)
}

/// The whole text as one term.
fn whole(text: &str) -> Result<Term, String> {
    let mut tokens = Vec::new();
    let mut rest = text.trim_start();
    while let Some(first) = rest.chars().next() {
        let end = match first {
            '"' => rest[1..].find('"').ok_or("a text has no end")? + 2,
            _ if SIGNS.contains(&first) => 1,
            _ => rest.find(ends_word).unwrap_or(rest.len()),
        };
        tokens.push(&rest[..end]);
        rest = rest[end..].trim_start();
    }
    let mut tokens = tokens.into_iter().peekable();
    let term = application(&mut tokens)?;
    match tokens.next() {
        None => Ok(term),
        Some(token) => Err(format!("`{token}` is not expected")),
    }
}

fn application(tokens: &mut Tokens) -> Result<Term, String> {
    let mut term = atom(tokens)?;
    let closing = [")", "}", ",", ";"];
    while tokens.peek().is_some_and(|token| !closing.contains(token)) {
        term.parts.push(atom(tokens)?);
    }
    Ok(term)
}

/// A word, `( TERM, .. )` or `record { NAME = TERM; .. }`. A separator may stand behind the last.
fn atom(tokens: &mut Tokens) -> Result<Term, String> {
    let (mut head, separator, close) = match tokens.next() {
        Some("(") => (",".to_string(), ",", ")"),
        Some("record") => ("record".to_string(), ";", "}"),
        Some(word) if word != "=" && !word.starts_with(SIGNS) => {
            let (head, parts) = (word.to_string(), Vec::new());
            return Ok(Term { head, parts });
        }
        other => return Err(format!("a term is expected, not {other:?}")),
    };
    let record = head == "record";
    if record {
        expect(tokens, "{")?;
    }
    let mut parts = Vec::new();
    while tokens.peek() != Some(&close) {
        if record {
            head = head + " " + tokens.next().unwrap_or_default();
            expect(tokens, "=")?;
        }
        parts.push(application(tokens)?);
        if tokens.peek() != Some(&close) {
            expect(tokens, separator)?;
        }
    }
    expect(tokens, close)?;
    match parts.len() {
        1 if !record => Ok(parts.remove(0)),
        _ => Ok(Term { head, parts }),
    }
}

fn expect(tokens: &mut Tokens, expected: &str) -> Result<(), String> {
    match tokens.next() {
        Some(token) if token == expected => Ok(()),
        other => Err(format!("`{expected}` is expected, not {other:?}")),
    }
}
