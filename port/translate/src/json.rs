//! JSON as a library's mir.json has it: natural numbers, and texts without escapes.

use crate::Answer;
use std::fmt;

#[derive(Clone, Debug, PartialEq)]
pub enum Json {
    Null,
    Bool(bool),
    Number(u128),
    Text(String),
    List(Vec<Json>),
    Object(Vec<(String, Json)>),
}

pub fn parse(text: &str) -> Answer<Json> {
    let mut reader = Reader { rest: text };
    let value = reader.value()?;
    match reader.peek() {
        None => Ok(value),
        Some(c) => Err(format!("{c} behind the end of the JSON")),
    }
}

struct Reader<'a> {
    rest: &'a str,
}

impl Reader<'_> {
    /// The next sign, without the white space before it.
    fn peek(&mut self) -> Option<char> {
        self.rest = self.rest.trim_start();
        self.rest.chars().next()
    }

    /// Takes the next sign if it is this one.
    fn takes(&mut self, sign: char) -> bool {
        let found = self.peek() == Some(sign);
        if found {
            self.rest = &self.rest[sign.len_utf8()..];
        }
        found
    }

    fn expect(&mut self, sign: char) -> Answer<()> {
        match self.takes(sign) {
            true => Ok(()),
            false => Err(format!("JSON: `{sign}` is expected, not {}", self.shown())),
        }
    }

    /// What stands next, for messages.
    fn shown(&mut self) -> String {
        match self.peek() {
            None => "the end".to_string(),
            Some(_) => format!("`{}`", self.rest.chars().take(20).collect::<String>()),
        }
    }

    fn value(&mut self) -> Answer<Json> {
        match self.peek() {
            Some('[') => self.list(),
            Some('{') => self.object(),
            Some('"') => Ok(Json::Text(self.text()?)),
            _ => self.word(),
        }
    }

    fn list(&mut self) -> Answer<Json> {
        let mut parts = Vec::new();
        self.expect('[')?;
        if !self.takes(']') {
            loop {
                parts.push(self.value()?);
                if !self.takes(',') {
                    break;
                }
            }
            self.expect(']')?;
        }
        Ok(Json::List(parts))
    }

    fn object(&mut self) -> Answer<Json> {
        let mut parts: Vec<(String, Json)> = Vec::new();
        self.expect('{')?;
        if !self.takes('}') {
            loop {
                let key = self.text()?;
                self.expect(':')?;
                if parts.iter().any(|(before, _)| *before == key) {
                    return Err(format!("JSON: the key {key} stands twice"));
                }
                parts.push((key, self.value()?));
                if !self.takes(',') {
                    break;
                }
            }
            self.expect('}')?;
        }
        Ok(Json::Object(parts))
    }

    fn text(&mut self) -> Answer<String> {
        self.expect('"')?;
        let end = self.rest.find('"').ok_or("JSON: a text has no end")?;
        let text = self.rest[..end].to_string();
        self.rest = &self.rest[end + 1..];
        match text.contains('\\') {
            true => Err(format!("JSON: an escape in the text {text}")),
            false => Ok(text),
        }
    }

    /// `null`, `true`, `false` or a natural number.
    fn word(&mut self) -> Answer<Json> {
        let ends = |c: char| !c.is_ascii_alphanumeric() && !"+-.".contains(c);
        let shown = self.shown();
        let end = self.rest.find(ends).unwrap_or(self.rest.len());
        let (word, rest) = self.rest.split_at(end);
        self.rest = rest;
        match word {
            "null" => Ok(Json::Null),
            "true" => Ok(Json::Bool(true)),
            "false" => Ok(Json::Bool(false)),
            _ if word.starts_with('+') => Err(format!("JSON: no value: {shown}")),
            _ => match word.parse() {
                Ok(number) => Ok(Json::Number(number)),
                Err(_) => Err(format!("JSON: no value: {shown}")),
            },
        }
    }
}

impl Json {
    /// A form of MIR: a text alone, or an object of one key. What stands behind the key are the parts, if a list its members.
    pub fn form(&self) -> (&str, &[Json]) {
        match self {
            Json::Text(word) => (word, &[]),
            Json::Object(parts) => match parts.as_slice() {
                [(word, Json::List(parts))] => (word, parts),
                [(word, part)] => (word, std::slice::from_ref(part)),
                _ => ("", &[]),
            },
            _ => ("", &[]),
        }
    }

    /// The values of an object that has these keys and no other.
    pub fn fields<const N: usize>(&self, keys: [&str; N]) -> Answer<[&Json; N]> {
        self.fields_and(keys, &[])
    }

    /// The same of an object that may have some others too.
    pub fn fields_and<const N: usize>(
        &self,
        keys: [&str; N],
        others: &[&str],
    ) -> Answer<[&Json; N]> {
        let unlike = || {
            format!(
                "expected the keys {}, not {}",
                keys.join(", "),
                self.brief()
            )
        };
        let Json::Object(parts) = self else {
            return Err(unlike());
        };
        let mut values = [self; N];
        for (value, key) in values.iter_mut().zip(keys) {
            let found = parts.iter().find(|(name, _)| name == key);
            *value = &found.ok_or_else(unlike)?.1;
        }
        let is_known = |name: &str| keys.contains(&name) || others.contains(&name);
        match parts.iter().all(|(name, _)| is_known(name)) {
            true => Ok(values),
            false => Err(unlike()),
        }
    }

    /// The value of an object's key, if it has that key.
    pub fn field(&self, key: &str) -> Option<&Json> {
        match self {
            Json::Object(parts) => parts
                .iter()
                .find(|(name, _)| name == key)
                .map(|part| &part.1),
            _ => None,
        }
    }

    /// The JSON with other parts where there are such, found from the outside in.
    pub fn replaced(&self, other: &impl Fn(&Json) -> Answer<Option<Json>>) -> Answer<Json> {
        if let Some(other) = other(self)? {
            return Ok(other);
        }
        Ok(match self {
            Json::List(parts) => {
                let parts = parts.iter().map(|part| part.replaced(other));
                Json::List(parts.collect::<Answer<_>>()?)
            }
            Json::Object(parts) => {
                let parts = parts.iter();
                let parts = parts.map(|(key, part)| Ok((key.clone(), part.replaced(other)?)));
                Json::Object(parts.collect::<Answer<_>>()?)
            }
            plain => plain.clone(),
        })
    }

    pub fn list(&self) -> Answer<&[Json]> {
        match self {
            Json::List(parts) => Ok(parts),
            other => Err(format!("expected a list, not {}", other.brief())),
        }
    }

    pub fn text(&self) -> Answer<&str> {
        match self {
            Json::Text(text) => Ok(text),
            other => Err(format!("expected a text, not {}", other.brief())),
        }
    }

    pub fn number(&self) -> Answer<u64> {
        let number = match self {
            Json::Number(number) => u64::try_from(*number).ok(),
            _ => None,
        };
        number.ok_or_else(|| format!("expected a number of 64 bits, not {}", self.brief()))
    }

    pub fn bool(&self) -> Answer<bool> {
        match self {
            Json::Bool(value) => Ok(*value),
            other => Err(format!("expected true or false, not {}", other.brief())),
        }
    }

    /// The start of the JSON, for messages.
    pub fn brief(&self) -> String {
        const MOST: usize = 120;
        let whole = self.to_string();
        match whole.char_indices().nth(MOST) {
            None => whole,
            Some((end, _)) => format!("{} ..", &whole[..end]),
        }
    }
}

impl fmt::Display for Json {
    fn fmt(&self, out: &mut fmt::Formatter) -> fmt::Result {
        let comma = |at: usize| if at == 0 { "" } else { "," };
        match self {
            Json::Null => write!(out, "null"),
            Json::Bool(value) => write!(out, "{value}"),
            Json::Number(number) => write!(out, "{number}"),
            Json::Text(text) => write!(out, "\"{text}\""),
            Json::List(parts) => {
                write!(out, "[")?;
                for (at, part) in parts.iter().enumerate() {
                    write!(out, "{}{part}", comma(at))?;
                }
                write!(out, "]")
            }
            Json::Object(parts) => {
                write!(out, "{{")?;
                for (at, (key, part)) in parts.iter().enumerate() {
                    write!(out, "{}\"{key}\":{part}", comma(at))?;
                }
                write!(out, "}}")
            }
        }
    }
}
