//! What a C header declares, as far as the library's headers go: structs, arrays by name, and functions that are not defined there.

use crate::Answer;
use std::collections::BTreeMap;

/// A field or a parameter: its type in C, with one space between words, and its name.
#[derive(Clone, Debug, PartialEq)]
pub struct Declared {
    pub ty: String,
    pub name: String,
}

#[derive(Debug, PartialEq)]
pub struct Prototype {
    pub result: String,
    pub parameters: Vec<Declared>,
}

#[derive(Debug, Default)]
pub struct Header {
    pub structs: BTreeMap<String, Vec<Declared>>,
    /// The type of the elements of each array type.
    pub arrays: BTreeMap<String, String>,
    pub functions: BTreeMap<String, Prototype>,
}

/// Reads the header's text. A declaration of another form is an error.
pub fn read(text: &str) -> Answer<Header> {
    let mut header = Header::default();
    for declaration in declarations(&tokens(text)?)? {
        let words: Vec<&str> = declaration.iter().map(String::as_str).collect();
        match words.as_slice() {
            ["enum", ..] => {}
            ["typedef", "struct", tag, "{", fields @ .., "}", name] if tag == name => {
                let fields = declared_parts(fields, ";")?;
                header.structs.insert(name.to_string(), fields);
            }
            ["typedef", of, name, "[", _, "]"] => {
                header.arrays.insert(name.to_string(), of.to_string());
            }
            words => {
                let (name, prototype) = prototype(words)?;
                header.functions.insert(name.to_string(), prototype);
            }
        }
    }
    Ok(header)
}

/// `RESULT NAME ( PARAMETERS )`.
fn prototype<'a>(words: &[&'a str]) -> Answer<(&'a str, Prototype)> {
    let unknown = || {
        let shown = words.join(" ");
        format!("a declaration of a form that is not known: {shown}")
    };
    let mut halves = words.splitn(2, |word| *word == "(");
    let (Some([result @ .., name]), Some([parameters @ .., ")"])) = (halves.next(), halves.next())
    else {
        return Err(unknown());
    };
    let parameters = match parameters {
        ["void"] => Vec::new(),
        _ => declared_parts(parameters, ",")?,
    };
    let result = result.join(" ");
    Ok((name, Prototype { result, parameters }))
}

/// The parts between separators, each a type and a name.
fn declared_parts(words: &[&str], separator: &str) -> Answer<Vec<Declared>> {
    let parts = words
        .split(|word| *word == separator)
        .filter(|part| !part.is_empty());
    parts
        .map(|part| match part.split_last() {
            Some((name, ty)) if !ty.is_empty() => Ok(Declared {
                ty: ty.join(" "),
                name: name.to_string(),
            }),
            _ => Err(format!("no type and name: {}", part.join(" "))),
        })
        .collect()
}

/// Words, numbers, texts and signs, without comments and lines of the preprocessor.
fn tokens(text: &str) -> Answer<Vec<String>> {
    let mut plain = String::new();
    let mut rest = text;
    while let Some(start) = rest.find("/*") {
        let end = rest[start..].find("*/").ok_or("a comment has no end")?;
        plain += &rest[..start];
        plain.push(' ');
        rest = &rest[start + end + 2..];
    }
    plain += rest;
    let mut tokens: Vec<String> = Vec::new();
    for line in plain
        .lines()
        .filter(|line| !line.trim_start().starts_with('#'))
    {
        let mut in_word = false;
        for c in line.chars() {
            let is_word = c.is_alphanumeric() || c == '_';
            match tokens.last_mut() {
                Some(word) if is_word && in_word => word.push(c),
                _ if c.is_whitespace() => {}
                _ => tokens.push(c.to_string()),
            }
            in_word = is_word;
        }
    }
    Ok(tokens)
}

/// Each declaration without its semicolon. Bodies of inline functions, and the braces of `extern "C"`, are left out.
fn declarations(tokens: &[String]) -> Answer<Vec<Vec<String>>> {
    let mut all = Vec::new();
    let mut now: Vec<String> = Vec::new();
    let mut depth = 0;
    for token in tokens {
        match token.as_str() {
            ";" if depth == 0 => all.push(std::mem::take(&mut now)),
            "{" if depth == 0 && now.first().is_some_and(|word| word == "extern") => now.clear(),
            "}" if depth == 0 && now.is_empty() => {}
            "}" if depth == 0 => return Err("a brace too many".to_string()),
            "}" if depth == 1 && now.first().is_some_and(|word| word == "static") => {
                now.clear();
                depth = 0;
            }
            other => {
                depth += (other == "{") as usize;
                depth -= (other == "}") as usize;
                now.push(other.to_string());
            }
        }
    }
    match now.is_empty() {
        true => Ok(all),
        false => Err(format!("a declaration has no end: {}", now.join(" "))),
    }
}
