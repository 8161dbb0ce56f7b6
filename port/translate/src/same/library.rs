//! The MIR that a library holds (toolchain/mir.json), as trees of the grammar.

use super::grammar::{node, parts_of, Sort, Tree};
use crate::json::Json;
use crate::read::{DECLARED, FUNCTION, GENERICS, IMPL, MAY_BE_IN_GENERICS};
use std::collections::BTreeSet;

type Read = Result<Tree, String>;

/// What a function's name stands for: the function, or where declared types go with it, the function
/// spelled by their table.
pub fn code(function: &Json) -> Read {
    let [lifetimes, outlives, parameters, generics, types, locals, inner] =
        function.fields(FUNCTION)?;
    let [of, by_types, bounds, _, _, impls] = generics.fields_and(GENERICS, &MAY_BE_IN_GENERICS)?;
    let inner = with_methods(inner, impls.list()?)?;
    let mut parts = inner.list()?.iter();
    let item = vec![
        read("Number", lifetimes)?,
        read("Bounds", &all_bounds(lifetimes, outlives, by_types)?)?,
        read("Kinds", of)?,
        Tree::Number(bounds.list()?.len() as u128),
        read("Number", parameters)?,
        read("Locals", locals)?,
        body(&mut parts)?,
    ];
    if let Some(more) = parts.next() {
        return Err(format!("{} behind the end of the body", more.brief()));
    }
    let item = Tree::Node("fn_item".to_string(), item);
    match types.list()?.is_empty() {
        true => Ok(item),
        false => {
            let parts = vec![read("Table", types)?, item];
            Ok(Tree::Node("spell_fn".to_string(), parts))
        }
    }
}

/// What outlives what: lifetimes, and behind them the types that a function takes, whose numbers go on from its lifetimes' own.
fn all_bounds(lifetimes: &Json, outlives: &Json, by_types: &Json) -> Result<Json, String> {
    let mut all = outlives.list()?.to_vec();
    for found in by_types.list()? {
        let [Json::Number(ty), by] = found.list()? else {
            return Err(format!("{} is no bound of a type", found.brief()));
        };
        let ("Named", [by]) = by.form() else {
            return Err(format!("{} is no bound by a lifetime", found.brief()));
        };
        let number = u128::from(lifetimes.number()?) + ty;
        all.push(Json::List(vec![Json::Number(number), by.clone()]));
    }
    Ok(Json::List(all))
}

/// The function with those types of its table that it has other than behind a reference, and those that these are made of so. The terms spell
/// no others, and where there are none, they have no table.
pub fn spelled(code: Tree) -> Tree {
    let [table, item] = code.parts("spell_fn") else {
        return code;
    };
    let names = held_types(table, item);
    let kept = members(table).filter(|(name, _)| names.contains(name));
    let kept: Vec<&Tree> = kept.map(|(_, declared)| declared).collect();
    if kept.is_empty() {
        return item.clone();
    }
    let nil = Tree::Node("nil".to_string(), Vec::new());
    let table = kept.into_iter().rev().fold(nil, |rest, declared| {
        Tree::Node("cons".to_string(), vec![declared.clone(), rest])
    });
    Tree::Node("spell_fn".to_string(), vec![table, item.clone()])
}

fn held_types<'a>(table: &'a Tree, item: &'a Tree) -> BTreeSet<&'a str> {
    let mut names = BTreeSet::new();
    add_held_types(item, &mut names);
    loop {
        let before = names.len();
        for (name, declared) in members(table) {
            if names.contains(name) {
                add_held_types(declared, &mut names);
            }
        }
        if names.len() == before {
            return names;
        }
    }
}

/// Adds the names of the declared types that stand here other than behind a reference.
fn add_held_types<'a>(tree: &'a Tree, names: &mut BTreeSet<&'a str>) {
    let Tree::Node(form, parts) = tree else {
        return;
    };
    if form == "ty_ref" {
        return;
    }
    if let [head, _] = tree.parts("ty_named") {
        if let [Tree::Text(name), _] = head.parts("pair") {
            names.insert(name);
        }
    }
    parts.iter().for_each(|part| add_held_types(part, names));
}

/// The declared types of a table, with their names.
fn members(mut table: &Tree) -> impl Iterator<Item = (&str, &Tree)> {
    let rows = std::iter::from_fn(move || {
        let [declared, rest] = table.parts("cons") else {
            return None;
        };
        table = rest;
        Some(declared)
    });
    rows.filter_map(|declared| match declared.parts("pair") {
        [Tree::Text(name), ..] => Some((name.as_str(), declared)),
        _ => None,
    })
}

/// The MIR with the methods of each impl that a dictionary is in place of its name, as the terms have it.
fn with_methods(found: &Json, impls: &[Json]) -> Result<Json, String> {
    found.replaced(&|part| {
        let ("Impl", [name @ Json::Text(_), types, dictionaries]) = part.form() else {
            return Ok(None);
        };
        let within = |part: &Json| with_methods(part, impls);
        let parts = vec![methods(name, impls)?, within(types)?, within(dictionaries)?];
        let dictionary = vec![("Impl".to_string(), Json::List(parts))];
        Ok(Some(Json::Object(dictionary)))
    })
}

fn methods(name: &Json, impls: &[Json]) -> Result<Json, String> {
    for found in impls {
        let [own, _, _, _, _, _, _, methods] = found.fields(IMPL)?;
        if own == name {
            return Ok(methods.clone());
        }
    }
    Err(format!("the impl {} is not declared", name.brief()))
}

fn read(sort: Sort, found: &Json) -> Read {
    if let Some((nil, cons)) = list_forms(sort) {
        return list(sort, found.list()?, nil, cons);
    }
    match (sort, found, found.form()) {
        ("Number", Json::Number(number), _) => Ok(Tree::Number(*number)),
        ("Number", _, ("Lit", [length @ Json::Number(_)])) => read(sort, length),
        ("Width", Json::Number(bits), _) => form(sort, &format!("w{bits}"), &[]),
        ("Sym" | "Name", Json::Text(name), _) => Ok(Tree::Text(name.clone())),
        ("Bound", Json::List(both), _) => node(sort, "pair", both, read),
        ("Local", _, _) => form(sort, "local", &found.fields(["ty", "home"])?),
        ("Place", _, _) => form(sort, "place", &found.fields(["local", "steps"])?),
        ("Head", _, _) => form(sort, "pair", &found.fields(["name", "lifetimes"])?),
        ("Decl", _, _) => declared(sort, found),
        ("Opd", _, ("Int", [it])) => form(sort, "int", &it.fields(["width", "value"])?),
        ("Const", _, ("Ints", [it])) => form(sort, "c_ints", &it.fields(["width", "values"])?),
        ("Const", _, ("Int", [it])) => form(sort, "c_int", &it.fields(["width", "value"])?),
        ("Bool", Json::Bool(value), _) => form(sort, &value.to_string(), &[]),
        ("Kind", _, _) => kind(found),
        ("Args", _, _) => form(sort, "pair", &found.fields(["types", "dicts"])?),
        ("Callee", _, ("Fn", [name, arguments])) => called(sort, name, arguments),
        ("Callee", _, ("Method", [dictionary, number, arguments])) => {
            form(sort, "method", &[dictionary, number, arguments])
        }
        ("Ty", _, ("Array", [of, length])) | ("Rv", _, ("Repeat", [of, length])) => {
            let word = if sort == "Ty" { "ty_array" } else { "repeat" };
            match length.form() {
                ("Param", [number]) => form(sort, &format!("{word}_p"), &[of, number]),
                _ => form(sort, word, &[of, length]),
            }
        }
        ("Number" | "Width" | "Sym" | "Name" | "Bound" | "Callee", _, _) | (_, _, ("", _)) => {
            Err(format!("{sort} is expected, not {}", found.brief()))
        }
        (_, _, (word, parts)) => worded(sort, word, found, parts),
    }
}

fn form(sort: Sort, name: &str, parts: &[&Json]) -> Read {
    node(sort, name, parts, |sort, part| read(sort, part))
}

/// A form by its word. Where it has one part that is a list, that list stands behind the word itself.
fn worded(sort: Sort, word: &str, found: &Json, parts: &[Json]) -> Read {
    let name = antt_name(sort, word);
    match (parts_of(sort, &name).as_deref(), found) {
        (Some([only]), Json::Object(keys)) if list_forms(only).is_some() => {
            form(sort, &name, &[&keys[0].1])
        }
        _ => node(sort, &name, parts, read),
    }
}

/// The empty list of a sort, and what puts a member before a list, if the sort is one of lists.
fn list_forms(sort: Sort) -> Option<(&'static str, &'static str)> {
    match sort {
        "Bounds" | "Kinds" | "Locals" | "Table" | "Lifetimes" | "Numbers" | "Names" | "Steps"
        | "Opds" => Some(("nil", "cons")),
        "Dicts" => Some(("dnil", "dcons")),
        "Consts" => Some(("cnil", "ccons")),
        "Tys" => Some(("tnil", "tcons")),
        "Tyss" => Some(("ttnil", "ttcons")),
        _ => None,
    }
}

fn list(sort: Sort, members: &[Json], nil: &str, cons: &str) -> Read {
    let mut tree = Tree::Node(nil.to_string(), Vec::new());
    for member in members.iter().rev() {
        let sorts = parts_of(sort, cons);
        let of = sorts.ok_or_else(|| format!("{sort} has a member: {}", member.brief()))?[0];
        tree = Tree::Node(cons.to_string(), vec![read(of, member)?, tree]);
    }
    Ok(tree)
}

/// Whether a parameter of a function is a type or a number.
fn kind(found: &Json) -> Read {
    let [_, _, bits] = found.fields(["is_copy", "is_kept", "const_bits"])?;
    let word = if *bits == Json::Null {
        "a_type"
    } else {
        "a_number"
    };
    form("Kind", word, &[])
}

/// A declared type: its name, what it takes, and its shape. The rest is not in the terms.
fn declared(sort: Sort, found: &Json) -> Read {
    let [name, _, _, types, numbers, _, _, _, shape, _] = found.fields_and(DECLARED, &["view"])?;
    let mut places = Vec::new();
    for number in numbers.list()? {
        match number.list()? {
            [place, _] => places.push(place.number()?),
            _ => return Err(format!("{} is no number among the types", number.brief())),
        }
    }
    let mut kinds = Tree::Node("nil".to_string(), Vec::new());
    for place in (0..types.number()?).rev() {
        let word = if places.contains(&place) {
            "a_number"
        } else {
            "a_type"
        };
        let kind = form("Kind", word, &[])?;
        kinds = Tree::Node("cons".to_string(), vec![kind, kinds]);
    }
    let parts = vec![read("Sym", name)?, kinds, read("Shape", shape)?];
    match sort {
        "Decl" => Ok(Tree::Node("pair".to_string(), parts)),
        _ => Err(format!("a declared type where {sort} is expected")),
    }
}

/// A function by its name, at what it takes.
fn called(sort: Sort, name: &Json, arguments: &Json) -> Read {
    let [types, dictionaries] = arguments.fields(["types", "dicts"])?;
    match types.list()?.is_empty() && dictionaries.list()?.is_empty() {
        true => form(sort, "fn₀", &[name]),
        false => form(sort, "fn", &[name, arguments]),
    }
}

/// The next statement of a body, whose parts stand in one list, each statement before what stands in it.
fn body(parts: &mut std::slice::Iter<Json>) -> Read {
    let found = parts.next().ok_or("a body has no end")?;
    let (word, own) = found.form();
    let mut trees = Vec::new();
    let inner = match (word, own) {
        ("Seq", []) => 2,
        ("Block" | "Loop", []) => 1,
        ("If", [condition]) => {
            trees.push(read("Opd", condition)?);
            2
        }
        ("Switch", [on, keys, has_default]) => {
            let arms = arms(keys.list()?, has_default.bool()?, parts)?;
            return Ok(Tree::Node(
                "switch".to_string(),
                vec![read("Opd", on)?, arms],
            ));
        }
        _ => return node("Body", &antt_name("Body", word), own, read),
    };
    for _ in 0..inner {
        trees.push(body(parts)?);
    }
    Ok(Tree::Node(antt_name("Body", word), trees))
}

fn arms(keys: &[Json], has_default: bool, parts: &mut std::slice::Iter<Json>) -> Read {
    let mut arms = Vec::new();
    for keys in keys {
        arms.push(vec![read("Numbers", keys)?, body(parts)?]);
    }
    let last = match has_default {
        true => Tree::Node("default".to_string(), vec![body(parts)?]),
        false => Tree::Node("no_default".to_string(), Vec::new()),
    };
    Ok(arms.into_iter().rev().fold(last, |rest, mut arm| {
        arm.push(rest);
        Tree::Node("arm".to_string(), arm)
    }))
}

/// The name in antt: in snake case, and where that is taken there, with a word before it.
fn antt_name(sort: Sort, word: &str) -> String {
    let before = match (sort, word) {
        (_, "If") => return "cond".to_string(),
        ("Lifetime", "Bound") => return "bound_lv".to_string(),
        ("Ty", _) => "ty_",
        ("Const", _) => "c_",
        ("Rv", "Opd") => "rv_",
        ("Opd", "True" | "False" | "Unit") => "opd_",
        ("Op1", "LeadingZeros" | "TrailingZeros") => "count_",
        ("Op1", "Not") | ("Op2", "And" | "Or" | "Xor") => "bit_",
        _ => "",
    };
    let mut name = before.to_string();
    for (at, c) in word.char_indices() {
        if c.is_ascii_uppercase() && at > 0 {
            name.push('_');
        }
        name.push(c.to_ascii_lowercase());
    }
    name
}
