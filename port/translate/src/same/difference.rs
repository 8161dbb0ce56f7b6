//! The first place where two trees differ.

use super::grammar::Tree;

/// The way to the first difference of the library's tree from another, which is so called, and what stands there in each; nothing if they are equal.
pub fn difference<'a>(mut held: &'a Tree, called: &str, mut other: &'a Tree) -> Option<String> {
    if held == other {
        return None;
    }
    let mut steps = Vec::new();
    while let Some((form, at, one, another)) = unequal_part(held, other) {
        steps.push((form, at));
        (held, other) = (one, another);
    }
    let (way, ours, theirs) = (way(&steps), held.brief(), other.brief());
    Some(format!(
        "differs at {way}: in the library {ours}, in the {called} {theirs}"
    ))
}

type Unequal<'a> = (&'a str, usize, &'a Tree, &'a Tree);

/// In two nodes of one form: the form, the place of the first unequal part, and that part in each.
fn unequal_part<'a>(one: &'a Tree, other: &'a Tree) -> Option<Unequal<'a>> {
    let Tree::Node(form, parts) = one else {
        return None;
    };
    let mut pairs = parts.iter().zip(other.parts(form)).enumerate();
    pairs.find_map(|(at, (one, other))| (one != other).then_some((form.as_str(), at, one, other)))
}

const FN_PARTS: [&str; 7] = [
    "lifetimes",
    "outlives",
    "ty_params",
    "givens",
    "params",
    "locals",
    "body",
];

/// The steps in words: `[3]` is the third member of a list or the third statement, and `op2.1` the
/// first part of `op2`.
fn way(steps: &[(&str, usize)]) -> String {
    let mut words = Vec::new();
    let mut number = 1;
    for &(form, at) in steps {
        let in_list = ["cons", "tcons", "ttcons", "seq"].contains(&form);
        if in_list && at == 1 {
            number += 1;
            continue;
        }
        if in_list || number > 1 {
            words.push(format!("[{number}]"));
            number = 1;
        }
        match (form, at) {
            _ if in_list => {}
            ("spell_fn", 0) => words.push("table".to_string()),
            ("spell_fn", _) => words.push("function".to_string()),
            ("fn_item", _) => words.push(FN_PARTS[at].to_string()),
            _ => words.push(format!("{form}.{}", at + 1)),
        }
    }
    if number > 1 {
        words.push(format!("[{number}]"));
    }
    if words.is_empty() {
        words.push("the top".to_string());
    }
    words.join(" ")
}
