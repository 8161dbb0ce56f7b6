//! The MIR in the terms that are checked, from the folder to which `rt check --generated` writes them.

use super::antt::{Module, Term};
use super::grammar::{node, number, Sort, Tree};
use super::modules::Modules;
use std::path::Path;

/// What a function's name stands for in the program that its proof is about: that program is
/// `Wired.node MEMBERS .. CALLED` in its Code.antt, the members a list of names with their code.
pub fn code(terms: &Path, modules: &Modules, function: &str) -> Result<Tree, String> {
    let (owner, name) = function.split_once("::").ok_or("its name has no crate")?;
    let name = name.replace("::", ".");
    let scope = Scope::open(
        terms,
        modules,
        &format!("Rattle.{owner}.proofs.{name}.Code"),
    )?;
    let members = scope.members()?;
    let alone = match members.parts("cons") {
        [member, rest] if rest.parts("cons").is_empty() => member.parts("pair"),
        _ => &[],
    };
    match alone {
        [Tree::Text(name), code] if name == function => Ok(without_empty_table(code)),
        _ => Err(format!(
            "the program must be it alone, and is {}",
            members.brief()
        )),
    }
}

fn without_empty_table(code: &Tree) -> Tree {
    match code.parts("spell_fn") {
        [table, item] if table.parts("cons").is_empty() => item.clone(),
        _ => code.clone(),
    }
}

/// The module that says what the names in a term are.
struct Scope<'a> {
    terms: &'a Path,
    /// Where the kit's functions are found, of which the folder has no terms.
    modules: &'a Modules,
    module: Module,
}

impl Scope<'_> {
    /// The module at a path as `Rattle.CRATE.proofs.a.b`, which is a/b.antt in the folder Rattle-CRATE-proofs.
    fn open<'a>(terms: &'a Path, modules: &'a Modules, path: &str) -> Result<Scope<'a>, String> {
        let mut steps = path.split('.');
        let library: Vec<&str> = steps.by_ref().take(3).collect();
        let within: Vec<&str> = steps.collect();
        let file = terms
            .join(library.join("-"))
            .join(within.join("/") + ".antt");
        let shown = file.display();
        let source = std::fs::read_to_string(&file);
        let source = source.map_err(|wrong| format!("the file {shown} is expected: {wrong}"))?;
        let module = Module::new(&source).map_err(|wrong| format!("the file {shown}: {wrong}"))?;
        Ok(Scope {
            terms,
            modules,
            module,
        })
    }

    /// The functions of the program that `code` is, without those that it only calls.
    fn members(&self) -> Result<Tree, String> {
        let code = self.module.definition("code");
        let code = code.ok_or("the module defines no `code`")??;
        match (self.module.used(&code.head), code.parts.as_slice()) {
            (Some(("prog.Wired", "node")), [members, _, _]) => self.read("Members", members),
            _ => Err(format!("`code` is {}, not `Wired.node`", code.head)),
        }
    }

    fn read(&self, sort: Sort, term: &Term) -> Result<Tree, String> {
        let read = |sort: Sort, part: &Term| self.read(sort, part);
        match (sort, term.head.as_str(), &term.parts[..]) {
            ("Number", digits, []) => number(digits),
            ("Name", text, []) if text.starts_with('"') => Ok(Tree::Text(text.replace('"', ""))),
            ("Sym", _, _) => symbol(&read("Numbers", term)?),
            (_, ",", parts) => node(sort, "pair", parts, read),
            (_, RECORD, parts) => node(sort, "fn_item", parts, read),
            (_, name, parts) => self.value(sort, name, parts),
        }
    }

    /// Whether a module is one of a crate that the folder has no terms of.
    fn is_of_kit(&self, path: &str) -> bool {
        let library: Vec<&str> = path.split('.').take(3).collect();
        path.starts_with("Rattle.") && !self.terms.join(library.join("-")).exists()
    }

    /// The function that a name with arguments calls: the name is `Syntax.fn SYMBOL`.
    fn called(&self, name: &str) -> Result<Tree, String> {
        if let Some(term) = self.module.definition(name) {
            let term = term?;
            return match (self.module.used(&term.head), &term.parts[..]) {
                (Some(("mir.Syntax", "fn")), [symbol]) => self.read("Name", symbol),
                _ => Err(format!("`{name}` is {}, not `Syntax.fn`", term.head)),
            };
        }
        match self.module.used(name) {
            Some((path, _)) if self.is_of_kit(path) => self.kit_name(path),
            Some((path, member)) if path.starts_with("Rattle.") => {
                Scope::open(self.terms, self.modules, path)?.called(member)
            }
            _ => Err(format!("`{name}` is not known as a function")),
        }
    }

    /// The name of a function of the kit, by the module of its symbol as others see it.
    fn kit_name(&self, path: &str) -> Result<Tree, String> {
        let name = self.modules.symbol(&path.replacen('.', "-", 1))?;
        Ok(Tree::Text(name))
    }

    /// A name with its parts: a definition of a crate is unfolded, a name of the logic is a form.
    fn value(&self, sort: Sort, name: &str, parts: &[Term]) -> Result<Tree, String> {
        if let (Some(term), []) = (self.module.definition(name), parts) {
            return self.read(sort, &term?);
        }
        let form = match (self.module.used(name), parts) {
            (Some((path, _)), []) if sort == "Callee" && self.is_of_kit(path) => {
                return Ok(Tree::Node("fn₀".to_string(), vec![self.kit_name(path)?]));
            }
            (Some((path, member)), []) if path.starts_with("Rattle.") => {
                return Scope::open(self.terms, self.modules, path)?.value(sort, member, &[]);
            }
            (Some((path, _)), [arguments]) if path.starts_with("Rattle.") && sort == "Callee" => {
                let parts = vec![self.called(name)?, self.read("Args", arguments)?];
                return Ok(Tree::Node("fn".to_string(), parts));
            }
            (Some(("mir.Syntax" | "mir.Table", form)), _) => form,
            (Some(("mathlib.Core.List", "[]")), _) => "nil",
            (Some(("mathlib.Core.List", "◌∷◌")), _) => "cons",
            (Some(("mir.MapTy", "spell_fn")), _) => "spell_fn",
            (Some(("mathlib.Core.Bool", word @ ("true" | "false"))), []) => word,
            _ => return Err(format!("`{name}` is not known where {sort} is expected")),
        };
        constant(node(sort, form, parts, |sort, part| self.read(sort, part))?)
    }
}

const RECORD: &str = "record lifetimes outlives ty_params givens params locals body";

/// A type's name, from the list of its bytes.
fn symbol(mut list: &Tree) -> Result<Tree, String> {
    let mut bytes = Vec::new();
    while let [Tree::Number(byte), rest] = list.parts("cons") {
        bytes.push(u8::try_from(*byte).map_err(|_| format!("{byte} is no byte of a name"))?);
        list = rest;
    }
    let text = String::from_utf8(bytes).map_err(|wrong| format!("a type's name: {wrong}"))?;
    Ok(Tree::Text(text))
}

/// The other two ways to write a constant: `int_big w n` is `int w n`, and `int_neg w k` is 2 ^ w - k.
fn constant(tree: Tree) -> Result<Tree, String> {
    let (width, value) = match (tree.parts("int_big"), tree.parts("int_neg")) {
        ([width, Tree::Number(value)], _) => (width, Some(*value)),
        (_, [width, Tree::Number(less)]) => (width, below(width, *less)),
        _ => return Ok(tree),
    };
    let value = value.ok_or_else(|| format!("{tree} is no constant"))?;
    Ok(Tree::Node(
        "int".to_string(),
        vec![width.clone(), Tree::Number(value)],
    ))
}

/// 2 ^ w - k, if k is neither 0 nor more than that power.
fn below(width: &Tree, less: u128) -> Option<u128> {
    let Tree::Node(name, _) = width else {
        return None;
    };
    let bits: u32 = name.strip_prefix('w')?.parse().ok()?;
    let most = u128::MAX.checked_shr(128u32.checked_sub(bits)?)?;
    most.checked_sub(less.checked_sub(1)?)
}
