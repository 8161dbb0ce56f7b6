//! The MIR that libraries hold (toolchain/mir.json): those of the repository as texts, and those of the kit from its folder, each read when a
//! function of it is first asked for.

use crate::json::{self, Json};
use crate::Answer;
use std::cell::RefCell;
use std::collections::BTreeMap;
use std::path::PathBuf;
use std::rc::Rc;

/// Where a function stands: in which library of the kit, none for the repository's own, and at what place among all of those.
pub type Position = (bool, String, usize);

type Functions = BTreeMap<String, (Position, Rc<Json>)>;

pub struct Libraries {
    functions: RefCell<Functions>,
    /// The libraries of the kit that are read, and those that are not there.
    asked: RefCell<Vec<String>>,
    kit: Option<PathBuf>,
}

impl Libraries {
    /// Each text is a library's mir.json: a list of names with their functions. The folder holds the kit's libraries.
    pub fn new(texts: &[String], kit: Option<PathBuf>) -> Answer<Libraries> {
        let mut functions = Functions::new();
        for text in texts {
            read(text, None, &mut functions)?;
        }
        Ok(Libraries {
            functions: RefCell::new(functions),
            asked: RefCell::new(Vec::new()),
            kit,
        })
    }

    /// A function by its name, and where it stands.
    pub fn function(&self, name: &str) -> Answer<(Position, Rc<Json>)> {
        if !self.functions.borrow().contains_key(name) {
            self.read_kit(name)?;
        }
        let found = self.functions.borrow().get(name).cloned();
        found.ok_or_else(|| format!("the MIR has no function {name}"))
    }

    /// Reads the library of the kit that the function's name begins with, if the kit has one and it is not read yet.
    fn read_kit(&self, name: &str) -> Answer<()> {
        let (Some(kit), Some((library, _))) = (&self.kit, name.split_once("::")) else {
            return Ok(());
        };
        if self.asked.borrow().iter().any(|asked| asked == library) {
            return Ok(());
        }
        self.asked.borrow_mut().push(library.to_string());
        let path = kit.join(format!("{library}.rlib/toolchain/mir.json"));
        match path.exists() {
            true => {
                let text = std::fs::read_to_string(&path);
                let text = text.map_err(|why| format!("{}: {why}", path.display()))?;
                read(&text, Some(library), &mut self.functions.borrow_mut())
            }
            false => Ok(()),
        }
    }
}

fn read(text: &str, kit: Option<&str>, into: &mut Functions) -> Answer<()> {
    let Json::List(functions) = json::parse(text)? else {
        return Err("a library's MIR is a list of functions".to_string());
    };
    for function in functions {
        let (name, item) = named(function)?;
        let library = kit.unwrap_or_default().to_string();
        let position = (kit.is_none(), library, into.len());
        if into
            .insert(name.clone(), (position, Rc::new(item)))
            .is_some()
        {
            return Err(format!("two functions are named {name}"));
        }
    }
    Ok(())
}

/// `[NAME, FUNCTION]`.
fn named(found: Json) -> Answer<(String, Json)> {
    let unlike = || "expected a name and a function".to_string();
    let Json::List(parts) = found else {
        return Err(unlike());
    };
    match <[Json; 2]>::try_from(parts) {
        Ok([Json::Text(name), item]) => Ok((name, item)),
        _ => Err(unlike()),
    }
}
