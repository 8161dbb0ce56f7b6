//! The modules of antt that a built library carries, each as what it is made from (lang/antt/made.json, listed in toolchain/made.json). A check
//! that reads the library anew makes its terms from them, those of the kit's functions too, of which `rt check --generated` writes none.

use crate::json::{self, Json};
use crate::Answer;
use std::cell::RefCell;
use std::collections::{BTreeMap, HashMap};
use std::fs::{self, File};
use std::io::{Read, Seek, SeekFrom};
use std::path::{Path, PathBuf};
use std::rc::Rc;

/// Our libraries by their names, and the folder of the kit's. What each carries is listed when a module of it is first asked for.
pub struct Modules {
    own: BTreeMap<String, PathBuf>,
    kit: PathBuf,
    carried: RefCell<BTreeMap<String, Rc<Carried>>>,
}

/// Where the modules of a library stand in its file: the first byte and the length.
struct Carried {
    file: PathBuf,
    places: HashMap<String, (u64, u64)>,
}

/// What a module is made from, and other paths by which it imports what is named there.
struct Made {
    what: Json,
    ways: Json,
}

/// How often a module may stand for another until a function is reached.
const MOST_STEPS: usize = 100;

impl Modules {
    pub fn new(own: impl Iterator<Item = (String, PathBuf)>, kit: &Path) -> Modules {
        Modules {
            own: own.collect(),
            kit: kit.to_path_buf(),
            carried: RefCell::default(),
        }
    }

    /// The function that a library carries, with what it calls by the functions' names.
    pub fn function(&self, name: &str) -> Answer<Json> {
        let (library, within) = name.split_once("::").ok_or("its name has no crate")?;
        let module = format!("proofs/{}/Code", within.replace("::", "/"));
        let program = self.expected(library, &module)?.what;
        let made = self.expected(library, &format!("{module}/Mir"))?;
        let function = match made.what.form() {
            ("Mir", [of]) => of.fields(["function", "header"])?[0],
            _ => return Err(format!("{module}/Mir is no function")),
        };
        match is_of(&program, name, function) {
            true => function.replaced(&|part| self.called(part, &made.ways)),
            false => Err(format!("{module} is another program")),
        }
    }

    fn expected(&self, library: &str, module: &str) -> Answer<Made> {
        let made = self.made(library, module)?;
        made.ok_or_else(|| format!("the library {library} carries no {module}"))
    }

    /// A function that is called, by its name. Where the module imports it by another path, that must be the same function's.
    fn called(&self, part: &Json, ways: &Json) -> Answer<Option<Json>> {
        let ("Fn", [Json::Text(path), arguments]) = part.form() else {
            return Ok(None);
        };
        let name = self.symbol(path)?;
        let way = ways.field(path).map_or(Ok(path.as_str()), Json::text)?;
        if self.symbol(way)? != name {
            return Err(format!("{way} stands for another function than {name}"));
        }
        let parts = vec![Json::Text(name), arguments.clone()];
        let called = vec![("Fn".to_string(), Json::List(parts))];
        Ok(Some(Json::Object(called)))
    }

    /// The name of the function that a module `Symbol` is of, by its path or by another that stands for it.
    pub fn symbol(&self, path: &str) -> Answer<String> {
        let mut at = path.to_string();
        for _ in 0..MOST_STEPS {
            let (library, module) = place(&at)?;
            let made = self.made(&library, &module)?;
            at = match made.as_ref().map(|made| made.what.form()) {
                Some(("Symbol", [of])) => {
                    let [symbol] = of.fields_and(["symbol"], &["is_method"])?;
                    return Ok(symbol.text()?.to_string());
                }
                Some(("StandsFor", [of])) => source(of)?.to_string(),
                Some(_) => return Err(format!("{path} is no function's")),
                None => self.passed_on(&library, &module)?,
            };
        }
        Err(format!("{path} stands for no function"))
    }

    /// The path of what the module above passes on under a name of its own.
    fn passed_on(&self, library: &str, module: &str) -> Answer<String> {
        let missing = || format!("the library {library} carries no {module}");
        let mut above = module;
        let made = loop {
            (above, _) = above.rsplit_once('/').ok_or_else(missing)?;
            if let Some(made) = self.made(library, above)? {
                break made;
            }
        };
        let within = module[above.len() + 1..].replace('/', ".");
        let (first, rest) = within.split_at(within.find('.').unwrap_or(within.len()));
        let rows = match made.what.form() {
            ("StandsFor", [of]) => of.field("rows").map_or(Ok(&[][..]), Json::list)?,
            _ => &[],
        };
        for row in rows {
            match row.list()? {
                [Json::Text(name), Json::Text(path)] if name == first => {
                    return Ok(format!("{path}{rest}"))
                }
                _ => {}
            }
        }
        Err(missing())
    }

    /// What a module is made from, if the library carries it.
    fn made(&self, library: &str, module: &str) -> Answer<Option<Made>> {
        let carried = self.carried(library)?;
        let Some((start, length)) = carried.places.get(module) else {
            return Ok(None);
        };
        let refused = |why| format!("{}: {why}", carried.file.display());
        let mut text = String::new();
        File::open(&carried.file)
            .and_then(|mut file| {
                file.seek(SeekFrom::Start(*start))?;
                file.take(*length).read_to_string(&mut text)
            })
            .map_err(|why| refused(why.to_string()))?;
        match text.len() as u64 == *length {
            true => Made::read(&text).map(Some).map_err(refused),
            false => Err(refused(format!("it ends within {module}"))),
        }
    }

    fn carried(&self, library: &str) -> Answer<Rc<Carried>> {
        if let Some(found) = self.carried.borrow().get(library) {
            return Ok(found.clone());
        }
        let kit = || self.kit.join(format!("{library}.rlib"));
        let found = Rc::new(Carried::read(
            &self.own.get(library).cloned().unwrap_or_else(kit),
        )?);
        let mut all = self.carried.borrow_mut();
        all.insert(library.to_string(), found.clone());
        Ok(found)
    }
}

impl Made {
    /// A line, and behind it one of `{"ways":{PATH:PATH, ..}}`, if there are any.
    fn read(text: &str) -> Answer<Made> {
        let lines = text.lines().filter(|line| !line.is_empty());
        let lines: Vec<Json> = lines.map(json::parse).collect::<Answer<_>>()?;
        let mut lines = lines.into_iter();
        let made = (lines.next(), lines.next(), lines.next());
        let (Some(what), more, None) = made else {
            return Err("a module is made from one line, or from two".to_string());
        };
        let ways = match more {
            None => Json::Object(Vec::new()),
            Some(more) => more.fields(["ways"])?[0].clone(),
        };
        match ways {
            Json::Object(_) => Ok(Made { what, ways }),
            other => Err(format!("{} are no ways", other.brief())),
        }
    }
}

impl Carried {
    /// The list of a library's modules is `["NAME",START,LENGTH,CHECKSUM,..` in each line.
    fn read(library: &Path) -> Answer<Carried> {
        let list = library.join("toolchain/made.json");
        let refused = |why| format!("{}: {why}", list.display());
        let text = fs::read_to_string(&list).map_err(|why| refused(why.to_string()))?;
        let mut places = HashMap::new();
        for line in text.lines() {
            let line = json::parse(line).map_err(refused)?;
            match line.list()? {
                [Json::Text(name), start, length, ..] => {
                    let place = (start.number()?, length.number()?);
                    if places.insert(name.clone(), place).is_some() {
                        return Err(refused(format!("two modules are named {name}")));
                    }
                }
                _ => return Err(refused(format!("{} is no module", line.brief()))),
            }
        }
        let file = library.join("lang/antt/made.json");
        Ok(Carried { file, places })
    }
}

/// The library of a module and its name there: `Rattle-LIBRARY-proofs.a.b` is the library's own `proofs/a/b`, and `Rattle-LIBRARY.proofs.a.b`
/// what others see of it.
fn place(path: &str) -> Answer<(String, String)> {
    let unlike = || format!("{path} is no module of a library");
    let (first, within) = path.split_once('.').ok_or_else(unlike)?;
    let words: Vec<&str> = first.split('-').collect();
    let is_in_name = |c: char| c.is_alphanumeric() || c == '_';
    if !words.iter().all(|word| word.chars().all(is_in_name)) {
        return Err(unlike());
    }
    let (library, part) = match words.as_slice() {
        ["Rattle", library] => (library, "facade"),
        ["Rattle", library, part] => (library, *part),
        _ => return Err(unlike()),
    };
    let module = format!("{part}/{}", within.replace('.', "/"));
    Ok((library.to_string(), module))
}

/// Whether a program is of the function by that name, with the types of its table if it has one.
fn is_of(program: &Json, name: &str, function: &Json) -> bool {
    let ("Code", [of]) = program.form() else {
        return false;
    };
    let has_table = function.field("types") != Some(&Json::List(Vec::new()));
    of.field("symbol") == Some(&Json::Text(name.to_string()))
        && (of.field("by_name") == Some(&Json::Bool(true)) || !has_table)
}

/// The path of the module that another stands for.
fn source(of: &Json) -> Answer<&str> {
    let missing = || format!("{} has no source", of.brief());
    of.field("source").ok_or_else(missing)?.text()
}
