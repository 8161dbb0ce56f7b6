//! What C sees of the library: the table port/interface, and the check that a header says the same.

use crate::header::{Declared, Header};
use crate::mir::{Function, Named, Program, Shape, Ty};
use crate::Answer;

/// A struct of the header, the Rattle struct that it is, and the names of its fields.
pub struct HostStruct {
    pub c: String,
    pub rattle: String,
    pub fields: Vec<String>,
}

/// An array type of the header, which is lent whole.
pub struct HostArray {
    pub c: String,
    pub ty: Ty,
}

/// A C file with its header.
pub struct Interface {
    pub file: String,
    pub header: String,
    /// What the file holds, in a few words.
    pub about: String,
    pub structs: Vec<HostStruct>,
    pub arrays: Vec<HostArray>,
    /// Functions of MIR that C may call, under the last part of their names.
    pub functions: Vec<String>,
}

/// Reads the table. A line that it does not know is an error.
pub fn read(table: &str) -> Answer<Vec<Interface>> {
    let mut files: Vec<Interface> = Vec::new();
    for (number, line) in table.lines().enumerate() {
        let words: Vec<&str> = line.split_whitespace().collect();
        let refused = |why: &str| format!("line {} of the interface: {why}: {line}", number + 1);
        match (words.as_slice(), files.last_mut()) {
            ([], _) | (["#", ..], _) => {}
            (["file", file, "header", header, "about", about @ ..], _) => {
                files.push(Interface::new(file, header, about.join(" ")))
            }
            (words, Some(file)) => file.add(words).map_err(|why| refused(&why))?,
            (_, None) => return Err(refused("no file before it")),
        }
    }
    Ok(files)
}

/// The name by which C calls a function.
pub fn c_name(function: &str) -> &str {
    function.rsplit("::").next().unwrap_or(function)
}

impl Interface {
    fn new(file: &str, header: &str, about: String) -> Interface {
        Interface {
            file: file.to_string(),
            header: header.to_string(),
            about,
            structs: Vec::new(),
            arrays: Vec::new(),
            functions: Vec::new(),
        }
    }

    /// Takes a line of the table that is about this file.
    fn add(&mut self, words: &[&str]) -> Answer<()> {
        match words {
            ["struct", c, "is", rattle, fields @ ..] => self.structs.push(HostStruct {
                c: c.to_string(),
                rattle: rattle.to_string(),
                fields: fields.iter().map(|field| field.to_string()).collect(),
            }),
            ["bytes", c, length] => {
                let length = length.parse().map_err(|_| "no number")?;
                let (c, ty) = (c.to_string(), Ty::Array(Box::new(Ty::Int(8)), length));
                self.arrays.push(HostArray { c, ty });
            }
            ["function", name] => self.functions.push(name.to_string()),
            _ => return Err("expected file, struct, bytes or function".to_string()),
        }
        Ok(())
    }

    pub fn host_struct(&self, named: &Named) -> Option<&HostStruct> {
        let is = |host: &&HostStruct| named.types.is_empty() && host.rattle == named.name;
        self.structs.iter().find(is)
    }

    /// Whether the header declares these structs, arrays and functions, and no other function.
    pub fn check(&self, header: &Header, program: &Program) -> Answer<()> {
        for host in &self.structs {
            self.check_struct(host, header, program)?;
        }
        for array in &self.arrays {
            if header.arrays.get(&array.c).map(String::as_str) != Some("uint8_t") {
                return Err(format!(
                    "{} declares no array of bytes {}",
                    self.header, array.c
                ));
            }
        }
        for name in &self.functions {
            self.check_function(program.entry(name)?, header)?;
        }
        let known = |name: &str| {
            self.functions
                .iter()
                .any(|function| c_name(function) == name)
        };
        match header.functions.keys().find(|name| !known(name)) {
            Some(name) => Err(format!(
                "{} declares {name}, which is not in the interface",
                self.header
            )),
            None => Ok(()),
        }
    }

    fn check_struct(&self, host: &HostStruct, header: &Header, program: &Program) -> Answer<()> {
        let Shape::Fields(types) = program.shape(&Named::plain(&host.rattle))? else {
            return Err(format!("{} is no struct", host.rattle));
        };
        if types.len() != host.fields.len() {
            return Err(format!(
                "{} has {} fields, not {}",
                host.rattle,
                types.len(),
                host.fields.len()
            ));
        }
        let fields = types.iter().zip(&host.fields);
        let wanted: Vec<Declared> = fields
            .map(|(ty, name)| {
                Ok(Declared {
                    ty: self.host_type(ty)?,
                    name: name.clone(),
                })
            })
            .collect::<Answer<_>>()?;
        match header.structs.get(&host.c) {
            Some(found) if *found == wanted => Ok(()),
            Some(found) => Err(format!(
                "{} declares {} with {}, not {}",
                self.header,
                host.c,
                shown(found),
                shown(&wanted)
            )),
            None => Err(format!("{} declares no struct {}", self.header, host.c)),
        }
    }

    fn check_function(&self, function: &Function, header: &Header) -> Answer<()> {
        let name = c_name(&function.instance.name);
        let Some(found) = header.functions.get(name) else {
            return Err(format!("{} declares no function {name}", self.header));
        };
        let mut wanted = vec![self.host_type(&function.locals[0])?];
        for ty in &function.locals[1..=function.parameters] {
            wanted.extend(self.parameter_types(ty)?);
        }
        let mut types = vec![found.result.clone()];
        types.extend(
            found
                .parameters
                .iter()
                .map(|parameter| parameter.ty.clone()),
        );
        match types == wanted {
            true => Ok(()),
            false => Err(format!(
                "{} declares {name} with the types {}, not {}",
                self.header,
                types.join(", "),
                wanted.join(", ")
            )),
        }
    }

    /// The types of C's parameters for one of MIR: of a slice, a pointer and a length.
    pub fn parameter_types(&self, ty: &Ty) -> Answer<Vec<String>> {
        match ty {
            Ty::Slice { mutable, of } => {
                let pointer = Ty::reference(*mutable, (**of).clone());
                Ok(vec![self.host_type(&pointer)?, "size_t".to_string()])
            }
            _ => Ok(vec![self.host_type(ty)?]),
        }
    }

    /// A type as the header writes it.
    fn host_type(&self, ty: &Ty) -> Answer<String> {
        let found = match ty {
            Ty::Int(64) | Ty::Size => Some("size_t".to_string()),
            Ty::Int(bits) => Some(format!("uint{bits}_t")),
            Ty::Bool => Some("bool".to_string()),
            Ty::Unit => Some("void".to_string()),
            Ty::Named(name) => self.host_struct(name).map(|host| host.c.clone()),
            Ty::Array(..) => self
                .arrays
                .iter()
                .find(|array| array.ty == *ty)
                .map(|array| array.c.clone()),
            // C has a size_t there, which the library would write with 64 bits.
            Ty::Ref { mutable: true, to } if **to == Ty::Int(64) => None,
            Ty::Ref { mutable, to } => {
                let constant = if *mutable { "" } else { "const " };
                Some(format!("{constant}{} *", self.host_type(to)?))
            }
            Ty::Ptr | Ty::Slice { .. } | Ty::Number(_) => None,
        };
        found.ok_or_else(|| format!("{} has no type for {ty}", self.header))
    }
}

fn shown(fields: &[Declared]) -> String {
    let fields: Vec<String> = fields
        .iter()
        .map(|field| format!("{} {}", field.ty, field.name))
        .collect();
    fields.join(", ")
}
