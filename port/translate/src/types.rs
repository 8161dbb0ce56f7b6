//! Types of MIR as types of C: their names, their fields, and their declarations.

use crate::interface::Interface;
use crate::mir::{Instance, Named, Program, Shape, Ty};
use crate::Answer;
use std::collections::BTreeMap;
use std::fmt::Write;

/// `a::b` as `a__b`, so that `element::execute` is not `element_execute`. `(,)` is `tuple2`; any other sign that C does not have is `_`.
pub fn identifier(name: &str) -> String {
    let commas = name.trim_matches(['(', ')']);
    if name.starts_with('(') && commas.chars().all(|sign| sign == ',') {
        return format!("tuple{}", commas.len() + 1);
    }
    let known = |sign: char| {
        if sign.is_ascii_alphanumeric() {
            sign
        } else {
            '_'
        }
    };
    name.chars().map(known).collect()
}

/// The name of a function in C: behind its own the types and numbers that it takes, as `core__option__OptionTry__branch__usize`.
pub fn function_name(instance: &Instance) -> String {
    at_types(identifier(&instance.name), &instance.types)
}

fn at_types(name: String, types: &[Ty]) -> String {
    let parts = types.iter().map(part_name);
    let parts: Vec<String> = std::iter::once(name).chain(parts).collect();
    parts.join("__")
}

/// The name of a function's local.
pub fn local(number: usize) -> String {
    match number {
        0 => "result".to_string(),
        _ => format!("v{number}"),
    }
}

pub fn integer(bits: u64) -> String {
    match bits {
        64 => "usize".to_string(),
        _ => format!("uint{bits}_t"),
    }
}

/// `TYPE NAME`, with the star of a pointer at the name.
pub fn declarator(ty: &str, name: &str) -> String {
    let space = if ty.ends_with('*') { "" } else { " " };
    format!("{ty}{space}{name}")
}

/// What stands between the parentheses of a function's head.
pub fn parameter_list(parameters: &[String]) -> String {
    match parameters.is_empty() {
        true => "void".to_string(),
        false => parameters.join(", "),
    }
}

/// A field of a struct: its name in C, its type, and whether it lies in C as a `size_t`.
pub struct Field {
    pub name: String,
    pub ty: Ty,
    pub is_size: bool,
}

impl Field {
    fn new(name: impl Into<String>, ty: Ty) -> Field {
        let (name, is_size) = (name.into(), false);
        Field { name, ty, is_size }
    }
}

/// What C looks like, but for the bodies of functions.
#[derive(Clone, Copy)]
pub struct Types<'a> {
    pub program: &'a Program,
    pub interface: &'a Interface,
}

impl Types<'_> {
    /// The name of a type in C.
    pub fn name(self, ty: &Ty) -> Answer<String> {
        Ok(match ty {
            Ty::Int(bits) => integer(*bits),
            Ty::Bool => "bool".to_string(),
            Ty::Size => "size_t".to_string(),
            ty if self.program.is_nothing(ty) => "void".to_string(),
            Ty::Ptr => "void *".to_string(),
            Ty::Ref { .. } => match ty.pointee()? {
                (true, to) => declarator(&self.name(to)?, "*"),
                (false, to @ (Ty::Ref { .. } | Ty::Ptr)) => format!("{}const *", self.name(to)?),
                (false, to) => declarator(&format!("const {}", self.name(to)?), "*"),
            },
            Ty::Array(of, length) => format!("array_{}_{length}", part_name(of)),
            Ty::Slice { of, .. } if self.program.is_nothing(of) => {
                return Err(format!("a slice of {of}, which says nothing"))
            }
            Ty::Slice { .. } => part_name(ty),
            Ty::Named(named) => match self.interface.host_struct(named) {
                Some(host) => host.c.clone(),
                None => at_types(identifier(&named.name), &named.types),
            },
            Ty::Unit | Ty::Number(_) => return Err(format!("{ty} as a type")),
        })
    }

    /// Whether a value of the type is left out of C.
    pub fn is_nothing(self, ty: &Ty) -> bool {
        self.program.is_nothing(ty)
    }

    /// The fields of a struct or a slice, or of an enum seen as one of its variants, whose first is the tag.
    pub fn fields(self, of: &Ty, variant: Option<usize>) -> Answer<Vec<Field>> {
        match (of, variant) {
            (Ty::Slice { mutable, of }, None) => Ok(vec![
                Field::new("at", Ty::reference(*mutable, (**of).clone())),
                Field::new("length", Ty::Int(64)),
            ]),
            (Ty::Named(name), _) => match (self.program.shape(name)?, variant) {
                (Shape::Fields(fields), None) => Ok(self.struct_fields(name, fields)),
                (Shape::Variants(variants), Some(chosen)) => {
                    let fields = variants.get(chosen);
                    let fields = fields.ok_or_else(|| format!("{name} has no variant {chosen}"))?;
                    Ok(variant_fields(chosen, fields))
                }
                (Shape::Fields(_), Some(_)) => Err(format!("a variant of {name}, a struct")),
                (Shape::Variants(_), None) => Err(format!("a field of {name}, an enum")),
            },
            (other, _) => Err(format!("a field of {other}")),
        }
    }

    fn struct_fields(self, of: &Named, types: &[Ty]) -> Vec<Field> {
        let numbered = types.iter().enumerate();
        match self.interface.host_struct(of) {
            None => numbered
                .map(|(number, ty)| Field::new(format!("f{number}"), ty.clone()))
                .collect(),
            Some(host) => numbered
                .map(|(number, ty)| Field {
                    name: host.fields[number].clone(),
                    ty: ty.clone(),
                    is_size: *ty == Ty::Int(64),
                })
                .collect(),
        }
    }

    /// The head of a function, without `static`. A parameter that says nothing is left out.
    pub fn signature(self, of: &Instance, result: &Ty, parameters: &[Ty]) -> Answer<String> {
        let numbered = parameters.iter().zip(1..);
        let parameters: Vec<String> = numbered
            .filter(|(ty, _)| !self.is_nothing(ty))
            .map(|(ty, number)| Ok(declarator(&self.name(ty)?, &local(number))))
            .collect::<Answer<_>>()?;
        let parameters = parameter_list(&parameters);
        let name = function_name(of);
        Ok(declarator(
            &self.name(result)?,
            &format!("{name}({parameters})"),
        ))
    }
}

/// The tag of an enum, and the fields of one of its variants.
fn variant_fields(variant: usize, types: &[Ty]) -> Vec<Field> {
    let held = types.iter().zip(1..);
    let held = held.map(|(ty, number)| Field::new(format!("as.v{variant}.f{number}"), ty.clone()));
    std::iter::once(Field::new("tag", Ty::Int(8)))
        .chain(held)
        .collect()
}

/// The name of a type within the name of another. Of a type of core it is the last part.
fn part_name(ty: &Ty) -> String {
    match ty {
        Ty::Int(64) => "usize".to_string(),
        Ty::Int(bits) => format!("u{bits}"),
        Ty::Size => "size".to_string(),
        Ty::Bool => "bool".to_string(),
        Ty::Unit => "unit".to_string(),
        Ty::Ptr => "ptr".to_string(),
        Ty::Ref { mutable, to } => {
            let word = if *mutable { "mut" } else { "ref" };
            format!("{word}_{}", part_name(to))
        }
        Ty::Array(of, length) => format!("array_{}_{length}", part_name(of)),
        Ty::Slice { mutable, of } => {
            let word = if *mutable { "slice_mut" } else { "slice" };
            // The callers' sizes have the short name.
            let of = match &**of {
                Ty::Size => "usize".to_string(),
                Ty::Int(64) => "u64".to_string(),
                of => part_name(of),
            };
            format!("{word}_{of}")
        }
        Ty::Named(Named { name, types }) => {
            let own = match name.strip_prefix("core::") {
                Some(within) => within.rsplit("::").next().unwrap_or(within),
                None => name,
            };
            at_types(identifier(own), types)
        }
        Ty::Number(number) => number.to_string(),
    }
}

/// The declarations of types, each before its first use.
pub struct Declarations<'a> {
    types: Types<'a>,
    declared: BTreeMap<String, Ty>,
    pub text: String,
}

impl<'a> Declarations<'a> {
    pub fn new(types: Types<'a>) -> Declarations<'a> {
        Declarations {
            types,
            declared: BTreeMap::new(),
            text: String::new(),
        }
    }

    pub fn declare(&mut self, ty: &Ty) -> Answer<()> {
        match ty {
            Ty::Int(_) | Ty::Size | Ty::Bool | Ty::Unit | Ty::Ptr | Ty::Number(_) => return Ok(()),
            Ty::Ref { to, .. } => return self.declare(to.elements().unwrap_or(to)),
            Ty::Named(name) if self.types.interface.host_struct(name).is_some() => return Ok(()),
            _ if self.types.is_nothing(ty) => return Ok(()),
            Ty::Slice { .. } | Ty::Array(..) | Ty::Named(_) => {}
        }
        let name = self.types.name(ty)?;
        match self.declared.insert(name.clone(), ty.clone()) {
            None => {}
            Some(before) if before == *ty => return Ok(()),
            Some(before) => return Err(format!("{before} and {ty} have one name in C")),
        }
        let members = self.members(ty)?;
        let comment = match ty {
            Ty::Named(full) => format!("/* {full} */\n"),
            _ => String::new(),
        };
        writeln!(
            self.text,
            "{comment}typedef struct {name} {{\n{members}}} {name};\n"
        )
        .unwrap();
        Ok(())
    }

    /// What stands between the braces.
    fn members(&mut self, ty: &Ty) -> Answer<String> {
        match ty {
            Ty::Slice { of, .. } => {
                self.declare(of)?;
                let at = self.types.name(&self.types.fields(ty, None)?[0].ty)?;
                Ok(format!(
                    "    {};\n    usize length;\n",
                    declarator(&at, "at")
                ))
            }
            Ty::Array(of, _) => {
                let of = of.elements().unwrap_or(of);
                self.declare(of)?;
                // An array of C has an element.
                let length = ty.count().max(1);
                let at = declarator(&self.types.name(of)?, &format!("at[{length}]"));
                Ok(format!("    {at};\n"))
            }
            Ty::Named(full) => match self.types.program.shape(full)? {
                Shape::Fields(fields) => self.fields(0, fields, "    "),
                Shape::Variants(variants) => self.variants(variants),
            },
            other => Err(format!("{other} is not declared")),
        }
    }

    /// An enum: its tag, and a union of the fields of those variants that have some.
    fn variants(&mut self, variants: &[Vec<Ty>]) -> Answer<String> {
        let mut parts = String::new();
        for (number, fields) in variants.iter().enumerate() {
            let fields = self.fields(1, fields, "            ")?;
            if !fields.is_empty() {
                write!(parts, "        struct {{\n{fields}        }} v{number};\n").unwrap();
            }
        }
        Ok(match parts.is_empty() {
            true => "    uint8_t tag;\n".to_string(),
            false => format!("    uint8_t tag;\n    union {{\n{parts}    }} as;\n"),
        })
    }

    fn fields(&mut self, first: usize, fields: &[Ty], margin: &str) -> Answer<String> {
        let mut text = String::new();
        for (number, field) in fields.iter().enumerate() {
            if self.types.is_nothing(field) {
                continue;
            }
            self.declare(field)?;
            let name = format!("f{}", first + number);
            writeln!(
                text,
                "{margin}{};",
                declarator(&self.types.name(field)?, &name)
            )
            .unwrap();
        }
        Ok(text)
    }
}
