//! The reader of MIR: each form of mir.json as the model has it, at the types and dictionaries that its function is given. A form that the
//! model does not have is refused, never guessed at.

use crate::json::Json;
use crate::mir::{
    Arm, Constant, Dictionary, Instance, Named, Operand, Place, Shape, Statement, Step, Ty, Value,
};
use crate::Answer;
use std::cell::RefCell;
use std::collections::{BTreeMap, BTreeSet};
use std::rc::Rc;

/// What the functions declare: types, and which functions the methods of an impl are.
#[derive(Default)]
pub struct Declared {
    types: BTreeMap<String, Rc<Json>>,
    impls: BTreeMap<String, Vec<String>>,
    /// What each type is made of, at the types that it is used at.
    pub shapes: BTreeMap<Named, Shape>,
    /// The types of which that is being read.
    open: BTreeSet<Named>,
}

/// A form of MIR that the translator does not have.
pub fn unknown<T>(what: &str, found: &Json) -> Answer<T> {
    Err(format!("{} is not a known {what} of MIR", found.brief()))
}

fn list<'a, T>(found: &'a Json, read: impl Fn(&'a Json) -> Answer<T>) -> Answer<Vec<T>> {
    found.list()?.iter().map(read).collect()
}

pub fn count(found: &Json) -> Answer<usize> {
    Ok(found.number()? as usize)
}

/// The parts of a function.
pub const FUNCTION: [&str; 7] = [
    "lifetimes",
    "outlives",
    "params",
    "generics",
    "types",
    "locals",
    "body",
];

/// What a function takes besides its parameters: types, and what answers for their bounds.
pub const GENERICS: [&str; 6] = [
    "types",
    "outlives",
    "bounds",
    "method_of",
    "trait_lifetimes",
    "impls",
];

/// What is said of some methods besides: that the value is spent. The machine does not read it.
pub const MAY_BE_IN_GENERICS: [&str; 1] = ["spends_self"];

/// The parts of a declared type.
pub const DECLARED: [&str; 10] = [
    "name",
    "lifetimes",
    "bounds",
    "type_params",
    "const_params",
    "type_bounds",
    "owns",
    "is_cell",
    "shape",
    "is_tuple",
];

/// The parts of an impl that a function names.
pub const IMPL: [&str; 8] = [
    "name",
    "lifetimes",
    "outlives",
    "types",
    "type_outlives",
    "bounds",
    "of",
    "methods",
];

/// The largest number of a local that a place names.
pub fn most_local(found: &Json) -> Option<usize> {
    match found {
        Json::List(parts) => parts.iter().filter_map(most_local).max(),
        Json::Object(parts) => parts
            .iter()
            .filter_map(|(key, part)| match key.as_str() {
                "local" => count(part).ok(),
                _ => most_local(part),
            })
            .max(),
        _ => None,
    }
}

/// Takes note of the types and the impls that a function declares. Each is the same wherever it is declared.
pub fn declare(types: &Json, impls: &Json, known: &RefCell<Declared>) -> Answer<()> {
    let mut known = known.borrow_mut();
    for found in types.list()? {
        let name = declared_type(found)?;
        match known.types.get(name) {
            Some(before) if !is_same_type(before, found)? => {
                return Err(format!("{name} is declared in two ways"))
            }
            Some(_) => {}
            None => {
                known.types.insert(name.to_string(), Rc::new(found.clone()));
            }
        }
    }
    for found in impls.list()? {
        let [name, _, _, _, _, _, _, methods] = found.fields(IMPL)?;
        let (name, methods) = (name.text()?.to_string(), list(methods, Json::text)?);
        let methods: Vec<String> = methods.into_iter().map(str::to_string).collect();
        match known.impls.insert(name.clone(), methods.clone()) {
            Some(before) if before != methods => {
                return Err(format!("the impl {name} is declared in two ways"))
            }
            _ => {}
        }
    }
    Ok(())
}

/// The name of a declared type. What is shared and written at once is not known; to let a value go is a call of MIR.
fn declared_type(found: &Json) -> Answer<&str> {
    let [name, _, _, types, numbers, _, owns, is_cell, _, is_tuple] =
        found.fields_and(DECLARED, &["view"])?;
    let is_plain =
        types.number().is_ok() && numbers.list().is_ok() && *is_cell == Json::Bool(false);
    match is_plain && owns.bool().is_ok() && is_tuple.bool().is_ok() {
        true => name.text(),
        false => unknown("declared type", found),
    }
}

fn is_same_type(one: &Json, other: &Json) -> Answer<bool> {
    let [_, _, _, types, numbers, _, _, _, shape, _] = one.fields_and(DECLARED, &["view"])?;
    let [_, _, _, other_types, other_numbers, _, _, _, other_shape, _] =
        other.fields_and(DECLARED, &["view"])?;
    Ok((types, numbers, shape) == (other_types, other_numbers, other_shape))
}

/// The parts of a body in one list, each statement before what stands in it.
type Parts<'a> = std::slice::Iter<'a, Json>;

fn next<'a>(parts: &mut Parts<'a>) -> Answer<&'a Json> {
    parts.next().ok_or_else(|| "a body has no end".to_string())
}

/// What the numbers of a function's or a type's own parameters stand for.
pub struct Forms<'a> {
    pub types: &'a [Ty],
    pub dictionaries: &'a [Dictionary],
    pub known: &'a RefCell<Declared>,
}

impl Forms<'_> {
    // ---- types

    pub fn local(&self, found: &Json) -> Answer<Ty> {
        let [of, home] = found.fields(["ty", "home"])?;
        match home.text()? {
            "ValueLocal" | "MemorySlot" => Ok(self.ty(of)?.held()),
            _ => unknown("local", found),
        }
    }

    fn types(&self, found: &Json) -> Answer<Vec<Ty>> {
        list(found, |found| self.ty(found))
    }

    fn parameter(&self, number: &Json, found: &Json) -> Answer<Ty> {
        match self.types.get(count(number)?) {
            Some(ty) => Ok(ty.clone()),
            None => unknown("parameter", found),
        }
    }

    pub fn ty(&self, found: &Json) -> Answer<Ty> {
        match found.form() {
            ("Int", [bits]) => Ok(Ty::Int(width(bits)?)),
            ("Bool", []) => Ok(Ty::Bool),
            ("Unit", []) => Ok(Ty::Unit),
            ("Ptr", []) => Ok(Ty::Ptr),
            ("Param", [number]) => self.parameter(number, found),
            ("Const", [number]) => Ok(Ty::Number(number.number()?)),
            ("Ref", [_, mutable, to]) => Ok(Ty::reference(mutability(mutable)?, self.ty(to)?)),
            ("Array", [of, length]) => {
                let (of, length) = (self.ty(of)?.held(), self.length(length)?);
                Ok(Ty::Array(Box::new(of), length))
            }
            ("Named", [head, types]) => {
                let [name, _] = head.fields(["name", "lifetimes"])?;
                self.named(name.text()?, self.types(types)?)
            }
            ("Struct", [name, fields]) if name.text()? == "&[]" => self.slice(found, fields),
            _ => unknown("type", found),
        }
    }

    /// A slice of fields: a reference to its elements, and how many there are.
    fn slice(&self, found: &Json, fields: &Json) -> Answer<Ty> {
        match self.types(fields)?.as_slice() {
            [Ty::Ref { mutable, to }, Ty::Int(64)] => {
                let (mutable, of) = (*mutable, to.clone());
                Ok(Ty::Slice { mutable, of })
            }
            _ => unknown("slice", found),
        }
    }

    /// A declared type at its types. Where it is declared, what it is made of is noted.
    fn named(&self, name: &str, types: Vec<Ty>) -> Answer<Ty> {
        let named = Named {
            name: name.to_string(),
            types,
        };
        let declared = {
            let known = self.known.borrow();
            let is_noted = known.shapes.contains_key(&named) || known.open.contains(&named);
            known.types.get(name).filter(|_| !is_noted).cloned()
        };
        if let Some(declared) = declared {
            self.known.borrow_mut().open.insert(named.clone());
            let shape = self.made_of(&named, &declared)?;
            let mut known = self.known.borrow_mut();
            known.open.remove(&named);
            known.shapes.insert(named.clone(), shape);
        }
        Ok(Ty::Named(named))
    }

    /// Takes note of what the declared types are made of that take no types.
    pub fn plain_types(&self, declared: &Json) -> Answer<()> {
        for found in declared.list()? {
            let [name, _, _, types, _, _, _, _, _, _] = found.fields_and(DECLARED, &["view"])?;
            if count(types)? == 0 {
                self.named(name.text()?, Vec::new())?;
            }
        }
        Ok(())
    }

    fn made_of(&self, named: &Named, declared: &Json) -> Answer<Shape> {
        let [_, _, _, types, _, _, _, _, shape, _] = declared.fields_and(DECLARED, &["view"])?;
        if count(types)? != named.types.len() {
            return Err(format!("{named} with other types than it takes"));
        }
        let within = Forms {
            types: &named.types,
            dictionaries: &[],
            known: self.known,
        };
        within.shape(shape)
    }

    fn shape(&self, found: &Json) -> Answer<Shape> {
        let held = |found: &Json| Ok(self.ty(found)?.held());
        match found.form() {
            ("Fields", fields) => {
                let fields = fields.iter().map(held);
                Ok(Shape::Fields(fields.collect::<Answer<_>>()?))
            }
            ("Variants", variants) => {
                let variants = variants.iter().map(|fields| list(fields, held));
                Ok(Shape::Variants(variants.collect::<Answer<_>>()?))
            }
            _ => unknown("shape of a type", found),
        }
    }

    /// How many elements an array has.
    fn length(&self, found: &Json) -> Answer<u64> {
        match found.form() {
            ("Lit", [length]) => length.number(),
            ("Param", [number]) => match self.parameter(number, found)? {
                Ty::Number(length) => Ok(length),
                _ => unknown("length of an array", found),
            },
            _ => unknown("length of an array", found),
        }
    }

    // ---- values

    fn place(&self, found: &Json) -> Answer<Place> {
        let step = |found: &Json| match found.form() {
            ("Deref", [to]) => Ok(Step::Deref(self.ty(to)?.held())),
            ("Field", [number]) => Ok(Step::Field(count(number)?)),
            ("Variant", [number]) => Ok(Step::Variant(count(number)?)),
            _ => unknown("step of a place", found),
        };
        let [local, steps] = found.fields(["local", "steps"])?;
        let (local, steps) = (count(local)?, list(steps, step)?);
        Ok(Place { local, steps })
    }

    fn operand(&self, found: &Json) -> Answer<Operand> {
        match found.form() {
            ("Copy", [from]) => Ok(Operand::Copy(self.place(from)?)),
            ("Int", [constant]) => {
                let (width, number) = integer(constant, found)?;
                Ok(Operand::Int(width, number))
            }
            ("True", []) => Ok(Operand::Bool(true)),
            ("False", []) => Ok(Operand::Bool(false)),
            ("Unit", []) => Ok(Operand::Unit),
            ("SizeOf", [of]) => Ok(Operand::SizeOf(self.ty(of)?.held())),
            ("NumOf", [bits, of]) => match (width(bits)?, self.ty(of)?) {
                (width, Ty::Number(number)) if has_bits(width, number) => {
                    Ok(Operand::Int(width, number))
                }
                _ => unknown("operand", found),
            },
            _ => unknown("operand", found),
        }
    }

    fn operands(&self, found: &[Json]) -> Answer<Vec<Operand>> {
        found.iter().map(|found| self.operand(found)).collect()
    }

    fn value(&self, found: &Json) -> Answer<Value> {
        match found.form() {
            ("Opd", [of]) => Ok(Value::Operand(self.operand(of)?)),
            ("Op2", [what, left, right]) => {
                operation(what, self.operand(left)?, self.operand(right)?)
            }
            ("Op1", [what, of]) => match what.form() {
                ("Not", []) => Ok(Value::Not(self.operand(of)?)),
                ("Cast", [from, to, bits]) if is_unsigned(from) && is_unsigned(to) => {
                    Ok(Value::Cast(width(bits)?, self.operand(of)?))
                }
                _ => unknown("operation", what),
            },
            ("AddrOf", [of]) => Ok(Value::AddressOf(self.place(of)?)),
            ("Aggregate", parts) => Ok(Value::Aggregate(self.operands(parts)?)),
            // An operand has no effect: read once or once for each element, it is the same.
            ("Repeat", [of, times]) => {
                let (of, times) = (self.operand(of)?, self.length(times)? as usize);
                Ok(Value::Aggregate(vec![of; times]))
            }
            _ => unknown("value", found),
        }
    }

    // ---- statements

    pub fn body(&self, found: &Json) -> Answer<Vec<Statement>> {
        let mut parts = found.list()?.iter();
        let body = self.statements(&mut parts)?;
        match parts.next() {
            None => Ok(body),
            Some(more) => Err(format!("{} behind the end of the body", more.brief())),
        }
    }

    fn statements(&self, parts: &mut Parts) -> Answer<Vec<Statement>> {
        let mut statements = Vec::new();
        self.collect(parts, &mut statements)?;
        Ok(statements)
    }

    fn collect(&self, parts: &mut Parts, into: &mut Vec<Statement>) -> Answer<()> {
        let found = next(parts)?;
        into.push(match found.form() {
            ("Skip", []) => return Ok(()),
            ("Seq", []) => {
                self.collect(parts, into)?;
                return self.collect(parts, into);
            }
            ("Assign", [to, from]) => Statement::Assign(self.place(to)?, self.value(from)?),
            ("LendStatic", [to, of, what]) => {
                let (of, what) = self.lent(of, what)?;
                Statement::Assign(self.place(to)?, Value::Lent(of, what))
            }
            ("If", [condition]) => {
                let condition = self.operand(condition)?;
                Statement::If(condition, self.statements(parts)?, self.statements(parts)?)
            }
            ("Switch", [on, keys, has_default]) => {
                let has_default = has_default.bool()?;
                self.switch(found, self.operand(on)?, keys.list()?, has_default, parts)?
            }
            ("Block", []) => Statement::Block(self.statements(parts)?),
            ("Loop", []) => Statement::Loop(self.statements(parts)?),
            ("Exit", [number]) => Statement::Exit(count(number)?),
            ("Return", []) => Statement::Return,
            ("Unreachable", []) => Statement::Unreachable,
            ("Call", [callee, arguments, result]) => Statement::Call {
                function: self.called(callee)?,
                arguments: self.operands(arguments.list()?)?,
                result: self.place(result)?,
            },
            _ => return unknown("statement", found),
        });
        Ok(())
    }

    /// A constant that is lent, and its type. Where its pointers point into its block, the type is a struct of what lies there.
    fn lent(&self, of: &Json, what: &Json) -> Answer<(Ty, Constant)> {
        match (of.form(), constant(what)?) {
            (("Struct", [name, fields]), Constant::Parts(parts)) if name.text()? == "" => {
                let types = self.types(fields)?.into_iter().map(Ty::held);
                let mut all = types.zip(parts.iter().cloned());
                match (all.next(), fields.list()?.len() == parts.len()) {
                    (Some((ty, first)), true) => {
                        Ok((ty, Constant::Block(Box::new(first), all.collect())))
                    }
                    _ => unknown("lent constant", what),
                }
            }
            (_, what) => Ok((self.ty(of)?.held(), what)),
        }
    }

    /// A function, or a method of an impl: at the impl's types and dictionaries, and then its own.
    fn called(&self, callee: &Json) -> Answer<Instance> {
        let (name, mut types, mut dictionaries, own) = match callee.form() {
            ("Fn", [name, own]) => (name.text()?.to_string(), Vec::new(), Vec::new(), own),
            ("Method", [dictionary, number, own]) => {
                let Dictionary {
                    name,
                    types,
                    dictionaries,
                } = self.dictionary(dictionary)?;
                (
                    self.method(&name, count(number)?)?,
                    types,
                    dictionaries,
                    own,
                )
            }
            _ => return unknown("call", callee),
        };
        let [own_types, own_dictionaries] = own.fields(["types", "dicts"])?;
        types.extend(self.types(own_types)?);
        dictionaries.extend(list(own_dictionaries, |found| self.dictionary(found))?);
        Ok(Instance {
            name,
            types,
            dictionaries,
            sizes: Vec::new(),
        })
    }

    fn method(&self, name: &str, number: usize) -> Answer<String> {
        let known = self.known.borrow();
        let method = known.impls.get(name).and_then(|all| all.get(number));
        method
            .cloned()
            .ok_or_else(|| format!("the MIR declares no method {number} of the impl {name}"))
    }

    fn dictionary(&self, found: &Json) -> Answer<Dictionary> {
        match found.form() {
            ("Given", [number]) => match self.dictionaries.get(count(number)?) {
                Some(given) => Ok(given.clone()),
                None => unknown("dictionary", found),
            },
            ("Impl", [name, types, dictionaries]) => Ok(Dictionary {
                name: name.text()?.to_string(),
                types: self.types(types)?,
                dictionaries: list(dictionaries, |found| self.dictionary(found))?,
            }),
            _ => unknown("dictionary", found),
        }
    }

    /// The arms stand behind the switch, each in the place of its keys, and behind them the default if there is one.
    fn switch(
        &self,
        found: &Json,
        on: Operand,
        keys: &[Json],
        has_default: bool,
        parts: &mut Parts,
    ) -> Answer<Statement> {
        let mut arms = Vec::new();
        for keys in keys {
            let (keys, body) = (list(keys, Json::number)?, self.statements(parts)?);
            arms.push(Arm { keys, body });
        }
        let default = match has_default {
            true => Some(self.statements(parts)?),
            false if arms.is_empty() => return unknown("switch", found),
            false => None,
        };
        Ok(Statement::Switch { on, arms, default })
    }

    // ---- sizes of C's callers

    /// Takes the types with sizes of C's callers that a value of type `actual` shows, where a type that names parameters is expected.
    pub fn refine(expected: &Json, actual: &Ty, types: &mut [Ty]) -> Answer<()> {
        match (expected.form(), actual) {
            (("Param", [number]), _) => {
                if let Some(ty) = types.get_mut(count(number)?) {
                    if actual.has_sizes() && ty.without_sizes() == actual.without_sizes() {
                        *ty = actual.clone();
                    }
                }
            }
            (("Ref", [_, _, to]), Ty::Ref { to: target, .. }) => Self::refine(to, target, types)?,
            (("Struct", [_, Json::List(fields)]), Ty::Slice { mutable, of }) => {
                let at = Ty::reference(*mutable, (**of).clone());
                Self::refine(&fields[0], &at, types)?
            }
            (("Named", [_, Json::List(parts)]), Ty::Named(named)) => {
                for (part, ty) in parts.iter().zip(&named.types) {
                    Self::refine(part, ty, types)?;
                }
            }
            _ => {}
        }
        Ok(())
    }

    /// The types of a declared type that is made of parts of these types.
    pub fn refined(&self, named: &Named, variant: Option<usize>, parts: &[Ty]) -> Answer<Named> {
        let declared = self.known.borrow().types.get(&named.name).cloned();
        let mut types = named.types.clone();
        if let Some(declared) = declared {
            let [_, _, _, _, _, _, _, _, shape, _] = declared.fields_and(DECLARED, &["view"])?;
            let fields = match (shape.form(), variant) {
                (("Fields", fields), None) => fields,
                (("Variants", variants), Some(chosen)) if chosen < variants.len() => {
                    variants[chosen].list()?
                }
                _ => &[],
            };
            for (field, part) in fields.iter().zip(parts) {
                Self::refine(field, part, &mut types)?;
            }
        }
        match self.named(&named.name, types)? {
            Ty::Named(named) => Ok(named),
            other => Err(format!("{other} is no declared type")),
        }
    }
}

fn mutability(found: &Json) -> Answer<bool> {
    match found.form() {
        ("Mut", []) => Ok(true),
        ("Imm", []) => Ok(false),
        _ => unknown("mutability", found),
    }
}

fn width(found: &Json) -> Answer<u64> {
    match found.number()? {
        width @ (8 | 16 | 32 | 64) => Ok(width),
        _ => unknown("width of an integer", found),
    }
}

/// Bits and value of a constant.
fn integer(constant: &Json, found: &Json) -> Answer<(u64, u64)> {
    let [bits, number] = constant.fields(["width", "value"])?;
    let (width, number) = (width(bits)?, number.number()?);
    match has_bits(width, number) {
        true => Ok((width, number)),
        false => Err(format!("{} has more bits than its width", found.brief())),
    }
}

/// A constant that is lent.
fn constant(found: &Json) -> Answer<Constant> {
    match found.form() {
        ("Int", [it]) => {
            let (width, number) = integer(it, found)?;
            Ok(Constant::Int(width, number))
        }
        ("Bool", [value]) => Ok(Constant::Bool(value.bool()?)),
        ("Unit", []) => Ok(Constant::Unit),
        ("Ints", [numbers]) => {
            let [bits, values] = numbers.fields(["width", "values"])?;
            let (bits, values) = (width(bits)?, list(values, Json::number)?);
            match values.iter().all(|value| has_bits(bits, *value)) {
                true => Ok(Constant::Ints(bits, values)),
                false => Err(format!("{} has more bits than its width", found.brief())),
            }
        }
        ("Repeat", [of, times]) => Ok(Constant::Repeat(Box::new(constant(of)?), times.number()?)),
        ("Parts", parts) => {
            let parts = parts.iter().map(constant);
            Ok(Constant::Parts(parts.collect::<Answer<_>>()?))
        }
        ("Here", [place]) => Ok(Constant::Here(place.number()?)),
        _ => unknown("lent constant", found),
    }
}

/// Whether a number has no more bits than that.
fn has_bits(bits: u64, number: u64) -> bool {
    bits >= 64 || number >> bits == 0
}

fn is_unsigned(sign: &Json) -> bool {
    matches!(sign.form(), ("Unsigned", []))
}

/// An operation on two operands. Every sign in it must be unsigned.
fn operation(found: &Json, left: Operand, right: Operand) -> Answer<Value> {
    let (word, signs) = found.form();
    if !signs.iter().all(is_unsigned) {
        return unknown("operation", found);
    }
    Ok(match (word, signs.len()) {
        ("Add", 1) | ("WrapAdd", 0) => Value::Arithmetic("+", left, right),
        ("Sub", 1) | ("WrapSub", 0) => Value::Arithmetic("-", left, right),
        ("Mul", 1) | ("WrapMul", 0) => Value::Arithmetic("*", left, right),
        ("Div", 1) => Value::Arithmetic("/", left, right),
        ("Rem", 1) => Value::Arithmetic("%", left, right),
        ("And", 0) => Value::Arithmetic("&", left, right),
        ("Or", 0) => Value::Arithmetic("|", left, right),
        ("Xor", 0) => Value::Arithmetic("^", left, right),
        ("Shl", 0) => Value::Arithmetic("<<", left, right),
        ("Shr", 1) => Value::Arithmetic(">>", left, right),
        ("Lt", 1) => Value::Comparison("<", left, right),
        ("Le", 1) => Value::Comparison("<=", left, right),
        ("Eq", 0) => Value::Comparison("==", left, right),
        ("Ne", 0) => Value::Comparison("!=", left, right),
        ("Offset", 0) => Value::Offset(left, right),
        _ => return unknown("operation", found),
    })
}
