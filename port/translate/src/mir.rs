//! MIR, as far as the library uses it: a typed model.
//! The meaning of each form is in the toolchain's logic: Mir/Syntax.antt, Mir/Val.antt, Prog/Memory.antt, Prog/Machine.antt.
//! Lifetimes, and whether a local has a place in memory, are left out: the machine reads neither.

use crate::Answer;
use std::collections::BTreeMap;
use std::fmt;

#[derive(Clone, Debug, PartialEq, Eq, PartialOrd, Ord)]
pub enum Ty {
    /// An unsigned integer, by its bits.
    Int(u64),
    /// A number of 64 bits that lies in memory of C's callers, as a `size_t`. It stands behind references alone.
    Size,
    Bool,
    Unit,
    /// A raw pointer, which does not say what it points to. What is stored in it says so.
    Ptr,
    Ref {
        mutable: bool,
        to: Box<Ty>,
    },
    Array(Box<Ty>, u64),
    Slice {
        mutable: bool,
        of: Box<Ty>,
    },
    Named(Named),
    /// A number, as the argument of a parameter that is one.
    Number(u64),
}

/// A declared type at the types and numbers that it takes.
#[derive(Clone, Debug, PartialEq, Eq, PartialOrd, Ord)]
pub struct Named {
    pub name: String,
    pub types: Vec<Ty>,
}

/// What answers for a bound: an impl, at the types and dictionaries that it takes.
#[derive(Clone, Debug, PartialEq, Eq, PartialOrd, Ord)]
pub struct Dictionary {
    pub name: String,
    pub types: Vec<Ty>,
    pub dictionaries: Vec<Dictionary>,
}

/// A function at the types, numbers and dictionaries that it takes.
#[derive(Clone, Debug, PartialEq, Eq, PartialOrd, Ord)]
pub struct Instance {
    pub name: String,
    pub types: Vec<Ty>,
    pub dictionaries: Vec<Dictionary>,
    /// The types of those parameters that hold references to sizes of C's callers, by their numbers.
    pub sizes: Vec<(usize, Ty)>,
}

/// What a declared type is made of.
#[derive(Clone, Debug, PartialEq)]
pub enum Shape {
    Fields(Vec<Ty>),
    Variants(Vec<Vec<Ty>>),
}

#[derive(Clone, Debug)]
pub enum Step {
    Deref(Ty),
    Field(usize),
    /// An enum seen as one of its variants: its tag, then that variant's fields.
    Variant(usize),
}

#[derive(Clone, Debug)]
pub struct Place {
    pub local: usize,
    pub steps: Vec<Step>,
}

#[derive(Clone, Debug)]
pub enum Operand {
    Copy(Place),
    /// Bits and value.
    Int(u64, u64),
    Bool(bool),
    Unit,
    /// A type's size in bytes, as the machine lays it out.
    SizeOf(Ty),
}

#[derive(Debug)]
pub enum Value {
    Operand(Operand),
    /// C's sign for the operation; both operands and the result have one type. Of two bools it is `|`, `&` or `^`.
    Arithmetic(&'static str, Operand, Operand),
    /// C's sign for the test; both operands have one type.
    Comparison(&'static str, Operand, Operand),
    /// A pointer moved by a count of bytes.
    Offset(Operand, Operand),
    Not(Operand),
    /// To an integer of so many bits.
    Cast(u64, Operand),
    AddressOf(Place),
    /// A struct of its fields, an array of its elements, or an enum of its tag and fields.
    Aggregate(Vec<Operand>),
    /// A shared reference to a constant of that type, in memory of its own that is never written.
    Lent(Ty, Constant),
}

/// A constant that is lent.
#[derive(Clone, Debug, PartialEq)]
pub enum Constant {
    /// Bits and value.
    Int(u64, u64),
    Bool(bool),
    Unit,
    /// An array of integers: bits and values.
    Ints(u64, Vec<u64>),
    Repeat(Box<Constant>, u64),
    /// A struct of its fields, an array of its elements, or an enum of its tag and fields.
    Parts(Vec<Constant>),
    /// A pointer to what lies so many bytes into the block of the constant.
    Here(u64),
    /// A constant, and what its pointers point to, which lies behind it in its block.
    Block(Box<Constant>, Vec<(Ty, Constant)>),
}

#[derive(Debug)]
pub struct Arm {
    pub keys: Vec<u64>,
    pub body: Vec<Statement>,
}

#[derive(Debug)]
pub enum Statement {
    Assign(Place, Value),
    Call {
        function: Instance,
        arguments: Vec<Operand>,
        result: Place,
    },
    If(Operand, Vec<Statement>, Vec<Statement>),
    /// With no default, a number that is no key has no meaning: a proved function never has one.
    Switch {
        on: Operand,
        arms: Vec<Arm>,
        default: Option<Vec<Statement>>,
    },
    /// Statements that an exit leaves.
    Block(Vec<Statement>),
    /// Statements that run again and again. An exit from them is their next turn.
    Loop(Vec<Statement>),
    /// Out of the block, or to the next turn of the loop, that stands around so many others that stand around this.
    Exit(usize),
    Return,
    /// A proved function never comes here.
    Unreachable,
}

#[derive(Debug)]
pub struct Function {
    pub instance: Instance,
    pub parameters: usize,
    /// The result, then the parameters, then the rest.
    pub locals: Vec<Ty>,
    pub body: Vec<Statement>,
}

pub struct Program {
    pub functions: Vec<Function>,
    pub shapes: BTreeMap<Named, Shape>,
}

impl fmt::Display for Ty {
    fn fmt(&self, out: &mut fmt::Formatter) -> fmt::Result {
        let word = |mutable: &bool| if *mutable { "mut " } else { "" };
        match self {
            Ty::Int(bits) => write!(out, "u{bits}"),
            Ty::Size => write!(out, "size_t"),
            Ty::Bool => write!(out, "bool"),
            Ty::Unit => write!(out, "()"),
            Ty::Ptr => write!(out, "a raw pointer"),
            Ty::Ref { mutable, to } => write!(out, "&{}{to}", word(mutable)),
            Ty::Array(of, length) => write!(out, "[{of}; {length}]"),
            Ty::Slice { mutable, of } => write!(out, "&{}[{of}]", word(mutable)),
            Ty::Named(named) => write!(out, "{named}"),
            Ty::Number(number) => write!(out, "{number}"),
        }
    }
}

/// Parts between angle brackets, if there are any.
fn listed<T: fmt::Display>(parts: &[T]) -> String {
    let texts: Vec<String> = parts.iter().map(T::to_string).collect();
    match texts.is_empty() {
        true => String::new(),
        false => format!("<{}>", texts.join(", ")),
    }
}

impl fmt::Display for Named {
    fn fmt(&self, out: &mut fmt::Formatter) -> fmt::Result {
        write!(out, "{}{}", self.name, listed(&self.types))
    }
}

impl fmt::Display for Instance {
    fn fmt(&self, out: &mut fmt::Formatter) -> fmt::Result {
        write!(out, "{}{}", self.name, listed(&self.types))
    }
}

impl Instance {
    /// A function that takes no types.
    pub fn plain(name: &str) -> Instance {
        Instance {
            name: name.to_string(),
            types: Vec::new(),
            dictionaries: Vec::new(),
            sizes: Vec::new(),
        }
    }
}

impl Named {
    /// A declared type that takes no types.
    pub fn plain(name: &str) -> Named {
        Named {
            name: name.to_string(),
            types: Vec::new(),
        }
    }
}

impl Ty {
    pub fn reference(mutable: bool, to: Ty) -> Ty {
        let to = Box::new(to);
        Ty::Ref { mutable, to }
    }

    /// Whether a value of type `from` may be stored as one of this type: it is the same, or a reference with no more rights,
    /// to the same or from an array to its elements. A raw pointer says nothing of what it points to.
    pub fn takes(&self, from: &Ty) -> bool {
        match (self, from) {
            (Ty::Ptr, Ty::Ref { .. }) | (Ty::Ref { .. }, Ty::Ptr) => true,
            (
                Ty::Ref { mutable, to },
                Ty::Ref {
                    mutable: given,
                    to: target,
                },
            ) => (*given || !mutable) && (to == target || target.elements() == Some(&**to)),
            _ => self == from,
        }
    }

    /// Whether a place may go through a value of this type to a value of that type. An array and its first element lie at one place.
    pub fn leads_to(&self, to: &Ty) -> bool {
        match self {
            Ty::Ref { to: target, .. } if **target == Ty::Size => *to == Ty::Int(64),
            Ty::Ref { to: target, .. } => {
                **target == *to || target.elements() == Some(to) || to.elements() == Some(&**target)
            }
            _ => false,
        }
    }

    /// The type with each number of 64 bits behind a shared reference in memory of C's callers.
    pub fn of_callers(&self) -> Ty {
        let own = |ty: &Ty| *ty == Ty::Int(64);
        match self {
            Ty::Ref { mutable: false, to } if own(to) => Ty::reference(false, Ty::Size),
            Ty::Slice { mutable: false, of } if own(of) => Ty::Slice {
                mutable: false,
                of: Box::new(Ty::Size),
            },
            _ => self.clone(),
        }
    }

    /// Whether a size of C's callers is among what the type says.
    pub fn has_sizes(&self) -> bool {
        match self {
            Ty::Size => true,
            Ty::Ref { to, .. } => to.has_sizes(),
            Ty::Slice { of, .. } | Ty::Array(of, _) => of.has_sizes(),
            Ty::Named(named) => named.types.iter().any(Ty::has_sizes),
            _ => false,
        }
    }

    /// The type with each of those sizes as a number of 64 bits.
    pub fn without_sizes(&self) -> Ty {
        match self {
            Ty::Size => Ty::Int(64),
            Ty::Ref { mutable, to } => Ty::reference(*mutable, to.without_sizes()),
            Ty::Slice { mutable, of } => {
                let (mutable, of) = (*mutable, Box::new(of.without_sizes()));
                Ty::Slice { mutable, of }
            }
            Ty::Array(of, length) => Ty::Array(Box::new(of.without_sizes()), *length),
            Ty::Named(Named { name, types }) => Ty::Named(Named {
                name: name.clone(),
                types: types.iter().map(Ty::without_sizes).collect(),
            }),
            other => other.clone(),
        }
    }

    /// The type of a value that is held, and not behind a reference: a size is a number then.
    pub fn held(self) -> Ty {
        match self {
            Ty::Size => Ty::Int(64),
            other => other,
        }
    }

    /// The type of an array's elements; of an array of arrays, that of the innermost ones, which lie in one row.
    pub fn elements(&self) -> Option<&Ty> {
        match self {
            Ty::Array(of, _) => Some(of.elements().unwrap_or(of)),
            _ => None,
        }
    }

    /// How many of those elements there are.
    pub fn count(&self) -> u64 {
        match self {
            Ty::Array(of, length) => of.count() * length,
            _ => 1,
        }
    }

    /// What a pointer of C points to, by a reference of this type, and whether it may be written: of an array its first element.
    pub fn pointee(&self) -> Answer<(bool, &Ty)> {
        match self {
            Ty::Ref { mutable, to } => Ok((*mutable, to.elements().unwrap_or(to))),
            other => Err(format!("{other} where a reference is expected")),
        }
    }
}

impl Program {
    pub fn function(&self, instance: &Instance) -> Answer<&Function> {
        let found = self
            .functions
            .iter()
            .find(|function| function.instance == *instance);
        found.ok_or_else(|| format!("the MIR has no function {instance}"))
    }

    /// A function that C calls, which takes no types.
    pub fn entry(&self, name: &str) -> Answer<&Function> {
        let found = self.functions.iter().find(|function| {
            let parameters = &function.locals[1..=function.parameters];
            let is_for_callers = parameters.iter().all(|ty| *ty == ty.of_callers());
            let Instance {
                name: own, types, ..
            } = &function.instance;
            own == name && types.is_empty() && is_for_callers
        });
        found.ok_or_else(|| format!("the MIR has no function {name}"))
    }

    pub fn shape(&self, named: &Named) -> Answer<&Shape> {
        let found = self.shapes.get(named);
        found.ok_or_else(|| format!("the MIR does not say what {named} is made of"))
    }

    /// Whether a value of the type says nothing, and lies in C as nothing: the unit, and what is made of it alone.
    pub fn is_nothing(&self, ty: &Ty) -> bool {
        match ty {
            Ty::Unit => true,
            Ty::Array(of, _) => self.is_nothing(of),
            Ty::Named(named) => match self.shapes.get(named) {
                Some(Shape::Fields(fields)) => fields.iter().all(|field| self.is_nothing(field)),
                _ => false,
            },
            _ => false,
        }
    }

    /// Bytes and alignment of a type, as the machine lays it out (Prog/Memory.antt). C's own layout may differ.
    pub fn layout(&self, ty: &Ty) -> Answer<(u64, u64)> {
        let (end, align) = match ty {
            Ty::Int(bits) => (bits / 8, bits / 8),
            Ty::Size => (8, 8),
            Ty::Bool => (1, 1),
            Ty::Unit => (0, 1),
            Ty::Ptr | Ty::Ref { .. } => (8, 8),
            Ty::Slice { .. } => (16, 8),
            Ty::Array(of, length) => {
                let (size, align) = self.layout(of)?;
                (size * length, align)
            }
            Ty::Number(number) => return Err(format!("the size of the number {number}")),
            Ty::Named(named) => match self.shape(named)? {
                Shape::Fields(fields) => self.behind(0, fields)?,
                Shape::Variants(variants) => {
                    let mut whole = (1, 1);
                    for fields in variants {
                        let (end, align) = self.behind(1, fields)?;
                        whole = (whole.0.max(end), whole.1.max(align));
                    }
                    whole
                }
            },
        };
        Ok((end.next_multiple_of(align), align))
    }

    /// Where each of some values lies that lie one behind the other, in bytes.
    pub fn places(&self, types: &[Ty]) -> Answer<Vec<u64>> {
        let places = (0..types.len()).map(|number| {
            let (end, _) = self.behind(0, &types[..number])?;
            Ok(end.next_multiple_of(self.layout(&types[number])?.1))
        });
        places.collect()
    }

    /// Where fields end that lie one behind the other from `start` on, and the largest alignment among them.
    fn behind(&self, start: u64, fields: &[Ty]) -> Answer<(u64, u64)> {
        fields.iter().try_fold((start, 1), |(end, most), field| {
            let (size, align) = self.layout(field)?;
            Ok((end.next_multiple_of(align) + size, most.max(align)))
        })
    }
}

impl Statement {
    /// The statement, and those within it, in the order written.
    pub fn all(&self) -> Vec<&Statement> {
        let inner: Vec<&[Statement]> = match self {
            Statement::If(_, yes, no) => vec![yes, no],
            Statement::Switch { arms, default, .. } => {
                let arms = arms.iter().map(|arm| arm.body.as_slice());
                arms.chain(default.as_deref()).collect()
            }
            Statement::Block(inner) | Statement::Loop(inner) => vec![inner],
            _ => Vec::new(),
        };
        let within = inner.into_iter().flatten().flat_map(Statement::all);
        std::iter::once(self).chain(within).collect()
    }

    /// The operands that the statement itself reads.
    pub fn operands(&self) -> Vec<&Operand> {
        match self {
            Statement::Assign(_, value) => value.operands(),
            Statement::Call { arguments, .. } => arguments.iter().collect(),
            Statement::If(on, ..) | Statement::Switch { on, .. } => vec![on],
            _ => Vec::new(),
        }
    }

    /// The places that the statement itself reads, and those that it stores at or takes the address of.
    pub fn places(&self) -> (Vec<&Place>, Vec<&Place>) {
        let read = self
            .operands()
            .into_iter()
            .filter_map(|operand| match operand {
                Operand::Copy(place) => Some(place),
                _ => None,
            });
        let pointed = match self {
            Statement::Assign(_, Value::AddressOf(place)) => Some(place),
            _ => None,
        };
        (
            read.collect(),
            pointed.into_iter().chain(self.target()).collect(),
        )
    }

    /// Where the statement stores a value.
    pub fn target(&self) -> Option<&Place> {
        match self {
            Statement::Assign(place, _) | Statement::Call { result: place, .. } => Some(place),
            _ => None,
        }
    }
}

impl Value {
    fn operands(&self) -> Vec<&Operand> {
        match self {
            Value::Operand(of) | Value::Not(of) | Value::Cast(_, of) => vec![of],
            Value::Arithmetic(_, left, right)
            | Value::Comparison(_, left, right)
            | Value::Offset(left, right) => vec![left, right],
            Value::AddressOf(_) | Value::Lent(..) => Vec::new(),
            Value::Aggregate(parts) => parts.iter().collect(),
        }
    }
}

impl Function {
    /// Every statement of the function, in the order written.
    pub fn statements(&self) -> impl Iterator<Item = &Statement> {
        self.body.iter().flat_map(Statement::all)
    }

    /// The functions that this one calls.
    pub fn calls(&self) -> impl Iterator<Item = &Instance> {
        self.statements().filter_map(|statement| match statement {
            Statement::Call { function, .. } => Some(function),
            _ => None,
        })
    }
}
