//! The program that some functions reach: each function of MIR at each choice of types, numbers and dictionaries at which it is called.

use crate::json::Json;
use crate::libraries::{Libraries, Position};
use crate::mir::{
    Function, Instance, Named, Operand, Place, Program, Shape, Statement, Step, Ty, Value,
};
use crate::read::{
    count, declare, most_local, Declared, Forms, FUNCTION, GENERICS, MAY_BE_IN_GENERICS,
};
use crate::Answer;
use std::cell::RefCell;
use std::collections::{BTreeMap, BTreeSet};

/// Reads the functions that these reach, which take no types. Sizes that C's callers lend to these lie as `size_t`.
pub fn program(libraries: &Libraries, first: &[String]) -> Answer<Program> {
    let mut instances = Instances {
        libraries,
        known: RefCell::default(),
        done: BTreeMap::new(),
        open: BTreeSet::new(),
    };
    let mut waiting = Vec::new();
    for name in first {
        let entry = instances.entry(name)?;
        instances.take(&entry)?;
        waiting.push(entry);
    }
    let reached = reached(waiting, &instances.done);
    let done = std::mem::take(&mut instances.done).into_iter();
    let mut functions: Vec<_> = done
        .filter(|(instance, _)| reached.contains(instance))
        .map(|(instance, (position, function))| ((position, instance), function))
        .collect();
    functions.sort_by(|(one, _), (other, _)| one.cmp(other));
    Ok(Program {
        functions: functions
            .into_iter()
            .map(|(_, function)| function)
            .collect(),
        shapes: instances.known.into_inner().shapes,
    })
}

type Done = BTreeMap<Instance, (Position, Function)>;

fn reached(mut waiting: Vec<Instance>, done: &Done) -> BTreeSet<Instance> {
    let mut reached = BTreeSet::new();
    while let Some(instance) = waiting.pop() {
        if let Some((_, function)) = done.get(&instance) {
            if reached.insert(instance) {
                waiting.extend(function.calls().cloned());
            }
        }
    }
    reached
}

struct Instances<'a> {
    libraries: &'a Libraries,
    known: RefCell<Declared>,
    done: Done,
    /// Those being read, which may call themselves.
    open: BTreeSet<Instance>,
}

impl Instances<'_> {
    fn forms<'b>(&'b self, instance: &'b Instance) -> Forms<'b> {
        Forms {
            types: &instance.types,
            dictionaries: &instance.dictionaries,
            known: &self.known,
        }
    }

    /// A function that C calls.
    fn entry(&self, name: &str) -> Answer<Instance> {
        let mut entry = Instance::plain(name);
        let refused = |why| format!("{name}: {why}");
        for (number, ty) in self.parameters(&entry).map_err(refused)?.iter().enumerate() {
            if ty.of_callers() != *ty {
                entry.sizes.push((number, ty.of_callers()));
            }
        }
        Ok(entry)
    }

    /// The types of a function's parameters, as it is declared.
    fn parameters(&self, instance: &Instance) -> Answer<Vec<Ty>> {
        let (_, found) = self.libraries.function(&instance.name)?;
        let [_, _, parameters, generics, types, locals, _] = found.fields(FUNCTION)?;
        let [_, _, _, _, _, impls] = generics.fields_and(GENERICS, &MAY_BE_IN_GENERICS)?;
        declare(types, impls, &self.known)?;
        let locals = locals.list()?.iter().skip(1).take(count(parameters)?);
        locals
            .map(|found| self.forms(instance).local(found))
            .collect()
    }

    /// Reads an instance and what it calls.
    fn take(&mut self, instance: &Instance) -> Answer<()> {
        if self.done.contains_key(instance) || !self.open.insert(instance.clone()) {
            return Ok(());
        }
        let (position, found) = self.libraries.function(&instance.name)?;
        let refused = |why| format!("{instance}: {why}");
        let mut function = self.read(instance, &found).map_err(refused)?;
        self.settle(&mut function)?;
        self.open.remove(instance);
        self.done.insert(instance.clone(), (position, function));
        Ok(())
    }

    fn read(&self, instance: &Instance, found: &Json) -> Answer<Function> {
        let [_, _, parameters, generics, types, locals, body] = found.fields(FUNCTION)?;
        let [of, _, bounds, _, _, impls] = generics.fields_and(GENERICS, &MAY_BE_IN_GENERICS)?;
        let wanted = (of.list()?.len(), bounds.list()?.len());
        let given = (instance.types.len(), instance.dictionaries.len());
        if wanted != given {
            return Err(format!(
                "{} types and {} dictionaries for a function that takes {} and {}",
                given.0, given.1, wanted.0, wanted.1
            ));
        }
        declare(types, impls, &self.known)?;
        let forms = self.forms(instance);
        forms.plain_types(types)?;
        let locals = locals.list()?.iter().map(|found| forms.local(found));
        let mut function = Function {
            instance: instance.clone(),
            parameters: count(parameters)?,
            locals: locals.collect::<Answer<_>>()?,
            body: forms.body(body)?,
        };
        match most_local(body) {
            Some(number) if number >= function.locals.len() => {
                return Err(format!("there is no local {number}"))
            }
            _ if function.parameters >= function.locals.len() => {
                return Err("it has more parameters than locals".to_string())
            }
            _ => {}
        }
        for (number, ty) in &instance.sizes {
            function.locals[number + 1] = ty.clone();
        }
        Ok(function)
    }

    // ---- sizes of C's callers

    /// Finds which locals hold references to sizes of C's callers, and reads what is called, at the types that it is given.
    fn settle(&mut self, function: &mut Function) -> Answer<()> {
        loop {
            let mut found = Vec::new();
            for statement in function.statements() {
                let (place, ty) = match statement {
                    Statement::Assign(place, value) => {
                        let into = &function.locals[place.local];
                        (place, self.type_of(&function.locals, into, value))
                    }
                    Statement::Call {
                        function: callee,
                        arguments,
                        result,
                    } => (result, self.result(&function.locals, callee, arguments)?),
                    _ => continue,
                };
                if let (Some(ty), []) = (ty, place.steps.as_slice()) {
                    found.push((place.local, ty));
                }
            }
            if !take_sizes(&mut function.locals, found) {
                break;
            }
        }
        let locals = function.locals.clone();
        for_each_call(&mut function.body, &mut |callee, arguments| {
            *callee = self.called(&locals, callee, arguments)?;
            Ok(())
        })
    }

    /// What a call gives, as far as that is known.
    fn result(
        &mut self,
        locals: &[Ty],
        callee: &Instance,
        arguments: &[Operand],
    ) -> Answer<Option<Ty>> {
        let called = self.called(locals, callee, arguments)?;
        self.take(&called)?;
        let done = self.done.get(&called);
        Ok(done.map(|(_, function)| function.locals[0].clone()))
    }

    /// What is called where the arguments hold sizes of C's callers: the function at other types, or for other parameters.
    fn called(&self, locals: &[Ty], callee: &Instance, arguments: &[Operand]) -> Answer<Instance> {
        let mut called = callee.clone();
        let given: Vec<_> = arguments
            .iter()
            .map(|of| self.type_of_operand(locals, of))
            .collect();
        if !given.iter().flatten().any(Ty::has_sizes) {
            return Ok(called);
        }
        let (_, found) = self.libraries.function(&callee.name)?;
        let [_, _, _, _, _, all, _] = found.fields(FUNCTION)?;
        for (local, given) in all.list()?.iter().skip(1).zip(&given) {
            if let Some(given) = given {
                let [expected, _] = local.fields(["ty", "home"])?;
                Forms::refine(expected, given, &mut called.types)?;
            }
        }
        let expected = self.parameters(&called)?;
        for (number, (expected, given)) in expected.iter().zip(given).enumerate() {
            match given {
                Some(given) if is_but_for_sizes(expected, &given) => {
                    called.sizes.push((number, given))
                }
                _ => {}
            }
        }
        Ok(called)
    }

    fn type_of_operand(&self, locals: &[Ty], operand: &Operand) -> Option<Ty> {
        match operand {
            Operand::Copy(place) => Some(self.type_at(locals, place)?.held()),
            _ => None,
        }
    }

    /// The type of a value that is stored as such, where it may hold sizes of C's callers.
    fn type_of(&self, locals: &[Ty], into: &Ty, value: &Value) -> Option<Ty> {
        match value {
            Value::Operand(of) | Value::Offset(of, _) => self.type_of_operand(locals, of),
            Value::AddressOf(place) => self.type_of_address(locals, into, place),
            Value::Aggregate(parts) => self.type_of_parts(locals, into, parts),
            _ => None,
        }
    }

    fn type_of_address(&self, locals: &[Ty], into: &Ty, place: &Place) -> Option<Ty> {
        match (place.steps.split_last(), into) {
            (Some((Step::Deref(_), before)), _) => {
                let (local, steps) = (place.local, before.to_vec());
                self.type_at(locals, &Place { local, steps })
            }
            (_, Ty::Ref { mutable, .. }) => {
                Some(Ty::reference(*mutable, self.type_at(locals, place)?))
            }
            _ => None,
        }
    }

    fn type_of_parts(&self, locals: &[Ty], into: &Ty, parts: &[Operand]) -> Option<Ty> {
        let given = |part: &Operand| self.type_of_operand(locals, part).unwrap_or(Ty::Unit);
        let (variant, fields) = match (into, parts) {
            (Ty::Slice { mutable, .. }, [at, _]) => match given(at) {
                Ty::Ref { to, .. } if *to == Ty::Size => {
                    let (mutable, of) = (*mutable, to);
                    return Some(Ty::Slice { mutable, of });
                }
                _ => return None,
            },
            (Ty::Named(named), _) => match (self.known.borrow().shapes.get(named), parts) {
                (Some(Shape::Fields(_)), fields) => (None, fields),
                (Some(Shape::Variants(_)), [Operand::Int(8, tag), fields @ ..]) => {
                    (Some(*tag as usize), fields)
                }
                _ => return None,
            },
            _ => return None,
        };
        let given: Vec<Ty> = fields.iter().map(given).collect();
        match into {
            Ty::Named(named) if given.iter().any(Ty::has_sizes) => {
                let forms = self.forms_of_none();
                Some(Ty::Named(forms.refined(named, variant, &given).ok()?))
            }
            _ => None,
        }
    }

    fn forms_of_none(&self) -> Forms<'_> {
        Forms {
            types: &[],
            dictionaries: &[],
            known: &self.known,
        }
    }

    /// The type of what is stored at a place, where it may hold sizes of C's callers.
    fn type_at(&self, locals: &[Ty], place: &Place) -> Option<Ty> {
        let mut ty = locals[place.local].clone();
        let mut variant = None;
        for step in &place.steps {
            ty = match (step, &ty) {
                (Step::Deref(_), Ty::Ref { to, .. }) if to.has_sizes() => (**to).clone(),
                (Step::Deref(to), _) => to.clone(),
                (Step::Variant(chosen), _) => {
                    variant = Some(*chosen);
                    continue;
                }
                (Step::Field(0), Ty::Slice { mutable, of }) => {
                    Ty::reference(*mutable, (**of).clone())
                }
                (Step::Field(number), Ty::Named(named)) => self.field(named, variant, *number)?,
                _ => return None,
            };
            variant = None;
        }
        Some(ty)
    }

    fn field(&self, named: &Named, variant: Option<usize>, number: usize) -> Option<Ty> {
        match (self.known.borrow().shapes.get(named)?, variant) {
            (Shape::Fields(fields), None) => fields.get(number).cloned(),
            (Shape::Variants(variants), Some(chosen)) => {
                let fields = variants.get(chosen)?;
                fields.get(number.checked_sub(1)?).cloned()
            }
            _ => None,
        }
    }
}

/// Whether a type is expected that differs in sizes of C's callers alone.
fn is_but_for_sizes(expected: &Ty, given: &Ty) -> bool {
    let plain = given.without_sizes();
    given.has_sizes() && expected != given && (*expected == plain || *expected == Ty::Ptr)
}

/// Takes the types that hold sizes of C's callers, and says whether a local has another type now.
fn take_sizes(locals: &mut [Ty], found: Vec<(usize, Ty)>) -> bool {
    let mut has_changed = false;
    for (local, ty) in found {
        if is_but_for_sizes(&locals[local], &ty) && !locals[local].has_sizes() {
            locals[local] = ty;
            has_changed = true;
        }
    }
    has_changed
}

/// Each call within the statements.
fn for_each_call(
    statements: &mut [Statement],
    found: &mut impl FnMut(&mut Instance, &[Operand]) -> Answer<()>,
) -> Answer<()> {
    for statement in statements {
        match statement {
            Statement::Call {
                function,
                arguments,
                ..
            } => found(function, arguments)?,
            Statement::If(_, yes, no) => {
                for_each_call(yes, found)?;
                for_each_call(no, found)?;
            }
            Statement::Switch { arms, default, .. } => {
                for arm in arms {
                    for_each_call(&mut arm.body, found)?;
                }
                for_each_call(default.as_deref_mut().unwrap_or_default(), found)?;
            }
            Statement::Block(inner) | Statement::Loop(inner) => for_each_call(inner, found)?,
            _ => {}
        }
    }
    Ok(())
}
