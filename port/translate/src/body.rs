//! A function of MIR as one of C: a statement for a statement, in unsigned arithmetic. Every type is checked on the way.

use crate::mir::{
    Arm, Constant, Function, Instance, Operand, Place, Shape, Statement, Step, Ty, Value,
};
use crate::types::{declarator, function_name, integer, local, Types};
use crate::Answer;
use std::collections::{BTreeMap, BTreeSet};
use std::fmt::Write;

/// An expression of C, and its type in MIR.
struct Term {
    text: String,
    ty: Ty,
}

fn term(text: String, ty: Ty) -> Term {
    Term { text, ty }
}

/// What is stored at a place of MIR.
struct Stored {
    term: Term,
    /// It lies in C as a size_t, and is read as a usize.
    is_size: bool,
    /// It is an array behind a reference, and the text is a pointer to its first element.
    is_behind: bool,
}

/// What stands around a statement.
enum Around {
    /// What an exit may leave or run again.
    Frame(Frame),
    Switch,
}

/// A block or a loop, by the number of its label.
#[derive(Clone, Copy)]
struct Frame {
    label: usize,
    kind: Kind,
}

#[derive(Clone, Copy, PartialEq)]
enum Kind {
    Block,
    /// A block of a loop alone: to leave it is to leave the loop.
    BlockOfLoop,
    Loop,
}

/// A function being printed.
pub struct Body<'a> {
    types: Types<'a>,
    function: &'a Function,
    /// The types of the locals, with the raw pointers' own.
    pub locals: Vec<Ty>,
    is_read: Vec<bool>,
    /// The constants that it lends, and their types.
    lent: Vec<(&'a Ty, &'a Constant)>,
    around: Vec<Around>,
    /// How many labels there are, and which a goto names.
    labels: usize,
    named: BTreeSet<usize>,
    out: String,
}

impl<'a> Body<'a> {
    pub fn of(types: Types<'a>, function: &'a Function) -> Answer<Body<'a>> {
        let mut body = Body {
            types,
            function,
            locals: function.locals.clone(),
            is_read: vec![false; function.locals.len()],
            lent: Vec::new(),
            around: Vec::new(),
            labels: 0,
            named: BTreeSet::new(),
            out: String::new(),
        };
        body.is_read[0] = true;
        while body.find_reads()? {}
        for statement in function.statements() {
            if let Statement::Assign(place, Value::Lent(of, what)) = statement {
                body.note_lent(place.local, of, what);
            }
        }
        while body.find_pointees()? {}
        let is_open = |local: &usize| body.locals[*local] == Ty::Ptr && body.is_read[*local];
        match (function.parameters + 1..body.locals.len()).any(|local| is_open(&local)) {
            true => Err("a raw pointer in which nothing is stored".to_string()),
            false => Ok(body),
        }
    }

    /// Finds which locals are read by a statement that is printed: copied, pointed to, gone through, or returned. Whether there are more now.
    fn find_reads(&mut self) -> Answer<bool> {
        let mut found = Vec::new();
        for statement in self.function.statements() {
            if let (Statement::Assign(to, _), None) = (statement, self.stored_at(statement)?) {
                self.place(to.local, &to.steps)?;
                continue;
            }
            let (read, _) = statement.places();
            let pointed = match statement {
                Statement::Assign(_, Value::AddressOf(place)) => Some(place),
                _ => None,
            };
            for place in read.into_iter().chain(pointed) {
                let goes_through = pointed.is_some_and(|place| place.steps.iter().any(is_deref));
                let ty = self.place(place.local, &place.steps)?.term.ty;
                if !self.is_read[place.local] && (goes_through || !self.types.is_nothing(&ty)) {
                    found.push(place.local);
                }
            }
            found.extend(
                self.stored_at(statement)?
                    .filter(|local| !self.is_read[*local]),
            );
        }
        for local in &found {
            self.is_read[*local] = true;
        }
        Ok(!found.is_empty())
    }

    /// The local at or through which a statement stores a value that matters.
    fn stored_at(&self, statement: &Statement) -> Answer<Option<usize>> {
        let Some(Place { local, steps }) = statement.target() else {
            return Ok(None);
        };
        let place = self.place(*local, steps)?;
        let is_kept = self.is_read[*local] || steps.iter().any(is_deref);
        Ok((is_kept && !self.types.is_nothing(&place.term.ty)).then_some(*local))
    }

    /// Takes note of a constant that is lent to a local which is read.
    fn note_lent(&mut self, local: usize, of: &'a Ty, what: &'a Constant) {
        let is_there = self.types.is_nothing(of) || self.lent.contains(&(of, what));
        if self.is_read[local] && !is_there {
            self.lent.push((of, what));
        }
    }

    /// The types of the constants that it lends, and of what they point to: of arrays, those of the elements.
    pub fn lent_types(&self) -> Vec<&'a Ty> {
        let mut types: Vec<&Ty> = Vec::new();
        for (of, what) in &self.lent {
            types.push(of);
            if let Constant::Block(_, parts) = what {
                types.extend(parts.iter().map(|(ty, _)| ty));
            }
        }
        types
            .into_iter()
            .map(|ty| ty.elements().unwrap_or(ty))
            .collect()
    }

    // ---- raw pointers

    /// A raw pointer gets the type of what is stored in it. Every value that is stored in one must have the same type. Whether a local has
    /// another type now.
    fn find_pointees(&mut self) -> Answer<bool> {
        let before = self.locals.clone();
        for statement in self.function.statements() {
            if let Statement::Assign(Place { local, steps }, from) = statement {
                if self.is_raw(*local) && steps.is_empty() {
                    self.point(*local, self.pointer(from)?)?;
                }
            }
        }
        if self.locals != before {
            return Ok(true);
        }
        // What came from a field of a struct or as a parameter says nothing of it: then its use does.
        for statement in self.function.statements() {
            for (local, ty) in self.uses(statement)? {
                if self.is_raw(local) && before[local] == Ty::Ptr && ty != Ty::Ptr {
                    let (mutable, to) = ty.pointee()?;
                    let is_mutable = match &self.locals[local] {
                        Ty::Ref { mutable, .. } => *mutable,
                        _ => false,
                    };
                    let found = Ty::reference(mutable || is_mutable, to.clone());
                    self.locals[local] = found;
                }
            }
        }
        Ok(self.locals != before)
    }

    /// Whether a local is a raw pointer that C may declare with the type of what it points to.
    fn is_raw(&self, local: usize) -> bool {
        self.function.locals[local] == Ty::Ptr && local > 0
    }

    /// What the use of locals says of what they point to.
    fn uses(&self, statement: &Statement) -> Answer<Vec<(usize, Ty)>> {
        let mut found = Vec::new();
        let (read, others) = statement.places();
        for (places, mutable) in [(read, false), (others, true)] {
            for Place { local, steps } in places {
                if let Some(Step::Deref(to)) = steps.first() {
                    found.push((*local, Ty::reference(mutable, to.clone())));
                }
            }
        }
        match statement {
            // A raw pointer that another is made from points to the same.
            Statement::Assign(
                Place { local, steps },
                Value::Operand(Operand::Copy(from)) | Value::Offset(Operand::Copy(from), _),
            ) if steps.is_empty() && from.steps.is_empty() => {
                found.push((from.local, self.locals[*local].clone()));
            }
            Statement::Call {
                function,
                arguments,
                ..
            } => {
                let wanted = parameters(self.types, self.types.program.function(function)?)?;
                for (argument, wanted) in arguments.iter().zip(wanted) {
                    match argument {
                        Operand::Copy(Place { local, steps }) if steps.is_empty() => {
                            found.push((*local, wanted))
                        }
                        _ => {}
                    }
                }
            }
            _ => {}
        }
        Ok(found)
    }

    /// The type of a value that is stored in a raw pointer; a raw pointer's where nothing says what it points to.
    fn pointer(&self, from: &Value) -> Answer<Ty> {
        match from {
            Value::Offset(base, _) => Ok(self.operand(base)?.ty),
            from => Ok(self.value(&Ty::Ptr, from)?.ty),
        }
    }

    fn point(&mut self, local: usize, ty: Ty) -> Answer<()> {
        if ty == Ty::Ptr {
            return Ok(());
        }
        let (mutable, to) = ty.pointee()?;
        let found = Ty::reference(mutable, to.clone());
        match &self.locals[local] {
            Ty::Ptr => self.locals[local] = found,
            before if *before == found => {}
            before => return Err(format!("a raw pointer holds {before} and {found}")),
        }
        Ok(())
    }

    pub fn print(mut self) -> Answer<String> {
        self.out = format!(
            "\n/* {} */\nstatic {}\n{{\n",
            self.function.instance,
            self.signature()?
        );
        for (number, ty) in self.locals.clone().iter().enumerate() {
            let is_parameter = (1..=self.function.parameters).contains(&number);
            match (is_parameter, self.is_read[number]) {
                _ if self.types.is_nothing(ty) => {}
                (true, false) => self.line(1, &format!("(void){};", local(number))),
                (false, true) => {
                    let declared = declarator(&self.types.name(ty)?, &local(number));
                    self.line(1, &format!("{declared};"));
                }
                _ => {}
            }
        }
        for (number, (of, what)) in self.lent.clone().into_iter().enumerate() {
            for constant in lent_constants(self.types, &lent(number), of, what)? {
                self.line(1, &constant);
            }
        }
        self.statements(&self.function.body, 1)?;
        self.out += "}\n";
        Ok(self.out)
    }

    /// The head of the function, without `static`.
    pub fn signature(&self) -> Answer<String> {
        let parameters = &self.locals[1..=self.function.parameters];
        self.types
            .signature(&self.function.instance, &self.locals[0], parameters)
    }

    // ---- places

    /// What is stored at a place, as C names it.
    fn place(&self, number: usize, steps: &[Step]) -> Answer<Stored> {
        let mut text = local(number);
        let mut ty = self.locals[number].clone();
        let mut behind = false; // the text is a pointer to what is meant
        let mut is_size = false;
        let mut variant = None;
        for step in steps {
            match (step, variant.take()) {
                (Step::Deref(to), None) if ty == Ty::Ptr || ty.leads_to(to) => {
                    text = if behind { format!("(*{text})") } else { text };
                    if ty == Ty::Ptr {
                        text = self.raw_pointer(&text, to)?;
                    }
                    is_size = matches!(&ty, Ty::Ref { to, .. } if **to == Ty::Size);
                    (behind, ty) = (true, to.clone());
                }
                (Step::Variant(chosen), None) => variant = Some(*chosen),
                (Step::Field(number), chosen) => {
                    let fields = self.types.fields(&ty, chosen)?;
                    let field = fields.into_iter().nth(*number);
                    let field = field.ok_or_else(|| format!("{ty} has no field {number} here"))?;
                    text = format!("{text}{}{}", if behind { "->" } else { "." }, field.name);
                    (behind, is_size) = (false, field.is_size);
                    ty = field.ty;
                }
                _ => return Err(format!("a place that goes from {ty} by {step:?}")),
            }
        }
        let is_behind = behind && ty.elements().is_some();
        if behind && !is_behind {
            text = format!("*{text}");
        }
        match variant {
            Some(_) => Err("a variant as a whole".to_string()),
            None => Ok(Stored {
                term: term(text, ty),
                is_size,
                is_behind,
            }),
        }
    }

    /// What a struct or a parameter has as a `void *`, as a pointer to that type.
    fn raw_pointer(&self, text: &str, to: &Ty) -> Answer<String> {
        let pointer = self.types.name(&Ty::reference(true, to.clone()))?;
        Ok(format!("(({pointer}){text})"))
    }

    fn read_place(&self, place: &Place) -> Answer<Term> {
        match self.place(place.local, &place.steps)? {
            Stored {
                term: Term { ty, .. },
                is_behind: true,
                ..
            } if !self.types.is_nothing(&ty) => Err(format!("{ty} as a whole behind a reference")),
            Stored {
                term: Term { text, ty },
                is_size: true,
                ..
            } => Ok(term(format!("(usize){text}"), ty)),
            Stored { term, .. } => Ok(term),
        }
    }

    /// Of what a reference points to, the reference; of a local or a part of it, its address: of an array, that of its first element.
    fn address(&self, place: &Place) -> Answer<Term> {
        if let Some((Step::Deref(to), before)) = place.steps.split_last() {
            let reference = self.place(place.local, before)?.term;
            return match &reference.ty {
                Ty::Ptr => Ok(term(reference.text, Ty::Ptr)),
                Ty::Ref { to: target, .. } if **target == Ty::Size => Ok(reference),
                Ty::Ref { mutable, .. } if reference.ty.leads_to(to) => {
                    Ok(term(reference.text, Ty::reference(*mutable, to.clone())))
                }
                other => Err(format!("{other} taken as a reference to {to}")),
            };
        }
        let Stored {
            term: Term { text, ty },
            is_size,
            ..
        } = self.place(place.local, &place.steps)?;
        match &ty {
            _ if is_size => Ok(term(format!("&{text}"), Ty::reference(false, Ty::Size))),
            // Nothing lies there, and nothing is read or stored there.
            _ if self.types.is_nothing(&ty) => {
                Ok(term("NULL".to_string(), Ty::reference(true, ty)))
            }
            Ty::Array(..) => Ok(term(format!("{text}.at"), Ty::reference(true, ty))),
            _ => Ok(term(format!("&{text}"), Ty::reference(true, ty))),
        }
    }

    /// Where a value is stored, if it is ever read: what says nothing never is, nor a local that nothing reads.
    fn target(&self, place: &Place) -> Answer<(Ty, Option<Stored>)> {
        let stored = self.place(place.local, &place.steps)?;
        let Term { text, ty } = &stored.term;
        let matters = !self.types.is_nothing(ty) && self.is_read[place.local];
        match stored.is_size {
            true => Err(format!("a store to {text}, which is a size_t of C")),
            false => Ok((ty.clone(), matters.then_some(stored))),
        }
    }

    // ---- values

    fn operand(&self, operand: &Operand) -> Answer<Term> {
        match operand {
            Operand::Copy(place) => self.read_place(place),
            Operand::Int(bits, number) => Ok(term(format!("{number}u"), Ty::Int(*bits))),
            Operand::Bool(value) => Ok(term(value.to_string(), Ty::Bool)),
            Operand::Unit => Ok(term(String::new(), Ty::Unit)),
            Operand::SizeOf(of) => {
                let (size, _) = self.types.program.layout(of)?;
                Ok(term(format!("{size}u"), Ty::Int(64)))
            }
        }
    }

    /// The operand's text, where a value of type `into` is wanted.
    fn operand_as(&self, into: &Ty, operand: &Operand) -> Answer<String> {
        let found = self.operand(operand)?;
        match operand {
            // A raw pointer to an array's first element is one to the array.
            Operand::Copy(Place { local, steps })
                if steps.is_empty()
                    && self.is_raw(*local)
                    && matches!((into.pointee(), found.ty.pointee()), (Ok(one), Ok(other)) if one.1 == other.1 && one.0 <= other.0) =>
            {
                Ok(found.text)
            }
            _ => self.fitted(into, found, "where", "is wanted"),
        }
    }

    /// The text of a value that is stored as one of type `into`.
    fn fitted(&self, into: &Ty, found: Term, before: &str, behind: &str) -> Answer<String> {
        let Term { text, ty } = found;
        match (into, &ty) {
            _ if !into.takes(&ty) => Err(format!("{ty} {before} {into} {behind}")
                .trim_end()
                .to_string()),
            (Ty::Ptr, Ty::Ref { mutable: false, .. }) => Ok(format!("(void *){text}")),
            _ => Ok(text),
        }
    }

    /// The operands of an operation, which have one type.
    fn pair(&self, sign: &str, left: &Operand, right: &Operand) -> Answer<(String, String, Ty)> {
        let (left, right) = (self.operand(left)?, self.operand(right)?);
        match left.ty == right.ty {
            true => Ok((left.text, right.text, left.ty)),
            false => Err(format!("{} {sign} {}", left.ty, right.ty)),
        }
    }

    /// A value. What it is stored as matters to an aggregate alone.
    fn value(&self, into: &Ty, value: &Value) -> Answer<Term> {
        match value {
            Value::Operand(of) => self.operand(of),
            Value::Not(of) => self.not(of),
            Value::Cast(bits, of) => match self.operand(of)? {
                Term {
                    text,
                    ty: Ty::Int(_) | Ty::Bool,
                } => Ok(term(format!("({}){text}", integer(*bits)), Ty::Int(*bits))),
                Term { ty, .. } => Err(format!("a cast of {ty}")),
            },
            Value::Comparison(sign, left, right) => match self.pair(sign, left, right)? {
                (a, b, Ty::Int(_)) => Ok(term(format!("{a} {sign} {b}"), Ty::Bool)),
                (a, b, Ty::Bool) if matches!(*sign, "==" | "!=") => {
                    Ok(term(format!("{a} {sign} {b}"), Ty::Bool))
                }
                (_, _, ty) => Err(format!("{ty} {sign} {ty}")),
            },
            Value::Arithmetic(sign, left, right) => self.arithmetic(sign, left, right),
            Value::Offset(base, bytes) => self.offset(into, base, bytes),
            Value::AddressOf(place) => self.address(place),
            Value::Lent(of, what) => self.lent_reference(of, what),
            Value::Aggregate(parts) => Ok(term(self.aggregate(into, parts)?, into.clone())),
        }
    }

    /// A reference to a constant that is lent. The name of an array stands for the address of its first element.
    fn lent_reference(&self, of: &Ty, what: &Constant) -> Answer<Term> {
        let reference = Ty::reference(false, of.clone());
        if self.types.is_nothing(of) {
            return Ok(term("NULL".to_string(), reference));
        }
        let found = self.lent.iter().position(|one| *one == (of, what));
        let number = found.ok_or("a constant that is lent to no local")?;
        let sign = if of.elements().is_some() { "" } else { "&" };
        Ok(term(format!("{sign}{}", lent(number)), reference))
    }

    fn not(&self, of: &Operand) -> Answer<Term> {
        let Term { text, ty } = self.operand(of)?;
        let text = match ty {
            Ty::Bool => format!("!{text}"),
            Ty::Int(bits @ (8 | 16)) => format!("(uint{bits}_t)~(uint32_t){text}"),
            Ty::Int(bits) => format!("~({}){text}", integer(bits)),
            other => return Err(format!("the bits of {other}")),
        };
        Ok(term(text, ty))
    }

    /// In MIR a result that does not fit its type has no meaning, and is proved not to come up.
    fn arithmetic(&self, sign: &str, left: &Operand, right: &Operand) -> Answer<Term> {
        let (a, b, ty) = self.pair(sign, left, right)?;
        let text = match ty {
            // C computes with at least 32 bits: what is narrower is widened without a sign first, then cut.
            Ty::Int(bits @ (8 | 16)) => {
                format!("(uint{bits}_t)((uint32_t){a} {sign} (uint32_t){b})")
            }
            // A constant of C may have fewer bits than its type here.
            Ty::Int(bits) if matches!(left, Operand::Int(..) | Operand::SizeOf(_)) => {
                format!("({}){a} {sign} {b}", integer(bits))
            }
            Ty::Int(_) => format!("{a} {sign} {b}"),
            Ty::Bool if sign == "^" => format!("{a} != {b}"),
            Ty::Bool if matches!(sign, "|" | "&") => format!("{a} {sign}{sign} {b}"),
            other => return Err(format!("{other} {sign} {other}")),
        };
        Ok(term(text, ty))
    }

    /// A pointer moved by a count of the machine's bytes: in C by as many elements as that is.
    fn offset(&self, into: &Ty, base: &Operand, bytes: &Operand) -> Answer<Term> {
        let Term { mut text, mut ty } = self.operand(base)?;
        let bytes = self.operand_as(&Ty::Int(64), bytes)?;
        if let (Ty::Ptr, Ty::Ref { .. }) = (&ty, into) {
            text = format!("({}){text}", self.types.name(into)?);
            ty = into.clone();
        }
        match self.types.program.layout(ty.pointee()?.1)? {
            (0, _) => Err("an offset among elements of no size".to_string()),
            (1, _) => Ok(term(format!("{text} + {bytes}"), ty)),
            (size, _) => Ok(term(format!("{text} + {bytes} / {size}u"), ty)),
        }
    }

    /// A literal of C, of type `into`: of an enum, whose tag is the first part and a constant, that variant's.
    fn aggregate(&self, into: &Ty, parts: &[Operand]) -> Answer<String> {
        let name = self.types.name(into)?;
        let shape = match into {
            Ty::Array(of, length) => return self.elements(&name, of, *length, parts),
            Ty::Named(full) => Some(self.types.program.shape(full)?),
            _ => None,
        };
        let variant = match (shape, parts.first()) {
            (Some(Shape::Variants(_)), Some(Operand::Int(8, tag))) => Some(*tag as usize),
            (Some(Shape::Variants(_)), _) => {
                return Err(format!("{into} of a variant that is not said"))
            }
            _ => None,
        };
        let fields = self.types.fields(into, variant)?;
        if fields.len() != parts.len() {
            return Err(format!(
                "{} parts of {into}, not {}",
                parts.len(),
                fields.len()
            ));
        }
        let mut texts = Vec::new();
        for (field, part) in fields.iter().zip(parts) {
            let text = self.operand_as(&field.ty, part)?;
            if self.types.is_nothing(&field.ty) {
                continue;
            }
            // What the library gives as a size of the host's is at most one that the host has given.
            let cast = if field.is_size { "(size_t)" } else { "" };
            texts.push(format!(".{} = {cast}{text}", field.name));
        }
        Ok(format!("({name}){{ {} }}", texts.join(", ")))
    }

    /// A literal of an array of C, by its name there.
    fn elements(&self, name: &str, of: &Ty, length: u64, parts: &[Operand]) -> Answer<String> {
        if parts.len() as u64 != length {
            return Err(format!("{} elements of [{of}; {length}]", parts.len()));
        }
        let mut texts = Vec::new();
        for part in parts {
            let text = self.operand_as(of, part)?;
            match of {
                Ty::Array(..) => texts.extend((0..of.count()).map(|at| format!("{text}.at[{at}]"))),
                _ => texts.push(text),
            }
        }
        match (texts.is_empty(), of) {
            (false, _) => Ok(format!("({name}){{ {{ {} }} }}", in_lines(&texts))),
            (true, Ty::Int(_)) => Ok(format!("({name}){{ {{ 0u }} }}")),
            (true, other) => Err(format!("no elements, each {other}")),
        }
    }

    // ---- statements

    fn line(&mut self, depth: usize, text: &str) {
        writeln!(self.out, "{}{text}", "    ".repeat(depth)).unwrap();
    }

    fn statements(&mut self, statements: &[Statement], depth: usize) -> Answer<()> {
        statements
            .iter()
            .try_for_each(|statement| self.statement(statement, depth))
    }

    fn statement(&mut self, statement: &Statement, depth: usize) -> Answer<()> {
        match statement {
            Statement::Assign(to, from) => self.assign(to, from, depth)?,
            Statement::Call {
                function,
                arguments,
                result,
            } => self.call(function, arguments, result, depth)?,
            Statement::If(condition, yes, no) => self.choice(condition, yes, no, depth)?,
            Statement::Switch { on, arms, default } => {
                self.switch(on, arms, default.as_deref(), depth)?
            }
            Statement::Block(inner) => self.block(inner, depth)?,
            Statement::Loop(inner) => self.repeat(inner, depth)?,
            Statement::Exit(number) => self.exit(*number, depth)?,
            Statement::Return if self.types.is_nothing(&self.locals[0]) => {
                self.line(depth, "return;")
            }
            Statement::Return => self.line(depth, "return result;"),
            Statement::Unreachable => {
                self.line(depth, "for (;;) { /* never */");
                self.line(depth, "}");
            }
        }
        Ok(())
    }

    // ---- blocks and loops

    /// Prints what stands in a block or a loop, and answers the number of its label.
    fn within(&mut self, kind: Kind, inner: &[Statement], depth: usize) -> Answer<usize> {
        self.labels += 1;
        let label = self.labels;
        self.around.push(Around::Frame(Frame { label, kind }));
        self.statements(inner, depth)?;
        self.around.pop();
        Ok(label)
    }

    fn block(&mut self, inner: &[Statement], depth: usize) -> Answer<()> {
        let kind = match inner {
            [Statement::Loop(_)] => Kind::BlockOfLoop,
            _ => Kind::Block,
        };
        let label = self.within(kind, inner, depth)?;
        self.label("end", label, depth);
        Ok(())
    }

    fn repeat(&mut self, inner: &[Statement], depth: usize) -> Answer<()> {
        self.line(depth, "for (;;) {");
        let label = self.within(Kind::Loop, inner, depth + 1)?;
        self.label("next", label, depth + 1);
        self.line(depth, "}");
        Ok(())
    }

    /// The label, where a goto names it.
    fn label(&mut self, word: &str, label: usize, depth: usize) {
        if self.named.contains(&label) {
            self.line(depth, &format!("{word}{label}:;"));
        }
    }

    /// Of a loop its next turn, of a block its end: by `continue` or `break` where C means the same by it.
    fn exit(&mut self, number: usize, depth: usize) -> Answer<()> {
        let frames = self.around.iter().rev().filter_map(|around| match around {
            Around::Frame(frame) => Some(*frame),
            Around::Switch => None,
        });
        let out = frames.clone().nth(number);
        let Frame { label, kind } =
            out.ok_or_else(|| format!("an exit {number} where no such block or loop is"))?;
        let nearest_loop = frames.clone().position(|frame| frame.kind == Kind::Loop);
        let breaks = self.around.iter().rev().find_map(|around| match around {
            Around::Frame(frame) if frame.kind == Kind::Loop => Some(true),
            Around::Frame(_) => None,
            Around::Switch => Some(false),
        });
        let text = match kind {
            Kind::Loop if nearest_loop == Some(number) => "continue;".to_string(),
            Kind::BlockOfLoop
                if breaks == Some(true) && nearest_loop.map(|at| at + 1) == Some(number) =>
            {
                "break;".to_string()
            }
            Kind::Loop => self.go("next", label),
            Kind::Block | Kind::BlockOfLoop => self.go("end", label),
        };
        self.line(depth, &text);
        Ok(())
    }

    fn go(&mut self, word: &str, label: usize) -> String {
        self.named.insert(label);
        format!("goto {word}{label};")
    }

    // ---- stores, choices and calls

    fn assign(&mut self, to: &Place, from: &Value, depth: usize) -> Answer<()> {
        let (into, Some(target)) = self.target(to)? else {
            return Ok(());
        };
        let (source, is_behind) = match from {
            Value::Operand(Operand::Copy(place)) => match self.place(place.local, &place.steps)? {
                Stored {
                    term,
                    is_behind: true,
                    ..
                } => (term, true),
                _ => (self.value(&into, from)?, false),
            },
            from => (self.value(&into, from)?, false),
        };
        let text = self.fitted(&into, source, "stored as", "")?;
        let to = target.term.text;
        let line = match (target.is_behind, is_behind) {
            (false, false) => format!("{to} = {text};"),
            (to_behind, from_behind) => {
                let at = |text: &str, behind| format!("{text}{}", if behind { "" } else { ".at" });
                let (to, text) = (at(&to, to_behind), at(&text, from_behind));
                format!(
                    "copy_array({to}, {text}, sizeof({}));",
                    self.types.name(&into)?
                )
            }
        };
        self.line(depth, &line);
        Ok(())
    }

    fn choice(
        &mut self,
        condition: &Operand,
        yes: &[Statement],
        no: &[Statement],
        depth: usize,
    ) -> Answer<()> {
        let test = self.operand_as(&Ty::Bool, condition)?;
        let (sign, first, second) = if yes.is_empty() {
            ("!", no, yes)
        } else {
            ("", yes, no)
        };
        self.line(depth, &format!("if ({sign}{test}) {{"));
        self.statements(first, depth + 1)?;
        if !second.is_empty() {
            self.line(depth, "} else {");
            self.statements(second, depth + 1)?;
        }
        self.line(depth, "}");
        Ok(())
    }

    /// With no default no other number comes up. So that every path of C has a value, one would be taken by the last arm.
    fn switch(
        &mut self,
        on: &Operand,
        arms: &[Arm],
        default: Option<&[Statement]>,
        depth: usize,
    ) -> Answer<()> {
        let on = self.operand(on)?;
        if !matches!(on.ty, Ty::Int(_)) {
            return Err(format!("a switch on {}", on.ty));
        }
        self.line(depth, &format!("switch ({}) {{", on.text));
        self.around.push(Around::Switch);
        for (index, arm) in arms.iter().enumerate() {
            for key in &arm.keys {
                self.line(depth, &format!("case {key}u:"));
            }
            if default.is_none() && index + 1 == arms.len() {
                self.line(depth, "default:");
            }
            self.arm(&arm.body, depth + 1)?;
        }
        if let Some(body) = default {
            self.line(depth, "default:");
            self.arm(body, depth + 1)?;
        }
        self.around.pop();
        self.line(depth, "}");
        Ok(())
    }

    fn arm(&mut self, body: &[Statement], depth: usize) -> Answer<()> {
        self.statements(body, depth)?;
        let leaves = |last: &Statement| {
            matches!(
                last,
                Statement::Return | Statement::Exit(_) | Statement::Unreachable
            )
        };
        if !body.last().is_some_and(leaves) {
            self.line(depth, "break;");
        }
        Ok(())
    }

    fn call(
        &mut self,
        callee: &Instance,
        arguments: &[Operand],
        result: &Place,
        depth: usize,
    ) -> Answer<()> {
        let called = self.types.program.function(callee)?;
        let (into, target) = self.target(result)?;
        if called.parameters != arguments.len() || !into.takes(&called.locals[0]) {
            return Err(format!("{callee} called as a function of another type"));
        }
        // MIR finds the place after the call. Where it is a local, C does the same.
        if !result.steps.is_empty() {
            return Err(format!("the result of {callee} stored in a part"));
        }
        let mut texts = Vec::new();
        for (wanted, argument) in parameters(self.types, called)?.iter().zip(arguments) {
            let text = self.operand_as(wanted, argument)?;
            if !self.types.is_nothing(wanted) {
                texts.push(text);
            }
        }
        let call = format!("{}({});", function_name(callee), texts.join(", "));
        match target {
            Some(target) => self.line(depth, &format!("{} = {call}", target.term.text)),
            None => self.line(depth, &call),
        }
        Ok(())
    }
}

fn is_deref(step: &Step) -> bool {
    matches!(step, Step::Deref(_))
}

/// The types of a function's parameters, with the raw pointers' own.
fn parameters(types: Types, function: &Function) -> Answer<Vec<Ty>> {
    let own = &function.locals[1..=function.parameters];
    match own.contains(&Ty::Ptr) {
        true => Ok(Body::of(types, function)?.locals[1..=function.parameters].to_vec()),
        false => Ok(own.to_vec()),
    }
}

/// The declarations of a constant that is lent: it is the last, and what it points to stands before it.
fn lent_constants(types: Types, name: &str, of: &Ty, what: &Constant) -> Answer<Vec<String>> {
    let Constant::Block(first, parts) = what else {
        return Ok(vec![Lent::alone(types).declaration(name, of, what)?]);
    };
    let all: Vec<Ty> = std::iter::once(of)
        .chain(parts.iter().map(|(ty, _)| ty))
        .cloned()
        .collect();
    let places = types.program.places(&all)?.into_iter().skip(1);
    let names = (1..).map(|number| format!("{name}_part{number}"));
    let mut lent = Lent::alone(types);
    let mut declarations = Vec::new();
    let placed: Vec<_> = parts.iter().zip(places).zip(names).collect();
    for (((ty, part), place), name) in placed.into_iter().rev() {
        declarations.push(lent.declaration(&name, ty, part)?);
        lent.parts.insert(place, (name, ty.clone()));
    }
    declarations.push(lent.declaration(name, of, first)?);
    Ok(declarations)
}

/// What a constant may point to: by the place in its block, the name and the type.
struct Lent<'a> {
    types: Types<'a>,
    parts: BTreeMap<u64, (String, Ty)>,
}

impl<'a> Lent<'a> {
    fn alone(types: Types<'a>) -> Lent<'a> {
        let parts = BTreeMap::new();
        Lent { types, parts }
    }

    fn declaration(&self, name: &str, of: &Ty, what: &Constant) -> Answer<String> {
        let Some(element) = of.elements() else {
            let declared = declared_constant(&self.types.name(of)?, name);
            return Ok(format!("{declared} = {};", self.initializer(of, what)?));
        };
        let length = of.count().max(1);
        let declared = declared_constant(&self.types.name(element)?, &format!("{name}[{length}]"));
        match of.count() {
            0 => Ok(format!("{declared};")),
            _ => {
                let texts = self.elements(of, what)?;
                Ok(format!("{declared} = {{ {} }};", in_lines(&texts)))
            }
        }
    }

    /// The elements of an array; of an array of arrays, those of each.
    fn elements(&self, array: &Ty, what: &Constant) -> Answer<Vec<String>> {
        let Ty::Array(of, length) = array else {
            return Ok(vec![self.initializer(array, what)?]);
        };
        let parts: Vec<Constant> = match what {
            Constant::Ints(bits, numbers) => {
                let numbers = numbers.iter();
                numbers.map(|one| Constant::Int(*bits, *one)).collect()
            }
            Constant::Repeat(of, times) => vec![(**of).clone(); *times as usize],
            Constant::Parts(parts) => parts.clone(),
            other => return Err(format!("{other:?} lent as an array")),
        };
        if parts.len() as u64 != *length {
            return Err(format!("{} elements lent as {array}", parts.len()));
        }
        let elements = parts.iter().map(|part| self.elements(of, part));
        Ok(elements.collect::<Answer<Vec<_>>>()?.concat())
    }

    fn initializer(&self, of: &Ty, what: &Constant) -> Answer<String> {
        match (of, what) {
            (Ty::Int(bits), Constant::Int(width, number)) if bits == width => {
                Ok(format!("{number}u"))
            }
            (Ty::Bool, Constant::Bool(value)) => Ok(value.to_string()),
            (Ty::Unit, Constant::Unit) => Ok(String::new()),
            (Ty::Array(..), _) if of.count() > 0 => {
                let texts = self.elements(of, what)?;
                Ok(format!("{{ {{ {} }} }}", in_lines(&texts)))
            }
            (Ty::Ref { mutable: false, .. }, Constant::Here(place)) => self.pointer(of, *place),
            (Ty::Named(_) | Ty::Slice { .. }, Constant::Parts(parts)) => self.fields(of, parts),
            _ => Err(format!("{what:?} lent as {of}")),
        }
    }

    fn pointer(&self, of: &Ty, place: u64) -> Answer<String> {
        match self.parts.get(&place) {
            Some((name, ty)) if of.takes(&Ty::reference(false, ty.clone())) => {
                let sign = if ty.elements().is_some() { "" } else { "&" };
                Ok(format!("{sign}{name}"))
            }
            _ => Err(format!(
                "a constant that points to {of}, {place} bytes into its block"
            )),
        }
    }

    fn fields(&self, of: &Ty, parts: &[Constant]) -> Answer<String> {
        let shape = match of {
            Ty::Named(named) => Some(self.types.program.shape(named)?),
            _ => None,
        };
        let variant = match (shape, parts.first()) {
            (Some(Shape::Variants(_)), Some(Constant::Int(8, tag))) => Some(*tag as usize),
            _ => None,
        };
        let fields = self.types.fields(of, variant)?;
        if fields.len() != parts.len() {
            return Err(format!("{} parts lent as {of}", parts.len()));
        }
        let mut texts = Vec::new();
        for (field, part) in fields.iter().zip(parts) {
            let text = self.initializer(&field.ty, part)?;
            if !self.types.is_nothing(&field.ty) {
                texts.push(format!(".{} = {text}", field.name));
            }
        }
        Ok(format!("{{ {} }}", texts.join(", ")))
    }
}

fn declared_constant(ty: &str, name: &str) -> String {
    match ty.ends_with('*') {
        true => format!("static {ty}const {name}"),
        false => format!("static const {ty} {name}"),
    }
}

/// The name of a constant that a function lends.
fn lent(number: usize) -> String {
    format!("lent{}", number + 1)
}

/// Many elements in lines of sixteen.
fn in_lines(texts: &[String]) -> String {
    let lines: Vec<String> = texts.chunks(16).map(|line| line.join(", ")).collect();
    lines.join(",\n        ")
}
