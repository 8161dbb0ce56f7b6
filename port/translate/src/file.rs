//! A whole C file: what it is, types, prototypes, functions, and the functions of the header.

use crate::body::Body;
use crate::header::{Declared, Header};
use crate::interface::{c_name, Interface};
use crate::mir::{Function, Program, Ty};
use crate::types::{declarator, function_name, parameter_list, Declarations, Types};
use crate::Answer;
use std::collections::BTreeSet;
use std::fmt::Write;

/// The C file of an interface, after the check that its header says the same.
pub fn print(
    program: &Program,
    interface: &Interface,
    header: &Header,
    kit: &str,
) -> Answer<String> {
    interface.check(header, program)?;
    let types = Types { program, interface };
    let functions = reached(program, &interface.functions)?;
    let mut names = BTreeSet::new();
    for function in &functions {
        let (name, instance) = (function_name(&function.instance), &function.instance);
        if !names.insert(name.clone()) {
            return Err(format!(
                "{instance}: two functions have the name {name} in C"
            ));
        }
    }
    let own = own_functions(types, &functions)?;
    let mut text = head(interface, kit) + &own;
    for name in &interface.functions {
        let parameters = &header.functions[c_name(name)].parameters;
        let entry = entry(types, program.entry(name)?, parameters);
        text += &entry.map_err(|why| format!("{name}: {why}"))?;
    }
    Ok(text)
}

/// C copies no array by itself.
const COPY_ARRAY: &str = "\
/* Copies an array that lies behind a reference. */
static void copy_array(void *to, const void *from, size_t size)
{
    unsigned char *target = to;
    const unsigned char *source = from;
    size_t at;
    for (at = 0; at < size; at++) {
        target[at] = source[at];
    }
}

";

/// The functions of MIR, behind the types and prototypes that they need.
fn own_functions(types: Types, functions: &[&Function]) -> Answer<String> {
    let mut declarations = Declarations::new(types);
    let (mut prototypes, mut bodies) = (String::new(), String::new());
    for function in functions {
        let refused = |why| format!("{}: {why}", function.instance);
        let body = Body::of(types, function).map_err(refused)?;
        let lent = body.lent_types().into_iter();
        for ty in body.locals.iter().chain(lent) {
            declarations.declare(ty).map_err(refused)?;
        }
        let signature = body.signature().map_err(refused)?;
        writeln!(prototypes, "static {signature};").unwrap();
        bodies += &body.print().map_err(refused)?;
    }
    let copies = bodies.contains("copy_array(").then_some(COPY_ARRAY);
    Ok(declarations.text + copies.unwrap_or_default() + &prototypes + &bodies)
}

/// The functions that these call, and theirs, in the order of the program.
fn reached<'a>(program: &'a Program, first: &[String]) -> Answer<Vec<&'a Function>> {
    let mut reached = BTreeSet::new();
    let first = first.iter().map(|name| Ok(&program.entry(name)?.instance));
    let mut waiting = first.collect::<Answer<Vec<_>>>()?;
    while let Some(instance) = waiting.pop() {
        if reached.insert(instance) {
            waiting.extend(program.function(instance)?.calls());
        }
    }
    let functions = program.functions.iter();
    Ok(functions
        .filter(|function| reached.contains(&function.instance))
        .collect())
}

/// The first lines, and the types that all others rest on.
fn head(interface: &Interface, kit: &str) -> String {
    let Interface {
        header,
        about,
        arrays,
        ..
    } = interface;
    let mut text = format!(
        "\
/*
 * {about}, in portable C99: what {header} declares.
 *
 * Made by port/translate (`make c`) from the MIR that the proved crates hold, with {kit}.
 * Do not edit it. Each function but the last ones is a function of that MIR, a statement for a statement.
 *
 * That MIR is proved for every input. Not proved: this translation of it, the C compiler, and sizes behind references, which lie in C as
 * size_t and are read as the 64 bits of the proofs. docs/INTEGRATION.md says under Ports what is compared instead.
 */
#include \"{header}\"

#include <stdbool.h>
#include <stddef.h>
#include <stdint.h>

/* A size has 64 bits, as in the proofs, on every controller. */
typedef uint64_t usize;

"
    );
    for array in arrays {
        if let Ty::Array(_, length) = array.ty {
            let name = &array.c;
            writeln!(
                text,
                "typedef char {name}_has_{length}[sizeof({name}) == {length} ? 1 : -1];\n"
            )
            .unwrap();
        }
    }
    text
}

/// A function of the header, which calls that of MIR.
fn entry(types: Types, function: &Function, parameters: &[Declared]) -> Answer<String> {
    let (mut rest, mut arguments, mut nothing) = (parameters, Vec::new(), "");
    for ty in &function.locals[1..=function.parameters] {
        let (own, others) = rest.split_at(types.interface.parameter_types(ty)?.len());
        rest = others;
        arguments.push(argument(types, ty, own)?);
        if let Ty::Slice { .. } = ty {
            nothing = "    size_t nothing = 0; /* lent in place of NULL */\n";
        }
    }
    if function.locals[0] == Ty::Int(64) {
        return Err("a u64 as a result: C has size_t".to_string());
    }
    let listed = parameters.iter().map(|one| declarator(&one.ty, &one.name));
    let listed = parameter_list(&listed.collect::<Vec<_>>());
    let name = &function.instance.name;
    let own = c_name(name);
    let head = declarator(
        &types.name(&function.locals[0])?,
        &format!("{own}({listed})"),
    );
    let called = function_name(&function.instance);
    let arguments = arguments.join(",\n        ");
    let returns = match types.is_nothing(&function.locals[0]) {
        true => "",
        false => "return ",
    };
    let body = format!("{nothing}    {returns}{called}({arguments});\n");
    Ok(format!("\n/* {name} for C */\n{head}\n{{\n{body}}}\n"))
}

/// What MIR's function is given for parameters of C: a slice from a pointer and a length. Where NULL comes with a length of 0, the address
/// of a local stands in: C adds nothing to NULL.
fn argument(types: Types, ty: &Ty, own: &[Declared]) -> Answer<String> {
    match (ty, own) {
        (Ty::Slice { .. }, [pointer, length]) => {
            let (slice, given) = (types.name(ty)?, &pointer.ty);
            let (at, length) = (&pointer.name, &length.name);
            let at = format!("{at} != NULL ? {at} : ({given})&nothing");
            Ok(format!("({slice}){{ .at = {at}, .length = {length} }}"))
        }
        (Ty::Ref { to, .. }, [array]) if to.elements().is_some() => Ok(format!("*{}", array.name)),
        (_, [value]) => Ok(value.name.clone()),
        _ => Err(format!("no parameter of C for {ty}")),
    }
}
