//! Small libraries of MIR as their mir.json has it, one function `lib::entry` in each, and their translation behind a header.

use translate::{file, header, instances, interface, libraries, Answer};

pub const HEADER: &str = "
/* A comment; with a semicolon. */
#define LARGEST 7
#ifdef __cplusplus
extern \"C\" {
#endif
enum { SIZE = 6, KINDS = 2 };
typedef struct host_pair {
    uint8_t low;  /* of the two */
    size_t high;
} host_pair;
typedef uint8_t host_bytes[SIZE];
uint8_t entry(const uint8_t *bytes, size_t bytes_len);
static inline uint8_t entry_checked(const uint8_t *bytes, size_t bytes_len)
{
    if (bytes == NULL) { return 2; }
    return entry(bytes, bytes_len);
}
#ifdef __cplusplus
}
#endif
";

pub const TABLE: &str = "
# of the tests
file lib.c header lib.h about A library
struct host_pair is lib::Pair low high
function lib::entry
";

pub const PAIR: &str = r#"{"Named":[{"name":"lib::Pair","lifetimes":[]},[]]}"#;
pub const CHOICE: &str = r#"{"Named":[{"name":"lib::Choice","lifetimes":[]},[]]}"#;

pub const SLICE: &str = r#"{"Struct":["&[]",[{"Ref":[{"Named":0},"Imm",{"Int":8}]},{"Int":64}]]}"#;

/// A constant of so many bits.
pub fn int(width: u64, value: u64) -> String {
    format!(r#"{{"Int":{{"width":{width},"value":{value}}}}}"#)
}

pub fn place(local: usize, steps: &[&str]) -> String {
    format!(r#"{{"local":{local},"steps":[{}]}}"#, steps.join(","))
}

/// What is stored at a place, as an operand.
pub fn copy(local: usize, steps: &[&str]) -> String {
    format!(r#"{{"Copy":{}}}"#, place(local, steps))
}

/// An operand as a value.
pub fn opd(operand: &str) -> String {
    format!(r#"{{"Opd":{operand}}}"#)
}

pub fn op1(what: &str, of: &str) -> String {
    format!(r#"{{"Op1":[{what},{of}]}}"#)
}

pub fn op2(what: &str, left: &str, right: &str) -> String {
    format!(r#"{{"Op2":[{what},{left},{right}]}}"#)
}

/// The operation with an unsigned sign.
pub fn unsigned(word: &str) -> String {
    format!(r#"{{"{word}":"Unsigned"}}"#)
}

/// An integer of so many bits, of one that is as unsigned.
pub fn cast(bits: u64, of: &str) -> String {
    op1(&format!(r#"{{"Cast":["Unsigned","Unsigned",{bits}]}}"#), of)
}

pub fn aggregate(parts: &[&str]) -> String {
    format!(r#"{{"Aggregate":[{}]}}"#, parts.join(","))
}

/// The address of a local.
pub fn address(local: usize) -> String {
    format!(r#"{{"AddrOf":{}}}"#, place(local, &[]))
}

/// Stores a value in a local.
pub fn set(local: usize, value: &str) -> String {
    store(&place(local, &[]), value)
}

pub fn store(place: &str, value: &str) -> String {
    format!(r#"{{"Assign":[{place},{value}]}}"#)
}

pub fn reference(mutability: &str, to: &str) -> String {
    format!(r#"{{"Ref":["Erased","{mutability}",{to}]}}"#)
}

pub fn array(of: &str, length: u64) -> String {
    format!(r#"{{"Array":[{of},{{"Lit":{length}}}]}}"#)
}

pub fn call(function: &str, arguments: &[&str]) -> String {
    let (result, arguments) = (place(0, &[]), arguments.join(","));
    let callee = format!(r#"{{"Fn":["{function}",{{"types":[],"dicts":[]}}]}}"#);
    format!(r#"{{"Call":[{callee},[{arguments}],{result}]}}"#)
}

pub fn local(ty: &str) -> String {
    format!(r#"{{"ty":{ty},"home":"ValueLocal"}}"#)
}

/// `lib::entry(&[u8]) -> u8`: local 0 is a u8, 1 the slice, 2 a u8, 3 a u64, 4 a bool, 5 a raw pointer, then the given ones.
pub fn entry(locals: &[&str], statements: &[&str]) -> String {
    let own = [
        r#"{"Int":8}"#,
        SLICE,
        r#"{"Int":8}"#,
        r#"{"Int":64}"#,
        r#""Bool""#,
        r#""Ptr""#,
    ];
    let all: Vec<String> = own.iter().chain(locals).map(|ty| local(ty)).collect();
    let body: Vec<String> = statements
        .iter()
        .map(|one| format!(r#""Seq",{one}"#))
        .chain([r#""Return""#.to_string()])
        .collect();
    function("lib::entry", 1, &all, &body.join(","))
}

/// A function of declared types that are always the same.
pub fn function(name: &str, parameters: usize, locals: &[String], body: &str) -> String {
    let declared = |name: &str, shape: &str| {
        format!(
            r#"{{"name":"{name}","lifetimes":0,"bounds":[],"type_params":0,"const_params":[],"type_bounds":[],"owns":false,"is_cell":false,"shape":{shape},"is_tuple":false}}"#
        )
    };
    let pair = declared("lib::Pair", r#"{"Fields":[{"Int":8},{"Int":64}]}"#);
    let choice = declared("lib::Choice", r#"{"Variants":[[],[{"Int":16}]]}"#);
    let generics =
        r#"{"types":[],"outlives":[],"bounds":[],"method_of":null,"trait_lifetimes":0,"impls":[]}"#;
    let locals = locals.join(",");
    format!(
        r#"["{name}",{{"lifetimes":1,"outlives":[],"params":{parameters},"generics":{generics},"types":[{pair},{choice}],"locals":[{locals}],"body":[{body}]}}]"#
    )
}

pub fn library(functions: &[&str]) -> String {
    format!("[{}]", functions.join(","))
}

/// The C file for a library, by the table and the header.
pub fn translated(mir: &str, table: &str, header_text: &str) -> Answer<String> {
    translated_together(&[mir.to_string()], table, header_text)
}

/// The same for several libraries.
pub fn translated_together(mir: &[String], table: &str, header_text: &str) -> Answer<String> {
    let libraries = libraries::Libraries::new(mir, None)?;
    let interfaces = interface::read(table)?;
    let program = instances::program(&libraries, &interfaces[0].functions)?;
    let header = header::read(header_text)?;
    file::print(&program, &interfaces[0], &header, "a kit")
}

/// The lines of the body that `lib::entry` has in C.
pub fn body_of(locals: &[&str], statements: &[&str]) -> Vec<String> {
    let text = translated(&library(&[&entry(locals, statements)]), TABLE, HEADER)
        .expect("it is translated");
    let start = text
        .find("static uint8_t lib__entry(slice_u8 v1)\n{\n")
        .expect("lib__entry is defined");
    let inner = text[start..]
        .lines()
        .skip(2)
        .take_while(|line| *line != "}");
    let is_statement = |line: &str| !line.ends_with("result;") || line.starts_with("return");
    inner
        .map(str::trim)
        .filter(|line| is_statement(line))
        .map(str::to_string)
        .collect()
}

/// Why the program of these locals and statements is refused.
pub fn refusal(locals: &[&str], statements: &[&str]) -> String {
    let mir = library(&[&entry(locals, statements)]);
    translated(&mir, TABLE, HEADER).expect_err("it is refused")
}
