//! What is not known, or does not fit, is refused in words that name the function and the form.

use crate::common::{
    address, aggregate, array, call, copy, entry, function, int, library, local, op1, op2, opd,
    place, reference, refusal, set, store, translated, unsigned, CHOICE, HEADER, PAIR, SLICE,
    TABLE,
};
use crate::statements::lend;

fn refused_value(value: &str) -> String {
    refusal(&[], &[&set(2, value), &set(0, &opd(&copy(2, &[])))])
}

#[test]
fn an_unknown_operation() {
    let why = refused_value(&op2(r#"{"Shr":"Signed"}"#, &copy(2, &[]), &int(8, 1)));
    assert_eq!(
        why,
        r#"lib::entry: {"Shr":"Signed"} is not a known operation of MIR"#
    );
    let why = refused_value(&op2(r#""PtrEq""#, &copy(2, &[]), &int(8, 1)));
    assert_eq!(
        why,
        r#"lib::entry: "PtrEq" is not a known operation of MIR"#
    );
    let why = refused_value(&op1(r#""CountOnes""#, &copy(2, &[])));
    assert_eq!(
        why,
        r#"lib::entry: "CountOnes" is not a known operation of MIR"#
    );
}

#[test]
fn a_signed_operation() {
    let why = refused_value(&op2(r#"{"Add":"Signed"}"#, &copy(2, &[]), &int(8, 1)));
    assert_eq!(
        why,
        r#"lib::entry: {"Add":"Signed"} is not a known operation of MIR"#
    );
    let why = refused_value(&op1(r#"{"Cast":["Unsigned","Signed",8]}"#, &copy(2, &[])));
    assert_eq!(
        why,
        r#"lib::entry: {"Cast":["Unsigned","Signed",8]} is not a known operation of MIR"#
    );
}

#[test]
fn an_unknown_value_operand_type_and_statement() {
    let select = r#"{"Select":["True","True","True"]}"#;
    assert_eq!(
        refused_value(select),
        format!("lib::entry: {select} is not a known value of MIR")
    );
    let float = r#"{"Float":{"width":32,"bits":0}}"#;
    assert_eq!(
        refused_value(&opd(float)),
        format!("lib::entry: {float} is not a known operand of MIR")
    );
    let why = refusal(&[r#"{"Float":64}"#], &[]);
    assert_eq!(
        why,
        r#"lib::entry: {"Float":64} is not a known type of MIR"#
    );
    let why = refusal(&[r#"{"Int":128}"#], &[]);
    assert_eq!(
        why,
        "lib::entry: 128 is not a known width of an integer of MIR"
    );
    let why = refusal(&[], &[r#"{"CallV":0}"#]);
    assert_eq!(
        why,
        r#"lib::entry: {"CallV":0} is not a known statement of MIR"#
    );
}

/// Types of a form that is not known, or that are shared and written at once.
#[test]
fn an_unknown_declared_type() {
    let why = |old: &str, new: &str| {
        let mir = library(&[&entry(&[], &[])]).replacen(old, new, 1);
        translated(&mir, TABLE, HEADER).expect_err("it is refused")
    };
    let edits = [
        (r#""type_params":0"#, r#""type_params":{}"#),
        (r#""const_params":[]"#, r#""const_params":0"#),
        (r#""owns":false"#, r#""owns":0"#),
        (r#""is_cell":false"#, r#""is_cell":true"#),
        (r#""is_tuple":false"#, r#""is_tuple":0"#),
    ];
    for (old, new) in edits {
        let why = why(old, new);
        assert!(
            why.starts_with(r#"lib::entry: {"name":"lib::Pair","#)
                && why.ends_with(".. is not a known declared type of MIR"),
            "{new}: {why}"
        );
    }
    let why = why(r#""owns":false"#, r#""owns":false,"seen":{}"#);
    assert!(
        why.starts_with("lib::entry: expected the keys name, "),
        "{why}"
    );
    let generic = refusal(&[&PAIR.replace("},[]]", r#"},["Bool"]]"#)], &[]);
    assert_eq!(
        generic,
        "lib::entry: lib::Pair<bool> with other types than it takes"
    );
}

#[test]
fn a_function_that_takes_types() {
    let why = |old: &str, new: &str| {
        let mir = library(&[&entry(&[], &[])]).replacen(old, new, 1);
        translated(&mir, TABLE, HEADER).expect_err("it is refused")
    };
    assert_eq!(
        why(r#""generics":{"types":[]"#, r#""generics":{"types":[{}]"#),
        "lib::entry: 0 types and 0 dictionaries for a function that takes 1 and 0"
    );
    assert_eq!(
        why(r#""bounds":[],"method"#, r#""bounds":["Copy"],"method"#),
        "lib::entry: 0 types and 0 dictionaries for a function that takes 0 and 1"
    );
    assert!(why(r#""impls":[]"#, r#""impls":[0]"#).contains("expected the keys name, "));
}

#[test]
fn exits_from_what_is_not_there() {
    let why = "lib::entry: an exit 1 where no such block or loop is";
    assert_eq!(refusal(&[], &[r#"{"Exit":1}"#]), why);
    assert_eq!(refusal(&[], &[r#""Block",{"Exit":1}"#]), why);
    let why = refusal(
        &[],
        &[&format!(r#"{{"Switch":[{},[],false]}}"#, copy(2, &[]))],
    );
    assert!(why.ends_with(" is not a known switch of MIR"), "{why}");
}

/// The parts of a body stand in one list: a statement too few or too many in it is noticed.
#[test]
fn a_body_of_other_parts() {
    let short = refusal(&[], &[&format!(r#"{{"If":{}}}"#, copy(4, &[]))]);
    assert_eq!(short, "lib::entry: a body has no end");
    let long = refusal(&[], &[r#""Skip","Skip""#]);
    assert_eq!(long, r#"lib::entry: "Return" behind the end of the body"#);
}

#[test]
fn a_call_of_what_is_not_there() {
    let why = refusal(&[], &[&call("lib::missing", &[])]);
    assert_eq!(why, "the MIR has no function lib::missing");
    let method = r#"{"Method":[{"Given":0},0,{"types":[],"dicts":[]}]}"#;
    let fn_0 = r#"{"Fn":["lib::missing",{"types":[],"dicts":[]}]}"#;
    let why = refusal(&[], &[&call("lib::missing", &[]).replace(fn_0, method)]);
    assert_eq!(
        why,
        r#"lib::entry: {"Given":0} is not a known dictionary of MIR"#
    );
    let pointer = r#"{"Prim":"Loaded"}"#;
    let why = refusal(&[], &[&call("lib::missing", &[]).replace(fn_0, pointer)]);
    assert_eq!(
        why,
        format!("lib::entry: {pointer} is not a known call of MIR")
    );
    let generic = call("lib::entry", &[]).replace(r#""types":[]"#, r#""types":["Bool"]"#);
    let why = refusal(&[], &[&generic]);
    assert_eq!(
        why,
        "lib::entry<bool>: 1 types and 0 dictionaries for a function that takes 0 and 0"
    );
}

#[test]
fn a_call_of_another_type() {
    let locals = [local(r#"{"Int":8}"#), local(r#"{"Int":16}"#)];
    let helper = function("lib::helper", 1, &locals, r#""Return""#);
    let why = |arguments: &[&str]| {
        let entry = entry(&[], &[&call("lib::helper", arguments)]);
        translated(&library(&[&helper, &entry]), TABLE, HEADER).expect_err("it is refused")
    };
    assert_eq!(
        why(&[]),
        "lib::entry: lib::helper called as a function of another type"
    );
    assert_eq!(why(&[&copy(2, &[])]), "lib::entry: u8 where u16 is wanted");
}

#[test]
fn types_that_do_not_fit() {
    assert_eq!(
        refused_value(&opd(&int(16, 1))),
        "lib::entry: u16 stored as u8"
    );
    assert_eq!(
        refused_value(&op2(&unsigned("Add"), &copy(2, &[]), &int(16, 1))),
        "lib::entry: u8 + u16"
    );
    assert_eq!(
        refused_value(&op2(&unsigned("Lt"), r#""True""#, r#""False""#)),
        "lib::entry: bool < bool"
    );
    assert_eq!(
        refused_value(&opd(&int(8, 256))),
        r#"lib::entry: {"Int":{"width":8,"value":256}} has more bits than its width"#
    );
    assert_eq!(
        refused_value(&opd(&copy(9, &[]))),
        "lib::entry: there is no local 9"
    );
    assert_eq!(
        refused_value(&opd(&copy(1, &[r#"{"Field":2}"#]))),
        "lib::entry: &[u8] has no field 2 here"
    );
}

/// In memory of C's callers a number of 64 bits lies as a size_t, which may have 32: it is only read.
#[test]
fn sizes_behind_references() {
    let to = place(6, &[r#"{"Field":1}"#]);
    let low = set(2, &opd(&copy(6, &[r#"{"Field":0}"#])));
    let read = set(0, &opd(&copy(2, &[])));
    let why = refusal(&[PAIR], &[&store(&to, &opd(&copy(3, &[]))), &low, &read]);
    assert_eq!(
        why,
        "lib::entry: a store to v6.high, which is a size_t of C"
    );
    let sizes = reference("Mut", r#"{"Int":64}"#);
    let mir = library(&[&entry(&[], &[]).replacen(SLICE, &sizes, 1)]);
    let why = translated(&mir, TABLE, HEADER).expect_err("it is refused");
    assert_eq!(why, "lib.h has no type for &mut u64");
}

#[test]
fn raw_pointers_of_two_types() {
    assert_eq!(
        refusal(&[], &[&set(5, &address(2)), &set(5, &address(4))]),
        "lib::entry: a raw pointer holds &mut u8 and &mut bool"
    );
}

#[test]
fn constants_of_other_forms_that_are_lent() {
    let to = |bits: u64| reference("Imm", &array(&format!(r#"{{"Int":{bits}}}"#), 2));
    let why = |bits: u64, numbers: &str| {
        refusal(
            &[&to(bits)],
            &lend(bits, numbers).each_ref().map(|it| it.as_str()),
        )
    };
    assert_eq!(
        why(8, "5,256"),
        r#"lib::entry: {"Ints":{"width":8,"values":[5,256]}} has more bits than its width"#
    );
    assert_eq!(why(8, "5"), "lib::entry: 1 elements lent as [u8; 2]");
    let [lent, read] = lend(8, "5,6");
    let ints = r#"{"Ints":{"width":8,"values":[5,6]}}"#;
    let here = lent.replace(ints, r#"{"Here":0}"#);
    assert_eq!(
        refusal(&[&to(8)], &[&here, &read]),
        "lib::entry: Here(0) lent as an array"
    );
    let bool = lent.replace(ints, r#"{"Bool":true}"#);
    assert_eq!(
        refusal(&[&to(8)], &[&bool, &read]),
        "lib::entry: Bool(true) lent as an array"
    );
    let why = refusal(
        &[&reference("Mut", &array(r#"{"Int":8}"#, 2))],
        &[&lent, &read],
    );
    assert_eq!(why, "lib::entry: &[u8; 2] stored as &mut [u8; 2]");
}

#[test]
fn a_type_declared_in_two_ways() {
    let one = entry(&[], &[&call("lib::other", &[&copy(1, &[])])]);
    let two = entry(&[], &[]).replace("lib::entry", "lib::other").replace(
        r#""shape":{"Fields":[{"Int":8}"#,
        r#""shape":{"Fields":[{"Int":16}"#,
    );
    let why = translated(&library(&[&one, &two]), TABLE, HEADER).expect_err("it is refused");
    assert_eq!(why, "lib::other: lib::Pair is declared in two ways");
}

#[test]
fn input_that_is_not_mir() {
    let why = |text: &str| translated(text, TABLE, HEADER).expect_err("it is refused");
    assert_eq!(why(""), "JSON: no value: the end");
    assert_eq!(why("{}"), "a library's MIR is a list of functions");
    assert_eq!(why("[["), "JSON: no value: the end");
    assert_eq!(why("[] x"), "x behind the end of the JSON");
    assert_eq!(why("[\"lib"), "JSON: a text has no end");
    assert_eq!(why("[1]"), "expected a name and a function");
    assert_eq!(why("[[\"lib::entry\"]]"), "expected a name and a function");
    assert_eq!(
        why("[[\"lib::entry\", 1]]"),
        "lib::entry: expected the keys lifetimes, outlives, params, generics, types, locals, body, not 1"
    );
}

/// Copies the tag of the enum, so that what is stored in it is printed.
fn read_choice() -> String {
    set(0, &opd(&copy(6, &[r#"{"Variant":1}"#, r#"{"Field":0}"#])))
}

#[test]
fn aggregates_of_other_parts() {
    let made = |parts: &[&str]| refusal(&[CHOICE], &[&set(6, &aggregate(parts)), &read_choice()]);
    assert_eq!(
        made(&[&int(8, 2)]),
        "lib::entry: lib::Choice has no variant 2"
    );
    assert_eq!(
        made(&[&int(8, 0), &int(16, 7)]),
        "lib::entry: 2 parts of lib::Choice, not 1"
    );
    assert_eq!(
        made(&[&int(8, 1)]),
        "lib::entry: 1 parts of lib::Choice, not 2"
    );
    assert_eq!(
        made(&[&copy(2, &[])]),
        "lib::entry: lib::Choice of a variant that is not said"
    );
    assert_eq!(
        made(&[]),
        "lib::entry: lib::Choice of a variant that is not said"
    );
    let why = refused_value(&aggregate(&[]));
    assert_eq!(why, "lib::entry: a field of u8");
}

#[test]
fn a_variant_or_a_field_that_is_not_there() {
    let read = |steps: &[&str]| refusal(&[CHOICE], &[&set(0, &opd(&copy(6, steps)))]);
    let why = read(&[r#"{"Variant":2}"#, r#"{"Field":0}"#]);
    assert_eq!(why, "lib::entry: lib::Choice has no variant 2");
    let why = read(&[r#"{"Variant":1}"#, r#"{"Field":2}"#]);
    assert_eq!(why, "lib::entry: lib::Choice has no field 2 here");
    assert_eq!(
        read(&[r#"{"Field":0}"#]),
        "lib::entry: a field of lib::Choice, an enum"
    );
    assert_eq!(
        read(&[r#"{"Variant":0}"#]),
        "lib::entry: a variant as a whole"
    );
}
