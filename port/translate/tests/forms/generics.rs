//! Functions and types that take types, numbers and dictionaries: one function and one struct of C for each choice.

use crate::common::{
    address, aggregate, call, copy, entry, int, library, local, opd, place, reference, set, store,
    translated, HEADER, TABLE,
};

const OPTION: &str = r#"{"name":"core::option::Option","lifetimes":0,"bounds":[],"type_params":1,"const_params":[],"type_bounds":[],"owns":false,"is_cell":false,"shape":{"Variants":[[],[{"Param":0}]]},"is_tuple":false}"#;

/// A function that takes so many types and dictionaries, and knows options.
fn generic(
    name: &str,
    takes: (&str, &str),
    parameters: usize,
    locals: &[&str],
    body: &str,
) -> String {
    let (types, bounds) = takes;
    let generics = format!(
        r#"{{"types":[{types}],"outlives":[],"bounds":[{bounds}],"method_of":null,"trait_lifetimes":0,"impls":[]}}"#
    );
    let locals: Vec<String> = locals.iter().map(|ty| local(ty)).collect();
    format!(
        r#"["{name}",{{"lifetimes":0,"outlives":[],"params":{parameters},"generics":{generics},"types":[{OPTION}],"locals":[{}],"body":[{body}]}}]"#,
        locals.join(",")
    )
}

fn option(of: &str) -> String {
    format!(r#"{{"Named":[{{"name":"core::option::Option","lifetimes":[]}},[{of}]]}}"#)
}

/// The call of a function at types and dictionaries, whose result goes to that local.
fn call_at(name: &str, types: &str, dictionaries: &str, arguments: &[&str], to: usize) -> String {
    let plain = r#"{"types":[],"dicts":[]}"#;
    let chosen = format!(r#"{{"types":[{types}],"dicts":[{dictionaries}]}}"#);
    let result = place(0, &[]);
    let call = call(name, arguments).replace(plain, &chosen);
    let start = call.rfind(&result).expect("the result stands last");
    format!("{}{}]}}", &call[..start], place(to, &[]))
}

fn assert_prints(functions: &[&str], wanted: &[&str]) -> String {
    let text = translated(&library(functions), TABLE, HEADER).expect("it is translated");
    for line in wanted {
        assert!(text.contains(line), "no {line} in {text}");
    }
    text
}

/// `fn some<T>(T) -> Option<T>`, at a byte and at a bool.
#[test]
fn a_function_and_an_enum_at_each_type() {
    let parameter = r#"{"Param":0}"#;
    let made = set(0, &aggregate(&[&int(8, 1), &copy(1, &[])]));
    let some = generic(
        "core::some",
        ("{}", ""),
        1,
        &[&option(parameter), parameter],
        &format!(r#""Seq",{made},"Return""#),
    );
    let byte = call_at("core::some", r#"{"Int":8}"#, "", &[&copy(2, &[])], 6);
    let bool = call_at("core::some", r#""Bool""#, "", &[&copy(4, &[])], 7);
    let tag = |from: usize| {
        let tag = copy(from, &[r#"{"Variant":0}"#, r#"{"Field":0}"#]);
        set(0, &opd(&tag))
    };
    let main = entry(
        &[&option(r#"{"Int":8}"#), &option(r#""Bool""#)],
        &[&byte, &bool, &tag(6), &tag(7)],
    );
    let wanted = [
        "/* core::option::Option<u8> */\ntypedef struct core__option__Option__u8 {\n    uint8_t tag;\n    union {\n        struct {\n            uint8_t f1;\n        } v1;\n    } as;\n} core__option__Option__u8;\n",
        "typedef struct core__option__Option__bool {",
        "/* core::some<bool> */\nstatic core__option__Option__bool core__some__bool(bool v1)\n",
        "    result = (core__option__Option__u8){ .tag = 1u, .as.v1.f1 = v1 };\n",
        "    v6 = core__some__u8(v2);\n",
        "    v7 = core__some__bool(v4);\n",
    ];
    assert_prints(&[&some, &main], &wanted);
}

/// `fn length<const N: usize>(&[u8; N]) -> usize`, and the size of a type.
#[test]
fn numbers_and_sizes_of_types() {
    let array = r#"{"Array":[{"Int":8},{"Param":0}]}"#;
    let number = set(0, &opd(r#"{"NumOf":[64,{"Param":0}]}"#));
    let length = generic(
        "lib::length",
        (r#"{"const_bits":64}"#, ""),
        1,
        &[r#"{"Int":64}"#, &reference("Imm", array)],
        &format!(r#""Seq",{number},"Return""#),
    );
    let size = set(0, &opd(r#"{"SizeOf":{"Param":0}}"#));
    let size = generic(
        "lib::size",
        ("{}", ""),
        0,
        &[r#"{"Int":64}"#],
        &format!(r#""Seq",{size},"Return""#),
    );
    let three = r#"{"Array":[{"Int":8},{"Lit":3}]}"#;
    let main = entry(
        &[three, &reference("Imm", three)],
        &[
            &set(7, &address(6)),
            &call_at("lib::length", r#"{"Const":3}"#, "", &[&copy(7, &[])], 3),
            &call_at("lib::size", &option(r#"{"Int":64}"#), "", &[], 3),
            r#"{"Switch":[{"Copy":{"local":3,"steps":[]}},[],true]},"Skip""#,
        ],
    );
    let wanted = [
        "static usize lib__length__3(const uint8_t *v1)\n{\n    usize result;\n    (void)v1;\n    result = 3u;\n",
        "    v3 = lib__length__3(v7);\n",
        "static usize lib__size__Option__usize(void)\n{\n    usize result;\n    result = 16u;\n",
    ];
    let known = main.replacen(r#""types":[{"#, &format!(r#""types":[{OPTION},{{"#), 1);
    assert_prints(&[&length, &size, &known], &wanted);
}

/// A method by its dictionary, which a caller gives: the impl's own function is called.
#[test]
fn methods_of_dictionaries() {
    let method = r#"{"Method":[{"Given":0},1,{"types":[],"dicts":[]}]}"#;
    let function = r#"{"Fn":["lib::method",{"types":[],"dicts":[]}]}"#;
    let called = call("lib::method", &[&copy(1, &[])]).replace(function, method);
    let through = generic(
        "lib::through",
        ("{}", "{}"),
        1,
        &[r#"{"Int":8}"#, r#"{"Param":0}"#],
        &format!(r#""Seq",{called},"Return""#),
    );
    let own = generic(
        "lib::Impl::second",
        ("", ""),
        1,
        &[r#"{"Int":8}"#, r#"{"Int":16}"#],
        r#""Return""#,
    );
    let dictionary = r#"{"Impl":["lib::Impl",[],[]]}"#;
    let at = call_at(
        "lib::through",
        r#"{"Int":16}"#,
        dictionary,
        &[&int(16, 5)],
        0,
    );
    let declared = r#""impls":[{"name":"lib::Impl","lifetimes":0,"outlives":[],"types":[],"type_outlives":[],"bounds":[],"of":{},"methods":["lib::Impl::first","lib::Impl::second"]}]"#;
    let main = entry(&[], &[&at]).replace(r#""impls":[]"#, declared);
    let wanted = [
        "/* lib::through<u16> */\nstatic uint8_t lib__through__u16(uint16_t v1)\n{\n    uint8_t result;\n    result = lib__Impl__second(v1);\n",
        "    result = lib__through__u16(5u);\n",
    ];
    let text = assert_prints(&[&through, &own, &main], &wanted);
    assert!(!text.contains("first"), "{text}");
    let why = translated(
        &library(&[&through, &own, &entry(&[], &[&at])]),
        TABLE,
        HEADER,
    );
    assert_eq!(
        why.expect_err("it is refused"),
        "lib::through<u16>: the MIR declares no method 1 of the impl lib::Impl"
    );
}

/// What a proof sees of a type has no bytes.
#[test]
fn the_view_of_a_type() {
    let plain = library(&[&entry(&[], &[])]);
    let seen = plain.replace(
        r#""owns":false"#,
        r#""owns":false,"view":{"owns":false,"holds":true,"fixes":false}"#,
    );
    assert_ne!(plain, seen);
    let text = |mir: &str| translated(mir, TABLE, HEADER).expect("it is translated");
    assert_eq!(text(&plain), text(&seen));
}

/// The unit, and a struct of it alone, have no values in C: a parameter or a field of them is left out, and a reference to one is NULL.
#[test]
fn what_says_nothing() {
    let unit = option(r#""Unit""#);
    let helper = generic(
        "lib::helper",
        ("", ""),
        3,
        &[
            r#""Unit""#,
            r#""Unit""#,
            &reference("Mut", r#""Unit""#),
            r#"{"Int":8}"#,
        ],
        r#""Seq",{"Assign":[{"local":0,"steps":[]},{"Opd":"Unit"}]},"Return""#,
    );
    let main = entry(
        &[r#""Unit""#, &reference("Mut", r#""Unit""#), &unit],
        &[
            &set(7, &address(6)),
            &call_at(
                "lib::helper",
                "",
                "",
                &[r#""Unit""#, &copy(7, &[]), &int(8, 1)],
                6,
            ),
            &set(8, &aggregate(&[&int(8, 1), r#""Unit""#])),
            &set(0, &opd(&copy(8, &[r#"{"Variant":0}"#, r#"{"Field":0}"#]))),
        ],
    );
    let known = main.replacen(r#""types":[{"#, &format!(r#""types":[{OPTION},{{"#), 1);
    let wanted = [
        "typedef struct core__option__Option__unit {\n    uint8_t tag;\n} core__option__Option__unit;\n",
        "static void lib__helper(void *v2, uint8_t v3)\n{\n    (void)v2;\n    (void)v3;\n    return;\n",
        "    void *v7;\n",
        "    v7 = NULL;\n    lib__helper(v7, 1u);\n",
        "    v8 = (core__option__Option__unit){ .tag = 1u };\n",
    ];
    assert_prints(&[&helper, &known], &wanted);
}

/// A raw pointer in a struct or a parameter points to what its use says.
#[test]
fn raw_pointers_by_their_use() {
    let byte = r#"{"Deref":{"Int":8}}"#;
    let helper = generic(
        "lib::helper",
        ("", ""),
        2,
        &[r#"{"Int":8}"#, r#""Ptr""#, r#""Ptr""#],
        &format!(
            r#""Seq",{},"Return""#,
            store(&place(1, &[byte]), &opd(&copy(2, &[byte])))
        ),
    );
    let main = entry(
        &[r#""Ptr""#],
        &[
            &set(5, &address(2)),
            &set(6, &opd(&copy(1, &[r#"{"Field":0}"#]))),
            &call("lib::helper", &[&copy(5, &[]), &copy(6, &[])]),
        ],
    );
    let wanted = ["static uint8_t lib__helper(uint8_t *v1, const uint8_t *v2)\n{\n    uint8_t result;\n    *v1 = *v2;\n"];
    assert_prints(&[&helper, &main], &wanted);
}

/// An array behind a reference is copied as a whole.
#[test]
fn arrays_behind_references() {
    let three = r#"{"Array":[{"Int":8},{"Lit":3}]}"#;
    let whole = format!(r#"{{"Deref":{three}}}"#);
    let main = entry(
        &[three, &reference("Mut", three)],
        &[
            &set(6, &opd(&copy(7, &[&whole]))),
            &store(&place(7, &[&whole]), &opd(&copy(6, &[]))),
        ],
    );
    let wanted = [
        "static void copy_array(void *to, const void *from, size_t size)\n",
        "    copy_array(v6.at, v7, sizeof(array_u8_3));\n",
        "    copy_array(v7, v6.at, sizeof(array_u8_3));\n",
    ];
    assert_prints(&[&main], &wanted);
}

/// A constant of structs.
#[test]
fn constants_of_parts() {
    let pair = crate::common::PAIR;
    let two = format!(r#"{{"Array":[{pair},{{"Lit":2}}]}}"#);
    let one = |low: u64| format!(r#"{{"Parts":[{},{}]}}"#, int(8, low), int(64, 9));
    let (to, first, second) = (place(6, &[]), one(1), one(2));
    let lent = format!(r#"{{"LendStatic":[{to},{two},{{"Parts":[{first},{second}]}}]}}"#);
    let through = copy(6, &[&format!(r#"{{"Deref":{pair}}}"#), r#"{"Field":0}"#]);
    let main = entry(
        &[&reference("Imm", &two)],
        &[&lent, &set(0, &opd(&through))],
    );
    let wanted = [
        "    const host_pair *v6;\n    static const host_pair lent1[2] = { { .low = 1u, .high = 9u }, { .low = 2u, .high = 9u } };\n    v6 = lent1;\n    result = v6->low;\n",
    ];
    assert_prints(&[&main], &wanted);
}

/// An array of arrays lies in one row.
#[test]
fn arrays_of_arrays() {
    let two = r#"{"Array":[{"Int":8},{"Lit":2}]}"#;
    let three = format!(r#"{{"Array":[{two},{{"Lit":3}}]}}"#);
    let row = copy(7, &[]);
    let byte = copy(5, &[r#"{"Deref":{"Int":8}}"#]);
    let main = entry(
        &[&three, two],
        &[
            &set(6, &aggregate(&[&row, &row, &row])),
            &set(5, &address(6)),
            &set(0, &opd(&byte)),
        ],
    );
    let wanted = [
        "typedef struct array_array_u8_2_3 {\n    uint8_t at[6];\n} array_array_u8_2_3;\n",
        "    uint8_t *v5;\n",
        "(array_array_u8_2_3){ { v7.at[0], v7.at[1], v7.at[0], v7.at[1], v7.at[0], v7.at[1] } };\n    v5 = v6.at;\n",
    ];
    assert_prints(&[&main], &wanted);
}

/// A constant of references: what they point to stands before it.
#[test]
fn constants_that_point() {
    let block = format!(
        r#"{{"Struct":["",[{},{}]]}}"#,
        crate::common::SLICE,
        r#"{"Array":[{"Int":8},{"Lit":3}]}"#
    );
    let lend = |place: u64| {
        let to = crate::common::place(6, &[]);
        format!(
            r#"{{"LendStatic":[{to},{block},{{"Parts":[{{"Parts":[{{"Here":{place}}},{}]}},{{"Ints":{{"width":8,"values":[7,8,9]}}}}]}}]}}"#,
            int(64, 3)
        )
    };
    let byte = copy(
        6,
        &[
            &format!(r#"{{"Deref":{}}}"#, crate::common::SLICE),
            r#"{"Field":0}"#,
            r#"{"Deref":{"Int":8}}"#,
        ],
    );
    let lent_at = |place: u64| {
        entry(
            &[&reference("Imm", crate::common::SLICE)],
            &[&lend(place), &set(0, &opd(&byte))],
        )
    };
    let wanted = [
        "    static const uint8_t lent1_part1[3] = { 7u, 8u, 9u };\n    static const slice_u8 lent1 = { .at = lent1_part1, .length = 3u };\n    v6 = &lent1;\n    result = *v6->at;\n",
    ];
    assert_prints(&[&lent_at(16)], &wanted);
    let why = translated(&library(&[&lent_at(17)]), TABLE, HEADER);
    assert_eq!(
        why.expect_err("it is refused"),
        "lib::entry: a constant that points to &u8, 17 bytes into its block"
    );
}
