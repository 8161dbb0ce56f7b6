//! The table of what C sees is held against the header and the MIR: a difference is refused, and says what stands where.

use crate::common::{entry, library, translated, HEADER, TABLE};

fn refusal(table: &str, header: &str) -> String {
    translated(&library(&[&entry(&[], &[])]), table, header).expect_err("it is refused")
}

#[test]
fn a_table_that_fits() {
    let text = translated(&library(&[&entry(&[], &[])]), TABLE, HEADER).expect("it is translated");
    assert!(text.starts_with("/*\n * A library, in portable C99: what lib.h declares.\n"));
    assert!(text.contains("with a kit.\n"));
    assert!(text.contains("\nuint8_t entry(const uint8_t *bytes, size_t bytes_len)\n{\n"));
    // C adds nothing to NULL: where it comes with a length of 0, the address of a local stands in.
    assert!(text.contains(
        ".at = bytes != NULL ? bytes : (const uint8_t *)&nothing, .length = bytes_len }"
    ));
}

#[test]
fn fields_in_another_order() {
    let why = refusal(&TABLE.replace("low high", "high low"), HEADER);
    assert_eq!(
        why,
        "lib.h declares host_pair with uint8_t low, size_t high, not uint8_t high, size_t low"
    );
}

#[test]
fn a_field_of_another_type() {
    let why = refusal(TABLE, &HEADER.replace("uint8_t low", "uint16_t low"));
    assert_eq!(
        why,
        "lib.h declares host_pair with uint16_t low, size_t high, not uint8_t low, size_t high"
    );
}

#[test]
fn a_field_too_few() {
    let why = refusal(&TABLE.replace(" low high", " low"), HEADER);
    assert_eq!(why, "lib::Pair has 2 fields, not 1");
}

#[test]
fn a_struct_that_is_not_declared() {
    let why = refusal(&TABLE.replace("host_pair", "other_pair"), HEADER);
    assert_eq!(why, "lib.h declares no struct other_pair");
}

#[test]
fn an_array_that_is_not_declared() {
    let why = refusal(&format!("{TABLE}bytes other_bytes 6\n"), HEADER);
    assert_eq!(why, "lib.h declares no array of bytes other_bytes");
}

#[test]
fn a_function_that_is_not_declared() {
    let why = refusal(
        TABLE,
        &HEADER.replace(
            "uint8_t entry(const uint8_t *bytes, size_t bytes_len);\n",
            "",
        ),
    );
    assert_eq!(why, "lib.h declares no function entry");
}

#[test]
fn a_function_that_is_not_in_the_table() {
    let why = refusal(TABLE, &format!("{HEADER}\nvoid another(void);\n"));
    assert_eq!(why, "lib.h declares another, which is not in the interface");
}

#[test]
fn a_function_of_another_type() {
    let changed = HEADER.replace(
        "uint8_t entry(const uint8_t *bytes, size_t bytes_len);",
        "uint8_t entry(uint8_t *bytes, size_t bytes_len);",
    );
    let why = refusal(TABLE, &changed);
    assert_eq!(why, "lib.h declares entry with the types uint8_t, uint8_t *, size_t, not uint8_t, const uint8_t *, size_t");
}

#[test]
fn a_declaration_that_is_not_known() {
    let why = refusal(TABLE, &format!("{HEADER}\nextern int counter;\n"));
    assert_eq!(
        why,
        "a declaration of a form that is not known: extern int counter"
    );
    let why = refusal(TABLE, &format!("{HEADER}\nenum {{ LAST = 1 }}\n"));
    assert_eq!(why, "a declaration has no end: enum { LAST = 1 }");
}

#[test]
fn a_table_that_is_not_known() {
    let why = refusal("struct a is b c\n", HEADER);
    assert_eq!(
        why,
        "line 1 of the interface: no file before it: struct a is b c"
    );
    let why = refusal(&format!("{TABLE}export lib::entry\n"), HEADER);
    assert_eq!(
        why,
        "line 6 of the interface: expected file, struct, bytes or function: export lib::entry"
    );
    let why = refusal(&format!("{TABLE}bytes host_bytes six\n"), HEADER);
    assert_eq!(
        why,
        "line 6 of the interface: no number: bytes host_bytes six"
    );
}

/// A u64 is a size_t to C, which may have 32 bits: none is given back by value.
#[test]
fn a_size_as_a_result() {
    let mir = library(&[&entry(&[], &[]).replacen(r#"{"ty":{"Int":8}"#, r#"{"ty":{"Int":64}"#, 1)]);
    let header = HEADER.replace("uint8_t entry(const", "size_t entry(const");
    let why = translated(&mir, TABLE, &header).expect_err("it is refused");
    assert_eq!(why, "lib::entry: a u64 as a result: C has size_t");
}
