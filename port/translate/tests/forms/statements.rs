//! Each form of MIR in C, by hand: what the compilers and the comparisons with the reference cannot tell apart is seen here.

use crate::common::{
    address, aggregate, array, body_of, call, cast, copy, entry, function, int, library, local,
    op1, op2, opd, place, reference, set, store, translated, translated_together, unsigned, CHOICE,
    HEADER, PAIR, TABLE,
};

/// Reads the u64, so that what is stored in it is printed.
const READ_SIZE: &str = r#"{"Switch":[{"Copy":{"local":3,"steps":[]}},[],true]},"Skip""#;

/// Whether these statements are printed with all of the wanted lines among theirs.
fn assert_prints(locals: &[&str], statements: &[&str], wanted: &[&str]) {
    let lines = body_of(locals, statements);
    for line in wanted {
        assert!(
            lines.iter().any(|found| found == line),
            "no line {line} in {lines:#?}"
        );
    }
}

/// Whether the body ends with these lines.
fn assert_ends(statements: &[&str], wanted: &[&str]) {
    let lines = body_of(&[], statements);
    assert_eq!(lines[lines.len().saturating_sub(wanted.len())..], *wanted);
}

#[test]
fn operations_by_their_signs() {
    let of_bytes = |word: &str| set(0, &op2(word, &copy(2, &[]), &int(8, 3)));
    let signs = [
        (unsigned("Add"), "+"),
        (unsigned("Sub"), "-"),
        (unsigned("Mul"), "*"),
        (unsigned("Div"), "/"),
        (unsigned("Rem"), "%"),
        (r#""And""#.to_string(), "&"),
        (r#""Or""#.to_string(), "|"),
        (r#""Xor""#.to_string(), "^"),
        (r#""Shl""#.to_string(), "<<"),
        (unsigned("Shr"), ">>"),
        (r#""WrapAdd""#.to_string(), "+"),
        (r#""WrapSub""#.to_string(), "-"),
        (r#""WrapMul""#.to_string(), "*"),
    ];
    for (word, sign) in signs {
        let wanted = format!("result = (uint8_t)((uint32_t)v2 {sign} (uint32_t)3u);");
        assert_prints(&[], &[&of_bytes(&word)], &[&wanted]);
    }
    let test = |word: &str| set(4, &op2(word, &copy(2, &[]), &int(8, 3)));
    let tests = [
        (unsigned("Lt"), "<"),
        (unsigned("Le"), "<="),
        (r#""Eq""#.to_string(), "=="),
        (r#""Ne""#.to_string(), "!="),
    ];
    let read = format!(r#"{{"If":{}}},"Return","Skip""#, copy(4, &[]));
    for (word, sign) in tests {
        let wanted = format!("v4 = v2 {sign} 3u;");
        assert_prints(&[], &[&test(&word), &read], &[&wanted]);
    }
}

#[test]
fn a_negation_and_the_branches_of_a_test() {
    let not = set(4, &op1(r#""Not""#, &copy(4, &[])));
    let zero = set(0, &opd(&int(8, 0)));
    let one = set(0, &opd(&int(8, 1)));
    let both = format!(r#"{{"If":{}}},{one},{zero}"#, copy(4, &[]));
    let wanted = [
        "v4 = !v4;",
        "if (v4) {",
        "result = 1u;",
        "} else {",
        "result = 0u;",
        "}",
        "return result;",
    ];
    assert_ends(&[&not, &both], &wanted);
}

#[test]
fn a_constant_in_front_has_the_width_of_its_type() {
    let front = set(3, &op2(&unsigned("Sub"), &int(64, 9), &copy(3, &[])));
    let behind = set(3, &op2(&unsigned("Sub"), &copy(3, &[]), &int(64, 9)));
    assert_prints(
        &[],
        &[&front, &behind, READ_SIZE],
        &["v3 = (usize)9u - v3;", "v3 = v3 - 9u;"],
    );
}

/// A size that C's callers lend is widened before anything is computed with it; the library's own lies with 64 bits.
#[test]
fn sizes_behind_references() {
    let at = |local: usize| copy(local, &[r#"{"Deref":{"Int":64}}"#]);
    let taken = set(6, &opd(&copy(1, &[r#"{"Field":0}"#])));
    let sum = set(3, &op2(&unsigned("Add"), &at(6), &at(7)));
    let sizes = reference("Imm", r#"{"Int":64}"#);
    let body = entry(&[&sizes, &sizes], &[&taken, &sum, READ_SIZE]);
    let mir = library(&[&body.replacen(r#""Imm",{"Int":8}"#, r#""Imm",{"Int":64}"#, 1)]);
    let header = HEADER.replace("const uint8_t *bytes", "const size_t *bytes");
    let text = translated(&mir, TABLE, &header).expect("it is translated");
    let wanted = [
        "    const size_t *at;\n",
        "    const size_t *v6;\n",
        "    const usize *v7;\n",
        "    v6 = v1.at;\n",
        "    v3 = (usize)*v6 + *v7;\n",
    ];
    for line in wanted {
        assert!(text.contains(line), "no line {line} in {text}");
    }
}

/// MIR moves a pointer by bytes, C by elements.
#[test]
fn pointers_move_by_elements() {
    let moved = set(5, &op2(r#""Offset""#, &copy(6, &[]), &copy(3, &[])));
    let read = set(0, &cast(8, &copy(5, &[r#"{"Deref":{"Int":16}}"#])));
    let words = r#"{"Ref":[{"Named":0},"Imm",{"Int":16}]}"#;
    assert_prints(
        &[words],
        &[&moved, &read],
        &["v5 = v6 + v3 / 2u;", "result = (uint8_t)*v5;"],
    );
    let at = copy(1, &[r#"{"Field":0}"#]);
    let moved = set(5, &op2(r#""Offset""#, &at, &copy(3, &[])));
    let read = set(0, &opd(&copy(5, &[r#"{"Deref":{"Int":8}}"#])));
    assert_prints(
        &[],
        &[&moved, &read],
        &["v5 = v1.at + v3;", "result = *v5;"],
    );
}

#[test]
fn a_struct_of_the_header() {
    let whole = set(6, &aggregate(&[&copy(2, &[]), &copy(3, &[])]));
    let part = set(3, &opd(&copy(6, &[r#"{"Field":1}"#])));
    let wanted = [
        "v6 = (host_pair){ .low = v2, .high = (size_t)v3 };",
        "v3 = (usize)v6.high;",
    ];
    assert_prints(&[PAIR], &[&whole, &part, READ_SIZE], &wanted);
}

#[test]
fn an_enum_is_a_tag_and_a_union() {
    let whole = set(6, &aggregate(&[&int(8, 1), &int(16, 7)]));
    let seen = |field: usize| {
        let field = format!(r#"{{"Field":{field}}}"#);
        copy(6, &[r#"{"Variant":1}"#, &field])
    };
    let tag = set(0, &opd(&seen(0)));
    let held = set(0, &cast(8, &seen(1)));
    let wanted = [
        "v6 = (lib__Choice){ .tag = 1u, .as.v1.f1 = 7u };",
        "result = v6.tag;",
        "result = (uint8_t)v6.as.v1.f1;",
    ];
    assert_prints(&[CHOICE], &[&whole, &tag, &held], &wanted);
}

#[test]
fn arrays_in_place_and_their_elements() {
    let fill = set(6, &format!(r#"{{"Repeat":[{},{{"Lit":3}}]}}"#, int(16, 5)));
    let point = set(5, &address(6));
    let to = place(5, &[r#"{"Deref":{"Int":16}}"#]);
    let store = store(&to, &opd(&int(16, 9)));
    let wanted = [
        "v6 = (array_u16_3){ { 5u, 5u, 5u } };",
        "v5 = v6.at;",
        "*v5 = 9u;",
    ];
    let three = array(r#"{"Int":16}"#, 3);
    assert_prints(&[&three], &[&fill, &point, &store], &wanted);
}

/// Lends an array of two numbers of so many bits to the local 6, and reads the first.
pub fn lend(bits: u64, numbers: &str) -> [String; 2] {
    let (to, of) = (place(6, &[]), array(&format!(r#"{{"Int":{bits}}}"#), 2));
    let constant = format!(r#"{{"Ints":{{"width":{bits},"values":[{numbers}]}}}}"#);
    let first = copy(6, &[&format!(r#"{{"Deref":{{"Int":{bits}}}}}"#)]);
    let lent = format!(r#"{{"LendStatic":[{to},{of},{constant}]}}"#);
    [lent, set(0, &cast(8, &first))]
}

/// A constant that is lent lies in memory that is never written; one that is lent twice lies there once.
#[test]
fn constants_that_are_lent() {
    let ([one, read], [other, _]) = (lend(16, "5,300"), lend(16, "5,301"));
    let to = reference("Imm", &array(r#"{"Int":16}"#, 2));
    let lines = body_of(&[&to], &[&one, &read, &other, &read, &one, &read]);
    let wanted = [
        "(void)v1;",
        "const uint16_t *v6;",
        "static const uint16_t lent1[2] = { 5u, 300u };",
        "static const uint16_t lent2[2] = { 5u, 301u };",
        "v6 = lent1;",
        "result = (uint8_t)*v6;",
        "v6 = lent2;",
        "result = (uint8_t)*v6;",
        "v6 = lent1;",
        "result = (uint8_t)*v6;",
        "return result;",
    ];
    assert_eq!(lines, wanted);
}

/// `Exit 0` is the next turn, `Exit 1` the end of the loop.
#[test]
fn loops() {
    let turn = format!(
        r#""Block","Loop","Seq",{{"If":{}}},"Skip",{{"Exit":1}},{{"Exit":0}}"#,
        copy(4, &[])
    );
    let wanted = [
        "for (;;) {",
        "if (!v4) {",
        "break;",
        "}",
        "continue;",
        "}",
        "return result;",
    ];
    assert_ends(&[&turn], &wanted);
}

/// An exit that C has no word for goes to a label.
#[test]
fn exits_from_deeper_blocks() {
    let block = r#""Block","Seq",{"Exit":0},"Skip""#;
    assert_ends(&[block], &["goto end1;", "end1:;", "return result;"]);
    let on = copy(2, &[]);
    let switch = format!(r#"{{"Switch":[{on},[[1]],true]}},{{"Exit":1}},{{"Exit":0}}"#);
    let wanted = [
        "for (;;) {",
        "switch (v2) {",
        "case 1u:",
        "goto end1;",
        "default:",
        "continue;",
        "}",
        "}",
        "end1:;",
        "return result;",
    ];
    assert_ends(&[&format!(r#""Block","Loop",{switch}"#)], &wanted);
    let wanted = [
        "for (;;) {",
        "for (;;) {",
        "goto next2;",
        "}",
        "next2:;",
        "}",
        "return result;",
    ];
    assert_ends(&[r#""Block","Loop","Block","Loop",{"Exit":2}"#], &wanted);
    assert_ends(
        &[r#""Unreachable""#],
        &["for (;;) { /* never */", "}", "return result;"],
    );
}

/// With no default the last arm takes what cannot come up; an arm that returns needs no break.
#[test]
fn switches() {
    let first = set(0, &opd(&int(8, 4)));
    let on = copy(2, &[]);
    let wanted = [
        "switch (v2) {",
        "case 1u:",
        "case 2u:",
        "result = 4u;",
        "break;",
        "case 3u:",
        "default:",
        "return result;",
        "}",
        "return result;",
    ];
    let without = format!(r#"{{"Switch":[{on},[[1,2],[3]],false]}},{first},"Return""#);
    assert_ends(&[&without], &wanted);
    let wanted = [
        "switch (v2) {",
        "case 7u:",
        "return result;",
        "default:",
        "result = 4u;",
        "break;",
        "}",
        "return result;",
    ];
    let with = format!(r#"{{"Switch":[{on},[[7]],true]}},"Return",{first}"#);
    assert_ends(&[&with], &wanted);
}

/// What is called may stand in another library, and what nothing calls is not read.
#[test]
fn functions_of_several_libraries() {
    let byte = local(r#"{"Int":8}"#);
    let own = library(&[&entry(&[], &[&call("low::one", &[&copy(2, &[])])])]);
    let one = function("low::one", 1, &[byte.clone(), byte.clone()], r#""Return""#);
    let never = function("low::never", 1, &[byte.clone(), byte], r#""Strange""#);
    let text = translated_together(&[library(&[&never, &one]), own], TABLE, HEADER);
    let text = text.expect("it is translated");
    assert!(text.contains("    result = low__one(v2);\n"), "{text}");
    assert!(!text.contains("never"), "{text}");
    let twice = library(&[&one, &one]);
    let why = translated(&twice, TABLE, HEADER).expect_err("it is refused");
    assert_eq!(why, "two functions are named low::one");
}
