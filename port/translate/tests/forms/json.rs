//! A library's mir.json is read as it stands.

use translate::json::{parse, Json};

#[test]
fn words_texts_and_lists() {
    let text = " {\"a\": [\"x y\", {\"b\": 1}],\n \"c\": [], \"d\": {}, \"e\": [true, false, null, 340282366920938463463374607431768211455]} ";
    let parsed = parse(text).expect("it is read");
    let wanted = "{\"a\":[\"x y\",{\"b\":1}],\"c\":[],\"d\":{},\"e\":[true,false,null,340282366920938463463374607431768211455]}";
    assert_eq!(parsed.to_string(), wanted);
    assert_eq!(parse(wanted), Ok(parsed));
}

#[test]
fn a_form_is_a_text_or_an_object_of_one_key() {
    let form = |text: &str| {
        let parsed = parse(text).expect("it is read");
        let (word, parts) = parsed.form();
        format!("{word} {parts:?}")
    };
    assert_eq!(form("\"Skip\""), "Skip []");
    assert_eq!(form("{\"Exit\":1}"), "Exit [Number(1)]");
    assert_eq!(form("{\"Op\":[1,2]}"), "Op [Number(1), Number(2)]");
    assert_eq!(form("{\"a\":1,\"b\":2}"), " []");
    assert_eq!(form("[1]"), " []");
}

#[test]
fn an_object_has_the_keys_and_no_other() {
    let parsed = parse("{\"a\":1,\"b\":2}").expect("it is read");
    assert_eq!(
        parsed.fields(["b", "a"]),
        Ok([&Json::Number(2), &Json::Number(1)])
    );
    let why = parsed.fields(["a"]).expect_err("there is b");
    assert_eq!(why, "expected the keys a, not {\"a\":1,\"b\":2}");
    let why = parsed.fields(["a", "c"]).expect_err("there is no c");
    assert_eq!(why, "expected the keys a, c, not {\"a\":1,\"b\":2}");
}

#[test]
fn what_is_no_json_or_of_another_kind() {
    let why = |text: &str| parse(text).expect_err("it is refused");
    assert_eq!(why("{\"a\":1,\"a\":2}"), "JSON: the key a stands twice");
    assert_eq!(why("[1 2]"), "JSON: `]` is expected, not `2]`");
    assert_eq!(why("[-1]"), "JSON: no value: `-1]`");
    assert_eq!(why("[1.5]"), "JSON: no value: `1.5]`");
    assert_eq!(why("[+1]"), "JSON: no value: `+1]`");
    assert_eq!(why("[\"a\\n\"]"), "JSON: an escape in the text a\\n");
    assert_eq!(why("[1] 2"), "2 behind the end of the JSON");
}

#[test]
fn a_long_expression_is_shortened_in_messages() {
    let parsed = parse(&format!("[{}1]", "\"word\",".repeat(100))).expect("it is read");
    assert_eq!(parsed.brief().len(), 123);
    assert!(parsed.brief().ends_with(" .."));
}
