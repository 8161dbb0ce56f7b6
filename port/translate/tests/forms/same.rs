//! A function by hand in both forms, as a library holds it and as `rt check --generated` writes its term: they are the same, and an edit of
//! either is noticed.

use crate::common::library;
use crate::modules;
use std::fs;
use std::path::{Path, PathBuf};
use translate::libraries::Libraries;
use translate::same::difference::difference;
use translate::same::modules::Modules;
use translate::same::{library as held, terms};

const HELD: &str = r#"["lib::least",{"lifetimes":0,"outlives":[],"params":2,
"generics":{"types":[],"outlives":[],"bounds":[],"method_of":null,"trait_lifetimes":0,"impls":[]},
"types":[{"name":"lib::P","lifetimes":0,"bounds":[],"type_params":0,"const_params":[],"type_bounds":[],"owns":false,"is_cell":false,"shape":{"Fields":[{"Int":64}]},"is_tuple":false}],
"locals":[{"ty":{"Int":64},"home":"ValueLocal"},{"ty":{"Int":64},"home":"ValueLocal"},{"ty":{"Int":64},"home":"ValueLocal"},{"ty":"Bool","home":"ValueLocal"},
{"ty":{"Ref":["Erased","Imm",{"Array":[{"Int":8},{"Lit":2}]}]},"home":"ValueLocal"},{"ty":{"Named":[{"name":"lib::P","lifetimes":[]},[]]},"home":"ValueLocal"}],
"body":["Seq",{"Assign":[{"local":3,"steps":[]},{"Op2":[{"Lt":"Unsigned"},{"Copy":{"local":1,"steps":[]}},{"Copy":{"local":2,"steps":[]}}]}]},
"Seq",{"If":{"Copy":{"local":3,"steps":[]}}},"Seq",{"Assign":[{"local":0,"steps":[]},{"Opd":{"Copy":{"local":1,"steps":[]}}}]},"Return","Skip",
"Seq",{"LendStatic":[{"local":4,"steps":[]},{"Array":[{"Int":8},{"Lit":2}]},{"Ints":{"width":8,"values":[5,6]}}]},
"Seq",{"Switch":[{"Copy":{"local":1,"steps":[]}},[[7,8]],true]},{"Assign":[{"local":5,"steps":[]},{"Aggregate":[{"Copy":{"local":1,"steps":[{"Variant":0},{"Field":1}]}}]}]},"Skip",
"Seq",{"Call":[{"Fn":["lib::least",{"types":[],"dicts":[]}]},[{"Int":{"width":64,"value":1}},{"Copy":{"local":2,"steps":[]}}],{"local":2,"steps":[]}]},
"Seq",{"Assign":[{"local":0,"steps":[]},{"Op2":[{"Add":"Unsigned"},{"Copy":{"local":2,"steps":[]}},{"Int":{"width":64,"value":2000}}]}]},"Return"]}]"#;

const CODE: &str = "pub mod Mir
-- the `use` lines below are this print's own: the module states none of them
use Rattle.lib.proofs.least.Code.Mir as Mir'
use Rattle.lib.specs.contracts.least.Key
use mathlib.Core.List
use mir.MapTy
use prog.Wired

abbrev pub function : Syntax.Fn
function = MapTy.spell_fn Mir'.table Mir'.by_name

unfoldable pub code : Wired.Code
code = Wired.node (List.◌∷◌ (Key.symbol, function) List.[]) List.[] Wired.end
";

const KEY: &str = "use mir.Syntax

abbrev pub symbol : Syntax.Symbol
symbol = \"lib::least\"

abbrev pub name : Syntax.Callee
name = Syntax.fn₀ symbol
";

const SYMBOL: &str = "pub use Rattle.lib.proofs.least.Code.{code}
pub use Rattle.lib.specs.contracts.least.Key.{symbol, name}
";

const MIR: &str = "use Rattle.lib.proofs.least.Symbol
use mathlib.Core.List
use mir.Syntax
use mir.Table

abbrev pub by_name-locals : List.List Syntax.Local
by_name-locals =
    List.◌∷◌
    (Syntax.local (Syntax.ty_int Syntax.w64) Syntax.value_local)
    (List.◌∷◌
    (Syntax.local (Syntax.ty_int Syntax.w64) Syntax.value_local)
    (List.◌∷◌
    (Syntax.local (Syntax.ty_int Syntax.w64) Syntax.value_local)
    (List.◌∷◌ (Syntax.local Syntax.ty_bool Syntax.value_local)
    (List.◌∷◌
    (Syntax.local
    (Syntax.ty_ref Syntax.erased Syntax.imm (Syntax.ty_array (Syntax.ty_int Syntax.w8) 2))
    Syntax.value_local)
    (List.◌∷◌ (Syntax.local (Syntax.ty_named (
      List.◌∷◌ 108 (List.◌∷◌ 105 (List.◌∷◌ 98 (List.◌∷◌ 58 (List.◌∷◌ 58 (List.◌∷◌ 80 List.[]))))),
      List.[],
    ) Syntax.tnil) Syntax.value_local) List.[])))))

abbrev pub by_name-s-1 : Syntax.Body
by_name-s-1 =
    Syntax.assign
    (Syntax.place 3 List.[])
    (Syntax.op2
    (Syntax.lt Syntax.unsigned)
    (Syntax.copy (Syntax.place 1 List.[]))
    (Syntax.copy (Syntax.place 2 List.[])))

abbrev pub by_name-s-2 : Syntax.Body
by_name-s-2 =
    Syntax.cond
    (Syntax.copy (Syntax.place 3 List.[]))
    (Syntax.seq
    (Syntax.assign (Syntax.place 0 List.[]) (Syntax.rv_opd (Syntax.copy (Syntax.place 1 List.[]))))
    Syntax.return)
    Syntax.skip

abbrev pub by_name-s-3 : Syntax.Body
by_name-s-3 =
    Syntax.lend_static
    (Syntax.place 4 List.[])
    (Syntax.ty_array (Syntax.ty_int Syntax.w8) 2)
    (Syntax.c_ints Syntax.w8 (List.◌∷◌ 5 (List.◌∷◌ 6 List.[])))

abbrev pub by_name-s-4 : Syntax.Body
by_name-s-4 =
    Syntax.switch
    (Syntax.copy (Syntax.place 1 List.[]))
    (Syntax.arm
    (List.◌∷◌ 7 (List.◌∷◌ 8 List.[]))
    (Syntax.assign
    (Syntax.place 5 List.[])
    (Syntax.aggregate
    (List.◌∷◌
    (Syntax.copy (Syntax.place 1 (List.◌∷◌ (Syntax.variant 0) (List.◌∷◌ (Syntax.field 1) List.[]))))
    List.[])))
    (Syntax.default Syntax.skip))

abbrev pub by_name-s-5 : Syntax.Body
by_name-s-5 =
    Syntax.call
    Symbol.name
    (List.◌∷◌ (Syntax.int Syntax.w64 1) (List.◌∷◌ (Syntax.copy (Syntax.place 2 List.[])) List.[]))
    (Syntax.place 2 List.[])

abbrev pub by_name-s-6 : Syntax.Body
by_name-s-6 =
    Syntax.seq
    (Syntax.assign
    (Syntax.place 0 List.[])
    (Syntax.op2
    (Syntax.add Syntax.unsigned)
    (Syntax.copy (Syntax.place 2 List.[]))
    (Syntax.int_big Syntax.w64 2000)))
    Syntax.return

abbrev pub by_name : Syntax.Fn
by_name = record {
  lifetimes = 0;
  outlives = List.[];
  ty_params = List.[];
  givens = 0;
  params = 2;
  locals = by_name-locals;
  body =
    Syntax.seq by_name-s-1
    (Syntax.seq by_name-s-2
    (Syntax.seq by_name-s-3 (Syntax.seq by_name-s-4 (Syntax.seq by_name-s-5 by_name-s-6))));
}

abbrev pub table : Table.Table
table = List.◌∷◌ (
  List.◌∷◌ 108 (List.◌∷◌ 105 (List.◌∷◌ 98 (List.◌∷◌ 58 (List.◌∷◌ 58 (List.◌∷◌ 80 List.[]))))),
  List.[],
  Table.fields (Syntax.tcons (Syntax.ty_int Syntax.w64) Syntax.tnil),
) List.[]
";

/// A folder of terms, gone with the test.
struct Terms(PathBuf);

impl Terms {
    fn new(test: &str, mir: &str) -> Terms {
        let terms = Terms(std::env::temp_dir().join(format!("same-{test}-{}", std::process::id())));
        let proofs = "Rattle-lib-proofs/least";
        for (file, text) in [
            (format!("{proofs}/Code.antt"), CODE),
            (format!("{proofs}/Symbol.antt"), SYMBOL),
            (format!("{proofs}/Code/Mir.antt"), mir),
            ("Rattle-lib-specs/contracts/least/Key.antt".to_string(), KEY),
        ] {
            let file = terms.0.join(file);
            let folder = file.parent().expect("it lies in a folder");
            fs::create_dir_all(folder).expect("a folder is made");
            fs::write(file, text).expect("a file is written");
        }
        terms
    }
}

impl Drop for Terms {
    fn drop(&mut self) {
        let _ = fs::remove_dir_all(&self.0);
    }
}

/// The kit's libraries that a test wrote beside the terms.
fn libraries_of_the_kit(terms: &Path) -> Modules {
    Modules::new(std::iter::empty(), &terms.join("kit"))
}

/// Where the two forms differ, or why they cannot be compared.
fn compared(text: &str, terms: &Path) -> Result<Option<String>, String> {
    let libraries = Libraries::new(&[library(&[text])], None)?;
    let name = match text.contains("\"lib::most\",{\"lifetimes") {
        true => "lib::most",
        false => "lib::least",
    };
    let (_, function) = libraries.function(name)?;
    Ok(difference(
        &held::code(&function)?,
        "term",
        &terms::code(terms, &libraries_of_the_kit(terms), name)?,
    ))
}

#[test]
fn both_forms_are_the_same() {
    let terms = Terms::new("alike", MIR);
    assert_eq!(compared(HELD, &terms.0), Ok(None));
}

/// What stands in the library, and another text in its place.
const EDITS: [(&str, &str); 18] = [
    (r#"{"Lt":"Unsigned"}"#, r#"{"Le":"Unsigned"}"#),
    (r#"{"Lt":"Unsigned"}"#, r#"{"Lt":"Signed"}"#),
    (r#""value":2000"#, r#""value":2001"#),
    (
        r#"{"local":1,"steps":[]}},{"#,
        r#"{"local":2,"steps":[]}},{"#,
    ),
    (
        r#""Bool","home":"ValueLocal""#,
        r#""Bool","home":"MemorySlot""#,
    ),
    (r#""params":2"#, r#""params":1"#),
    (r#""bounds":[],"method_of""#, r#""bounds":[0],"method_of""#),
    (
        r#""lifetimes":0,"outlives":[]"#,
        r#""lifetimes":1,"outlives":[]"#,
    ),
    (
        r#""lifetimes":0,"outlives":[]"#,
        r#""lifetimes":0,"outlives":[[0,1]]"#,
    ),
    (r#""Return","Skip""#, r#""Skip","Skip""#),
    (r#""values":[5,6]"#, r#""values":[5,7]"#),
    (r#"[[7,8]],true]"#, r#"[[7,9]],true]"#),
    (r#"{"Field":1}"#, r#"{"Field":2}"#),
    (r#"{"Variant":0}"#, r#"{"Variant":1}"#),
    (r#"{"Fields":[{"Int":64}]}"#, r#"{"Fields":[{"Int":32}]}"#),
    (
        r#"{"Fields":[{"Int":64}]}"#,
        r#"{"Variants":[[{"Int":64}]]}"#,
    ),
    (r#"["Erased","Imm""#, r#"["Erased","Mut""#),
    (r#""value":1}}"#, r#""value":0}}"#),
];

#[test]
fn an_edit_of_the_library() {
    let terms = Terms::new("held", MIR);
    for (old, new) in EDITS {
        let edited = HELD.replacen(old, new, 1);
        assert_ne!(edited, HELD, "{old} stands in the library");
        let found = compared(&edited, &terms.0).expect("both are read");
        assert!(
            found.is_some_and(|why| why.starts_with("differs at ")),
            "{old} by {new}"
        );
    }
}

#[test]
fn an_edit_of_the_term() {
    for (number, (old, new)) in [
        ("Syntax.lt", "Syntax.le"),
        ("2000", "1999"),
        ("params = 2", "params = 3"),
        ("givens = 0", "givens = 1"),
        ("List.◌∷◌ 6", "List.◌∷◌ 7"),
        (
            "Symbol.name\n    (List.◌∷◌ (Syntax.int Syntax.w64 1)",
            "Symbol.name\n    (List.◌∷◌ (Syntax.int Syntax.w32 1)",
        ),
    ]
    .iter()
    .enumerate()
    {
        let edited = MIR.replacen(old, new, 1);
        assert_ne!(edited, MIR, "{old} stands in the term");
        let terms = Terms::new(&format!("term-{number}"), &edited);
        let found = compared(HELD, &terms.0).expect("both are read");
        assert!(found.is_some(), "{old} by {new}");
    }
}

/// A program of which the function is only a part, or another one, is not the function's.
#[test]
fn an_edit_of_the_program() {
    let terms = Terms::new("program", MIR);
    let code = terms.0.join("Rattle-lib-proofs/least/Code.antt");
    let edits = [
        (
            "(Key.symbol, function) List.[]",
            "(Key.symbol, function) (List.◌∷◌ (Key.symbol, function) List.[])",
        ),
        ("(Key.symbol, function)", "(\"lib::other\", function)"),
        ("List.◌∷◌ (Key.symbol, function) List.[]", "List.[]"),
    ];
    for (old, new) in edits {
        let edited = CODE.replacen(old, new, 1);
        assert_ne!(edited, CODE, "{old} stands in the module");
        fs::write(&code, edited).expect("a file is written");
        let why = compared(HELD, &terms.0).expect_err("it is another program");
        assert!(why.starts_with("the program must be it alone"), "{why}");
    }
    fs::write(&code, CODE.replacen("Wired.node", "Wired.and", 1)).expect("a file is written");
    let why = compared(HELD, &terms.0).expect_err("it is no program");
    assert_eq!(why, "`code` is Wired.and, not `Wired.node`");
}

#[test]
fn what_is_not_known_is_an_error() {
    let terms = Terms::new("unknown", &MIR.replacen("Syntax.skip", "Syntax.drop", 1));
    let why = compared(HELD, &terms.0).expect_err("a form that is not known");
    assert!(why.contains("drop"), "{why}");
    let why = |old: &str, new: &str| {
        compared(&HELD.replacen(old, new, 1), &terms.0).expect_err("it is not known")
    };
    assert!(why(r#""Lt""#, r#""Rol""#).contains("rol"));
    assert!(why(r#""const_params":[]"#, r#""const_params":[[0]]"#).contains("no number"));
    assert!(
        why(r#""bounds":[],"method"#, r#""bounds":[],"extra":0,"method"#)
            .contains("expected the keys")
    );
    let missing = r#""types":[],"dicts":[{"Impl":["lib::I",[],[]]}]"#;
    assert!(why(r#""types":[],"dicts":[]"#, missing).contains("\"lib::I\" is not declared"));
    assert!(why(
        r#""Skip",
"Seq""#,
        r#""Skip","Skip",
"Seq""#
    )
    .contains("behind the end of the body"));
    let why = compared(&HELD.replace("lib::least", "lib::most"), &terms.0);
    assert!(why
        .expect_err("there is no such file")
        .contains("most/Code.antt"));
}

/// `fn id<T>(T) -> T` by a call of `fn of<T>` of the kit, at types and a dictionary.
const GENERIC: &str = r#"["lib::id",{"lifetimes":0,"outlives":[],"params":1,
"generics":{"types":[{"is_copy":true,"is_kept":false,"const_bits":null},{"is_copy":true,"is_kept":false,"const_bits":64}],"outlives":[],"bounds":[{}],"method_of":null,"trait_lifetimes":0,
"impls":[{"name":"kit::I","lifetimes":0,"outlives":[],"types":[],"type_outlives":[],"bounds":[],"of":{},"methods":["kit::I::one","kit::I::two"]}]},
"types":[],
"locals":[{"ty":{"Param":0},"home":"ValueLocal"},{"ty":{"Array":[{"Param":0},{"Param":1}]},"home":"ValueLocal"}],
"body":["Seq",{"Call":[{"Fn":["kit::deep::Of::of",{"types":[{"Const":3}],"dicts":[{"Given":0},{"Impl":["kit::I",[],[{"Impl":["kit::I",[],[]]}]]}]}]},[{"NumOf":[64,{"Param":1}]}],{"local":0,"steps":[]}]},
"Seq",{"Call":[{"Method":[{"Given":0},1,{"types":[],"dicts":[]}]},[{"SizeOf":{"Param":0}}],{"local":0,"steps":[]}]},"Return"]}]"#;

const GENERIC_MIR: &str = "use Rattle.kit.proofs.prelude.Of.of.Symbol
use mathlib.Core.List
use mir.Syntax

abbrev pub function : Syntax.Fn
function = record {
  lifetimes = 0;
  outlives = List.[];
  ty_params = List.◌∷◌ Syntax.a_type (List.◌∷◌ Syntax.a_number List.[]);
  givens = 1;
  params = 1;
  locals =
    List.◌∷◌ (Syntax.local (Syntax.ty_param 0) Syntax.value_local)
    (List.◌∷◌ (Syntax.local (Syntax.ty_array_p (Syntax.ty_param 0) 1) Syntax.value_local) List.[]);
  body =
    Syntax.seq
    (Syntax.call (Symbol.name (
      Syntax.tcons (Syntax.ty_const 3) Syntax.tnil,
      Syntax.dcons (Syntax.given 0) (Syntax.dcons (Syntax.impl
        (List.◌∷◌ \"kit::I::one\" (List.◌∷◌ \"kit::I::two\" List.[]))
        Syntax.tnil
        (Syntax.dcons (Syntax.impl
          (List.◌∷◌ \"kit::I::one\" (List.◌∷◌ \"kit::I::two\" List.[]))
          Syntax.tnil
          Syntax.dnil) Syntax.dnil)) Syntax.dnil),
    )) (List.◌∷◌ (Syntax.num_of Syntax.w64 (Syntax.ty_param 1)) List.[]) (Syntax.place 0 List.[]))
    (Syntax.seq
    (Syntax.call
    (Syntax.method (Syntax.given 0) 1 (Syntax.tnil, Syntax.dnil))
    (List.◌∷◌ (Syntax.size_of (Syntax.ty_param 0)) List.[])
    (Syntax.place 0 List.[]))
    Syntax.return);
}
";

const GENERIC_CODE: &str = "use Rattle.lib.proofs.id.Code.Mir as Mir'
use mathlib.Core.List
use prog.Wired

abbrev pub symbol : Syntax.Symbol
symbol = \"lib::id\"

unfoldable pub code : Wired.Code
code = Wired.node (List.◌∷◌ (symbol, Mir'.function) List.[]) List.[] Wired.end
";

fn compared_generic(held: &str, mir: &str, test: &str) -> Result<Option<String>, String> {
    let terms = Terms::new(test, MIR);
    let folder = terms.0.join("Rattle-lib-proofs/id/Code");
    fs::create_dir_all(&folder).expect("a folder is made");
    fs::write(folder.join("Mir.antt"), mir).expect("a file is written");
    fs::write(folder.with_extension("antt"), GENERIC_CODE).expect("a file is written");
    let (_, function) = Libraries::new(&[library(&[held])], None)?.function("lib::id")?;
    modules::write_kit(&terms.0.join("kit"), "{}", "");
    let code = held::code(&function)?;
    let term = terms::code(&terms.0, &libraries_of_the_kit(&terms.0), "lib::id")?;
    Ok(difference(&held::spelled(code), "term", &term))
}

/// Types, numbers and dictionaries, and a function of the kit by another name.
#[test]
fn generic_functions() {
    let found = compared_generic(GENERIC, GENERIC_MIR, "generic");
    assert_eq!(found, Ok(None));
    let edits = [
        (r#""const_bits":64"#, r#""const_bits":null"#),
        (r#"{"Const":3}"#, r#"{"Const":4}"#),
        (r#"{"Given":0},{"Impl""#, r#"{"Given":1},{"Impl""#),
        (r#""kit::I::one","#, r#""kit::I::once","#),
        (r#"deep::Of::of""#, r#"flat::Of::of""#),
        (r#"{"Given":0},1,"#, r#"{"Given":0},0,"#),
        (r#"{"SizeOf":{"Param":0}}"#, r#"{"SizeOf":{"Param":1}}"#),
        (r#"[64,{"Param":1}]"#, r#"[32,{"Param":1}]"#),
        (r#""bounds":[{}],"method_of""#, r#""bounds":[],"method_of""#),
        (r#"{"Param":0},{"Param":1}]"#, r#"{"Param":0},{"Lit":1}]"#),
    ];
    for (number, (old, new)) in edits.iter().enumerate() {
        let edited = GENERIC.replacen(old, new, 1);
        assert_ne!(edited, GENERIC, "{old} stands in the library");
        let found = compared_generic(&edited, GENERIC_MIR, &format!("generic-{number}"));
        assert!(matches!(found, Ok(Some(_))), "{new}: {found:?}");
    }
}

/// A table of types that no type of the function needs is in one form alone: it says nothing there. Where one is needed, it is compared.
#[test]
fn tables_that_say_nothing() {
    let declared = r#""types":[{"name":"lib::P","lifetimes":0,"bounds":[],"type_params":0,"const_params":[],"type_bounds":[],"owns":false,"is_cell":false,"shape":{"Fields":[]},"is_tuple":false}],
"locals""#;
    let with = |of: &str| {
        let text = GENERIC.replacen("\"types\":[],\n\"locals\"", declared, 1);
        text.replacen(r#""body":["#, &format!(r#""body":["Seq",{of},"#), 1)
    };
    let mir = GENERIC_MIR.replacen("\n  body =", "\n  body = Syntax.seq Syntax.skip (", 1);
    let mir = mir.replacen("Syntax.return);", "Syntax.return));", 1);
    assert_eq!(
        compared_generic(&with(r#""Skip""#), &mir, "table"),
        Ok(None)
    );
    let named = r#"{"Assign":[{"local":0,"steps":[]},{"Opd":{"SizeOf":{"Named":[{"name":"lib::P","lifetimes":[]},[]]}}}]}"#;
    let found = compared_generic(&with(named), &mir, "needed");
    assert!(matches!(found, Ok(Some(_))), "{found:?}");
}
