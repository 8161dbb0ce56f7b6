//! What a built library carries: the functions that its terms are made from, and the names that stand for them elsewhere.

use std::fs;
use std::path::{Path, PathBuf};
use translate::same::difference::difference;
use translate::same::library::{code, spelled};
use translate::same::modules::Modules;

/// Writes a library `NAME.rlib` to the folder that carries these modules.
pub fn write_library(folder: &Path, name: &str, modules: &[(&str, String)]) {
    let (mut places, mut all) = (String::new(), String::new());
    for (module, made) in modules {
        all += &format!("\"{module}\"\n");
        places += &format!(
            "[\"{module}\",{},{},\"0a\",false]\n",
            all.len(),
            made.len() + 1
        );
        all += &format!("{made}\n");
    }
    let library = folder.join(format!("{name}.rlib"));
    for (file, text) in [
        ("toolchain/made.json", places),
        ("lang/antt/made.json", all),
    ] {
        let file = library.join(file);
        fs::create_dir_all(file.parent().expect("it lies in a folder")).expect("it is made");
        fs::write(file, text).expect("a file is written");
    }
}

fn stands_for(source: &str, rows: &str) -> String {
    format!(
        r#"{{"StandsFor":{{"source":"{source}","children":[],"names":[],"unfoldable":[],"whole":[]{rows}}}}}"#
    )
}

fn symbol(name: &str) -> String {
    format!(r#"{{"Symbol":{{"symbol":"{name}"}}}}"#)
}

fn program(name: &str) -> String {
    format!(r#"{{"Code":{{"symbol":"{name}","callees":[],"also":[],"by_name":false}}}}"#)
}

/// Writes a library with two functions, `kit::deep::Of::of` and `kit::deep::one`; others see the first below `prelude` too.
pub fn write_kit(folder: &Path, function: &str, behind: &str) {
    let made =
        format!(r#"{{"Mir":{{"function":{function},"header":{{"Reported":{{"bytes":"of"}}}}}}}}"#);
    write_library(
        folder,
        "kit",
        &[
            (
                "facade/proofs/prelude",
                stands_for(
                    "Rattle-kit-proofs.prelude",
                    r#","rows":[["Or","Rattle-kit.proofs.deep.one"],["Of","Rattle-kit.proofs.deep.Of"]]"#,
                ),
            ),
            (
                "facade/proofs/deep/Of/of/Symbol",
                stands_for("Rattle-kit-proofs.deep.Of.of.Symbol", ""),
            ),
            ("proofs/deep/Of/of/Symbol", symbol("kit::deep::Of::of")),
            ("proofs/deep/Of/of/Code", program("kit::deep::Of::of")),
            ("proofs/deep/Of/of/Code/Mir", format!("{made}{behind}")),
            (
                "facade/proofs/deep/one/Symbol",
                stands_for("Rattle-kit-proofs.deep.one.Symbol", ""),
            ),
            (
                "proofs/deep/one/Symbol",
                r#"{"Symbol":{"symbol":"kit::deep::one","is_method":true}}"#.to_string(),
            ),
            ("proofs/deep/one", "{\"Parts\":{}}".to_string()),
            ("proofs/deep/one/Code", program("kit::deep::two")),
            ("proofs/deep/one/Code/Mir", made.clone()),
            ("proofs/deep/Of/none/Code", program("kit::deep::Of::none")),
            (
                "proofs/deep/Of/none/Code/Mir",
                symbol("kit::deep::Of::none"),
            ),
            (
                "proofs/round/Symbol",
                stands_for("Rattle-kit-proofs.round.Symbol", ""),
            ),
        ],
    );
    let rows = r#","rows":[["kit","Rattle-kit"]]"#;
    let below = stands_for("Rattle-std.below", rows);
    write_library(folder, "std", &[("facade/below", below)]);
}

/// A folder of libraries, gone with the test.
struct Folder(PathBuf);

impl Folder {
    fn new(test: &str, function: &str) -> Folder {
        Folder::with(test, function, "")
    }

    fn with(test: &str, function: &str, behind: &str) -> Folder {
        let folder = format!("modules-{test}-{}", std::process::id());
        let folder = Folder(std::env::temp_dir().join(folder));
        write_kit(&folder.0, function, behind);
        folder
    }

    fn modules(&self) -> Modules {
        Modules::new(std::iter::empty(), &self.0)
    }
}

impl Drop for Folder {
    fn drop(&mut self) {
        let _ = fs::remove_dir_all(&self.0);
    }
}

/// `fn of<T>(T) -> T`, which calls another function and a method; as a library holds it.
const HELD: &str = r#"{"lifetimes":0,"outlives":[],"params":1,
"generics":{"types":[{"is_copy":true,"is_kept":false,"const_bits":null}],"outlives":[],"bounds":[{}],"method_of":null,"trait_lifetimes":0,
"impls":[{"name":"kit::I","lifetimes":0,"outlives":[],"types":[],"type_outlives":[],"bounds":[],"of":{},"methods":["kit::I::one"]}]},
"types":[],"locals":[{"ty":{"Param":0},"home":"ValueLocal"},{"ty":{"Param":0},"home":"ValueLocal"}],
"body":["Seq",{"Call":[{"Fn":["kit::deep::one",{"types":[{"Param":0}],"dicts":[{"Impl":["kit::I",[],[]]}]}]},[{"Copy":{"local":1,"steps":[]}}],{"local":0,"steps":[]}]},
"Seq",{"Call":[{"Method":[{"Given":0},0,{"types":[],"dicts":[]}]},[],{"local":0,"steps":[]}]},"Return"]}"#;

/// The same as its module is made from it: on one line, with the callee's module.
fn made() -> String {
    let module = r#""Fn":["Rattle-kit-proofs.deep.one.Symbol""#;
    HELD.replace('\n', "")
        .replace(r#""Fn":["kit::deep::one""#, module)
}

fn compared(test: &str, held: &str, made: &str) -> Result<Option<String>, String> {
    let folder = Folder::new(test, made);
    let made = folder.modules().function("kit::deep::Of::of")?;
    let held = translate::json::parse(held)?;
    Ok(difference(&code(&held)?, "module", &code(&made)?))
}

#[test]
fn a_function_of_the_kit() {
    assert_eq!(compared("alike", HELD, &made()), Ok(None));
    let edits = [
        (r#""params":1"#, r#""params":0"#),
        (r#""const_bits":null"#, r#""const_bits":8"#),
        (r#""bounds":[{}],"method_of""#, r#""bounds":[],"method_of""#),
        (r#"{"Param":0},"home""#, r#"{"Int":8},"home""#),
        (
            r#""methods":["kit::I::one"]"#,
            r#""methods":["kit::I::two"]"#,
        ),
        (r#"{"types":[{"Param":0}]"#, r#"{"types":[{"Int":8}]"#),
        (r#"{"Copy":{"local":1"#, r#"{"Copy":{"local":0"#),
        (r#"[{"Given":0},0,"#, r#"[{"Given":0},1,"#),
        (r#""Return"]"#, r#""Skip"]"#),
    ];
    for (number, (old, new)) in edits.iter().enumerate() {
        let (held, made) = (HELD.replacen(old, new, 1), made().replacen(old, new, 1));
        assert_ne!(held, HELD, "{old} stands in the library");
        let found = compared(&format!("held-{number}"), &held, &self::made());
        assert!(matches!(found, Ok(Some(_))), "{new}: {found:?}");
        let found = compared(&format!("made-{number}"), HELD, &made);
        assert!(matches!(found, Ok(Some(_))), "{new}: {found:?}");
    }
    let other = made().replacen("deep.one.Symbol", "deep.Of.of.Symbol", 1);
    let found = compared("callee", HELD, &other);
    assert!(matches!(found, Ok(Some(_))), "{found:?}");
}

/// Behind a function may stand other paths, by which its module imports what it calls.
#[test]
fn other_paths_to_what_is_called() {
    let made = made().replace("Rattle-kit-proofs.deep.one", "Rattle-kit.proofs.deep.one");
    let function = |test: &str, behind: &str| {
        let folder = Folder::with(test, &made, behind);
        folder.modules().function("kit::deep::Of::of")
    };
    let ways = r#"
{"ways":{"Rattle-kit.proofs.deep.one.Symbol":"Rattle-std.below.kit.proofs.deep.one.Symbol"}}"#;
    assert_eq!(function("ways", ways), function("no-ways", ""));
    assert!(function("ways", ways).is_ok());
    let why = |test: &str, behind: &str| function(test, behind).expect_err("it is refused");
    assert_eq!(
        why("ways-to-another", &ways.replace("deep.one.Symbol\"}", "deep.Of.of.Symbol\"}")),
        "Rattle-std.below.kit.proofs.deep.Of.of.Symbol stands for another function than kit::deep::one"
    );
    assert!(why("roads", "\n{\"roads\":{}}").contains("expected the keys ways"));
    assert!(why("no-ways-at-all", "\n{\"ways\":[]}").contains("[] are no ways"));
    assert!(why("three-lines", &format!("{ways}{ways}")).contains("from one line, or from two"));
}

#[test]
fn a_name_stands_for_a_function() {
    let folder = Folder::new("names", &made());
    let modules = folder.modules();
    for path in [
        "Rattle-kit-proofs.deep.Of.of.Symbol",
        "Rattle-kit.proofs.deep.Of.of.Symbol",
        "Rattle-kit.proofs.prelude.Of.of.Symbol",
        "Rattle-std.below.kit.proofs.prelude.Of.of.Symbol",
    ] {
        let name = "kit::deep::Of::of".to_string();
        assert_eq!(modules.symbol(path), Ok(name), "{path}");
    }
    let name = modules.symbol("Rattle-kit.proofs.prelude.Or.Symbol");
    assert_eq!(name, Ok("kit::deep::one".to_string()));
}

#[test]
fn what_is_not_carried_is_an_error() {
    let folder = Folder::new("missing", &made());
    let modules = folder.modules();
    let why = |path: &str| modules.symbol(path).expect_err("it is no function");
    assert_eq!(
        why("Rattle-kit.proofs.prelude.Up.of.Symbol"),
        "the library kit carries no facade/proofs/prelude/Up/of/Symbol"
    );
    assert_eq!(
        why("Rattle-kit.shapes.Symbol"),
        "the library kit carries no facade/shapes/Symbol"
    );
    assert!(why("Rattle-kit-proofs.deep.one").contains("is no function's"));
    assert!(why("Rattle-kit-proofs.round.Symbol").contains("stands for no function"));
    assert!(why("kit.proofs.deep.one").contains("is no module of a library"));
    assert!(why("Rattle-/kit.proofs.deep.one").contains("is no module of a library"));
    assert!(why("Rattle-none.proofs.deep.one.Symbol").contains("none.rlib/toolchain/made.json"));
    let why = |name: &str| modules.function(name).expect_err("it is not carried");
    assert_eq!(
        why("kit::deep::two"),
        "the library kit carries no proofs/deep/two/Code"
    );
    assert_eq!(
        why("kit::deep::one"),
        "proofs/deep/one/Code is another program"
    );
    assert!(why("kit::deep::Of::none").contains("Code/Mir is no function"));
    assert_eq!(why("one"), "its name has no crate");
    let two = [
        ("proofs/one", "{}".to_string()),
        ("proofs/one", "{}".to_string()),
    ];
    write_library(&folder.0, "twice", &two);
    let why = modules.symbol("Rattle-twice-proofs.one");
    assert!(why.is_err_and(|why| why.contains("two modules are named proofs/one")));
}

/// A program says whether the types of its function's table are put in.
#[test]
fn a_table_that_is_not_put_in() {
    let table = r#""types":[{"name":"kit::P"}],"locals""#;
    let with_table = made().replacen(r#""types":[],"locals""#, table, 1);
    assert_ne!(with_table, made());
    let folder = Folder::new("table", &with_table);
    let why = folder.modules().function("kit::deep::Of::of");
    let why = why.expect_err("its program has no types");
    assert_eq!(why, "proofs/deep/Of/of/Code is another program");
    let list = folder.0.join("kit.rlib/lang/antt/made.json");
    let text = fs::read_to_string(&list).expect("it is there");
    fs::write(
        &list,
        text.replace("\"by_name\":false", "\"by_name\":true "),
    )
    .expect("written");
    assert!(folder.modules().function("kit::deep::Of::of").is_ok());
    fs::write(&list, &text[..text.find("\"Mir\"").expect("it is there")]).expect("written");
    let why = folder.modules().function("kit::deep::Of::of");
    assert!(why.is_err_and(|why| why.contains("it ends within proofs/deep/Of/of/Code/Mir")));
}

/// Our own libraries lie elsewhere, and stand before the kit's.
#[test]
fn a_library_of_ours() {
    let (folder, other) = (
        Folder::new("own", &made()),
        Folder::new("other", "{\"types\":[]}"),
    );
    let own = [("kit".to_string(), folder.0.join("kit.rlib"))];
    let modules = Modules::new(own.into_iter(), &other.0);
    let function = modules.function("kit::deep::Of::of");
    assert_eq!(function, folder.modules().function("kit::deep::Of::of"));
    assert!(other.modules().function("kit::deep::Of::of").is_ok());
    assert_ne!(function, other.modules().function("kit::deep::Of::of"));
}

/// A function that has a value of `P`, a reference to a value of `R`, and these declared types.
fn with_types(types: &[(&str, &str)]) -> String {
    let types = types.iter().map(|(name, fields)| {
        format!(
            r#"{{"name":"lib::{name}","lifetimes":0,"bounds":[],"type_params":0,"const_params":[],"type_bounds":[],"owns":false,"is_cell":false,"shape":{{"Fields":[{fields}]}},"is_tuple":false}}"#
        )
    });
    let types: Vec<String> = types.collect();
    let none =
        r#""types":[],"outlives":[],"bounds":[],"method_of":null,"trait_lifetimes":0,"impls":[]"#;
    let (p, r) = (named("P"), reference("R"));
    format!(
        r#"{{"lifetimes":0,"outlives":[],"params":1,"generics":{{{none}}},"types":[{}],
"locals":[{{"ty":{p},"home":"ValueLocal"}},{{"ty":{r},"home":"ValueLocal"}}],"body":["Return"]}}"#,
        types.join(",")
    )
}

fn named(name: &str) -> String {
    format!(r#"{{"Named":[{{"name":"lib::{name}","lifetimes":[]}},[]]}}"#)
}

fn reference(name: &str) -> String {
    format!(r#"{{"Ref":["Erased","Imm",{}]}}"#, named(name))
}

/// A library declares every type that a function names; the terms spell those that it has, and what they are made of.
#[test]
fn types_behind_references() {
    let tree = |types: &[(&str, &str)]| {
        let function = translate::json::parse(&with_types(types)).expect("it is read");
        code(&function).expect("it is known")
    };
    let (of_p, of_q, of_r) = (named("Q"), reference("R"), named("S"));
    let byte = r#"{"Int":8}"#;
    let (p, q) = (("P", of_p.as_str()), ("Q", of_q.as_str()));
    let (r, s) = (("R", of_r.as_str()), ("S", byte));
    let held = spelled(tree(&[r, p, s, q]));
    assert_eq!(difference(&held, "module", &tree(&[p, q])), None);
    for other in [
        &[p][..],
        &[q, p],
        &[p, q, r],
        &[p, q, s],
        &[p, ("Q", "")],
        &[],
    ] {
        assert!(
            difference(&held, "module", &tree(other)).is_some(),
            "{other:?}"
        );
    }
    // Whatever the order, what a type is made of goes with it.
    let of_q = named("S");
    let q = ("Q", of_q.as_str());
    let held = spelled(tree(&[s, q, r, p]));
    assert_eq!(difference(&held, "module", &tree(&[s, q, p])), None);
}
