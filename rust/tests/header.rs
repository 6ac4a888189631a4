//! Holds the declarations of src/c.rs, the numbers of src/numbers.rs and the words of refusals to include/elchepur.h.

mod shared;

use elchepur::prelude::Refused;
use shared::file;
use std::collections::BTreeMap;
use std::path::{Path, PathBuf};

const HEADER: &str = "include/elchepur.h";

/// The text without its comments: those of C, or those that a line of Rust ends with.
fn bare(text: &str) -> String {
    let mut left = String::new();
    for (place, piece) in text.split("/*").enumerate() {
        left += match place {
            0 => piece,
            _ => piece.split_once("*/").expect("a comment ends").1,
        };
    }
    let lines = left.lines().map(|line| line.split("//").next().unwrap_or(""));
    lines.collect::<Vec<_>>().join(" ")
}

/// What stands between two words, as often as it does.
fn between<'a>(text: &'a str, open: &'a str, close: &'a str) -> impl Iterator<Item = &'a str> {
    text.split(open).skip(1).filter_map(move |piece| Some(piece.split_once(close)?.0))
}

fn words(text: &str) -> String {
    text.split_whitespace().collect::<Vec<_>>().join(" ")
}

/// The numbers of the header by their names, without `ELCHEPUR_`.
fn header_numbers() -> BTreeMap<String, u64> {
    let text = bare(&file(HEADER));
    let named = text.split(['{', ',', '}']).filter_map(|word| word.split_once(" = "));
    let numbered = named.filter_map(|(name, number)| {
        let name = name.trim().strip_prefix("ELCHEPUR_")?;
        Some((name.to_string(), number.trim().parse().ok()?))
    });
    numbered.collect()
}

/// A parameter of C as this crate declares it. A slice is a pointer before its count; any other pointer, and an array,
/// is a reference.
fn in_rust(parameter: &str, next: Option<&&str>) -> String {
    let item = |kind: &str| match kind {
        "double" => "f64",
        "uint64_t" => "u64",
        "size_t" => "usize",
        "uint8_t" => "u8",
        other => panic!("no type {other} is expected"),
    };
    let constant = parameter.starts_with("const ");
    let bare = parameter.trim_start_matches("const ").replace('*', "");
    let (kind, name) = bare.split_once(' ').expect("a type and a name");
    let (kind, is_pointer) = (item(kind), parameter.contains('*'));
    if let Some((name, count)) = name.split_once('[') {
        let count = count.trim_end_matches(']').trim_start_matches("ELCHEPUR_");
        let lent = if constant { "&" } else { "&mut " };
        return format!("{name}: {lent}[{kind}; {count}]");
    }
    let is_slice = next.is_some_and(|next| *next == format!("size_t {name}_count"));
    match (is_pointer, is_slice, constant) {
        (false, _, _) => format!("{name}: {kind}"),
        (true, true, true) => format!("{name}: *const {kind}"),
        (true, true, false) => format!("{name}: *mut {kind}"),
        (true, false, true) => format!("{name}: &{kind}"),
        (true, false, false) => format!("{name}: &mut {kind}"),
    }
}

/// The header's functions as this crate is to declare them.
fn wanted() -> BTreeMap<String, String> {
    let text = words(&bare(&file(HEADER)));
    let mut found = BTreeMap::new();
    for declaration in text.split(';').filter(|piece| piece.contains("elchepur_") && piece.contains('(')) {
        let (head, parameters) = declaration.rsplit_once('(').expect("parameters");
        let head: Vec<&str> = head.split_whitespace().collect();
        let [.., result, name] = head[..] else { panic!("{declaration}") };
        if !name.starts_with("elchepur_") {
            continue;
        }
        let parameters: Vec<&str> = parameters.trim_end_matches(')').split(", ").map(str::trim).collect();
        let declared: Vec<String> =
            (0..parameters.len()).map(|k| in_rust(parameters[k], parameters.get(k + 1))).collect();
        let result = match result {
            "void" => "",
            "double" => " -> f64",
            _ => " -> u64",
        };
        found.insert(name.to_string(), format!("{name}({}){result}", declared.join(", ")));
    }
    found
}

/// The functions that src/c.rs declares.
fn declared() -> BTreeMap<String, String> {
    let text = bare(&file("rust/src/c.rs"));
    let block = between(&text, "extern \"C\" {", "} ").next().expect("an extern block");
    let functions = block.split("fn ").skip(1).map(|function| words(function).replace("( ", "(").replace(", )", ")"));
    let functions = functions.map(|function| function.trim_end_matches(';').to_string());
    functions.map(|function| (function.split('(').next().unwrap_or("").to_string(), function)).collect()
}

#[test]
fn every_declaration_is_the_headers() {
    let (wanted, declared) = (wanted(), declared());
    assert_eq!(declared.len(), 20);
    for (name, function) in &declared {
        assert_eq!(Some(function), wanted.get(name), "{name}");
    }
}

/// The parts that a declaration takes, as a call is to hand them over: each pointer with the length of its own part.
fn parts(declaration: &str) -> Vec<String> {
    let parameters = declaration.split(['(', ')']).nth(1).expect("parameters").split(", ");
    let pointers = parameters.filter_map(|parameter| parameter.split_once(": *"));
    let lent = |(name, kind): (&str, &str)| match kind.starts_with("mut") {
        true => [format!("m.{name}.as_mut_ptr()"), format!("m.{name}.len()")],
        false => [format!("m.{name}.as_ptr()"), format!("m.{name}.len()")],
    };
    pointers.flat_map(lent).collect()
}

#[test]
fn every_part_is_handed_over_with_its_own_length() {
    let (text, declared) = (bare(&file("rust/src/c.rs")), declared());
    for name in ["elchepur_open", "elchepur_advance"] {
        let call = between(&text, "unsafe {", "};").find(|block| block.contains(name)).expect("a call");
        let handed: Vec<&str> = call.split(',').map(str::trim).filter(|word| word.starts_with("m.")).collect();
        assert_eq!(handed.len(), 2 * 22);
        assert_eq!(handed, parts(&declared[name]), "{name}");
    }
}

/// The files below a folder.
fn files(folder: &Path) -> Vec<PathBuf> {
    let found = std::fs::read_dir(folder).expect("the sources").map(|entry| entry.expect("a source").path());
    found.flat_map(|path| if path.is_dir() { files(&path) } else { vec![path] }).collect()
}

#[test]
fn nothing_else_is_foreign() {
    for path in files(Path::new(concat!(env!("CARGO_MANIFEST_DIR"), "/src"))) {
        let text = bare(&std::fs::read_to_string(&path).expect("a source"));
        let count = |word: &str| text.matches(word).count();
        if path.ends_with("c.rs") {
            assert_eq!(count("extern "), 1);
        } else {
            assert_eq!((count("extern "), count("unsafe ")), (0, 0), "{}", path.display());
        }
    }
}

#[test]
fn every_number_is_the_headers() {
    let (text, header) = (bare(&file("rust/src/numbers.rs")), header_numbers());
    let mut count = 0;
    for constant in between(&text, "pub const ", ";") {
        let (name, rest) = constant.split_once(": ").expect("a type");
        let number = rest.split_once(" = ").expect("a number").1;
        assert_eq!(header.get(name).copied(), number.parse().ok(), "{name}");
        count += 1;
    }
    assert!(count > 70, "{count} numbers were found");
}

#[test]
fn every_refusal_of_an_opening_has_the_headers_words() {
    let text = file(HEADER);
    for number in 1..=12 {
        let refused = Refused::of(number).expect("a refusal");
        let head = format!(" = {number},");
        let words = between(&text, &head, "*/").map(|line| line.trim().trim_start_matches("/*").trim().to_string());
        let wanted: Vec<String> = words.map(|words| format!("refused ({number}): {words}")).collect();
        assert!(wanted.contains(&refused.to_string()), "{refused}: {wanted:?}");
        assert_eq!(refused.number(), number);
    }
    assert_eq!(Refused::of(13), None);
}
