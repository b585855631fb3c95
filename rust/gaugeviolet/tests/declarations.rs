//! The exported functions are declared three times: in the Rattle source, in `src/screen.rs` and in the C
//! header; those of the checking service in its own Rattle sources too. Nothing but this test holds these
//! to each other.

use std::path::Path;

/// A function of lent slices and numbers: its name and its parameters, as Rattle spells them. All of them
/// return a `u64`.
#[derive(Debug, PartialEq, Eq)]
struct Declaration {
    name: String,
    parameters: Vec<String>,
}

#[test]
fn all_three_declare_the_same_functions() {
    let rattle = declared_in_rattle(&source("crates/screen/src/lib.rt"));
    let names: Vec<&str> = rattle.iter().map(|one| one.name.as_str()).collect();
    let expected = [
        "read",
        "rewrite",
        "check",
        "solve",
        "walk_length",
        "export",
        "import",
        "starts",
    ];
    assert_eq!(names, expected.map(|name| format!("gaugeviolet_{name}")));
    assert_eq!(
        declared_in_rust(&source("rust/gaugeviolet/src/screen.rs")),
        rattle
    );
    assert_eq!(declared_in_c(&source("c/gaugeviolet.h")), rattle);
}

#[test]
fn the_checking_service_declares_the_first_three() {
    let screen = declared_in_rattle(&source("crates/screen/src/lib.rt"));
    for file in ["crates/service/src/lib.rt", "crates/service_c/src/lib.rt"] {
        let service = declared_in_rattle(&source(file));
        assert_eq!(service, screen[..3], "{file}");
    }
}

#[test]
fn differences_are_seen() {
    let rattle = "pub extern \"C\" fn f(a: &[u8], b: &mut [u8]) -> u64\n";
    let declared = declared_in_rattle(rattle);
    let in_c = |text: &str| declared_in_c(text) == declared;
    assert!(in_c(
        "uint64_t f(const uint8_t *a, size_t a_len, uint8_t *b, size_t b_len);\n"
    ));
    assert!(!in_c(
        "uint64_t f(const uint8_t *a, size_t a_len, const uint8_t *b, size_t b_len);\n"
    ));
    assert!(!in_c(
        "uint64_t f(uint8_t *b, size_t b_len, const uint8_t *a, size_t a_len);\n"
    ));
    assert!(!in_c("uint64_t f(const uint8_t *a, size_t a_len);\n"));
    let in_rust = |text: &str| declared_in_rust(text) == declared;
    assert!(in_rust(
        "extern \"C\" {\n fn f(a: *const u8, a_len: usize, b: *mut u8, b_len: usize) -> u64;\n}"
    ));
    assert!(!in_rust(
        "extern \"C\" {\n fn f(a: *mut u8, a_len: usize, b: *mut u8, b_len: usize) -> u64;\n}"
    ));
}

#[test]
fn differences_of_numbers_are_seen() {
    let rattle = "pub extern \"C\" fn f(a: &[u16], n: u32, b: &mut [u8]) -> u64\n";
    let declared = declared_in_rattle(rattle);
    assert_eq!(
        declared[0].parameters,
        ["a: &[u16]", "n: u32", "b: &mut [u8]"]
    );
    let right =
        "uint64_t f(const uint16_t *a, size_t a_len, uint32_t n, uint8_t *b, size_t b_len);\n";
    assert_eq!(declared_in_c(right), declared);
    for (from, to) in [
        ("uint8_t *b", "const uint8_t *b"),
        ("uint8_t *b", "uint32_t *b"),
        ("const uint16_t", "const uint8_t"),
        ("uint32_t n", "uint16_t n"),
        ("uint32_t n, ", ""),
        ("n, uint8_t *b, size_t b_len", "n"),
        ("uint64_t f", "uint64_t g"),
    ] {
        assert_ne!(declared_in_c(&right.replace(from, to)), declared, "{to}");
    }
    let right =
        "extern \"C\" {\n fn f(a: *const u16, a_len: usize, n: u32, b: *mut u8, b_len: usize) \
                 -> u64;\n}";
    assert_eq!(declared_in_rust(right), declared);
    for (from, to) in [
        ("*const u16", "*mut u16"),
        ("*const u16", "*const u8"),
        ("n: u32", "n: u16"),
        (
            "n: u32, b: *mut u8, b_len: usize",
            "b: *mut u8, b_len: usize, n: u32",
        ),
    ] {
        assert_ne!(declared_in_rust(&right.replace(from, to)), declared, "{to}");
    }
}

/// A slice whose length does not follow it is no declaration of ours.
#[test]
#[should_panic(expected = "the length of a")]
fn a_length_that_is_missing() {
    declared_in_c("uint64_t f(const uint8_t *a, uint8_t *b, size_t b_len);\n");
}

/// A file of the repository, by its path from the top.
fn source(path: &str) -> String {
    let top = Path::new(env!("CARGO_MANIFEST_DIR")).join("../..");
    std::fs::read_to_string(top.join(path)).expect("the file stands in the repository")
}

fn declared_in_rattle(text: &str) -> Vec<Declaration> {
    declarations(text, "pub extern \"C\" fn ", ") -> u64", |parameter, _| {
        parameter.to_string()
    })
}

fn declared_in_rust(text: &str) -> Vec<Declaration> {
    let block = text.split_once("extern \"C\" {").expect("a block").1;
    let block = block.split_once("\n}").expect("its end").0;
    declarations(block, " fn ", ") -> u64;", |parameter, next| {
        let (name, kind) = parameter.split_once(": ").expect("a name and a type");
        let (slice, entry) = match kind.split_once(' ') {
            None => return parameter.to_string(),
            Some(("*const", entry)) => ("&", entry),
            Some(("*mut", entry)) => ("&mut ", entry),
            Some(_) => panic!("{kind}"),
        };
        hold_length(name, next, format!("{name}_len: usize"));
        format!("{name}: {slice}[{entry}]")
    })
}

fn declared_in_c(text: &str) -> Vec<Declaration> {
    declarations(text, "\nuint64_t ", ");", |parameter, next| {
        let (slice, rest) = match parameter.strip_prefix("const ") {
            Some(rest) => ("&", rest),
            None => ("&mut ", parameter),
        };
        let (kind, name) = rest.split_once(' ').expect("a type and a name");
        let bits = kind
            .strip_prefix("uint")
            .and_then(|kind| kind.strip_suffix("_t"));
        let bits = bits.unwrap_or_else(|| panic!("{kind}"));
        let Some(name) = name.strip_prefix('*') else {
            return format!("{name}: u{bits}");
        };
        hold_length(name, next, format!("size_t {name}_len"));
        format!("{name}: {slice}[u{bits}]")
    })
}

/// Holds that the next parameter is the length of a slice, and passes over it.
fn hold_length(name: &str, next: &mut dyn Iterator<Item = &str>, expected: String) {
    assert_eq!(next.next(), Some(&expected[..]), "the length of {name}");
}

/// The functions that stand between `before` and `after`. Their parameters are put into Rattle's spelling
/// one by one; where the length of a slice is one of its own, it is taken from those that are next.
fn declarations(
    text: &str,
    before: &str,
    after: &str,
    in_rattle: impl Fn(&str, &mut dyn Iterator<Item = &str>) -> String,
) -> Vec<Declaration> {
    let text = format!("\n{text}");
    let declared = text.split(before).skip(1).map(|rest| {
        let (head, _) = rest.split_once(after).expect("the whole declaration");
        let (name, parameters) = head.split_once('(').expect("parameters");
        // In one line, whatever the layout.
        let words: Vec<&str> = parameters.split_whitespace().collect();
        let line = words.join(" ");
        let mut each = line.trim_end_matches(',').split(", ");
        let mut parameters = Vec::new();
        while let Some(parameter) = each.next() {
            parameters.push(in_rattle(parameter, &mut each));
        }
        Declaration {
            name: name.into(),
            parameters,
        }
    });
    declared.collect()
}
