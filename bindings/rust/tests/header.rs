//! What is linked is what the header declares: its answers, structs and functions, by name, order and type. No compiler sees
//! both sides, and two numbers that were swapped would still be linked.

use swistopal::{Answer, TEXT_BYTES};

const HEADER: &str = include_str!("../../../include/swistopal.h");
const ARCHIVE: &str = include_str!("../src/archive.rs");

/// A struct with its members or a function with its parameters, in Rust's words, and what it returns.
#[derive(Debug, PartialEq)]
struct Declared {
    name: String,
    parts: Vec<String>,
    returns: String,
}

/// The header without comments.
fn header() -> String {
    let mut pieces = HEADER.split("/*");
    let first = pieces.next().unwrap_or_default().to_string();
    let others = pieces.map(|piece| piece.split_once("*/").expect("a comment ends").1);
    others.fold(first, |header, piece| header + piece)
}

/// `swistopal_place` is `Place`.
fn type_of(name: &str) -> String {
    match name.strip_prefix("swistopal_") {
        Some(name) => name[..1].to_uppercase() + &name[1..],
        None => String::from(match name {
            "uint8_t" => "u8",
            "uint32_t" => "u32",
            "uint64_t" => "u64",
            "size_t" => "usize",
            "void" => "",
            other => panic!("the type {other} is not known here"),
        }),
    }
}

/// `const uint8_t *log` is `log: *const u8`, and `uint64_t at, length` are two of them.
fn declarations(words: &str) -> Vec<String> {
    let words = words.trim();
    let (pointer, words) = match words.strip_prefix("const ") {
        Some(words) => ("*const", words),
        None => ("*mut", words),
    };
    let (name, declared) = words.split_once(' ').expect("a type and a name");
    let of = type_of(name);
    let each = |name: &str| match (name.strip_prefix('*'), name.split_once('[')) {
        (Some(name), _) => format!("{name}: {pointer} {of}"),
        (None, Some((name, count))) => format!("{name}: [{of}; {count}"),
        (None, None) => format!("{name}: {of}"),
    };
    declared.split(',').map(str::trim).map(each).collect()
}

fn structs_of_the_header(header: &str) -> Vec<Declared> {
    let structs = header.split("typedef struct ").skip(1);
    let declared = structs.map(|text| {
        let (name, rest) = text.split_once(" {").expect("a struct begins");
        let (members, _) = rest.split_once('}').expect("a struct ends");
        let members = members
            .split(';')
            .filter(|member| !member.trim().is_empty());
        Declared {
            name: type_of(name),
            parts: members.flat_map(declarations).collect(),
            returns: String::new(),
        }
    });
    declared.collect()
}

fn functions_of_the_header(header: &str) -> Vec<Declared> {
    let declared = header.split(';').filter_map(|text| {
        let (head, parameters) = text.trim().strip_suffix(')')?.split_once('(')?;
        let (returns, name) = head.lines().last()?.split_once(' ')?;
        Some(Declared {
            name: name.to_string(),
            parts: parameters.split(',').flat_map(declarations).collect(),
            returns: type_of(returns),
        })
    });
    declared.collect()
}

/// What stands between commas.
fn parts(text: &str) -> Vec<String> {
    let parts = text.split(',').map(str::trim);
    let parts = parts.map(|part| part.strip_prefix("pub ").unwrap_or(part));
    parts
        .filter(|part| !part.is_empty())
        .map(String::from)
        .collect()
}

fn structs_of_the_archive() -> Vec<Declared> {
    let declared = ARCHIVE.split("pub struct ").skip(1).map(|text| {
        let (name, rest) = text.split_once(" {").expect("a struct begins");
        let (members, _) = rest.split_once('}').expect("a struct ends");
        Declared {
            name: name.to_string(),
            parts: parts(members),
            returns: String::new(),
        }
    });
    declared.collect()
}

fn functions_of_the_archive() -> Vec<Declared> {
    let declared = ARCHIVE.split("pub fn ").skip(1).map(|text| {
        let (name, rest) = text.split_once('(').expect("a function begins");
        let (parameters, rest) = rest.split_once(')').expect("a function ends");
        let (returns, _) = rest.split_once(';').expect("a declaration ends");
        Declared {
            name: name.to_string(),
            parts: parts(parameters),
            returns: returns.trim_start_matches(" -> ").to_string(),
        }
    });
    declared.collect()
}

#[test]
fn structs_are_the_headers() {
    let declared = structs_of_the_header(&header());
    assert_eq!(declared.len(), 8);
    assert_eq!(structs_of_the_archive(), declared);
}

#[test]
fn functions_are_the_headers() {
    let declared = functions_of_the_header(&header());
    assert_eq!(declared.len(), 13);
    assert_eq!(functions_of_the_archive(), declared);
}

#[test]
fn answers_are_the_headers() {
    let header = header();
    let (_, rest) = header
        .split_once("enum swistopal_answer {")
        .expect("the answers begin");
    let (answers, _) = rest.split_once('}').expect("the answers end");
    let declared: Vec<&str> = answers.split(',').map(str::trim).collect();
    let linked = Answer::ALL.map(|answer| {
        let mut name = String::from("SWISTOPAL");
        for letter in format!("{answer:?}").chars() {
            if letter.is_uppercase() {
                name.push('_');
            }
            name.push(letter.to_ascii_uppercase());
        }
        format!("{name} = {}", answer.number())
    });
    assert_eq!(declared, linked);
}

#[test]
fn the_text_is_as_long_as_the_header_asks() {
    assert!(HEADER.contains(&format!("#define SWISTOPAL_TEXT_BYTES {TEXT_BYTES}\n")));
}
