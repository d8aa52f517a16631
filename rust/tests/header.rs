//! The declarations of `sys` against the header: every constant, every function and every parameter. And the sentences
//! of the numbers, which are one text in both headers and the crate.

use ppspp::Refusal;
use std::collections::BTreeMap;

const HEADER: &str = include_str!("../../include/ppspp.h");
const STORE_HEADER: &str = include_str!("../../include/ppspp_store.h");
const SYS: &str = include_str!("../src/sys.rs");
const CONSTANTS: &str = include_str!("../src/sys/constants.rs");

/// The header without its comments.
fn header() -> String {
    let mut parts = HEADER.split("/*");
    let first = parts.next().unwrap_or_default().to_string();
    parts.fold(first, |text, part| {
        text + part.split_once("*/").expect("a comment's end").1
    })
}

/// A number in C or Rust.
fn number(text: &str) -> Option<u64> {
    text.trim()
        .trim_end_matches('u')
        .replace('_', "")
        .parse()
        .ok()
}

/// The constants of the header whose value is a number: macros, and the names of enums.
fn header_numbers() -> BTreeMap<String, u64> {
    let text = header();
    let macros = text.lines().filter_map(|line| {
        let (name, value) = line.strip_prefix("#define ")?.split_once(' ')?;
        Some((name.to_string(), number(value)?))
    });
    let enums = text.lines().filter_map(|line| {
        let (name, value) = line.trim().trim_end_matches(',').split_once(" = ")?;
        Some((name.to_string(), number(value)?))
    });
    macros.chain(enums).collect()
}

/// The constants of `sys` whose value is a number.
fn sys_numbers() -> BTreeMap<String, u64> {
    let constants = CONSTANTS.lines().filter_map(|line| {
        let (name, rest) = line.strip_prefix("pub const ")?.split_once(": ")?;
        let value = rest.trim_end_matches(';').split_once(" = ")?.1;
        Some((name.to_string(), number(value)?))
    });
    constants.collect()
}

/// The refusals of the header, which `sys` has as an enum beside it: the names of `enum ppspp_answer` but for done.
fn is_refusal(name: &str) -> bool {
    let answers = header();
    let answers = answers
        .split("enum ppspp_answer {")
        .nth(1)
        .expect("the enum");
    let answers = answers.split('}').next().expect("its end");
    name != "PPSPP_DONE" && answers.split_whitespace().any(|word| word == name)
}

#[test]
fn constants_are_those_of_the_header() {
    let mut wanted = header_numbers();
    let before = wanted.len();
    wanted.retain(|name, _| !is_refusal(name));
    assert_eq!(before - wanted.len(), 14);
    assert_eq!(sys_numbers(), wanted);
    // The two constants that the header gives by another one.
    assert!(HEADER.contains("#define PPSPP_REPLY_BYTES PPSPP_MAX_DATAGRAM "));
    assert!(HEADER.contains("#define PPSPP_NO_NODE UINT64_MAX\n"));
    assert_eq!(ppspp::sys::PPSPP_NO_NODE, u64::MAX);
}

#[test]
fn refusals_are_those_of_the_header() {
    let numbers = header_numbers();
    for refusal in Refusal::ALL {
        // `NoChannel` is `PPSPP_NO_CHANNEL`; two have a longer name there, beside the size of a chunk and the options.
        let mut name = "PPSPP".to_string();
        for letter in format!("{refusal:?}").chars() {
            if letter.is_uppercase() {
                name.push('_');
            }
            name.push(letter.to_ascii_uppercase());
        }
        if [Refusal::ChunkSize, Refusal::Options].contains(&refusal) {
            name += "_WRONG";
        }
        assert!(is_refusal(&name), "{name}");
        assert_eq!(numbers[&name], refusal.number().into(), "{name}");
    }
}

/// What stands behind a text in a header, up to an end.
fn between(header: &'static str, start: &str, end: &str) -> &'static str {
    let (_, rest) = header.split_once(start).expect(start);
    rest.split_once(end).expect(end).0
}

#[test]
fn sentences_are_those_of_the_headers() {
    let mut displayed = vec!["done".to_string()];
    displayed.extend(Refusal::ALL.iter().map(Refusal::to_string));
    let answers = between(HEADER, "enum ppspp_answer {", "};").lines();
    let beside = answers.filter_map(|line| line.split_once("/* ")?.1.strip_suffix(" */"));
    assert_eq!(beside.collect::<Vec<_>>(), displayed);
    let texts = between(STORE_HEADER, "texts[] = {", "};").lines();
    let texts = texts.filter_map(|line| line.trim().strip_prefix('"')?.strip_suffix("\","));
    assert_eq!(texts.collect::<Vec<_>>(), displayed);
}

/// A function: the types and names of its parameters, and its result.
type Functions = BTreeMap<String, (Vec<(String, String)>, String)>;

/// A type of the header in Rust.
fn rust_type(c: &str) -> String {
    let (base, pointer) = match c.trim_end().strip_suffix('*') {
        Some(base) => (base.trim_end(), true),
        None => (c.trim_end(), false),
    };
    let (base, constant) = match base.strip_prefix("const ") {
        Some(base) => (base, true),
        None => (base, false),
    };
    let name = match base {
        "uint8_t" => "u8",
        "uint32_t" => "u32",
        "uint64_t" => "u64",
        "size_t" => "usize",
        "struct ppspp_order" => "ppspp_order",
        _ => panic!("the header has the type {c}"),
    };
    match (pointer, constant) {
        (false, _) => name.to_string(),
        (true, true) => format!("*const {name}"),
        (true, false) => format!("*mut {name}"),
    }
}

/// A parameter of the header; an array is a pointer. `type` is a word of Rust, so it is `kind`.
fn header_parameter(text: &str) -> (String, String) {
    let (text, array) = match text.split_once('[') {
        Some((text, _)) => (text, "*"),
        None => (text, ""),
    };
    let at = text.rfind([' ', '*']).expect("a type") + 1;
    let name = text[at..].replace("type", "kind");
    (
        name,
        rust_type(&format!("{}{array}", &text[..at].trim_end())),
    )
}

/// The functions of the header.
fn header_functions() -> Functions {
    let text = header().split_whitespace().collect::<Vec<_>>().join(" ");
    let mut functions = Functions::new();
    for declaration in text.split(';') {
        let Some((head, parameters)) = declaration
            .strip_suffix(')')
            .and_then(|d| d.rsplit_once('('))
        else {
            continue;
        };
        let mut words = head.rsplit(' ');
        let name = words.next().expect("a name").to_string();
        let result = rust_type(words.next().expect("a result"));
        let parameters = parameters.split(", ").filter(|&p| p != "void");
        functions.insert(name, (parameters.map(header_parameter).collect(), result));
    }
    functions
}

/// The functions of `sys`.
fn sys_functions() -> Functions {
    let code: Vec<&str> = SYS
        .lines()
        .map(str::trim)
        .filter(|line| !line.starts_with("//"))
        .collect();
    let text = code.join(" ");
    let mut functions = Functions::new();
    for declaration in text.split("pub fn ").skip(1) {
        let (name, rest) = declaration.split_once('(').expect("parameters");
        let (parameters, rest) = rest.split_once(')').expect("their end");
        let result = rest
            .trim_start_matches(" -> ")
            .split(';')
            .next()
            .expect("its end");
        let parameters = parameters
            .split(',')
            .filter_map(|p| p.trim().split_once(": "));
        let parameters = parameters.map(|(name, of)| (name.to_string(), of.to_string()));
        functions.insert(name.to_string(), (parameters.collect(), result.to_string()));
    }
    functions
}

/// What stands in the braces behind a text.
fn braced<'a>(text: &'a str, start: &str) -> &'a str {
    let (_, rest) = text.split_once(start).expect(start);
    rest.split_once('}').expect("its end").0
}

/// A field of the header in Rust.
fn header_field(text: &str) -> String {
    let (of, name) = text.split_once(' ').expect("a type");
    match name.trim_end_matches(']').split_once('[') {
        Some((name, count)) => format!("{name}: [{}; {count}]", rust_type(of)),
        None => format!("{name}: {}", rust_type(of)),
    }
}

#[test]
fn order_is_that_of_the_header() {
    let header = header();
    let wanted = braced(&header, "struct ppspp_order {").split(';');
    let wanted = wanted.map(str::trim).filter(|field| !field.is_empty());
    let own = braced(SYS, "pub struct ppspp_order {").lines();
    let own = own.filter_map(|line| line.trim().strip_prefix("pub ")?.strip_suffix(','));
    assert_eq!(
        own.collect::<Vec<_>>(),
        wanted.map(header_field).collect::<Vec<_>>()
    );
}

#[test]
fn order_has_40_bytes() {
    use ppspp::sys::ppspp_order;
    use std::mem::{offset_of, size_of};
    assert_eq!(size_of::<ppspp_order>(), 40);
    assert_eq!(offset_of!(ppspp_order, root), 0);
    assert_eq!(offset_of!(ppspp_order, length), 32);
    assert_eq!(offset_of!(ppspp_order, addressing), 36);
}

#[test]
fn functions_are_those_of_the_header() {
    let wanted = header_functions();
    assert_eq!(wanted.len(), 16);
    assert_eq!(sys_functions(), wanted);
}
