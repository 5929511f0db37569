//! What src/lib.rs declares is what include/vault.h declares.

const HEADER: &str = include_str!("../../../include/vault.h");
const DECLARED: &str = include_str!("../src/lib.rs");

/// The pieces of a text that stand between a start and an end.
fn between<'a>(text: &'a str, start: &'a str, end: &'a str) -> impl Iterator<Item = &'a str> {
    let pieces = text.split(start).skip(1);
    pieces.map(move |rest| rest.split_once(end).expect("an end").0)
}

/// The functions that stand between these, each as its name and its parameters.
fn functions(text: &str, start: &str, end: &str, parameter: fn(&str) -> String) -> Vec<String> {
    let function = |piece: &str| {
        let (name, all) = piece.split_once('(').expect("parameters");
        let all = all.split(',').map(str::trim).filter(|one| !one.is_empty());
        let all: Vec<String> = all.map(parameter).collect();
        format!("{name}({})", all.join(", "))
    };
    between(text, start, end).map(function).collect()
}

/// A parameter of C as Rust has it.
fn in_rust(parameter: &str) -> String {
    let (kind, name) = parameter.rsplit_once([' ', '*']).expect("a name");
    let kind = match kind.trim_start_matches("const ").trim_end() {
        "uint32_t" => "u32",
        "uint8_t" => "u8",
        "size_t" => "usize",
        other => panic!("{other} is no type of the boundary"),
    };
    let pointer = match (parameter.contains('*'), parameter.starts_with("const ")) {
        (true, true) => "*const ",
        (true, false) => "*mut ",
        _ => "",
    };
    format!("{name}: {pointer}{kind}")
}

#[test]
fn functions_are_the_header_s() {
    let header = functions(HEADER, "\nuint32_t vault_", ");", in_rust);
    let declared = functions(DECLARED, "pub fn vault_", ") -> u32;", str::to_owned);
    assert_eq!(header.len(), 12);
    assert_eq!(header, declared);
}

/// The constants whose lines begin with this: the rest of the name, and the value between a sign and an end.
fn constants(text: &str, start: &str, sign: &str, end: [char; 2]) -> Vec<(String, u32)> {
    let constant = |line: &str| {
        let (name, value) = line.strip_prefix(start)?.split_once(sign)?;
        let value = value.split(end).next()?.replace('_', "");
        let number = match value.strip_prefix("0x") {
            Some(digits) => u32::from_str_radix(digits, 16),
            None => value.parse(),
        };
        Some((name.to_owned(), number.expect("a number")))
    };
    text.lines().filter_map(constant).collect()
}

#[test]
fn constants_are_the_header_s() {
    let mut header = constants(HEADER, "    VAULT_", " = ", [',', ' ']);
    header.extend(constants(
        HEADER,
        "#define VAULT_",
        " UINT32_C(",
        [')', ' '],
    ));
    let declared = constants(DECLARED, "pub const VAULT_", ": u32 = ", [';', ' ']);
    assert_eq!(header.len(), 17);
    assert_eq!(header, declared);
}
