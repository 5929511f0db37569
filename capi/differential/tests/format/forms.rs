//! The forms in which the document writes numbers, bytes, headers and erasure lists.
use std::fmt::Display;
use vault_library::Header;

/// What a text has at the holes of a pattern, which are written {}; nothing if it does not fit from end to end.
pub fn holes<'a, const N: usize>(text: &'a str, pattern: &str) -> Option<[&'a str; N]> {
    let (first, after) = pattern.split_once("{}")?;
    let mut rest = text.strip_prefix(first)?;
    let mut found = Vec::new();
    let mut parts: Vec<&str> = after.split("{}").collect();
    rest = rest.strip_suffix(parts.pop()?)?;
    for part in parts {
        let (hole, after) = rest.split_once(part)?;
        found.push(hole);
        rest = after;
    }
    found.push(rest);
    found.try_into().ok()
}

/// The same of a text that has to fit.
pub fn fit<'a, const N: usize>(text: &'a str, pattern: &str) -> [&'a str; N] {
    holes(text, pattern).unwrap_or_else(|| panic!("not understood: {text}\nas: {pattern}"))
}

/// A number that stands alone; anything else is a failure.
pub fn number(text: impl AsRef<str>) -> u32 {
    let text = text.as_ref();
    text.parse()
        .unwrap_or_else(|_| panic!("not a number: {text}"))
}

/// Numbers with the same text between each two.
pub fn numbers(text: &str, between: &str) -> Vec<u32> {
    text.split(between).map(number).collect()
}

/// Numbers, of which some are told as a range: 1 to 6, 13.
pub fn ranges(text: &str) -> Vec<u32> {
    let range = |part| match holes(part, "{} to {}") {
        Some([first, last]) => number(first)..number(last) + 1,
        None => number(part)..number(part) + 1,
    };
    text.split(", ").flat_map(range).collect()
}

/// Where a word stands among others, from 0.
fn place(word: &str, words: &[&str]) -> usize {
    let found = words.iter().position(|&x| x == word);
    found.unwrap_or_else(|| panic!("none of {words:?}: {word}"))
}

/// A small number as a word.
pub fn counted(word: &str) -> usize {
    place(word, &["no", "one", "two", "three", "four"])
}

/// A place in an order as a word, from 1.
pub fn ordinal(word: &str) -> usize {
    let low = ["first", "second", "third", "fourth", "fifth"];
    let high = ["sixth", "seventh", "eighth", "ninth", "tenth"];
    1 + place(word, &[low, high].concat())
}

/// Bytes of two hexadecimal digits each, with spaces between.
pub fn bytes(text: &str) -> Vec<u8> {
    let byte = |x: &str| u8::from_str_radix(x, 16).ok().filter(|_| x.len() == 2);
    text.split_whitespace()
        .map(|x| byte(x).unwrap_or_else(|| panic!("not a byte: {text}")))
        .collect()
}

/// A header: 2, 2, 3.
pub fn header(text: &str) -> Header {
    let [k, s, c] = fit(text, "{}, {}, {}").map(number);
    Header { k, s, c }
}

/// An erasure list: (5, 1), (12, 13).
pub fn pairs(text: &str) -> Vec<[u32; 2]> {
    let [inner] = fit(text, "({})");
    let pair = |x| fit(x, "{}, {}").map(number);
    inner.split("), (").map(pair).collect()
}

/// A number and the stripe that came with it, as the document writes them: 0; 3, no stripe; 7, stripe 2.
pub fn answer(number: u32, stripe: Option<u32>) -> String {
    match (number, stripe) {
        (0, None) => "0".to_string(),
        (refusal, None) => format!("{refusal}, no stripe"),
        (refusal, Some(stripe)) => format!("{refusal}, stripe {stripe}"),
    }
}

/// Words as they stand in images and erasure lists.
pub fn low_byte_first(words: impl IntoIterator<Item = u32>) -> Vec<u8> {
    words.into_iter().flat_map(u32::to_le_bytes).collect()
}

/// Items as the document writes them, to be compared with it.
pub fn joined<T: Display>(items: impl IntoIterator<Item = T>, between: &str) -> String {
    let items: Vec<String> = items.into_iter().map(|x| x.to_string()).collect();
    items.join(between)
}

/// Bytes as the document writes them.
pub fn hexadecimal(bytes: &[u8]) -> String {
    joined(bytes.iter().map(|x| format!("{x:02x}")), " ")
}
