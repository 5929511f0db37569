//! Reading the document: its sections, and the tables, code blocks and sentences in them.
use crate::forms::{bytes, fit};
use std::fs;

/// A file of the repository.
pub fn file(path: &str) -> Vec<u8> {
    let path = format!("{}/../../{path}", env!("CARGO_MANIFEST_DIR"));
    fs::read(&path).unwrap_or_else(|error| panic!("{path}: {error}"))
}

/// The lines of the document from a heading to the next of its kind, or a higher one: other sections may have the same sentences and heads of tables.
pub fn section(heading: &str) -> Vec<String> {
    let text = String::from_utf8(file("docs/FORMAT.md")).expect("UTF-8");
    let lines: Vec<String> = text.lines().map(String::from).collect();
    let rest = &lines[place(&lines, heading) + 1..];
    let kind = &heading[..=heading.find(' ').expect("a heading")];
    let ends = |line: &&String| line.starts_with("## ") || line.starts_with(kind);
    rest.iter()
        .take_while(|line| !ends(line))
        .cloned()
        .collect()
}

/// The number of the one line that begins so.
fn place(lines: &[String], start: &str) -> usize {
    let found: Vec<usize> = (0..lines.len())
        .filter(|&i| lines[i].starts_with(start))
        .collect();
    assert_eq!(found.len(), 1, "lines that begin so: {start}");
    found[0]
}

/// The cells of a row.
pub fn cells(line: &str) -> Vec<&str> {
    let inner = line.strip_prefix('|').and_then(|x| x.strip_suffix('|'));
    let inner = inner.unwrap_or_else(|| panic!("no row of a table: {line}"));
    inner.split('|').map(str::trim).collect()
}

/// The rows of the table with this head, as cells; there are at least so many.
pub fn table<'a>(lines: &'a [String], head: &str, least: usize) -> Vec<Vec<&'a str>> {
    let start = place(lines, head);
    let columns = cells(head).len();
    assert_eq!(lines[start], head);
    assert_eq!(cells(&lines[start + 1]), vec!["---"; columns]);
    let rows: Vec<Vec<&str>> = lines[start + 2..]
        .iter()
        .take_while(|line| line.starts_with('|'))
        .map(|line| cells(line))
        .collect();
    assert!(rows.len() >= least, "{} rows under {head}", rows.len());
    assert!(rows.iter().all(|row| row.len() == columns), "{rows:?}");
    rows
}

/// What the paragraph that begins so has at the holes of a pattern, which all that follows has to fit. The lines of an item of a list are indented.
pub fn said<const N: usize>(lines: &[String], start: &str, pattern: &str) -> [String; N] {
    let rest = lines[place(lines, start)..].iter();
    let part: Vec<&str> = rest
        .map(|x| x.trim_start())
        .take_while(|x| !x.is_empty())
        .collect();
    fit(&part.join(" "), &format!("{start}{pattern}")).map(String::from)
}

/// The lines of the code block after the paragraph that begins so; there are at least so many.
pub fn code_block<'a>(lines: &'a [String], start: &str, least: usize) -> &'a [String] {
    let mut parts = lines[place(lines, start)..].split(|line| line == "```");
    let before = parts.next().expect("the paragraph");
    let empty = before.iter().filter(|line| line.is_empty()).count();
    assert_eq!(empty, 1, "lines between a code block and: {start}");
    let block = parts.next().expect("a code block");
    assert!(block.len() >= least, "{} lines after: {start}", block.len());
    block
}

/// The bytes of such a code block.
pub fn byte_block(lines: &[String], start: &str) -> Vec<u8> {
    bytes(&code_block(lines, start, 1).join(" "))
}
