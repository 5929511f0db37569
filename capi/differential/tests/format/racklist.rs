//! Section 13: the input and the output of racklist.
use crate::calls::Vault;
use crate::document::{byte_block, code_block, file, said, section};
use crate::forms::{fit, joined, number};
use crate::places::positions;
use reference::listing;
use vault_library::{stripes, Header};

/// What racklist prints of an image of the library's.
fn listed(header: Header, image: &[u8]) -> String {
    let mut text = String::new();
    for position in positions(header) {
        if header.filled(position.stripe) {
            let words = stripes::words(image, position.bytes);
            text += &format!("{} {}\n", position.name, joined(words, " "));
        }
    }
    text
}

/// The input and the output of racklist. crates/racklist has them too: the proved program is run on them.
#[test]
fn section_13_racklist() {
    let lines = section("## 13 ");
    let input = byte_block(&lines, "There may be no writes at all. For the input");
    let [k, s, writes] = said(&lines, "(k = ", "{}, s = {}, {}) it prints");
    let [k, s] = [k, s].map(number);
    let mut vault = Vault::zeros(k, s);
    let mut expected = vec![k as u8, s as u8];
    for write in writes.split(", ") {
        let [record, word] = fit(write, "record {} written {}").map(number);
        vault.write(record, &[word]);
        expected.extend([record as u16, word as u16].map(u16::to_le_bytes).concat());
    }
    assert_eq!(input, expected);

    let output = code_block(&lines, "(k = ", 14).join("\n") + "\n";
    let (header, image) = vault.image();
    assert_eq!(output, listed(header, &image));
    assert_eq!(output, listing::list(&input));
    assert_eq!(input, file("crates/racklist/stdin"));
    assert_eq!(output.as_bytes(), file("crates/racklist/stdout"));
}
