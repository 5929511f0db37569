//! Section 5: the writes that each level holds.
use crate::calls::{decode_stripe, Vault};
use crate::document::{said, section, table};
use crate::forms::{joined, number};

/// The table of the writes that each level holds: they are decoded out of the image after each write of a round.
#[test]
fn section_5_writes_of_levels() {
    let lines = section("## 5 ");
    let start = "So the higher filled level holds the older writes";
    let [_, k] = said(&lines, start, "{} For k = {}:");
    let k = number(k);
    let head = "| c | level 2 holds writes | level 1 | level 0 |";
    let mut vault = Vault::zeros(k, 1);
    for (c, row) in (0..).zip(table(&lines, head, 8)) {
        let (header, image) = vault.image();
        assert_eq!((header.c, number(row[0])), (c, c));
        for (level, cell) in (0..k).rev().zip(&row[1..]) {
            let left = decode_stripe(header, &image, &[], level);
            // Write t put t + 1 into record t: a blank block would be refused.
            let words = left.out.chunks(2).take(1 << level).map(|x| x[1] - 1);
            let given = match left.number {
                0 => joined(words, ", "),
                6 => "empty".to_string(),
                other => panic!("{other} at c = {c}"),
            };
            assert_eq!(*cell, given, "c = {c}");
        }
        vault.write(c, &[c + 1]);
    }
}
