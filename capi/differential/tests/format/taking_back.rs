//! Taking back: its tests (sections 9 and 10), and the examples of section 12.
use crate::calls::{decode_stripe, reference_header, Vault};
use crate::document::{said, section, table};
use crate::example::Example;
use crate::forms::{fit, header, holes, joined, number, numbers};
use reference::lent::Words;
use vault_library::{sizes, stripes, Header};

/// The blocks of a stripe of the vault, as words.
fn blocks(vault: &Vault, stripe: u32) -> Vec<Vec<u32>> {
    let (header, image) = vault.image();
    let left = decode_stripe(header, &image, &[], stripe);
    assert_eq!(left.number, 0);
    let width = header.s as usize + 1;
    let blocks = left.out.chunks(width).take(1 << stripe);
    blocks.map(<[u32]>::to_vec).collect()
}

/// The words of a level.
fn level(vault: &Vault, level: u32) -> Vec<u32> {
    let (Header { k, s, .. }, image) = vault.image();
    let bytes = |position| stripes::position(k, s, level, position);
    let words = |position| stripes::words(&image, bytes(position)).collect::<Vec<u32>>();
    (0..stripes::positions(level)).flat_map(words).collect()
}

/// The lowest filled level and its blocks, as the document writes them.
fn lowest(vault: &Vault) -> String {
    let Header { k, c, .. } = vault.header();
    let level = c.trailing_zeros();
    if level >= k {
        return "none".to_string();
    }
    let blocks = blocks(vault, level);
    let blocks = blocks.iter().map(|x| joined(x, " "));
    format!("{level}: {}", joined(blocks, ", "))
}

/// Where the write before stands, as the document writes it: the last block with the number of the last write, that write left out.
fn before(vault: &Vault) -> String {
    let header = vault.header();
    let lowest = header.c.trailing_zeros();
    let mut record = None;
    for stripe in (lowest..=header.k).filter(|&stripe| header.filled(stripe)) {
        let mut all = blocks(vault, stripe);
        if stripe == lowest {
            record = all.pop().map(|last| last[0]);
        }
        let Some(place) = all.iter().rposition(|block| Some(block[0]) == record) else {
            continue;
        };
        let name = if stripe == header.k {
            "full stripe".to_string()
        } else {
            format!("level {stripe}")
        };
        return format!("{name}, block {place}: {}", joined(&all[place], " "));
    }
    String::new()
}

/// What a level holds afterwards, as the document writes it.
fn held(before: &[u32], after: &[u32]) -> String {
    if before == after && after.iter().any(|&x| x != 0) {
        "as before".to_string()
    } else if after.iter().all(|&x| x == 0) {
        "zeros".to_string()
    } else {
        joined(after, " ")
    }
}

/// The vault of the example, as its first paragraph tells it, the count of its takings-back, and the scratch that they are lent.
fn example(lines: &[String]) -> (Vault, String, usize) {
    let start = "The vault of the whole image above: ";
    let pattern = "header {}, records {}. {} takings-back, one after the other, each lent a scratch of {} words:";
    let [given, records, count, scratch] = said(lines, start, pattern);
    let vault = Example::read().story.vault();
    let (now, scratch) = (vault.header(), number(scratch) as usize);
    assert_eq!(header(&given), now);
    assert_eq!(numbers(&records, " "), vault.records());
    assert_eq!(scratch, sizes::take_back_scratch(now.k, now.s));
    (vault, count, scratch)
}

/// The table of takings-back, and what is said of the first two.
#[test]
fn section_12_taken_back() {
    let lines = section("### Taking back");
    let (mut vault, count, scratch) = example(&lines);
    let head = "| lowest filled level, its blocks | write before | gives | c | records afterwards | level 0, level 1 |";
    let rows = table(&lines, head, 4);
    assert_eq!((&count[..], rows.len()), ("Four", 4));
    for row in rows {
        let told = [lowest(&vault), before(&vault)];
        let levels = [0, 1].map(|l| level(&vault, l));
        let given = vault.take_back(scratch);
        let left = [0, 1].map(|l| held(&levels[l as usize], &level(&vault, l)));
        let cells = [
            told[0].clone(),
            told[1].clone(),
            given.to_string(),
            vault.header().c.to_string(),
            joined(vault.records(), " "),
            joined(left, ", "),
        ];
        assert_eq!(row, cells);
    }
}

/// The sentence on what is looked at in the first two.
#[test]
fn section_12_stripes_looked_at() {
    let lines = section("### Taking back");
    let (mut vault, _, scratch) = example(&lines);
    let pattern = "the full stripe is not looked at; in the second, block {} of the level has another number, and no higher level \
                   is filled. With the header {} and one word of the buffers changed first:";
    let [block, given] = said(&lines, "In the first, ", pattern);
    assert_eq!(header(&given), vault.header());
    for at in 0..sizes::full(vault.header().k, vault.header().s) {
        let mut changed = vault.clone();
        changed.set_word(Words::Full, at, u32::MAX);
        assert_eq!(changed.take_back(scratch), 0);
    }
    assert_eq!(vault.take_back(scratch), 0);
    let c = vault.header().c;
    let blocks = blocks(&vault, c.trailing_zeros());
    let last = blocks.last().expect("a write");
    assert_ne!(blocks[number(block) as usize][0], last[0]);
    // Level l alone is filled where c is 2^l.
    assert!(c.is_power_of_two());
}

/// The words of the log or of the full stripe that a row names, by stripe and position and as words of the buffer.
fn place(vault: &Vault, text: &str) -> (Words, usize) {
    let plain = reference_header(vault.header());
    if let Some([at]) = holes(text, "full stripe, word {}") {
        return (Words::Full, number(at) as usize);
    }
    let (level, position, word, at) =
        match holes(text, "level {}, position {}, word {} (log, word {})") {
            Some([level, position, word, at]) => (level, position, number(word), at),
            None => {
                let pattern = "level {}, positions {} and {} (log, words {} to {})";
                let [level, position, next, at, last] = fit(text, pattern);
                let count = 2 * plain.width() as u32;
                assert_eq!(number(next), number(position) + 1);
                assert_eq!(number(last), number(at) + count - 1);
                (level, position, 0, at)
            }
        };
    let start = plain.level_start(number(level)) + number(position) as usize * plain.width();
    let at = number(at) as usize;
    assert_eq!(at, start + word as usize, "{text}");
    (Words::Log, at)
}

/// The table of words that are changed: each alone, or those that follow it.
#[test]
fn section_12_words_changed() {
    let lines = section("### Taking back");
    let (vault, _, scratch) = example(&lines);
    let n = 1 << vault.header().k;
    let mut seen = Vec::new();
    for row in table(&lines, "| word | becomes | taking back gives |", 5) {
        let mut changed = vault.clone();
        let (buffer, first) = place(&vault, row[0]);
        let words = numbers(row[1], " ");
        for (at, &word) in (first..).zip(&words) {
            changed.set_word(buffer, at, word);
        }
        let [given, remark] = holes(row[2], "{}: {}").unwrap_or([row[2], ""]);
        assert_eq!(changed.take_back(scratch), number(given), "{row:?}");
        seen.push(number(given));
        match (buffer, remark) {
            (_, "") => {}
            (Words::Full, "it is not looked at") => assert_eq!(number(given), 0),
            _ => {
                let [record] = fit(remark, "its number is {}").map(number);
                assert!(record == words[0] && record >= n, "{row:?}");
            }
        }
    }
    assert_eq!(seen, [0, 8, 9, 9, 10]);
    let pattern = "{} or {} words gives {}. After {}, {} and {} the scratch is zeros, and nothing else changed.";
    let [short, long, given, stray, discord, other] =
        said(&lines, "A scratch of ", pattern).map(number);
    for length in [short, long] {
        assert_eq!(vault.clone().take_back(length as usize), given);
    }
    // Each taking-back above was seen to leave its buffers so.
    assert_eq!([stray, discord, other], [8, 9, 10]);
}

/// The number that both give to a taking-back with these faults, by their numbers: 8 to 10 on the lowest filled level.
fn given(faults: &[u32]) -> u32 {
    let has = |number| faults.contains(&number);
    let mut vault = Vault::zeros(2, 1);
    for record in [1, 2, 3] {
        vault.write(record, &[7]);
    }
    // The block 4 7 in the place of 3 7; then a word altered, and a stray one.
    for (fault, words) in [(10, &[4, 7, 16384, 28672][..]), (9, &[4, 9]), (8, &[65537])] {
        for (at, &word) in words.iter().enumerate().filter(|_| has(fault)) {
            vault.set_word(Words::Log, at, word);
        }
    }
    if has(12) {
        vault.set_count(0);
    }
    if has(1) {
        vault.set_k(0);
    }
    vault.take_back(sizes::take_back_scratch(2, 1) - usize::from(has(2)))
}

/// The tests of a taking-back, in the order of section 9: each alone, and each two. 12 comes before those of a stripe.
#[test]
fn sections_9_and_10_tests_of_a_taking_back() {
    let lines = section("## 9 ");
    let head = "| call | takes | buffers it may change | tests, in order |";
    let rows = table(&lines, head, 9);
    let row = rows.iter().find(|row| row[0] == "take_back");
    let pattern =
        "{}, {} (raw, full, log, scratch), {} (c), then {}, {}, {} on each stripe in turn";
    let tests: [u32; 6] = fit(row.expect("take_back")[3], pattern).map(number);
    assert_eq!(tests, [1, 2, 12, 8, 9, 10]);
    assert_eq!(given(&[]), 0);
    for (i, &first) in tests.iter().enumerate() {
        assert_eq!(given(&[first]), first);
        for &second in &tests[i + 1..] {
            assert_eq!(given(&[first, second]), first, "{first} and {second}");
        }
    }
}
