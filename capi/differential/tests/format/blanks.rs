//! Blank blocks: the tests of a write (sections 9 and 10), the table of events of section 12, and what racklist prints (section 13).
use crate::calls::Vault;
use crate::document::{said, section, table};
use crate::forms::{fit, number, numbers};
use crate::halves::recovers;
use reference::listing::list;
use reference::refusal::Refusal;

/// The table of events: the number, the count and the records of each line, and the recovery after it.
#[test]
fn section_12_blank_blocks() {
    let lines = section("### Blank blocks");
    let pattern = "{}, s = {}, opened with the records {}. Then these events, one after the other; an earlier write is one by a \
                   vault that did not know {}:";
    let [k, s, opened, unknown] = said(&lines, "k = ", pattern);
    let opened = opened.split(", ").flat_map(|x| numbers(x, " "));
    let mut vault = Vault::open(number(k), number(s), opened.collect());
    assert_eq!(number(unknown), Refusal::Blank as u32);
    let pattern = " the records of each line from the image as it is then, with any {} of each needed stripe.";
    assert_eq!(said(&lines, "Recovery gives", pattern), ["half"]);

    let head = "| event | record | block | gives | c | records afterwards |";
    let mut seen = [0; 12];
    for row in table(&lines, head, 12) {
        let (record, block) = (number(row[1]), numbers(row[2], " "));
        let given = match row[0] {
            "write" => vault.any_write(record, &block),
            "earlier write" => vault.earlier_write(record, &block),
            _ => panic!("not understood: {row:?}"),
        };
        let count = vault.image().0.c;
        assert_eq!([given, count], [3, 4].map(|i| number(row[i])), "{row:?}");
        recovers(&vault, &numbers(row[5], " "));
        seen[given as usize] += 1;
    }
    assert!([0, 2, 4, 5, 11].iter().all(|&x| seen[x] > 0), "{seen:?}");
}

/// The number that both give to a write with these faults, by their numbers.
fn given(faults: &[u32]) -> u32 {
    let has = |number| faults.contains(&number);
    let mut vault = Vault::zeros(2, 2);
    vault.write(0, &[7, 7]);
    if has(1) {
        vault.set_count(4);
    }
    let mut block = if has(11) { vec![0, 0] } else { vec![0, 7] };
    if has(5) {
        block[1] = 65536;
    }
    if has(2) {
        block.push(block[1]);
    }
    vault.any_write(if has(4) { 4 } else { 3 }, &block)
}

/// The tests of a write, in the order of section 9: each alone, and each two. Their numbers are in the table of section 10. 5 and 11 never apply at once: of
/// the two faults a block is left that is not blank.
#[test]
fn sections_9_and_10_tests_of_a_write() {
    let lines = section("## 10 ");
    let head = "| number | the trade's name | meaning | applies when |";
    let rows = table(&lines, head, 12);
    let known: Vec<u32> = rows.iter().map(|row| number(row[0])).collect();
    assert!(known.iter().copied().eq(0..rows.len() as u32));
    let lines = section("## 9 ");
    let head = "| call | takes | buffers it may change | tests, in order |";
    let rows = table(&lines, head, 8);
    let row = rows.iter().find(|row| row[0] == "write").expect("write");
    let pattern = "{}, {} (raw, full, log, block), {}, {} (each word of the block), {} (the block)";
    let tests: [u32; 5] = fit(row[3], pattern).map(number);
    assert!(tests.is_sorted() && tests.iter().all(|x| known.contains(x)));
    assert_eq!(given(&[]), 0);
    for (i, &first) in tests.iter().enumerate() {
        assert_eq!(given(&[first]), first);
        for &second in &tests[i + 1..] {
            assert_eq!(given(&[first, second]), first, "{first} and {second}");
        }
    }
}

/// What racklist prints of a blank write, by reference/ (crates/test_cases has the library's listings): the numbers of the list in section 13, which it names
/// in the order of its tests.
#[test]
fn section_13_blank_writes() {
    let lines = section("## 13 ");
    let pattern = "{} if the input ends inside it, whatever its record number; otherwise {} if the record number is n or more; \
                   otherwise {} if its data words are all 0. {}";
    let [short, record, blank, _] = said(&lines, "- for each write in turn: ", pattern);
    let refused = |number: String| format!("refused {number}\n");
    let input = [1, 2, 1, 0, 0, 0, 0, 0];
    assert_eq!(list(&input), refused(blank));
    assert_eq!(list(&input[..7]), refused(short));
    let mut bad = input;
    bad[2] = 2;
    assert_eq!(list(&bad), refused(record));
    let mut good = input;
    good[7] = 1;
    assert!(list(&good).starts_with("C 0 "));
}
