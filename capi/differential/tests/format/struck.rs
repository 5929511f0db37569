//! Struck records: the tests of a strike, of a reading and of an opening (sections 9 and 10), and the table of events of section 12.
use crate::calls::{decode_stripe, Vault};
use crate::document::{said, section, table};
use crate::forms::{fit, header, number, numbers, ordinal, ranges};
use crate::halves::recovers;
use reference::calls::Call;
use reference::lent::Words;
use reference::record::{is_struck, STRUCK};
use vault_library::sizes;

/// The first paragraph: the vault that it opens, and the records that read is asked for.
fn opened(lines: &[String]) -> (Vault, Vec<u32>) {
    let pattern = "{}, s = {}, opened with the records {}, of which the {} is struck. Then these events, one after the other; \
                   read is asked for the records {} after each:";
    let [k, s, records, struck, asked] = said(lines, "k = ", pattern);
    let records: Vec<Vec<u32>> = records.split(", ").map(|x| numbers(x, " ")).collect();
    for (place, record) in (1..).zip(&records) {
        assert_eq!(is_struck(record), place == ordinal(&struck));
    }
    let vault = Vault::open(number(k), number(s), records.concat());
    (vault, ranges(&asked))
}

/// The number that both give to the event of a row.
fn event(vault: &mut Vault, row: &[&str]) -> u32 {
    match row[0] {
        "write" => vault.any_write(number(row[1]), &numbers(row[2], " ")),
        "earlier write" => vault.earlier_write(number(row[1]), &numbers(row[2], " ")),
        "strike" => vault.strike(number(row[1])),
        "taking-back" => {
            let now = vault.header();
            vault.take_back(sizes::take_back_scratch(now.k, now.s))
        }
        _ => panic!("not understood: {row:?}"),
    }
}

/// The rows of the table of events.
fn rows(lines: &[String]) -> Vec<Vec<&str>> {
    let head = "| event | record | block | gives | c | records afterwards | read gives |";
    table(lines, head, 17)
}

/// The vault after so many events of the table.
pub fn after(lines: &[String], events: usize) -> Vault {
    let (mut vault, _) = opened(lines);
    for row in &rows(lines)[..events] {
        event(&mut vault, row);
    }
    vault
}

/// The table of events: the number, the count and the records of each line, the recovery after it, and what read gives.
#[test]
fn section_12_struck_records() {
    let lines = section("### Struck records");
    let (mut vault, asked) = opened(&lines);
    for row in rows(&lines) {
        let given = event(&mut vault, &row);
        let count = vault.header().c;
        assert_eq!([given, count], [3, 4].map(|i| number(row[i])), "{row:?}");
        recovers(&vault, &numbers(row[5], " "));
        let read: Vec<u32> = asked.iter().map(|&record| vault.read(record)).collect();
        assert_eq!(read, numbers(row[6], " "), "{row:?}");
    }
}

/// The paragraph after the table: a taking-back, its record, and a strike; and the count of events before the words, with the header then.
pub fn told(lines: &[String]) -> [String; 5] {
    let pattern = " the records of each line from the image as it is then, with any half of each needed stripe. The {} taking-back \
                   leaves record {} struck, as the {} strike did. After the {} event, with the header {}, the words are";
    said(lines, "Recovery gives", pattern)
}

/// The last write of the round, by its block.
fn last_block(vault: &Vault) -> Vec<u32> {
    let (header, image) = vault.image();
    let level = header.c.trailing_zeros();
    let left = decode_stripe(header, &image, &[], level);
    assert_eq!(left.number, 0);
    let mut blocks = left.out.chunks(header.s as usize + 1).take(1 << level);
    blocks.next_back().expect("a block").to_vec()
}

/// The sentence on the taking-back of a strike: the record was struck before it as well.
#[test]
fn section_12_taken_back_to_a_strike() {
    let lines = section("### Struck records");
    let [back, record, strike, events, given] = told(&lines);
    let rows = rows(&lines);
    let place = |kind: &str, nth: &str| {
        let mut own = (0..rows.len()).filter(|&i| rows[i][0] == kind);
        own.nth(ordinal(nth) - 1).expect("a row")
    };
    let (back, strike) = (place("taking-back", &back), place("strike", &strike));
    assert_eq!((rows[strike][1], rows[back][3]), (&record[..], "0"));
    let record = number(record);
    let taken_back = last_block(&after(&lines, back));
    assert_eq!(taken_back, [record, STRUCK, STRUCK]);
    for events in [strike + 1, back, back + 1] {
        assert_eq!(after(&lines, events).read(record), 14);
    }
    let vault = after(&lines, ordinal(&events));
    assert_eq!(vault.header(), header(&given));
}

/// A vault of k = 2 and s = 2 with these faults, by their numbers, and the record that a call is given.
fn faulty(faults: &[u32]) -> (Vault, u32) {
    let has = |number| faults.contains(&number);
    let mut vault = Vault::zeros(2, 2);
    for record in [0, 3] {
        vault.write(record, &[65535, 7]);
    }
    if has(14) {
        for at in [6, 7] {
            vault.set_word(Words::Raw, at, STRUCK);
        }
    }
    if has(2) {
        vault.lend_raw(9);
    }
    if has(1) {
        vault.set_count(4);
    }
    (vault, if has(4) { 4 } else { 3 })
}

fn strike_gives(faults: &[u32]) -> u32 {
    let (mut vault, record) = faulty(faults);
    vault.strike(record)
}

fn read_gives(faults: &[u32]) -> u32 {
    let (vault, record) = faulty(faults);
    vault.read(record)
}

/// An opening of k = 1 and s = 2 with these faults.
fn open_gives(faults: &[u32]) -> u32 {
    let has = |number| faults.contains(&number);
    let mut raw = vec![STRUCK, STRUCK, 1, 2];
    if has(5) {
        raw[1] = 0;
    }
    if has(2) {
        raw.push(0);
    }
    Vault::any_opening(1, if has(1) { 129 } else { 2 }, &raw)
}

/// The number that a call gives with these faults.
type Given = fn(&[u32]) -> u32;

/// The tests of the three calls, in the order of section 9: each alone, and each two. Section 10 has 14 in reading alone.
#[test]
fn sections_9_and_10_tests_with_strikes() {
    let lines = section("## 9 ");
    let head = "| call | takes | buffers it may change | tests, in order |";
    let rows = table(&lines, head, 12);
    let tests = |call: &str| rows.iter().find(|row| row[0] == call).expect("a call")[3];
    let strike: [u32; 3] = fit(tests("strike"), "{}, {} (raw, full, log), {}").map(number);
    let read: [u32; 4] = fit(tests("read"), "{}, {} (raw), {}, {} (the record)").map(number);
    let pattern = "{} (k and s; there is no c), {} (raw, full, log), {} (each record)";
    let open: [u32; 3] = fit(tests("open"), pattern).map(number);
    let calls: [(&[u32], Given); 3] = [
        (&strike, strike_gives),
        (&read, read_gives),
        (&open, open_gives),
    ];
    for (tests, given) in calls {
        assert_eq!(given(&[]), 0);
        for (i, &first) in tests.iter().enumerate() {
            assert_eq!(given(&[first]), first);
            for &second in &tests[i + 1..] {
                assert_eq!(given(&[first, second]), first, "{first} and {second}");
            }
        }
    }
}

/// Where 14 is given, and what a write of struck words gives.
#[test]
fn section_10_struck() {
    let start = "14 is in reading alone, after ";
    let pattern = "{}. {} applies to a block of a write of which all words are {}: only the call strike makes such a block.";
    let [before, refused, word] = said(&section("## 10 "), start, pattern).map(number);
    let numbers = Call::Read { record: 0 }.row().numbers;
    assert_eq!(numbers[numbers.len() - 2..], [before, 14]);
    let mut given = Call::all(0, 0).into_iter().filter(|call| call.gives(14));
    assert_eq!(given.next(), Some(Call::Read { record: 0 }));
    assert_eq!(given.next(), None);
    for s in 1..=4 {
        let mut vault = Vault::zeros(2, s);
        let block = vec![word; s as usize];
        assert_eq!(vault.any_write(1, &block), refused);
        assert_eq!(
            (
                vault.strike(1),
                &vault.records()[s as usize..][..s as usize]
            ),
            (0, &block[..])
        );
    }
}
