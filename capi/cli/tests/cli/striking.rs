//! The line `strike N` of `image --text`, and struck records in what the other commands print.
use crate::program::{bytes, file, line, vault, writes, Answer};
use random::Random;

fn text(k: u32, s: u32, lines: &str) -> Answer {
    let [k, s] = [k, s].map(|number| number.to_string());
    vault(["image", &k, &s, "--text"], lines.as_bytes())
}

/// The rack of some lines, stored as a file, where k = 2 and s = 2, with so many writes of the round.
fn rack<'a>(name: &'a str, lines: &str, c: u32) -> &'a str {
    let answer = text(2, 2, lines);
    let says = format!("plate 2 2 {c}\n");
    assert_eq!((answer.status, answer.stderr), (0, says), "{lines:?}");
    file(name, &answer.stdout)
}

/// Checks what a run prints, and that it says nothing else.
fn prints(words: &str, expected: &str) {
    let answer = line(words);
    let given = (answer.status, answer.text(), &answer.stderr[..]);
    assert_eq!(given, (0, expected.to_owned(), ""), "{words}");
}

/// Checks that lines make the rack that other lines make.
fn same(lines: &str, others: &str) {
    let answer = text(2, 2, lines);
    assert_eq!(answer.status, 0, "{lines:?}: {answer:?}");
    assert!(answer == text(2, 2, others), "{lines:?}: {answer:?}");
}

/// The first table "Struck records" of docs/FORMAT.md begins with these events.
const THREE: &str = "strike 2\n1 1 2\nstrike 2\n";

#[test]
fn records_are_printed_as_struck() {
    let image = rack("struck", THREE, 3);
    prints(
        &format!("recover 2 2 3 {image}"),
        "0 0 0\n1 1 2\n2 struck\n3 0 0\n",
    );
    prints(
        &format!("recover 2 2 3 {image} --json"),
        "{\"number\":0,\"name\":\"taken\",\"shelf\":null,\"records\":[[0,0],[1,2],null,[0,0]]}\n",
    );
    for (shelf, expected) in [
        ("0", "2 struck\n"),
        ("1", "2 struck\n1 1 2\n"),
        ("C", "0 0 0\n1 0 0\n2 0 0\n3 0 0\n"),
    ] {
        prints(&format!("decode 2 2 3 {image} - {shelf}"), expected);
    }
    // Words of an image are no records: they are listed as they are.
    let listed = line(&format!("list 2 2 3 {image}")).text();
    let levels = "0 0 2 65536 65536\n0 1 8192 61441 61441\n\
                  1 0 3 0 1\n1 1 1 65535 65534\n1 2 65283 65280 65024\n1 3 258 255 511\n";
    assert!(listed.ends_with(levels), "{listed}");
    // Before the last strike the record was struck already.
    prints(
        &format!("recover 2 2 2 {image}"),
        "0 0 0\n1 1 2\n2 struck\n3 0 0\n",
    );
}

/// A strike is the origin of its record, and any half of each shelf brings it back.
#[test]
fn a_strike_is_explained_like_a_write() {
    let image = rack("struck-explained", THREE, 3);
    let gaps = line("gaps 2 2 C:0-3 0:0 1:1 1:3").stdout;
    let gaps = file("struck-gaps", &gaps);
    let expected =
        "   shelf   holds                    positions (# read, . lost)         left     needed
     C     all 4 records            ....####                           4 of 8   4: just enough
     1     writes 0 to 1            #.#.                               2 of 4   2: just enough
     0     write 2                  .#                                 1 of 2   1: just enough

   All 4 records come back, each from its last write in the round, or from shelf C.

   record   shelf   write
        0       C
        1       1       1
        2       0       2
        3       C
";
    prints(&format!("explain 2 2 3 {image} {gaps}"), expected);
    let origins = "\"origins\":[{\"shelf\":\"C\",\"write\":null},{\"shelf\":\"1\",\"write\":1},\
                   {\"shelf\":\"0\",\"write\":2},{\"shelf\":\"C\",\"write\":null}]}\n";
    let json = line(&format!("explain 2 2 3 {image} {gaps} --json"));
    assert!(json.text().ends_with(origins), "{json:?}");
    prints(
        &format!("recover 2 2 3 {image} {gaps}"),
        "0 0 0\n1 1 2\n2 struck\n3 0 0\n",
    );
}

#[test]
fn from_two_readings() {
    let image = rack("struck-two", THREE, 3);
    let gaps = |name, positions: &str| file(name, &line(&format!("gaps 2 2 {positions}")).stdout);
    let one = gaps("struck-two-gaps-1", "C:0-4 0:1");
    let other = gaps("struck-two-gaps-2", "C:6 1:0-2");
    let words = format!("2 2 3 {image} {one} --and {image} {other}");
    prints(
        &format!("recover {words}"),
        "0 0 0\n1 1 2\n2 struck\n3 0 0\n",
    );
    prints(
        &format!("recover {words} --json"),
        "{\"number\":0,\"name\":\"taken\",\"shelf\":null,\"records\":[[0,0],[1,2],null,[0,0]]}\n",
    );
    let explained = line(&format!("explain {words}"));
    let origin = "\n        2       0       2\n";
    assert!(explained.text().contains(origin), "{explained:?}");
}

/// The fourth write or strike ends a round, and shelf C is built with the struck records in it.
#[test]
fn strikes_count_as_writes() {
    for (lines, c, records) in [
        ("strike 1\n", 1, "0 0 0\n1 struck\n2 0 0\n3 0 0\n"),
        ("strike 1\nstrike 1\n", 2, "0 0 0\n1 struck\n2 0 0\n3 0 0\n"),
        (
            "1 5 6\nstrike 1\n1 7 8\n",
            3,
            "0 0 0\n1 7 8\n2 0 0\n3 0 0\n",
        ),
        (
            "strike 3\n0 1 2\nstrike 0\nstrike 3\n",
            0,
            "0 struck\n1 0 0\n2 0 0\n3 struck\n",
        ),
        (
            "strike 0\nstrike 1\nstrike 2\nstrike 3\n2 5 6\n",
            1,
            "0 struck\n1 struck\n2 5 6\n3 struck\n",
        ),
    ] {
        let image = rack("struck-counted", lines, c);
        prints(&format!("recover 2 2 {c} {image}"), records);
    }
    let full = "strike 3\n0 1 2\nstrike 0\nstrike 3\n";
    let image = rack("struck-full", full, 0);
    let sheets = "0 struck\n1 0 0\n2 0 0\n3 struck\n";
    prints(&format!("decode 2 2 0 {image} - C"), sheets);
}

#[test]
fn a_strike_is_taken_back() {
    same("strike 1\nback\n", "");
    same("1 5 6\nstrike 1\nback\n", "1 5 6\n");
    // A record that was struck before stays so.
    same("strike 1\n1 5 6\nback\n", "strike 1\n");
    same("strike 1\nstrike 1\nback\n", "strike 1\n");
    same("strike 0\n3 1 2\nstrike 3\nback\nback\nback\n", "");
    same("strike 0\nback\nstrike 2\n", "strike 2\n");
    let says = "vault: refused 12 (round start) at line 3: this round has no write to take back\n";
    assert_eq!(text(2, 2, "strike 0\nback\nback\n").stderr, says);
    let ended = text(2, 2, "strike 0\nstrike 0\n1 1 1\nstrike 0\nback\n").stderr;
    assert_eq!(ended, says.replace('3', "5"));
}

/// Spaces, empty lines, zeros in front, other ends of lines, and none.
#[test]
fn as_a_line_of_text() {
    for strike in ["strike 1", "  strike\t1 \r\n", "\n\nstrike 001\n\n"] {
        same(&format!("0 1 2\n{strike}"), "0 1 2\nstrike 1\n");
    }
}

/// With s = 1 a struck record has the one word 65536.
#[test]
fn records_of_one_word() {
    let answer = text(1, 1, "strike 1\n");
    let image = file("struck-one", &answer.stdout);
    prints(&format!("recover 1 1 1 {image}"), "0 0\n1 struck\n");
    let json = line(&format!("recover 1 1 1 {image} --json")).text();
    assert!(json.ends_with("\"records\":[[0],null]}\n"), "{json}");
    prints(&format!("decode 1 1 1 {image} - 0"), "1 struck\n");
}

/// A strike has its place among the writes. A write of 65536 in every word strikes nothing.
#[test]
fn refused() {
    let record = "there are only 2^k records, numbered from 0";
    let word = "a data word is above 65535";
    for (lines, refusal, place, meaning) in [
        ("strike 4\n", "4 (record)", "write 0, line 1", record),
        (
            "0 1 2\n\nstrike 1\nstrike 4294967295\n9 x\n",
            "4 (record)",
            "write 2, line 4",
            record,
        ),
        (
            "strike 1\nback\nstrike 2\n4 1 1\n",
            "4 (record)",
            "write 2, line 4",
            record,
        ),
        (
            "0 1 2\n1 65536 65536\n",
            "5 (data word)",
            "write 1, line 2",
            word,
        ),
        (
            "strike 1\n1 65536 0\n",
            "5 (data word)",
            "write 1, line 2",
            word,
        ),
    ] {
        let says = format!("vault: refused {refusal} at {place}: {meaning}\n");
        let answer = text(2, 2, lines);
        let given = (answer.status, &answer.stdout[..], answer.stderr);
        assert_eq!(given, (1, &[][..], says), "{lines:?}");
    }
}

/// Lines that are bad usage, and what is said of them.
#[rustfmt::skip]
const NO_STRIKES: [(&str, &str); 13] = [
    ("0 1 2\nstrike\n", "write 1, line 2: 'strike' takes the number of one record, as in 'strike 3'"),
    ("strike 1 2\n", "write 0, line 1: 'strike' takes the number of one record, as in 'strike 3'"),
    ("\nstrike 1 2 3\n", "write 0, line 2: 'strike' takes the number of one record, as in 'strike 3'"),
    ("strike strike\n", "a number of write 0, line 1, is \"strike\", but must be a whole number from 0 to 4294967295"),
    ("strike -1\n", "a number of write 0, line 1, is \"-1\", but must be a whole number from 0 to 4294967295"),
    ("strike 1,2\n", "a number of write 0, line 1, is \"1,2\", but must be a whole number from 0 to 4294967295"),
    ("strike 4294967296\n", "a number of write 0, line 1, is \"4294967296\", but must be a whole number from 0 to 4294967295"),
    ("Strike 1\n", "a number of write 0, line 1, is \"Strike\", but must be a whole number from 0 to 4294967295"),
    ("1 strike\n", "a number of write 0, line 1, is \"strike\", but must be a whole number from 0 to 4294967295"),
    ("strike 1\nback 1\n", "line 2: 'back' stands alone on its line"),
    // As recover prints it.
    ("0 1 2\n1 struck\n", "write 1, line 2: a record is struck by a line 'strike N'"),
    ("struck\n", "a number of write 0, line 1, is \"struck\", but must be a whole number from 0 to 4294967295"),
    ("1 struck 2\n", "a number of write 0, line 1, is \"struck\", but must be a whole number from 0 to 4294967295"),
];

#[test]
fn lines_that_are_no_strikes() {
    for (lines, expected) in NO_STRIKES {
        let expected = format!("vault: {expected} (see: vault image --help)\n");
        let answer = text(2, 2, lines);
        let given = (answer.status, &answer.stdout[..], answer.stderr);
        assert_eq!(given, (2, &[][..], expected), "{lines:?}");
    }
}

/// In bytes a data word has 16 bits, and there is no such word.
#[test]
fn bytes_have_no_strikes() {
    let answer = vault(["image", "2", "2"], b"strike");
    let [number, one, other] = [*b"st", *b"ri", *b"ke"].map(u16::from_le_bytes);
    assert!(answer == vault(["image", "2", "2"], &writes(&[&[number, one, other]])));
    assert!(answer
        .stderr
        .starts_with("vault: refused 4 (record) at write 0: "));
}

/// One of the words of a struck block is changed, with its position in Y: some but not all are 65536.
#[test]
fn a_block_that_is_struck_in_some_words() {
    let image = rack("struck-in-part", THREE, 3);
    let mut whole = bytes(image);
    // Level 0 begins at byte 96: 5 in the place of the first data word, and w * 5 in Y.
    whole[100..104].copy_from_slice(&5u32.to_le_bytes());
    whole[112..116].copy_from_slice(&20480u32.to_le_bytes());
    let image = file("struck-in-part", &whole);
    let answer = line(&format!("recover 2 2 3 {image}"));
    let refused = "vault: refused 10 (no sheet) on shelf 0: ";
    assert!(
        answer.status == 1 && answer.stderr.starts_with(refused),
        "{answer:?}"
    );
}

/// Sheets, of which `None` is struck, as recover prints them.
fn printed(book: &[Option<u32>]) -> String {
    let lines = book.iter().enumerate().map(|(record, sheet)| match sheet {
        Some(word) => format!("{record} {word} {word}\n"),
        None => format!("{record} struck\n"),
    });
    lines.collect()
}

/// Writes and strikes in any order: the records are as they were last written or struck, and their lines make a rack of the same records.
#[test]
fn any_order() {
    let mut random = Random::new(6);
    for _ in 0..40 {
        let (mut lines, mut book) = (String::new(), [Some(0); 8]);
        let count = random.index(30);
        for word in 1..=count as u32 {
            let record = random.index(8);
            if random.below(2) == 0 {
                lines += &format!("strike {record}\n");
                book[record] = None;
            } else {
                lines += &format!("{record} {word} {word}\n");
                book[record] = Some(word);
            }
        }
        let image = file("struck-any", &text(3, 2, &lines).stdout);
        prints(
            &format!("recover 3 2 {} {image}", count % 8),
            &printed(&book),
        );
        let again = printed(&book).lines().fold(String::new(), |again, line| {
            match line.strip_suffix(" struck") {
                Some(record) => again + &format!("strike {record}\n"),
                None if line.ends_with(" 0 0") => again,
                None => again + line + "\n",
            }
        });
        let c = again.lines().count() % 8;
        let image = file("struck-again", &text(3, 2, &again).stdout);
        prints(&format!("recover 3 2 {c} {image}"), &printed(&book));
    }
}
