//! Blank sheets, whose words are all 0: `image` refuses them and says where they stand; racks that hold some from before this refusal come back as any others.
use crate::program::{file, line, refusal, vault, writes, Answer};

/// What is said of a blank sheet at a place.
fn says(place: &str) -> String {
    let meaning = "each data word of the sheet is 0, as when the press's probe is unplugged";
    format!("vault: refused 11 (blank) at {place}: {meaning}\n")
}

/// Checks that lines of text, of sheets of three words, are refused at a place, with nothing on standard output.
fn text_refused(lines: &str, place: &str) {
    let answer = vault(["image", "2", "3", "--text"], lines.as_bytes());
    let expected = (1, &[][..], &says(place)[..]);
    let given = (answer.status, &answer.stdout[..], &answer.stderr[..]);
    assert_eq!(given, expected, "{lines:?}");
}

#[test]
fn a_blank_line_of_numbers_is_named() {
    text_refused("0 0 0 0\n1 2 200 305\n2 3 400 268\n", "write 0, line 1");
    text_refused("0 1 200 412\n1 0 0 0\n2 3 400 268\n", "write 1, line 2");
    text_refused("0 1 200 412\n1 2 200 305\n2 0 0 0\n", "write 2, line 3");
    // The first of two is named, whatever follows it.
    text_refused("0 1 200 412\n1 0 0 0\n2 0 0 0\n4 x\n", "write 1, line 2");
    // Zeros may be written in other ways, and the last line may have no end.
    text_refused("0 1 200 412\n  1\t00 0   000", "write 1, line 2");
}

/// An editor counts empty lines too.
#[test]
fn empty_lines_count() {
    text_refused("\n0 0 0 0\n", "write 0, line 2");
    text_refused(
        "\n\n \t\n0 1 200 412\n\r\n\n1 0 0 0\r\n\n",
        "write 1, line 7",
    );
    text_refused("0 1 200 412\n\n\n\n\n\n\n\n\n\n1 0 0 0", "write 1, line 11");
    let many = "3 4 400 214\n\n".repeat(500);
    text_refused(&format!("{many}0 0 0 0\n"), "write 500, line 1001");
    // They are no writes.
    let answer = vault(["image", "2", "3", "--text"], b"\n\n0 1 200 412\n\n \n");
    assert_eq!((answer.status, &answer.stderr[..]), (0, "plate 2 3 1\n"));
}

#[test]
fn a_blank_write_in_bytes_is_named_by_its_place() {
    let sheets: [&[u16]; 3] = [&[0, 1, 200], &[1, 2, 200], &[2, 3, 400]];
    for place in 0..3 {
        let mut sheets = sheets;
        sheets[place] = &[3, 0, 0];
        let answer = vault(["image", "2", "2"], &writes(&sheets));
        assert_eq!((answer.status, &answer.stdout[..]), (1, &[][..]));
        assert_eq!(answer.stderr, says(&format!("write {place}")));
    }
}

#[test]
fn one_word_that_is_not_0_is_enough() {
    for words in ["1 0 0", "0 1 0", "0 0 1", "65535 0 0", "0 256 0"] {
        let answer = vault(
            ["image", "2", "3", "--text"],
            format!("3 {words}").as_bytes(),
        );
        assert_eq!((answer.status, &answer.stderr[..]), (0, "plate 2 3 1\n"));
        let image = file("nearly-blank", &answer.stdout);
        let records = line(&format!("recover 2 3 1 {image}")).text();
        assert_eq!(records, format!("0 0 0 0\n1 0 0 0\n2 0 0 0\n3 {words}\n"));
    }
    let answer = vault(["image", "2", "1"], &writes(&[&[0, 256], &[0, 1]]));
    assert_eq!((answer.status, &answer.stderr[..]), (0, "plate 2 1 2\n"));
}

/// 11 comes last: a blank sheet for a record that is not there is refused 4, one of another length 2.
#[test]
fn other_refusals_come_first() {
    let text = |lines: &str| vault(["image", "2", "3", "--text"], lines.as_bytes());
    let refused = |answer: Answer, number: u32, place: &str| {
        assert_eq!(refusal(&answer), (1, Some(number)), "{answer:?}");
        assert!(answer.stderr.contains(place), "{place}: {answer:?}");
        assert_eq!(answer.stdout, []);
    };
    refused(text("\n4 0 0 0\n"), 4, "(record) at write 0, line 2: ");
    refused(text("\n3 0 0\n"), 2, "(length) at write 0, line 2: ");
    refused(text("3 0 0 0 0\n"), 2, "(length) at write 0, line 1: ");
    refused(text("4\n"), 2, "(length) at write 0, line 1: ");
    refused(text("3 0 0 65536\n"), 5, "(data word) at write 0, line 1: ");
    let bytes = writes(&[&[1, 2], &[4, 0]]);
    refused(
        vault(["image", "2", "1"], &bytes),
        4,
        "(record) at write 1: ",
    );
    let bytes = vault(["image", "2", "1"], &bytes[..7]);
    refused(bytes, 2, "(length) at write 1: ");
    refused(vault(["image", "2", "0"], &[0; 2]), 1, "(plate): ");
}

/// The image that an earlier vault, which took blank sheets, makes of lines of two words. It is today's of lines that end with a word more, 1, without that
/// word of each position: each column of a shelf is coded alone.
fn earlier_image(lines: &str) -> Vec<u8> {
    let longer = lines.replace('\n', " 1\n");
    let answer = vault(["image", "2", "3", "--text"], longer.as_bytes());
    assert_eq!(answer.status, 0, "{answer:?}");
    let positions = answer.stdout.chunks(16);
    positions.flat_map(|words| &words[..12]).copied().collect()
}

/// Three writes of an earlier vault, with c = 3 afterwards: level 1 holds the first two, level 0 the last.
const EARLIER: &str = "1 5 6\n2 0 0\n1 0 0\n";

#[test]
fn an_earlier_rack_comes_back() {
    let image = file("earlier", &earlier_image(EARLIER));
    // Today's vault refuses the second of these writes.
    let today = vault(["image", "2", "2", "--text"], EARLIER.as_bytes());
    assert_eq!(today.stderr, says("write 1, line 2"));
    // After the 8 lines of the full shelf: X of level 0 is the block of the last write, to record 1.
    let listed = line(&format!("list 2 2 3 {image}")).text();
    assert_eq!(listed.lines().nth(8), Some("0 0 1 0 0"));
    let decoded = |shelf| line(&format!("decode 2 2 3 {image} - {shelf}")).text();
    assert_eq!(decoded("1"), "1 5 6\n2 0 0\n");
    assert_eq!(decoded("0"), "1 0 0\n");
    assert_eq!(decoded("C"), "0 0 0\n1 0 0\n2 0 0\n3 0 0\n");
    let gaps = line("gaps 2 2 C:0-3 1:1 1:2 0:0").stdout;
    for gaps in ["-", file("earlier-gaps", &gaps)] {
        let records = line(&format!("recover 2 2 3 {image} {gaps}"));
        let expected = "0 0 0\n1 0 0\n2 0 0\n3 0 0\n";
        assert_eq!((records.status, &records.text()[..]), (0, expected));
        let explained = line(&format!("explain 2 2 3 {image} {gaps}"));
        let origins = "   record   shelf   write\n        0       C\n        1       0       2\n        2       1       1\n        3       C\n";
        assert!(explained.text().ends_with(origins), "{explained:?}");
        assert_eq!((explained.status, &explained.stderr[..]), (0, ""));
    }
    // Before its last write.
    let records = line(&format!("recover 2 2 2 {image} --json")).text();
    assert!(records.ends_with("\"records\":[[0,0],[5,6],[0,0],[0,0]]}\n"));
}

/// The fourth write ends a round: the full shelf is built with the zeros in it.
#[test]
fn an_earlier_full_shelf_comes_back() {
    let image = file("earlier-full", &earlier_image(&format!("{EARLIER}3 7 0\n")));
    let records = line(&format!("recover 2 2 0 {image}")).text();
    assert_eq!(records, "0 0 0\n1 0 0\n2 0 0\n3 7 0\n");
    let made = vault(
        ["image", "2", "2", "--text"],
        b"3 7 0\n3 7 0\n3 7 0\n3 7 0\n",
    );
    // Of these records today's vault makes the same rack.
    assert!(made.stdout == earlier_image(&format!("{EARLIER}3 7 0\n")));
}
