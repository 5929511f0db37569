//! Each refusal that words and files can cause: its number, its meaning, its shelf, and exit status 1.
use crate::program::{bytes, file, image_file, line, numbers, refusal, vault, writes, Answer};

const WRITES: [&[u16]; 3] = [&[0, 1], &[1, 2], &[2, 3]];

/// Checks that a run was refused with a number, and printed nothing else.
fn refused(answer: &Answer, number: u32) {
    assert_eq!(refusal(answer), (1, Some(number)), "{answer:?}");
    assert_eq!(answer.stdout, [], "{answer:?}");
}

/// Checks that recovery is refused with a number on a shelf, in text and in JSON, and that it is explained so.
fn recovery_refused(words: &str, number: u32, name: &str, shelf: Option<&str>) {
    let answer = line(&format!("recover {words}"));
    refused(&answer, number);
    let place = shelf.map_or(String::new(), |shelf| format!(" on shelf {shelf}"));
    let start = format!("vault: refused {number} ({name}){place}: ");
    assert!(answer.stderr.starts_with(&start), "{answer:?}");
    let json = line(&format!("recover {words} --json"));
    let quoted = shelf.map_or("null".to_owned(), |shelf| format!("\"{shelf}\""));
    let verdict = format!("{{\"number\":{number},\"name\":\"{name}\",\"shelf\":{quoted},");
    assert_eq!(
        (json.status, json.text()),
        (1, format!("{verdict}\"records\":[]}}\n"))
    );
    assert_eq!(json.stderr, "");
    let fault = shelf.map(|shelf| format!("{number} ({name}) on shelf {shelf}"));
    explained(words, &answer.stderr, &verdict, fault);
}

/// Checks that explaining says what recovery said. The rack is drawn where a shelf is at fault, and only there.
fn explained(words: &str, said: &str, verdict: &str, fault: Option<String>) {
    let answer = line(&format!("explain {words}"));
    assert_eq!((answer.status, &answer.stderr[..]), (1, said), "{answer:?}");
    let json = line(&format!("explain {words} --json"));
    assert_eq!((json.status, &json.stderr[..]), (1, ""), "{json:?}");
    let counts = match fault {
        None => {
            assert_eq!(answer.stdout, [], "{answer:?}");
            "\"counts\":[],"
        }
        Some(fault) => {
            let says = format!("\n   The records do not come back: {fault}.\n");
            assert!(answer.text().starts_with("   shelf   holds "), "{answer:?}");
            assert!(answer.text().contains(&says), "{says}: {answer:?}");
            "\"counts\":[{\"shelf\":\"C\",\"left\":"
        }
    };
    assert!(
        json.text().starts_with(&format!("{verdict}{counts}")),
        "{json:?}"
    );
    assert!(json.text().ends_with("],\"origins\":[]}\n"), "{json:?}");
}

#[test]
fn plate() {
    let image = image_file("plate", 2, 1, &WRITES);
    for plate in [
        "0 1 0",
        "11 1 0",
        "2 0 0",
        "2 129 0",
        "2 1 4",
        "4294967295 4294967295 4294967295",
        "0 0 0",
        "32 1 0",
        "64 1 0",
    ] {
        recovery_refused(&format!("{plate} {image}"), 1, "plate", None);
        refused(&line(&format!("decode {plate} {image} - C")), 1);
        refused(&line(&format!("list {plate} {image}")), 1);
    }
    for plate in [
        "0 1",
        "11 1",
        "1 0",
        "1 129",
        "4294967295 4294967295",
        "0 0",
    ] {
        refused(&line(&format!("image {plate}")), 1);
        refused(&line(&format!("gaps {plate} C:0")), 1);
    }
}

#[test]
fn length() {
    let image = image_file("length", 2, 1, &WRITES);
    let whole = bytes(image);
    let longer = [&whole[..], &[0]].concat();
    let mut images = vec![
        file("length-none", &[]),
        file("length-one", &whole[..1]),
        file("length-less", &whole[..111]),
        file("length-more", &longer),
    ];
    // A file without an end.
    images.push("/dev/zero");
    for image in images {
        recovery_refused(&format!("2 1 3 {image}"), 2, "length", None);
        refused(&line(&format!("decode 2 1 3 {image} - 0")), 2);
        refused(&line(&format!("list 2 1 3 {image}")), 2);
    }
    // An image of another vault, and 2 goes before 3.
    let bad = file("length-gaps", &[1]);
    recovery_refused(&format!("3 1 3 {image} {bad}"), 2, "length", None);
}

#[test]
fn writes_that_end_early() {
    let all = writes(&WRITES);
    for count in [1, 2, 3] {
        let answer = vault(["image", "2", "1"], &all[..8 + count]);
        refused(&answer, 2);
        assert!(answer.stderr.contains(" at write 2:"), "{answer:?}");
    }
    for text in ["0 1\n1\n", "0 1\n1 2 3\n"] {
        let answer = vault(["image", "2", "1", "--text"], text.as_bytes());
        refused(&answer, 2);
        assert!(answer.stderr.contains(" at write 1, line 2:"), "{answer:?}");
    }
}

#[test]
fn gap_lists() {
    let image = image_file("gap-lists", 2, 1, &WRITES);
    let lists = [
        vec![0; 7],
        vec![0; 8],
        numbers(&[0, 8])[..4].to_vec(),
        numbers(&[112, 1]),
        numbers(&[104, 9]),
        numbers(&[4294967295, 4294967295]),
        numbers(&[8, 4294967295]),
        numbers(&[0, 8, 8, 8]),
        numbers(&[9, 8, 0, 8]),
        numbers(&[0, 8, 4, 8]),
    ];
    for list in lists {
        let gaps = file("gap-list", &list);
        recovery_refused(&format!("2 1 3 {image} {gaps}"), 3, "gap list", None);
        // 3 goes before 6.
        refused(&line(&format!("decode 2 1 3 {image} {gaps} 9")), 3);
    }
    recovery_refused(&format!("2 1 3 {image} /dev/zero"), 3, "gap list", None);
    for list in [numbers(&[0, 8, 9, 8]), numbers(&[104, 8])] {
        let gaps = file("gap-list-good", &list);
        assert_eq!(line(&format!("recover 2 1 3 {image} {gaps}")).status, 0);
    }
}

#[test]
fn record_and_data_word() {
    let answer = vault(["image", "2", "1"], &writes(&[&[3, 1], &[4, 2], &[9, 9]]));
    refused(&answer, 4);
    assert!(answer.stderr.contains("(record) at write 1:"), "{answer:?}");
    let answer = vault(["image", "2", "1", "--text"], b"0 65535\n3 65536\n");
    refused(&answer, 5);
    assert!(
        answer.stderr.contains("(data word) at write 1, line 2:"),
        "{answer:?}"
    );
    let answer = vault(["image", "2", "1", "--text"], b"\n4294967295 4294967295\n");
    refused(&answer, 4);
    assert!(
        answer.stderr.contains("(record) at write 0, line 2:"),
        "{answer:?}"
    );
}

#[test]
fn shelf() {
    let image = image_file("shelf", 3, 1, &WRITES);
    for shelf in ["2", "4", "4294967295"] {
        refused(&line(&format!("decode 3 1 3 {image} - {shelf}")), 6);
    }
}

#[test]
fn too_few() {
    let image = image_file("too-few", 2, 1, &WRITES);
    let cases = [
        ("C:0-4", "C"),
        ("C:0-3 1:0-2", "1"),
        ("0:0-1", "0"),
        ("0:0-1 1:0-3", "1"),
        ("0:0-1 1:0-3 C:0-7", "C"),
    ];
    for (positions, shelf) in cases {
        let gaps = line(&format!("gaps 2 1 {positions}")).stdout;
        let gaps = file("too-few-gaps", &gaps);
        recovery_refused(&format!("2 1 3 {image} {gaps}"), 7, "too few", Some(shelf));
        refused(&line(&format!("decode 2 1 3 {image} {gaps} {shelf}")), 7);
    }
}

#[test]
fn every_shelf_that_is_short_is_told() {
    let image = image_file("short", 4, 1, &[&[0, 1][..]; 13]);
    let gaps = line("gaps 4 1 C:0-15 3:1-9 3:12 2:3-6 0:0-1 1:0-3").stdout;
    let gaps = file("short-gaps", &gaps);
    let answer = line(&format!("explain 4 1 13 {image} {gaps}"));
    let expected =
        "   shelf   holds                    positions (# read, . lost)         left       needed
     C     all 16 records           ................################   16 of 32   16: just enough
     3     writes 0 to 7            #.........##.###                    6 of 16    8: 2 too few
     2     writes 8 to 11           ###....#                            4 of  8    4: just enough
     1     empty
     0     write 12                 ..                                  0 of  2    1: 1 too few

   The records do not come back: 7 (too few) on shelf 3.
   Shelf 3 lacks 2 positions: any 2 of the 10 lost ones would be enough.
   Shelf 0 lacks 1 position: any 1 of the 2 lost ones would be enough.
";
    assert_eq!((answer.status, answer.text()), (1, expected.to_owned()));
    let json = line(&format!("explain 4 1 13 {image} {gaps} --json"));
    let expected = "{\"number\":7,\"name\":\"too few\",\"shelf\":\"3\",\"counts\":[\
                    {\"shelf\":\"C\",\"left\":16,\"needed\":16,\"shortfall\":0},\
                    {\"shelf\":\"3\",\"left\":6,\"needed\":8,\"shortfall\":2},\
                    {\"shelf\":\"2\",\"left\":4,\"needed\":4,\"shortfall\":0},\
                    {\"shelf\":\"0\",\"left\":0,\"needed\":1,\"shortfall\":1}],\"origins\":[]}\n";
    assert_eq!((json.status, json.text()), (1, expected.to_owned()));
    // With two more of shelf 3 and one more of shelf 0 the records come back; with one less, they do not.
    for (positions, status) in [("3:1-7 3:12 0:1", 0), ("3:1-8 3:12 0:1", 1)] {
        let gaps = line(&format!("gaps 4 1 C:0-15 2:3-6 {positions}")).stdout;
        let gaps = file("short-gaps", &gaps);
        assert_eq!(
            line(&format!("explain 4 1 13 {image} {gaps}")).status,
            status
        );
    }
}

/// Discord on the full shelf comes before a level with too few positions, which is told all the same.
#[test]
fn a_short_shelf_behind_another_fault() {
    let image = image_file("behind", 2, 1, &WRITES);
    let mut whole = bytes(image);
    whole[4] += 1;
    file(image, &whole);
    let gaps = line("gaps 2 1 1:0-2").stdout;
    let gaps = file("behind-gaps", &gaps);
    let answer = line(&format!("explain 2 1 3 {image} {gaps}"));
    let says = "
   The records do not come back: 9 (discord) on shelf C.
   Shelf 1 lacks 1 position: any 1 of the 3 lost ones would be enough.
";
    assert_eq!(refusal(&answer), (1, Some(9)));
    assert!(answer.text().ends_with(says), "{answer:?}");
    // A position that has a stray word is left.
    whole[7] = 1;
    file(image, &whole);
    let stray = line(&format!("explain 2 1 3 {image} {gaps}"));
    assert_eq!(refusal(&stray), (1, Some(8)));
    assert_eq!(
        stray.text(),
        answer.text().replace("9 (discord)", "8 (stray)")
    );
}

/// The image of WRITES with other words from some word on: recovery and decoding are refused with a number on a shelf.
fn altered(at: usize, words: &[u32], number: u32, name: &str, shelf: &str) {
    let image = image_file("altered", 2, 1, &WRITES);
    let mut whole = bytes(image);
    whole[4 * at..4 * (at + words.len())].copy_from_slice(&numbers(words));
    file(image, &whole);
    recovery_refused(&format!("2 1 3 {image}"), number, name, Some(shelf));
    refused(&line(&format!("decode 2 1 3 {image} - {shelf}")), number);
}

#[test]
fn stray_discord_and_no_sheet() {
    for word in [65537, 4294967295] {
        altered(0, &[word], 8, "stray", "C");
        altered(17, &[word], 8, "stray", "0");
    }
    altered(19, &[12289], 9, "discord", "0");
    altered(20, &[2], 9, "discord", "1");
    altered(1, &[1], 9, "discord", "C");
    // Example P11 of docs/FORMAT.md: a number that no record has.
    altered(16, &[4, 3, 16384, 12288], 10, "no sheet", "0");
    // The full shelf's numbers as those of the column 1, 2, 3, 4: no record is in its place.
    let numbers = [10, 255, 65533, 65280, 11841, 16945, 52674, 49618];
    let words: Vec<u32> = numbers.iter().flat_map(|&number| [number, 0]).collect();
    altered(0, &words, 10, "no sheet", "C");
}

#[test]
fn empty_levels_are_not_looked_at() {
    let image = image_file("empty-level", 2, 1, &WRITES[..2]);
    let mut whole = bytes(image);
    whole[64..80].fill(0xff);
    file(image, &whole);
    let answer = line(&format!("recover 2 1 2 {image}"));
    assert_eq!(
        (answer.status, answer.text()),
        (0, "0 1\n1 2\n2 0\n3 0\n".into())
    );
}
