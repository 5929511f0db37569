//! `recover --and` and `explain --and`: two readings of one rack.
use crate::program::{bytes, file, image_file, line, vault, Answer};

/// The rack of README.md, stored as a file. Its positions have 16 bytes: shelf C begins at byte 0, 0 at 128 and 1 at 160.
fn rack(name: &str) -> &str {
    let lines = b"0 1 200 412\n1 2 200 305\n1 2 200 350\n";
    let made = vault(["image", "2", "3", "--text"], lines);
    assert_eq!((made.status, &made.stderr[..]), (0, "plate 2 3 3\n"));
    file(name, &made.stdout)
}

/// The rack with some bytes that are others than they were.
fn changed<'a>(name: &'a str, places: &[usize]) -> &'a str {
    let mut image = bytes(rack(name));
    for &place in places {
        image[place] ^= 1;
    }
    file(name, &image)
}

/// A gap list of some positions of it, stored as a file.
fn gaps<'a>(name: &'a str, positions: &str) -> &'a str {
    file(name, &line(&format!("gaps 2 3 {positions}")).stdout)
}

const RECORDS: &str = "0 1 200 412\n1 2 200 350\n2 0 0 0\n3 0 0 0\n";
const HEADING: &str =
    "   shelf   holds                    positions (legend below)           left in 1, 2   from   needed\n";
const LEGEND: &str =
    "\n   # the same in both readings, ! another in each, 1 or 2 in that reading alone, . lost in both\n\n";
const ORIGINS: &str =
    "   All 4 records come back, each from its last write in the round, or from shelf C.

   record   shelf   write
        0       1       0
        1       0       2
        2       C
        3       C
";
const ORIGINS_JSON: &str =
    "\"origins\":[{\"shelf\":\"1\",\"write\":0},{\"shelf\":\"0\",\"write\":2},\
     {\"shelf\":\"C\",\"write\":null},{\"shelf\":\"C\",\"write\":null}]}";

/// Checks what a run prints, and that it says nothing else.
fn taken(words: &str, expected: &str) {
    let answer = line(words);
    let given = (answer.status, answer.text(), &answer.stderr[..]);
    assert_eq!(given, (0, expected.to_owned(), ""), "{words}");
}

/// Checks what a refused run prints, and the message that it ends with.
fn refused(words: &str, expected: &str, says: &str) {
    let answer = line(words);
    let given = (answer.status, answer.text(), &answer.stderr[..]);
    assert_eq!(given, (1, expected.to_owned(), says), "{words}");
}

/// Checks the line of JSON of a run, and its exit status.
fn told(words: &str, status: i32, expected: &str) {
    let answer = line(&format!("{words} --json"));
    let given = (answer.status, answer.text(), &answer.stderr[..]);
    assert_eq!(given, (status, expected.to_owned() + "\n", ""), "{words}");
}

/// Neither reading has half of each shelf.
#[test]
fn each_shelf_from_the_reading_that_has_more_of_it() {
    let image = rack("two");
    let one = gaps("two-gaps-1", "C:0-4 0:1");
    let other = gaps("two-gaps-2", "C:6 1:0-2");
    for gaps in [one, other] {
        assert_eq!(line(&format!("recover 2 3 3 {image} {gaps}")).status, 1);
    }
    let words = format!("2 3 3 {image} {one} --and {image} {other}");
    taken(&format!("recover {words}"), RECORDS);
    let records = "[[1,200,412],[2,200,350],[0,0,0],[0,0,0]]";
    let json = format!("{{\"number\":0,\"name\":\"taken\",\"shelf\":null,\"records\":{records}}}");
    told(&format!("recover {words}"), 0, &json);
    let drawn = "     C     all 4 records            22222#1#                           3, 7 of 8      2      4
     1     writes 0 to 1            111#                               4, 1 of 4      1      2
     0     write 2                  #2                                 1, 2 of 2      2      1
";
    taken(
        &format!("explain {words}"),
        &[HEADING, drawn, LEGEND, ORIGINS].concat(),
    );
    let json = "{\"number\":0,\"name\":\"taken\",\"shelf\":null,\"counts\":[\
                {\"shelf\":\"C\",\"left\":[3,7],\"needed\":4,\"shortfall\":[1,0],\"from\":2,\"differ\":[]},\
                {\"shelf\":\"1\",\"left\":[4,1],\"needed\":2,\"shortfall\":[0,1],\"from\":1,\"differ\":[]},\
                {\"shelf\":\"0\",\"left\":[1,2],\"needed\":1,\"shortfall\":[0,0],\"from\":2,\"differ\":[]}\
                ],";
    told(
        &format!("explain {words}"),
        0,
        &[json, ORIGINS_JSON].concat(),
    );
}

/// Record 0 comes from shelf 1, which one reading has, and record 1 from shelf 0, which the other
/// has. What stands in the gaps is wrong.
#[test]
fn origins_from_shelves_of_both_readings() {
    let one = changed("two-origins-1", &[128, 132, 136, 140, 144, 148, 152, 156]);
    let other = changed("two-origins-2", &[0, 160, 176, 192]);
    let one = format!("{one} {}", gaps("two-origins-gaps-1", "0:0-1"));
    let other = format!("{other} {}", gaps("two-origins-gaps-2", "C:0 1:0-2"));
    let drawn = "     C     all 4 records            1#######                           8, 7 of 8      1      4
     1     writes 0 to 1            111#                               4, 1 of 4      1      2
     0     write 2                  22                                 0, 2 of 2      2      1
";
    taken(
        &format!("explain 2 3 3 {one} --and {other}"),
        &[HEADING, drawn, LEGEND, ORIGINS].concat(),
    );
    let drawn = "     C     all 4 records            2#######                           7, 8 of 8      2      4
     1     writes 0 to 1            222#                               1, 4 of 4      2      2
     0     write 2                  11                                 2, 0 of 2      1      1
";
    taken(
        &format!("explain 2 3 3 {other} --and {one}"),
        &[HEADING, drawn, LEGEND, ORIGINS].concat(),
    );
}

/// Where each record came from is what it is with that reading alone.
#[test]
fn all_shelves_from_one_reading() {
    let image = rack("two-alone");
    let few = gaps("two-alone-few", "C:0-1 1:3");
    let many = gaps("two-alone-many", "C:1-4 0:0 1:0-1");
    let alone = line(&format!("explain 2 3 3 {image} {few}")).text();
    assert!(alone.ends_with(&("\n".to_owned() + ORIGINS)));
    let drawn = "     C     all 4 records            1.222###                           4, 6 of 8      2      4
     1     writes 0 to 1            22#1                               2, 3 of 4      2      2
     0     write 2                  2#                                 1, 2 of 2      2      1
";
    taken(
        &format!("explain 2 3 3 {image} {many} --and {image} {few}"),
        &[HEADING, drawn, LEGEND, ORIGINS].concat(),
    );
    let words = format!("2 3 3 {image} {few} --and {image} {many}");
    let drawn = "     C     all 4 records            2.111###                           6, 4 of 8      1      4
     1     writes 0 to 1            11#2                               3, 2 of 4      1      2
     0     write 2                  1#                                 2, 1 of 2      1      1
";
    taken(
        &format!("explain {words}"),
        &[HEADING, drawn, LEGEND, ORIGINS].concat(),
    );
    let json = "{\"number\":0,\"name\":\"taken\",\"shelf\":null,\"counts\":[\
                {\"shelf\":\"C\",\"left\":[6,4],\"needed\":4,\"shortfall\":[0,0],\"from\":1,\"differ\":[]},\
                {\"shelf\":\"1\",\"left\":[3,2],\"needed\":2,\"shortfall\":[0,0],\"from\":1,\"differ\":[]},\
                {\"shelf\":\"0\",\"left\":[2,1],\"needed\":1,\"shortfall\":[0,0],\"from\":1,\"differ\":[]}\
                ],";
    told(
        &format!("explain {words}"),
        0,
        &[json, ORIGINS_JSON].concat(),
    );
}

/// A gap list may be left out, or be '-', for either reading; options stand anywhere.
#[test]
fn without_gap_lists() {
    let image = rack("two-whole");
    let drawn = "     C     all 4 records            ########                           8, 8 of 8      1      4
     1     writes 0 to 1            ####                               4, 4 of 4      1      2
     0     write 2                  ##                                 2, 2 of 2      1      1
";
    let json = line(&format!("recover 2 3 3 {image} --json"));
    for words in [
        format!("2 3 3 {image} --and {image}"),
        format!("2 3 3 {image} - --and {image} -"),
        format!("2 3 3 {image} --and {image} -"),
    ] {
        taken(&format!("recover {words}"), RECORDS);
        let text = line(&format!("explain {words}")).text();
        assert!(text.starts_with(&[HEADING, drawn, LEGEND].concat()));
        assert_eq!(line(&format!("recover {words} --json")), json);
        assert_eq!(line(&format!("recover --json {words}")), json);
    }
    // What follows -- is the other reading's too.
    taken(&format!("recover 2 3 3 {image} --and -- {image}"), RECORDS);
    // The list belongs to the reading that it follows.
    let short = gaps("two-whole-gaps", "C:0-4");
    let words = [
        (format!("{image} {short} --and {image}"), "3, 8"),
        (format!("{image} --and {image} {short}"), "8, 3"),
    ];
    for (words, left) in words {
        let text = line(&format!("explain 2 3 3 {words}")).text();
        assert!(text.contains(&format!("   {left} of 8   ")), "{text}");
    }
}

const DIFFER: &str =
    "vault: refused 13 (readings differ): a position that is whole in both readings has another word in each\n";

#[test]
fn readings_that_differ() {
    let image = rack("two-differ-1");
    // Positions 0, 5 and 7 of shelf C, and 0 of shelf 0.
    let other = changed("two-differ-2", &[3, 80, 127, 134]);
    let one = gaps("two-differ-gaps-1", "C:0-4 0:1");
    let list = gaps("two-differ-gaps-2", "C:6 1:0-2");
    let words = format!("2 3 3 {image} {one} --and {other} {list}");
    refused(&format!("recover {words}"), "", DIFFER);
    let verdict = "{\"number\":13,\"name\":\"readings differ\",\"shelf\":null,";
    told(
        &format!("recover {words}"),
        1,
        &format!("{verdict}\"records\":[]}}"),
    );
    let drawn = "     C     all 4 records            22222!1!                           3, 7 of 8      -      4
     1     writes 0 to 1            111#                               4, 1 of 4      -      2
     0     write 2                  !2                                 1, 2 of 2      -      1
";
    let answer = "   The records do not come back: 13 (readings differ).
   Shelf C differs at 2 positions:
      C:5 C:7
   Shelf 0 differs at 1 position:
      0:0
";
    let text = [HEADING, drawn, LEGEND, answer].concat();
    refused(&format!("explain {words}"), &text, DIFFER);
    let counts = "\"counts\":[\
                  {\"shelf\":\"C\",\"left\":[3,7],\"needed\":4,\"shortfall\":[1,0],\"from\":null,\"differ\":[5,7]},\
                  {\"shelf\":\"1\",\"left\":[4,1],\"needed\":2,\"shortfall\":[0,1],\"from\":null,\"differ\":[]},\
                  {\"shelf\":\"0\",\"left\":[1,2],\"needed\":1,\"shortfall\":[0,0],\"from\":null,\"differ\":[0]}\
                  ],\"origins\":[]}";
    told(
        &format!("explain {words}"),
        1,
        &format!("{verdict}{counts}"),
    );
    // What is listed, in the gap list of the reading that has it wrong; position 0 of shelf C is wrong there too.
    let list = gaps("two-differ-gaps-3", "C:0 C:5-7 0:0 1:0-2");
    let words = format!("recover 2 3 3 {image} {one} --and {other} {list}");
    taken(&words, RECORDS);
}

/// Runs of positions, and more of them than a line has.
#[test]
fn many_positions_that_differ() {
    let image = image_file("two-many-1", 6, 1, &[&[5, 7]]);
    // Positions of 8 bytes: each third one, and 60 to 70.
    let mut other = bytes(image);
    for position in (0..50).step_by(3).chain(60..71) {
        other[8 * position + 1] ^= 4;
    }
    let other = file("two-many-2", &other);
    let list = file("two-many-gaps", &line("gaps 6 1 C:3 C:66 C:100-127").stdout);
    let text = "   shelf   holds                    positions (legend below)           left in 1, 2      from   needed
     C     all 64 records           !##1##!##!##!##!##!##!##!##!##!#   128,  98 of 128   -       64
                               32   #!##!##!##!##!##!###########!!!!
                               64   !!1!!!!#########################
                               96   ####1111111111111111111111111111
     5     empty
     4     empty
     3     empty
     2     empty
     1     empty
     0     write 0                  ##                                   2,   2 of   2   -        1

   # the same in both readings, ! another in each, 1 or 2 in that reading alone, . lost in both

   The records do not come back: 13 (readings differ).
   Shelf C differs at 26 positions:
      C:0 C:6 C:9 C:12 C:15 C:18 C:21 C:24
      C:27 C:30 C:33 C:36 C:39 C:42 C:45 C:48
      C:60-65 C:67-70
";
    refused(
        &format!("explain 6 1 1 {image} --and {other} {list}"),
        text,
        DIFFER,
    );
}

/// Positions of one shelf are never taken from both readings.
#[test]
fn too_few_in_both() {
    let image = rack("two-short");
    let one = gaps("two-short-gaps-1", "C:0-4 1:1 0:0-1");
    let other = gaps("two-short-gaps-2", "C:3-7 1:1-3 0:0-1");
    let words = format!("2 3 3 {image} {one} --and {image} {other}");
    let says =
        "vault: refused 7 (too few) on shelf C: fewer than half of the shelf's positions survive\n";
    refused(&format!("recover {words}"), "", says);
    let drawn = "     C     all 4 records            222..111                           3, 3 of 8      1      4: 1 too few
     1     writes 0 to 1            #.11                               3, 1 of 4      1      2
     0     write 2                  ..                                 0, 0 of 2      1      1: 1 too few
";
    let answer = "   The records do not come back: 7 (too few) on shelf C.
   Shelf C lacks 1 position in reading 1: any 1 of the 5 lost ones would be enough.
   Shelf 0 lacks 1 position in reading 1: any 1 of the 2 lost ones would be enough.
";
    let text = [HEADING, drawn, LEGEND, answer].concat();
    refused(&format!("explain {words}"), &text, says);
    let json = line(&format!("explain {words} --json"));
    let verdict = "{\"number\":7,\"name\":\"too few\",\"shelf\":\"C\",\"counts\":[{\"shelf\":\"C\",\"left\":[3,3],";
    assert!(json.text().starts_with(verdict) && json.text().ends_with("],\"origins\":[]}\n"));
    assert_eq!((json.status, &json.stderr[..]), (1, ""));
    // One position more in the second, and the shelf is taken from it.
    let more = gaps("two-short-gaps-3", "C:3-6 0:0-1 1:1-3");
    let answer = line(&format!("explain 2 3 3 {image} {one} --and {image} {more}"));
    let shelf = "     C     all 4 records            222..11#                           3, 4 of 8      2      4\n";
    let short = "\n   The records do not come back: 7 (too few) on shelf 0.
   Shelf 0 lacks 1 position in reading 1: any 1 of the 2 lost ones would be enough.\n";
    assert!(
        answer.text().contains(shelf) && answer.text().ends_with(short),
        "{answer:?}"
    );
}

/// A word is wrong where the other reading has lost it: the reading that has more of the shelf is asked, and no other.
#[test]
fn a_wrong_word_in_one_reading() {
    let image = rack("two-wrong-1");
    let wrong = changed("two-wrong-2", &[0]);
    let lost = gaps("two-wrong-gaps", "C:0-1");
    let says = "vault: refused 9 (discord) on shelf C: the surviving words do not fit together: at least one of them was changed\n";
    let words = format!("2 3 3 {image} {lost} --and {wrong}");
    refused(&format!("recover {words}"), "", says);
    let drawn = "     C     all 4 records            22######                           6, 8 of 8      2      4
     1     writes 0 to 1            ####                               4, 4 of 4      1      2
     0     write 2                  ##                                 2, 2 of 2      1      1
";
    let answer = "   The records do not come back: 9 (discord) on shelf C.\n";
    let text = [HEADING, drawn, LEGEND, answer].concat();
    refused(&format!("explain {words}"), &text, says);
    let last = gaps("two-wrong-gaps-2", "C:6-7");
    let words = format!("recover 2 3 3 {image} {lost} --and {wrong} {last}");
    taken(&words, RECORDS);
}

/// 1 to 3 print nothing but the refusal, and 2 of either reading goes before 3 of either.
#[test]
fn plate_length_and_gap_list() {
    let image = rack("two-refused");
    let short = file("two-refused-short", &bytes(image)[1..]);
    let bad = file("two-refused-gaps", &[1]);
    for (words, number, name) in [
        (format!("2 3 4 {image} --and {short} {bad}"), 1, "plate"),
        (format!("2 3 3 {image} {bad} --and {short}"), 2, "length"),
        (format!("2 3 3 {short} --and {image} {bad}"), 2, "length"),
        (format!("2 3 3 {image} --and /dev/zero"), 2, "length"),
        (format!("2 3 3 {image} --and {image} {bad}"), 3, "gap list"),
        (format!("2 3 3 {image} {bad} --and {image}"), 3, "gap list"),
        (
            format!("2 3 3 {image} --and {image} /dev/zero"),
            3,
            "gap list",
        ),
    ] {
        let start = format!("vault: refused {number} ({name}): ");
        let verdict = format!("{{\"number\":{number},\"name\":\"{name}\",\"shelf\":null,");
        for (command, keys) in [
            ("recover", "\"records\":[]}"),
            ("explain", "\"counts\":[],\"origins\":[]}"),
        ] {
            let words = format!("{command} {words}");
            let answer = line(&words);
            assert_eq!((answer.status, &answer.stdout[..]), (1, &[][..]));
            assert!(answer.stderr.starts_with(&start), "{words}: {answer:?}");
            told(&words, 1, &format!("{verdict}{keys}"));
        }
    }
}

/// With the same reading twice it is recovery from that one.
#[test]
fn the_same_reading_twice() {
    let image = rack("two-same");
    for positions in ["C:0", "C:0-3 1:1-2", "C:0-4", "1:0-2", "0:0-1 C:5"] {
        let gaps = gaps("two-same-gaps", positions);
        let words = format!("2 3 3 {image} {gaps}");
        for json in ["", " --json"] {
            let alone = line(&format!("recover {words}{json}"));
            let twice = line(&format!("recover {words} --and {image} {gaps}{json}"));
            assert_eq!(alone, twice);
        }
        let alone = line(&format!("explain {words}"));
        let twice = line(&format!("explain {words} --and {image} {gaps}"));
        assert_eq!((alone.status, &alone.stderr), (twice.status, &twice.stderr));
        let origins = |answer: &Answer| {
            answer
                .text()
                .split_once("   record ")
                .map(|two| two.1.to_owned())
        };
        assert_eq!(origins(&alone), origins(&twice));
    }
}
