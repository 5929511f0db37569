//! Each command where it is taken.
use crate::program::{bytes, file, image_file, line, numbers, vault, writes};
use random::Random;
use std::fs;

/// The writes of racklist's example in docs/FORMAT.md, and its lines.
const WRITES: [&[u16]; 3] = [&[0, 1], &[1, 2], &[2, 3]];
const LINES: &str = "C 0 6 0\nC 1 255 0\nC 2 65533 0\nC 3 65280 0\nC 4 7984 0\nC 5 12576 0\nC 6 57041 0\nC 7 53473 0\n\
                     0 0 2 3\n0 1 8192 12288\n1 0 1 3\n1 1 65536 65536\n1 2 65281 65026\n1 3 256 513\n";

#[test]
fn image_and_list_are_racklist() {
    let answer = vault(["image", "2", "1"], &writes(&WRITES));
    assert_eq!((answer.status, &answer.stderr[..]), (0, "plate 2 1 3\n"));
    assert_eq!(answer.stdout.len(), 112);
    let image = file("racklist", &answer.stdout);
    let listed = line(&format!("list 2 1 3 {image}"));
    assert_eq!((listed.status, listed.text()), (0, LINES.to_owned()));
    let text = vault(["image", "--text", "2", "1"], b"0 1\n\n  1\t2\r\n2 3");
    assert_eq!(text, answer);
}

#[test]
fn image_of_no_writes_of_a_round_and_of_the_largest_vault() {
    let empty = line("image 2 1");
    assert_eq!((empty.status, &empty.stderr[..]), (0, "plate 2 1 0\n"));
    let round = vault(["image", "1", "1"], &writes(&[&[0, 7], &[1, 8]]));
    assert_eq!((round.status, &round.stderr[..]), (0, "plate 1 1 0\n"));
    let records = line(&format!("recover 1 1 0 {}", file("round", &round.stdout)));
    assert_eq!(records.text(), "0 7\n1 8\n");
}

#[test]
fn the_largest_vault() {
    // Three writes to record 257, whose words are all 257.
    let made = vault(["image", "10", "128"], &[1; 3 * 2 * 129]);
    assert_eq!(
        (made.stdout.len(), &made.stderr[..]),
        (2_112_504, "plate 10 128 3\n")
    );
    let image = file("largest", &made.stdout);
    let listed = line(&format!("list 10 128 3 {image}"));
    assert_eq!(listed.text().lines().count(), 2048 + 2 + 4);
    let gaps = line("gaps 10 128 C:512-1535 0:0 1:1-2");
    let gaps = file("largest-gaps", &gaps.stdout);
    let records = line(&format!("recover 10 128 3 {image} {gaps}"));
    let expected =
        (0..1024).map(|i| format!("{i}{}\n", [" 0", " 257"][usize::from(i == 257)].repeat(128)));
    assert_eq!(records.text(), expected.collect::<String>());
}

#[test]
fn recover_with_and_without_gaps() {
    let image = image_file("whole", 2, 1, &WRITES);
    let expected = "0 1\n1 2\n2 3\n3 0\n";
    for gaps in ["", " -", &format!(" {}", file("none", &[]))] {
        let answer = line(&format!("recover 2 1 3 {image}{gaps}"));
        assert_eq!((answer.status, answer.text()), (0, expected.to_owned()));
        assert_eq!(answer.stderr, "");
    }
    let json = line(&format!("recover 2 1 3 {image} --json"));
    let expected =
        "{\"number\":0,\"name\":\"taken\",\"shelf\":null,\"records\":[[1],[2],[3],[0]]}\n";
    assert_eq!((json.status, json.text()), (0, expected.to_owned()));
    assert_eq!(line(&format!("recover --json 2 1 3 {image} -")), json);
}

/// The rack of README.md: the last of three writes is to the same record as the one before.
fn rack(name: &str) -> &str {
    let made = vault(
        ["image", "2", "3", "--text"],
        b"0 1 200 412\n1 2 200 305\n1 2 200 350\n",
    );
    assert_eq!((made.status, &made.stderr[..]), (0, "plate 2 3 3\n"));
    file(name, &made.stdout)
}

#[test]
fn explain_a_rack_that_comes_back() {
    let image = rack("explained");
    let gaps = line("gaps 2 3 C:0-3 0:1 1:0 1:2").stdout;
    let gaps = file("explained-gaps", &gaps);
    let answer = line(&format!("explain 2 3 3 {image} {gaps}"));
    let origins = "
   All 4 records come back, each from its last write in the round, or from shelf C.

   record   shelf   write
        0       1       0
        1       0       2
        2       C
        3       C
";
    let half =
        "   shelf   holds                    positions (# read, . lost)         left     needed
     C     all 4 records            ....####                           4 of 8   4: just enough
     1     writes 0 to 1            .#.#                               2 of 4   2: just enough
     0     write 2                  #.                                 1 of 2   1: just enough
";
    assert_eq!(
        (answer.status, answer.text(), &answer.stderr[..]),
        (0, half.to_owned() + origins, "")
    );
    let whole =
        "   shelf   holds                    positions (# read, . lost)         left     needed
     C     all 4 records            ########                           8 of 8   4
     1     writes 0 to 1            ####                               4 of 4   2
     0     write 2                  ##                                 2 of 2   1
";
    for gaps in ["", " -", &format!(" {}", file("explained-none", &[]))] {
        let answer = line(&format!("explain 2 3 3 {image}{gaps}"));
        assert_eq!(
            (answer.status, answer.text()),
            (0, whole.to_owned() + origins)
        );
    }
    // Before the last write level 0 was empty, and record 1 had the write before.
    let before = line(&format!("explain 2 3 2 {image}")).text();
    assert!(
        before.contains("\n     0     empty\n") && before.contains("\n        1       1       1\n")
    );
}

#[test]
fn explain_as_json() {
    let image = rack("explained-json");
    let gaps = line("gaps 2 3 C:0-3 0:1 1:0 1:2").stdout;
    let gaps = file("explained-json-gaps", &gaps);
    let json = line(&format!("explain 2 3 3 {image} {gaps} --json"));
    let expected = "{\"number\":0,\"name\":\"taken\",\"shelf\":null,\"counts\":[\
                    {\"shelf\":\"C\",\"left\":4,\"needed\":4,\"shortfall\":0},\
                    {\"shelf\":\"1\",\"left\":2,\"needed\":2,\"shortfall\":0},\
                    {\"shelf\":\"0\",\"left\":1,\"needed\":1,\"shortfall\":0}],\"origins\":[\
                    {\"shelf\":\"1\",\"write\":0},{\"shelf\":\"0\",\"write\":2},\
                    {\"shelf\":\"C\",\"write\":null},{\"shelf\":\"C\",\"write\":null}]}\n";
    assert_eq!(
        (json.status, json.text(), &json.stderr[..]),
        (0, expected.to_owned(), "")
    );
    assert_eq!(line(&format!("explain --json 2 3 3 {image} {gaps}")), json);
}

#[test]
fn a_long_shelf_is_drawn_in_lines() {
    let image = image_file("long", 6, 1, &[&[5, 7]]);
    let gaps = line("gaps 6 1 C:31-33 C:127 5:0").stdout;
    let gaps = file("long-gaps", &gaps);
    let answer = line(&format!("explain 6 1 1 {image} {gaps}"));
    let lines =
        "   shelf   holds                    positions (# read, . lost)         left         needed
     C     all 64 records           ###############################.   124 of 128    64
                               32   ..##############################
                               64   ################################
                               96   ###############################.
     5     empty
     4     empty
     3     empty
     2     empty
     1     empty
     0     write 0                  ##                                   2 of   2     1

   All 64 records come back, each from its last write in the round, or from shelf C.

   record   shelf   write
        0       C
        1       C
        2       C
        3       C
        4       C
        5       0       0
        6       C
";
    assert_eq!(answer.status, 0);
    assert!(answer.text().starts_with(lines), "{}", answer.text());
    assert_eq!(answer.text().lines().count(), 15 + 64);
}

#[test]
fn decode_each_shelf() {
    let image = image_file("shelves", 2, 1, &WRITES);
    let shelf = |shelf: &str| line(&format!("decode 2 1 3 {image} - {shelf}")).text();
    assert_eq!(shelf("0"), "2 3\n");
    assert_eq!(shelf("1"), "0 1\n1 2\n");
    assert_eq!(shelf("C"), "0 0\n1 0\n2 0\n3 0\n");
    assert_eq!(shelf("2"), shelf("C"));
    let gaps = file("half-of-level-1", &numbers(&[80, 16]));
    let answer = line(&format!("decode 2 1 3 {image} {gaps} 1"));
    assert_eq!(answer.text(), "0 1\n1 2\n");
}

#[test]
fn gaps_are_sorted_and_joined() {
    // k = 2, s = 1: positions of 8 bytes, the full shelf at 0, level 0 at 64, level 1 at 80.
    let gaps = |positions: &str| {
        let answer = line(&format!("gaps 2 1 {positions}"));
        assert_eq!((answer.status, &answer.stderr[..]), (0, ""));
        answer.stdout
    };
    assert_eq!(gaps("C:0"), numbers(&[0, 8]));
    assert_eq!(gaps("C:2 C:0"), numbers(&[0, 8, 16, 8]));
    assert_eq!(gaps("C:2-3 C:0 C:1 C:1-2"), numbers(&[0, 32]));
    assert_eq!(gaps("1:3 0:0 2:7"), numbers(&[56, 16, 104, 8]));
    assert_eq!(gaps("C:0-7 0:0-1 1:0-3"), numbers(&[0, 112]));
    let answer = line("gaps 2 1 -o gaps-by-name C:5 0:1");
    assert_eq!((answer.status, answer.stdout), (0, Vec::new()));
    assert_eq!(bytes("gaps-by-name"), numbers(&[40, 8, 72, 8]));
}

/// Writes, an image, half of each needed shelf lost and overwritten, and the records are as last written.
#[test]
fn any_half_of_each_shelf_brings_the_records_back() {
    let mut random = Random::new(1);
    for _ in 0..25 {
        let (k, s) = (1 + random.index(5), 1 + random.index(4));
        let (input, book) = written(&mut random, 1 << k, s);
        let [kw, sw] = [k, s].map(|x| x.to_string());
        let made = vault(["image", &kw, &sw, "--text"], input.as_bytes());
        let plate: Vec<&str> = made.stderr.trim_end().split(' ').collect();
        let ["plate", _, _, c] = plate[..] else {
            panic!("{made:?}");
        };
        let mut words = vec!["gaps".to_owned(), kw, sw];
        words.extend(half(&mut random, k, c.parse().unwrap()));
        let gaps = vault(&words, &[]);
        let mut image = made.stdout;
        for pair in gaps.stdout.chunks(8) {
            let number =
                |at: usize| u32::from_le_bytes(pair[at..at + 4].try_into().unwrap()) as usize;
            let garbage = random.bytes(number(4));
            image[number(0)..number(0) + number(4)].copy_from_slice(&garbage);
        }
        let image = file("half", &image);
        let gaps = file("half-gaps", &gaps.stdout);
        let answer = line(&format!("recover {k} {s} {c} {image} {gaps}"));
        let lines = book.iter().enumerate();
        let lines = lines.map(|(i, sheet)| format!("{i} {}\n", spaced(sheet)));
        let expected = (0, lines.collect());
        assert_eq!((answer.status, answer.text()), expected, "{answer:?}");
        let explained = line(&format!("explain {k} {s} {c} {image} {gaps}"));
        let expected = origins(&input, c.parse().unwrap(), &book);
        assert_eq!(explained.status, 0);
        assert!(
            explained.text().ends_with(&expected),
            "{expected}{explained:?}"
        );
    }
}

/// The lines of each record's origin: the last write to it among the last c, which are the round's, and the level that holds this write.
fn origins(input: &str, c: usize, book: &[Vec<usize>]) -> String {
    let writes: Vec<&str> = input.lines().collect();
    let round = &writes[writes.len() - c..];
    let mut text = String::from("   record   shelf   write\n");
    for record in 0..book.len() {
        let start = format!("{record} ");
        let last = round.iter().rposition(|write| write.starts_with(&start));
        // The levels are the bits of c, and the highest holds the first writes.
        let holds = |write| (0..8).rev().find(|level| write >> level < c >> level);
        text += &match last.map(|write| (holds(write), write)) {
            Some((Some(level), write)) => format!("   {record:>6}   {level:>5}   {write:>5}\n"),
            _ => format!("   {record:>6}       C\n"),
        };
    }
    text
}

/// The lines of some writes, and the sheets that they leave.
fn written(random: &mut Random, n: usize, s: usize) -> (String, Vec<Vec<usize>>) {
    let mut book = vec![vec![0; s]; n];
    let mut input = String::new();
    for _ in 0..random.index(3 * n) {
        let record = random.index(n);
        // A word of its own at the end, so that no sheet is blank.
        let mut sheet: Vec<usize> = (1..s).map(|_| random.index(65536)).collect();
        sheet.push(1 + random.index(65535));
        input += &format!("{record} {}\n", spaced(&sheet));
        book[record] = sheet;
    }
    (input, book)
}

/// Half of the positions of each needed shelf, and all of an empty level, as the words of `vault gaps`.
fn half(random: &mut Random, k: usize, c: usize) -> Vec<String> {
    let mut lost = Vec::new();
    for shelf in 0..=k {
        let size = 1 << shelf;
        let full = shelf == k;
        let name = if full { "C".into() } else { shelf.to_string() };
        let needed = full || c & size != 0;
        let some = random.some(2 * size, if needed { size } else { 2 * size });
        lost.extend(some.iter().map(|position| format!("{name}:{position}")));
    }
    lost
}

fn spaced(words: &[usize]) -> String {
    let words: Vec<String> = words.iter().map(usize::to_string).collect();
    words.join(" ")
}

#[test]
fn table_of_powers() {
    let answer = line("table");
    assert_eq!((answer.status, &answer.stderr[..]), (0, ""));
    let text = answer.text();
    let powers: Vec<u64> = text.lines().map(|line| line.parse().unwrap()).collect();
    assert_eq!((powers.len(), &powers[..2]), (2048, &[1, 61869][..]));
    for pair in powers.windows(2) {
        assert_eq!(pair[1], pair[0] * 61869 % 65537);
    }
    assert_eq!([512, 256, 128].map(|i| powers[i]), [65281, 4096, 64]);
    let lines = powers.iter().map(|power| format!("{power}\n"));
    assert!(text == lines.collect::<String>(), "{text}");
}

/// `rt ci` holds what the proved generator prints to the file.
#[test]
fn table_is_what_the_generator_prints() {
    let stored = concat!(
        env!("CARGO_MANIFEST_DIR"),
        "/../../crates/print_powers/stdout"
    );
    let printed = fs::read_to_string(stored).unwrap_or_else(|error| panic!("{stored}: {error}"));
    let text = line("table").text();
    let differs = |pair: &(&str, &str)| pair.0 != pair.1;
    let first = text.lines().zip(printed.lines()).find(differs);
    assert!(text == printed, "the first lines that differ: {first:?}");
}

#[test]
fn demo_is_the_same_for_a_seed() {
    let answer = line("demo --seed 7");
    let text = answer.text();
    assert_eq!((answer.status, &answer.stderr[..]), (0, ""));
    assert!(
        text.contains("(seed 7)")
            && text.contains("16 of 16 records are as they were last written")
    );
    // After the recovery from one reading, and after that from two.
    assert_eq!(text.matches(" 16 of 16 records are as").count(), 2);
    assert!(text.contains("refused 7 (too few) on shelf ") && !text.contains("DIFFERENT"));
    assert!(text.contains("\n   refused 11 (blank): "));
    // After the blank sheet, and after the one that is taken back.
    let unchanged = "\n   992 of 992 bytes of the rack are as they were.\n";
    assert_eq!(text.matches(unchanged).count(), 2);
    for step in [
        "1. THE RACK. ",
        "2. THE PROBE. ",
        "3. THE WRONG RECORD. ",
        "4. THE STRIKE. ",
        "5. THE LOSS. ",
        "6. THE RECOVERY. ",
        "7. ONE POSITION MORE. ",
        "8. ANOTHER READER. ",
    ] {
        assert!(text.contains(&format!("\n\n{step}")), "{step}");
    }
    assert!(text.contains(" lacks 1 position: any 1 of the "));
    assert!(text.is_ascii() && text.lines().all(|line| line.len() <= 100));
    assert_eq!(line("demo --seed 7").text(), text);
    assert_ne!(line("demo --seed 8").text(), text);
    assert_eq!(line("demo").status, 0);
}

/// What records hold before and after they are keyed, taken back and struck; the struck one comes back as struck.
#[test]
fn demo_tells_of_records() {
    let text = line("demo --seed 7").text();
    for (when, record) in [
        ("before    ", "     2      3    400     268       13"),
        ("keyed     ", "     2     13   1800      11       14"),
        ("taken back", "     2      3    400     268       13"),
        ("before    ", "    15     16      0       4       13"),
        ("struck    ", "    15   struck                    14"),
    ] {
        let row = format!("\n   {when}   {record}\n");
        assert!(text.contains(&row), "{row}");
    }
    let back =
        "\n       15   today       struck                  struck                    1      13   same\n";
    assert!(text.contains(back), "{text}");
}

#[test]
fn help_of_everything() {
    let overview = line("--help");
    assert_eq!((overview.status, &overview.stderr[..]), (0, ""));
    assert_eq!(line("-h"), overview);
    for command in [
        "demo", "image", "gaps", "recover", "explain", "decode", "list", "table",
    ] {
        assert!(overview.text().contains(&format!("\n  {command} ")));
        let help = line(&format!("{command} --help"));
        let text = help.text();
        let first: Vec<&str> = text.split_whitespace().take(3).collect();
        assert_eq!(first, ["usage:", "vault", command]);
        assert_eq!((help.status, &help.stderr[..]), (0, ""));
        assert_eq!(line(&format!("{command} 1 x --none -h")), help);
        assert!(help.text().lines().all(|line| line.len() <= 100));
        // What stands in columns is set in.
        let columns = |line: &&str| line.contains("  ");
        assert!(help
            .text()
            .lines()
            .filter(columns)
            .all(|line| line.starts_with(' ')));
    }
}
