//! The line `back` of `image --text`: it takes back the last write of the round, again and again, and is refused at the round's start.
use crate::program::{file, line, vault, writes, Answer};
use random::Random;

fn text(k: u32, lines: &str) -> Answer {
    vault(["image", &k.to_string(), "3", "--text"], lines.as_bytes())
}

/// Checks that lines make the rack that other lines make.
fn same(k: u32, lines: &str, others: &str) {
    let answer = text(k, lines);
    assert_eq!(answer.status, 0, "{lines:?}: {answer:?}");
    assert!(answer == text(k, others), "{lines:?}: {answer:?}");
}

#[test]
fn a_write_in_the_middle_is_taken_back() {
    same(2, "0 1 2 3\nback\n", "");
    same(2, "0 1 2 3\n3 4 5 6\nback\n2 4 5 6\n", "0 1 2 3\n2 4 5 6\n");
    // To a record that the round has written before: it has its write before again.
    same(2, "0 1 2 3\n1 4 5 6\n0 7 8 9\nback\n", "0 1 2 3\n1 4 5 6\n");
    let answer = text(2, "0 1 2 3\n1 4 5 6\n0 7 8 9\nback\n");
    assert_eq!(answer.stderr, "plate 2 3 2\n");
    let image = file("taken-back", &answer.stdout);
    let records = line(&format!("recover 2 3 2 {image}")).text();
    assert_eq!(records, "0 1 2 3\n1 4 5 6\n2 0 0 0\n3 0 0 0\n");
}

#[test]
fn several_in_a_row() {
    let three = "0 1 2 3\n1 4 5 6\n0 7 8 9\n";
    same(2, &format!("{three}back\nback\n"), "0 1 2 3\n");
    same(2, &format!("{three}back\nback\nback\n"), "");
    same(
        2,
        &format!("{three}back\nback\n3 9 9 9\nback\n1 4 5 6\n"),
        "0 1 2 3\n1 4 5 6\n",
    );
    // All writes of a round but its last: every level is taken apart.
    let all: String = (0..15).map(|i| format!("{i} {i} 7 {}\n", i + 1)).collect();
    for left in 0..15 {
        let kept: String = all.split_inclusive('\n').take(left).collect();
        same(4, &(all.clone() + &"back\n".repeat(15 - left)), &kept);
    }
}

/// Spaces, empty lines, other ends of lines, and none.
#[test]
fn as_a_line_of_text() {
    for back in ["back", "  back\t\r\n", "\n\n back \n\n", "back\r\n\r\n"] {
        same(2, &format!("0 1 2 3\n1 4 5 6\n{back}"), "0 1 2 3\n");
    }
}

/// Checks that a `back` is refused at a line, with nothing on standard output.
fn refused(k: u32, lines: &str, place: u32) {
    let answer = text(k, lines);
    let says = format!(
        "vault: refused 12 (round start) at line {place}: this round has no write to take back\n"
    );
    let given = (answer.status, &answer.stdout[..], &answer.stderr[..]);
    assert_eq!(given, (1, &[][..], &says[..]), "{lines:?}");
}

#[test]
fn nothing_to_take_back_at_a_round_s_start() {
    refused(2, "back\n", 1);
    refused(2, "\n\nback", 3);
    refused(2, "0 1 2 3\nback\n\nback\n1 4 5 6\n", 4);
    refused(2, "0 1 2 3\n1 4 5 6\nback\nback\nback\n4 x\n", 5);
}

/// The write that ends a round stays; those after it are taken back as any others.
#[test]
fn after_a_round_s_end() {
    let round = "0 1 2 3\n1 4 5 6\n2 7 8 9\n0 1 1 1\n";
    refused(2, &format!("{round}back\n"), 5);
    refused(2, &format!("{round}3 1 1 1\nback\nback\n"), 7);
    same(2, &format!("{round}3 1 1 1\nback\n"), round);
    // A write that was taken back is none of the round's: the fourth that is left ends it.
    same(2, &format!("3 9 9 9\nback\n{round}"), round);
}

/// Writes and takings-back in any order make the rack of the writes that are left, or the first `back` at a round's start is named.
#[test]
fn any_order() {
    let mut random = Random::new(5);
    for _ in 0..60 {
        let (mut lines, mut left, mut round) = (String::new(), Vec::new(), 0);
        let mut refusal = None;
        for place in 1..random.index(30) {
            if random.below(3) > 0 {
                let sheet = format!("{} {place} 0 {}\n", random.below(4), random.below(9));
                lines += &sheet;
                left.push(sheet);
                round = (round + 1) % 4;
            } else {
                lines += "back\n";
                if round == 0 {
                    refusal = Some(place as u32);
                    break;
                }
                left.pop();
                round -= 1;
            }
        }
        match refusal {
            Some(place) => refused(2, &lines, place),
            None => same(2, &lines, &left.concat()),
        }
    }
}

/// A write that is refused has its place among all writes, those taken back too.
#[test]
fn places_of_the_writes_that_follow() {
    let says = |lines: &str, says: &str| {
        let answer = text(2, lines);
        assert!(answer.stderr.contains(says), "{says}: {answer:?}");
        assert_eq!(answer.stdout, []);
        answer.status
    };
    let blank = "refused 11 (blank) at write 2, line 4: ";
    assert_eq!(says("0 1 2 3\n1 4 5 6\nback\n1 0 0 0\n", blank), 1);
    let number = "a number of write 1, line 3, is \"x\"";
    assert_eq!(says("0 1 2 3\nback\nx\n", number), 2);
}

#[test]
fn back_stands_alone() {
    for (lines, says) in [
        ("0 1 2 3\nback 1\n", "line 2: 'back' stands alone"),
        ("\nback back\n", "line 2: 'back' stands alone"),
        ("Back\n", "a number of write 0, line 1, is \"Back\""),
        ("0 back\n", "a number of write 0, line 1, is \"back\""),
    ] {
        let answer = text(2, lines);
        let given = (answer.status, &answer.stdout[..]);
        assert_eq!(given, (2, &[][..]), "{lines:?}");
        assert!(answer.stderr.contains(says), "{says}: {answer:?}");
    }
}

/// In bytes there is no such word: its four letters are a write of one word to a record far out.
#[test]
fn bytes_have_no_taking_back() {
    let answer = vault(["image", "2", "1"], b"back");
    let number = u16::from_le_bytes(*b"ba");
    let word = u16::from_le_bytes(*b"ck");
    assert!(answer == vault(["image", "2", "1"], &writes(&[&[number, word]])));
    let says = "vault: refused 4 (record) at write 0: ";
    assert!(answer.stderr.starts_with(says), "{answer:?}");
}
