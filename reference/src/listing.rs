//! The listing that the program `racklist` prints.
use crate::header::Header;
use crate::opening::open;
use crate::refusal::{number, test, Refusal};
use crate::writing::write;
use std::fmt::Write;

/// What is not read: all that follows write 256.
const WRITES: usize = 256;

/// What is printed for an input.
pub fn list(input: &[u8]) -> String {
    let listed = listing(input);
    let refused = format!("refused {}\n", number(&listed));
    listed.unwrap_or(refused)
}

fn listing(input: &[u8]) -> Result<String, Refusal> {
    test(input.len() >= 2, Refusal::Length)?;
    let (k, s) = (u32::from(input[0]), u32::from(input[1]));
    test(
        (1..=5).contains(&k) && (1..=16).contains(&s),
        Refusal::Header,
    )?;
    let mut header = Header { k, s, c: 0 };
    let mut raw = vec![0; header.raw_len()];
    let mut full = vec![0; header.full_len()];
    let mut log = vec![0; header.log_len()];
    assert_eq!(open(k, s, &raw, &mut full, &mut log), (0, header));
    for bytes in input[2..].chunks(2 * header.width()).take(WRITES) {
        test(bytes.len() == 2 * header.width(), Refusal::Length)?;
        let pair = |b: &[u8]| u32::from(b[0]) + 256 * u32::from(b[1]);
        let words: Vec<u32> = bytes.chunks(2).map(pair).collect();
        let answer = write(header, &mut raw, &mut full, &mut log, words[0], &words[1..]);
        test(answer.0 != Refusal::Record as u32, Refusal::Record)?;
        test(answer.0 != Refusal::Blank as u32, Refusal::Blank)?;
        // Nothing else can be wrong with a whole write: words of 2 bytes are data words.
        assert_eq!(answer.0, 0);
        header = answer.1;
    }
    let mut text = String::new();
    add_lines(&mut text, "C", header, &full);
    for level in (0..k).filter(|&level| header.filled(level)) {
        let part = &log[header.level_start(level)..header.level_start(level + 1)];
        add_lines(&mut text, &level.to_string(), header, part);
    }
    Ok(text)
}

/// A line for each position: stripe, position, and its words.
fn add_lines(text: &mut String, stripe: &str, header: Header, words: &[u32]) {
    for (position, row) in words.chunks(header.width()).enumerate() {
        write!(text, "{stripe} {position}").unwrap();
        for word in row {
            write!(text, " {word}").unwrap();
        }
        text.push('\n');
    }
}

#[cfg(test)]
mod tests {
    use super::list;

    #[test]
    fn the_specification_s_example() {
        let input = [2, 1, 0, 0, 1, 0, 1, 0, 2, 0, 2, 0, 3, 0];
        let expected = "C 0 6 0\nC 1 255 0\nC 2 65533 0\nC 3 65280 0\nC 4 7984 0\nC 5 12576 0\nC 6 57041 0\nC 7 53473 0\n\
             0 0 2 3\n0 1 8192 12288\n1 0 1 3\n1 1 65536 65536\n1 2 65281 65026\n1 3 256 513\n";
        assert_eq!(list(&input), expected);
    }

    #[test]
    fn refusals_in_input_order() {
        assert_eq!(list(&[]), "refused 2\n");
        assert_eq!(list(&[0]), "refused 2\n");
        assert_eq!(list(&[0, 1]), "refused 1\n");
        assert_eq!(list(&[6, 1]), "refused 1\n");
        assert_eq!(list(&[5, 17]), "refused 1\n");
        // A write is judged once all its bytes are in.
        assert_eq!(list(&[1, 1, 2, 0, 0]), "refused 2\n");
        assert_eq!(list(&[1, 1, 2, 0, 0, 0]), "refused 4\n");
        assert_eq!(list(&[1, 1, 0, 1, 0, 0, 1]), "refused 4\n");
    }

    #[test]
    fn blank_writes_are_refused_in_input_order() {
        assert_eq!(list(&[1, 1, 1, 0, 0, 0]), "refused 11\n");
        // One that is cut short, before one with a bad record number, and after one.
        assert_eq!(list(&[1, 1, 1, 0, 0]), "refused 2\n");
        assert_eq!(list(&[1, 1, 1, 0, 0, 0, 2, 0, 1, 0]), "refused 11\n");
        assert_eq!(list(&[1, 1, 2, 0, 1, 0, 1, 0, 0, 0]), "refused 4\n");
        // Every byte of a word counts, and every word of a block.
        for at in 4..8 {
            let mut input = [1, 2, 1, 0, 0, 0, 0, 0];
            assert_eq!(list(&input), "refused 11\n");
            input[at] = 1;
            assert!(list(&input).starts_with("C 0 "));
        }
    }

    #[test]
    fn what_follows_write_256_is_not_read() {
        let mut input = vec![1, 1];
        for i in 0..256u32 {
            input.extend([i as u8 % 2, 0, i as u8, 1]);
        }
        let text = list(&input);
        assert!(text.starts_with("C 0 "));
        input.extend([9, 9, 9]);
        assert_eq!(list(&input), text);
        // Write 257 is blank, and write 256.
        input.truncate(2 + 4 * 256);
        input.extend([0; 4]);
        assert_eq!(list(&input), text);
        input[2 + 4 * 255..].fill(0);
        assert_eq!(list(&input), "refused 11\n");
    }
}
