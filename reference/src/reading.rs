//! Reading: a record as a part of the raw buffer.
use crate::header::Header;
use crate::record::is_struck;
use crate::refusal::{number, test, Refusal};

/// The number, and the record; an empty part where the reading is refused.
pub fn read(header: Header, raw: &[u32], record: u32) -> (u32, &[u32]) {
    let part = part(header, raw, record);
    (number(&part), part.unwrap_or(&[]))
}

/// Tests 1, 2, 4 and 14; the record where none applies.
fn part(header: Header, raw: &[u32], record: u32) -> Result<&[u32], Refusal> {
    header.test()?;
    test(raw.len() == header.raw_len(), Refusal::Length)?;
    test((record as usize) < header.records(), Refusal::Record)?;
    let start = record as usize * header.data();
    let part = &raw[start..start + header.data()];
    test(!is_struck(part), Refusal::Struck)?;
    Ok(part)
}

#[cfg(test)]
mod tests {
    use super::*;

    /// Record 1 of k = 1, s = 2, of these words.
    fn second(words: [u32; 2]) -> (u32, Vec<u32>) {
        let raw = [65536, 65536, words[0], words[1]];
        let header = Header { k: 1, s: 2, c: 1 };
        let (number, part) = read(header, &raw, 1);
        (number, part.to_vec())
    }

    #[test]
    fn each_word_is_exactly_65536() {
        assert_eq!(second([65536, 65536]), (14, vec![]));
        for words in [
            [65536, 0],
            [0, 65536],
            [65536, 131_073],
            [131_073, 131_073],
            [65537, 65537],
            [u32::MAX, 65536],
        ] {
            assert_eq!(second(words), (0, words.to_vec()));
        }
    }

    #[test]
    fn a_record_that_there_is_not_is_no_struck_one() {
        let header = Header { k: 1, s: 1, c: 0 };
        let raw = [65536; 3];
        assert_eq!(read(header, &raw[..2], 0).0, 14);
        for record in [2, u32::MAX] {
            assert_eq!(read(header, &raw[..2], record).0, 4);
        }
        assert_eq!(read(header, &raw, 0).0, 2);
        assert_eq!(read(Header { c: 2, ..header }, &raw[..2], 0).0, 1);
    }
}
