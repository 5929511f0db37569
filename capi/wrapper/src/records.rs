//! Records (docs/FORMAT.md; sheets to users) as values: what one holds, and all that a recovery gave.
use crate::Header;

/// What stands in the place of each data word of a struck record, in the raw records, in blocks and in what recovery gives. No data word is it.
pub const STRUCK_WORD: u32 = vault_sys::VAULT_STRUCK_WORD;

/// What a record holds. That it is struck is an answer as its words are, and no refusal: of all that happened to it, a strike came last.
#[derive(Clone, Copy, Debug, PartialEq, Eq)]
pub enum Record<'a> {
    /// Its data words, s of them.
    Words(&'a [u32]),
    /// None: it was struck, and not written since.
    Struck,
}

impl<'a> Record<'a> {
    /// The record that s words stand for, be they raw, of a block without its number, or recovered: it is struck where all of them are exactly
    /// [`STRUCK_WORD`], a single one too, if s is 1. No record has no words, and so an empty slice is none that is struck.
    ///
    /// ```
    /// use vault_library::{Record, STRUCK_WORD};
    ///
    /// assert_eq!(Record::of(&[STRUCK_WORD; 3]), Record::Struck);
    /// assert_eq!(Record::of(&[0, 0, 7]), Record::Words(&[0, 0, 7]));
    /// ```
    pub fn of(words: &'a [u32]) -> Record<'a> {
        if !words.is_empty() && words.iter().all(|&word| word == STRUCK_WORD) {
            Record::Struck
        } else {
            Record::Words(words)
        }
    }

    /// Its data words, if it is not struck.
    pub fn words(self) -> Option<&'a [u32]> {
        match self {
            Record::Words(words) => Some(words),
            Record::Struck => None,
        }
    }
}

/// All records of a vault, over the words that [`recover`](crate::calls::recover) or [`recover_two`](crate::calls::recover_two) gave. Raw records have the same
/// form.
///
/// ```
/// use vault_library::{calls, sizes, Record, Records, Vault};
///
/// let mut vault = Vault::open(1, 2, vec![5, 6, 7, 8])?;
/// vault.strike(1)?;
/// let (header, image) = (vault.header(), vault.image()?);
/// let mut words = vec![0; sizes::raw(1, 2)];
/// let mut scratch = vec![0; sizes::scratch(1, 2)];
/// calls::recover(header, &image, &[], &mut words, &mut scratch)?;
///
/// let records = Records::new(header, &words);
/// assert_eq!(records.get(0), Some(Record::Words(&[5, 6])));
/// assert_eq!(records.get(1), Some(Record::Struck));
/// assert!(records.struck().eq([1]));
/// # Ok::<(), Box<dyn std::error::Error>>(())
/// ```
#[derive(Clone, Copy, Debug, PartialEq, Eq)]
pub struct Records<'a> {
    /// At least 1, also where the header is none that a recovery takes.
    s: usize,
    words: &'a [u32],
}

impl<'a> Records<'a> {
    /// The records that words are, s words for each.
    pub fn new(header: Header, words: &'a [u32]) -> Records<'a> {
        let s = header.s.max(1) as usize;
        Records { s, words }
    }

    /// Each record, in order of number.
    pub fn iter(self) -> impl Iterator<Item = Record<'a>> {
        self.words.chunks_exact(self.s).map(Record::of)
    }

    /// A record, if there is one of this number.
    pub fn get(self, record: u32) -> Option<Record<'a>> {
        self.iter().nth(record as usize)
    }

    /// The numbers of those that are struck, rising.
    pub fn struck(self) -> impl Iterator<Item = u32> + 'a {
        let struck = |(number, record)| (record == Record::Struck).then_some(number);
        (0..).zip(self.iter()).filter_map(struck)
    }
}

#[cfg(test)]
mod tests {
    use super::*;

    const HEADER: Header = Header { k: 1, s: 2, c: 0 };

    #[test]
    fn struck_in_every_word_or_not_at_all() {
        let struck = |words: &[u32]| Record::of(words) == Record::Struck;
        assert!(struck(&[65536]) && struck(&[65536; 128]));
        for word in [0, 65535, 65537, 131_073, u32::MAX] {
            assert!(!struck(&[word]) && !struck(&[word; 3]));
            assert!(!struck(&[word, 65536]) && !struck(&[65536, 65536, word]));
        }
        assert_eq!(Record::of(&[]), Record::Words(&[]));
        assert_eq!(Record::of(&[0, 3]).words(), Some(&[0, 3][..]));
        assert_eq!(Record::Struck.words(), None);
    }

    #[test]
    fn records_of_recovered_words() {
        let words = [65536, 65536, 65536, 7];
        let records = Records::new(HEADER, &words);
        let expected = [Record::Struck, Record::Words(&words[2..])];
        assert!(records.iter().eq(expected));
        assert_eq!([0, 1].map(|i| records.get(i)), expected.map(Some));
        assert_eq!([2, u32::MAX].map(|i| records.get(i)), [None; 2]);
        assert!(records.struck().eq([0]));
    }

    /// A refused recovery gives no words, also where s is out of its range.
    #[test]
    fn no_words() {
        for s in [0, 1, u32::MAX] {
            let records = Records::new(Header { s, ..HEADER }, &[]);
            assert_eq!((records.iter().count(), records.get(0)), (0, None));
        }
    }
}
