//! What the data of a record may be (docs/FORMAT.md, section 2), raw or in a block.

/// What stands in the place of each data word of a struck record.
pub const STRUCK: u32 = 65536;

/// Whether all words are data words.
pub fn are_data<T: Copy + Into<u64>>(words: &[T]) -> bool {
    words.iter().all(|&x| x.into() <= 65535)
}

/// Whether a record of these words is struck. Words are judged as they are, and not modulo p.
pub fn is_struck<T: Copy + Into<u64>>(words: &[T]) -> bool {
    words.iter().all(|&x| x.into() == u64::from(STRUCK))
}

/// Whether these are the words of a record: data words, or those of a struck one.
pub fn are_a_record<T: Copy + Into<u64>>(words: &[T]) -> bool {
    are_data(words) || is_struck(words)
}

#[cfg(test)]
mod tests {
    use super::*;

    #[test]
    fn all_words_or_none() {
        for words in [&[0, 65535][..], &[65536, 65536], &[65536], &[7u32]] {
            assert!(are_a_record(words), "{words:?}");
        }
        for words in [
            &[65536, 0][..],
            &[0, 65536],
            &[65536, 65536, 65535],
            &[65536, 65537],
            &[131_073],
            &[131_073, 131_073],
            &[u32::MAX],
        ] {
            assert!(!are_a_record(words), "{words:?}");
        }
    }
}
