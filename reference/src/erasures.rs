//! Erasure lists (docs/FORMAT.md; gap lists to users): pairs of offset and length, 4 bytes each, low byte first.
use crate::header::Header;
use crate::image::number_at;
use crate::refusal::{test, Refusal};

/// A gap's first byte, and the byte after its last.
pub type Gap = (u64, u64);

/// The gaps of a list of whole pairs that keeps the rules for an image of `image_len` bytes.
pub fn gaps(list: &[u8], image_len: usize) -> Result<Vec<Gap>, Refusal> {
    test(list.len().is_multiple_of(8), Refusal::Erasures)?;
    let mut gaps: Vec<Gap> = Vec::new();
    for at in (0..list.len()).step_by(8) {
        let offset = u64::from(number_at(list, at));
        let length = u64::from(number_at(list, at + 4));
        let end = offset + length;
        test(length >= 1, Refusal::Erasures)?;
        test(end <= image_len as u64, Refusal::Erasures)?;
        let after = gaps.last().is_none_or(|before| offset > before.1);
        test(after, Refusal::Erasures)?;
        gaps.push((offset, end));
    }
    Ok(gaps)
}

/// For each position of a stripe, whether a gap touches one of its bytes.
pub fn erased(header: Header, stripe: u32, gaps: &[Gap]) -> Vec<bool> {
    let start = 4 * header.stripe_start(stripe) as u64;
    let bytes = 4 * header.width() as u64;
    (0..2 << stripe)
        .map(|i| start + i * bytes)
        .map(|from| gaps.iter().any(|gap| gap.0 < from + bytes && from < gap.1))
        .collect()
}

#[cfg(test)]
mod tests {
    use super::*;

    fn list(pairs: &[(u32, u32)]) -> Vec<u8> {
        let bytes = |&(offset, length): &(u32, u32)| [offset.to_le_bytes(), length.to_le_bytes()];
        pairs.iter().flat_map(bytes).flatten().collect()
    }

    #[test]
    fn rules() {
        let good = |pairs: &[(u32, u32)]| gaps(&list(pairs), 112).is_ok();
        assert!(good(&[]) && good(&[(0, 112)]) && good(&[(111, 1)]));
        assert!(!good(&[(0, 0)]) && !good(&[(112, 1)]) && !good(&[(0, 113)]));
        assert!(good(&[(0, 8), (9, 8)]) && !good(&[(0, 8), (8, 8)]) && !good(&[(9, 8), (0, 8)]));
        // The sum of offset and length does not wrap.
        assert!(
            !good(&[(u32::MAX, 1)]) && !good(&[(u32::MAX, u32::MAX)]) && !good(&[(8, u32::MAX)])
        );
        assert!((1..8).all(|n| gaps(&list(&[(0, 1)])[..n], 112).is_err()));
    }

    #[test]
    fn one_byte_is_enough() {
        // k = 1, s = 1: the full stripe has positions of 8 bytes at 0, 8, 16 and 24, level 0 at 32 and 40.
        let header = Header { k: 1, s: 1, c: 1 };
        assert_eq!(erased(header, 1, &[(7, 9)]), [true, true, false, false]);
        assert_eq!(erased(header, 1, &[(31, 33)]), [false, false, false, true]);
        assert_eq!(erased(header, 0, &[(31, 33)]), [true, false]);
        assert_eq!(erased(header, 0, &[(0, 32)]), [false, false]);
        assert_eq!(erased(header, 0, &[(47, 48)]), [false, true]);
    }
}
