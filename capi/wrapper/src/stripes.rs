//! Where the stripes (docs/FORMAT.md; shelves to users) and their positions stand in an image. A stripe is a level, or k for the full stripe;
//! k and s are in their ranges.
use crate::sizes;
use std::ops::Range;

/// How many positions a stripe has.
pub fn positions(stripe: u32) -> usize {
    2 << stripe
}

/// The bytes of a position.
pub fn position(k: u32, s: u32, stripe: u32, position: usize) -> Range<usize> {
    let bytes = 4 * (s as usize + 1);
    let first = if stripe == k {
        0
    } else {
        4 * sizes::full(k, s) + (positions(stripe) - 2) * bytes
    };
    let start = first + position * bytes;
    start..start + bytes
}

/// The words of a position, as an image has them.
pub fn words(image: &[u8], bytes: Range<usize>) -> impl Iterator<Item = u32> + '_ {
    image[bytes].chunks_exact(4).map(word)
}

/// The word that bytes are, the low byte first.
pub(crate) fn word(bytes: &[u8]) -> u32 {
    let high_first = bytes.iter().rev();
    high_first.fold(0, |high, &low| high << 8 | u32::from(low))
}

#[cfg(test)]
mod tests {
    use super::*;

    #[test]
    fn positions_follow_each_other() {
        let (k, s) = (3, 2);
        let mut end = 0;
        for stripe in [3, 0, 1, 2] {
            for i in 0..positions(stripe) {
                let bytes = position(k, s, stripe, i);
                assert_eq!((bytes.start, bytes.len()), (end, 12));
                end = bytes.end;
            }
        }
        assert_eq!(end, sizes::image(k, s));
    }

    #[test]
    fn low_byte_first() {
        let image = [0, 1, 2, 3, 0, 0, 0, 1, 2, 0, 0, 0];
        assert!(words(&image, 4..12).eq([1 << 24, 2]));
    }
}
