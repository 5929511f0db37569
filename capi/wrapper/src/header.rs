//! The header (docs/FORMAT.md; the plate to users), and which stripes it says are filled.
use crate::sizes;
use std::ops::Range;

/// The numbers that a vault is known by: 2^k records of s words, and c writes since the full stripe was last built.
#[derive(Clone, Copy, Debug, PartialEq, Eq)]
pub struct Header {
    pub k: u32,
    pub s: u32,
    pub c: u32,
}

impl Header {
    /// Whether the three numbers are in their ranges. Every call tests this itself.
    pub fn fits(self) -> bool {
        sizes::in_range(self.k, self.s) && self.c < 1 << self.k
    }

    /// Whether a stripe is in use: the full stripe, k, always, a level where its bit of c is 1.
    pub fn filled(self, stripe: u32) -> bool {
        let bit = |level| self.c.checked_shr(level).is_some_and(|bits| bits & 1 == 1);
        stripe == self.k || stripe < self.k && bit(stripe)
    }

    /// The numbers, in the round, of the writes that a filled level holds.
    pub fn writes(self, level: u32) -> Range<u32> {
        let first = self.c >> (level + 1) << (level + 1);
        first..first + (1 << level)
    }

    /// The filled stripes in the order in which a listing has them: the full stripe, then the levels upward.
    pub fn stripes(self) -> impl Iterator<Item = u32> {
        let levels = (0..self.k).filter(move |&level| self.filled(level));
        std::iter::once(self.k).chain(levels)
    }
}

#[cfg(test)]
mod tests {
    use super::Header;

    #[test]
    fn ranges() {
        let fits = |k, s, c| Header { k, s, c }.fits();
        assert!(fits(1, 1, 1) && fits(10, 128, 1023));
        assert!(!fits(0, 1, 0) && !fits(11, 1, 0) && !fits(u32::MAX, 1, 0));
        assert!(!fits(1, 0, 0) && !fits(1, 129, 0) && !fits(1, 1, 2));
    }

    #[test]
    fn filled_levels_are_the_bits_of_c() {
        let header = Header { k: 4, s: 1, c: 13 };
        assert!(header.stripes().eq([4, 0, 2, 3]));
        assert!(!header.filled(1) && !header.filled(5) && !header.filled(u32::MAX));
    }

    #[test]
    fn higher_levels_hold_older_writes() {
        let writes = |c, level| Header { k: 3, s: 1, c }.writes(level);
        assert_eq!([2, 1, 0].map(|level| writes(7, level)), [0..4, 4..6, 6..7]);
        assert_eq!((writes(5, 2), writes(5, 0)), (0..4, 4..5));
        assert_eq!((writes(3, 1), writes(3, 0)), (0..2, 2..3));
    }
}
