//! The header (docs/FORMAT.md; the plate to users), the lengths of all buffers, and which levels are filled.
use crate::refusal::{test, Refusal};

#[derive(Clone, Copy, Debug, Default, PartialEq)]
pub struct Header {
    pub k: u32,
    pub s: u32,
    pub c: u32,
}

/// The lengths and levels are those of a header that passed its test.
impl Header {
    pub fn test(self) -> Result<(), Refusal> {
        let fits =
            (1..=10).contains(&self.k) && (1..=128).contains(&self.s) && self.c < 1 << self.k;
        test(fits, Refusal::Header)
    }

    /// n.
    pub fn records(self) -> usize {
        1 << self.k
    }

    /// The words of a record.
    pub fn data(self) -> usize {
        self.s as usize
    }

    /// The words of a block, and of a position.
    pub fn width(self) -> usize {
        self.data() + 1
    }

    pub fn raw_len(self) -> usize {
        self.records() * self.data()
    }

    pub fn full_len(self) -> usize {
        2 * self.records() * self.width()
    }

    pub fn log_len(self) -> usize {
        (2 * self.records() - 2) * self.width()
    }

    pub fn image_len(self) -> usize {
        4 * self.width() * (4 * self.records() - 2)
    }

    /// The output of decoding a stripe; recovery gives `raw_len` words.
    pub fn blocks_len(self) -> usize {
        self.records() * self.width()
    }

    pub fn scratch_len(self) -> usize {
        self.blocks_len() + 4 * self.records()
    }

    /// The scratch of taking back: twice that of the calls on images.
    pub fn double_scratch_len(self) -> usize {
        2 * self.scratch_len()
    }

    /// A pair for each stripe.
    pub fn counts_len(self) -> usize {
        2 * (self.k as usize + 1)
    }

    /// A pair for each record.
    pub fn origins_len(self) -> usize {
        2 * self.records()
    }

    /// The word of the log at which a level begins.
    pub fn level_start(self, level: u32) -> usize {
        ((2 << level) - 2) * self.width()
    }

    /// The word of the image at which a stripe begins: a level, or k for the full stripe.
    pub fn stripe_start(self, stripe: u32) -> usize {
        if stripe == self.k {
            0
        } else {
            self.full_len() + self.level_start(stripe)
        }
    }

    /// Whether a stripe is there: the full stripe always, a level when its bit of c is 1.
    pub fn filled(self, stripe: u32) -> bool {
        stripe == self.k || stripe < self.k && self.c >> stripe & 1 == 1
    }

    /// t0 of a filled level; 0 for the full stripe.
    pub fn first(self, stripe: u32) -> u64 {
        let size = 2 << stripe;
        u64::from(self.c / size * size)
    }
}

#[cfg(test)]
mod tests {
    use super::*;

    #[test]
    fn ranges() {
        let fits = |k, s, c| Header { k, s, c }.test().is_ok();
        assert!(fits(1, 1, 0) && fits(1, 1, 1) && fits(10, 128, 1023));
        assert!(!fits(0, 1, 0) && !fits(11, 1, 0) && !fits(u32::MAX, 1, 0));
        assert!(!fits(1, 0, 0) && !fits(1, 129, 0) && !fits(1, 1, 2) && !fits(10, 1, 1024));
    }

    #[test]
    fn image_lengths_of_the_document() {
        let len = |k, s| Header { k, s, c: 0 }.image_len();
        assert_eq!(len(2, 1), 112);
        assert_eq!(len(10, 128), 2_112_504);
    }

    #[test]
    fn scratch_lengths_of_the_document() {
        let lengths = |k, s| {
            let header = Header { k, s, c: 0 };
            (header.scratch_len(), header.double_scratch_len())
        };
        assert_eq!(lengths(1, 1), (12, 24));
        assert_eq!(lengths(10, 128), (136_192, 272_384));
    }

    #[test]
    fn stripes_follow_each_other() {
        let header = Header { k: 3, s: 2, c: 0 };
        assert_eq!(header.stripe_start(0), header.full_len());
        for level in 0..2 {
            let words = (2 << level) * header.width();
            assert_eq!(
                header.stripe_start(level) + words,
                header.stripe_start(level + 1)
            );
        }
        assert_eq!(
            4 * (header.full_len() + header.log_len()),
            header.image_len()
        );
    }
}
