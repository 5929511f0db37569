//! The length of each buffer as a function of k and s: in words, the image's in bytes. That of the table of powers is the same for all.
//!
//! The functions give 0 where k or s is out of its range: a call refuses such a header before it looks at a buffer.

/// Whether k and s are in their ranges.
pub(crate) fn in_range(k: u32, s: u32) -> bool {
    (1..=10).contains(&k) && (1..=128).contains(&s)
}

/// A length that is given as a function of n and s.
fn length(k: u32, s: u32, of: impl Fn(usize, usize) -> usize) -> usize {
    if in_range(k, s) {
        of(1 << k, s as usize)
    } else {
        0
    }
}

/// The raw records, which are also what recovery gives.
pub fn raw(k: u32, s: u32) -> usize {
    length(k, s, |n, s| n * s)
}

/// The full stripe.
pub fn full(k: u32, s: u32) -> usize {
    length(k, s, |n, s| 2 * n * (s + 1))
}

/// The log: all levels.
pub fn log(k: u32, s: u32) -> usize {
    length(k, s, |n, s| (2 * n - 2) * (s + 1))
}

/// The image, in bytes.
pub fn image(k: u32, s: u32) -> usize {
    4 * (full(k, s) + log(k, s))
}

/// The output of stripe decoding.
pub fn blocks(k: u32, s: u32) -> usize {
    length(k, s, |n, s| n * (s + 1))
}

/// The scratch buffer of stripe decoding, of recovery, from two readings too, and of explaining.
pub fn scratch(k: u32, s: u32) -> usize {
    length(k, s, |n, s| n * (s + 1) + 4 * n)
}

/// The scratch buffer of taking back: twice that of recovery.
pub fn take_back_scratch(k: u32, s: u32) -> usize {
    2 * scratch(k, s)
}

/// The counts of explaining: two for each stripe from 0 to k.
pub fn counts(k: u32, s: u32) -> usize {
    length(k, s, |_, _| 2 * (k as usize + 1))
}

/// The origins of explaining: two words for each record.
pub fn origins(k: u32, s: u32) -> usize {
    length(k, s, |n, _| 2 * n)
}

/// The table of powers.
pub const POWERS: usize = 2048;

#[cfg(test)]
mod tests {
    use super::*;

    #[test]
    fn lengths_of_the_specification() {
        assert_eq!(image(2, 1), 112);
        assert_eq!(image(10, 128), 2_112_504);
        assert_eq!((raw(2, 1), full(2, 1), log(2, 1)), (4, 16, 12));
        assert_eq!((blocks(2, 1), scratch(2, 1)), (8, 24));
        let back = (take_back_scratch(2, 1), take_back_scratch(10, 128));
        assert_eq!(back, (48, 272_384));
        assert_eq!((counts(2, 1), origins(2, 1)), (6, 8));
        assert_eq!((counts(10, 128), origins(10, 128)), (22, 2048));
        // The root of the largest vault has 2n powers.
        assert_eq!(POWERS, 2 << 10);
    }

    #[test]
    fn out_of_range() {
        for (k, s) in [(0, 1), (11, 1), (1, 0), (1, 129), (u32::MAX, u32::MAX)] {
            for size in [raw, full, log, image, blocks, counts, origins] {
                assert_eq!(size(k, s), 0);
            }
            assert_eq!((scratch(k, s), take_back_scratch(k, s)), (0, 0));
        }
    }
}
