//! The explanation of a recovery: what is left of each stripe, and which write each record comes from.
use crate::erasures::{erased, Gap};
use crate::header::Header;
use crate::recovery::{blocks, image_tests};
use crate::refusal::{number, test, Refusal};

/// Stores the counts and the origins. Gives the number, and the stripe at fault where one is named.
pub fn explain(
    header: Header,
    image: &[u8],
    list: &[u8],
    counts: &mut [u32],
    origins: &mut [u32],
    scratch: &mut [u32],
) -> (u32, Option<u32>) {
    let tested = tests(header, image, list, counts, origins, scratch);
    let Ok(gaps) = tested else {
        return (number(&tested), None);
    };
    for (pair, stripe) in counts.chunks_mut(2).zip(0..) {
        pair.copy_from_slice(&count(header, &gaps, stripe));
    }
    origins.fill(0);
    scratch.fill(0);
    let writes = match writes(header, image, &gaps) {
        Ok(writes) => writes,
        Err((refusal, stripe)) => return (refusal as u32, Some(stripe)),
    };
    for (pair, record) in origins.chunks_mut(2).zip(0..) {
        pair.copy_from_slice(&origin(header, &writes, record));
    }
    (0, None)
}

/// Tests 1 to 3.
fn tests(
    header: Header,
    image: &[u8],
    list: &[u8],
    counts: &[u32],
    origins: &[u32],
    scratch: &[u32],
) -> Result<Vec<Gap>, Refusal> {
    header.test()?;
    let fit = counts.len() == header.counts_len() && origins.len() == header.origins_len();
    test(fit, Refusal::Length)?;
    image_tests(header, image, list, scratch)
}

/// Positions left, and the shortfall; zeros for a level that is not filled.
fn count(header: Header, gaps: &[Gap], stripe: u32) -> [u32; 2] {
    if !header.filled(stripe) {
        return [0, 0];
    }
    let erased = erased(header, stripe, gaps);
    let left = erased.iter().filter(|&&lost| !lost).count() as u32;
    [left, (1u32 << stripe).saturating_sub(left)]
}

/// A write of the round.
struct Write {
    record: u64,
    level: u32,
}

/// The writes of the round; or the refusal of the first stripe at fault. They are in order of time, since a higher level holds older ones, so that the place of
/// a write is its number.
fn writes(header: Header, image: &[u8], gaps: &[Gap]) -> Result<Vec<Write>, (Refusal, u32)> {
    let full = blocks(header, image, gaps, header.k);
    full.map_err(|refusal| (refusal, header.k))?;
    let mut writes = Vec::new();
    for level in (0..header.k).rev().filter(|&level| header.filled(level)) {
        let held = blocks(header, image, gaps, level).map_err(|refusal| (refusal, level))?;
        writes.extend(held.chunks(header.width()).map(|block| Write {
            record: block[0],
            level,
        }));
    }
    Ok(writes)
}

/// The level and the number of the last write to a record; k and 0 where there is none.
fn origin(header: Header, writes: &[Write], record: u64) -> [u32; 2] {
    match writes.iter().rposition(|write| write.record == record) {
        Some(place) => [writes[place].level, place as u32],
        None => [header.k, 0],
    }
}

#[cfg(test)]
mod tests {
    use super::*;
    use crate::image::image;
    use crate::opening::open;
    use crate::recovery::recover;
    use crate::stripe::code;
    use crate::writing::write;
    use random::Random;

    /// What a call gave and left.
    #[derive(Debug, PartialEq)]
    struct Left {
        number: u32,
        stripe: Option<u32>,
        counts: Vec<u32>,
        origins: Vec<u32>,
    }

    /// An explanation over buffers that hold 9 before; the scratch holds it afterwards only where nothing was decoded.
    fn explained(header: Header, image: &[u8], list: &[u8]) -> Left {
        let mut counts = vec![9; header.counts_len()];
        let mut origins = vec![9; header.origins_len()];
        let mut scratch = vec![9; header.scratch_len()];
        let (number, stripe) =
            explain(header, image, list, &mut counts, &mut origins, &mut scratch);
        let held = if (1..=3).contains(&number) { 9 } else { 0 };
        assert!(scratch.iter().all(|&x| x == held));
        Left {
            number,
            stripe,
            counts,
            origins,
        }
    }

    fn list(gaps: &[(u32, u32)]) -> Vec<u8> {
        let bytes = |&(offset, length): &(u32, u32)| [offset.to_le_bytes(), length.to_le_bytes()];
        gaps.iter().flat_map(bytes).flatten().collect()
    }

    /// k = 2, s = 1: records 3, 1 and 3 are written, so that level 1 holds writes 0 and 1, and level 0 write 2. A position has 8 bytes; the full stripe is at
    /// 0, level 0 at 64, level 1 at 80.
    fn written() -> (Header, Vec<u8>) {
        let mut raw = [5, 6, 7, 8];
        let (mut full, mut log) = ([0; 16], [0; 12]);
        let (_, mut header) = open(2, 1, &raw.clone(), &mut full, &mut log);
        for record in [3, 1, 3] {
            // The data that the record has already: a write all the same.
            let block = [raw[record as usize]];
            (_, header) = write(header, &mut raw, &mut full, &mut log, record, &block);
        }
        let mut bytes = vec![0; header.image_len()];
        assert_eq!(image(header, &full, &log, &mut bytes), 0);
        (header, bytes)
    }

    #[test]
    fn the_last_write_is_the_origin() {
        let (header, image) = written();
        let left = explained(header, &image, &[]);
        assert_eq!((left.number, left.stripe), (0, None));
        assert_eq!(left.counts, [2, 0, 4, 0, 8, 0]);
        assert_eq!(left.origins, [2, 0, 1, 1, 2, 0, 0, 2]);
        // Before write 2 the origin of record 3 is write 0, and level 0 is not needed.
        let before = Header { c: 2, ..header };
        let left = explained(before, &image, &list(&[(64, 16)]));
        assert_eq!((left.number, left.counts), (0, vec![0, 0, 4, 0, 8, 0]));
        assert_eq!(left.origins, [2, 0, 1, 1, 2, 0, 1, 0]);
    }

    #[test]
    fn of_two_writes_on_a_level_the_later_counts() {
        let header = Header { k: 2, s: 1, c: 2 };
        let mut image = vec![0; header.image_len()];
        for (stripe, blocks) in [(2, vec![0, 0, 1, 0, 2, 0, 3, 0]), (1, vec![2, 4, 2, 5])] {
            let coded = code(2, 0, 2, &blocks);
            let start = 4 * header.stripe_start(stripe);
            for (bytes, word) in image[start..].chunks_mut(4).zip(coded) {
                bytes.copy_from_slice(&(word as u32).to_le_bytes());
            }
        }
        let left = explained(header, &image, &[]);
        assert_eq!(
            (left.number, left.origins),
            (0, vec![2, 0, 2, 0, 1, 1, 2, 0])
        );
    }

    #[test]
    fn half_is_enough_and_one_fewer_is_not() {
        let (header, image) = written();
        let left = explained(header, &image, &list(&[(0, 32), (64, 8), (80, 16)]));
        assert_eq!((left.number, left.counts), (0, vec![1, 0, 2, 0, 4, 0]));
        let left = explained(header, &image, &list(&[(0, 32), (64, 8), (80, 17)]));
        let expected = Left {
            number: 7,
            stripe: Some(1),
            counts: vec![1, 0, 1, 1, 4, 0],
            origins: vec![0; 8],
        };
        assert_eq!(left, expected);
        // The counts go on behind the stripe at fault.
        let left = explained(header, &image, &list(&[(0, 112)]));
        assert_eq!((left.number, left.stripe), (7, Some(2)));
        assert_eq!(left.counts, [0, 1, 0, 2, 0, 4]);
    }

    #[test]
    fn words_do_not_count() {
        let (header, mut image) = written();
        image[2] = 2;
        let left = explained(header, &image, &list(&[(64, 16)]));
        let expected = Left {
            number: 8,
            stripe: Some(2),
            counts: vec![0, 1, 4, 0, 8, 0],
            origins: vec![0; 8],
        };
        assert_eq!(left, expected);
    }

    #[test]
    fn nothing_changes_before_decoding() {
        let (header, image) = written();
        let untouched = |left: Left, number: u32| {
            let words = left.counts.iter().chain(&left.origins);
            assert!(words.copied().all(|x| x == 9));
            assert_eq!((left.number, left.stripe), (number, None));
        };
        untouched(explained(Header { c: 4, ..header }, &image, &[1]), 1);
        untouched(explained(header, &image[1..], &[1]), 2);
        untouched(explained(header, &image, &[1]), 3);
        for which in 0..3 {
            for more in [-1, 1] {
                let lengths = [
                    header.counts_len(),
                    header.origins_len(),
                    header.scratch_len(),
                ];
                let mut buffers = lengths.map(|length| vec![9; length]);
                let length = lengths[which].wrapping_add_signed(more);
                buffers[which].resize(length, 9);
                let [counts, origins, scratch] = &mut buffers;
                let answer = explain(header, &image, &[1], counts, origins, scratch);
                assert_eq!(answer, (2, None));
                assert!(buffers.iter().flatten().all(|&x| x == 9));
            }
        }
    }

    #[test]
    fn number_and_stripe_are_those_of_recovery() {
        let (header, good) = written();
        let mut random = Random::new(7);
        let mut given = [0; 11];
        for _ in 0..2000 {
            let mut image = good.clone();
            for _ in 0..random.below(3) {
                let at = random.index(image.len());
                image[at] ^= 1 << random.below(3);
            }
            let from = random.below(113);
            let length = random.below(114 - from).min(30);
            let pairs = [(from as u32, length as u32)];
            let list = list(&pairs[..random.index(2)]);
            let left = explained(header, &image, &list);
            let (mut out, mut scratch) = ([0; 4], [0; 24]);
            let answer = recover(header, &image, &list, &mut out, &mut scratch);
            assert_eq!((left.number, left.stripe), answer);
            given[left.number as usize] += 1;
        }
        assert!([0, 3, 7, 8, 9].iter().all(|&number| given[number] > 0));
    }
}
