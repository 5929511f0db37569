//! Two readings of one rack: they are compared, and each stripe is taken out of the one that has more of its positions left.
use crate::erasures::{erased, gaps, Gap};
use crate::header::Header;
use crate::recovery::{blocks, lay};
use crate::refusal::{number, test, Refusal};

/// An image, and the erasure list that goes with it.
#[derive(Clone, Copy)]
pub struct Reading<'a> {
    pub image: &'a [u8],
    pub list: &'a [u8],
}

/// Where a stripe stands: in which reading, 0 or 1, from which byte of its image on, and how many bytes; all 0 where the call is refused.
#[derive(Clone, Copy, Debug, Default, PartialEq)]
pub struct Place {
    pub reading: u32,
    pub start: usize,
    pub count: usize,
}

/// Recovers all records from two readings. Gives the number, and the stripe at fault where one is named.
pub fn recover_two(
    header: Header,
    readings: [Reading; 2],
    out: &mut [u32],
    scratch: &mut [u32],
) -> (u32, Option<u32>) {
    let tested = recovery_tests(header, readings, out, scratch);
    let Ok(good) = tested else {
        return (number(&tested), None);
    };
    let decoded = |stripe| {
        let reading = &good[chosen(header, &good, stripe)];
        blocks(header, reading.image, &reading.gaps, stripe)
    };
    lay(header, decoded, out, scratch)
}

/// The place of the stripe in the reading that recovery decodes it in.
pub fn shelf_of_two(header: Header, readings: [Reading; 2], stripe: u32) -> (u32, Place) {
    let tested = stripe_tests(header, readings, stripe);
    let Ok(good) = tested else {
        return (number(&tested), Place::default());
    };
    let place = Place {
        reading: chosen(header, &good, stripe) as u32,
        start: 4 * header.stripe_start(stripe),
        count: 4 * (2 << stripe) * header.width(),
    };
    (0, place)
}

/// A reading of the right lengths, with the gaps of its list.
struct Good<'a> {
    image: &'a [u8],
    gaps: Vec<Gap>,
}

/// Tests 1, 2, 3 and 13.
fn recovery_tests<'a>(
    header: Header,
    readings: [Reading<'a>; 2],
    out: &[u32],
    scratch: &[u32],
) -> Result<[Good<'a>; 2], Refusal> {
    header.test()?;
    let fit = out.len() == header.raw_len() && scratch.len() == header.scratch_len();
    test(fit, Refusal::Length)?;
    reading_tests(header, readings)
}

/// Tests 1, 2, 3, 13 and 6.
fn stripe_tests(header: Header, readings: [Reading; 2], stripe: u32) -> Result<[Good; 2], Refusal> {
    header.test()?;
    let good = reading_tests(header, readings)?;
    test(header.filled(stripe), Refusal::Stripe)?;
    Ok(good)
}

/// Tests 2 of the images, 3 of the lists, and 13: those that both calls make, after that of the header.
fn reading_tests<'a>(header: Header, readings: [Reading<'a>; 2]) -> Result<[Good<'a>; 2], Refusal> {
    let fit = |reading: &Reading| reading.image.len() == header.image_len();
    test(readings.iter().all(fit), Refusal::Length)?;
    let listed = |Reading { image, list }| gaps(list, image.len()).map(|gaps| Good { image, gaps });
    let [first, second] = readings.map(listed);
    let good = [first?, second?];
    let mut needed = (0..=header.k).filter(|&stripe| header.filled(stripe));
    let agree = needed.all(|stripe| agree(header, &good, stripe));
    test(agree, Refusal::ReadingsDiffer)?;
    Ok(good)
}

/// Whether each position of a stripe that neither list erases has the same bytes in both images.
fn agree(header: Header, good: &[Good; 2], stripe: u32) -> bool {
    let start = 4 * header.stripe_start(stripe);
    let bytes = 4 * header.width();
    let [first, second] = [0, 1].map(|i| {
        let erased = erased(header, stripe, &good[i].gaps);
        erased.into_iter().zip(good[i].image[start..].chunks(bytes))
    });
    first
        .zip(second)
        .all(|((lost, words), (also, others))| lost || also || words == others)
}

/// The reading in which a stripe is decoded: that with more of its positions left, the first if they are as many.
fn chosen(header: Header, good: &[Good; 2], stripe: u32) -> usize {
    let [first, second] = [0, 1].map(|i| {
        let erased = erased(header, stripe, &good[i].gaps);
        erased.iter().filter(|&&lost| !lost).count()
    });
    usize::from(second > first)
}

#[cfg(test)]
mod tests {
    use super::*;
    use crate::image::image;
    use crate::opening::open;
    use crate::recovery::recover;
    use crate::writing::write;
    use random::Random;

    /// What a recovery gave, and left in the output.
    type Left = (u32, Option<u32>, Vec<u32>);

    fn list(gaps: &[(u32, u32)]) -> Vec<u8> {
        let bytes = |&(offset, length): &(u32, u32)| [offset.to_le_bytes(), length.to_le_bytes()];
        gaps.iter().flat_map(bytes).flatten().collect()
    }

    /// A recovery over buffers that hold 9 before; the scratch holds it afterwards only where nothing was decoded.
    fn recovered(header: Header, first: (&[u8], &[u8]), second: (&[u8], &[u8])) -> Left {
        let mut out = vec![9; header.raw_len()];
        let mut scratch = vec![9; header.scratch_len()];
        let readings = [first, second].map(|(image, list)| Reading { image, list });
        let (number, stripe) = recover_two(header, readings, &mut out, &mut scratch);
        let held = if [1, 2, 3, 13].contains(&number) {
            9
        } else {
            0
        };
        assert!(scratch.iter().all(|&x| x == held));
        assert!(number == 0 || out.iter().all(|&x| x == held));
        (number, stripe, out)
    }

    fn stripe(
        header: Header,
        first: (&[u8], &[u8]),
        second: (&[u8], &[u8]),
        stripe: u32,
    ) -> (u32, [usize; 3]) {
        let readings = [first, second].map(|(image, list)| Reading { image, list });
        let (number, place) = shelf_of_two(header, readings, stripe);
        (number, [place.reading as usize, place.start, place.count])
    }

    /// k = 2, s = 1, c = 2: records 3 and 1 are written, and level 0 is empty. A position has 8 bytes; the full stripe is at 0, level 0 at 64, level 1 at 80.
    fn written() -> (Header, Vec<u8>) {
        let mut raw = [5, 6, 7, 8];
        let (mut full, mut log) = ([0; 16], [0; 12]);
        let (_, mut header) = open(2, 1, &raw.clone(), &mut full, &mut log);
        for record in [3, 1] {
            (_, header) = write(header, &mut raw, &mut full, &mut log, record, &[record]);
        }
        let mut bytes = vec![0; header.image_len()];
        assert_eq!(image(header, &full, &log, &mut bytes), 0);
        (header, bytes)
    }

    const RECORDS: [u32; 4] = [5, 1, 7, 3];

    #[test]
    fn each_byte_that_both_have_is_compared() {
        let (header, good) = written();
        for at in 0..good.len() {
            let mut other = good.clone();
            other[at] ^= 128;
            let needed = !(64..80).contains(&at);
            let expected = if needed { 13 } else { 0 };
            let (number, named, _) = recovered(header, (&good, &[]), (&other, &[]));
            assert_eq!((number, named), (expected, None));
            let (number, place) = stripe(header, (&other, &[]), (&good, &[]), 1);
            let there = if needed { [0; 3] } else { [0, 80, 32] };
            assert_eq!((number, place), (expected, there));
            // One byte of its position is lost of one reading, or of the other.
            let lost = list(&[(at as u32 / 8 * 8 + 3, 1)]);
            let left = recovered(header, (&other, &lost), (&good, &[]));
            assert_eq!(left, (0, None, RECORDS.to_vec()));
            let left = recovered(header, (&good, &[]), (&other, &lost));
            assert_eq!(left, (0, None, RECORDS.to_vec()));
        }
    }

    #[test]
    fn each_stripe_is_taken_from_the_reading_with_more_of_it() {
        let (header, good) = written();
        let places = |first: &[u8], second: &[u8]| {
            [2, 1].map(|l| stripe(header, (&good, first), (&good, second), l).1)
        };
        let (full, level) = ([0, 64], [80, 32]);
        let expected = |readings: [usize; 2]| {
            let [r, q] = readings;
            [[r, full[0], full[1]], [q, level[0], level[1]]]
        };
        assert_eq!(places(&[], &[]), expected([0, 0]));
        let (two, one) = (list(&[(0, 9)]), list(&[(56, 1), (80, 1)]));
        // Two positions of the full stripe, one of it and one of level 1.
        assert_eq!(places(&two, &one), expected([1, 0]));
        assert_eq!(places(&one, &two), expected([0, 1]));
        // As many, also where they are others, and where all of the empty level is lost of one.
        let (first, second) = (list(&[(0, 1), (80, 1)]), list(&[(8, 1), (64, 16), (88, 1)]));
        assert_eq!(places(&first, &second), expected([0, 0]));
        assert_eq!(places(&second, &first), expected([0, 0]));
    }

    #[test]
    fn a_stray_that_both_have_is_no_difference() {
        let (header, mut image) = written();
        image[83] = 1;
        let (number, named, _) = recovered(header, (&image, &[]), (&image, &[]));
        assert_eq!((number, named), (8, Some(1)));
        // It counts where it is left of the reading that is taken, alone.
        let lost = list(&[(80, 1)]);
        let (number, named, _) = recovered(header, (&image, &lost), (&image, &[]));
        assert_eq!((number, named), (8, Some(1)));
        let both = list(&[(80, 1), (88, 1)]);
        let other = list(&[(96, 8)]);
        let (number, _, out) = recovered(header, (&image, &lost), (&image, &both));
        assert_eq!((number, &out[..]), (0, &RECORDS[..]));
        let (number, named, _) = recovered(header, (&image, &other), (&image, &lost));
        assert_eq!((number, named), (8, Some(1)));
    }

    #[test]
    fn positions_are_not_taken_from_both() {
        let (header, image) = written();
        // Half of each stripe is left of one reading, or of neither, of which the two together have all.
        let (first, second) = (list(&[(0, 33)]), list(&[(64, 1), (80, 17)]));
        let left = recovered(header, (&image, &first), (&image, &second));
        assert_eq!(left, (0, None, RECORDS.to_vec()));
        let (first, second) = (list(&[(80, 17)]), list(&[(87, 25)]));
        let (number, named, _) = recovered(header, (&image, &first), (&image, &second));
        assert_eq!((number, named), (7, Some(1)));
    }

    #[test]
    fn tests_in_their_order() {
        let (header, good) = written();
        let mut other = good.clone();
        other[0] ^= 1;
        let short = list(&[(80, 32)]);
        let numbers = |header: Header, first: (&[u8], &[u8]), second: (&[u8], &[u8])| {
            let (number, named, _) = recovered(header, first, second);
            let (same, place) = stripe(header, first, second, 0);
            assert_eq!(place, [0; 3]);
            (number, named, same)
        };
        let beyond = Header { c: 4, ..header };
        assert_eq!(
            numbers(beyond, (&good[1..], &[1]), (&other, &[])),
            (1, None, 1)
        );
        assert_eq!(
            numbers(header, (&good[1..], &[1]), (&other, &[])),
            (2, None, 2)
        );
        assert_eq!(
            numbers(header, (&good, &[1]), (&other[1..], &[])),
            (2, None, 2)
        );
        assert_eq!(numbers(header, (&good, &[1]), (&other, &[])), (3, None, 3));
        assert_eq!(numbers(header, (&good, &[]), (&other, &[1])), (3, None, 3));
        assert_eq!(
            numbers(header, (&good, &short), (&other, &short)),
            (13, None, 13)
        );
        // Level 0 is not filled.
        assert_eq!(
            numbers(header, (&good, &short), (&good, &short)),
            (7, Some(1), 6)
        );
    }

    #[test]
    fn nothing_changes_before_decoding() {
        let (header, good) = written();
        for (more, scratch_more) in [(1, 0), (-1, 0), (0, 1), (0, -1)] {
            let mut out = vec![9; header.raw_len().wrapping_add_signed(more)];
            let mut scratch = vec![9; header.scratch_len().wrapping_add_signed(scratch_more)];
            let reading = Reading {
                image: &good,
                list: &[1],
            };
            let answer = recover_two(header, [reading; 2], &mut out, &mut scratch);
            assert_eq!(answer, (2, None));
            assert!(out.iter().chain(&scratch).all(|&x| x == 9));
        }
    }

    /// Any gaps of few bytes, and an image with few bits changed.
    fn any(random: &mut Random, good: &[u8]) -> (Vec<u8>, Vec<u8>) {
        let mut image = good.to_vec();
        if random.below(3) == 0 {
            let at = random.index(image.len());
            image[at] ^= 1 << random.below(3);
        }
        let from = random.below(100) as u32;
        let pairs = [(from, 1 + random.below(12) as u32), (from + 40, 20)];
        (image, list(&pairs[..random.index(3)]))
    }

    #[test]
    fn the_same_reading_twice_and_readings_exchanged() {
        let (header, good) = written();
        let mut random = Random::new(8);
        let mut given = [0; 14];
        for _ in 0..3000 {
            let (image, list) = any(&mut random, &good);
            let (other, also) = any(&mut random, &good);
            let (first, second) = ((&image[..], &list[..]), (&other[..], &also[..]));
            let (mut out, mut scratch) = ([9; 4], [9; 24]);
            let (number, named) = recover(header, &image, &list, &mut out, &mut scratch);
            assert_eq!(
                recovered(header, first, first),
                (number, named, out.to_vec())
            );
            let left = recovered(header, first, second);
            let exchanged = recovered(header, second, first);
            if [3, 13].contains(&left.0) {
                assert_eq!(left, exchanged);
            }
            for l in 0..=3 {
                let (number, there) = stripe(header, first, second, l);
                let (same, [reading, start, count]) = stripe(header, second, first, l);
                assert_eq!((number, there[1..].to_vec()), (same, vec![start, count]));
                // The first is taken on a tie, each time.
                assert!(there[0] + reading < 2 && (number == 0 || there[0] + reading == 0));
            }
            given[left.0 as usize] += 1;
        }
        assert!(
            [0, 3, 7, 9, 13].iter().all(|&number| given[number] > 0),
            "{given:?}"
        );
    }
}
