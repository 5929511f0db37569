//! Two readings of one image: which one each stripe is taken from, what is refused, in which order, and what that leaves.
use random::Random;
use vault_library::{
    calls, erasures, sizes, stripes, Fault, Header, Part, Reading, Refusal, Vault, Which,
};

/// Where a position stands: its stripe and its number there.
type Position = (u32, usize);

/// What a card reader gave, owned.
#[derive(Clone)]
struct Read {
    image: Vec<u8>,
    erasures: Vec<u8>,
}

impl Read {
    /// An image without some positions, whose bytes are others than they were.
    fn without(header: Header, image: &[u8], lost: &[Position]) -> Read {
        let bytes = |&position| bytes(header, position);
        let mut image = image.to_vec();
        for byte in lost.iter().flat_map(bytes) {
            image[byte] ^= 0x5a;
        }
        Read {
            image,
            erasures: erasures::list(lost.iter().map(bytes).collect()),
        }
    }

    fn reading(&self) -> Reading<'_> {
        Reading {
            image: &self.image,
            erasures: &self.erasures,
        }
    }
}

/// The bytes of a position.
fn bytes(header: Header, (stripe, number): Position) -> std::ops::Range<usize> {
    stripes::position(header.k, header.s, stripe, number)
}

/// The first positions of a stripe.
fn first(stripe: u32, count: usize) -> Vec<Position> {
    (0..count).map(|number| (stripe, number)).collect()
}

/// The image of docs/FORMAT.md, section 12: k = 2, s = 2, and after three writes c = 3; and its records.
fn example() -> (Header, Vec<u8>, Vec<u32>) {
    let opened = vec![10, 11, 20, 21, 30, 31, 40, 65535];
    let mut vault = Vault::open(2, 2, opened).unwrap();
    for (record, block) in [(2, [1, 2]), (3, [3, 4]), (2, [5, 65535])] {
        vault.write(record, &block).unwrap();
    }
    let records = vec![10, 11, 20, 21, 5, 65535, 3, 4];
    (vault.header(), vault.image().unwrap(), records)
}

/// An output and a scratch of nines, at their lengths.
fn nines(header: Header) -> [Vec<u32>; 2] {
    [sizes::raw, sizes::scratch].map(|size| vec![9; size(header.k, header.s)])
}

/// Recovers from two readings, and gives the records. Checks what the buffers hold afterwards.
fn recovered(header: Header, first: Reading, second: Reading) -> Result<Vec<u32>, Fault> {
    let [mut out, mut scratch] = nines(header);
    let answer = calls::recover_two(header, first, second, &mut out, &mut scratch);
    match answer {
        Ok(()) => assert!(scratch.iter().all(|&word| word == 0)),
        Err(Fault { stripe: None, .. }) => assert_eq!([out.clone(), scratch], nines(header)),
        Err(_) => assert!(out.iter().chain(&scratch).all(|&word| word == 0)),
    }
    answer.map(|()| out)
}

/// The stripe's part is of this reading: the very bytes of that image.
fn taken_from(header: Header, first: Reading, second: Reading, stripe: u32, of: Which) {
    let image = match of {
        Which::First => first.image,
        Which::Second => second.image,
    };
    let start = bytes(header, (stripe, 0)).start;
    let end = bytes(header, (stripe, stripes::positions(stripe) - 1)).end;
    let part = calls::shelf_of_two(header, first, second, stripe);
    let bytes = &image[start..end];
    assert_eq!(part, Ok(Part { of, bytes }), "stripe {stripe}");
    assert!(std::ptr::eq(part.unwrap().bytes, bytes));
}

fn fault(refusal: Refusal, stripe: Option<u32>) -> Fault {
    Fault { refusal, stripe }
}

/// Neither reading has half of each stripe; both together do.
#[test]
fn each_stripe_is_taken_from_the_reading_that_has_more_of_it() {
    let (header, image, records) = example();
    let short = [first(2, 5), first(0, 1)].concat();
    let one = Read::without(header, &image, &short);
    let short = [first(2, 1), first(1, 3), first(0, 1)].concat();
    let other = Read::without(header, &image, &short);
    let (one, other) = (one.reading(), other.reading());
    assert_eq!(recovered(header, one, other), Ok(records.clone()));
    taken_from(header, one, other, 2, Which::Second);
    taken_from(header, one, other, 1, Which::First);
    // As much is left of stripe 0: the first, in either order.
    taken_from(header, one, other, 0, Which::First);
    assert_eq!(recovered(header, other, one), Ok(records));
    taken_from(header, other, one, 2, Which::First);
    taken_from(header, other, one, 1, Which::Second);
    taken_from(header, other, one, 0, Which::First);
}

/// What recovery answers, the readings being one: the same slices twice.
#[test]
fn the_same_reading_twice_is_recovery() {
    let (header, image, _) = example();
    for lost in [
        vec![],
        first(2, 4),
        first(2, 5),
        [first(1, 3), first(0, 2)].concat(),
    ] {
        let read = Read::without(header, &image, &lost);
        let reading = read.reading();
        let [mut out, mut scratch] = nines(header);
        let (image, list) = (reading.image, reading.erasures);
        let alone = calls::recover(header, image, list, &mut out, &mut scratch);
        let twice = recovered(header, reading, reading);
        assert_eq!(twice, alone.map(|()| out), "{lost:?}");
        taken_from(header, reading, reading, 1, Which::First);
    }
}

/// A byte of a position that survives in both is another: 13, with no stripe, whichever stripe is asked for. Where the position is erased in one, or not
/// needed, it counts for nothing.
#[test]
fn a_position_that_survives_in_both_is_the_same_in_both() {
    let (header, image, records) = example();
    let (whole, differ) = (Read::without(header, &image, &[]), Refusal::ReadingsDiffer);
    for position in [(2, 0), (2, 7), (1, 2), (0, 1)] {
        for byte in bytes(header, position) {
            let mut other = whole.clone();
            other.image[byte] ^= 0x80;
            for (one, two) in [(&whole, &other), (&other, &whole)] {
                let (one, two) = (one.reading(), two.reading());
                assert_eq!(recovered(header, one, two), Err(fault(differ, None)));
                for stripe in [0, 1, 2, 3, u32::MAX] {
                    let part = calls::shelf_of_two(header, one, two, stripe);
                    assert_eq!(part, Err(differ));
                }
            }
            let gap = byte..byte + 1;
            let lost = erasures::list(vec![gap]);
            let lost = Reading {
                image: &other.image,
                erasures: &lost,
            };
            let answer = recovered(header, whole.reading(), lost);
            assert_eq!(answer.as_ref(), Ok(&records));
        }
    }
    // Before the last write level 0 was empty.
    let before = Header { c: 2, ..header };
    let mut other = whole.clone();
    other.image[bytes(header, (0, 1))].fill(0xff);
    let (one, two) = (whole.reading(), other.reading());
    assert!(recovered(before, one, two).is_ok());
    let part = calls::shelf_of_two(before, one, two, 0);
    assert_eq!(part, Err(Refusal::Stripe));
    assert_eq!(
        differ.to_string(),
        "refused 13 (readings differ): a position that is whole in both readings has another word in each"
    );
}

#[test]
fn in_the_order_of_the_table() {
    let (header, image, _) = example();
    let whole = Read::without(header, &image, &[]);
    let mut differs = Read::without(header, &image, &first(2, 5));
    differs.image[bytes(header, (1, 0))].fill(0xff);
    let refused = |header, first: &Read, second: &Read, refusal| {
        for (one, two) in [(first, second), (second, first)] {
            let (one, two) = (one.reading(), two.reading());
            let answer = recovered(header, one, two);
            assert_eq!(answer, Err(fault(refusal, None)));
            let part = calls::shelf_of_two(header, one, two, 9);
            assert_eq!(part, Err(refusal));
        }
    };
    // Of each, more and more is put right.
    let mut bad = differs.clone();
    bad.erasures.push(1);
    bad.image.pop();
    refused(Header { c: 4, ..header }, &whole, &bad, Refusal::Header);
    refused(header, &whole, &bad, Refusal::Length);
    bad.image = differs.image.clone();
    refused(header, &whole, &bad, Refusal::Erasures);
    refused(header, &whole, &differs, Refusal::ReadingsDiffer);
    // Also where too few positions of another stripe are left in both.
    let short = Read::without(header, &image, &first(2, 5));
    refused(header, &short, &differs, Refusal::ReadingsDiffer);
    let (whole, part) = (whole.reading(), calls::shelf_of_two);
    assert_eq!(part(header, whole, whole, 3), Err(Refusal::Stripe));
    // Output and scratch are tested with the images.
    let [mut out, mut scratch] = nines(header);
    let short = &mut scratch[1..];
    let answer = calls::recover_two(header, whole, differs.reading(), &mut out, short);
    assert_eq!(answer, Err(fault(Refusal::Length, None)));
    let short = &mut out[1..];
    let answer = calls::recover_two(header, whole, differs.reading(), short, &mut scratch);
    assert_eq!(answer, Err(fault(Refusal::Length, None)));
    assert_eq!([out, scratch], nines(header));
}

/// Positions are never taken from both readings: 7 where neither has half of a stripe, and 8 and 9 by the words of the one that the stripe is taken from.
#[test]
fn a_stripe_at_fault_in_its_reading() {
    let (header, image, records) = example();
    let one = Read::without(header, &image, &first(1, 3));
    let ends = [(1, 1), (1, 2), (1, 3)];
    let other = Read::without(header, &image, &ends);
    let answer = recovered(header, one.reading(), other.reading());
    assert_eq!(answer, Err(fault(Refusal::TooFew, Some(1))));
    // Position 0 of stripe 2 survives in the second alone, which has more of the stripe where the first lacks two.
    for (byte, refusal) in [(3, Refusal::OutOfField), (0, Refusal::Inconsistent)] {
        let mut other = Read::without(header, &image, &[(2, 1)]);
        other.image[byte] ^= 0x55;
        let two = Read::without(header, &image, &first(2, 2));
        let answer = recovered(header, two.reading(), other.reading());
        assert_eq!(answer, Err(fault(refusal, Some(2))));
        // The first has as many, and is asked.
        let tie = Read::without(header, &image, &first(2, 1));
        let answer = recovered(header, tie.reading(), other.reading());
        assert_eq!(answer.as_ref(), Ok(&records));
    }
}

/// A vault after some writes, and its records.
fn written(random: &mut Random) -> (Vault, Vec<u32>) {
    let (k, s) = (1 + random.below(4) as u32, 1 + random.below(3) as u32);
    let mut vault = Vault::open(k, s, vec![7; sizes::raw(k, s)]).unwrap();
    for _ in 0..random.below(40) {
        let block: Vec<u32> = (0..s).map(|_| 1 + random.below(65535) as u32).collect();
        vault.write(random.below(1 << k) as u32, &block).unwrap();
    }
    let words = |record| vault.read(record).unwrap().words().unwrap();
    let records = (0..1 << k).flat_map(words).copied().collect();
    (vault, records)
}

/// Positions that are lost, of all stripes, about as many of each as are left.
fn lost(random: &mut Random, header: Header) -> Vec<Position> {
    let mut lost = Vec::new();
    for stripe in 0..=header.k {
        let all = stripes::positions(stripe);
        let count = (all / 2 + random.index(3)).saturating_sub(1);
        let some = random.some(all, count.min(all));
        lost.extend(some.into_iter().map(|number| (stripe, number)));
    }
    lost
}

/// Any history, and any losses with anything in their place.
#[test]
fn the_records_are_as_last_written_or_the_first_stripe_that_is_short_in_both_is_named() {
    let mut random = Random::new(13);
    let (mut taken, mut refused) = (0, 0);
    for _ in 0..300 {
        let (vault, records) = written(&mut random);
        let (header, image) = (vault.header(), vault.image().unwrap());
        let losses = [(); 2].map(|()| lost(&mut random, header));
        let [one, two] = [0, 1].map(|i| Read::without(header, &image, &losses[i]));
        let (one, two) = (one.reading(), two.reading());
        let left = |i: usize, stripe: u32| {
            let lost = losses[i].iter().filter(|position| position.0 == stripe);
            stripes::positions(stripe) - lost.count()
        };
        for stripe in header.stripes() {
            let of = if left(1, stripe) > left(0, stripe) {
                Which::Second
            } else {
                Which::First
            };
            taken_from(header, one, two, stripe, of);
        }
        let mut needed = (0..=header.k).rev().filter(|&stripe| header.filled(stripe));
        let short = needed.find(|&stripe| left(0, stripe).max(left(1, stripe)) < 1 << stripe);
        let expected = match short {
            None => Ok(records),
            some => Err(fault(Refusal::TooFew, some)),
        };
        taken += u32::from(expected.is_ok());
        refused += u32::from(expected.is_err());
        assert_eq!(recovered(header, one, two), expected);
    }
    assert!(
        taken > 50 && refused > 50,
        "{taken} taken, {refused} refused"
    );
}
