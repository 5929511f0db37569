//! Two readings of one rack: their tests (sections 9 and 10), and what section 8 says of them, on the whole image of section 12.
use crate::calls::{decode_stripe, recover, recover_two, shelf_of_two, Reading};
use crate::document::{section, table};
use crate::example::Example;
use crate::forms::{fit, number};
use crate::places::{positions, stripes_in_order};
use reference::two_readings::Place;
use std::ops::Range;
use vault_library::{erasures, stripes, Header};

/// The bytes of one position.
fn bytes_of(header: Header, stripe: u32, position: usize) -> Range<usize> {
    stripes::position(header.k, header.s, stripe, position)
}

/// The list that erases these positions.
fn without(header: Header, lost: &[(u32, usize)]) -> Vec<u8> {
    let bytes = lost.iter().map(|&(stripe, i)| bytes_of(header, stripe, i));
    erasures::list(bytes.collect())
}

/// Where a stripe stands in that reading.
fn place(header: Header, reading: u32, stripe: u32) -> Place {
    let start = bytes_of(header, stripe, 0).start;
    let count = stripes::positions(stripe) * bytes_of(header, stripe, 0).len();
    Place {
        reading,
        start,
        count,
    }
}

/// Both calls take the readings: the records come back, and each stripe is taken from the reading that is said of it, in the order of an image.
fn taken(header: Header, readings: [Reading; 2], records: &[u32], chosen: &[u32]) {
    let left = recover_two(header, readings);
    assert_eq!(
        (left.number, left.stripe, &left.out[..]),
        (0, None, records)
    );
    let filled = stripes_in_order(header.k).filter(|&stripe| header.filled(stripe));
    let filled: Vec<u32> = filled.collect();
    assert_eq!(filled.len(), chosen.len());
    for (stripe, &reading) in filled.into_iter().zip(chosen) {
        let given = shelf_of_two(header, readings, stripe);
        assert_eq!(given, (0, place(header, reading, stripe)));
        // What is decoded is what stands there.
        let (image, list) = readings[reading as usize];
        assert_eq!(decode_stripe(header, image, list, stripe).number, 0);
    }
}

/// Both calls refuse 13.
fn differ(header: Header, readings: [Reading; 2]) {
    let left = recover_two(header, readings);
    assert_eq!((left.number, left.stripe), (13, None));
    for stripe in 0..=header.k + 1 {
        let given = shelf_of_two(header, readings, stripe);
        assert_eq!(given, (13, Place::default()));
    }
}

/// Each stripe has a choice of its own, and lost positions of an empty level do not count.
#[test]
fn section_8_a_choice_for_each_stripe() {
    let example = Example::read();
    let (header, image) = (example.header, &example.whole[..]);
    let records = example.records(example.story.writes.len());
    for choice in 0..8 {
        // The reading that is not taken lost a position of the stripe. Where that is the second, the first lost another: they have as many.
        let chosen: Vec<u32> = (0..3).map(|i| choice >> i & 1).collect();
        let mut lost = [Vec::new(), Vec::new()];
        for (stripe, &reading) in stripes_in_order(header.k).zip(&chosen) {
            lost[1 - reading as usize].push((stripe, 0));
            if reading == 0 {
                lost[0].push((stripe, 1));
            }
        }
        let lists = lost.map(|lost| without(header, &lost));
        let readings = [(image, &lists[0][..]), (image, &lists[1][..])];
        taken(header, readings, &records, &chosen);
    }
    let before = Header { c: 2, ..header };
    let list = without(before, &[(0, 0), (0, 1)]);
    let records = example.records(2);
    taken(before, [(image, &list), (image, &[])], &records, &[0, 0]);
}

/// Each byte of each position: 13 where the position survives in both and the stripe is needed.
#[test]
fn section_8_each_byte_is_compared() {
    let example = Example::read();
    for (c, writes) in [(3, 3), (2, 2)] {
        let header = Header {
            c,
            ..example.header
        };
        let records = example.records(writes);
        let needed = |stripe| header.filled(stripe);
        let filled = stripes_in_order(header.k).filter(|&stripe| needed(stripe));
        let filled: Vec<u32> = filled.collect();
        for position in positions(header) {
            let last = position.bytes.end - 1..position.bytes.end;
            let list = erasures::list(vec![last]);
            let own = |other| -> Vec<u32> {
                let chosen = |&stripe| if stripe == position.stripe { other } else { 0 };
                filled.iter().map(chosen).collect()
            };
            for at in position.bytes.clone() {
                let mut other = example.whole.clone();
                other[at] ^= 128;
                let (whole, changed): (Reading, Reading) = ((&example.whole, &[]), (&other, &[]));
                if needed(position.stripe) {
                    differ(header, [whole, changed]);
                    differ(header, [changed, whole]);
                } else {
                    taken(header, [whole, changed], &records, &own(0));
                }
                taken(header, [whole, (&other, &list)], &records, &own(0));
                taken(header, [(&other, &list), whole], &records, &own(1));
            }
        }
    }
}

/// A stripe is decoded in one reading alone: where each has fewer than half of it, and both together all, it is refused 7.
#[test]
fn section_8_not_from_both() {
    let example = Example::read();
    let (header, image) = (example.header, &example.whole[..]);
    let records = example.records(example.story.writes.len());
    for stripe in stripes_in_order(header.k) {
        let (half, all) = (1 << stripe, 2 << stripe);
        let lists = [0..half, half..all].map(|range: Range<usize>| {
            let lost: Vec<(u32, usize)> = range.map(|i| (stripe, i)).collect();
            [
                lost.clone(),
                [&lost[..], &[(stripe, (lost[0].1 + half) % all)]].concat(),
            ]
            .map(|lost| without(header, &lost))
        });
        let [[first, fewer], [second, least]] = &lists;
        taken(header, [(image, first), (image, second)], &records, &[0; 3]);
        let own = |&other| u32::from(other == stripe);
        let order: Vec<u32> = stripes_in_order(header.k).collect();
        let chosen: Vec<u32> = order.iter().map(own).collect();
        taken(header, [(image, fewer), (image, second)], &records, &chosen);
        let left = recover_two(header, [(image, fewer), (image, least)]);
        assert_eq!((left.number, left.stripe), (7, Some(stripe)));
    }
}

/// A stray word that both have is no difference, and refused 8 with its stripe; the same reading twice gives what recover gives.
#[test]
fn section_8_the_same_reading_twice() {
    let example = Example::read();
    let header = example.header;
    for position in positions(header) {
        let mut image = example.whole.clone();
        image[position.bytes.start + 3] = 1;
        let list = without(header, &[(0, 1), (1, 2)]);
        for list in [&[][..], &list, &example.list] {
            let twice = recover_two(header, [(&image, list); 2]);
            assert_eq!(twice, recover(header, &image, list));
        }
        let left = recover_two(header, [(&image, &[]); 2]);
        assert_eq!((left.number, left.stripe), (8, Some(position.stripe)));
    }
}

/// The numbers that both calls give to two readings with these faults, by their numbers: 7 to 10 on level 1, of which the second reading has nothing.
fn given(faults: &[u32]) -> [u32; 2] {
    let has = |number| faults.contains(&number);
    let example = Example::read();
    let mut header = example.header;
    let mut image = example.whole.clone();
    let start = bytes_of(header, 1, 0).start;
    let mut put = |word: usize, with: u32| {
        image[start + 4 * word..][..4].copy_from_slice(&with.to_le_bytes());
    };
    if has(10) {
        // The blocks 4 1 2 and 3 3 4: 4 is no record.
        for (word, with) in [(0, 7), (3, 1), (6, 64773), (9, 772)] {
            put(word, with);
        }
    }
    if has(9) {
        put(1, 5);
    }
    if has(8) {
        put(2, 65537);
    }
    let all: Vec<(u32, usize)> = (0..4).map(|i| (1, i)).collect();
    let mut lists = [Vec::new(), without(header, &all)];
    if has(7) {
        lists[0] = without(header, &all[1..]);
    }
    if has(3) {
        lists[1].push(0);
    }
    let mut other = example.whole.clone();
    if has(13) {
        other[3] ^= 1;
    }
    if has(2) {
        other.pop();
    }
    if has(1) {
        header.c = 4;
    }
    let stripe = if has(6) { 3 } else { 1 };
    let readings = [(&image[..], &lists[0][..]), (&other[..], &lists[1][..])];
    let left = recover_two(header, readings);
    [left.number, shelf_of_two(header, readings, stripe).0]
}

/// The tests of the two calls, in the order of section 9: each alone, and each two.
#[test]
fn sections_9_and_10_tests_of_two_readings() {
    let lines = section("## 9 ");
    let head = "| call | takes | buffers it may change | tests, in order |";
    let rows = table(&lines, head, 11);
    let tests = |call: &str| rows.iter().find(|row| row[0] == call).expect("a call")[3];
    let pattern =
        "{}, {} (both images, out, scratch), {}, {}, then {} to {} on each stripe in turn";
    let recovery: [u32; 6] = fit(tests("recover_two"), pattern).map(number);
    assert_eq!(recovery, [1, 2, 3, 13, 7, 10]);
    let pattern = "{}, {} (both images), {}, {}, {}";
    let stripe: [u32; 5] = fit(tests("shelf_of_two"), pattern).map(number);
    assert_eq!(stripe, [1, 2, 3, 13, 6]);
    assert_eq!(given(&[]), [0, 0]);
    for (call, tests) in [&[1, 2, 3, 13, 7, 8, 9, 10][..], &stripe]
        .into_iter()
        .enumerate()
    {
        for (i, &first) in tests.iter().enumerate() {
            assert_eq!(given(&[first])[call], first);
            for &second in &tests[i + 1..] {
                let both = given(&[first, second])[call];
                assert_eq!(both, first, "{first} and {second}");
            }
        }
    }
}
