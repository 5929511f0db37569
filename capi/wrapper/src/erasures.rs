//! Erasure lists (docs/FORMAT.md; gap lists to users): pairs of offset and length, 4 bytes each, low byte first.
use crate::stripes::word;
use std::ops::Range;

/// The erasure list of some ranges of bytes: sorted, with ranges that overlap or touch joined. Empty ranges are left out.
pub fn list(mut ranges: Vec<Range<usize>>) -> Vec<u8> {
    ranges.retain(|range| !range.is_empty());
    ranges.sort_by_key(|range| range.start);
    let mut joined: Vec<Range<usize>> = Vec::new();
    for range in ranges {
        match joined.last_mut() {
            Some(last) if range.start <= last.end => last.end = last.end.max(range.end),
            _ => joined.push(range),
        }
    }
    // An image has far fewer than 2^32 bytes.
    let pair = |range: &Range<usize>| [range.start as u32, range.len() as u32];
    let numbers = joined.iter().flat_map(pair);
    numbers.flat_map(u32::to_le_bytes).collect()
}

/// The ranges of bytes that an erasure list names, pair by pair.
pub fn ranges(list: &[u8]) -> impl Iterator<Item = Range<usize>> + '_ {
    list.chunks_exact(8).map(|pair| {
        let (offset, length) = (word(&pair[..4]) as usize, word(&pair[4..]) as usize);
        offset..offset + length
    })
}

#[cfg(test)]
mod tests {
    use super::{list, ranges};

    fn pairs(ranges: &[std::ops::Range<usize>]) -> Vec<u32> {
        let number = |b: &[u8]| u32::from_le_bytes(b.try_into().unwrap());
        list(ranges.to_vec()).chunks(4).map(number).collect()
    }

    #[test]
    fn sorted_and_joined() {
        assert_eq!(pairs(&[]), []);
        assert_eq!(pairs(&[9..17, 0..8]), [0, 8, 9, 8]);
        assert_eq!(pairs(&[8..16, 0..8]), [0, 16]);
        assert_eq!(pairs(&[0..100, 5..10, 100..101]), [0, 101]);
        assert_eq!(pairs(&[4..4, 6..7]), [6, 1]);
    }

    #[test]
    fn ranges_are_those_of_the_list() {
        let some = [0..8, 9..17, 300..70000];
        assert!(ranges(&list(some.to_vec())).eq(some));
        assert_eq!(ranges(&[]).count(), 0);
    }
}
