//! The stripes and positions of an image in their order, and which positions an erasure list erases.
use crate::calls::reference_header;
use reference::erasures;
use std::iter;
use std::ops::Range;
use vault_library::{stripes, Header};

/// The full stripe and then the levels upward, as an image has them.
pub fn stripes_in_order(k: u32) -> impl Iterator<Item = u32> {
    iter::once(k).chain(0..k)
}

/// A position: its stripe, its name in the document, and its bytes.
pub struct Position {
    pub stripe: u32,
    pub name: String,
    pub bytes: Range<usize>,
}

/// All positions, in the order of an image.
pub fn positions(header: Header) -> Vec<Position> {
    let Header { k, s, .. } = header;
    let of_stripe = |stripe: u32| {
        (0..stripes::positions(stripe)).map(move |i| Position {
            stripe,
            name: if stripe == k {
                format!("C {i}")
            } else {
                format!("{stripe} {i}")
            },
            bytes: stripes::position(k, s, stripe, i),
        })
    };
    stripes_in_order(k).flat_map(of_stripe).collect()
}

/// The names of the positions that a list erases: by the wrapper's places, and by reference/.
pub fn erased(header: Header, list: &[u8]) -> Vec<String> {
    let plain = reference_header(header);
    let gaps = erasures::gaps(list, plain.image_len()).expect("a good list");
    let marks_of = |stripe| erasures::erased(plain, stripe, &gaps);
    let marks = stripes_in_order(header.k).flat_map(marks_of);
    let mut names = Vec::new();
    for (position, mark) in positions(header).into_iter().zip(marks) {
        let (from, to) = (position.bytes.start as u64, position.bytes.end as u64);
        let lost = gaps.iter().any(|gap| gap.0 < to && from < gap.1);
        assert_eq!(lost, mark, "{}", position.name);
        names.extend(Some(position.name).filter(|_| lost));
    }
    names
}
