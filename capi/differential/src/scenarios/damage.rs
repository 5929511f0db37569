//! Damage to an image: positions that are lost, and words that are altered.
use crate::erasures::{self, Marks};
use crate::session::Session;
use reference::field::P;
use reference::lent::Bytes;

/// Lends an erasure list, and fills what it erases, and the empty levels, with anything: none of it may matter.
pub fn lose(session: &mut Session, marks: &Marks) {
    let header = session.header();
    let list = erasures::list(&mut session.random, header, marks);
    let size = 4 * header.width();
    let lost = erasures::positions(header, marks)
        .filter_map(|(start, erased)| erased.then_some(start))
        .collect::<Vec<usize>>();
    let empty = (0..header.k).filter(|&l| !header.filled(l));
    let unused = empty.flat_map(|level| {
        let start = header.stripe_start(level);
        (0..2 << level).map(move |i| 4 * (start + i * header.width()))
    });
    let mut image = session.lent().image.part().to_vec();
    for start in lost.into_iter().chain(unused) {
        let byte = session.random.below(256) as u8;
        image[start..start + size].fill(byte);
    }
    session.set(|lender| {
        lender.list.set(&list);
        lender.image.set(&image);
    });
}

/// Changes the word of an image that begins at a byte.
pub fn change(session: &mut Session, image: Bytes, at: usize, altered: impl Fn(u32) -> u32) {
    session.set(|lender| {
        let bytes = &mut lender.bytes_mut(image).part_mut()[at..at + 4];
        let word = u32::from_le_bytes(bytes.try_into().expect("four bytes"));
        bytes.copy_from_slice(&altered(word).to_le_bytes());
    });
}

/// Alters a word at a random place of the image, which may be lost or not looked at.
pub fn alter(session: &mut Session) {
    let words = session.lent().image.part().len() / 4;
    let at = 4 * session.random.index(words);
    let choice = session.random.below(5);
    let other = session.random.below(P) as u32;
    change(session, Bytes::Image, at, |word| match choice {
        0 => 65537,
        1 => u32::MAX,
        2 => word ^ 1,
        3 => ((u64::from(word) + 1) % P) as u32,
        _ => other,
    });
}

/// Alters a surviving word of a stripe, one time in four to a stray word.
pub fn alter_survivor(session: &mut Session, marks: &Marks, stripe: u32) {
    let header = session.header();
    let rows = &marks[stripe as usize];
    let survivors: Vec<usize> = (0..rows.len()).filter(|&i| !rows[i]).collect();
    if survivors.is_empty() {
        return;
    }
    let random = &mut session.random;
    let row = *random.one(&survivors);
    let column = random.index(header.width());
    let at = 4 * (header.stripe_start(stripe) + row * header.width() + column);
    let more = 1 + random.below(65536) as u32;
    let stray = random.below(4) == 0;
    change(session, Bytes::Image, at, |word| {
        if stray {
            P as u32 + more
        } else {
            word.wrapping_add(more) % P as u32
        }
    });
}
