//! A rack that loses positions in a card reader: its image, its gap list, and its picture.
use crate::picture::Picture;
use random::Random;
use std::collections::BTreeSet;
use vault_library::{erasures, stripes, Count, Explanation, Header, Reading, Refusal};

pub struct Rack {
    header: Header,
    image: Vec<u8>,
    gaps: Vec<u8>,
    /// Shelf and number of each lost position.
    lost: BTreeSet<(u32, usize)>,
}

impl Rack {
    pub fn new(header: Header, image: Vec<u8>) -> Rack {
        Rack {
            header,
            image,
            gaps: Vec::new(),
            lost: BTreeSet::new(),
        }
    }

    /// Loses a surviving position of a shelf, picked at random: its bytes in the image become something else. Gives its number.
    pub fn lose(&mut self, stripe: u32, random: &mut Random) -> usize {
        let position = *random.one(&self.survivors(stripe));
        let bytes = stripes::position(self.header.k, self.header.s, stripe, position);
        let garbage = random.bytes(bytes.len());
        self.image[bytes].copy_from_slice(&garbage);
        self.lost.insert((stripe, position));
        self.gaps = self.listed();
        position
    }

    fn survivors(&self, stripe: u32) -> Vec<usize> {
        let all = 0..stripes::positions(stripe);
        all.filter(|&position| !self.lost.contains(&(stripe, position)))
            .collect()
    }

    /// The gap list of the lost positions.
    fn listed(&self) -> Vec<u8> {
        let Header { k, s, .. } = self.header;
        let bytes = |&(stripe, position)| stripes::position(k, s, stripe, position);
        erasures::list(self.lost.iter().map(bytes).collect())
    }

    pub fn reading(&self) -> Reading<'_> {
        Reading {
            image: &self.image,
            erasures: &self.gaps,
        }
    }

    /// What the vault says of it.
    pub fn explained(&self) -> Result<Explanation, Refusal> {
        Explanation::new(self.header, &self.image, &self.gaps)
    }

    /// Its picture, with the counts that the vault gave.
    pub fn picture<'a>(&self, counts: &'a [Count]) -> Picture<'a> {
        Picture::new(self.header, &self.gaps, counts, holds)
    }
}

/// The full shelf was built of yesterday's sheets; a strike is one of today's writes.
pub fn holds(header: Header, stripe: u32) -> String {
    let count = 1 << stripe;
    match count {
        _ if stripe == header.k => format!("{count} sheets of yesterday"),
        1 => "1 write of today".into(),
        _ => format!("{count} writes of today"),
    }
}
