//! The library's calls tuned by hand, for a comparison: the same calls on the same buffers, giving the same words, with SSE2 and no more. What it does
//! beyond plain.rs: products by `pmaddwd`, which are folded and not reduced (lanes.rs); two levels of mixing in one pass, and words settled in the last one
//! (passes.rs); first passes straight out of the records, of the levels below, or of the image (store.rs, recovery.rs); weights as sums of logarithms
//! (weights.rs); the decoding of a stripe (decoding.rs), and of one of few blocks (small.rs); factors and logarithms out of tables (tables.rs).
mod decoding;
mod lanes;
mod passes;
mod recovery;
mod small;
mod store;
mod tables;
#[cfg(test)]
mod tests;
mod weights;

pub use recovery::recover;

#[derive(Clone, Copy)]
pub struct Header {
    pub k: u32,
    pub s: u32,
    pub c: u32,
}

impl Header {
    fn fits(self) -> bool {
        (1..=10).contains(&self.k) && (1..=128).contains(&self.s) && self.c < 1 << self.k
    }

    fn n(self) -> usize {
        1 << self.k
    }

    fn width(self) -> usize {
        self.s as usize + 1
    }

    fn raw_len(self) -> usize {
        self.n() * self.s as usize
    }

    fn full_len(self) -> usize {
        2 * self.n() * self.width()
    }

    fn log_len(self) -> usize {
        (2 * self.n() - 2) * self.width()
    }
}

fn lengths_fit(header: Header, raw: &[u32], full: &[u32], log: &[u32]) -> bool {
    raw.len() == header.raw_len()
        && full.len() == header.full_len()
        && log.len() == header.log_len()
}

/// No word has a bit above the lowest sixteen: one test for all words together, so that they are taken four at a time.
fn all_data(words: &[u32]) -> bool {
    words.iter().fold(0, |all, &x| all | x) <= 65535
}

/// Whether words are those of a record: data words, or the word of a struck one in each place.
fn is_record(words: impl Iterator<Item = u32> + Clone) -> bool {
    words.clone().all(|x| x <= 65535) || words.clone().all(|x| x == 65536)
}

/// The same of all records of s words.
fn all_records(words: &[u32], s: usize) -> bool {
    let mut records = words.chunks_exact(s);
    records.all(|record| is_record(record.iter().copied()))
}

pub fn open(k: u32, s: u32, raw: &[u32], full: &mut [u32], log: &mut [u32]) -> u32 {
    let header = Header { k, s, c: 0 };
    if !header.fits() {
        return 1;
    }
    if !lengths_fit(header, raw, full, log) {
        return 2;
    }
    let struck = !all_data(raw);
    if struck && !all_records(raw, s as usize) {
        return 5;
    }
    store::build(header, raw, full, struck);
    log.fill(0);
    0
}

/// The number, and c afterwards.
pub fn write(
    header: Header,
    raw: &mut [u32],
    full: &mut [u32],
    log: &mut [u32],
    record: u32,
    block: &[u32],
) -> (u32, u32) {
    let s = header.s as usize;
    let c = header.c;
    if !header.fits() {
        return (1, c);
    }
    if !lengths_fit(header, raw, full, log) || block.len() != s {
        return (2, c);
    }
    let i = record as usize;
    if i >= header.n() {
        return (4, c);
    }
    let together = block.iter().fold(0, |all, &x| all | x);
    if together > 65535 {
        return (5, c);
    }
    if together == 0 {
        return (11, c);
    }
    raw[i * s..(i + 1) * s].copy_from_slice(block);
    if c as usize + 1 == header.n() {
        store::build(header, raw, full, true);
        log.fill(0);
        return (0, 0);
    }
    store::rebuild(header, log, c.trailing_ones() as usize, record, block);
    (0, c + 1)
}
