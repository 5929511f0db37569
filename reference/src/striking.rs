//! Striking: a write of 65536 in the place of each data word of a record.
use crate::header::Header;
use crate::opening::lengths;
use crate::record::STRUCK;
use crate::refusal::{test, Refusal};
use crate::writing::{answer, store};

/// The number, and the header afterwards.
pub fn strike(
    header: Header,
    raw: &mut [u32],
    full: &mut [u32],
    log: &mut [u32],
    record: u32,
) -> (u32, Header) {
    let tested = tests(header, raw, full, log, record);
    let block = || vec![STRUCK; header.data()];
    let stored = tested.map(|()| store(header, raw, full, log, record, &block()));
    answer(header, stored)
}

/// Tests 1, 2 and 4.
fn tests(
    header: Header,
    raw: &[u32],
    full: &[u32],
    log: &[u32],
    record: u32,
) -> Result<(), Refusal> {
    header.test()?;
    lengths(header, raw, full, log)?;
    test((record as usize) < header.records(), Refusal::Record)
}

#[cfg(test)]
mod tests {
    use super::*;
    use crate::opening::{build, open};
    use crate::stripe::code;
    use crate::writing::write;
    use random::Random;

    /// A header, and buffers that are lent with it.
    #[derive(Clone, Debug, PartialEq)]
    struct Buffers {
        header: Header,
        raw: Vec<u32>,
        full: Vec<u32>,
        log: Vec<u32>,
    }

    impl Buffers {
        /// Words below a bound that no opening made.
        fn any(random: &mut Random, header: Header, bound: u64) -> Buffers {
            let mut words = |count| (0..count).map(|_| random.below(bound) as u32).collect();
            Buffers {
                header,
                raw: words(header.raw_len()),
                full: words(header.full_len()),
                log: words(header.log_len()),
            }
        }

        fn strike(&mut self, record: u32) -> u32 {
            let Buffers { raw, full, log, .. } = self;
            let (number, header) = strike(self.header, raw, full, log, record);
            self.header = header;
            number
        }

        fn write(&mut self, record: u32, block: &[u32]) -> u32 {
            let Buffers { raw, full, log, .. } = self;
            let (number, header) = write(self.header, raw, full, log, record, block);
            self.header = header;
            number
        }
    }

    /// Each filled level codes its writes and strikes, in order of time, and the full stripe the records at the round's start.
    #[test]
    fn a_strike_is_a_write_of_its_round() {
        let mut random = Random::new(13);
        for (k, s) in [(1, 1), (2, 2), (3, 1), (4, 3)] {
            let header = Header { k, s, c: 0 };
            let mut vault = Buffers::any(&mut random, header, 65536);
            vault.raw[..header.data()].fill(STRUCK);
            let opened = open(k, s, &vault.raw, &mut vault.full, &mut vault.log);
            assert_eq!(opened, (0, header));
            let (mut start, mut since) = (vault.raw.clone(), Vec::new());
            for _ in 0..3 << k {
                let record = random.below(1 << k) as u32;
                let mut block = vec![STRUCK; header.data()];
                if random.below(2) == 0 {
                    block.fill_with(|| 1 + random.below(65535) as u32);
                    assert_eq!(vault.write(record, &block), 0);
                } else {
                    assert_eq!(vault.strike(record), 0);
                }
                since.push(u64::from(record));
                since.extend(block.iter().map(|&x| u64::from(x)));
                let put = record as usize * header.data();
                assert_eq!(vault.raw[put..put + header.data()], block);
                if vault.header.c == 0 {
                    start.copy_from_slice(&vault.raw);
                    since.clear();
                }
                coded(&vault, &start, &since);
            }
        }
    }

    /// The stripes are the code of the records at the round's start, and of its writes.
    fn coded(vault: &Buffers, start: &[u32], since: &[u64]) {
        let header = vault.header;
        let mut full = vec![0; header.full_len()];
        build(header, start, &mut full);
        assert_eq!(vault.full, full);
        for level in 0..header.k {
            let (from, to) = (header.level_start(level), header.level_start(level + 1));
            let mut words = vec![0; to - from];
            if header.filled(level) {
                let first = header.first(level) as usize * header.width();
                let blocks = &since[first..first + (to - from) / 2];
                words = code(header.k, header.first(level), header.width(), blocks);
            }
            let log = vault.log[from..to].iter().map(|&x| u64::from(x));
            assert!(log.eq(words), "level {level} at {header:?}");
        }
    }

    /// On any buffers, at every c: the words that no strike puts there count modulo p where writing reads them.
    #[test]
    fn on_buffers_that_no_opening_made() {
        let mut random = Random::new(14);
        for (k, s) in [(1, 1), (2, 3), (3, 1)] {
            for c in 0..1 << k {
                let header = Header { k, s, c };
                let given = Buffers::any(&mut random, header, 1 << 32);
                let mut reduced = given.clone();
                for words in [&mut reduced.raw, &mut reduced.log] {
                    words.iter_mut().for_each(|x| *x %= 65537);
                }
                let record = random.below(1 << k) as u32;
                let [mut left, mut other] = [given, reduced];
                assert_eq!((left.strike(record), other.strike(record)), (0, 0));
                assert_eq!((left.header, &left.full), (other.header, &other.full));
                let rebuilt = header.level_start((c + 1).trailing_zeros() + 1);
                let rebuilt = rebuilt.min(left.log.len());
                assert_eq!(left.log[..rebuilt], other.log[..rebuilt]);
                let start = record as usize * header.data();
                assert!(left.raw[start..start + header.data()]
                    .iter()
                    .all(|&x| x == STRUCK));
            }
        }
    }

    #[test]
    fn refusals_change_nothing() {
        let header = Header { k: 2, s: 2, c: 3 };
        let good = Buffers::any(&mut Random::new(15), header, 65536);
        let refused = |number: u32, record: u32, change: fn(&mut Buffers)| {
            let mut buffers = good.clone();
            change(&mut buffers);
            let mut left = buffers.clone();
            assert_eq!((left.strike(record), &left), (number, &buffers));
        };
        refused(1, 4, |x| x.header.c = 4);
        refused(1, 0, |x| x.header.k = 0);
        refused(1, 0, |x| x.header.s = 129);
        refused(2, 4, |x| x.raw.push(0));
        refused(2, 0, |x| x.full.truncate(23));
        refused(2, 0, |x| x.log.clear());
        refused(4, 4, |_| {});
        refused(4, u32::MAX, |_| {});
    }
}
