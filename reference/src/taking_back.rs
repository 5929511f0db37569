//! Taking back: the last write of the round undone. Its record gets what the write before left, and the lowest filled level is split into those below it.
use crate::header::Header;
use crate::opening::lengths;
use crate::recovery::records;
use crate::refusal::{number, test, Refusal};
use crate::stripe::code;

/// The number, and the header afterwards.
pub fn take_back(
    header: Header,
    raw: &mut [u32],
    full: &[u32],
    log: &mut [u32],
    scratch: &mut [u32],
) -> (u32, Header) {
    let tested = tests(header, raw, full, log, scratch);
    if tested.is_err() {
        return (number(&tested), header);
    }
    scratch.fill(0);
    let undone = undone(header, full, log);
    let number = number(&undone);
    let Ok(undone) = undone else {
        return (number, header);
    };
    let start = undone.record * header.data();
    for (to, x) in raw[start..].iter_mut().zip(&undone.before) {
        *to = *x as u32;
    }
    split(header, log, &undone.others);
    let c = header.c - 1;
    (number, Header { c, ..header })
}

/// Tests 1, 2 and 12.
fn tests(
    header: Header,
    raw: &[u32],
    full: &[u32],
    log: &[u32],
    scratch: &[u32],
) -> Result<(), Refusal> {
    header.test()?;
    lengths(header, raw, full, log)?;
    let fits = scratch.len() == header.double_scratch_len();
    test(fits, Refusal::Length)?;
    test(header.c != 0, Refusal::RoundStart)
}

/// The write that is taken back.
struct Undone {
    record: usize,
    /// The record's data before it.
    before: Vec<u64>,
    /// The other blocks of its level, which are older, in order of time.
    others: Vec<u64>,
}

/// The level that holds the last write.
fn lowest(header: Header) -> u32 {
    header.c.trailing_zeros()
}

/// The last write; tests 8 to 10, of the lowest filled level and then of each stripe above in which the write before is sought. On the full stripe each record
/// has a block, so that the search ends there.
fn undone(header: Header, full: &[u32], log: &[u32]) -> Result<Undone, Refusal> {
    let mut others = blocks(header, full, log, lowest(header))?;
    let write = others.split_off(others.len() - header.width());
    let record = write[0];
    let mut above = (lowest(header) + 1..=header.k).filter(|&stripe| header.filled(stripe));
    let mut found = newest(header, &others, record);
    let before = loop {
        if let Some(data) = found {
            break data;
        }
        let stripe = above.next().expect("the full stripe has each record");
        found = newest(header, &blocks(header, full, log, stripe)?, record);
    };
    Ok(Undone {
        record: record as usize,
        before,
        others,
    })
}

/// The data of the last of some blocks that has this number.
fn newest(header: Header, blocks: &[u64], record: u64) -> Option<Vec<u64>> {
    let mut newer = blocks.chunks(header.width()).rev();
    let found = newer.find(|block| block[0] == record)?;
    Some(found[1..].to_vec())
}

/// The blocks of a stripe where no position is erased.
fn blocks(header: Header, full: &[u32], log: &[u32], stripe: u32) -> Result<Vec<u64>, Refusal> {
    let words = if stripe == header.k {
        full
    } else {
        &log[header.level_start(stripe)..header.level_start(stripe + 1)]
    };
    let words: Vec<u64> = words.iter().map(|&x| u64::from(x)).collect();
    records(header, stripe, &vec![false; 2 << stripe], &words)
}

/// Codes all blocks of the lowest filled level but the last as the levels below it, the oldest on the highest of these, and empties that level.
fn split(header: Header, log: &mut [u32], others: &[u64]) {
    let (width, level) = (header.width(), lowest(header));
    let mut rest = others;
    for lower in (0..level).rev() {
        let (own, newer) = rest.split_at(width << lower);
        let first = u64::from(header.c - (2 << lower));
        let coded = code(header.k, first, width, own);
        for (to, x) in log[header.level_start(lower)..].iter_mut().zip(coded) {
            *to = x as u32;
        }
        rest = newer;
    }
    log[header.level_start(level)..header.level_start(level + 1)].fill(0);
}

#[cfg(test)]
mod tests {
    use super::*;
    use crate::field::P;
    use crate::opening::{build, open};
    use crate::record::STRUCK;
    use crate::striking::strike;
    use crate::writing::earlier_write;
    use random::Random;

    /// A header, and buffers that are lent with it.
    #[derive(Clone, Debug, PartialEq)]
    struct Buffers {
        header: Header,
        raw: Vec<u32>,
        full: Vec<u32>,
        log: Vec<u32>,
        scratch: Vec<u32>,
    }

    fn data(random: &mut Random, count: usize) -> Vec<u32> {
        (0..count).map(|_| random.below(65536) as u32).collect()
    }

    impl Buffers {
        fn zeros(header: Header) -> Buffers {
            Buffers {
                header,
                raw: vec![0; header.raw_len()],
                full: vec![0; header.full_len()],
                log: vec![0; header.log_len()],
                scratch: vec![0; header.double_scratch_len()],
            }
        }

        fn opened(random: &mut Random, k: u32, s: u32) -> Buffers {
            let mut buffers = Buffers::zeros(Header { k, s, c: 0 });
            let Buffers { raw, full, log, .. } = &mut buffers;
            *raw = data(random, raw.len());
            assert_eq!(open(k, s, raw, full, log), (0, buffers.header));
            buffers
        }

        /// A write of a block that may be blank.
        fn write(&mut self, record: u32, block: &[u32]) {
            let Buffers { raw, full, log, .. } = self;
            let (number, header) = earlier_write(self.header, raw, full, log, record, block);
            assert_eq!(number, 0);
            self.header = header;
        }

        fn strike(&mut self, record: u32) {
            let Buffers { raw, full, log, .. } = self;
            let (number, header) = strike(self.header, raw, full, log, record);
            assert_eq!(number, 0);
            self.header = header;
        }

        /// A write, or a strike.
        fn any_write(&mut self, random: &mut Random) {
            let record = random.index(self.header.records()) as u32;
            let block = match random.below(4) {
                0 => vec![0; self.header.data()],
                1 => return self.strike(record),
                _ => data(random, self.header.data()),
            };
            self.write(record, &block);
        }

        /// Takes back a write, and gives the number. The scratch holds garbage before.
        fn take_back(&mut self) -> u32 {
            self.scratch.fill(9);
            let Buffers {
                raw, log, scratch, ..
            } = self;
            let (number, header) = take_back(self.header, raw, &self.full, log, scratch);
            self.header = header;
            let left = if [1, 2, 12].contains(&number) { 9 } else { 0 };
            assert!(self.scratch.iter().all(|&x| x == left));
            self.scratch.fill(0);
            number
        }

        /// A taking-back that is refused with this number and changes nothing, the scratch left out.
        fn refused(&self, number: u32) {
            let mut left = self.clone();
            assert_eq!((left.take_back(), &left), (number, self));
        }

        /// A taking-back that gives the record this word, in a vault of one word a record; nothing else of the raw copy changes.
        fn restores(&self, record: usize, word: u32) {
            let mut left = self.clone();
            assert_eq!(left.take_back(), 0);
            let mut raw = self.raw.clone();
            raw[record] = word;
            assert_eq!((left.header.c + 1, left.raw), (self.header.c, raw));
        }

        /// Words that no opening made: of each stripe the code of some blocks, which are mostly records, and at times a word of it is another.
        fn any(random: &mut Random, header: Header) -> Buffers {
            let mut buffers = Buffers::zeros(header);
            let any = |random: &mut Random| random.below(1 << 32) as u32;
            buffers.raw.fill_with(|| any(random));
            build(header, &data(random, header.raw_len()), &mut buffers.full);
            for level in (0..header.k).filter(|&level| header.filled(level)) {
                let bound = *random.one(&[3, 65536, 65536, P]);
                let block = |_| [random.below(header.records() as u64), random.below(bound)];
                let mut blocks: Vec<u64> = (0..1 << level).flat_map(block).collect();
                blocks[0] += random.below(8) / 7 * 5;
                buffers.code(level, &blocks);
            }
            for stripe in (0..=header.k).filter(|&stripe| header.filled(stripe)) {
                let words = buffers.stripe(stripe);
                let at = random.index(words.len());
                match random.below(12) {
                    0 => words[at] = (words[at] + 1) % 65537,
                    1 => words[at] = *random.one(&[65537, u32::MAX]),
                    _ => {}
                }
            }
            buffers
        }

        /// Puts the code of some blocks in a stripe's place.
        fn code(&mut self, stripe: u32, blocks: &[u64]) {
            let header = self.header;
            let words = code(header.k, header.first(stripe), header.width(), blocks);
            for (to, x) in self.stripe(stripe).iter_mut().zip(words) {
                *to = x as u32;
            }
        }

        /// The words of a stripe.
        fn stripe(&mut self, stripe: u32) -> &mut [u32] {
            let header = self.header;
            if stripe == header.k {
                return &mut self.full;
            }
            &mut self.log[header.level_start(stripe)..header.level_start(stripe + 1)]
        }
    }

    /// Each write of a history of some rounds that does not end one; and at random moments several of them, or all that the round has.
    #[test]
    fn gives_back_what_was_before_the_write() {
        let mut random = Random::new(10);
        for (k, s) in [(1, 1), (1, 3), (2, 1), (2, 2), (3, 1), (4, 2)] {
            let mut buffers = Buffers::opened(&mut random, k, s);
            let mut before = vec![buffers.clone()];
            for _ in 0..4 << k {
                buffers.any_write(&mut random);
                if buffers.header.c == 0 {
                    buffers.refused(12);
                    before.clear();
                }
                before.push(buffers.clone());
                let all = before.len() - 1;
                let some = random.index(all + 1);
                for count in [1.min(all), *random.one(&[0, some, all])] {
                    let mut back = buffers.clone();
                    for expected in before.iter().rev().skip(1).take(count) {
                        assert_eq!((back.take_back(), &back), (0, expected));
                    }
                }
            }
        }
    }

    /// Round after round is written, taken back to its start, and written again.
    #[test]
    fn whole_rounds_are_taken_back() {
        let mut random = Random::new(11);
        for (k, s) in [(1, 2), (2, 3), (3, 2), (5, 1)] {
            let mut buffers = Buffers::opened(&mut random, k, s);
            for _ in 0..3 {
                let start = buffers.clone();
                for _ in 1..1 << k {
                    buffers.any_write(&mut random);
                }
                for c in (0..buffers.header.c).rev() {
                    assert_eq!((buffers.take_back(), buffers.header.c), (0, c));
                }
                assert_eq!(buffers, start);
                buffers.refused(12);
                for _ in 0..1 << k {
                    buffers.any_write(&mut random);
                }
                assert_eq!(buffers.header.c, 0);
            }
        }
    }

    /// Writes 0 to 6 of a round of k = 3 are to these records, with 10 times their number and 1 more; the records were 100 to 107 before.
    fn written(records: &[u32]) -> Buffers {
        let mut buffers = Buffers::zeros(Header { k: 3, s: 1, c: 0 });
        let Buffers { raw, full, log, .. } = &mut buffers;
        *raw = (100..108).collect();
        assert_eq!(open(3, 1, raw, full, log).0, 0);
        for (number, &record) in (0..).zip(records) {
            buffers.write(record, &[10 * number + 1]);
        }
        buffers
    }

    /// Of several earlier writes the newest counts: on the level itself, on one above, and else the full stripe.
    #[test]
    fn the_newest_write_before_is_found() {
        written(&[5, 5, 3, 5]).restores(5, 11);
        written(&[5, 5, 2, 2, 5]).restores(5, 11);
        written(&[5, 1, 2, 5, 5]).restores(5, 31);
        written(&[5, 1, 2, 3, 4, 0, 5]).restores(5, 1);
        written(&[5, 1, 2, 3, 5, 0, 5]).restores(5, 41);
        written(&[0, 1, 2, 3, 4, 6, 5]).restores(5, 105);
        written(&[5]).restores(5, 105);
        written(&[6, 4, 1, 5]).restores(5, 105);
    }

    /// With c = 7, level 0 holds write 6, level 1 writes 4 and 5, level 2 writes 0 to 3. Where a stripe is spoilt behind the one that has the write before,
    /// nothing is noticed; where it is decoded, it is refused.
    #[test]
    fn no_stripe_behind_the_found_one_is_looked_at() {
        let cases = [
            ([0, 1, 2, 3, 5, 6, 5], vec![0, 1]),
            ([0, 1, 2, 5, 4, 6, 5], vec![0, 1, 2]),
            ([0, 1, 2, 3, 4, 6, 5], vec![0, 1, 2, 3]),
        ];
        for (records, decoded) in cases {
            let buffers = written(&records);
            for stripe in 0..=3 {
                for (number, word) in [(8, 65537), (8, u32::MAX), (9, 65536)] {
                    let mut spoilt = buffers.clone();
                    spoilt.stripe(stripe)[1] = word;
                    if decoded.contains(&stripe) {
                        spoilt.refused(number);
                    } else {
                        let mut left = spoilt.clone();
                        assert_eq!(left.take_back(), 0);
                        assert_eq!(left.stripe(stripe)[1], word);
                    }
                }
            }
        }
    }

    /// A block that is no record is refused 10, on each stripe that is decoded; the first stripe at fault counts, and on it the smallest number.
    #[test]
    fn blocks_that_are_no_records() {
        let good = written(&[0, 1, 2, 3, 4, 6, 5]);
        let coded = |stripe: u32, blocks: &[u64]| {
            let mut buffers = good.clone();
            buffers.code(stripe, blocks);
            buffers
        };
        for word in [9, 65535, 65536] {
            coded(0, &[5, word]).restores(5, 105);
        }
        for block in [[8, 9], [65536, 9], [8, 65536]] {
            coded(0, &block).refused(10);
        }
        coded(1, &[4, 1, 7, 2]).restores(5, 105);
        for blocks in [[4, 1, 8, 2], [65536, 65536, 6, 2]] {
            coded(1, &blocks).refused(10);
            let mut two = coded(1, &blocks);
            two.stripe(2)[0] = 65537;
            two.refused(10);
            two.stripe(1)[2] = (two.stripe(1)[2] + 1) % 65537;
            two.refused(9);
            two.stripe(1)[4] = 65537;
            two.refused(8);
        }
        let mut full: Vec<u64> = (0..8).flat_map(|i| [i, 9]).collect();
        coded(3, &full).restores(5, 9);
        full.swap(0, 2);
        coded(3, &full).refused(10);
    }

    /// A write to a struck record, and then a strike: what each replaced is there again, on a level that is split too.
    #[test]
    fn strikes_and_what_they_replaced() {
        for s in [1, 2] {
            let mut buffers = Buffers::zeros(Header { k: 2, s, c: 0 });
            let Buffers { raw, full, log, .. } = &mut buffers;
            raw[..s as usize].fill(STRUCK);
            assert_eq!(open(2, s, raw, full, log).0, 0);
            let mut before = Vec::new();
            for (record, struck) in [(0, true), (0, false), (3, true)] {
                before.push(buffers.clone());
                if struck {
                    buffers.strike(record);
                } else {
                    buffers.write(record, &vec![7; s as usize]);
                }
            }
            for expected in before.iter().rev() {
                assert_eq!((buffers.take_back(), &buffers), (0, expected));
            }
        }
    }

    /// 65536 in some data words of a block is refused 10, on each stripe that is decoded, and in all of them it is not.
    #[test]
    fn blocks_that_are_struck_in_some_words() {
        let header = Header { k: 1, s: 3, c: 1 };
        let mut good = Buffers::zeros(header);
        let full = [0, 5, 6, 7, 1, 8, 9, 10];
        good.code(0, &[1, 2, 3, 4]);
        good.code(1, &full);
        assert_eq!(good.clone().take_back(), 0);
        for struck in 1..8 {
            let number = if struck == 7 { 0 } else { 10 };
            for (stripe, block) in [(0, 0), (1, 0), (1, 4)] {
                let mut blocks = if stripe == 0 {
                    vec![1, 2, 3, 4]
                } else {
                    full.to_vec()
                };
                for at in (0..3).filter(|at| struck >> at & 1 == 1) {
                    blocks[block + 1 + at] = u64::from(STRUCK);
                }
                let mut buffers = good.clone();
                buffers.code(stripe, &blocks);
                assert_eq!(buffers.take_back(), number);
            }
        }
    }

    /// The raw copy is not read, and the rest of it stays as it is, whatever its words.
    #[test]
    fn raw_words_do_not_matter() {
        let mut buffers = written(&[0, 1, 2, 3, 4, 6, 5]);
        buffers.raw = vec![u32::MAX; 8];
        buffers.restores(5, 105);
    }

    /// Buffers of any words below a bound, at every c: what is decoded is refused, or else only what section 5 says has changed.
    #[test]
    fn buffers_that_no_opening_made() {
        let mut random = Random::new(12);
        let mut seen = [0; 13];
        for turn in 0..4000 {
            let k = 1 + turn % 4;
            let c = random.below(1 << k) as u32;
            let mut buffers = Buffers::any(&mut random, Header { k, s: 1, c });
            let before = buffers.clone();
            let number = buffers.take_back();
            seen[number as usize] += 1;
            if number != 0 {
                assert_eq!(buffers, before);
                continue;
            }
            let level = c.trailing_zeros();
            assert_eq!((buffers.header.c, &buffers.full), (c - 1, &before.full));
            let above = before.header.level_start(level + 1);
            assert_eq!(buffers.log[above..], before.log[above..]);
            assert!(buffers.stripe(level).iter().all(|&x| x == 0));
        }
        assert!([0, 8, 9, 10, 12].iter().all(|&x| seen[x] > 10), "{seen:?}");
    }

    /// Headers out of range and lengths that are not right, at c = 0 too: 1 and 2 come before 12, and 12 before a word is looked at.
    #[test]
    fn tests_before_decoding() {
        for c in [0, 3] {
            let mut good = Buffers::zeros(Header { k: 2, s: 2, c });
            good.stripe(0)[0] = 65537;
            let refused = |number: u32, change: fn(&mut Buffers)| {
                let mut buffers = good.clone();
                change(&mut buffers);
                let mut left = buffers.clone();
                left.scratch.fill(0);
                assert_eq!((left.take_back(), left), (number, buffers));
            };
            refused(1, |x| x.header.c = 4);
            refused(1, |x| x.header.k = 0);
            refused(1, |x| x.header.s = 129);
            refused(2, |x| x.raw.push(0));
            refused(2, |x| x.full.truncate(23));
            refused(2, |x| x.log.clear());
            refused(2, |x| x.scratch.truncate(55));
            refused(2, |x| x.scratch.push(0));
            refused(2, |x| x.scratch.truncate(28));
            refused(if c == 0 { 12 } else { 8 }, |_| {});
        }
    }
}
