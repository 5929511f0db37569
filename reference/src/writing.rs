//! Writing: the raw record replaced, and the first empty level, or at the end of a round the full stripe, built anew.
use crate::field::{mul, pow, root, P};
use crate::header::Header;
use crate::opening::{build, lengths};
use crate::record::are_data;
use crate::refusal::{number, test, Refusal};
use crate::stripe::{column, mix, rev, rows};

/// The number, and the header afterwards.
pub fn write(
    header: Header,
    raw: &mut [u32],
    full: &mut [u32],
    log: &mut [u32],
    record: u32,
    block: &[u32],
) -> (u32, Header) {
    let blank = block.iter().all(|&x| x == 0);
    let tested = tests(header, raw, full, log, record, block).and(test(!blank, Refusal::Blank));
    let stored = tested.map(|()| store(header, raw, full, log, record, block));
    answer(header, stored)
}

/// The same of a vault of before number 11 was in the table: a blank block is taken like any other.
pub fn earlier_write(
    header: Header,
    raw: &mut [u32],
    full: &mut [u32],
    log: &mut [u32],
    record: u32,
    block: &[u32],
) -> (u32, Header) {
    let tested = tests(header, raw, full, log, record, block);
    let stored = tested.map(|()| store(header, raw, full, log, record, block));
    answer(header, stored)
}

/// The number, and the header afterwards: as it was, after a refusal.
pub(crate) fn answer(header: Header, stored: Result<Header, Refusal>) -> (u32, Header) {
    (number(&stored), stored.unwrap_or(header))
}

/// Tests 1, 2, 4 and 5.
fn tests(
    header: Header,
    raw: &[u32],
    full: &[u32],
    log: &[u32],
    record: u32,
    block: &[u32],
) -> Result<(), Refusal> {
    header.test()?;
    lengths(header, raw, full, log)?;
    test(block.len() == header.data(), Refusal::Length)?;
    test((record as usize) < header.records(), Refusal::Record)?;
    test(are_data(block), Refusal::DataWord)
}

/// Stores a block that passed its tests, or one that strikes, and gives the header afterwards.
pub(crate) fn store(
    header: Header,
    raw: &mut [u32],
    full: &mut [u32],
    log: &mut [u32],
    record: u32,
    block: &[u32],
) -> Header {
    let start = record as usize * header.data();
    raw[start..start + header.data()].copy_from_slice(block);
    let c = header.c + 1;
    if c as usize == header.records() {
        build(header, raw, full);
        log.fill(0);
        return Header { c: 0, ..header };
    }
    rebuild(header, log, record, block);
    Header { c, ..header }
}

/// Builds the first empty level from all levels below it and the new block, and empties those. Words of the log count modulo p.
fn rebuild(header: Header, log: &mut [u32], record: u32, block: &[u32]) {
    let level = header.c.trailing_ones();
    let mut words = vec![record];
    words.extend(block);
    let columns: Vec<Vec<u64>> = (0..header.width())
        .map(|j| rebuilt_column(header, log, level, j, u64::from(words[j])))
        .collect();
    let (start, end) = (header.level_start(level), header.level_start(level + 1));
    log[..start].fill(0);
    for (to, x) in log[start..end].iter_mut().zip(rows(&columns)) {
        *to = x as u32;
    }
}

/// Column j of the rebuilt level: X takes the block's word as it is, Y takes it times w^rev(t), where t is c.
fn rebuilt_column(header: Header, log: &[u32], level: u32, j: usize, word: u64) -> Vec<u64> {
    let turned = mul(
        word,
        pow(root(header.k), rev(header.k, u64::from(header.c))),
    );
    let mut x = vec![word];
    let mut y = vec![turned];
    for lower in 0..level {
        let (older_x, older_y) = halves(header, log, lower, j);
        let v = pow(root(header.k), 1 << (header.k - lower));
        x = mix(&older_x, &x, v);
        y = mix(&older_y, &y, v);
    }
    x.extend(y);
    x
}

/// Column j of a level's X and of its Y, modulo p.
fn halves(header: Header, log: &[u32], level: u32, j: usize) -> (Vec<u64>, Vec<u64>) {
    let part = &log[header.level_start(level)..header.level_start(level + 1)];
    let words: Vec<u64> = part.iter().map(|&x| u64::from(x) % P).collect();
    let mut x = column(header.width(), j, &words);
    let y = x.split_off(x.len() / 2);
    (x, y)
}

#[cfg(test)]
mod tests {
    use super::*;
    use crate::opening::open;
    use crate::stripe::code;
    use random::Random;

    fn data(random: &mut Random, count: usize) -> Vec<u32> {
        (0..count).map(|_| random.below(65536) as u32).collect()
    }

    /// Each filled level is the code of its writes, in order of time, and the full stripe that of the records at the round's start.
    #[test]
    fn levels_code_the_writes_of_the_round() {
        let mut random = Random::new(3);
        for (k, s) in [(1, 1), (2, 2), (3, 1), (4, 3)] {
            let opened = Header { k, s, c: 0 };
            let mut raw = data(&mut random, opened.raw_len());
            let mut full = vec![7; opened.full_len()];
            let mut log = vec![7; opened.log_len()];
            let (number, mut header) = open(k, s, &raw, &mut full, &mut log);
            assert_eq!((number, header), (0, opened));
            let mut start = raw.clone();
            let mut since: Vec<u64> = Vec::new();
            for _ in 0..3 * opened.records() {
                let record = random.below(opened.records() as u64) as u32;
                let block = data(&mut random, opened.data());
                let answer = write(header, &mut raw, &mut full, &mut log, record, &block);
                assert_eq!(answer.0, 0);
                header = answer.1;
                since.push(u64::from(record));
                since.extend(block.iter().map(|&x| u64::from(x)));
                if header.c == 0 {
                    start.copy_from_slice(&raw);
                    since.clear();
                }
                let mut expected = vec![0; opened.full_len()];
                build(header, &start, &mut expected);
                assert_eq!(full, expected);
                for level in 0..k {
                    let (from, to) = (header.level_start(level), header.level_start(level + 1));
                    let mut coded = vec![0; to - from];
                    if header.filled(level) {
                        let first = header.first(level) as usize * header.width();
                        let blocks = &since[first..first + (to - from) / 2];
                        coded = code(k, header.first(level), header.width(), blocks);
                    }
                    assert!(log[from..to].iter().map(|&x| u64::from(x)).eq(coded));
                }
            }
        }
    }

    #[test]
    fn words_of_other_buffers_count_modulo_p() {
        let header = Header { k: 2, s: 1, c: 1 };
        let mut raw = [0, 70000, u32::MAX, 3];
        let mut full = [u32::MAX; 16];
        let mut log = [u32::MAX; 12];
        let mut reduced = [u32::MAX; 12];
        reduced[..4].fill((u64::from(u32::MAX) % P) as u32);
        let answer = write(header, &mut raw, &mut full, &mut log, 3, &[9]);
        assert_eq!(answer, (0, Header { c: 2, ..header }));
        let again = write(header, &mut raw, &mut full, &mut reduced, 3, &[9]);
        assert_eq!((again, log), (answer, reduced));
        assert_eq!(log[..4], [0; 4]);
        // The third level was never reached, raw words stay as they are, and the full stripe is not built.
        assert_eq!((raw, full), ([0, 70000, u32::MAX, 9], [u32::MAX; 16]));
    }

    /// Buffers of any words, lent with their right lengths or others.
    #[derive(Clone, Debug, PartialEq)]
    struct Buffers {
        header: Header,
        raw: Vec<u32>,
        full: Vec<u32>,
        log: Vec<u32>,
    }

    impl Buffers {
        fn any(random: &mut Random, header: Header) -> Buffers {
            let mut words = |count| (0..count).map(|_| random.below(1 << 32) as u32).collect();
            Buffers {
                header,
                raw: words(header.raw_len()),
                full: words(header.full_len()),
                log: words(header.log_len()),
            }
        }

        /// The number of a write, of today or earlier, and what it leaves.
        fn after(&self, earlier: bool, record: u32, block: &[u32]) -> (u32, Buffers) {
            let write = if earlier { earlier_write } else { write };
            let mut left = self.clone();
            let Buffers { raw, full, log, .. } = &mut left;
            let (number, header) = write(self.header, raw, full, log, record, block);
            left.header = header;
            (number, left)
        }
    }

    /// Some headers, at each c of which some are a round's last.
    fn headers() -> impl Iterator<Item = Header> {
        let sizes = [(1, 1), (1, 2), (2, 1), (2, 3), (3, 2)];
        sizes
            .into_iter()
            .flat_map(|(k, s)| (0..1 << k).map(move |c| Header { k, s, c }))
    }

    #[test]
    fn a_blank_block_is_refused_and_nothing_changes() {
        let mut random = Random::new(6);
        for header in headers() {
            let buffers = Buffers::any(&mut random, header);
            let block = vec![0; header.data()];
            for record in 0..header.records() as u32 {
                assert_eq!(buffers.after(false, record, &block), (11, buffers.clone()));
            }
        }
    }

    #[test]
    fn an_earlier_write_takes_a_blank_block() {
        let mut random = Random::new(7);
        for header in headers() {
            let buffers = Buffers::any(&mut random, header);
            let record = random.below(header.records() as u64) as u32;
            let (number, left) = buffers.after(true, record, &vec![0; header.data()]);
            let c = (header.c + 1) % (1 << header.k);
            assert_eq!((number, left.header), (0, Header { c, ..header }));
            let mut raw = buffers.raw.clone();
            raw[record as usize * header.data()..][..header.data()].fill(0);
            assert_eq!(left.raw, raw);
        }
    }

    #[test]
    fn one_word_makes_a_block_that_is_not_blank() {
        let mut random = Random::new(8);
        for header in headers() {
            let buffers = Buffers::any(&mut random, header);
            for at in 0..header.data() {
                for word in [1, 256, 65535] {
                    let mut block = vec![0; header.data()];
                    block[at] = word;
                    let given = buffers.after(false, 0, &block);
                    assert_eq!(given.0, 0);
                    assert_eq!(given, buffers.after(true, 0, &block));
                }
            }
        }
    }

    /// A blank block with another fault, and a block that no write takes: the smaller number is given, by an earlier write too.
    #[test]
    fn blank_is_tested_last() {
        let header = Header { k: 2, s: 2, c: 3 };
        let good = Buffers::any(&mut Random::new(9), header);
        let refused = |buffers: &Buffers, record: u32, block: &[u32], number: u32| {
            for earlier in [false, true] {
                let given = buffers.after(earlier, record, block);
                assert_eq!(given, (number, buffers.clone()));
            }
        };
        let with = |change: fn(&mut Buffers)| {
            let mut buffers = good.clone();
            change(&mut buffers);
            buffers
        };
        refused(&with(|x| x.header.c = 4), 0, &[0, 0], 1);
        refused(&with(|x| x.header.k = 0), 0, &[0, 0], 1);
        refused(&with(|x| x.raw.push(0)), 0, &[0, 0], 2);
        refused(&with(|x| x.full.truncate(1)), 0, &[0, 0], 2);
        refused(&with(|x| x.log.clear()), 0, &[0, 0], 2);
        for block in [&[][..], &[0], &[0, 0, 0]] {
            refused(&good, 0, block, 2);
        }
        for record in [4, u32::MAX] {
            refused(&good, record, &[0, 0], 4);
        }
        for block in [[0, 65536], [65536, 0], [u32::MAX, 0]] {
            refused(&good, 0, &block, 5);
        }
    }
}
