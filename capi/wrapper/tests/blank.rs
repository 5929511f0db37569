//! Blank blocks: writing refuses them (11) and changes nothing; openings take records of zeros, and so do all calls on what an earlier vault left, one that did
//! not know 11.
use vault_library::{
    calls, erasures, sizes, stripes, Explanation, Fault, Header, Origin, Record, Refusal, Vault,
};

/// A vault of 4 records of 3 words, after as many writes as are said.
fn written(count: u32) -> Vault {
    let records = (1..=12).collect();
    let mut vault = Vault::open(2, 3, records).unwrap();
    for write in 0..count {
        vault.write(write % 4, &[20 + write, 0, 1]).unwrap();
    }
    vault
}

#[test]
fn a_blank_block_is_refused_and_nothing_changes() {
    // At every count of a round, and so before a level is rebuilt and before the full stripe is.
    for count in 0..=4 {
        let mut vault = written(count);
        let (before, image) = (vault.clone(), vault.image().unwrap());
        for record in 0..4 {
            assert_eq!(vault.write(record, &[0; 3]), Err(Refusal::Blank));
            assert!(vault == before, "c = {}", before.header().c);
            assert_eq!(vault.image().unwrap(), image);
        }
    }
    assert_eq!(
        Refusal::Blank.to_string(),
        "refused 11 (blank): each data word of the sheet is 0, as when the press's probe is unplugged"
    );
}

#[test]
fn one_word_that_is_not_0_is_enough() {
    for s in [1, 2, 5, 128] {
        for place in [0, s / 2, s - 1] {
            for word in [1, 256, 65535] {
                let mut vault = Vault::open(2, s as u32, vec![7; 4 * s]).unwrap();
                let mut block = vec![0; s];
                block[place] = word;
                assert_eq!(vault.write(1, &block), Ok(()));
                assert_eq!(vault.header().c, 1);
                assert_eq!(vault.read(1), Ok(Record::Words(&block)));
            }
        }
        let mut vault = Vault::open(2, s as u32, vec![7; 4 * s]).unwrap();
        assert_eq!(vault.write(1, &vec![0; s]), Err(Refusal::Blank));
    }
}

/// 11 is tested last.
#[test]
fn other_refusals_come_first() {
    let mut vault = written(2);
    let before = vault.clone();
    for record in [4, 5, u32::MAX] {
        assert_eq!(vault.write(record, &[0; 3]), Err(Refusal::Record));
    }
    for length in [0, 1, 2, 4, 128] {
        assert_eq!(vault.write(0, &vec![0; length]), Err(Refusal::Length));
        assert_eq!(vault.write(4, &vec![0; length]), Err(Refusal::Length));
    }
    for word in [65536, u32::MAX] {
        assert_eq!(vault.write(0, &[0, 0, word]), Err(Refusal::DataWord));
    }
    assert!(vault == before);
    let mut far = Header { k: 2, s: 3, c: 4 };
    let (raw, full, log) = (&mut [0; 12], &mut [0; 32], &mut [0; 24]);
    let answer = calls::write(&mut far, raw, full, log, 0, &[0; 3]);
    assert_eq!(answer, Err(Refusal::Header));
}

#[test]
fn zero_records_are_opened_and_read() {
    let mut vault = Vault::open(2, 3, vec![0; 12]).unwrap();
    for record in 0..4 {
        assert_eq!(vault.read(record), Ok(Record::Words(&[0; 3])));
    }
    vault.write(2, &[0, 0, 1]).unwrap();
    assert_eq!(vault.read(1), Ok(Record::Words(&[0; 3])));
    let records = recovered(vault.header(), &vault.image().unwrap(), &[]);
    assert_eq!(records, Ok(vec![0, 0, 0, 0, 0, 0, 0, 0, 1, 0, 0, 0]));
}

fn recovered(header: Header, image: &[u8], list: &[u8]) -> Result<Vec<u32>, Fault> {
    let mut records = vec![9; sizes::raw(header.k, header.s)];
    let mut scratch = vec![9; sizes::scratch(header.k, header.s)];
    calls::recover(header, image, list, &mut records, &mut scratch).map(|()| records)
}

fn decoded(header: Header, image: &[u8], list: &[u8], stripe: u32) -> Result<Vec<u32>, Refusal> {
    let mut blocks = vec![9; sizes::blocks(header.k, header.s)];
    let mut scratch = vec![9; sizes::scratch(header.k, header.s)];
    calls::decode(header, image, list, stripe, &mut blocks, &mut scratch).map(|()| blocks)
}

/// The blank block of a write to record 3 on level 0, worked by hand: k = 2, s = 1. Its X is 3, 0, and its Y 3 * w^rev(t), 0, with w = 4096.
#[test]
fn a_blank_block_on_level_0() {
    // Write 0 has w^0 = 1; write 2, after two others, w^1.
    for (others, y) in [(0, 3), (2, 3 * 4096)] {
        let mut vault = Vault::open(2, 1, vec![5, 6, 7, 8]).unwrap();
        for write in 0..others {
            vault.write(write, &[9]).unwrap();
        }
        let c = others + 1;
        let header = Header { k: 2, s: 1, c };
        let mut image = vault.image().unwrap();
        let words = [3u32, 0, y, 0];
        let level = stripes::position(2, 1, 0, 0).start..stripes::position(2, 1, 0, 1).end;
        image[level].copy_from_slice(&words.map(u32::to_le_bytes).concat());
        let blocks = vec![3, 0, 0, 0, 0, 0, 0, 0];
        let records = [[5, 6, 7, 0], [9, 9, 7, 0]][others as usize / 2];
        for position in [None, Some(0), Some(1)] {
            let lost = position.map(|position| stripes::position(2, 1, 0, position));
            let list = erasures::list(lost.into_iter().collect());
            assert_eq!(decoded(header, &image, &list, 0), Ok(blocks.clone()));
            let answer = recovered(header, &image, &list);
            assert_eq!(answer, Ok(records.to_vec()));
            let explanation = Explanation::new(header, &image, &list).unwrap();
            let (stripe, write) = (0, others);
            let origin = explanation.origins.unwrap()[3];
            assert_eq!(origin, Origin::Level { stripe, write });
        }
    }
}

/// The buffers of a vault, as C's callers lend them.
#[derive(Debug, PartialEq)]
struct Buffers {
    header: Header,
    raw: Vec<u32>,
    full: Vec<u32>,
    log: Vec<u32>,
}

impl Buffers {
    fn write(&mut self, record: u32, block: &[u32]) -> Result<(), Refusal> {
        let (raw, full, log) = (&mut self.raw, &mut self.full, &mut self.log);
        calls::write(&mut self.header, raw, full, log, record, block)
    }

    fn image(&self) -> Vec<u8> {
        let mut image = vec![0; sizes::image(self.header.k, self.header.s)];
        calls::image(self.header, &self.full, &self.log, &mut image).unwrap();
        image
    }
}

/// An earlier vault: today's with one word more in each block, which is 1, so that none is blank. Each column is coded alone, so the other columns are those of
/// the earlier vault.
struct Earlier(Vault);

impl Earlier {
    fn open(k: u32, s: u32, records: &[u32]) -> Earlier {
        let longer = records.chunks(s as usize).map(longer);
        Earlier(Vault::open(k, s + 1, longer.flatten().collect()).unwrap())
    }

    fn write(&mut self, record: u32, block: &[u32]) -> Result<(), Refusal> {
        self.0.write(record, &longer(block))
    }

    /// All buffers without the word more.
    fn buffers(&self) -> Buffers {
        let Header { k, s, c } = self.0.header();
        let s = s - 1;
        let words = |record| self.0.read(record).unwrap().words().unwrap();
        let all = (0..1 << k).flat_map(words);
        let image = self.0.image().unwrap();
        let words = stripes::words(&image, 0..image.len()).collect::<Vec<u32>>();
        let mut full = without_last(&words, s as usize + 2);
        let log = full.split_off(sizes::full(k, s));
        Buffers {
            header: Header { k, s, c },
            raw: without_last(&all.copied().collect::<Vec<u32>>(), s as usize + 1),
            full,
            log,
        }
    }
}

fn longer(block: &[u32]) -> Vec<u32> {
    [block, &[1]].concat()
}

/// Rows of so many words without the last word of each.
fn without_last(words: &[u32], width: usize) -> Vec<u32> {
    let rows = words.chunks(width);
    rows.flat_map(|row| &row[..width - 1]).copied().collect()
}

/// By which vault an event is made: today's, or one of before 11.
#[derive(PartialEq)]
enum By {
    Today,
    Before,
}
use By::{Before, Today};

/// An event of the table: by which vault, record, block, number, c and the records afterwards.
type Event = (By, u32, &'static [u32], u32, u32, [u32; 8]);

/// The table "Blank blocks" of docs/FORMAT.md, section 12.
const EVENTS: [Event; 12] = [
    (Today, 0, &[0, 0], 11, 0, [9, 9, 0, 0, 0, 3, 0, 0]),
    (Today, 0, &[0, 7], 0, 1, [0, 7, 0, 0, 0, 3, 0, 0]),
    (Before, 2, &[0, 0], 0, 2, [0, 7, 0, 0, 0, 0, 0, 0]),
    (Today, 2, &[0, 0], 11, 2, [0, 7, 0, 0, 0, 0, 0, 0]),
    (Today, 4, &[0, 0], 4, 2, [0, 7, 0, 0, 0, 0, 0, 0]),
    (Today, 2, &[0], 2, 2, [0, 7, 0, 0, 0, 0, 0, 0]),
    (Today, 2, &[0, 65536], 5, 2, [0, 7, 0, 0, 0, 0, 0, 0]),
    (Before, 2, &[0, 65536], 5, 2, [0, 7, 0, 0, 0, 0, 0, 0]),
    (Before, 4, &[0, 0], 4, 2, [0, 7, 0, 0, 0, 0, 0, 0]),
    (Before, 0, &[0, 0], 0, 3, [0, 0, 0, 0, 0, 0, 0, 0]),
    (Today, 1, &[6, 0], 0, 0, [0, 0, 6, 0, 0, 0, 0, 0]),
    (Before, 1, &[0, 0], 0, 1, [0, 0, 0, 0, 0, 0, 0, 0]),
];

fn number(answer: Result<(), Refusal>) -> u32 {
    answer.map_or_else(Refusal::number, |()| 0)
}

#[test]
fn writes_and_earlier_writes_in_turn() {
    let mut earlier = Earlier::open(2, 2, &[9, 9, 0, 0, 0, 3, 0, 0]);
    for (by, record, block, expected, c, records) in EVENTS {
        let mut today = earlier.buffers();
        let answer = if by == Today {
            today.write(record, block)
        } else {
            earlier.write(record, block)
        };
        assert_eq!(number(answer), expected);
        if by == Today {
            // What today's vault takes, the earlier one takes too, and it leaves the same.
            if expected == 0 {
                earlier.write(record, block).unwrap();
            }
            assert_eq!(today, earlier.buffers());
        }
        let left = earlier.buffers();
        assert_eq!((left.header.c, &left.raw[..]), (c, &records[..]));
        comes_back(&left);
    }
}

/// Every choice of exactly half of each needed stripe gives the raw records.
fn comes_back(left: &Buffers) {
    let (header, image) = (left.header, left.image());
    let Header { k, s, .. } = header;
    let mut lists = vec![Vec::new()];
    for stripe in header.stripes() {
        let all = stripes::positions(stripe);
        let half = |choice: &u32| choice.count_ones() as usize == all / 2;
        let mut longer = Vec::new();
        for choice in (0..1u32 << all).filter(half) {
            let lost = (0..all).filter(|position| choice >> position & 1 == 1);
            let lost: Vec<_> = lost.map(|i| stripes::position(k, s, stripe, i)).collect();
            longer.extend(lists.iter().map(|list| [&list[..], &lost[..]].concat()));
        }
        lists = longer;
    }
    for list in lists {
        let list = erasures::list(list);
        let answer = recovered(header, &image, &list);
        assert_eq!(answer.as_ref(), Ok(&left.raw));
    }
}

/// A round of blank sheets alone, as a press wrote them whose probe was unplugged all day.
#[test]
fn a_level_and_a_full_stripe_of_blank_blocks() {
    let mut earlier = Earlier::open(3, 2, &[9; 16]);
    for record in 0..7 {
        earlier.write(record, &[0, 0]).unwrap();
    }
    let left = earlier.buffers();
    let (header, image) = (left.header, left.image());
    assert_eq!(
        decoded(header, &image, &[], 2).unwrap()[..12],
        [0, 0, 0, 1, 0, 0, 2, 0, 0, 3, 0, 0]
    );
    let origins = Explanation::new(header, &image, &[]).unwrap().origins;
    let level = |stripe, write| Origin::Level { stripe, write };
    let levels = [2, 2, 2, 2, 1, 1, 0].into_iter().zip(0..);
    let mut expected: Vec<Origin> = levels.map(|(l, write)| level(l, write)).collect();
    expected.push(Origin::Full);
    assert_eq!(origins, Ok(expected));
    earlier.write(7, &[0, 0]).unwrap();
    // The full stripe was built anew, of zeros alone: as an opening of zeros builds it.
    let zeros = Vault::open(3, 2, vec![0; 16]).unwrap();
    let left = earlier.buffers();
    assert_eq!(left.image(), zeros.image().unwrap());
    assert_eq!(recovered(left.header, &left.image(), &[]), Ok(vec![0; 16]));
}
