//! Struck records: the tables of docs/FORMAT.md; a strike counts, is taken back and named as an origin like a write; what is read, recovered, opened and
//! refused.
use random::Random;
use vault_library::{
    calls, erasures, sizes, stripes, Explanation, Header, Origin, Record, Records, Refusal, Vault,
    STRUCK_WORD,
};

/// The vault that the tables are of: its second record is opened struck.
fn opened() -> Vault {
    let records = vec![10, 11, 65536, 65536, 30, 31, 40, 65535];
    Vault::open(2, 2, records).unwrap()
}

fn number(answer: Result<(), Refusal>) -> u32 {
    answer.map_or_else(Refusal::number, |()| 0)
}

/// What is recovered of an image with losses.
fn recovered(header: Header, image: &[u8], list: &[u8]) -> Vec<u32> {
    let mut words = vec![9; sizes::raw(header.k, header.s)];
    let mut scratch = vec![9; sizes::scratch(header.k, header.s)];
    calls::recover(header, image, list, &mut words, &mut scratch).unwrap();
    words
}

/// Checks that the vault has these words in its records: so each is read, and so all come back from any half of each stripe.
fn holds(vault: &Vault, words: &[u32], random: &mut Random) {
    let (header, image) = (vault.header(), vault.image().unwrap());
    for (number, words) in (0..).zip(words.chunks(header.s as usize)) {
        assert_eq!(vault.read(number), Ok(Record::of(words)));
    }
    for _ in 0..10 {
        let mut lost = Vec::new();
        for stripe in header.stripes() {
            let some = random.some(stripes::positions(stripe), 1 << stripe);
            lost.extend(
                some.iter()
                    .map(|&i| stripes::position(header.k, header.s, stripe, i)),
            );
        }
        let back = recovered(header, &image, &erasures::list(lost));
        assert_eq!(back, words);
    }
}

#[derive(Clone, Copy)]
enum Event {
    Strike(u32),
    Write(u32, [u32; 2]),
    Back,
}
use Event::{Back, Strike, Write};

/// An event of the table: number, c, the records afterwards, and what reading them gives.
type Row = (Event, u32, u32, [u32; 8], [u32; 4]);

/// The first table "Struck records" of docs/FORMAT.md, section 12, but for its earlier write.
#[rustfmt::skip]
const EVENTS: [Row; 16] = [
    (Strike(2), 0, 1, [10, 11, 65536, 65536, 65536, 65536, 40, 65535], [0, 14, 14, 0]),
    (Write(1, [1, 2]), 0, 2, [10, 11, 1, 2, 65536, 65536, 40, 65535], [0, 0, 14, 0]),
    (Strike(2), 0, 3, [10, 11, 1, 2, 65536, 65536, 40, 65535], [0, 0, 14, 0]),
    (Write(0, [65536; 2]), 5, 3, [10, 11, 1, 2, 65536, 65536, 40, 65535], [0, 0, 14, 0]),
    (Write(0, [65536, 7]), 5, 3, [10, 11, 1, 2, 65536, 65536, 40, 65535], [0, 0, 14, 0]),
    (Strike(4), 4, 3, [10, 11, 1, 2, 65536, 65536, 40, 65535], [0, 0, 14, 0]),
    (Strike(u32::MAX), 4, 3, [10, 11, 1, 2, 65536, 65536, 40, 65535], [0, 0, 14, 0]),
    (Back, 0, 2, [10, 11, 1, 2, 65536, 65536, 40, 65535], [0, 0, 14, 0]),
    (Back, 0, 1, [10, 11, 65536, 65536, 65536, 65536, 40, 65535], [0, 14, 14, 0]),
    (Back, 0, 0, [10, 11, 65536, 65536, 30, 31, 40, 65535], [0, 14, 0, 0]),
    (Back, 12, 0, [10, 11, 65536, 65536, 30, 31, 40, 65535], [0, 14, 0, 0]),
    (Strike(3), 0, 1, [10, 11, 65536, 65536, 30, 31, 65536, 65536], [0, 14, 0, 14]),
    (Write(3, [5, 5]), 0, 2, [10, 11, 65536, 65536, 30, 31, 5, 5], [0, 14, 0, 0]),
    (Strike(3), 0, 3, [10, 11, 65536, 65536, 30, 31, 65536, 65536], [0, 14, 0, 14]),
    (Strike(0), 0, 0, [65536, 65536, 65536, 65536, 30, 31, 65536, 65536], [14, 14, 0, 14]),
    (Write(0, [1, 1]), 0, 1, [1, 1, 65536, 65536, 30, 31, 65536, 65536], [0, 14, 0, 14]),
];

#[test]
fn events_in_turn() {
    let mut random = Random::new(14);
    let mut vault = opened();
    for (event, expected, c, words, read) in EVENTS {
        let before = vault.clone();
        let answer = match event {
            Strike(record) => vault.strike(record),
            Write(record, block) => vault.write(record, &block),
            Back => vault.take_back(),
        };
        assert_eq!((number(answer), vault.header().c), (expected, c));
        if expected != 0 {
            assert!(vault == before, "{expected}");
        }
        holds(&vault, &words, &mut random);
        let read_now = [0, 1, 2, 3].map(|record| calls::read(vault.header(), &words, record));
        assert_eq!(read_now.map(|answer| number(answer.map(|_| ()))), read);
    }
}

/// The words of the image after the third event, in the image's order.
const WORDS: [u32; 42] = [
    6, 79, 39, 255, 2571, 57101, 65533, 65476, 65518, 65280, 62988, 8460, 7984, 58249, 61674,
    12576, 33000, 57596, 57041, 7820, 4397, 53473, 32045, 7451, 2, 65536, 65536, 8192, 61441,
    61441, 3, 0, 1, 1, 65535, 65534, 65283, 65280, 65024, 258, 255, 511,
];

fn after_three() -> (Header, Vec<u8>) {
    let mut vault = opened();
    vault.strike(2).unwrap();
    vault.write(1, &[1, 2]).unwrap();
    vault.strike(2).unwrap();
    (vault.header(), vault.image().unwrap())
}

#[test]
fn the_image_and_the_origins_are_those_of_writes() {
    let (header, image) = after_three();
    assert!(stripes::words(&image, 0..image.len()).eq(WORDS));
    let level = |stripe, write| Origin::Level { stripe, write };
    let origins = vec![Origin::Full, level(1, 1), level(0, 2), Origin::Full];
    let explanation = Explanation::new(header, &image, &[]).unwrap();
    assert_eq!(explanation.origins, Ok(origins));
}

/// The third table there: s, other words on stripe 0, and whether they are a struck block.
const STRIPES: [(u32, &[u32], bool); 5] = [
    (2, &[2, 65536, 65536, 8192, 61441, 61441], true),
    (2, &[2, 65536, 5, 8192, 61441, 20480], false),
    (2, &[2, 5, 65536, 8192, 20480, 61441], false),
    (1, &[2, 65536, 8192, 61441], true),
    (1, &[4, 65536, 16384, 61441], false),
];

#[test]
fn a_block_is_struck_in_every_word_or_in_none() {
    for (s, words, struck) in STRIPES {
        let header = Header { k: 2, s, c: 3 };
        let mut image = vec![0; sizes::image(2, s)];
        let level = stripes::position(2, s, 0, 0).start..stripes::position(2, s, 0, 1).end;
        let bytes = words.iter().flat_map(|word| word.to_le_bytes());
        image[level].copy_from_slice(&bytes.collect::<Vec<u8>>());
        let mut blocks = vec![9; sizes::blocks(2, s)];
        let mut scratch = vec![9; sizes::scratch(2, s)];
        let answer = calls::decode(header, &image, &[], 0, &mut blocks, &mut scratch);
        if struck {
            let (number, record) = (blocks[0], Record::of(&blocks[1..=s as usize]));
            assert_eq!((answer, number, record), (Ok(()), 2, Record::Struck));
        } else {
            assert_eq!(answer, Err(Refusal::NotARecord));
        }
    }
}

/// The table of openings there: s, the records, and whether they are opened.
const OPENINGS: [(u32, &[u32], bool); 9] = [
    (2, &[65536, 65536, 0, 0], true),
    (2, &[65536, 65536, 65536, 65536], true),
    (2, &[65536, 0, 0, 0], false),
    (2, &[0, 0, 7, 65536], false),
    (2, &[0, 65536, 65536, 0], false),
    (2, &[131_073, 131_073, 0, 0], false),
    (2, &[65537, 65537, 0, 0], false),
    (1, &[65536, 7], true),
    (1, &[7, 131_073], false),
];

#[test]
fn records_are_opened_struck() {
    for (s, records, taken) in OPENINGS {
        match Vault::open(1, s, records.to_vec()) {
            Ok(vault) => {
                assert!(taken);
                holds(&vault, records, &mut Random::new(15));
            }
            Err(refusal) => assert_eq!((refusal, taken), (Refusal::DataWord, false)),
        }
    }
}

/// Words are read as they are: 131073 is 65536 modulo p.
#[test]
fn no_word_but_65536_reads_as_struck() {
    let header = Header { k: 1, s: 2, c: 0 };
    for word in [131_073, 65535, 65537, u32::MAX] {
        let raw = [[word, 65536], [word; 2]].concat();
        for record in 0..2 {
            let words = &raw[2 * record..][..2];
            assert_eq!(calls::read(header, &raw, record as u32), Ok(words));
        }
    }
    let raw = [65536; 4];
    let read = |raw, record| calls::read(header, raw, record);
    assert_eq!(read(&raw, 1), Err(Refusal::Struck));
    // 14 comes last.
    assert_eq!(read(&raw, 2), Err(Refusal::Record));
    assert_eq!(read(&raw[1..], 0), Err(Refusal::Length));
    assert_eq!(
        Refusal::Struck.to_string(),
        "refused 14 (struck): the record is struck, and has no words until it is written again"
    );
}

/// A strike is refused 1, 2 and 4, in this order, and changes nothing then.
#[test]
fn in_the_order_of_the_table() {
    let (raw, full, log) = ([3; 8], [4; 24], [5; 18]);
    let refused = |header: Header, lengths: [usize; 3], record, refusal| {
        let (mut after, mut raw, mut full, mut log) = (header, raw, full, log);
        let parts = (
            &mut raw[..lengths[0]],
            &mut full[..lengths[1]],
            &mut log[..lengths[2]],
        );
        let answer = calls::strike(&mut after, parts.0, parts.1, parts.2, record);
        assert_eq!((answer, after), (Err(refusal), header));
        assert_eq!((raw, full, log), ([3; 8], [4; 24], [5; 18]));
    };
    let header = Header { k: 2, s: 2, c: 3 };
    for (k, s, c) in [(0, 2, 0), (11, 2, 0), (2, 0, 0), (2, 129, 0), (2, 2, 4)] {
        refused(Header { k, s, c }, [8, 24, 17], 4, Refusal::Header);
    }
    for lengths in [[7, 24, 18], [8, 23, 18], [8, 24, 17], [0, 0, 0]] {
        refused(header, lengths, 4, Refusal::Length);
    }
    for record in [4, 5, u32::MAX] {
        refused(header, [8, 24, 18], record, Refusal::Record);
    }
}

/// With s = 1 the one word 65536 is all of a record's.
#[test]
fn records_of_one_word() {
    let mut random = Random::new(16);
    let mut vault = Vault::open(2, 1, vec![5, 65536, 7, 8]).unwrap();
    holds(&vault, &[5, 65536, 7, 8], &mut random);
    vault.strike(0).unwrap();
    assert_eq!(vault.write(2, &[65536]), Err(Refusal::DataWord));
    holds(&vault, &[65536, 65536, 7, 8], &mut random);
    vault.write(1, &[65535]).unwrap();
    holds(&vault, &[65536, 65535, 7, 8], &mut random);
    vault.take_back().unwrap();
    vault.take_back().unwrap();
    holds(&vault, &[5, 65536, 7, 8], &mut random);
}

/// Each strike of a struck record has a write number and ends its round in time. After the round's end nothing of it is taken back.
#[test]
fn strikes_of_a_struck_record_count() {
    let mut random = Random::new(17);
    let mut vault = Vault::open(3, 2, vec![STRUCK_WORD; 16]).unwrap();
    let opened = vault.clone();
    for c in 1..8 {
        vault.strike(5).unwrap();
        assert_eq!(vault.header().c, c);
        holds(&vault, &[STRUCK_WORD; 16], &mut random);
        let image = vault.image().unwrap();
        let explanation = Explanation::new(vault.header(), &image, &[]).unwrap();
        let (stripe, write) = (c.trailing_zeros(), c - 1);
        let origin = explanation.origins.unwrap()[5];
        assert_eq!(origin, Origin::Level { stripe, write });
    }
    vault.strike(5).unwrap();
    // The full stripe is coded anew, of the same records.
    assert!(vault == opened);
    assert_eq!(vault.take_back(), Err(Refusal::RoundStart));
}

/// A vault with the words that its records should have, and both before each write of the round.
struct History {
    vault: Vault,
    words: Vec<u32>,
    before: Vec<(Vault, Vec<u32>)>,
}

impl History {
    fn open(k: u32, s: u32) -> History {
        let words: Vec<u32> = (0..sizes::raw(k, s) as u32).collect();
        History {
            vault: Vault::open(k, s, words.clone()).unwrap(),
            words,
            before: Vec::new(),
        }
    }

    /// Writes a word in the place of each of a record's, or strikes it.
    fn put(&mut self, record: u32, word: Option<u32>) {
        let s = self.vault.header().s as usize;
        self.before.push((self.vault.clone(), self.words.clone()));
        let answer = match word {
            Some(word) => self.vault.write(record, &vec![word; s]),
            None => self.vault.strike(record),
        };
        assert_eq!(answer, Ok(()));
        let place = record as usize * s..(record as usize + 1) * s;
        self.words[place].fill(word.unwrap_or(STRUCK_WORD));
        if self.vault.header().c == 0 {
            self.before.clear();
        }
    }

    fn back(&mut self) {
        let answer = self.vault.take_back();
        match self.before.pop() {
            None => assert_eq!(answer, Err(Refusal::RoundStart)),
            Some((vault, words)) => {
                self.words = words;
                assert!(self.vault == vault);
            }
        }
    }

    /// The numbers of the records that recovery gives as struck, which are those that are read so.
    fn struck(&self) -> Vec<u32> {
        let (header, image) = (self.vault.header(), self.vault.image().unwrap());
        let words = recovered(header, &image, &[]);
        let struck: Vec<u32> = Records::new(header, &words).struck().collect();
        let read = |record: &u32| self.vault.read(*record) == Ok(Record::Struck);
        assert!((0..1 << header.k).filter(read).eq(struck.iter().copied()));
        struck
    }
}

/// Writes, strikes and takings-back in any order: the records are as they were last written or struck, and a taking-back gives the vault of before.
#[test]
fn any_order() {
    let mut random = Random::new(18);
    let mut struck = 0;
    for _ in 0..40 {
        let (k, s) = (1 + random.below(4) as u32, 1 + random.below(3) as u32);
        let mut history = History::open(k, s);
        for word in 1..random.below(40) as u32 {
            let record = random.below(1 << k) as u32;
            match random.below(4) {
                0 => history.back(),
                1 | 2 => history.put(record, None),
                _ => history.put(record, Some(word)),
            }
        }
        holds(&history.vault, &history.words, &mut random);
        struck += history.struck().len();
    }
    assert!(struck > 40, "{struck}");
}
