//! Taking back: the vault is as before the last write of the round, each word; the tables of docs/FORMAT.md; what is refused, and what it leaves.
use vault_library::{calls, sizes, Header, Record, Refusal, Vault};

/// The buffers of a vault, as C's callers lend them, and a scratch.
#[derive(Clone, Debug, PartialEq)]
struct Buffers {
    header: Header,
    raw: Vec<u32>,
    full: Vec<u32>,
    log: Vec<u32>,
    scratch: Vec<u32>,
}

impl Buffers {
    /// A vault that is opened with some records; a scratch of nines.
    fn open(k: u32, s: u32, raw: Vec<u32>) -> Buffers {
        let mut full = vec![9; sizes::full(k, s)];
        let mut log = vec![9; sizes::log(k, s)];
        let header = calls::open(k, s, &raw, &mut full, &mut log).unwrap();
        Buffers {
            header,
            raw,
            full,
            log,
            scratch: vec![9; sizes::take_back_scratch(k, s)],
        }
    }

    fn write(&mut self, record: u32, block: &[u32]) {
        let (raw, full, log) = (&mut self.raw, &mut self.full, &mut self.log);
        calls::write(&mut self.header, raw, full, log, record, block).unwrap();
    }

    fn take_back(&mut self) -> Result<(), Refusal> {
        let (raw, full, log) = (&mut self.raw, &self.full, &mut self.log);
        calls::take_back(&mut self.header, raw, full, log, &mut self.scratch)
    }

    /// The same with zeros in the scratch, as a taking-back leaves it.
    fn cleared(&self) -> Buffers {
        let mut cleared = self.clone();
        cleared.scratch.fill(0);
        cleared
    }
}

/// The vault of the whole image of section 12.
fn example() -> Buffers {
    let mut buffers = Buffers::open(2, 2, vec![10, 11, 20, 21, 30, 31, 40, 65535]);
    for (record, block) in [(2, [1, 2]), (3, [3, 4]), (2, [5, 65535])] {
        buffers.write(record, &block);
    }
    buffers
}

/// The first table "Taking back" of section 12.
#[test]
fn back_to_the_round_s_start() {
    let mut buffers = example();
    let full = buffers.full.clone();
    let level_1 = buffers.log[6..].to_vec();
    assert_eq!(buffers.take_back(), Ok(()));
    assert_eq!(buffers.header.c, 2);
    assert_eq!(buffers.raw, [10, 11, 20, 21, 1, 2, 3, 4]);
    assert_eq!(buffers.log, [vec![0; 6], level_1].concat());
    assert_eq!(buffers.take_back(), Ok(()));
    assert_eq!(buffers.header.c, 1);
    assert_eq!(buffers.raw, [10, 11, 20, 21, 1, 2, 40, 65535]);
    let level_0 = vec![2, 1, 2, 2, 1, 2];
    assert_eq!(buffers.log, [level_0, vec![0; 12]].concat());
    assert_eq!(buffers.take_back(), Ok(()));
    let opened = Buffers::open(2, 2, vec![10, 11, 20, 21, 30, 31, 40, 65535]);
    assert_eq!(buffers, opened.cleared());
    assert_eq!(buffers.full, full);
    buffers.scratch.fill(9);
    assert_eq!(buffers.take_back(), Err(Refusal::RoundStart));
    assert_eq!(buffers, opened);
}

/// Words of the example's log become others, from some word on; the number, after which nothing else changed and the scratch is zeros.
fn altered(at: usize, words: &[u32], refusal: Refusal) {
    let mut buffers = example();
    buffers.log[at..at + words.len()].copy_from_slice(words);
    let left = buffers.cleared();
    assert_eq!(buffers.take_back(), Err(refusal));
    assert_eq!(buffers, left);
}

/// The second table there.
#[test]
fn altered_words() {
    altered(13, &[65537], Refusal::OutOfField);
    altered(13, &[0], Refusal::Inconsistent);
    altered(1, &[6], Refusal::Inconsistent);
    let block = [4, 5, 65535, 16384, 20480, 57345];
    altered(0, &block, Refusal::NotARecord);
    // The full stripe is not looked at.
    let mut buffers = example();
    buffers.full[0] = u32::MAX;
    let full = buffers.full.clone();
    assert_eq!(buffers.take_back(), Ok(()));
    assert_eq!((buffers.header.c, buffers.full), (2, full));
}

#[test]
fn refusals_1_2_and_12_change_nothing() {
    let refused = |change: fn(&mut Buffers), refusal| {
        let mut buffers = example();
        change(&mut buffers);
        let before = buffers.clone();
        assert_eq!(buffers.take_back(), Err(refusal));
        assert_eq!(buffers, before);
    };
    refused(|buffers| buffers.header.c = 4, Refusal::Header);
    refused(|buffers| buffers.header.k = 11, Refusal::Header);
    refused(|buffers| buffers.header.s = 1, Refusal::Length);
    refused(|buffers| buffers.scratch.truncate(55), Refusal::Length);
    refused(|buffers| buffers.scratch.push(9), Refusal::Length);
    refused(|buffers| buffers.raw.push(9), Refusal::Length);
    refused(|buffers| buffers.full.clear(), Refusal::Length);
    refused(|buffers| buffers.log.truncate(17), Refusal::Length);
    refused(|buffers| buffers.header.c = 0, Refusal::RoundStart);
    // 12 comes before the words of a stripe are looked at, and after 2.
    let stray = |buffers: &mut Buffers| {
        buffers.header.c = 0;
        buffers.log.fill(u32::MAX);
    };
    refused(stray, Refusal::RoundStart);
    let longer = |buffers: &mut Buffers| {
        buffers.header.c = 0;
        buffers.log.push(0);
    };
    refused(longer, Refusal::Length);
    assert_eq!(
        Refusal::RoundStart.to_string(),
        "refused 12 (round start): this round has no write to take back"
    );
}

/// A round of writes, few records of which are written often, and then back: at each count the vault is what it was there.
#[test]
fn a_round_and_back() {
    for (k, s) in [(1, 1), (1, 3), (2, 1), (3, 2), (4, 1), (5, 3)] {
        let n = 1 << k;
        let records = (0..n * s).map(|i| 300 * i % 65536).collect();
        let mut vault = Vault::open(k, s, records).unwrap();
        let mut before = Vec::new();
        for c in 0..n - 1 {
            before.push(vault.clone());
            let record = c * c % n;
            let block: Vec<u32> = (1..=s).map(|j| (7919 * (c + j)) % 65536).collect();
            vault.write(record, &block).unwrap();
        }
        while let Some(left) = before.pop() {
            assert_eq!(vault.take_back(), Ok(()));
            assert!(vault == left, "k = {k}, s = {s}: {:?}", left.header());
        }
        assert_eq!(vault.take_back(), Err(Refusal::RoundStart));
    }
}

/// Writes and takings-back in turn, and other writes where some were taken back.
#[test]
fn as_if_the_write_had_never_been() {
    let mut vault = Vault::open(3, 2, vec![1; 16]).unwrap();
    let mut without = vault.clone();
    for write in 0..7 {
        for wrong in 0..=write {
            vault.write(7 - wrong, &[50 + wrong, write]).unwrap();
            assert_eq!(vault.take_back(), Ok(()));
        }
        for vault in [&mut vault, &mut without] {
            vault.write(write % 3, &[write, 4]).unwrap();
        }
        assert!(vault == without, "write {write}");
    }
}

/// The write that ends a round is not taken back.
#[test]
fn a_round_that_has_ended() {
    let mut vault = Vault::open(1, 1, vec![3, 4]).unwrap();
    vault.write(0, &[5]).unwrap();
    vault.write(0, &[6]).unwrap();
    let ended = vault.clone();
    assert_eq!(vault.take_back(), Err(Refusal::RoundStart));
    assert!(vault == ended);
    vault.write(1, &[7]).unwrap();
    assert_eq!(vault.take_back(), Ok(()));
    assert!(vault == ended);
    assert_eq!(vault.read(0), Ok(Record::Words(&[6])));
}
