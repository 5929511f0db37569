//! Earlier writes (docs/FORMAT.md): images that a vault of before number 11 left, with blank blocks in them, and histories of it that go on today.
use super::blanks::blank_write;
use super::losses::{all, decode_all, erase, lose_each, positions, Cover, Garbage};
use super::Script;
use crate::calls::Call;
use crate::header::Header;
use crate::image::image;
use crate::lent::{Bytes, Words};
use crate::opening::open;
use crate::script::{Command, Number};
use crate::writing::earlier_write;
use random::Random;

/// A vault of before number 11.
#[derive(Clone)]
pub struct Vault {
    pub header: Header,
    pub raw: Vec<u32>,
    pub full: Vec<u32>,
    pub log: Vec<u32>,
}

/// A record of so many data words, which are all 0 one time in two.
fn record(random: &mut Random, words: usize) -> Vec<u32> {
    let bound = *random.one(&[1, 65536]);
    (0..words).map(|_| random.below(bound) as u32).collect()
}

impl Vault {
    fn open(k: u32, s: u32, raw: Vec<u32>) -> Vault {
        let header = Header { k, s, c: 0 };
        let (mut full, mut log) = (vec![0; header.full_len()], vec![0; header.log_len()]);
        assert_eq!(open(k, s, &raw, &mut full, &mut log), (0, header));
        Vault {
            header,
            raw,
            full,
            log,
        }
    }

    /// The vault that the machine's buffers and header are.
    pub fn of(script: &Script) -> Vault {
        let [raw, full, log] =
            [Words::Raw, Words::Full, Words::Log].map(|buffer| script.machine.words(buffer));
        Vault {
            header: script.machine.header(),
            raw,
            full,
            log,
        }
    }

    fn write(&mut self, record: u32, block: &[u32]) {
        let (raw, full, log) = (&mut self.raw, &mut self.full, &mut self.log);
        let (number, header) = earlier_write(self.header, raw, full, log, record, block);
        assert_eq!(
            number, 0,
            "an earlier vault takes every block of data words"
        );
        self.header = header;
    }

    pub fn any_write(&mut self, random: &mut Random) {
        let at = random.index(self.header.records()) as u32;
        let block = record(random, self.header.data());
        self.write(at, &block);
    }

    /// Loads the image of this vault, which it leaves with its header.
    fn load(&self, script: &mut Script) {
        let mut bytes = vec![0; self.header.image_len()];
        assert_eq!(image(self.header, &self.full, &self.log, &mut bytes), 0);
        script.begin(self.header);
        script.load(Bytes::Image, bytes);
    }

    /// Puts what differs in the machine's buffers and header.
    pub fn put(&self, script: &mut Script) {
        for (buffer, words) in [
            (Words::Raw, &self.raw),
            (Words::Full, &self.full),
            (Words::Log, &self.log),
        ] {
            let before = script.machine.words(buffer);
            for (at, &word) in words.iter().enumerate() {
                if before[at] != word {
                    script.push(Command::Put(buffer, at as u32, word));
                }
            }
        }
        script.set(Number::C, self.header.c);
    }
}

/// Recovers these records, decodes each filled stripe, and explains.
fn read_back(script: &mut Script, records: &[u32]) {
    script.recover();
    assert_eq!(script.machine.words(Words::Out), records);
    decode_all(script);
    script.explain();
}

/// Reads an image of an earlier vault, where nothing is lost, just half of each filled stripe, and then one position more on each of them in turn.
fn read_image(script: &mut Script, vault: &Vault, cover: Cover) {
    let header = vault.header;
    vault.load(script);
    read_back(script, &vault.raw);
    let lost = lose_each(script, |_, size| size);
    erase(script, &lost, cover, Garbage::Gaps);
    read_back(script, &vault.raw);
    for stripe in (0..=header.k).filter(|&stripe| header.filled(stripe)) {
        let mut more = lost.clone();
        let kept = positions(header, stripe).find(|&i| !more[i]);
        more[kept.expect("half of the positions survive")] = true;
        erase(script, &more, Cover::Touch, Garbage::None);
        script.recover();
        assert_eq!(script.machine.answered, 7, "one position too many is lost");
        script.explain();
    }
}

/// Images of histories of earlier writes, many of them of blank blocks.
fn images(script: &mut Script) {
    let vaults = [
        (1, 1, 1),
        (1, 2, 2),
        (2, 1, 3),
        (2, 3, 5),
        (3, 1, 7),
        (3, 2, 8),
        (4, 3, 21),
        (5, 1, 63),
    ];
    let covers = [Cover::Whole, Cover::Part, Cover::Single];
    for ((k, s, writes), cover) in vaults.into_iter().zip(covers.into_iter().cycle()) {
        let raw = record(&mut script.random, (s as usize) << k);
        let mut vault = Vault::open(k, s, raw);
        for _ in 0..writes {
            vault.any_write(&mut script.random);
        }
        read_image(script, &vault, cover);
    }
}

/// Images of zero records to which blank blocks alone were written, to one record: where that is record 0, all words of the levels are 0.
fn blank_alone(script: &mut Script) {
    for (k, s, writes, at) in [(1, 1, 1, 0), (2, 1, 3, 0), (2, 2, 2, 3), (3, 1, 8, 5)] {
        let mut vault = Vault::open(k, s, vec![0; (s as usize) << k]);
        for _ in 0..writes {
            vault.write(at, &vec![0; s as usize]);
        }
        read_image(script, &vault, Cover::Part);
    }
}

/// A history of today's writes and of earlier ones, some of blank blocks, of which today's are refused.
fn history(script: &mut Script, k: u32, s: u32, events: usize) {
    script.open(k, s);
    for _ in 0..events {
        match script.random.below(3) {
            0 => blank_write(script),
            1 => script.write(),
            _ => {
                let mut vault = Vault::of(script);
                vault.any_write(&mut script.random);
                vault.put(script);
            }
        }
    }
}

/// Histories that an earlier vault began or went on with, and then each kind of loss and alteration of the small ones.
fn histories(script: &mut Script) {
    let small = [(1, 1, 7), (2, 1, 16), (3, 1, 20)];
    for (turn, (k, s, events)) in small.into_iter().enumerate() {
        history(script, k, s, events);
        all(script, turn);
        image_as_it_is(script);
    }
    for (k, s, events) in [(2, 3, 9), (3, 2, 14), (4, 1, 26), (7, 1, 12)] {
        history(script, k, s, events);
        image_as_it_is(script);
    }
}

/// The image of the buffers, with nothing lost.
fn image_as_it_is(script: &mut Script) {
    script.call(Call::Image);
    script.erasures(&[]);
    let records = script.machine.words(Words::Raw);
    read_back(script, &records);
}

/// An earlier write of a blank block to each record in turn, so that a round's writes are all blank; the last of them ends the round, or one of today does.
fn round_ends(script: &mut Script) {
    for (k, s, last) in [(1, 2, true), (2, 1, false), (2, 2, true), (3, 1, false)] {
        script.open(k, s);
        let n: u32 = 1 << k;
        for at in 0..if last { n } else { n - 1 } {
            let mut vault = Vault::of(script);
            vault.write(at, &vec![0; s as usize]);
            vault.put(script);
        }
        blank_write(script);
        script.write();
        image_as_it_is(script);
    }
}

pub fn add(script: &mut Script) {
    images(script);
    blank_alone(script);
    histories(script);
    round_ends(script);
}
