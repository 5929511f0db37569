//! Taking back: histories in which writes are taken back, where the write before is found, each refusal, and buffers that no opening made.
use super::blanks::blank_write;
use super::earlier::Vault;
use super::faults::{self, Accepted, Fault};
use super::losses::{damage, lose_each, nothing, Cover, Garbage};
use super::writes::any;
use super::Script;
use crate::calls::Call;
use crate::header::Header;
use crate::lent::Words;
use crate::script::{Command, Number};
use crate::stripe::code;
use random::Random;

/// Taking back, which must give this number.
fn gives(script: &mut Script, number: u32) {
    script.take_back();
    assert_eq!(script.machine.answered, number, "of a taking-back");
}

/// A write of this block.
pub fn write(script: &mut Script, record: u32, block: &[u32]) {
    for (at, &word) in (0..).zip(block) {
        script.push(Command::Put(Words::Block, at, word));
    }
    script.call(Call::Write { record });
}

/// An opening of these records, over garbage.
pub fn open(script: &mut Script, k: u32, s: u32, records: &[u32]) {
    script.begin(Header { k, s, c: 0 });
    for (at, &word) in (0..).zip(records) {
        script.push(Command::Put(Words::Raw, at, word));
    }
    script.fill(Words::Full, 0);
    script.fill(Words::Log, 0);
    script.call(Call::Open);
}

/// The examples of the document: its vault, and then each of these changes of a word.
fn of_the_document(script: &mut Script) {
    open(script, 2, 2, &[10, 11, 20, 21, 30, 31, 40, 65535]);
    for (record, block) in [(2, [1, 2]), (3, [3, 4]), (2, [5, 65535])] {
        write(script, record, &block);
    }
    let whole = Vault::of(script);
    for lent in [55, 57] {
        script.push(Command::TakeBack(lent));
        assert_eq!(script.machine.answered, 2, "the scratch has 56 words");
    }
    for (number, buffer, first, words) in [
        (0, Words::Full, 0, &[u32::MAX][..]),
        (8, Words::Log, 13, &[65537]),
        (9, Words::Log, 13, &[0]),
        (9, Words::Log, 1, &[6]),
        (10, Words::Log, 0, &[4, 5, 65535, 16384, 20480, 57345]),
    ] {
        for (at, &word) in (first..).zip(words) {
            script.push(Command::Put(buffer, at, word));
        }
        gives(script, number);
        whole.put(script);
    }
    for number in [0, 0, 0, 12] {
        gives(script, number);
    }
}

/// Recovers and explains the image of the vault as it is, with nothing lost and with half of each stripe lost: what is recovered is the raw copy.
pub fn read_back(script: &mut Script, cover: Cover) {
    let header = script.machine.header();
    let half = lose_each(script, |_, size| size);
    for (lost, garbage) in [(nothing(header), Garbage::None), (half, Garbage::Positions)] {
        damage(script, &lost, cover, garbage);
        script.explain();
        script.recover();
        let records = script.machine.words(Words::Raw);
        assert_eq!(script.machine.words(Words::Out), records);
    }
}

/// Taking back in a history: it is taken, but for one at a round's start.
pub fn of_a_history(script: &mut Script) {
    let start = script.machine.header().c == 0;
    gives(script, if start { 12 } else { 0 });
}

/// Writes up to the last of the round are taken back to its start: the vault is as it was there.
fn there_and_back(script: &mut Script) {
    let start = Vault::of(script);
    let k = start.header.k;
    for _ in 1..1 << k {
        script.write();
    }
    while script.machine.header().c > 0 {
        of_a_history(script);
        if k < 4 {
            read_back(script, Cover::Part);
        }
    }
    let back = Vault::of(script);
    let same = back.raw == start.raw && back.full == start.full && back.log == start.log;
    assert!(same, "a whole round taken back changes nothing");
}

/// Rounds are taken back to their start and written anew to their end.
fn rounds(script: &mut Script) {
    let vaults = [
        (1, 1),
        (1, 2),
        (2, 1),
        (2, 3),
        (3, 1),
        (3, 2),
        (4, 1),
        (5, 2),
    ];
    for (k, s) in vaults {
        script.open(k, s);
        for _ in 0..2 {
            of_a_history(script);
            there_and_back(script);
            for _ in 0..1 << k {
                script.write();
            }
        }
    }
}

/// Any event of a history: a write, a blank one that is refused, an earlier one, or some takings-back.
pub fn event(script: &mut Script) {
    match script.random.below(8) {
        0 => blank_write(script),
        1 => {
            let mut vault = Vault::of(script);
            vault.any_write(&mut script.random);
            vault.put(script);
        }
        2..6 => script.write(),
        _ => {
            for _ in 0..=script.random.below(4) {
                of_a_history(script);
            }
        }
    }
}

fn histories(script: &mut Script) {
    let covers = [Cover::Whole, Cover::Part, Cover::Touch, Cover::Single];
    let vaults = [
        (1, 1, 20),
        (1, 3, 12),
        (2, 1, 40),
        (2, 2, 30),
        (3, 1, 60),
        (3, 3, 40),
        (4, 1, 60),
        (5, 3, 60),
    ];
    for (k, s, events) in vaults {
        script.open(k, s);
        for i in 0..events {
            event(script);
            if i % k as usize == 0 {
                read_back(script, covers[i % 4]);
            }
        }
    }
}

/// A round of k = 3, s = 1 with writes to these records, of which the last is taken back: to the word that it had before, or the opening's where no other
/// write was to it.
fn found(script: &mut Script, records: &[u32]) {
    let opened: Vec<u32> = (100..108).collect();
    open(script, 3, 1, &opened);
    for (word, &record) in (1..).zip(records) {
        write(script, record, &[word]);
    }
    let (record, others) = records.split_last().expect("a write");
    let before = others.iter().rposition(|other| other == record);
    let word = before.map_or(100 + record, |place| place as u32 + 1);
    gives(script, 0);
    assert_eq!(script.machine.words(Words::Raw)[*record as usize], word);
    read_back(script, Cover::Whole);
}

/// The write before on the level itself, on one above, and none but the full stripe's block; the newest of several.
fn where_it_is(script: &mut Script) {
    let rounds: [&[u32]; 14] = [
        &[5],
        &[5, 5],
        &[4, 5],
        &[5, 4, 5],
        &[5, 5, 3, 5],
        &[5, 3, 5, 5],
        &[5, 5, 5, 5],
        &[5, 5, 2, 2, 5],
        &[5, 1, 2, 5, 5],
        &[1, 2, 5, 5, 4, 5],
        &[5, 1, 2, 3, 4, 0, 5],
        &[5, 1, 2, 3, 5, 0, 5],
        &[0, 1, 2, 3, 4, 6, 5],
        &[0, 5, 2, 5, 4, 5, 5],
    ];
    for records in rounds {
        found(script, records);
    }
    // At the start of a round and with its first write, also where a round has two.
    for (k, s) in [(1, 1), (1, 2), (2, 1), (6, 1)] {
        script.open(k, s);
        gives(script, 12);
        script.write();
        gives(script, 0);
        gives(script, 12);
    }
}

/// One fault and two faults of different numbers, where level 0 is at fault of k = 2, s = 1, c = 3, with 48 words for the scratch.
fn in_order(script: &mut Script) {
    script.open(2, 1);
    for _ in 0..3 {
        script.write();
    }
    let header = script.machine.header();
    let mut faults = faults::header(2);
    for (buffer, length) in [
        (Words::Raw, header.raw_len()),
        (Words::Full, header.full_len()),
        (Words::Log, header.log_len()),
    ] {
        faults.extend(faults::lengths(Number::WordsLent(buffer), length));
    }
    for lent in [47, 49, 24, 0] {
        faults.push((2, Fault::Given(lent)));
    }
    faults.push((12, Fault::Set(Number::C, 0)));
    let other = script.machine.words(Words::Log)[1] ^ 1;
    for (number, at, word) in [(8, 0, 65537), (8, 3, u32::MAX), (9, 1, other)] {
        faults.push((number, Fault::Put(Words::Log, at, word)));
    }
    let call = Accepted {
        command: Command::TakeBack,
        given: header.double_scratch_len() as u32,
        faults,
        garbage: vec![Words::Raw],
    };
    faults::add(script, &call);
}

impl Vault {
    /// The words of a stripe.
    fn stripe(&mut self, stripe: u32) -> &mut [u32] {
        let header = self.header;
        if stripe == header.k {
            return &mut self.full;
        }
        &mut self.log[header.level_start(stripe)..header.level_start(stripe + 1)]
    }

    /// Puts the code of some blocks in a stripe's place.
    fn code(&mut self, stripe: u32, blocks: &[u64]) {
        let header = self.header;
        let words = code(header.k, header.first(stripe), header.width(), blocks);
        for (to, x) in self.stripe(stripe).iter_mut().zip(words) {
            *to = x as u32;
        }
    }

    /// Puts another word in a stripe, one of the field or not.
    fn spoil(&mut self, random: &mut Random, stripe: u32, in_field: bool) {
        let stray = *random.one(&[65537, 65538, 131073, u32::MAX]);
        let more = 1 + random.below(65536) as u32;
        let words = self.stripe(stripe);
        let word = &mut words[random.index(words.len())];
        *word = if in_field {
            (*word + more) % 65537
        } else {
            stray
        };
    }
}

/// Takes back from the buffers of a vault, which must give this number.
fn taken_back_from(script: &mut Script, vault: &Vault, number: u32) {
    vault.put(script);
    gives(script, number);
}

/// A round of k = 3 with c = 7: level 0 holds a write to record 5, and the stripes above it blocks of which that number is on those that are given, or none.
fn vault_of_seven(script: &mut Script, s: u32, holds_5: Option<u32>) -> (Vault, Vec<Vec<u64>>) {
    script.begin(Header { k: 3, s, c: 7 });
    let mut vault = Vault::of(script);
    vault.raw.fill(u32::MAX);
    let mut stripes = Vec::new();
    for stripe in 0..=3 {
        let mut blocks = Vec::new();
        for place in 0..1 << stripe {
            let number = match stripe {
                3 => place,
                0 => 5,
                _ if holds_5 == Some(stripe) && place == 1 => 5,
                _ => *script.random.one(&[0, 1, 2, 3, 4, 6, 7]),
            };
            blocks.push(number);
            blocks.extend((0..s).map(|_| script.random.below(65536)));
        }
        vault.code(stripe, &blocks);
        stripes.push(blocks);
    }
    (vault, stripes)
}

/// Each stripe spoilt in each way, where the write before is on level 1, on level 2, or on the full stripe: a stripe behind it is not looked at.
fn spoilt(script: &mut Script) {
    for (holds_5, decoded, s) in [(Some(1), 0..2, 1), (Some(2), 0..3, 2), (None, 0..4, 1)] {
        let (good, stripes) = vault_of_seven(script, s, holds_5);
        taken_back_from(script, &good, 0);
        for stripe in 0..=3 {
            let number = |number| if decoded.contains(&stripe) { number } else { 0 };
            for (refusal, in_field) in [(9, true), (9, true), (8, false), (8, false)] {
                let mut vault = good.clone();
                vault.spoil(&mut script.random, stripe, in_field);
                taken_back_from(script, &vault, number(refusal));
            }
            for (blocks, refusal) in no_records(script, s, stripe, &stripes[stripe as usize]) {
                let mut vault = good.clone();
                vault.code(stripe, &blocks);
                taken_back_from(script, &vault, number(refusal));
                vault.spoil(&mut script.random, stripe, true);
                taken_back_from(script, &vault, number(9));
            }
        }
    }
}

/// The blocks of a stripe with a number that no record has, or with 65536 in one data word, which is a strike where that is the only one; on the full stripe
/// with a number that is not in its place, too. Each with its number.
fn no_records(script: &mut Script, s: u32, stripe: u32, good: &[u64]) -> Vec<(Vec<u64>, u32)> {
    let at = script.random.index(1 << stripe) * (1 + s as usize);
    let column = 1 + script.random.index(s as usize);
    let struck = if s == 1 { 0 } else { 10 };
    let mut changes = vec![(at, 8, 10), (at, 65535, 10), (at, 65536, 10)];
    changes.push((at + column, 65536, struck));
    if stripe == 3 {
        changes.push((at, (good[at] + 1) % 8, 10));
    }
    let changed = |(at, word, number): (usize, u64, u32)| {
        let mut blocks = good.to_vec();
        blocks[at] = word;
        (blocks, number)
    };
    changes.into_iter().map(changed).collect()
}

/// Faults on two stripes that are both decoded: that of the lower one is given, whatever the number of the other.
fn two_stripes(script: &mut Script) {
    let (good, stripes) = vault_of_seven(script, 1, None);
    for lower in 0..=3 {
        for upper in lower + 1..=3 {
            for numbers in [[8, 9], [9, 8], [10, 8], [10, 9], [8, 10], [9, 10]] {
                let mut vault = good.clone();
                for (stripe, number) in [lower, upper].into_iter().zip(numbers) {
                    if number == 10 {
                        let blocks = no_records(script, 1, stripe, &stripes[stripe as usize]);
                        vault.code(stripe, &blocks[0].0);
                    } else {
                        vault.spoil(&mut script.random, stripe, number == 9);
                    }
                }
                taken_back_from(script, &vault, numbers[0]);
            }
        }
    }
}

/// Buffers of any words at every c; words below p are in the field, and do not fit together.
fn any_buffers(script: &mut Script) {
    for bound in [0, 65537] {
        for (k, s) in [(1, 1), (2, 2), (3, 1), (4, 3)] {
            for c in 0..1 << k {
                any(script, Header { k, s, c }, bound);
                script.take_back();
            }
        }
    }
    for (k, s, c) in [(9, 3, 511), (10, 1, 512), (10, 3, 1023), (8, 2, 96)] {
        any(script, Header { k, s, c }, 65537);
        gives(script, 9);
    }
}

/// Buffers of which the filled levels hold any writes, and all else, the raw copy and the empty levels, any words: they are taken back one by one. The words of
/// the levels below are those that coding gives, whatever stood there.
fn any_writes(script: &mut Script) {
    for (k, s, c) in [
        (1, 1, 1),
        (2, 1, 2),
        (2, 2, 3),
        (3, 1, 4),
        (3, 2, 6),
        (4, 1, 12),
    ] {
        let header = Header { k, s, c };
        any(script, header, 0);
        let mut vault = Vault::of(script);
        let full = (0..1 << k).flat_map(|i| (0..=u64::from(s)).map(move |j| i + j * 1000 * i));
        vault.code(k, &full.collect::<Vec<_>>());
        for level in (0..k).filter(|&level| header.filled(level)) {
            let mut blocks = Vec::new();
            for _ in 0..1 << level {
                blocks.push(script.random.below(1 << k));
                blocks.extend((0..s).map(|_| script.random.below(65536)));
            }
            vault.code(level, &blocks);
        }
        vault.put(script);
        for _ in 0..c {
            gives(script, 0);
        }
        gives(script, 12);
    }
}

/// Large vaults: one in which a record is written twice, so that no high stripe is decoded, and one with many levels.
fn large(script: &mut Script) {
    script.open(10, 3);
    for record in [7, 1023, 7, 512, 1023] {
        script.fill(Words::Block, 65536);
        script.call(Call::Write { record });
    }
    gives(script, 0);
    gives(script, 0);
    script.call(Call::Image);
    script.open(7, 4);
    for _ in 0..127 {
        script.write();
    }
    while script.machine.header().c > 60 {
        gives(script, 0);
    }
    read_back(script, Cover::Touch);
}

pub fn add(script: &mut Script) {
    of_the_document(script);
    rounds(script);
    histories(script);
    where_it_is(script);
    in_order(script);
    spoilt(script);
    two_stripes(script);
    any_buffers(script);
    any_writes(script);
    large(script);
}
