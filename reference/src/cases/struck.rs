//! Blocks of which data words are 65536, in all of them or in some: on levels and on the full stripe, decoded, recovered, explained, read twice, and taken
//! back from. No history has a block of which some are. So the code of such blocks is put in a level's place here, and such words in the raw copy, which a
//! write that ends a round makes the full stripe of.
use super::losses::{damage, lose, lose_each, nothing, positions, spoil, Cover, Garbage};
use super::recoveries::{blocks, open_and_write, recode};
use super::strikes::gave;
use super::two_readings;
use super::Script;
use crate::calls::Call;
use crate::header::Header;
use crate::lent::{Bytes, Words};
use crate::record::STRUCK;
use crate::script::{Command, Number};
use random::Random;

/// The data words of a block that are 65536: all of them; those of one half; one, the first, the last or any; and all but one.
fn choices(random: &mut Random, s: usize) -> Vec<Vec<bool>> {
    let any = random.index(s);
    let mut choices = vec![vec![true; s]];
    choices.push((0..s).map(|i| i < s / 2).collect());
    choices.push((0..s).map(|i| i >= s / 2).collect());
    for at in [0, s - 1, any] {
        choices.push((0..s).map(|i| i == at).collect());
        choices.push((0..s).map(|i| i != at).collect());
    }
    let mut different = Vec::new();
    for struck in choices {
        if struck.contains(&true) && !different.contains(&struck) {
            different.push(struck);
        }
    }
    different
}

/// The number with which a block of these words is refused.
fn number(struck: &[bool]) -> u32 {
    if struck.contains(&false) {
        10
    } else {
        0
    }
}

/// Blocks of which one has 65536 in these words.
fn with_struck(header: Header, good: &[u64], block: usize, struck: &[bool]) -> Vec<u64> {
    let mut blocks = good.to_vec();
    let data = &mut blocks[block * header.width() + 1..][..header.data()];
    for (word, _) in data.iter_mut().zip(struck).filter(|x| *x.1) {
        *word = u64::from(STRUCK);
    }
    blocks
}

/// Decodes the stripe, recovers and explains: each gives this number.
fn all_give(script: &mut Script, stripe: u32, number: u32) {
    script.decode(stripe);
    gave(script, number);
    script.recover();
    gave(script, number);
    script.explain();
    gave(script, number);
}

/// On each filled level, with nothing lost and with half of each stripe lost; and with a word altered besides, which goes before.
fn levels(script: &mut Script, k: u32, s: u32, writes: usize) {
    let header = open_and_write(script, k, s, writes);
    for level in (0..k).filter(|&level| header.filled(level)) {
        script.erasures(&[]);
        script.call(Call::Image);
        let good = blocks(script, level);
        for (turn, struck) in choices(&mut script.random, header.data())
            .iter()
            .enumerate()
        {
            let block = script.random.index(1 << level);
            let changed = with_struck(header, &good, block, struck);
            let lost = match turn % 2 {
                0 => nothing(header),
                _ => lose_each(script, |_, size| size),
            };
            damage(script, &lost, Cover::Part, Garbage::Gaps);
            recode(script, level, &changed);
            all_give(script, level, number(struck));
            if turn % 2 == 0 {
                spoil(script, &lost, level, true);
                script.recover();
                gave(script, 9);
                spoil(script, &lost, level, false);
                script.decode(level);
                gave(script, 8);
            }
        }
    }
}

/// Ends a round where a record other than the first has raw words of this residue in some places, so that the full stripe codes 65536 there. Gives the record.
fn round_ends(script: &mut Script, struck: &[bool], word: u32) -> u32 {
    let header = script.machine.header();
    script.set(Number::C, header.records() as u32 - 1);
    script.fill(Words::Raw, 65536);
    let record = 1 + script.random.index(header.records() - 1);
    for at in (0..header.data()).filter(|&at| struck[at]) {
        let at = record * header.data() + at;
        script.push(Command::Put(Words::Raw, at as u32, word));
    }
    script.fill(Words::Block, 65536);
    script.push(Command::Put(Words::Block, 0, 1));
    script.call(Call::Write { record: 0 });
    gave(script, 0);
    record as u32
}

/// On the full stripe, of which the columns of blocks are many or few. Where a write to that record is taken back, the full stripe is decoded too.
fn full_stripes(script: &mut Script, k: u32, s: u32, most: usize) {
    script.open(k, s);
    let choices = choices(&mut script.random, s as usize);
    for (turn, struck) in choices.iter().take(most).enumerate() {
        let word = *script.random.one(&[65536, 131_073, 5 * 65537 - 1]);
        let record = round_ends(script, struck, word);
        let header = script.machine.header();
        let lost = match turn % 2 {
            0 => nothing(header),
            _ => lose_each(script, |_, size| size),
        };
        damage(script, &lost, Cover::Touch, Garbage::Gaps);
        all_give(script, k, number(struck));
        script.call(Call::Write { record });
        script.take_back();
        gave(script, number(struck));
    }
}

/// Each position of a stripe is left of one of two readings alone, and the first has the code of such blocks.
fn read_twice(script: &mut Script, k: u32, s: u32, writes: usize) {
    let header = open_and_write(script, k, s, writes);
    script.lend_bytes(Bytes::Image2, header.image_len());
    for stripe in (0..=k).filter(|&stripe| header.filled(stripe)) {
        script.erasures(&[]);
        script.call(Call::Image);
        let good = blocks(script, stripe);
        for struck in choices(&mut script.random, header.data()) {
            let block = script.random.index(1 << stripe);
            let changed = with_struck(header, &good, block, &struck);
            let mut lost = [nothing(header), nothing(header)];
            lose(script, &mut lost[0], stripe, 1 << stripe);
            for at in positions(header, stripe) {
                lost[1][at] = !lost[0][at];
            }
            two_readings::no_record(script, &lost, stripe, &changed, number(&struck));
        }
    }
}

pub fn add(script: &mut Script) {
    for (k, s, writes) in [
        (1, 1, 1),
        (2, 1, 3),
        (2, 4, 3),
        (3, 5, 7),
        (4, 16, 10),
        (3, 128, 3),
    ] {
        levels(script, k, s, writes);
    }
    for (k, s) in [
        (1, 1),
        (1, 2),
        (2, 3),
        (2, 4),
        (3, 5),
        (4, 16),
        (3, 128),
        (8, 15),
    ] {
        full_stripes(script, k, s, 9);
    }
    full_stripes(script, 9, 7, 3);
    for (k, s, writes) in [(1, 1, 1), (2, 4, 3), (3, 5, 5)] {
        read_twice(script, k, s, writes);
    }
}
