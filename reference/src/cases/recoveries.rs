//! Recoveries and decodings that are refused: numbers 1 to 6, erasure lists, blocks that are no records, stripes in order; and a large vault.
use super::faults::{self, Accepted, Fault};
use super::losses::{
    damage, lose, lose_each, nothing, positions, recover_all, spoil, spoil_column, Cover, Garbage,
};
use super::Script;
use crate::calls::Call;
use crate::header::Header;
use crate::lent::{Bytes, Words};
use crate::recovery::decode_stripe;
use crate::script::{Command, Number};
use crate::stripe::code;

pub fn open_and_write(script: &mut Script, k: u32, s: u32, writes: usize) -> Header {
    script.open(k, s);
    for _ in 0..writes {
        script.write();
    }
    script.call(Call::Image);
    script.machine.header()
}

pub fn pair(offset: u32, length: u32) -> Vec<u8> {
    [offset.to_le_bytes(), length.to_le_bytes()].concat()
}

/// Faults of the calls on images, of any number, where level 1 is decoded of k = 2, s = 1, c = 3. The image has 112 bytes, level 1 its last 32.
pub fn image_faults(out: usize) -> Vec<(u32, Fault)> {
    let mut faults = faults::header(2);
    faults.extend(faults::lengths(Number::WordsLent(Words::Out), out));
    faults.extend(faults::lengths(Number::WordsLent(Words::Scratch), 24));
    faults.extend(faults::lengths(Number::BytesLent(Bytes::Image), 112));
    for bytes in [pair(0, 1)[..7].to_vec(), pair(112, 1), pair(0, 0)] {
        faults.push((3, Fault::List(Bytes::List, bytes)));
    }
    faults
}

/// One fault and two faults of different numbers.
fn in_order(script: &mut Script) {
    let header = open_and_write(script, 2, 1, 3);
    script.lend(Words::Out, header.blocks_len());
    let mut faults = image_faults(header.blocks_len());
    for stripe in [3, 4, u32::MAX] {
        faults.push((6, Fault::Given(stripe)));
    }
    faults.push((7, Fault::List(Bytes::List, pair(87, 10))));
    faults.push((8, Fault::Image(Bytes::Image, 27, 65537)));
    faults.push((9, Fault::Image(Bytes::Image, 26, 65536)));
    let garbage = vec![Words::Out, Words::Scratch];
    let call = Accepted {
        command: |stripe| Command::Call(Call::Decode { stripe }),
        given: 1,
        faults,
        garbage: garbage.clone(),
    };
    faults::add(script, &call);
    script.lend(Words::Out, header.raw_len());
    let call = Accepted {
        command: |_| Command::Call(Call::Recover),
        given: 0,
        faults: image_faults(header.raw_len()),
        garbage,
    };
    faults::add(script, &call);
    // A level that is not filled.
    open_and_write(script, 2, 1, 2);
    script.erasures(&[(0, 112)]);
    script.decode(0);
    script.decode(1);
    script.erasures(&[(0, 113)]);
    script.decode(0);
}

/// Pairs of offset and length, malformed in every way, and good ones at the edges of what is allowed: the image has 112 bytes.
pub const LISTS: [&[(u32, u32)]; 32] = [
    &[],
    &[(0, 8), (9, 8)],
    &[(0, 8), (8, 8)],
    &[(0, 8), (7, 8)],
    &[(104, 8)],
    &[(104, 9)],
    &[(0, 32)],
    &[(0, 33)],
    &[(0, 112)],
    &[(0, 113)],
    &[(111, 1)],
    &[(112, 1)],
    &[(112, 0)],
    &[(0, 0)],
    &[(5, 0)],
    &[(5, 1), (7, 0)],
    &[(0, 1), (2, 1), (4, 1), (6, 1)],
    &[(0, 1), (2, 1), (3, 1), (6, 1)],
    &[(0, 1), (2, 1), (4, 1), (4, 1)],
    &[(8, 1), (0, 1)],
    &[(8, 8), (0, 4)],
    &[(8, 8), (10, 2)],
    &[(0, 1), (111, 2)],
    &[(200, 1)],
    &[(65536, 1)],
    &[(256, 1)],
    &[(8, 256)],
    &[(u32::MAX, 1)],
    &[(u32::MAX, u32::MAX)],
    &[(8, u32::MAX)],
    &[(8, u32::MAX - 7)],
    &[(0, 1), (u32::MAX, 2)],
];

/// Erasure lists of whole pairs, and others.
fn lists(script: &mut Script) {
    open_and_write(script, 2, 1, 3);
    for gaps in LISTS {
        script.erasures(gaps);
        script.recover();
        script.decode(1);
    }
    // Not whole pairs: what there is of the last pair does not matter.
    let bytes = [pair(0, 8), pair(9, 8), pair(200, 1)].concat();
    for count in 1..=bytes.len() {
        script.load(Bytes::List, bytes[..count].to_vec());
        script.recover();
    }
    // Not whole pairs is 3, and the image's length goes before it.
    script.lend_bytes(Bytes::Image, 111);
    script.recover();
    script.lend_bytes(Bytes::Image, 112);
}

/// The blocks of a stripe of the machine's image, where nothing is lost.
pub fn blocks(script: &Script, stripe: u32) -> Vec<u64> {
    let header = script.machine.header();
    let mut out = vec![0; header.blocks_len()];
    let mut scratch = vec![0; header.scratch_len()];
    let image = script.machine.bytes(Bytes::Image);
    assert_eq!(
        decode_stripe(header, &image, &[], stripe, &mut out, &mut scratch),
        0
    );
    let words = out.iter().map(|&x| u64::from(x));
    words.take(header.width() << stripe).collect()
}

/// Puts the code of other blocks in a stripe's place.
pub fn recode(script: &mut Script, stripe: u32, blocks: &[u64]) {
    let header = script.machine.header();
    let coded = code(header.k, header.first(stripe), header.width(), blocks);
    let bytes = coded.iter().flat_map(|&x| (x as u32).to_le_bytes());
    let at = 4 * header.stripe_start(stripe) as u32;
    script.push(Command::Load(Bytes::Image, at, bytes.collect()));
}

/// Blocks that are no records on each stripe, alone, with losses, and with an altered word besides. Where records have one word, 65536 in it is a strike.
fn no_records(script: &mut Script, k: u32, s: u32, writes: usize) {
    let header = open_and_write(script, k, s, writes);
    let (n, width) = (header.records() as u64, header.width());
    script.erasures(&[]);
    for stripe in (0..=k).filter(|&stripe| header.filled(stripe)) {
        script.call(Call::Image);
        let good = blocks(script, stripe);
        let place = script.random.index(1 << stripe) * width;
        let column = 1 + script.random.index(s as usize);
        let other = (good[place] + 1 + script.random.below(n - 1)) % n;
        let changes = [
            (place, n),
            (place, n + 1),
            (place, 65536),
            (place, 65535),
            (place, other),
            (place + column, 65536),
            (place + column, 65535),
        ];
        for (turn, (at, word)) in changes.into_iter().enumerate() {
            let mut blocks = good.clone();
            blocks[at] = word;
            changed(script, stripe, &blocks);
            if ![1, 2, 3].contains(&turn) {
                changed_and_altered(script, stripe, &blocks, turn);
            }
        }
        // Two numbers exchanged: on the full stripe they are not in their places, on a level the blocks are other writes.
        if stripe > 0 {
            let mut blocks = good.clone();
            blocks.swap(0, width);
            whole(script, stripe, &blocks);
        }
        let mut blocks = good;
        blocks[place] = n;
        too_few(script, stripe, &blocks);
    }
}

/// Makes the image anew, loses these positions, and puts the code of other blocks in a stripe's place.
fn damage_and_recode(script: &mut Script, lost: &[bool], stripe: u32, blocks: &[u64]) {
    damage(script, lost, Cover::Whole, Garbage::None);
    recode(script, stripe, blocks);
}

/// Other blocks, with nothing lost.
fn whole(script: &mut Script, stripe: u32, blocks: &[u64]) {
    let lost = nothing(script.machine.header());
    damage_and_recode(script, &lost, stripe, blocks);
    script.recover();
    script.decode(stripe);
}

/// Other blocks, with one position too many lost.
fn too_few(script: &mut Script, stripe: u32, blocks: &[u64]) {
    let mut lost = nothing(script.machine.header());
    lose(script, &mut lost, stripe, (1 << stripe) + 1);
    damage_and_recode(script, &lost, stripe, blocks);
    script.recover();
}

/// Other blocks, with nothing lost and with half of each stripe lost.
fn changed(script: &mut Script, stripe: u32, blocks: &[u64]) {
    whole(script, stripe, blocks);
    let lost = lose_each(script, |_, size| size);
    damage_and_recode(script, &lost, stripe, blocks);
    recover_all(script);
}

/// An altered word in any column goes before what the blocks hold, and a word out of field before that.
fn changed_and_altered(script: &mut Script, stripe: u32, blocks: &[u64], turn: usize) {
    let width = script.machine.header().width();
    let lost = lose_each(script, |_, size| size - 1);
    for column in 0..width {
        damage_and_recode(script, &lost, stripe, blocks);
        spoil_column(script, &lost, stripe, column, true);
        script.recover();
        if column == turn % width {
            script.decode(stripe);
            spoil(script, &lost, stripe, false);
            script.recover();
        }
    }
}

/// Faults of numbers 7 to 10 on two stripes: the first in the order of decoding is named.
fn two_stripes(script: &mut Script) {
    let header = open_and_write(script, 3, 1, 7);
    let width = header.width();
    for first in 0..=3 {
        for second in 0..first {
            for turn in 0..8 {
                let kinds = [script.random.below(4), turn % 4];
                script.call(Call::Image);
                let mut lost = nothing(header);
                for (stripe, kind) in [first, second].into_iter().zip(kinds) {
                    if kind == 0 {
                        let range = positions(header, stripe);
                        lost[range.start..range.start + range.len() / 2 + 1].fill(true);
                    }
                }
                damage(script, &lost, Cover::Whole, Garbage::None);
                for (stripe, kind) in [first, second].into_iter().zip(kinds) {
                    if kind == 3 {
                        let mut changed = blocks(script, stripe);
                        let at = script.random.index(1 << stripe) * width;
                        changed[at] = 8 + script.random.below(9);
                        recode(script, stripe, &changed);
                    }
                }
                for (stripe, kind) in [first, second].into_iter().zip(kinds) {
                    if kind == 1 || kind == 2 {
                        spoil(script, &lost, stripe, kind == 2);
                    }
                }
                script.recover();
            }
        }
    }
}

/// A large vault: a whole round, and images in it.
pub fn whole_round(script: &mut Script, k: u32) {
    let n = 1 << k;
    script.open(k, 1);
    for i in 1..=n + 6 {
        script.write();
        if ![5, n - 1, n, n + 6].contains(&i) {
            continue;
        }
        let lost = lose_each(script, |_, size| size);
        damage(script, &lost, Cover::Whole, Garbage::None);
        script.recover();
        if i == n - 1 || i == n + 6 {
            script.explain();
        }
        if i == n - 1 {
            for stripe in [k, k - 1, 0] {
                script.decode(stripe);
            }
        }
        if i == n + 6 {
            let lost = lose_each(script, |script, size| script.random.index(size));
            damage(script, &lost, Cover::Touch, Garbage::Gaps);
            spoil(script, &lost, k, true);
            script.recover();
            script.decode(2);
            spoil(script, &lost, k, false);
            script.recover();
        }
    }
}

pub fn add(script: &mut Script) {
    in_order(script);
    lists(script);
    no_records(script, 1, 1, 1);
    no_records(script, 2, 1, 3);
    no_records(script, 2, 2, 6);
    no_records(script, 3, 1, 7);
    no_records(script, 4, 3, 5);
    two_stripes(script);
    whole_round(script, 10);
}
