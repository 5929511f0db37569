//! Two readings of one rack: with losses of their own, with words that differ where both are compared and where they are not, and each refusal.
use super::faults::{self, Accepted, Fault};
use super::losses::{damage, lose, nothing, positions, spoil, Cover, Garbage};
use super::recoveries::{blocks, image_faults, pair, recode, LISTS};
use super::taking_back::event;
use super::Script;
use crate::calls::Call;
use crate::header::Header;
use crate::image::number_at;
use crate::lent::{Bytes, Words};
use crate::script::{Command, Number};

/// The positions that are lost of the first and of the second reading.
type Lost = [Vec<bool>; 2];

const IMAGES: [Bytes; 2] = [Bytes::Image, Bytes::Image2];

fn exchange(script: &mut Script) {
    script.push(Command::Exchange);
}

/// An opening, with room for a second image.
fn open(script: &mut Script, k: u32, s: u32) {
    script.open(k, s);
    let header = script.machine.header();
    script.lend_bytes(Bytes::Image2, header.image_len());
}

/// Reads the vault as it is twice, with these losses.
fn read(script: &mut Script, lost: &Lost, cover: Cover, garbage: Garbage) {
    for lost in lost.iter().rev() {
        exchange(script);
        damage(script, lost, cover, garbage);
    }
}

/// Recovery from both readings, which must give this number.
fn gives(script: &mut Script, number: u32) {
    script.lend_garbage(Call::RecoverTwo);
    script.call(Call::RecoverTwo);
    assert_eq!(script.machine.answered, number, "of two readings");
}

/// The records come back.
fn recovers(script: &mut Script) {
    gives(script, 0);
    let records = script.machine.words(Words::Raw);
    assert_eq!(script.machine.words(Words::Out), records);
}

/// A stripe out of one of the readings.
fn stripe_gives(script: &mut Script, stripe: u32, number: u32) {
    script.call(Call::ShelfOfTwo { stripe });
    assert_eq!(script.machine.answered, number, "of a stripe");
}

/// All stripes that are there, and some that are not.
fn stripes(script: &mut Script) {
    let header = script.machine.header();
    for stripe in (0..=header.k + 1).chain([32, u32::MAX]) {
        let number = if header.filled(stripe) { 0 } else { 6 };
        stripe_gives(script, stripe, number);
    }
}

/// The readings differ: so both calls say, of a stripe that is not there too.
fn differ(script: &mut Script) {
    let beyond = script.machine.header().k + 1;
    gives(script, 13);
    for stripe in [0, beyond - 1, beyond] {
        stripe_gives(script, stripe, 13);
    }
}

fn filled(header: Header) -> Vec<u32> {
    (0..=header.k).filter(|&l| header.filled(l)).collect()
}

/// How many positions of a stripe are left of each reading.
fn left(header: Header, lost: &Lost, stripe: u32) -> [usize; 2] {
    [0, 1].map(|i| {
        let range = positions(header, stripe);
        range.filter(|&at| !lost[i][at]).count()
    })
}

/// Losses of which one reading at least keeps half of each stripe.
fn losses(script: &mut Script) -> Lost {
    let header = script.machine.header();
    let mut lost = [nothing(header), nothing(header)];
    for stripe in 0..=header.k {
        let size = 1 << stripe;
        let random = &mut script.random;
        let (few, other) = (random.index(size + 1), random.index(size + 1));
        let many = size + 1 + random.index(size);
        let counts = *random.one(&[
            [few, other],
            [few, many],
            [many, few],
            [few, few],
            [size; 2],
        ]);
        for (lost, count) in lost.iter_mut().zip(counts) {
            lose(script, lost, stripe, count);
        }
    }
    lost
}

/// The word of an image at an index.
fn word(script: &Script, image: Bytes, at: usize) -> u32 {
    number_at(&script.machine.bytes(image), 4 * at)
}

/// Puts a word into an image.
fn put(script: &mut Script, image: Bytes, at: usize, word: u32) {
    let bytes = word.to_le_bytes().to_vec();
    script.push(Command::Load(image, 4 * at as u32, bytes));
}

/// A word of one image is another for a while.
fn changed(script: &mut Script, image: Bytes, at: usize, other: u32, then: impl Fn(&mut Script)) {
    let before = word(script, image, at);
    put(script, image, at, other);
    then(script);
    put(script, image, at, before);
}

/// A word of one of the positions of a stripe for which this holds, if there is one.
fn place(script: &mut Script, stripe: u32, holds: impl Fn(usize) -> bool) -> Option<usize> {
    let header = script.machine.header();
    let found: Vec<usize> = positions(header, stripe).filter(|&i| holds(i)).collect();
    if found.is_empty() {
        return None;
    }
    let position = *script.random.one(&found);
    Some(position * header.width() + script.random.index(header.width()))
}

/// Words that differ on each filled stripe: at a position that is left of both, in one of the bits of each byte; and at one that is lost of one.
fn differences(script: &mut Script, lost: &Lost) {
    let header = script.machine.header();
    for stripe in filled(header) {
        if let Some(at) = place(script, stripe, |i| !lost[0][i] && !lost[1][i]) {
            let bit = *script.random.one(&[0, 7, 8, 15, 16, 23, 24, 31]);
            let image = *script.random.one(&IMAGES);
            let other = word(script, image, at) ^ 1 << bit;
            changed(script, image, at, other, differ);
            in_both(script, lost, stripe, at);
        }
        for i in [0, 1] {
            if let Some(at) = place(script, stripe, |at| lost[i][at]) {
                let other = *script.random.one(&[0, 65536, 65537, u32::MAX]);
                changed(script, IMAGES[i], at, other, recovers);
            }
        }
        in_one(script, lost, stripe);
    }
}

/// A word is another in both images alike: a stray one is refused 8, and one of the field 9 where more than half is left of the reading that is taken.
fn in_both(script: &mut Script, lost: &Lost, stripe: u32, at: usize) {
    let header = script.machine.header();
    let more = *left(header, lost, stripe).iter().max().expect("two") > 1 << stripe;
    let before = word(script, Bytes::Image, at);
    let mut others = vec![(8, 65537), (8, before | 1 << 31)];
    if more {
        others.push((9, (before + 1) % 65537));
    }
    let (number, other) = *script.random.one(&others);
    changed(script, Bytes::Image, at, other, |script| {
        changed(script, Bytes::Image2, at, other, |script| {
            gives(script, number);
            stripe_gives(script, stripe, 0);
        });
    });
}

/// A stray word at a position that is left of one reading alone: refused where the stripe is taken from that one.
fn in_one(script: &mut Script, lost: &Lost, stripe: u32) {
    let [first, second] = left(script.machine.header(), lost, stripe);
    let chosen = usize::from(second > first);
    for i in [0, 1] {
        let alone = |at: usize| !lost[i][at] && lost[1 - i][at];
        let Some(at) = place(script, stripe, alone) else {
            continue;
        };
        let number = if i == chosen { 8 } else { 0 };
        changed(script, IMAGES[i], at, 65538, |script| gives(script, number));
    }
}

/// Anything on the empty levels of one image: it is neither compared nor looked at.
fn empty_levels(script: &mut Script) {
    let header = script.machine.header();
    let bytes = 4 * header.width();
    for level in (0..header.k).filter(|&level| !header.filled(level)) {
        let range = positions(header, level);
        script.garble(range.start * bytes, range.len() * bytes);
    }
    recovers(script);
}

/// On one filled stripe neither reading keeps half: 7, and 13 where they differ on another stripe, or on this one.
fn too_few(script: &mut Script) {
    let header = script.machine.header();
    let stripe = *script.random.one(&filled(header));
    let size = 1 << stripe;
    let mut lost = [nothing(header), nothing(header)];
    for lost in &mut lost {
        let count = size + 1 + script.random.index(size);
        lose(script, lost, stripe, count);
    }
    read(script, &lost, Cover::Touch, Garbage::Gaps);
    gives(script, 7);
    stripe_gives(script, stripe, 0);
    for other in filled(header) {
        if let Some(at) = place(script, other, |i| !lost[0][i] && !lost[1][i]) {
            let changed_word = word(script, Bytes::Image2, at) ^ 1 << 24;
            changed(script, Bytes::Image2, at, changed_word, differ);
        }
    }
}

/// The same reading twice gives what recovery gives, with words altered or not.
fn twice(script: &mut Script, lost: &[bool]) {
    let header = script.machine.header();
    damage(script, lost, Cover::Part, Garbage::Gaps);
    if script.random.below(2) == 0 {
        let stripe = *script.random.one(&filled(header));
        if positions(header, stripe).any(|i| !lost[i]) {
            let in_field = script.random.below(2) == 0;
            spoil(script, lost, stripe, in_field);
        }
    }
    let (image, list) = (
        script.machine.bytes(Bytes::Image),
        script.machine.bytes(Bytes::List),
    );
    script.load(Bytes::Image2, image);
    script.load(Bytes::List2, list);
    script.recover();
    let recovered = (script.machine.answered, script.machine.words(Words::Out));
    gives(script, recovered.0);
    assert_eq!(script.machine.words(Words::Out), recovered.1);
}

const COVERS: [Cover; 4] = [Cover::Whole, Cover::Part, Cover::Touch, Cover::Single];

/// The vault as it is, read twice in each of these ways.
pub fn all(script: &mut Script, turn: usize) {
    let lost = losses(script);
    read(script, &lost, COVERS[turn % 4], Garbage::Positions);
    recovers(script);
    stripes(script);
    exchange(script);
    recovers(script);
    if turn.is_multiple_of(2) {
        stripes(script);
    }
    exchange(script);
    differences(script, &lost);
    empty_levels(script);
    too_few(script);
    twice(script, &lost[turn % 2]);
}

fn histories(script: &mut Script) {
    let vaults = [
        (1, 1, 5),
        (1, 3, 3),
        (2, 1, 7),
        (2, 2, 6),
        (3, 1, 7),
        (3, 3, 4),
        (4, 1, 4),
    ];
    for (k, s, events) in vaults {
        open(script, k, s);
        for turn in 0..events {
            all(script, turn);
            for _ in 0..=turn {
                event(script);
            }
        }
    }
    for (k, s, events) in [(5, 2, 23), (6, 1, 45), (3, 128, 5)] {
        open(script, k, s);
        for _ in 0..events {
            script.write();
        }
        let lost = losses(script);
        read(script, &lost, Cover::Part, Garbage::Gaps);
        recovers(script);
        stripes(script);
        differences(script, &lost);
    }
}

/// Each byte of a small rack, of which level 0 is filled and then empty.
fn each_byte(script: &mut Script) {
    open(script, 1, 1);
    script.write();
    of_each_byte(script);
    script.take_back();
    of_each_byte(script);
}

/// Each byte is another in turn, where the first reading lost the first position of the full stripe, and the second its last and one of level 0.
fn of_each_byte(script: &mut Script) {
    let header = script.machine.header();
    let mut lost = [nothing(header), nothing(header)];
    for (reading, position) in [(0, 0), (1, 3), (1, 5)] {
        lost[reading][position] = true;
    }
    read(script, &lost, Cover::Whole, Garbage::Gaps);
    let needed = if header.filled(0) { 6 } else { 4 };
    for byte in 0..header.image_len() {
        let at = byte / 8;
        let compared = at < needed && !lost[0][at] && !lost[1][at];
        let before = script.machine.bytes(Bytes::Image2)[byte];
        let load = |byte, x| Command::Load(Bytes::Image2, byte as u32, vec![x]);
        script.push(load(byte, before ^ 128));
        stripe_gives(script, 1, if compared { 13 } else { 0 });
        script.push(load(byte, before));
    }
}

/// Each position of a stripe is left of one reading alone, and the first has the code of blocks of which one is no record: 10 on a tie, and not where the first
/// lost one position more.
fn no_records(script: &mut Script) {
    open(script, 3, 2);
    for _ in 0..7 {
        script.write();
    }
    let header = script.machine.header();
    for stripe in filled(header) {
        script.call(Call::Image);
        let mut changed = blocks(script, stripe);
        let block = script.random.index(1 << stripe) * header.width();
        let (at, other) = *script
            .random
            .one(&[(block, 8), (block, 65536), (block + 2, 65536)]);
        changed[at] = other;
        let mut lost = [nothing(header), nothing(header)];
        lose(script, &mut lost[0], stripe, 1 << stripe);
        for at in positions(header, stripe) {
            lost[1][at] = !lost[0][at];
        }
        no_record(script, &lost, stripe, &changed, 10);
        let mut range = positions(header, stripe);
        let one = range.find(|&at| !lost[0][at]).expect("half is left");
        lost[0][one] = true;
        no_record(script, &lost, stripe, &changed, 0);
    }
}

/// Recovery with the code of other blocks on a stripe of the first image gives this number, and with the readings exchanged none.
pub fn no_record(script: &mut Script, lost: &Lost, stripe: u32, blocks: &[u64], number: u32) {
    read(script, lost, Cover::Touch, Garbage::None);
    recode(script, stripe, blocks);
    gives(script, number);
    exchange(script);
    recovers(script);
}

/// One fault and two faults of different numbers, where level 1 is decoded of k = 2, s = 1, c = 3: nothing of it is left of the second reading.
fn in_order(script: &mut Script) {
    open(script, 2, 1);
    for _ in 0..3 {
        script.write();
    }
    let header = script.machine.header();
    let mut lost = [nothing(header), nothing(header)];
    lost[1][positions(header, 1)].fill(true);
    read(script, &lost, Cover::Whole, Garbage::None);
    script.lend(Words::Out, header.raw_len());
    let mut faults = image_faults(header.raw_len());
    faults.extend(faults::lengths(Number::BytesLent(Bytes::Image2), 112));
    for bytes in [pair(0, 1)[..1].to_vec(), pair(111, 2)] {
        faults.push((3, Fault::List(Bytes::List2, bytes)));
    }
    for (image, at) in [(Bytes::Image, 3), (Bytes::Image2, 18)] {
        let other = word(script, image, at) ^ 1 << 25;
        faults.push((13, Fault::Image(image, at as u32, other)));
    }
    let mut of_a_stripe = faults.clone();
    of_a_stripe.retain(|fault| !matches!(fault.1, Fault::Set(Number::WordsLent(_), _)));
    of_a_stripe.extend([3, u32::MAX].map(|stripe| (6, Fault::Given(stripe))));
    faults.push((7, Fault::List(Bytes::List, pair(87, 10))));
    faults.push((8, Fault::Image(Bytes::Image, 27, 65537)));
    faults.push((9, Fault::Image(Bytes::Image, 26, 65536)));
    let call = Accepted {
        command: |_| Command::Call(Call::RecoverTwo),
        given: 0,
        faults,
        garbage: vec![Words::Out, Words::Scratch],
    };
    faults::add(script, &call);
    let call = Accepted {
        command: |stripe| Command::Call(Call::ShelfOfTwo { stripe }),
        given: 1,
        faults: of_a_stripe,
        garbage: vec![],
    };
    faults::add(script, &call);
}

/// Good and malformed erasure lists of either reading.
fn lists(script: &mut Script) {
    open(script, 2, 1);
    for _ in 0..3 {
        script.write();
    }
    let header = script.machine.header();
    read(
        script,
        &[nothing(header), nothing(header)],
        Cover::Whole,
        Garbage::None,
    );
    for gaps in LISTS {
        script.erasures(gaps);
        stripe(script);
        exchange(script);
        stripe(script);
        script.lend_garbage(Call::RecoverTwo);
        script.call(Call::RecoverTwo);
        exchange(script);
    }
}

/// Level 1, whatever is given.
fn stripe(script: &mut Script) {
    script.call(Call::ShelfOfTwo { stripe: 1 });
}

/// Images of any bytes, and of any words of the field: with themselves, and with another.
fn any_images(script: &mut Script) {
    for (k, s, c) in [(1, 1, 1), (2, 2, 2), (3, 1, 7)] {
        script.begin(Header { k, s, c });
        let bytes = script.machine.header().image_len();
        script.lend_bytes(Bytes::Image2, bytes);
        script.lend_bytes(Bytes::List2, 0);
        script.garble(0, bytes);
        differ(script);
        let image = script.machine.bytes(Bytes::Image);
        script.load(Bytes::Image2, image);
        gives(script, 8);
        stripes(script);
        let words = (0..bytes / 4).map(|_| script.random.below(65537) as u32);
        let image: Vec<u8> = words.flat_map(u32::to_le_bytes).collect();
        for buffer in IMAGES {
            script.load(buffer, image.clone());
        }
        gives(script, 9);
        stripes(script);
    }
}

pub fn add(script: &mut Script) {
    histories(script);
    each_byte(script);
    no_records(script);
    in_order(script);
    lists(script);
    any_images(script);
}
