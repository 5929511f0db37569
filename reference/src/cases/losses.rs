//! Images of which positions are lost, or altered.
use super::Script;
use crate::calls::Call;
use crate::header::Header;
use crate::image::number_at;
use crate::lent::Bytes;
use random::Random;

/// How gaps cover the lost positions.
#[derive(Clone, Copy)]
pub enum Cover {
    /// A gap for each run of lost positions, over all its bytes.
    Whole,
    /// A gap for each run, which begins and ends anywhere in its first and last position.
    Part,
    /// A gap for each run, as short as it can be.
    Touch,
    /// A gap for each position, which leaves out its last byte.
    Single,
}

/// What the bytes of lost positions hold.
#[derive(Clone, Copy)]
pub enum Garbage {
    /// What they held.
    None,
    /// Anything in the gaps.
    Gaps,
    /// Anything in all bytes of the lost positions.
    Positions,
}

/// The image has 4n - 2 positions, of which stripe k has the first 2n.
pub fn positions(header: Header, stripe: u32) -> std::ops::Range<usize> {
    let start = header.stripe_start(stripe) / header.width();
    start..start + (2 << stripe)
}

/// Marks `count` positions of a stripe.
pub fn lose(script: &mut Script, lost: &mut [bool], stripe: u32, count: usize) {
    let range = positions(script.machine.header(), stripe);
    for i in script.random.some(range.len(), count) {
        lost[range.start + i] = true;
    }
}

/// No position of the image.
pub fn nothing(header: Header) -> Vec<bool> {
    vec![false; 4 * header.records() - 2]
}

/// On the filled stripes so many positions as `count` says of the stripe's size, and all positions of empty levels.
pub fn lose_each(script: &mut Script, count: impl Fn(&mut Script, usize) -> usize) -> Vec<bool> {
    let header = script.machine.header();
    let mut lost = nothing(header);
    for stripe in 0..=header.k {
        let size = 1 << stripe;
        let some = if header.filled(stripe) {
            count(script, size)
        } else {
            2 * size
        };
        lose(script, &mut lost, stripe, some);
    }
    lost
}

/// The gap for a run of lost positions of so many bytes each, which are at `first..last`: its first byte, and the byte after its last.
fn gap(
    random: &mut Random,
    cover: Cover,
    bytes: usize,
    first: usize,
    last: usize,
) -> (usize, usize) {
    match cover {
        Cover::Whole => (first, last),
        Cover::Single => (first + random.index(bytes - 1), last - 1),
        Cover::Part => {
            let from = first + random.index(bytes);
            let least = from.max(last - bytes) + 1;
            (from, least + random.index(last + 1 - least))
        }
        Cover::Touch if last - first > bytes => (first + bytes - 1, last - bytes + 1),
        Cover::Touch => {
            let at = first + random.one(&[0, bytes / 2, bytes - 1]);
            (at, at + 1)
        }
    }
}

/// The gaps that cover lost positions.
fn gaps(script: &mut Script, lost: &[bool], cover: Cover) -> Vec<(u32, u32)> {
    let bytes = 4 * script.machine.header().width();
    let mut gaps = Vec::new();
    let mut i = 0;
    while i < lost.len() {
        let mut run = lost[i..].iter().take_while(|&&x| x).count();
        if let Cover::Single = cover {
            run = run.min(1);
        }
        if run > 0 {
            let (first, last) = (i * bytes, (i + run) * bytes);
            let (from, to) = gap(&mut script.random, cover, bytes, first, last);
            gaps.push((from as u32, (to - from) as u32));
        }
        i += run.max(1);
    }
    gaps
}

/// Makes the image anew, loses these positions, and loads the list.
pub fn damage(script: &mut Script, lost: &[bool], cover: Cover, garbage: Garbage) {
    script.call(Call::Image);
    erase(script, lost, cover, garbage);
}

/// Loses these positions of the image as it is, and loads the list.
pub fn erase(script: &mut Script, lost: &[bool], cover: Cover, garbage: Garbage) {
    let gaps = gaps(script, lost, cover);
    script.erasures(&gaps);
    let bytes = 4 * script.machine.header().width();
    match garbage {
        Garbage::None => {}
        Garbage::Gaps => {
            for &(from, count) in &gaps {
                script.garble(from as usize, count as usize);
            }
        }
        Garbage::Positions => {
            for i in (0..lost.len()).filter(|&i| lost[i]) {
                script.garble(i * bytes, bytes);
            }
        }
    }
}

/// Recovers, and decodes each filled stripe.
pub fn recover_all(script: &mut Script) {
    script.recover();
    decode_all(script);
}

/// Decodes each filled stripe.
pub fn decode_all(script: &mut Script) {
    let header = script.machine.header();
    for stripe in (0..=header.k).filter(|&stripe| header.filled(stripe)) {
        script.decode(stripe);
    }
}

/// No loss: every stripe number is decoded, those of empty levels and beyond k too.
fn no_loss(script: &mut Script) {
    let header = script.machine.header();
    damage(script, &nothing(header), Cover::Whole, Garbage::None);
    script.recover();
    for stripe in (0..=header.k + 2).chain([10, 11, 31, 32, 64, u32::MAX]) {
        script.decode(stripe);
    }
}

/// Anything in the empty levels, which are not lost: they are never looked at.
fn empty_levels(script: &mut Script) {
    let header = script.machine.header();
    let bytes = 4 * header.width();
    damage(script, &nothing(header), Cover::Whole, Garbage::None);
    for level in (0..header.k).filter(|&level| !header.filled(level)) {
        let range = positions(header, level);
        script.garble(range.start * bytes, range.len() * bytes);
    }
    script.recover();
}

const COVERS: [Cover; 4] = [Cover::Whole, Cover::Part, Cover::Touch, Cover::Single];
const GARBAGE: [Garbage; 3] = [Garbage::None, Garbage::Gaps, Garbage::Positions];

/// At most half, exactly half, and one more than half on each stripe in turn.
fn losses(script: &mut Script, turn: usize) {
    let header = script.machine.header();
    let (cover, garbage) = (COVERS[turn % 4], GARBAGE[turn % 3]);
    let lost = lose_each(script, |script, size| script.random.index(size + 1));
    damage(script, &lost, cover, garbage);
    recover_all(script);
    let lost = lose_each(script, |_, size| size);
    damage(
        script,
        &lost,
        COVERS[(turn + 1) % 4],
        GARBAGE[(turn + 1) % 3],
    );
    recover_all(script);
    for stripe in (0..=header.k).filter(|&stripe| header.filled(stripe)) {
        let mut more = lost.clone();
        let kept = positions(header, stripe).find(|&i| !more[i]);
        more[kept.expect("half of the positions survive")] = true;
        damage(script, &more, cover, garbage);
        script.recover();
        script.decode(stripe);
    }
}

/// Runs of lost positions at each end of each stripe, which span stripes.
fn spans(script: &mut Script) {
    let header = script.machine.header();
    let all = 4 * header.records() - 2;
    for stripe in 0..=header.k {
        let range = positions(header, stripe);
        for (before, after) in [(1, 1), (2, 1), (0, 2)] {
            let mut lost = nothing(header);
            let from = range.end - before.min(range.len());
            lost[from..(range.end + after).min(all)].fill(true);
            damage(script, &lost, Cover::Touch, Garbage::Gaps);
            script.recover();
        }
    }
}

/// A surviving position of a stripe.
fn survivor(script: &mut Script, lost: &[bool], stripe: u32) -> usize {
    let range = positions(script.machine.header(), stripe);
    let kept: Vec<usize> = range.filter(|&i| !lost[i]).collect();
    *script.random.one(&kept)
}

/// Puts another word into a surviving position of a stripe: a word of the field, or one that is not.
pub fn spoil(script: &mut Script, lost: &[bool], stripe: u32, in_field: bool) {
    let width = script.machine.header().width();
    let column = script.random.index(width);
    spoil_column(script, lost, stripe, column, in_field);
}

/// The same in a column.
pub fn spoil_column(
    script: &mut Script,
    lost: &[bool],
    stripe: u32,
    column: usize,
    in_field: bool,
) {
    let width = script.machine.header().width();
    let at = survivor(script, lost, stripe) * width + column;
    let image = script.machine.bytes(Bytes::Image);
    let before = u64::from(number_at(&image, 4 * at));
    let word = if in_field {
        (before + 1 + script.random.below(65536)) % 65537
    } else {
        *script
            .random
            .one(&[65537, 65538, 131073, u64::from(u32::MAX)])
    };
    script.alter(at, word as u32);
}

/// Altered words on each stripe in turn, with none, some and half of the positions lost; then on two stripes.
fn alterations(script: &mut Script, turn: usize) {
    let header = script.machine.header();
    let filled: Vec<u32> = (0..=header.k).filter(|&i| header.filled(i)).collect();
    for (i, &stripe) in filled.iter().enumerate() {
        for in_field in [true, false] {
            let lost = match (turn + i) % 3 {
                0 => nothing(header),
                1 => lose_each(script, |script, size| script.random.index(size)),
                _ => lose_each(script, |_, size| size),
            };
            damage(script, &lost, COVERS[(turn + i) % 4], Garbage::Gaps);
            spoil(script, &lost, stripe, in_field);
            script.recover();
            script.decode(stripe);
        }
    }
    for _ in 0..3 {
        let lost = lose_each(script, |script, size| script.random.index(size));
        damage(script, &lost, Cover::Whole, Garbage::None);
        for _ in 0..2 {
            let stripe = *script.random.one(&filled);
            let in_field = script.random.below(2) == 0;
            spoil(script, &lost, stripe, in_field);
        }
        recover_all(script);
    }
}

/// Each kind of loss and alteration, of the vault as it is.
pub fn all(script: &mut Script, turn: usize) {
    no_loss(script);
    empty_levels(script);
    losses(script, turn);
    alterations(script, turn);
}

pub fn add(script: &mut Script) {
    let vaults = [
        (1, 1, 4),
        (1, 2, 2),
        (2, 1, 8),
        (2, 3, 4),
        (3, 1, 9),
        (3, 2, 8),
        (4, 1, 16),
    ];
    let mut turn = 0;
    for (k, s, writes) in vaults {
        script.open(k, s);
        for i in 0..writes {
            if i > 0 {
                script.write();
            }
            turn += 1;
            all(script, turn);
            if i % 3 == 0 {
                spans(script);
            }
        }
    }
    for (k, s, writes) in [(5, 2, 31), (5, 1, 42), (4, 16, 13), (3, 128, 6), (6, 1, 45)] {
        script.open(k, s);
        for _ in 0..writes {
            script.write();
        }
        turn += 1;
        all(script, turn);
    }
}
