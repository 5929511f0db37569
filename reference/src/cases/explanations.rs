//! Explanations of recoveries that are taken, and of those that are refused by each number.
use super::faults::{self, Accepted, Fault};
use super::losses::{damage, lose, lose_each, nothing, positions, spoil, Cover, Garbage};
use super::recoveries::{blocks, image_faults, open_and_write, pair, recode, LISTS};
use super::Script;
use crate::header::Header;
use crate::lent::{Bytes, Words};
use crate::script::Command;

/// One fault and two faults of different numbers, where level 1 is at fault of k = 2, s = 1, c = 3, with 6 words for the counts.
fn in_order(script: &mut Script) {
    let header = open_and_write(script, 2, 1, 3);
    script.lend(Words::Out, header.origins_len());
    let mut faults = image_faults(header.origins_len());
    for lent in [5, 7, 0] {
        faults.push((2, Fault::Given(lent)));
    }
    faults.push((7, Fault::List(Bytes::List, pair(87, 10))));
    faults.push((8, Fault::Image(Bytes::Image, 27, 65537)));
    faults.push((9, Fault::Image(Bytes::Image, 26, 65536)));
    let call = Accepted {
        command: Command::Explain,
        given: header.counts_len() as u32,
        faults,
        garbage: vec![Words::Out, Words::Scratch],
    };
    faults::add(script, &call);
}

/// Good and malformed erasure lists.
fn lists(script: &mut Script) {
    open_and_write(script, 2, 1, 3);
    for gaps in LISTS {
        script.erasures(gaps);
        script.explain();
    }
}

fn filled(header: Header) -> Vec<u32> {
    (0..=header.k).filter(|&l| header.filled(l)).collect()
}

/// No loss, half of each filled stripe, and fewer on one of them, on some and on all.
fn losses(script: &mut Script) {
    let header = script.machine.header();
    damage(script, &nothing(header), Cover::Whole, Garbage::None);
    script.explain();
    let half = lose_each(script, |_, size| size);
    damage(script, &half, Cover::Part, Garbage::Positions);
    script.explain();
    for stripe in filled(header) {
        let mut more = half.clone();
        let left = 1 << stripe;
        let also = 1 + script.random.index(left);
        let kept: Vec<usize> = positions(header, stripe).filter(|&i| !more[i]).collect();
        for i in script.random.some(left, also) {
            more[kept[i]] = true;
        }
        damage(script, &more, Cover::Touch, Garbage::Gaps);
        script.explain();
    }
    let any = lose_each(script, |script, size| script.random.index(2 * size + 1));
    damage(script, &any, Cover::Single, Garbage::None);
    script.explain();
    script.erasures(&[(0, header.image_len() as u32)]);
    script.explain();
}

/// On each filled stripe a word altered, a word out of field, and a block that is no record, where another stripe may have too few positions left.
fn words(script: &mut Script) {
    let header = script.machine.header();
    for stripe in filled(header) {
        let other = *script.random.one(&filled(header));
        let mut lost = nothing(header);
        if other != stripe {
            lose(script, &mut lost, other, (1 << other) + 1);
        }
        for in_field in [true, false] {
            damage(script, &lost, Cover::Whole, Garbage::None);
            spoil(script, &lost, stripe, in_field);
            script.explain();
        }
        damage(script, &nothing(header), Cover::Whole, Garbage::None);
        let mut changed = blocks(script, stripe);
        let place = header.width() * script.random.index(1 << stripe);
        changed[place] = header.records() as u64;
        damage(script, &lost, Cover::Whole, Garbage::None);
        recode(script, stripe, &changed);
        script.explain();
    }
}

/// A level that holds writes to one record alone: the last of them is the origin.
fn one_record(script: &mut Script) {
    let header = open_and_write(script, 3, 2, 6);
    script.erasures(&[]);
    for record in [0, 5, 7] {
        for level in [2, 1] {
            let mut blocks = blocks(script, level);
            for block in blocks.chunks_mut(header.width()) {
                block[0] = record;
            }
            recode(script, level, &blocks);
            script.explain();
        }
    }
}

pub fn add(script: &mut Script) {
    in_order(script);
    lists(script);
    for (k, s, writes) in [(1, 1, 3), (2, 1, 5), (2, 3, 4), (3, 2, 9), (4, 1, 5)] {
        script.open(k, s);
        for i in 0..writes {
            if i > 0 {
                script.write();
            }
            losses(script);
            words(script);
        }
    }
    for (k, s, writes) in [(4, 3, 15), (5, 2, 21), (6, 1, 63), (1, 128, 1)] {
        open_and_write(script, k, s, writes);
        losses(script);
        words(script);
    }
    one_record(script);
}
