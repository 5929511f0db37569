//! Blank blocks: writes of them are refused, blocks with one word that is not 0 are taken, and so are openings of zero records.
use super::faults::{self, Accepted, Fault};
use super::losses::{damage, lose_each, recover_all, Cover, Garbage};
use super::recoveries::whole_round;
use super::writes::{any, edges, history};
use super::Script;
use crate::calls::Call;
use crate::header::Header;
use crate::lent::Words;
use crate::script::{Command, Number};

/// A write of a blank block to any record, which is refused.
pub fn blank_write(script: &mut Script) {
    let records = script.machine.header().records();
    let record = script.random.index(records) as u32;
    script.fill(Words::Block, 1);
    script.call(Call::Write { record });
    assert_eq!(script.machine.answered, 11, "a blank block is refused");
}

/// At each c of a round and at the next one's start, between writes that are taken.
fn in_histories(script: &mut Script) {
    for (k, s) in [(1, 1), (1, 2), (2, 1), (2, 3), (3, 2)] {
        script.open(k, s);
        for _ in 0..=1 << k {
            blank_write(script);
            script.write();
        }
        blank_write(script);
    }
}

/// Over buffers that no opening made, where a write would build a level or end the round; then a write that does.
fn in_other_buffers(script: &mut Script) {
    let headers = [
        (1, 1, 1),
        (2, 2, 3),
        (3, 128, 3),
        (4, 3, 15),
        (5, 16, 0),
        (5, 1, 31),
        (9, 3, 255),
        (10, 1, 511),
        (10, 2, 1023),
    ];
    for (k, s, c) in headers {
        any(script, Header { k, s, c }, 0);
        blank_write(script);
        script.write();
    }
}

/// Blocks of which one word alone is not 0: each place of short blocks, and some of the longest.
fn one_word(script: &mut Script) {
    let all: Vec<u32> = (0..16).collect();
    let some = [0, 1, 2, 3, 7, 8, 15, 16, 31, 32, 63, 64, 100, 126, 127];
    for (k, s, places) in [
        (1, 1, &all[..1]),
        (2, 2, &all[..2]),
        (2, 3, &all[..3]),
        (3, 16, &all[..]),
        (1, 128, &some[..]),
    ] {
        script.open(k, s);
        for &at in places {
            script.fill(Words::Block, 1);
            let word = *script.random.one(&[1, 2, 255, 256, 32768, 65535]);
            script.push(Command::Put(Words::Block, at, word));
            let record = script.random.index(1 << k) as u32;
            script.call(Call::Write { record });
            assert_eq!(script.machine.answered, 0, "one word is enough");
        }
        blank_write(script);
    }
}

/// A blank block with a fault of a smaller number, which is given.
fn with_faults(script: &mut Script) {
    script.open(2, 1);
    script.write();
    script.push(Command::Put(Words::Block, 0, 1));
    let header = script.machine.header();
    let mut faults = vec![
        (1, Fault::Set(Number::K, 0)),
        (1, Fault::Set(Number::S, 129)),
        (1, Fault::Set(Number::C, 4)),
        (2, Fault::Set(Number::WordsLent(Words::Raw), 5)),
        (4, Fault::Given(4)),
        (4, Fault::Given(u32::MAX)),
    ];
    let block = Number::WordsLent(Words::Block);
    faults.extend(faults::lengths(block, header.data()));
    faults.push((11, Fault::Put(Words::Block, 0, 0)));
    let call = Accepted {
        command: |record| Command::Call(Call::Write { record }),
        given: 3,
        faults,
        garbage: vec![],
    };
    faults::add(script, &call);
}

/// Blocks of zeros but for one word, which is no data word, or which stands behind the block.
fn with_other_words(script: &mut Script) {
    script.open(2, 3);
    for at in 0..3 {
        for word in [65536, u32::MAX] {
            script.fill(Words::Block, 1);
            script.push(Command::Put(Words::Block, at, word));
            script.call(Call::Write { record: 3 });
            script.call(Call::Write { record: 4 });
        }
    }
    script.lend(Words::Block, 4);
    script.fill(Words::Block, 1);
    script.push(Command::Put(Words::Block, 3, 1));
    script.call(Call::Write { record: 3 });
    script.lend(Words::Block, 3);
    script.call(Call::Write { record: 3 });
}

/// Zero records are opened over garbage, read, and recovered; blank blocks are refused to them too.
fn zero_records(script: &mut Script) {
    for (k, s) in [(1, 1), (2, 2), (3, 1), (5, 3), (10, 1)] {
        script.begin(Header { k, s, c: 0 });
        script.fill(Words::Raw, 1);
        script.fill(Words::Full, 0);
        script.fill(Words::Log, 0);
        script.call(Call::Open);
        script.call(Call::Read {
            record: (1 << k) - 1,
        });
        blank_write(script);
        if k < 10 {
            let lost = lose_each(script, |_, size| size);
            damage(script, &lost, Cover::Part, Garbage::Gaps);
            recover_all(script);
            script.explain();
        }
    }
}

pub fn add(script: &mut Script) {
    in_histories(script);
    in_other_buffers(script);
    one_word(script);
    with_faults(script);
    with_other_words(script);
    zero_records(script);
    // Histories and buffers like those of older cases in which blank blocks stood between others: all of these are taken.
    for k in 2..=4 {
        history(script, k, 1, (5 << k) / 2);
    }
    edges(script);
    whole_round(script, 8);
}
