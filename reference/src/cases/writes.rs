//! Writes: histories, refusals, and buffers that no opening made.
use super::faults::{self, Accepted, Fault};
use super::Script;
use crate::calls::Call;
use crate::header::Header;
use crate::lent::Words;
use crate::script::{Command, Number};

/// An opening and some writes, of which some more are refused.
pub fn history(script: &mut Script, k: u32, s: u32, writes: usize) {
    script.open(k, s);
    for _ in 0..writes {
        script.write();
        match script.random.below(20) {
            0 => script.call(Call::Write { record: 1 << k }),
            1 => {
                script.push(Command::Put(Words::Block, s - 1, 65536));
                script.call(Call::Write { record: 0 });
            }
            _ => {}
        }
    }
}

fn histories(script: &mut Script) {
    for (k, s) in [(1, 1), (1, 2), (2, 1), (2, 3), (3, 1), (3, 2), (4, 1)] {
        history(script, k, s, (5 << k) / 2);
    }
    for (k, s) in [(5, 2), (4, 16), (3, 128)] {
        history(script, k, s, (1 << k) + 3);
    }
}

/// Buffers of any words below a bound; 0: any words.
pub fn any(script: &mut Script, header: Header, bound: u32) {
    script.begin(header);
    for buffer in [Words::Raw, Words::Full, Words::Log] {
        script.fill(buffer, bound);
    }
}

/// Buffers of any words, at every c.
fn other_buffers(script: &mut Script) {
    for (k, s) in [(1, 1), (2, 1), (3, 1), (4, 3)] {
        for c in 0..1 << k {
            any(script, Header { k, s, c }, 0);
            script.write();
            script.write();
        }
    }
    edges(script);
}

/// Buffers of words at the edges: p - 1, p, p + 1, twice p, and the greatest; and the buffers of large vaults.
pub fn edges(script: &mut Script) {
    for c in 0..4 {
        any(script, Header { k: 2, s: 1, c }, 65538);
        for (i, word) in [65536, 65537, 65538, 131074, u32::MAX].iter().enumerate() {
            script.push(Command::Put(Words::Raw, i as u32 % 4, *word));
            script.push(Command::Put(Words::Log, i as u32, *word));
            script.push(Command::Put(Words::Log, 7 + i as u32, *word));
        }
        script.write();
    }
    let large = [0, 1, 2, 511, 512, 1022, 1023].map(|c| (10, 1, c));
    for (k, s, c) in large.into_iter().chain([(10, 2, 1023), (9, 3, 511)]) {
        any(script, Header { k, s, c }, 0);
        script.write();
    }
}

fn refused(script: &mut Script) {
    script.open(2, 2);
    script.write();
    let header = script.machine.header();
    let mut faults = faults::header(header.k);
    for (buffer, length) in [
        (Words::Raw, header.raw_len()),
        (Words::Full, header.full_len()),
        (Words::Log, header.log_len()),
        (Words::Block, header.data()),
    ] {
        faults.extend(faults::lengths(Number::WordsLent(buffer), length));
    }
    for record in [4, 5, 256, u32::MAX] {
        faults.push((4, Fault::Given(record)));
    }
    for (at, word) in [(0, 65536), (1, 65536), (1, u32::MAX)] {
        faults.push((5, Fault::Put(Words::Block, at, word)));
    }
    let call = Accepted {
        command: |record| Command::Call(Call::Write { record }),
        given: 3,
        faults,
        garbage: vec![Words::Raw, Words::Full, Words::Log],
    };
    faults::add(script, &call);
    // A block of a word too many, with that word no data word; and the greatest data words.
    script.lend(Words::Block, 3);
    script.push(Command::Put(Words::Block, 2, 65536));
    script.call(Call::Write { record: 3 });
    script.lend(Words::Block, 2);
    script.push(Command::Put(Words::Block, 0, 65535));
    script.push(Command::Put(Words::Block, 1, 65535));
    script.call(Call::Write { record: 3 });
}

pub fn add(script: &mut Script) {
    histories(script);
    other_buffers(script);
    refused(script);
}
