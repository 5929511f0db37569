//! Openings and readings.
use super::faults::{self, Accepted, Fault};
use super::Script;
use crate::calls::Call;
use crate::lent::Words;
use crate::script::{Command, Number};

/// Openings of many sizes.
fn accepted(script: &mut Script) {
    for k in 1..=5 {
        for s in [1, 2, 3, 16] {
            script.open(k, s);
        }
    }
    for (k, s) in [
        (1, 128),
        (2, 127),
        (4, 128),
        (6, 3),
        (8, 5),
        (9, 1),
        (10, 1),
        (10, 2),
    ] {
        script.open(k, s);
    }
}

fn refused(script: &mut Script) {
    script.open(2, 2);
    let header = script.machine.header();
    let mut faults = faults::header(header.k);
    faults.truncate(6);
    for (buffer, length) in [
        (Words::Raw, header.raw_len()),
        (Words::Full, header.full_len()),
        (Words::Log, header.log_len()),
    ] {
        faults.extend(faults::lengths(Number::WordsLent(buffer), length));
    }
    for (at, word) in [(0, 65536), (3, u32::MAX), (7, 65536)] {
        faults.push((5, Fault::Put(Words::Raw, at, word)));
    }
    let call = Accepted {
        command: |_| Command::Call(Call::Open),
        given: 0,
        faults,
        garbage: vec![Words::Full, Words::Log],
    };
    faults::add(script, &call);
    // Lengths that are right for another header.
    script.begin(header);
    for (k, s) in [(1, 2), (3, 2), (2, 1), (2, 3), (10, 128), (10, 1)] {
        script.set(Number::K, k);
        script.set(Number::S, s);
        script.call(Call::Open);
    }
}

fn readings(script: &mut Script) {
    for (k, s) in [(1, 1), (2, 2), (3, 40)] {
        script.open(k, s);
        script.write();
        for record in 0..1 << k {
            script.call(Call::Read { record });
        }
    }
    // The words of a buffer that no opening made are handed out as they are.
    script.open(2, 2);
    script.fill(Words::Raw, 0);
    for c in 0..4 {
        script.set(Number::C, c);
        script.call(Call::Read { record: c });
    }
    let header = script.machine.header();
    let mut faults = faults::header(header.k);
    let raw = Number::WordsLent(Words::Raw);
    faults.extend(faults::lengths(raw, header.raw_len()));
    for record in [4, 5, 256, u32::MAX] {
        faults.push((4, Fault::Given(record)));
    }
    let call = Accepted {
        command: |record| Command::Call(Call::Read { record }),
        given: 3,
        faults,
        garbage: vec![],
    };
    faults::add(script, &call);
}

pub fn add(script: &mut Script) {
    accepted(script);
    refused(script);
    readings(script);
}
