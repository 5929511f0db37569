//! Strikes: in histories and on buffers that no opening made, read, taken back and recovered; openings of struck records; and each refusal.
use super::blanks::blank_write;
use super::earlier::Vault;
use super::faults::{self, Accepted, Fault};
use super::losses::{damage, lose_each, recover_all, Cover, Garbage};
use super::taking_back::{of_a_history, open, read_back, write};
use super::two_readings;
use super::writes::any;
use super::Script;
use crate::calls::Call;
use crate::header::Header;
use crate::lent::{Bytes, Words};
use crate::record::{are_a_record, is_struck, STRUCK};
use crate::script::{Command, Number};

/// The last call gave this number.
pub fn gave(script: &Script, number: u32) {
    assert_eq!(script.machine.answered, number, "of a call with strikes");
}

fn strike(script: &mut Script, record: u32, number: u32) {
    script.call(Call::Strike { record });
    gave(script, number);
}

/// A strike of any record.
fn any_strike(script: &mut Script) {
    let records = script.machine.header().records();
    let record = script.random.index(records) as u32;
    strike(script, record, 0);
}

/// Reads a record, which gives 14 where it is struck.
fn read(script: &mut Script, record: u32) {
    let header = script.machine.header();
    let raw = script.machine.words(Words::Raw);
    let start = record as usize * header.data();
    let struck = is_struck(&raw[start..start + header.data()]);
    script.call(Call::Read { record });
    gave(script, if struck { 14 } else { 0 });
}

fn read_all(script: &mut Script) {
    for record in 0..script.machine.header().records() as u32 {
        read(script, record);
    }
}

/// The records of an opening, of which some are struck.
fn records(script: &mut Script, k: u32, s: u32) -> Vec<u32> {
    let mut raw = Vec::new();
    for _ in 0..1 << k {
        let struck = script.random.below(3) == 0;
        let word = |_| match struck {
            true => STRUCK,
            false => script.random.below(65536) as u32,
        };
        raw.extend((0..s).map(word));
    }
    raw
}

/// An opening of such records.
fn open_any(script: &mut Script, k: u32, s: u32) {
    let raw = records(script, k, s);
    open(script, k, s, &raw);
    gave(script, 0);
}

/// The events of the document's example, with the number of each: strikes, writes and takings-back; the earlier write among them is none that a call makes.
fn of_the_document(script: &mut Script) {
    open(script, 2, 2, &[10, 11, 65536, 65536, 30, 31, 40, 65535]);
    let events: [(u32, u32, &[u32]); 7] = [
        (0, 2, &[]),
        (0, 1, &[1, 2]),
        (0, 2, &[]),
        (5, 0, &[65536, 65536]),
        (5, 0, &[65536, 7]),
        (4, 4, &[]),
        (4, u32::MAX, &[]),
    ];
    each(script, &events);
    for _ in 0..4 {
        of_a_history(script);
        read_all(script);
        read_back(script, Cover::Part);
    }
    let events: [(u32, u32, &[u32]); 5] = [
        (0, 3, &[]),
        (0, 3, &[5, 5]),
        (0, 3, &[]),
        (0, 0, &[]),
        (0, 0, &[1, 1]),
    ];
    each(script, &events);
}

/// Events, of each the number, the record, and the block of a write, or none of a strike. After each the records are read and recovered.
fn each(script: &mut Script, events: &[(u32, u32, &[u32])]) {
    for &(number, record, block) in events {
        if block.is_empty() {
            strike(script, record, number);
        } else {
            write(script, record, block);
            gave(script, number);
        }
        read_all(script);
        read_back(script, Cover::Part);
    }
}

/// Openings in which records are struck, or words are no record's; those of the document among them.
fn openings(script: &mut Script) {
    let given: [(u32, &[u32]); 15] = [
        (2, &[65536, 65536, 0, 0]),
        (2, &[65536; 4]),
        (2, &[65536, 0, 0, 0]),
        (2, &[0, 0, 7, 65536]),
        (2, &[0, 65536, 65536, 0]),
        (2, &[131_073, 131_073, 0, 0]),
        (2, &[65537, 65537, 0, 0]),
        (2, &[65536, 131_073, 0, 0]),
        (3, &[65536, 65536, 65535, 1, 2, 3]),
        (3, &[1, 2, 3, 65536, 65536, 65536]),
        (1, &[65536, 7]),
        (1, &[65536, 65536]),
        (1, &[7, 131_073]),
        (1, &[65537, 65536]),
        (1, &[65536, u32::MAX]),
    ];
    for (s, raw) in given {
        open(script, 1, s, raw);
        let good = raw.chunks(s as usize).all(are_a_record);
        gave(script, if good { 0 } else { 5 });
        read_all(script);
    }
}

/// Larger openings, recovered; and then of the same records, but for a struck one that has another word in one place.
fn large_openings(script: &mut Script) {
    for (k, s) in [(1, 4), (2, 1), (3, 5), (4, 3), (3, 128), (6, 2)] {
        open_any(script, k, s);
        read_all(script);
        let lost = lose_each(script, |_, size| size);
        damage(script, &lost, Cover::Part, Garbage::Gaps);
        recover_all(script);
        script.explain();
        let at = script.random.index((s as usize) << k);
        let first = at - at % s as usize;
        for place in first..first + s as usize {
            script.push(Command::Put(Words::Raw, place as u32, STRUCK));
        }
        let other = *script.random.one(&[0, 65535, 65537, 131_073]);
        script.push(Command::Put(Words::Raw, at as u32, other));
        script.call(Call::Open);
        gave(script, if s == 1 && other < STRUCK { 0 } else { 5 });
    }
}

/// One fault and two faults of different numbers: of a reading of words that are 65536 but for one, of a strike, and of an opening with a struck record.
fn in_order(script: &mut Script) {
    open(script, 2, 2, &[65536, 65536, 1, 2, 3, 4, 65536, 5]);
    gave(script, 5);
    script.set(Number::C, 3);
    let header = script.machine.header();
    let raw = faults::lengths(Number::WordsLent(Words::Raw), header.raw_len());
    let full = faults::lengths(Number::WordsLent(Words::Full), header.full_len());
    let log = faults::lengths(Number::WordsLent(Words::Log), header.log_len());
    let records = [4, 5, 256, u32::MAX].map(|record| (4, Fault::Given(record)));
    let headers = faults::header(2);
    let put = |number, at, word| (number, Fault::Put(Words::Raw, at, word));
    let struck = [put(14, 7, 65536)];
    let readings = [&headers, &raw, &records[..], &struck].concat();
    each_fault(
        script,
        |record| Command::Call(Call::Read { record }),
        readings,
    );
    let strikes = [&headers, &raw, &full, &log, &records[..]].concat();
    each_fault(
        script,
        |record| Command::Call(Call::Strike { record }),
        strikes,
    );
    // What an opening takes.
    script.push(Command::Put(Words::Raw, 6, 0));
    let words = [
        (0, 0),
        (0, 65535),
        (1, 65537),
        (0, 131_073),
        (2, 65536),
        (7, 65536),
        (6, u32::MAX),
    ];
    let words = words.map(|(at, word)| put(5, at, word));
    let openings = [&headers[..6], &raw, &full, &log, &words].concat();
    each_fault(script, |_| Command::Call(Call::Open), openings);
}

/// Each of these faults and each two, of a call that is given record 3. None of them changes anything.
fn each_fault(script: &mut Script, command: fn(u32) -> Command, faults: Vec<(u32, Fault)>) {
    let call = Accepted {
        command,
        given: 3,
        faults,
        garbage: vec![Words::Full, Words::Log],
    };
    faults::add(script, &call);
}

/// Any event of a history: a strike, a write, a blank one that is refused, an earlier one, or some takings-back.
fn event(script: &mut Script) {
    match script.random.below(10) {
        0 => blank_write(script),
        1 => {
            let mut vault = Vault::of(script);
            vault.any_write(&mut script.random);
            vault.put(script);
        }
        2..5 => script.write(),
        5..8 => any_strike(script),
        _ => {
            for _ in 0..=script.random.below(4) {
                of_a_history(script);
            }
        }
    }
}

fn histories(script: &mut Script) {
    let covers = [Cover::Whole, Cover::Part, Cover::Touch, Cover::Single];
    let vaults = [
        (1, 1, 16),
        (1, 3, 10),
        (2, 1, 24),
        (2, 2, 20),
        (3, 1, 30),
        (3, 5, 20),
        (4, 2, 30),
        (3, 128, 8),
    ];
    for (k, s, events) in vaults {
        open_any(script, k, s);
        for i in 0..events {
            event(script);
            if i % k as usize == 0 {
                read_all(script);
                read_back(script, covers[i % 4]);
            }
        }
    }
}

/// A round of strikes and writes is taken back to its start, where the vault is as it was, and made anew; its last write is a strike.
fn there_and_back(script: &mut Script) {
    for (k, s) in [(1, 1), (2, 1), (2, 3), (3, 2), (5, 1)] {
        open_any(script, k, s);
        let start = Vault::of(script);
        for turn in 1..1 << k {
            if turn % 3 == 0 {
                script.write();
            } else {
                any_strike(script);
            }
        }
        while script.machine.header().c > 0 {
            of_a_history(script);
            if k < 4 {
                read_back(script, Cover::Part);
            }
        }
        let back = Vault::of(script);
        let same = back.raw == start.raw && back.full == start.full && back.log == start.log;
        assert!(same, "a whole round taken back changes nothing");
        for _ in 0..1 << k {
            any_strike(script);
        }
        of_a_history(script);
        read_all(script);
    }
}

/// What stands before a strike and a write to a struck record: a write on the same level or on one above, another strike, and an opened record, struck or not.
fn replaced(script: &mut Script) {
    for s in [1, 2] {
        let mut raw: Vec<u32> = (0..8 * s).map(|i| 100 + i).collect();
        raw[5 * s as usize..][..s as usize].fill(STRUCK);
        // A strike of this record; from 8 on a write to the record that is 8 less.
        let rounds: [&[u32]; 9] = [
            &[5],
            &[13],
            &[4, 12, 4],
            &[13, 5],
            &[5, 13, 5, 5],
            &[5, 1, 2, 3, 5, 0, 13],
            &[13, 1, 2, 3, 4, 0, 5],
            &[1, 2, 3, 4, 6, 7, 5],
            &[4, 4, 4, 12],
        ];
        for events in rounds {
            open(script, 3, s, &raw);
            for &event in events {
                match event {
                    8.. => write(script, event - 8, &vec![event; s as usize]),
                    _ => strike(script, event, 0),
                }
            }
            for _ in events {
                of_a_history(script);
                read_all(script);
            }
            read_back(script, Cover::Touch);
            assert_eq!(script.machine.words(Words::Raw), raw);
        }
    }
}

/// Strikes on buffers that no opening made, of any words and of words at the edges, at every c of small vaults; then readings of them, as they are.
fn other_buffers(script: &mut Script) {
    for (k, s) in [(1, 1), (2, 2), (3, 1)] {
        for c in 0..1 << k {
            for bound in [0, 65538] {
                any(script, Header { k, s, c }, bound);
                for (at, word) in (0..).zip([65536, 65536, 131_073, 131_073]) {
                    if at < s << k {
                        script.push(Command::Put(Words::Raw, at, word));
                    }
                    script.push(Command::Put(Words::Log, at, word));
                }
                read_all(script);
                any_strike(script);
                any_strike(script);
                read_all(script);
            }
        }
    }
    for (k, s, c) in [
        (4, 128, 7),
        (8, 15, 255),
        (9, 7, 130),
        (10, 1, 1023),
        (10, 3, 511),
        (10, 3, 1023),
    ] {
        any(script, Header { k, s, c }, 0);
        any_strike(script);
        any_strike(script);
        read(script, 0);
    }
}

/// Large vaults: strikes of some records, recovered, explained, and taken back.
fn large(script: &mut Script) {
    for (k, s, events) in [(10, 3, 5), (8, 15, 6), (6, 3, 45)] {
        script.open(k, s);
        for event in 0..events {
            if event % 2 == 0 {
                any_strike(script);
            } else {
                script.write();
            }
        }
        let lost = lose_each(script, |_, size| size);
        damage(script, &lost, Cover::Part, Garbage::Gaps);
        script.recover();
        gave(script, 0);
        let records = script.machine.words(Words::Raw);
        assert_eq!(script.machine.words(Words::Out), records);
        if k < 10 {
            script.explain();
            of_a_history(script);
            of_a_history(script);
        }
    }
}

/// Two readings of histories with struck records.
fn read_twice(script: &mut Script) {
    for (k, s, events) in [(1, 1, 3), (1, 2, 3), (2, 1, 4), (2, 3, 3), (3, 2, 3)] {
        open_any(script, k, s);
        let bytes = script.machine.header().image_len();
        script.lend_bytes(Bytes::Image2, bytes);
        for turn in 0..events {
            two_readings::all(script, turn);
            for _ in 0..=turn {
                event(script);
            }
        }
    }
}

pub fn add(script: &mut Script) {
    of_the_document(script);
    openings(script);
    large_openings(script);
    in_order(script);
    histories(script);
    there_and_back(script);
    replaced(script);
    other_buffers(script);
    large(script);
    read_twice(script);
}
