//! Listings: inputs of the program `racklist`.
use super::Script;
use crate::lent::Bytes;
use crate::script::Command;

fn list(script: &mut Script, input: &[u8]) {
    script.load(Bytes::List, input.to_vec());
    script.push(Command::List);
}

/// k, s, and any writes.
fn input(script: &mut Script, k: u8, s: u8, writes: usize) -> Vec<u8> {
    let mut bytes = vec![k, s];
    for _ in 0..writes {
        bytes.extend([script.random.below(1 << k) as u8, 0]);
        for _ in 0..s {
            let any = script.random.below(65536) as u16;
            let word = *script.random.one(&[any, any, any, 0, 1, 65535]);
            bytes.extend(word.to_le_bytes());
        }
    }
    bytes
}

/// Every k, every s, none to several rounds of writes.
fn accepted(script: &mut Script) {
    list(script, &[2, 1, 0, 0, 1, 0, 1, 0, 2, 0, 2, 0, 3, 0]);
    for (k, most) in [(1, 5), (2, 9), (3, 9)] {
        for writes in 0..=most {
            let s = 1 + script.random.below(3) as u8;
            let bytes = input(script, k, s, writes);
            list(script, &bytes);
        }
    }
    for s in 1..=16 {
        let k = 1 + s % 5;
        let bytes = input(script, k, s, 3 + 2 * k as usize);
        list(script, &bytes);
    }
    for writes in [7, 15, 16, 17, 31] {
        let bytes = input(script, 4, 2, writes);
        list(script, &bytes);
    }
    for writes in [0, 1, 21, 31, 32, 33, 63, 64, 95] {
        let bytes = input(script, 5, 1, writes);
        list(script, &bytes);
    }
    let bytes = input(script, 5, 16, 31);
    list(script, &bytes);
}

/// Around 256 writes: what follows them is not read.
fn many(script: &mut Script) {
    for (k, s) in [(1, 1), (3, 2), (5, 1)] {
        for writes in 255..=257 {
            let bytes = input(script, k, s, writes);
            list(script, &bytes);
        }
    }
    let mut bytes = input(script, 2, 1, 256);
    bytes.push(0);
    list(script, &bytes);
    bytes.extend([9, 0, 0]);
    list(script, &bytes);
    bytes.truncate(2 + 255 * 4 + 3);
    list(script, &bytes);
    bytes.extend([0; 9]);
    bytes[2 + 255 * 4] = 4;
    list(script, &bytes);
    let bytes = input(script, 5, 16, 256);
    list(script, &bytes);
}

fn refused(script: &mut Script) {
    list(script, &[]);
    for k in [0, 1, 5, 6, 255] {
        list(script, &[k]);
        for s in [0, 1, 16, 17, 255] {
            list(script, &[k, s]);
            list(script, &[k, s, 255]);
        }
    }
    // Cut at each byte, with a record number out of range in the second write or not.
    let good = input(script, 2, 1, 3);
    let mut bad = good.clone();
    bad[6] = 4;
    for bytes in [good, bad] {
        for cut in 2..=bytes.len() {
            list(script, &bytes[..cut]);
        }
    }
    for k in 1..=5 {
        for record in [(1 << k) - 1, 1 << k, 256, 65535u16] {
            let mut bytes = input(script, k, 2, 2);
            bytes[8..10].copy_from_slice(&record.to_le_bytes());
            list(script, &bytes);
        }
    }
}

/// An input in which no write is blank.
fn taken(script: &mut Script, k: u8, s: u8, writes: usize) -> Vec<u8> {
    let mut bytes = input(script, k, s, writes);
    for write in bytes[2..].chunks_mut(2 + 2 * usize::from(s)) {
        let (_, data) = write.split_at_mut(2);
        if data.iter().all(|&x| x == 0) {
            data[script.random.index(data.len())] = 1;
        }
    }
    bytes
}

/// Makes a write of an input blank.
fn blank(bytes: &mut [u8], write: usize) {
    let size = 2 + 2 * usize::from(bytes[1]);
    bytes[2 + write * size..][2..size].fill(0);
}

/// Inputs with no blank write, and the same with each write blank, with the last cut short, and with a bad record number before the blank write and after it.
pub fn add_blanks(script: &mut Script) {
    for (k, s, writes) in [(1, 1, 3), (2, 1, 5), (2, 2, 4), (3, 3, 2), (5, 16, 1)] {
        let good = taken(script, k, s, writes);
        list(script, &good);
        let size = 2 + 2 * usize::from(s);
        for write in 0..writes {
            let mut bytes = good.clone();
            blank(&mut bytes, write);
            list(script, &bytes);
            list(script, &bytes[..2 + (write + 1) * size - 1]);
            for other in (0..writes).filter(|other| write.abs_diff(*other) <= 1) {
                let mut bad = bytes.clone();
                bad[2 + other * size] = 1 << k;
                list(script, &bad);
            }
        }
    }
    for (k, s, writes) in [(4, 1, 17), (5, 1, 33), (5, 1, 95), (5, 1, 256)] {
        let bytes = taken(script, k, s, writes);
        list(script, &bytes);
    }
    // Write 257 is not read, write 256 is.
    for (k, s) in [(1, 1), (3, 2)] {
        let mut bytes = taken(script, k, s, 257);
        blank(&mut bytes, 256);
        list(script, &bytes);
        blank(&mut bytes, 255);
        list(script, &bytes);
    }
}

pub fn add(script: &mut Script) {
    accepted(script);
    many(script);
    refused(script);
}
