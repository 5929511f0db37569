//! Calls with one fault, and with two: the number of the first test that applies must be given.
use super::Script;
use crate::lent::{Bytes, Words};
use crate::script::{Command, Number};

/// What is made wrong.
#[derive(Clone)]
pub enum Fault {
    Set(Number, u32),
    Put(Words, u32, u32),
    /// The record or stripe that the call is given, or the words that are lent for counts or a double scratch.
    Given(u32),
    /// The bytes of an erasure list.
    List(Bytes, Vec<u8>),
    /// A word of an image.
    Image(Bytes, u32, u32),
}

impl Fault {
    /// Whether two faults change the same thing.
    fn clashes(&self, other: &Fault) -> bool {
        match (self, other) {
            (Fault::Set(x, _), Fault::Set(y, _)) => x == y,
            (Fault::Put(x, i, _), Fault::Put(y, j, _)) => (x, i) == (y, j),
            (Fault::Given(_), Fault::Given(_)) => true,
            (Fault::List(x, _), Fault::List(y, _)) => x == y,
            (Fault::Image(x, i, _), Fault::Image(y, j, _)) => (x, i) == (y, j),
            _ => false,
        }
    }
}

/// A call that is accepted as it stands.
pub struct Accepted {
    /// Makes the command, from what it is given.
    pub command: fn(u32) -> Command,
    pub given: u32,
    /// Each fault with its number.
    pub faults: Vec<(u32, Fault)>,
    /// Buffers that hold garbage before each call.
    pub garbage: Vec<Words>,
}

/// Makes each single fault and each two faults of different numbers. A call with a fault changes nothing that another needs, and each fault is undone.
pub fn add(script: &mut Script, call: &Accepted) {
    for (i, (number, fault)) in call.faults.iter().enumerate() {
        run(script, call, *number, &[fault]);
        for (other_number, other) in &call.faults[i + 1..] {
            if other_number != number && !fault.clashes(other) {
                let first = [*number, *other_number].into_iter().min_by_key(turn);
                run(script, call, first.expect("two"), &[other, fault]);
            }
        }
    }
}

/// Tests are made in rising number, but 13 comes right after 3, and those of a stripe come last.
fn turn(number: &u32) -> usize {
    let order = [1, 2, 3, 13, 4, 5, 6, 11, 12, 14, 7, 8, 9, 10];
    let found = order.iter().position(|other| other == number);
    found.expect("a number of the table")
}

fn run(script: &mut Script, call: &Accepted, number: u32, faults: &[&Fault]) {
    let mut given = call.given;
    let images = [Bytes::Image, Bytes::Image2].map(|image| (image, script.machine.bytes(image)));
    let lists = [Bytes::List, Bytes::List2].map(|list| (list, script.machine.bytes(list)));
    for buffer in &call.garbage {
        script.fill(*buffer, 0);
    }
    let mut undo = Vec::new();
    for fault in faults {
        match fault {
            Fault::Given(other) => given = *other,
            other => undo.extend(make(script, &images, other)),
        }
    }
    script.push((call.command)(given));
    assert_eq!(
        script.machine.answered, number,
        "the first test that applies is given"
    );
    for command in undo.into_iter().rev() {
        script.push(command);
    }
    for (list, bytes) in lists {
        if script.machine.bytes(list) != bytes {
            script.load(list, bytes);
        }
    }
}

/// Makes a fault, and gives the command that undoes it. The images are those before all faults; an erasure list is given back by `run`.
fn make(script: &mut Script, images: &[(Bytes, Vec<u8>)], fault: &Fault) -> Option<Command> {
    match *fault {
        Fault::Set(name, value) => {
            let before = script.machine.number(name);
            script.set(name, value);
            Some(Command::Set(name, before))
        }
        Fault::Put(buffer, at, word) => {
            let before = script.machine.words(buffer)[at as usize];
            script.push(Command::Put(buffer, at, word));
            Some(Command::Put(buffer, at, before))
        }
        Fault::Given(_) => None,
        Fault::List(list, ref bytes) => {
            script.load(list, bytes.clone());
            None
        }
        Fault::Image(image, at, word) => {
            let held = images
                .iter()
                .find(|held| held.0 == image)
                .expect("an image");
            let before = held.1[4 * at as usize..][..4].to_vec();
            let bytes = word.to_le_bytes().to_vec();
            script.push(Command::Load(image, 4 * at, bytes));
            Some(Command::Load(image, 4 * at, before))
        }
    }
}

/// A length shorter by one, longer by one, and 0.
pub fn lengths(number: Number, right: usize) -> Vec<(u32, Fault)> {
    let right = right as u32;
    [right - 1, right + 1, 0]
        .iter()
        .map(|&length| (2, Fault::Set(number, length)))
        .collect()
}

/// Values out of a header's ranges.
pub fn header(k: u32) -> Vec<(u32, Fault)> {
    let values = [
        (Number::K, 0),
        (Number::K, 11),
        (Number::K, u32::MAX),
        (Number::S, 0),
        (Number::S, 129),
        (Number::S, u32::MAX),
        (Number::C, 1 << k),
        (Number::C, u32::MAX),
    ];
    values
        .iter()
        .map(|&(number, value)| (1, Fault::Set(number, value)))
        .collect()
}
