//! What a call can be refused for before a stripe is decoded: each fault, and several at once.
use crate::erasures::Broken;
use crate::session::{Run, Session};
use random::Random;
use reference::calls::Call;
use reference::header::Header;
use reference::lent::{Buffer, Bytes, Lender, Lent, LIST, LIST2};
use reference::record::STRUCK;

#[derive(Clone, Debug)]
pub enum Fault {
    K(u32),
    S(u32),
    C(u32),
    /// So many words or bytes more or fewer.
    Length(Buffer, isize),
    /// One of the erasure lists.
    Erasures(Bytes, Vec<u8>),
    /// Another record or stripe.
    Given(u32),
    /// A word of the block, or of the opened records, at some place modulo the length.
    DataWord(usize, u32),
    /// All words of the block are 0.
    Blank,
    /// A bit of the second image is another, at some place of its full stripe.
    Differ(usize),
    /// Words of the raw copy, from a place on.
    Raw(usize, Vec<u32>),
}

impl Fault {
    fn apply(&self, lender: &mut Lender) {
        match self {
            Fault::K(k) => lender.header.k = *k,
            Fault::S(s) => lender.header.s = *s,
            Fault::C(c) => lender.header.c = *c,
            Fault::Length(Buffer::Words(words), more) => grow(lender.words_mut(*words), *more),
            Fault::Length(Buffer::Bytes(bytes), more) => grow(lender.bytes_mut(*bytes), *more),
            Fault::Erasures(buffer, list) => lender.bytes_mut(*buffer).set(list),
            Fault::DataWord(at, word) => {
                for words in [&mut lender.raw, &mut lender.block] {
                    let part = words.part_mut();
                    let count = part.len().max(1);
                    if let Some(x) = part.get_mut(at % count) {
                        *x = *word;
                    }
                }
            }
            Fault::Blank => lender.block.part_mut().fill(0),
            Fault::Differ(bit) => {
                let image = lender.image2.part_mut();
                // The first half of an image is part of its full stripe.
                let bits = 4 * image.len().max(1);
                if let Some(x) = image.get_mut(bit % bits / 8) {
                    *x ^= 1 << (bit % 8);
                }
            }
            Fault::Raw(first, words) => {
                let part = lender.raw.part_mut().iter_mut().skip(*first);
                part.zip(words).for_each(|(x, word)| *x = *word);
            }
            Fault::Given(_) => {}
        }
    }

    /// The call, given the number of this fault if it has one.
    fn changed(&self, call: Call) -> Call {
        match self {
            Fault::Given(given) => call.with(*given),
            _ => call,
        }
    }
}

/// Lends so many elements more, or fewer.
fn grow<T: Copy + From<u8>>(buffer: &mut Lent<T>, more: isize) {
    let count = buffer.part().len().saturating_add_signed(more);
    buffer.resize(count, 7.into());
}

/// Makes a call with these faults, and gives the buffers theirs back.
pub fn faulty(session: &mut Session, call: Call, faults: &[Fault]) -> Run<u32> {
    let call = faults.iter().fold(call, |call, fault| fault.changed(call));
    let answer = session.call_changed(call, |lender| {
        for fault in faults {
            fault.apply(lender);
        }
    })?;
    Ok(answer.number)
}

/// The record that a reading is given is struck, in a vault of so many data words.
pub fn struck(call: Call, words: usize) -> Fault {
    let first = call.row().given as usize * words;
    Fault::Raw(first, vec![STRUCK; words])
}

/// Headers out of range, for a vault of n records.
pub fn headers(n: u32) -> Vec<Fault> {
    let mut faults: Vec<Fault> = [0, 11, 12, 32, 33, 64, 1 << 31, u32::MAX]
        .map(Fault::K)
        .into();
    faults.extend([0, 129, 256, 65536, 1 << 31, u32::MAX].map(Fault::S));
    faults.extend([n, n + 1, 2 * n, 1 << 31, u32::MAX].map(Fault::C));
    faults
}

/// Each buffer that a call is lent, longer by one, shorter by one, and empty; erasure lists may have any length.
pub fn lengths(call: Call) -> Vec<Fault> {
    let buffers = call.buffers().map(|lent| lent.1);
    buffers
        .filter(|&buffer| buffer != LIST && buffer != LIST2)
        .flat_map(|buffer| [1, -1, isize::MIN].map(|more| Fault::Length(buffer, more)))
        .collect()
}

/// The erasure lists that a call is lent.
pub fn lists(call: Call) -> Vec<Bytes> {
    let all = [(LIST, Bytes::List), (LIST2, Bytes::List2)];
    let lent = |list| call.buffers().any(|(_, buffer)| buffer == list);
    let own = all.into_iter().filter(|list| lent(list.0));
    own.map(|list| list.1).collect()
}

/// A fault for a call, at random. A header in range that the buffers' lengths do not fit is one too.
fn any(session: &mut Session, call: Call) -> Fault {
    let header = session.header();
    let (n, k, s) = (header.records() as u32, header.k, header.s);
    let size = session.lent().image.part().len();
    let random = &mut session.random;
    let broken = *random.one(&Broken::ALL);
    let mut faults = vec![
        random.one(&headers(n)).clone(),
        random.one(&lengths(call)).clone(),
        random.one(&lengths(call)).clone(),
        Fault::K(k + 1),
        Fault::S(s + 1),
    ];
    for list in lists(call) {
        faults.push(Fault::Erasures(list, broken.list(random, size)));
        faults.push(Fault::Erasures(list, broken.list(random, size)));
    }
    faults.extend(of_later_tests(random, header, call));
    random.one(&faults).clone()
}

/// The faults for which a call may give a number from 4 on.
fn of_later_tests(random: &mut Random, header: Header, call: Call) -> Vec<Fault> {
    let (n, k) = (header.records() as u32, header.k);
    let mut faults = Vec::new();
    if call.gives(4) {
        let record = *random.one(&[n, n + 1, 65536, 1 << 31, u32::MAX]);
        faults.push(Fault::Given(record));
    }
    if call.gives(5) {
        let word = *random.one(&[65536, 65537, 1 << 31, u32::MAX]);
        faults.push(Fault::DataWord(random.index(1 << 20), word));
    }
    if call.gives(11) {
        faults.push(Fault::Blank);
    }
    if call.gives(12) {
        faults.push(Fault::C(0));
    }
    if call.gives(13) {
        faults.push(Fault::Differ(random.index(1 << 20)));
    }
    if call.gives(14) {
        faults.push(struck(call, header.data()));
    }
    if call.gives(6) {
        let level = random.below(u64::from(k)) as u32;
        let stripe = *random.one(&[level, k + 1, k + 2, u32::MAX]);
        faults.push(Fault::Given(stripe));
    }
    faults
}

/// Makes a call with one fault, or with several.
pub fn any_faulty(session: &mut Session, call: Call) -> Run<u32> {
    let count = *session.random.one(&[1, 1, 1, 2, 3]);
    let faults: Vec<Fault> = (0..count).map(|_| any(session, call)).collect();
    faulty(session, call, &faults)
}
