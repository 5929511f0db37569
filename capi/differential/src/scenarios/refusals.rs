//! Refusals that come before decoding: each number of each call, one by one, and several faults at once.
use super::steps::open;
use crate::erasures::Broken;
use crate::faults::{self, Fault};
use crate::session::{Run, Session};
use crate::writes::{block, data, next_write, strike_some};
use random::Random;
use reference::calls::Call;
use reference::header::Header;
use reference::lent::OUT;
use reference::powers::ENTRIES;
use reference::record::STRUCK;

/// A call at random, with faults at random.
pub fn any_refusal(session: &mut Session) -> Run<()> {
    let header = session.header();
    let n = header.records() as u64;
    let record = session.random.below(n) as u32;
    let block = data(&mut session.random, header.data());
    session.set(|lender| lender.block.set(&block));
    // The faults are mostly those of a header.
    let mut calls = Call::all(record, header.k).to_vec();
    calls.retain(|call| call.gives(1));
    let call = *session.random.one(&calls);
    faults::any_faulty(session, call)?;
    Ok(())
}

pub fn refusals(session: &mut Session) -> Run<()> {
    any_vault(session)?;
    let header = session.header();
    for call in Call::all(header.records() as u32 - 1, header.k) {
        each_number(session, call, None)?;
        let bit = session.random.index(1 << 20);
        for other in [
            (11, Fault::Blank),
            (12, Fault::C(0)),
            (13, Fault::Differ(bit)),
            (14, faults::struck(call, header.data())),
        ] {
            if call.gives(other.0) {
                each_number(session, call, Some(&other))?;
            }
        }
    }
    powers(session)?;
    some_refusals(session)
}

/// A vault with few writes, its image, and a block for a write that would be taken.
fn any_vault(session: &mut Session) -> Run<()> {
    open(session)?;
    for _ in 0..=session.random.below(5) {
        next_write(session)?;
    }
    let words = session.header().data();
    let block = block(&mut session.random, words);
    session.set(|lender| lender.block.set(&block));
    session.call(Call::Image)?;
    let image = session.lent().image.part().to_vec();
    session.set(|lender| lender.image2.set(&image));
    Ok(())
}

/// Each number that the call gives before a stripe is decoded, alone or beside another: that of the two which is tested first is given.
fn each_number(session: &mut Session, call: Call, other: Option<&(u32, Fault)>) -> Run<()> {
    let numbers = call.row().numbers;
    let turn = |number: u32| numbers.iter().position(|&x| x == number);
    for &number in numbers {
        for fault in faults_for(session, call, number) {
            match other {
                None => refused(session, call, &[fault], number)?,
                Some((same, _)) if *same == number => {}
                Some((beside, also)) => {
                    let both = [*beside, number].into_iter().min_by_key(|&x| turn(x));
                    let faults = [also.clone(), fault];
                    refused(session, call, &faults, both.expect("two numbers"))?;
                }
            }
        }
    }
    Ok(())
}

/// Makes a call with these faults, which must give that number.
fn refused(session: &mut Session, call: Call, faults: &[Fault], number: u32) -> Run<()> {
    let given = faults::faulty(session, call, faults)?;
    session.expect(given == number, &format!("{given} was given for {number}"))
}

/// Faults for each of which the call gives the number: none where it comes of decoding.
fn faults_for(session: &mut Session, call: Call, number: u32) -> Vec<Fault> {
    let header = session.header();
    let n = header.records() as u32;
    match number {
        // Opening is given no c.
        1 => faults::headers(n)
            .into_iter()
            .filter(|fault| call != Call::Open || !matches!(fault, Fault::C(_)))
            .collect(),
        2 => faults::lengths(call),
        3 => broken_lists(&mut session.random, header, call),
        4 => [n, n + 1, 2 * n, 65536, 1 << 31, u32::MAX]
            .map(Fault::Given)
            .to_vec(),
        5 => data_words(&mut session.random, header, call),
        6 => no_stripes(header),
        11 => vec![Fault::Blank],
        12 => vec![Fault::C(0)],
        14 => vec![faults::struck(call, header.data())],
        // Any bit of a word.
        13 => (0..32)
            .map(|bit| Fault::Differ(32 * session.random.index(1 << 15) + bit))
            .collect(),
        _ => Vec::new(),
    }
}

/// Words above 65535. In an opening 65536 in all words of a record is none of these faults, but in some of them it is.
fn data_words(random: &mut Random, header: Header, call: Call) -> Vec<Fault> {
    let words = [65537, 131_072, 131_073, 1 << 31, u32::MAX];
    let mut faults = words
        .map(|word| Fault::DataWord(random.index(1 << 20), word))
        .to_vec();
    if call != Call::Open {
        faults.push(Fault::DataWord(random.index(1 << 20), STRUCK));
    } else if header.data() > 1 {
        let first = random.index(header.records()) * header.data();
        let mut words = vec![0; header.data()];
        strike_some(random, &mut words);
        faults.push(Fault::Raw(first, words));
    }
    faults
}

/// Three lists of each kind, for each list that the call is lent.
fn broken_lists(random: &mut Random, header: Header, call: Call) -> Vec<Fault> {
    let mut faults = Vec::new();
    for buffer in faults::lists(call) {
        let kinds = Broken::ALL.iter().flat_map(|broken| [broken; 3]);
        let list = |broken: &Broken| broken.list(random, header.image_len());
        faults.extend(kinds.map(list).map(|list| Fault::Erasures(buffer, list)));
    }
    faults
}

/// Empty levels, and numbers that no stripe of the vault has.
fn no_stripes(header: Header) -> Vec<Fault> {
    let k = header.k;
    let empty = (0..k).filter(|&l| !header.filled(l));
    let beyond = [k + 1, k + 2, 32, 64, 1 << 31, u32::MAX];
    empty.chain(beyond).map(Fault::Given).collect()
}

/// The table of powers: refused to buffers of more lengths, and stored to one of its own.
fn powers(session: &mut Session) -> Run<()> {
    for length in [1, 2, 1024, 2046, 2050, 4096] {
        let fault = Fault::Length(OUT, length - ENTRIES as isize);
        refused(session, Call::Powers, &[fault], 2)?;
    }
    let answer = session.call(Call::Powers)?;
    session.expect(answer.number == 0, "the table of powers was refused")
}

fn some_refusals(session: &mut Session) -> Run<()> {
    for _ in 0..60 {
        any_refusal(session)?;
    }
    Ok(())
}
