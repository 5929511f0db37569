//! Strikes: of a record again and again, taken back; openings and readings of records that are struck or nearly so; and blocks of which data words are 65536,
//! in all of them or in some, on each stripe, also where its columns are decoded a range at a time.
use super::damage::{alter_survivor, lose};
use super::steps::{open, recover_after};
use super::taking_back::Round;
use crate::erasures::{Loss, Marks};
use crate::session::{Run, Session};
use crate::writes::{next_write, record_data, records, strike, strike_some, struck_write};
use random::Random;
use reference::calls::Call;
use reference::header::Header;
use reference::record::{are_a_record, is_struck, STRUCK};
use reference::stripe::code;

pub fn strikes(session: &mut Session) -> Run<()> {
    opened_struck(session)?;
    // The reference takes seconds for each stripe of a large rack.
    if session.header().k > 8 {
        openings(session)?;
        readings(session)?;
        return large(session);
    }
    for _ in 0..4 {
        session.allow(200);
        open(session)?;
        again_and_again(session)?;
        openings(session)?;
        readings(session)?;
        for stripe in 0..=session.header().k {
            session.allow(200);
            forged(session, stripe)?;
        }
    }
    Ok(())
}

/// Records that are all opened struck, of which one is struck again: recovery gives them so, from the full stripe and from a level.
fn opened_struck(session: &mut Session) -> Run<()> {
    let raw = vec![STRUCK; session.header().raw_len()];
    session.set(|lender| lender.raw.set(&raw));
    let answer = session.call(Call::Open)?;
    session.expect(answer.number == 0, "struck records were not opened")?;
    strike(session)?;
    recover_after(session, Loss::Half)?;
    Ok(())
}

/// Strikes and writes, refused ones between them, some of which are taken back; after each the image is recovered and explained.
fn again_and_again(session: &mut Session) -> Run<()> {
    let mut round = Round::default();
    for _ in 0..12 {
        match session.random.below(6) {
            0 | 1 => round.event(session, strike)?,
            2 => struck_write(session)?,
            3 if session.is_allowed() => round.take_back(session)?,
            _ => round.event(session, next_write)?,
        }
        round.recovered(session)?;
        read_all(session, 8)?;
    }
    Ok(())
}

/// Reads so many records at most: 14 where each word is exactly 65536, and else the words as they are.
fn read_all(session: &mut Session, most: usize) -> Run<()> {
    let header = session.header();
    for _ in 0..header.records().min(most) {
        let record = session.random.index(header.records());
        let start = record * header.data();
        let struck = is_struck(&session.lent().raw.part()[start..start + header.data()]);
        let expected = match struck {
            true => (14, Some((0, 0))),
            false => (0, Some((start, header.data()))),
        };
        let record = record as u32;
        let answer = session.call(Call::Read { record })?;
        let given = (answer.number, answer.part);
        session.expect(given == expected, "a reading gave another answer")?;
    }
    Ok(())
}

/// The words of a record that is struck, or nearly so: in some words, or by words that are 65536 modulo p.
fn nearly(random: &mut Random, count: usize) -> Vec<u32> {
    let mut words = vec![*random.one(&[STRUCK, STRUCK, 131_073, 65537]); count];
    let at = random.index(count);
    match random.below(4) {
        0 => words[at] = *random.one(&[0, 65535, 65537, 131_073, u32::MAX]),
        1 => strike_some(random, &mut words),
        _ => {}
    }
    words
}

/// The raw copy of an opening with some records of such words.
fn nearly_records(session: &mut Session) -> Vec<u32> {
    let header = session.header();
    let random = &mut session.random;
    let mut raw = records(random, header);
    for _ in 0..*random.one(&[0, 1, 1, 2]) {
        let start = random.index(header.records()) * header.data();
        raw[start..start + header.data()].copy_from_slice(&nearly(random, header.data()));
    }
    raw
}

/// Openings: 5 where a record holds neither data words nor 65536 alone.
fn openings(session: &mut Session) -> Run<()> {
    for _ in 0..12 {
        let raw = nearly_records(session);
        let words = session.header().data();
        let answer = session.call_changed(Call::Open, |lender| lender.raw.set(&raw))?;
        let expected = if raw.chunks(words).all(are_a_record) {
            0
        } else {
            5
        };
        let holds = answer.number == expected;
        session.expect(holds, "an opening gave another number")?;
    }
    Ok(())
}

/// Readings of such records, which no opening took; and a strike among them, which may end a round.
fn readings(session: &mut Session) -> Run<()> {
    for _ in 0..4 {
        let raw = nearly_records(session);
        let c = session.random.index(session.header().records()) as u32;
        session.set(|lender| {
            lender.header.c = c;
            lender.raw.set(&raw);
        });
        read_all(session, 8)?;
        strike(session)?;
    }
    Ok(())
}

/// The blocks of all stripes, which are records, but for one of a stripe: it is struck in all words or in some.
struct Forged {
    header: Header,
    stripe: u32,
    /// Those of stripe l at place l.
    blocks: Vec<Vec<u64>>,
    /// The number that decoding of the stripe gives.
    number: u32,
}

impl Forged {
    fn new(random: &mut Random, header: Header, stripe: u32, struck: Struck) -> Forged {
        let of_stripe = |stripe: u32| {
            let mut blocks = Vec::new();
            for place in 0..1 << stripe {
                let number = match stripe == header.k {
                    true => place,
                    false => random.below(1 << header.k),
                };
                let data = record_data(random, header.data());
                blocks.push(number);
                blocks.extend(data.into_iter().map(u64::from));
            }
            blocks
        };
        let mut blocks: Vec<Vec<u64>> = (0..=header.k).map(of_stripe).collect();
        let own = &mut blocks[stripe as usize];
        let place = random.index(1 << stripe) * header.width();
        let data = &mut own[place + 1..place + header.width()];
        struck.put(random, data);
        let number = if are_a_record(data) { 0 } else { 10 };
        Forged {
            header,
            stripe,
            blocks,
            number,
        }
    }

    /// The words of a stripe.
    fn words(&self, stripe: u32) -> Vec<u32> {
        let Header { k, .. } = self.header;
        let (first, width) = (self.header.first(stripe), self.header.width());
        let words = code(k, first, width, &self.blocks[stripe as usize]);
        words.into_iter().map(|x| x as u32).collect()
    }

    /// Lends the full stripe and the log, and their image in both readings. Empty levels hold what blocks code to as well.
    fn lend(&self, session: &mut Session) -> Run<()> {
        let full = self.words(self.header.k);
        let log: Vec<u32> = (0..self.header.k).flat_map(|l| self.words(l)).collect();
        session.set(|lender| {
            lender.header = self.header;
            lender.full.set(&full);
            lender.log.set(&log);
        });
        session.call(Call::Image)?;
        session.set(|lender| {
            let image = lender.image.part().to_vec();
            lender.image2.set(&image);
            lender.list2.set(&[]);
        });
        Ok(())
    }

    /// Makes a call if the reference may still eliminate. It gives this number and names the stripe, where it names one.
    fn gives(&self, session: &mut Session, call: Call, number: u32) -> Run<()> {
        if !session.is_allowed() {
            return Ok(());
        }
        let answer = session.call(call)?;
        let names = answer.stripe.is_none_or(|stripe| stripe == self.stripe);
        let holds = answer.number == number && names;
        session.expect(holds, "a forged stripe gave another number")
    }
}

/// Which data words of a block are 65536.
#[derive(Clone, Copy)]
enum Struck {
    All,
    Some,
    One,
    AllButOne,
    /// Those of the first range of columns, where a scratch of n(s + 1) + 4n words has no room for all of 2n positions.
    FirstRange,
    OtherRanges,
}

impl Struck {
    const KINDS: [Struck; 6] = [
        Struck::All,
        Struck::Some,
        Struck::One,
        Struck::AllButOne,
        Struck::FirstRange,
        Struck::OtherRanges,
    ];

    /// Makes these words of a block's data 65536, and the others data words.
    fn put(self, random: &mut Random, data: &mut [u64]) {
        let at = random.index(data.len());
        let chosen = random.some(data.len(), at);
        let first = first_range(data.len());
        for (i, word) in data.iter_mut().enumerate() {
            let struck = match self {
                Struck::All => true,
                Struck::Some => chosen.contains(&i),
                Struck::One => i == at,
                Struck::AllButOne => i != at,
                Struck::FirstRange => i < first,
                Struck::OtherRanges => i >= first,
            };
            *word = if struck { 65536 } else { random.below(65536) };
        }
    }
}

/// The data words of a block that are decoded with its number: of s + 1 columns there is room for (s + 5) / 2, of which a multiple of four go together.
fn first_range(words: usize) -> usize {
    match (words + 5) / 2 {
        room @ 4.. => room / 4 * 4 - 1,
        room => room - 1,
    }
}

/// A stripe of which a block is struck in all words or in some, at a count at which it is needed: decoded, recovered, explained and read twice, with losses,
/// and with a word altered, which goes before. Then writes are taken back until that is refused.
fn forged(session: &mut Session, stripe: u32) -> Run<()> {
    let header = needed(session, stripe);
    let struck = *session.random.one(&Struck::KINDS);
    let forged = Forged::new(&mut session.random, header, stripe, struck);
    forged.lend(session)?;
    let loss = *session
        .random
        .one(&[Loss::None, Loss::Half, Loss::AllX, Loss::Alternate]);
    let marks = loss.marks(&mut session.random, header);
    lose(session, &marks);
    all_give(session, &forged, forged.number)?;
    if loss == Loss::None {
        altered(session, &forged, &marks)?;
    }
    loop {
        if session.header().c == 0 || !session.is_allowed() {
            return Ok(());
        }
        let answer = session.call(Call::TakeBack)?;
        let holds = [0, 10].contains(&answer.number);
        session.expect(holds, "a taking-back from blocks gave another number")?;
        if answer.number == 10 {
            return session.expect(forged.number == 10, "records were refused");
        }
    }
}

/// A count at which the stripe is needed.
fn needed(session: &mut Session, stripe: u32) -> Header {
    let header = session.header();
    let own = if stripe < header.k { 1 << stripe } else { 0 };
    let c = session.random.index(header.records()) as u32 | own;
    Header { c, ..header }
}

fn all_give(session: &mut Session, forged: &Forged, number: u32) -> Run<()> {
    let stripe = forged.stripe;
    for call in [
        Call::Decode { stripe },
        Call::Recover,
        Call::Explain,
        Call::RecoverTwo,
    ] {
        forged.gives(session, call, number)?;
    }
    Ok(())
}

/// A word of the stripe is another, of the field or not.
fn altered(session: &mut Session, forged: &Forged, marks: &Marks) -> Run<()> {
    alter_survivor(session, marks, forged.stripe);
    let start = 4 * forged.header.stripe_start(forged.stripe);
    let end = start + 8 * (forged.header.width() << forged.stripe);
    let words = session.lent().image.part()[start..end].chunks(4);
    let mut words = words.map(|x| u32::from_le_bytes(x.try_into().expect("four bytes")));
    let number = if words.any(|word| word > 65536) { 8 } else { 9 };
    for call in [Call::Recover, Call::Explain] {
        forged.gives(session, call, number)?;
    }
    Ok(())
}

/// A large rack, of which the full stripe holds such a block, and level 0 a write to its record: so that a taking-back decodes it too.
fn large(session: &mut Session) -> Run<()> {
    session.allow(1 << 20);
    let k = session.header().k;
    let ranges = [Struck::FirstRange, Struck::OtherRanges];
    let some = *session.random.one(&ranges);
    for struck in [Struck::All, some] {
        let header = Header {
            c: 1,
            ..session.header()
        };
        let mut forged = Forged::new(&mut session.random, header, k, struck);
        forged.blocks[0][0] = session.random.below(1 << k);
        forged.lend(session)?;
        let marks = Loss::Half.marks(&mut session.random, header);
        lose(session, &marks);
        all_give(session, &forged, forged.number)?;
        forged.gives(session, Call::TakeBack, forged.number)?;
    }
    Ok(())
}
