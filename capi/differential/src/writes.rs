//! The writes of a history (docs/FORMAT.md, section 11): those of today, which are taken or refused for a blank block, those of an earlier vault, which took
//! it, and strikes.
use crate::session::{Run, Session};
use random::Random;
use reference::by_reference;
use reference::calls::Call;
use reference::header::Header;
use reference::record::STRUCK;

/// Data words, often the least or the greatest.
pub fn data(random: &mut Random, count: usize) -> Vec<u32> {
    let mut word = |_| match random.below(8) {
        0 => 0,
        1 => 65535,
        _ => random.below(65536) as u32,
    };
    (0..count).map(&mut word).collect()
}

/// The data of a record: data words, or one time in eight those of a struck one.
pub fn record_data(random: &mut Random, count: usize) -> Vec<u32> {
    match random.below(8) {
        0 => vec![STRUCK; count],
        _ => data(random, count),
    }
}

/// The records of an opening, of which none, some or all are struck.
pub fn records(random: &mut Random, header: Header) -> Vec<u32> {
    let mut raw = data(random, header.raw_len());
    let struck = *random.one(&[0, 1, 3, 8]);
    for record in raw.chunks_mut(header.data()) {
        if random.below(8) < struck {
            record.fill(STRUCK);
        }
    }
    raw
}

/// Makes some data words 65536, and others not, as in no record; of one word none is left.
pub fn strike_some<T: From<u32>>(random: &mut Random, data: &mut [T]) {
    let count = random.index(data.len());
    let struck = random.some(data.len(), count.max(1).min(data.len() - 1));
    for (at, word) in data.iter_mut().enumerate() {
        let other = random.below(65536) as u32;
        *word = T::from(if struck.contains(&at) { STRUCK } else { other });
    }
}

/// Whether number 11 applies to a block of data words.
pub fn is_blank(block: &[u32]) -> bool {
    block.iter().all(|&x| x == 0)
}

/// The block of a write that is taken: data words, of which a blank block is drawn again; at times one word alone is not 0.
pub fn block(random: &mut Random, count: usize) -> Vec<u32> {
    if random.below(8) == 0 {
        let mut block = vec![0; count];
        block[random.index(count)] = *random.one(&[1, 256, 32768, 65535]);
        return block;
    }
    loop {
        let block = data(random, count);
        if !is_blank(&block) {
            return block;
        }
    }
}

/// A block that an earlier vault took, often a blank one.
pub fn earlier_block(random: &mut Random, count: usize) -> Vec<u32> {
    match random.below(2) {
        0 => vec![0; count],
        _ => data(random, count),
    }
}

/// A record, often the first, or the one whose number is the count.
fn record(random: &mut Random, header: Header) -> u32 {
    match random.below(4) {
        0 => 0,
        1 => header.c,
        _ => random.below(header.records() as u64) as u32,
    }
}

/// A write that is taken. Gives the record.
fn write(session: &mut Session) -> Run<u32> {
    let header = session.header();
    let block = block(&mut session.random, header.data());
    let record = record(&mut session.random, header);
    session.set(|lender| lender.block.set(&block));
    let answer = session.call(Call::Write { record })?;
    session.expect(answer.number == 0, "a write was refused")?;
    Ok(record)
}

/// A write of a blank block: it is refused and changes nothing, and made earlier it would have been taken.
pub fn blank_write(session: &mut Session) -> Run<()> {
    let header = session.header();
    let record = record(&mut session.random, header);
    session.set(|lender| lender.block.set(&vec![0; header.data()]));
    let before = session.lent().clone();
    let earlier = by_reference::earlier_write(&mut before.clone(), record);
    session.expect(earlier.number == 0, "an earlier write was refused")?;
    let answer = session.call(Call::Write { record })?;
    session.expect(answer.number == 11, "a blank block was not refused")?;
    session.expect(*session.lent() == before, "a blank block changed something")
}

/// An earlier write of a block. The record, which it gives, is the block afterwards, and the count is one more.
pub fn earlier_write(session: &mut Session, block: &[u32]) -> Run<u32> {
    let header = session.header();
    let record = record(&mut session.random, header);
    session.set(|lender| lender.block.set(block));
    let number = session.earlier_write(record);
    let count = (header.c + 1) % header.records() as u32;
    let start = record as usize * header.data();
    let written = &session.lent().raw.part()[start..start + header.data()];
    let holds = number == 0 && session.header().c == count && written == block;
    session.expect(holds, "an earlier write did not write")?;
    Ok(record)
}

/// A strike, of a record that may be struck: it is taken, and the record is not read then. Gives the record.
pub fn strike(session: &mut Session) -> Run<u32> {
    let header = session.header();
    let record = record(&mut session.random, header);
    let answer = session.call(Call::Strike { record })?;
    session.expect(answer.number == 0, "a strike was refused")?;
    let answer = session.call(Call::Read { record })?;
    session.expect(answer.number == 14, "a struck record was read")?;
    Ok(record)
}

/// A write of the words that a strike leaves: it is refused, and changes nothing.
pub fn struck_write(session: &mut Session) -> Run<()> {
    let header = session.header();
    let record = record(&mut session.random, header);
    session.set(|lender| lender.block.set(&vec![STRUCK; header.data()]));
    let before = session.lent().clone();
    let answer = session.call(Call::Write { record })?;
    let holds = answer.number == 5 && *session.lent() == before;
    session.expect(holds, "a write of a struck record was not refused")
}

/// The next write of a history, of today or an earlier one, or a strike; at times a blank block is refused before it, or the words of a strike are. Gives the
/// record.
pub fn next_write(session: &mut Session) -> Run<u32> {
    match session.random.below(24) {
        0 | 1 => blank_write(session)?,
        2 => struck_write(session)?,
        _ => {}
    }
    match session.random.below(8) {
        0 => strike(session),
        1 | 2 => {
            let words = session.header().data();
            let block = earlier_block(&mut session.random, words);
            earlier_write(session, &block)
        }
        _ => write(session),
    }
}
