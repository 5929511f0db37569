//! What scenarios of several kinds do: they open, read, recover and decode.
use super::damage::{alter, alter_survivor, lose};
use crate::erasures::{self, Loss};
use crate::session::{Run, Session};
use crate::writes::{is_blank, records};
use reference::calls::{Answer, Call};
use reference::lent::Lender;
use reference::record::is_struck;

/// An opening that is taken, of records some of which may be struck; at times of zero records.
pub fn open(session: &mut Session) -> Run<()> {
    let header = session.header();
    let raw = match session.random.below(8) {
        0 => vec![0; header.raw_len()],
        _ => records(&mut session.random, header),
    };
    session.set(|lender| {
        lender.raw.set(&raw);
        lender.header.c = 0;
    });
    let answer = session.call(Call::Open)?;
    session.expect(answer.number == 0, "an opening was refused")
}

pub fn read(session: &mut Session) -> Run<()> {
    let record = session.random.below(session.header().records() as u64) as u32;
    session.call(Call::Read { record })?;
    Ok(())
}

/// Recovery and its explanation, which have to answer the same. Gives the answer, and the records.
fn recover(session: &mut Session) -> Run<(Answer, Vec<u32>)> {
    let answer = session.call(Call::Recover)?;
    let records = session.lent().out.part().to_vec();
    let explained = session.call(Call::Explain)?;
    session.expect(explained == answer, "recovery and explanation differ")?;
    Ok((answer, records))
}

/// The same if the reference may still eliminate.
pub fn recover_allowed(session: &mut Session) -> Run<()> {
    if session.is_allowed() {
        recover(session)?;
    }
    Ok(())
}

/// Recovers the records of buffers that a history left, after a loss of that kind: they are the raw copy, if enough survives. Gives whether it does.
pub fn recover_after(session: &mut Session, loss: Loss) -> Run<bool> {
    let header = session.header();
    session.call(Call::Image)?;
    let marks = loss.marks(&mut session.random, header);
    lose(session, &marks);
    let (answer, records) = recover(session)?;
    let counted = session.lent().counts.part() == erasures::counts(header, &marks);
    session.expect(counted, "the counts are not those of the loss")?;
    if !erasures::enough(header, &marks) {
        session.expect(answer.number == 7, "too few were not refused")?;
        return Ok(false);
    }
    let holds = answer.number == 0 && records == session.lent().raw.part();
    session.expect(holds, "the records are not what was written")?;
    if has_blank_write(session.lent()) {
        session.tally.count_recovered(header.k);
    }
    for full in [false, true] {
        if has_struck(session.lent(), full) {
            session.tally.count_struck(header.k, full);
        }
    }
    Ok(true)
}

/// Whether a record is zeros that a write of the round left: by its origin, after an explanation that was taken.
pub fn has_blank_write(lender: &Lender) -> bool {
    let records = lender.raw.part().chunks(lender.header.data());
    let mut origins = lender.out.part().chunks(2).zip(records);
    origins.any(|(origin, record)| origin[0] < lender.header.k && is_blank(record))
}

/// Whether a struck record comes from a level, or from the full stripe: by its origin.
pub fn has_struck(lender: &Lender, full: bool) -> bool {
    let records = lender.raw.part().chunks(lender.header.data());
    let mut origins = lender.out.part().chunks(2).zip(records);
    origins.any(|(origin, record)| is_struck(record) && (origin[0] == lender.header.k) == full)
}

/// A stripe, mostly one that is filled.
fn any_stripe(session: &mut Session) -> u32 {
    let header = session.header();
    let stripe = session.random.below(u64::from(header.k) + 2) as u32;
    if session.random.below(8) == 0 {
        return stripe;
    }
    let above = (stripe..header.k).find(|&level| header.filled(level));
    above.unwrap_or(header.k)
}

fn decode_any(session: &mut Session) -> Run<()> {
    let stripe = any_stripe(session);
    session.call_allowed(Call::Decode { stripe })
}

/// Decodes each filled stripe, and one more.
pub fn decode_all(session: &mut Session) -> Run<()> {
    let header = session.header();
    for stripe in (0..=header.k).filter(|&l| header.filled(l)) {
        session.call_allowed(Call::Decode { stripe })?;
    }
    decode_any(session)
}

/// Image, loss, perhaps altered words; then recovery and some decodings.
pub fn inspect(session: &mut Session) -> Run<()> {
    let header = session.header();
    session.call(Call::Image)?;
    let loss = *session.random.one(&Loss::ALL);
    let marks = loss.marks(&mut session.random, header);
    lose(session, &marks);
    for _ in 0..session.random.below(3) {
        alter(session);
    }
    if session.random.below(3) == 0 {
        let stripe = session.random.below(u64::from(header.k) + 1) as u32;
        alter_survivor(session, &marks, stripe);
    }
    recover_allowed(session)?;
    decode_any(session)?;
    decode_any(session)
}
