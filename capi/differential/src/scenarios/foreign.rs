//! Buffers that no opening made, and images that no call made.
use super::damage::lose;
use super::refusals::any_refusal;
use super::steps::{decode_all, inspect, read, recover_allowed};
use crate::erasures::Loss;
use crate::session::{Run, Session};
use crate::writes::next_write;
use random::Random;
use reference::calls::Call;
use reference::field::P;

/// Words of 32 bits, often near a multiple of p.
fn words(random: &mut Random, count: usize) -> Vec<u32> {
    let mut word = |_| match random.below(4) {
        0 => random.below(1 << 32) as u32,
        1 => (P * random.below(65536)) as u32,
        2 => random.below(P + 3) as u32,
        _ => (P * random.below(65535) + random.below(5)).saturating_sub(2) as u32,
    };
    (0..count).map(&mut word).collect()
}

fn lend_words(session: &mut Session) {
    let header = session.header();
    let random = &mut session.random;
    let raw = words(random, header.raw_len());
    let full = words(random, header.full_len());
    let log = words(random, header.log_len());
    let c = random.below(header.records() as u64) as u32;
    session.set(|lender| {
        lender.raw.set(&raw);
        lender.full.set(&full);
        lender.log.set(&log);
        lender.header.c = c;
    });
}

pub fn foreign(session: &mut Session) -> Run<()> {
    lend_words(session);
    for _ in 0..40 + session.header().records() {
        match session.random.below(12) {
            0..6 => {
                next_write(session)?;
            }
            6 => read(session)?,
            7 => any_refusal(session)?,
            8 => inspect(session)?,
            9 | 10 => session.call_allowed(Call::TakeBack)?,
            _ => {
                // An opening over the records, which are perhaps no data words.
                session.call_changed(Call::Open, |_| ())?;
            }
        }
    }
    let count = session.header().image_len();
    let bytes = session.random.bytes(count);
    let below: Vec<u32> = (0..count / 4)
        .map(|_| session.random.below(P) as u32)
        .collect();
    let below: Vec<u8> = below.into_iter().flat_map(u32::to_le_bytes).collect();
    image(session, &bytes)?;
    image(session, &below)
}

/// An image that no call made, with several losses.
fn image(session: &mut Session, image: &[u8]) -> Run<()> {
    for loss in [Loss::None, Loss::Half, Loss::Some, Loss::AllX] {
        session.set(|lender| lender.image.set(image));
        let header = session.header();
        let marks = loss.marks(&mut session.random, header);
        lose(session, &marks);
        recover_allowed(session)?;
        decode_all(session)?;
    }
    Ok(())
}
