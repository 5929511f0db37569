//! Images of blocks that no history wrote, some of which are no records.
use super::damage::{alter_survivor, lose};
use super::steps::{decode_all, recover_allowed};
use crate::erasures::{self, Loss};
use crate::session::{Run, Session};
use crate::writes::{record_data, strike_some};
use random::Random;
use reference::calls::Call;
use reference::field::P;
use reference::header::Header;
use reference::stripe::code;

pub fn blocks(session: &mut Session) -> Run<()> {
    for _ in 0..12 {
        lend_image(session);
        inspect(session)?;
    }
    Ok(())
}

/// Lends an image of such blocks, at any count.
pub fn lend_image(session: &mut Session) {
    let k = session.header().k;
    let c = session.random.below(1 << k) as u32;
    let header = Header {
        c,
        ..session.header()
    };
    let mut image = vec![0xff; header.image_len()];
    for stripe in (0..=k).filter(|&l| header.filled(l)) {
        let blocks = any_blocks(&mut session.random, header, stripe);
        let coded = code(k, header.first(stripe), header.width(), &blocks);
        let bytes = coded.iter().flat_map(|&word| (word as u32).to_le_bytes());
        let bytes: Vec<u8> = bytes.collect();
        let start = 4 * header.stripe_start(stripe);
        image[start..start + bytes.len()].copy_from_slice(&bytes);
    }
    session.set(|lender| {
        lender.header.c = c;
        lender.image.set(&image);
    });
}

/// Blocks of a stripe: records, or with a number or with data words that no record has.
fn any_blocks(random: &mut Random, header: Header, stripe: u32) -> Vec<u64> {
    let (n, count, width) = (header.records() as u64, 1 << stripe, header.width());
    let mut blocks = Vec::new();
    for i in 0..count as u64 {
        let number = if stripe == header.k {
            i
        } else {
            random.below(n)
        };
        blocks.push(number);
        let data = record_data(random, header.data());
        blocks.extend(data.into_iter().map(u64::from));
    }
    let row = width * random.index(count);
    match random.below(9) {
        0 => blocks[row] = random.below(P),
        1 => blocks[row] = n,
        2 => blocks[row + 1 + random.index(header.data())] = 65536,
        3 => blocks[row] = 65536,
        4 => strike_some(random, &mut blocks[row + 1..row + width]),
        _ => {}
    }
    blocks
}

/// Recovers and decodes what is left of the image, then with a word altered, and then by a list that touches any positions.
fn inspect(session: &mut Session) -> Run<()> {
    let header = session.header();
    let loss = *session.random.one(&Loss::ALL);
    let marks = loss.marks(&mut session.random, header);
    lose(session, &marks);
    recover_allowed(session)?;
    decode_all(session)?;
    let stripe = session.random.below(u64::from(header.k) + 1) as u32;
    alter_survivor(session, &marks, stripe);
    recover_allowed(session)?;
    session.call_allowed(Call::Decode { stripe })?;
    let list = erasures::good(&mut session.random, header.image_len());
    session.set(|lender| lender.list.set(&list));
    recover_allowed(session)
}
