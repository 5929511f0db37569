//! The library's calls over slices. Each tests everything it is given, in the order of the table of refusals, and is proved to leave what the
//! specification says: after refusals 1 to 6 and 11 to 14 all buffers are as they were, after 7 to 10 output and scratch are zeros, but for the counts of
//! [`explain`], and the buffers of a vault as they were.
//!
//! What `vault_sys` asks of a caller holds of every call here: a pointer and its count are those of one slice, which is aligned and valid, and what a call
//! may change is borrowed for that call alone.
use crate::{Fault, Header, Part, Reading, Refusal, Which};
use vault_sys::{
    vault_decode, vault_explain, vault_image, vault_open, vault_powers, vault_read, vault_recover,
    vault_recover_two, vault_shelf_of_two, vault_strike, vault_take_back, vault_write,
    VAULT_NO_SHELF,
};

/// Builds the full stripe of raw records, which may be zeros or struck, and zeroes the log. Gives the header.
pub fn open(
    k: u32,
    s: u32,
    raw: &[u32],
    full: &mut [u32],
    log: &mut [u32],
) -> Result<Header, Refusal> {
    // SAFETY: as said at the head of this file.
    #[rustfmt::skip]
    let number = unsafe {
        vault_open(
            k, s,
            raw.as_ptr(), raw.len(),
            full.as_mut_ptr(), full.len(),
            log.as_mut_ptr(), log.len(),
        )
    };
    Refusal::test(number).map(|()| Header { k, s, c: 0 })
}

/// Replaces a record, and rebuilds the first empty level, or at the end of a round the full stripe. A block whose words are all 0 is refused
/// ([`Refusal::Blank`]).
pub fn write(
    header: &mut Header,
    raw: &mut [u32],
    full: &mut [u32],
    log: &mut [u32],
    record: u32,
    block: &[u32],
) -> Result<(), Refusal> {
    // SAFETY: as said at the head of this file; c is borrowed with the header.
    #[rustfmt::skip]
    let number = unsafe {
        vault_write(
            header.k, header.s, &mut header.c,
            raw.as_mut_ptr(), raw.len(),
            full.as_mut_ptr(), full.len(),
            log.as_mut_ptr(), log.len(),
            record,
            block.as_ptr(), block.len(),
        )
    };
    Refusal::test(number)
}

/// Strikes a record: writes [`STRUCK_WORD`](crate::STRUCK_WORD) in the place of each of its data words, which no [`write()`] does. It counts as a write, and
/// takes a record that is struck already like any other.
pub fn strike(
    header: &mut Header,
    raw: &mut [u32],
    full: &mut [u32],
    log: &mut [u32],
    record: u32,
) -> Result<(), Refusal> {
    // SAFETY: as said at the head of this file; c is borrowed with the header.
    #[rustfmt::skip]
    let number = unsafe {
        vault_strike(
            header.k, header.s, &mut header.c,
            raw.as_mut_ptr(), raw.len(),
            full.as_mut_ptr(), full.len(),
            log.as_mut_ptr(), log.len(),
            record,
        )
    };
    Refusal::test(number)
}

/// Takes back the last write or strike of the round: the record is as before it, and so are the header and the log. Where the round has none, it is refused
/// ([`Refusal::RoundStart`]), also after the write that ended a round.
pub fn take_back(
    header: &mut Header,
    raw: &mut [u32],
    full: &[u32],
    log: &mut [u32],
    scratch: &mut [u32],
) -> Result<(), Refusal> {
    // SAFETY: as said at the head of this file; c is borrowed with the header.
    #[rustfmt::skip]
    let number = unsafe {
        vault_take_back(
            header.k, header.s, &mut header.c,
            raw.as_mut_ptr(), raw.len(),
            full.as_ptr(), full.len(),
            log.as_mut_ptr(), log.len(),
            scratch.as_mut_ptr(), scratch.len(),
        )
    };
    Refusal::test(number)
}

/// A record, as a part of the raw buffer. A struck one is refused ([`Refusal::Struck`]), as the table has it; [`Vault::read`](crate::Vault::read) answers it.
pub fn read(header: Header, raw: &[u32], record: u32) -> Result<&[u32], Refusal> {
    let Header { k, s, c } = header;
    let (mut start, mut count) = (0, 0);
    // SAFETY: as said at the head of this file; start and count are this function's own.
    #[rustfmt::skip]
    let number = unsafe {
        vault_read(
            k, s, c,
            raw.as_ptr(), raw.len(),
            record,
            &mut start, &mut count,
        )
    };
    Refusal::test(number).map(|()| &raw[start..start + count])
}

/// The blocks of one stripe (a level, or k for the full stripe) in order of time, at the start of the output, with zeros after them.
pub fn decode(
    header: Header,
    image: &[u8],
    erasures: &[u8],
    stripe: u32,
    out: &mut [u32],
    scratch: &mut [u32],
) -> Result<(), Refusal> {
    let Header { k, s, c } = header;
    // SAFETY: as said at the head of this file.
    #[rustfmt::skip]
    let number = unsafe {
        vault_decode(
            k, s, c,
            image.as_ptr(), image.len(),
            erasures.as_ptr(), erasures.len(),
            stripe,
            out.as_mut_ptr(), out.len(),
            scratch.as_mut_ptr(), scratch.len(),
        )
    };
    Refusal::test(number)
}

/// All records, from the surviving positions of the full stripe and the filled levels. [`Records`](crate::Records) tells which are struck.
pub fn recover(
    header: Header,
    image: &[u8],
    erasures: &[u8],
    out: &mut [u32],
    scratch: &mut [u32],
) -> Result<(), Fault> {
    let Header { k, s, c } = header;
    let mut stripe = VAULT_NO_SHELF;
    // SAFETY: as said at the head of this file; stripe is this function's own.
    #[rustfmt::skip]
    let number = unsafe {
        vault_recover(
            k, s, c,
            image.as_ptr(), image.len(),
            erasures.as_ptr(), erasures.len(),
            out.as_mut_ptr(), out.len(),
            scratch.as_mut_ptr(), scratch.len(),
            &mut stripe,
        )
    };
    Fault::test(number, stripe)
}

/// All records, from two readings of one image: each stripe is decoded in the reading of which more of its positions survive, the first if they are as many.
/// Where a position of a needed stripe survives in both, but with other words, it is refused ([`Refusal::ReadingsDiffer`]), and no stripe is named.
pub fn recover_two(
    header: Header,
    first: Reading,
    second: Reading,
    out: &mut [u32],
    scratch: &mut [u32],
) -> Result<(), Fault> {
    let Header { k, s, c } = header;
    let mut stripe = VAULT_NO_SHELF;
    // SAFETY: as said at the head of this file; stripe is this function's own. The readings may share slices, which are lent for reading.
    #[rustfmt::skip]
    let number = unsafe {
        vault_recover_two(
            k, s, c,
            first.image.as_ptr(), first.image.len(),
            first.erasures.as_ptr(), first.erasures.len(),
            second.image.as_ptr(), second.image.len(),
            second.erasures.as_ptr(), second.erasures.len(),
            out.as_mut_ptr(), out.len(),
            scratch.as_mut_ptr(), scratch.len(),
            &mut stripe,
        )
    };
    Fault::test(number, stripe)
}

/// One stripe of two readings, as a part of the image that [`recover_two`] decodes it in. [`Refusal::ReadingsDiffer`] is tested on all needed stripes, before
/// the stripe's number.
pub fn shelf_of_two<'a>(
    header: Header,
    first: Reading<'a>,
    second: Reading<'a>,
    stripe: u32,
) -> Result<Part<'a>, Refusal> {
    let Header { k, s, c } = header;
    let (mut reading, mut start, mut count) = (0, 0, 0);
    // SAFETY: as said at the head of this file; reading, start and count are this function's own. The readings may share slices, which are lent for reading.
    #[rustfmt::skip]
    let number = unsafe {
        vault_shelf_of_two(
            k, s, c,
            first.image.as_ptr(), first.image.len(),
            first.erasures.as_ptr(), first.erasures.len(),
            second.image.as_ptr(), second.image.len(),
            second.erasures.as_ptr(), second.erasures.len(),
            stripe,
            &mut reading, &mut start, &mut count,
        )
    };
    let (of, image) = match reading {
        0 => (Which::First, first.image),
        _ => (Which::Second, second.image),
    };
    Refusal::test(number).map(|()| Part {
        of,
        bytes: &image[start..start + count],
    })
}

/// Why recovery is taken or refused, with the same answer: the positions left on each stripe and how many more would do, two words for each stripe from 0 to
/// k, which stand after 7 to 10 too; and the level and write that each record comes from, two words for each.
pub fn explain(
    header: Header,
    image: &[u8],
    erasures: &[u8],
    counts: &mut [u32],
    origins: &mut [u32],
    scratch: &mut [u32],
) -> Result<(), Fault> {
    let Header { k, s, c } = header;
    let mut stripe = VAULT_NO_SHELF;
    // SAFETY: as said at the head of this file; stripe is this function's own.
    #[rustfmt::skip]
    let number = unsafe {
        vault_explain(
            k, s, c,
            image.as_ptr(), image.len(),
            erasures.as_ptr(), erasures.len(),
            counts.as_mut_ptr(), counts.len(),
            origins.as_mut_ptr(), origins.len(),
            scratch.as_mut_ptr(), scratch.len(),
            &mut stripe,
        )
    };
    Fault::test(number, stripe)
}

/// Stores the image of a full stripe and a log.
pub fn image(header: Header, full: &[u32], log: &[u32], image: &mut [u8]) -> Result<(), Refusal> {
    let Header { k, s, c } = header;
    // SAFETY: as said at the head of this file.
    #[rustfmt::skip]
    let number = unsafe {
        vault_image(
            k, s, c,
            full.as_ptr(), full.len(),
            log.as_ptr(), log.len(),
            image.as_mut_ptr(), image.len(),
        )
    };
    Refusal::test(number)
}

/// Stores the table of powers: entry i is (3^32)^i modulo 65537. The root of a vault of n records is entry 1024 / n.
pub fn powers(powers: &mut [u32]) -> Result<(), Refusal> {
    // SAFETY: as said at the head of this file.
    let number = unsafe { vault_powers(powers.as_mut_ptr(), powers.len()) };
    Refusal::test(number)
}
