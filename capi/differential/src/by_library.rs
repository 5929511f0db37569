//! The calls made of the library, across the C boundary itself: the wrapper hides what a refused reading leaves, and lends no null pointer.
//!
//! What `vault_sys` asks of a caller holds of every call here: a pointer and its count are those of one buffer of the lender, the lender's buffers are apart
//! from each other, and a single number that is stored is the header's c or the function's own.
use reference::calls::{Answer, Call};
use reference::header::Header;
use reference::lent::Lender;
use reference::two_readings::Place;
use std::ptr;
use vault_sys::{
    vault_decode, vault_explain, vault_image, vault_open, vault_powers, vault_read, vault_recover,
    vault_recover_two, vault_shelf_of_two, vault_strike, vault_take_back, vault_write,
    VAULT_NO_SHELF,
};

/// A slice's pointer; of an empty one the null pointer, as C has it.
fn first<T>(slice: &[T]) -> *const T {
    if slice.is_empty() {
        ptr::null()
    } else {
        slice.as_ptr()
    }
}

fn first_mut<T>(slice: &mut [T]) -> *mut T {
    if slice.is_empty() {
        ptr::null_mut()
    } else {
        slice.as_mut_ptr()
    }
}

/// The stripe that a call stored, unless it is the number that stands for none.
fn named(stripe: u32) -> Option<u32> {
    Some(stripe).filter(|&x| x != VAULT_NO_SHELF)
}

/// A number that no call stores as a stripe.
const NEVER_STORED: u32 = VAULT_NO_SHELF - 1;

pub fn call(lender: &mut Lender, call: Call) -> Answer {
    match call {
        Call::Open => open(lender),
        Call::Write { record } => write(lender, record),
        Call::Strike { record } => strike(lender, record),
        Call::TakeBack => take_back(lender),
        Call::Read { record } => read(lender, record),
        Call::Image => image(lender),
        Call::Decode { stripe } => decode(lender, stripe),
        Call::Recover => recover(lender),
        Call::Explain => explain(lender),
        Call::RecoverTwo => recover_two(lender),
        Call::ShelfOfTwo { stripe } => shelf_of_two(lender, stripe),
        Call::Powers => powers(lender),
    }
}

/// C gives the number alone. The header that goes with it is k, s, 0, or 0, 0, 0 where the opening is refused.
fn open(lender: &mut Lender) -> Answer {
    let Header { k, s, .. } = lender.header;
    let raw = lender.raw.part();
    let (full, log) = (lender.full.part_mut(), lender.log.part_mut());
    // SAFETY: as said at the head of this file.
    #[rustfmt::skip]
    let number = unsafe {
        vault_open(
            k, s,
            first(raw), raw.len(),
            first_mut(full), full.len(),
            first_mut(log), log.len(),
        )
    };
    let mut header = Header::default();
    if number == 0 {
        lender.header.c = 0;
        header = lender.header;
    }
    Answer {
        header: Some(header),
        ..Answer::of(number)
    }
}

fn write(lender: &mut Lender, record: u32) -> Answer {
    let Header { k, s, c } = &mut lender.header;
    let (raw, block) = (lender.raw.part_mut(), lender.block.part());
    let (full, log) = (lender.full.part_mut(), lender.log.part_mut());
    // SAFETY: as said at the head of this file.
    #[rustfmt::skip]
    let number = unsafe {
        vault_write(
            *k, *s, c,
            first_mut(raw), raw.len(),
            first_mut(full), full.len(),
            first_mut(log), log.len(),
            record,
            first(block), block.len(),
        )
    };
    Answer {
        header: Some(lender.header),
        ..Answer::of(number)
    }
}

fn strike(lender: &mut Lender, record: u32) -> Answer {
    let Header { k, s, c } = &mut lender.header;
    let raw = lender.raw.part_mut();
    let (full, log) = (lender.full.part_mut(), lender.log.part_mut());
    // SAFETY: as said at the head of this file.
    #[rustfmt::skip]
    let number = unsafe {
        vault_strike(
            *k, *s, c,
            first_mut(raw), raw.len(),
            first_mut(full), full.len(),
            first_mut(log), log.len(),
            record,
        )
    };
    Answer {
        header: Some(lender.header),
        ..Answer::of(number)
    }
}

fn take_back(lender: &mut Lender) -> Answer {
    let Header { k, s, c } = &mut lender.header;
    let (raw, full) = (lender.raw.part_mut(), lender.full.part());
    let (log, scratch) = (lender.log.part_mut(), lender.double_scratch.part_mut());
    // SAFETY: as said at the head of this file.
    #[rustfmt::skip]
    let number = unsafe {
        vault_take_back(
            *k, *s, c,
            first_mut(raw), raw.len(),
            first(full), full.len(),
            first_mut(log), log.len(),
            first_mut(scratch), scratch.len(),
        )
    };
    Answer {
        header: Some(lender.header),
        ..Answer::of(number)
    }
}

fn read(lender: &Lender, record: u32) -> Answer {
    let Header { k, s, c } = lender.header;
    let raw = lender.raw.part();
    // What the call always stores begins as something that it never stores.
    let (mut start, mut count) = (usize::MAX, usize::MAX);
    // SAFETY: as said at the head of this file.
    #[rustfmt::skip]
    let number = unsafe {
        vault_read(
            k, s, c,
            first(raw), raw.len(),
            record,
            &mut start, &mut count,
        )
    };
    Answer {
        part: Some((start, count)),
        ..Answer::of(number)
    }
}

fn image(lender: &mut Lender) -> Answer {
    let Header { k, s, c } = lender.header;
    let (full, log) = (lender.full.part(), lender.log.part());
    let image = lender.image.part_mut();
    // SAFETY: as said at the head of this file.
    #[rustfmt::skip]
    let number = unsafe {
        vault_image(
            k, s, c,
            first(full), full.len(),
            first(log), log.len(),
            first_mut(image), image.len(),
        )
    };
    Answer::of(number)
}

fn decode(lender: &mut Lender, stripe: u32) -> Answer {
    let Header { k, s, c } = lender.header;
    let (image, gaps) = (lender.image.part(), lender.list.part());
    let (blocks, scratch) = (lender.out.part_mut(), lender.scratch.part_mut());
    // SAFETY: as said at the head of this file.
    #[rustfmt::skip]
    let number = unsafe {
        vault_decode(
            k, s, c,
            first(image), image.len(),
            first(gaps), gaps.len(),
            stripe,
            first_mut(blocks), blocks.len(),
            first_mut(scratch), scratch.len(),
        )
    };
    Answer::of(number)
}

fn recover(lender: &mut Lender) -> Answer {
    let Header { k, s, c } = lender.header;
    let (image, gaps) = (lender.image.part(), lender.list.part());
    let (records, scratch) = (lender.out.part_mut(), lender.scratch.part_mut());
    let mut stripe = NEVER_STORED;
    // SAFETY: as said at the head of this file.
    #[rustfmt::skip]
    let number = unsafe {
        vault_recover(
            k, s, c,
            first(image), image.len(),
            first(gaps), gaps.len(),
            first_mut(records), records.len(),
            first_mut(scratch), scratch.len(),
            &mut stripe,
        )
    };
    Answer {
        stripe: named(stripe),
        ..Answer::of(number)
    }
}

fn explain(lender: &mut Lender) -> Answer {
    let Header { k, s, c } = lender.header;
    let (image, gaps) = (lender.image.part(), lender.list.part());
    let (counts, origins) = (lender.counts.part_mut(), lender.out.part_mut());
    let scratch = lender.scratch.part_mut();
    let mut stripe = NEVER_STORED;
    // SAFETY: as said at the head of this file.
    #[rustfmt::skip]
    let number = unsafe {
        vault_explain(
            k, s, c,
            first(image), image.len(),
            first(gaps), gaps.len(),
            first_mut(counts), counts.len(),
            first_mut(origins), origins.len(),
            first_mut(scratch), scratch.len(),
            &mut stripe,
        )
    };
    Answer {
        stripe: named(stripe),
        ..Answer::of(number)
    }
}

fn recover_two(lender: &mut Lender) -> Answer {
    let Header { k, s, c } = lender.header;
    let (image1, gaps1) = (lender.image.part(), lender.list.part());
    let (image2, gaps2) = (lender.image2.part(), lender.list2.part());
    let (records, scratch) = (lender.out.part_mut(), lender.scratch.part_mut());
    let mut stripe = NEVER_STORED;
    // SAFETY: as said at the head of this file.
    #[rustfmt::skip]
    let number = unsafe {
        vault_recover_two(
            k, s, c,
            first(image1), image1.len(),
            first(gaps1), gaps1.len(),
            first(image2), image2.len(),
            first(gaps2), gaps2.len(),
            first_mut(records), records.len(),
            first_mut(scratch), scratch.len(),
            &mut stripe,
        )
    };
    Answer {
        stripe: named(stripe),
        ..Answer::of(number)
    }
}

fn shelf_of_two(lender: &Lender, stripe: u32) -> Answer {
    let Header { k, s, c } = lender.header;
    let (image1, gaps1) = (lender.image.part(), lender.list.part());
    let (image2, gaps2) = (lender.image2.part(), lender.list2.part());
    // What the call always stores begins as something that it never stores.
    let (mut reading, mut start, mut count) = (u32::MAX, usize::MAX, usize::MAX);
    // SAFETY: as said at the head of this file.
    #[rustfmt::skip]
    let number = unsafe {
        vault_shelf_of_two(
            k, s, c,
            first(image1), image1.len(),
            first(gaps1), gaps1.len(),
            first(image2), image2.len(),
            first(gaps2), gaps2.len(),
            stripe,
            &mut reading, &mut start, &mut count,
        )
    };
    let place = Place {
        reading,
        start,
        count,
    };
    Answer {
        place: Some(place),
        ..Answer::of(number)
    }
}

fn powers(lender: &mut Lender) -> Answer {
    let powers = lender.out.part_mut();
    // SAFETY: as said at the head of this file.
    let number = unsafe { vault_powers(first_mut(powers), powers.len()) };
    Answer::of(number)
}
