//! The calls made of this implementation, over what a caller lends.
use crate::calls::{Answer, Call};
use crate::header::Header;
use crate::lent::Lender;
use crate::two_readings::{self, Place, Reading};
use crate::{explanation, image, opening, powers, reading, recovery};
use crate::{striking, taking_back, writing};

/// Makes a call. The header that it gives is the lender's afterwards, unless it is refused.
pub fn call(lender: &mut Lender, call: Call) -> Answer {
    let header = lender.header;
    let (raw, block) = (lender.raw.part_mut(), lender.block.part());
    let (full, log) = (lender.full.part_mut(), lender.log.part_mut());
    let (image, list) = (lender.image.part_mut(), lender.list.part());
    let second = Reading {
        image: lender.image2.part(),
        list: lender.list2.part(),
    };
    let (counts, out) = (lender.counts.part_mut(), lender.out.part_mut());
    let (scratch, double) = (lender.scratch.part_mut(), lender.double_scratch.part_mut());
    let answer = match call {
        Call::Open => with_header(opening::open(header.k, header.s, raw, full, log)),
        Call::Write { record } => {
            with_header(writing::write(header, raw, full, log, record, block))
        }
        Call::Strike { record } => with_header(striking::strike(header, raw, full, log, record)),
        Call::TakeBack => with_header(taking_back::take_back(header, raw, full, log, double)),
        Call::Read { record } => with_part(raw, reading::read(header, raw, record)),
        Call::Image => Answer::of(image::image(header, full, log, image)),
        Call::Decode { stripe } => Answer::of(recovery::decode_stripe(
            header, image, list, stripe, out, scratch,
        )),
        Call::Recover => with_stripe(recovery::recover(header, image, list, out, scratch)),
        Call::Explain => with_stripe(explanation::explain(
            header, image, list, counts, out, scratch,
        )),
        Call::RecoverTwo => {
            let readings = [Reading { image, list }, second];
            with_stripe(two_readings::recover_two(header, readings, out, scratch))
        }
        Call::ShelfOfTwo { stripe } => {
            let readings = [Reading { image, list }, second];
            with_place(two_readings::shelf_of_two(header, readings, stripe))
        }
        Call::Powers => Answer::of(powers::powers(out)),
    };
    keep_header(lender, answer);
    answer
}

/// A write of a vault of before number 11, which no call of today makes.
pub fn earlier_write(lender: &mut Lender, record: u32) -> Answer {
    let (raw, block) = (lender.raw.part_mut(), lender.block.part());
    let (full, log) = (lender.full.part_mut(), lender.log.part_mut());
    let written = writing::earlier_write(lender.header, raw, full, log, record, block);
    let answer = with_header(written);
    keep_header(lender, answer);
    answer
}

fn keep_header(lender: &mut Lender, answer: Answer) {
    if let (0, Some(header)) = (answer.number, answer.header) {
        lender.header = header;
    }
}

fn with_header((number, header): (u32, Header)) -> Answer {
    Answer {
        header: Some(header),
        ..Answer::of(number)
    }
}

fn with_stripe((number, stripe): (u32, Option<u32>)) -> Answer {
    Answer {
        stripe,
        ..Answer::of(number)
    }
}

fn with_place((number, place): (u32, Place)) -> Answer {
    Answer {
        place: Some(place),
        ..Answer::of(number)
    }
}

/// The part is told by its place in the raw buffer.
fn with_part(raw: &[u32], (number, part): (u32, &[u32])) -> Answer {
    let start = match part {
        [] => 0,
        _ => (part.as_ptr() as usize - raw.as_ptr() as usize) / size_of::<u32>(),
    };
    Answer {
        part: Some((start, part.len())),
        ..Answer::of(number)
    }
}
