//! Sizes at which the reference is too slow: the library alone, against the records that were written.
use super::steps::has_blank_write;
use crate::by_library;
use crate::erasures::{self, Loss, Marks};
use crate::guarded::{guarded, lend_output};
use crate::origins::origins;
use crate::session::{Run, Session};
use crate::writes::{block, records, strike_some};
use reference::by_reference;
use reference::calls::Call;
use reference::header::Header;
use reference::lent::Lender;
use reference::record::{are_a_record, STRUCK};

/// Writes a round but for its last write, loses half of each stripe, recovers and explains, and takes back some writes: by the library alone, but for the
/// earlier writes.
pub fn alone(session: &mut Session) -> Run<()> {
    let mut lender = guarded(session.header(), 0);
    let mut book = records(&mut session.random, lender.header);
    lender.raw.set(&book);
    taken(session, &mut lender, Call::Open)?;
    let mut written = Vec::new();
    let mut before = Vec::new();
    for left in (1..lender.header.records()).rev() {
        if left <= TAKEN_BACK {
            before.push(lender.clone());
        }
        written.push(write(session, &mut lender, &mut book)?);
    }
    taken(session, &mut lender, Call::Image)?;
    let header = lender.header;
    let marks = Loss::Half.marks(&mut session.random, header);
    let list = erasures::list(&mut session.random, header, &marks);
    lender.list.set(&list);
    read_back(session, &mut lender, &book)?;
    read_twice(session, &mut lender, &book)?;
    explained(session, &mut lender, &marks, &written)?;
    let mut before = before.iter().rev();
    before.try_for_each(|before| taken_back(session, &mut lender, before))?;
    struck_blocks(session, &mut lender)
}

/// How many writes are taken back: the last of them alone on its level, and one from a level that is split.
const TAKEN_BACK: usize = 3;

/// Takes back a write: header and buffers are as they were before it.
fn taken_back(session: &Session, lender: &mut Lender, before: &Lender) -> Run<()> {
    taken(session, lender, Call::TakeBack)?;
    let same = lender.header == before.header
        && lender.raw == before.raw
        && lender.full == before.full
        && lender.log == before.log;
    session.expect(same, "the library alone did not take back a write")
}

/// Makes a call, which has to be taken.
fn taken(session: &Session, lender: &mut Lender, call: Call) -> Run<()> {
    lend_output(lender, call);
    let answer = by_library::call(lender, call);
    session.expect(answer.number == 0, "the library alone refused a call")
}

/// Decodes each stripe, and recovers the records of the book.
fn read_back(session: &Session, lender: &mut Lender, book: &[u32]) -> Run<()> {
    for stripe in 0..=lender.header.k {
        taken(session, lender, Call::Decode { stripe })?;
    }
    taken(session, lender, Call::Recover)?;
    let holds = lender.out.part() == book && lender.raw.part() == book;
    session.expect(holds, "the library alone did not recover the records")
}

/// A second reading beside the first, which lost half of each stripe: it lost any positions, and each stripe is taken from the one that has more of it.
fn read_twice(session: &mut Session, lender: &mut Lender, book: &[u32]) -> Run<()> {
    let header = lender.header;
    let marks = Loss::Some.marks(&mut session.random, header);
    let list = erasures::list(&mut session.random, header, &marks);
    let mut image = lender.image.part().to_vec();
    for (start, _) in erasures::positions(header, &marks).filter(|position| position.1) {
        image[start..start + 4 * header.width()].fill(0xff);
    }
    lender.image2.set(&image);
    lender.list2.set(&list);
    for stripe in 0..=header.k {
        taken(session, lender, Call::ShelfOfTwo { stripe })?;
    }
    taken(session, lender, Call::RecoverTwo)?;
    let holds = lender.out.part() == book;
    session.expect(
        holds,
        "the library alone did not recover the records from two readings",
    )
}

fn explained(session: &Session, lender: &mut Lender, marks: &Marks, written: &[u32]) -> Run<()> {
    taken(session, lender, Call::Explain)?;
    let holds = lender.counts.part() == erasures::counts(lender.header, marks)
        && lender.out.part() == origins(lender.header, written)
        && has_blank_write(lender);
    session.expect(holds, "the library alone did not explain the recovery")
}

/// The full stripe of raw words of which a record is struck in all words, and then another in some, as no opening takes it. A write that ends the round codes
/// them.
fn struck_blocks(session: &mut Session, lender: &mut Lender) -> Run<()> {
    let Header { k, .. } = lender.header;
    for all in [true, false] {
        let random = &mut session.random;
        let mut words = vec![STRUCK; lender.header.data()];
        if !all {
            strike_some(random, &mut words);
        }
        let number = if are_a_record(&words) { 0 } else { 10 };
        let record = 1 + random.index(lender.header.records() - 1);
        lender.header.c = (1 << k) - 1;
        lender.raw.part_mut()[record * words.len()..][..words.len()].copy_from_slice(&words);
        lender.block.set(&block(random, words.len()));
        taken(session, lender, Call::Write { record: 0 })?;
        taken(session, lender, Call::Image)?;
        let image = lender.image.part().to_vec();
        lender.image2.set(&image);
        for call in [
            Call::Decode { stripe: k },
            Call::Recover,
            Call::Explain,
            Call::RecoverTwo,
        ] {
            lend_output(lender, call);
            let answer = by_library::call(lender, call);
            let what = "the library alone gave another number for a struck block";
            session.expect(answer.number == number, what)?;
        }
    }
    Ok(())
}

/// A write of the library's that is taken, or a strike, or of a blank block a write of reference/, as an earlier vault made it: so is the round's last. At
/// times the library is given a blank block before, and refuses it. Gives the record, which the book has then.
fn write(session: &mut Session, lender: &mut Lender, book: &mut [u32]) -> Run<u32> {
    let (random, header) = (&mut session.random, lender.header);
    let record = random.below(header.records() as u64) as u32;
    let write = Call::Write { record };
    let blank = vec![0; header.data()];
    let mut numbers = Vec::new();
    if random.below(16) == 0 {
        lender.block.set(&blank);
        numbers.push((by_library::call(lender, write).number, 11));
    }
    let last = header.c as usize + 2 == header.records();
    if last || random.below(16) == 0 {
        lender.block.set(&blank);
        numbers.push((by_reference::earlier_write(lender, record).number, 0));
    } else if random.below(16) == 0 {
        lender.block.set(&vec![STRUCK; header.data()]);
        numbers.push((by_library::call(lender, write).number, 5));
        numbers.push((by_library::call(lender, Call::Strike { record }).number, 0));
        numbers.push((by_library::call(lender, Call::Read { record }).number, 14));
    } else {
        lender.block.set(&block(random, header.data()));
        numbers.push((by_library::call(lender, write).number, 0));
    }
    let start = record as usize * header.data();
    book[start..start + header.data()].copy_from_slice(lender.block.part());
    let holds = numbers.iter().all(|(given, expected)| given == expected);
    session.expect(holds, "a write of the library alone gave another number")?;
    Ok(record)
}
