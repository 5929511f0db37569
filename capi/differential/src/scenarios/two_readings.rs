//! Two readings of one rack: the image of a history, or of blocks that no history wrote, with losses of either reading; words altered where both are compared
//! and where they are not; and images of any bytes.
use super::blocks::lend_image;
use super::damage::{change, lose};
use super::steps::open;
use super::taking_back::take_back;
use crate::erasures::{self, Loss, Marks};
use crate::faults;
use crate::session::{Run, Session};
use crate::writes::next_write;
use random::Random;
use reference::calls::{Answer, Call};
use reference::field::P;
use reference::header::Header;
use reference::lent::Bytes;
use reference::two_readings::Place;

pub fn two_readings(session: &mut Session) -> Run<()> {
    open(session)?;
    // The reference takes seconds for each recovery of a large rack.
    if session.header().k > 8 {
        events(session, false)?;
        of_a_history(session)?;
        return any_bytes(session);
    }
    for _ in 0..4 {
        session.allow(100);
        events(session, true)?;
        session.allow(100);
        of_a_history(session)?;
        session.allow(100);
        of_any_blocks(session)?;
        session.allow(100);
        any_bytes(session)?;
    }
    Ok(())
}

/// Some writes, some of which are taken back or not.
fn events(session: &mut Session, taken_back: bool) -> Run<()> {
    let n = session.header().records() as u64;
    for _ in 0..=session.random.below(n) {
        next_write(session)?;
        if taken_back && session.random.below(4) == 0 && session.is_allowed() {
            take_back(session)?;
        }
    }
    Ok(())
}

/// Two readings of what a history left.
fn of_a_history(session: &mut Session) -> Run<()> {
    session.call(Call::Image)?;
    let rack = session.lent().image.part().to_vec();
    let header = session.header();
    let marks = together(&mut session.random, header);
    let readings = Readings { rack, marks };
    readings.lend(session);
    readings.taken(session)?;
    readings.altered(session)?;
    readings.noticed(session)?;
    readings.too_few(session)?;
    if session.random.below(2) == 0 {
        readings.lend(session);
    }
    faults::any_faulty(session, Call::RecoverTwo)?;
    let stripe = session.header().k;
    faults::any_faulty(session, Call::ShelfOfTwo { stripe })?;
    same_twice(session)
}

/// Two readings of blocks some of which are no records, with any losses.
fn of_any_blocks(session: &mut Session) -> Run<()> {
    let kept = session.header();
    for _ in 0..4 {
        lend_image(session);
        let rack = session.lent().image.part().to_vec();
        let header = session.header();
        let losses = [0; 2].map(|_| *session.random.one(&Loss::ALL));
        let marks = losses.map(|loss| loss.marks(&mut session.random, header));
        let readings = Readings { rack, marks };
        readings.lend(session);
        both_calls(session)?;
        readings.alter_any(session);
        both_calls(session)?;
    }
    session.set(|lender| lender.header = kept);
    Ok(())
}

/// Losses of two readings of which each has half of each stripe, or one of the two alone.
fn together(random: &mut Random, header: Header) -> [Marks; 2] {
    let losses = [0; 2].map(|_| *random.one(&Loss::ALL));
    let mut marks = losses.map(|loss| loss.marks(random, header));
    let enough = Loss::Half.marks(random, header);
    for (stripe, half) in enough.into_iter().enumerate() {
        if marks.iter().all(|marks| left(marks, stripe) < 1 << stripe) {
            marks[random.index(2)][stripe] = half;
        }
    }
    marks
}

/// How many positions of a stripe are left.
fn left(marks: &Marks, stripe: usize) -> usize {
    marks[stripe].iter().filter(|&&erased| !erased).count()
}

const IMAGES: [Bytes; 2] = [Bytes::Image, Bytes::Image2];

/// A rack, and the positions that are lost of either reading of it.
struct Readings {
    rack: Vec<u8>,
    marks: [Marks; 2],
}

impl Readings {
    /// Lends both: what is lost, and the empty levels, hold anything, and another thing in each.
    fn lend(&self, session: &mut Session) {
        for marks in self.marks.iter().rev() {
            session.set(|lender| {
                lender.exchange();
                lender.image.set(&self.rack);
            });
            lose(session, marks);
        }
    }

    /// The reading that a stripe is taken from.
    fn chosen(&self, stripe: u32) -> usize {
        let [first, second] = [0, 1].map(|i| left(&self.marks[i], stripe as usize));
        usize::from(second > first)
    }

    /// How many positions are left there.
    fn most(&self, stripe: u32) -> usize {
        left(&self.marks[self.chosen(stripe)], stripe as usize)
    }

    /// Both ways round, the records come back, and each stripe from the reading that has more of it.
    fn taken(&self, session: &mut Session) -> Run<()> {
        if !session.is_allowed() {
            return Ok(());
        }
        recovered(session)?;
        self.stripes(session)?;
        session.set(|lender| lender.exchange());
        let [first, second] = self.marks.clone();
        let exchanged = Readings {
            rack: Vec::new(),
            marks: [second, first],
        };
        exchanged.stripes(session)?;
        if session.is_allowed() {
            recovered(session)?;
        }
        session.set(|lender| lender.exchange());
        Ok(())
    }

    /// Each stripe, and numbers that no stripe of the vault has.
    fn stripes(&self, session: &mut Session) -> Run<()> {
        let header = session.header();
        for stripe in (0..=header.k + 1).chain([u32::MAX]) {
            let mut expected = (6, Place::default());
            if header.filled(stripe) {
                let place = Place {
                    reading: self.chosen(stripe) as u32,
                    start: 4 * header.stripe_start(stripe),
                    count: 4 * (2 << stripe) * header.width(),
                };
                expected = (0, place);
            }
            let answer = session.call(Call::ShelfOfTwo { stripe })?;
            let given = (answer.number, answer.place.expect("a place"));
            session.expect(given == expected, "a stripe is not where it should be")?;
        }
        Ok(())
    }

    /// A stripe that is needed, and the first byte of one of its positions for which this holds of the two marks, with the word in it that is to be altered.
    fn place(
        &self,
        session: &mut Session,
        holds: impl Fn([bool; 2]) -> bool,
    ) -> Option<(u32, usize)> {
        let header = session.header();
        let mut found = Vec::new();
        for stripe in (0..=header.k).filter(|&l| header.filled(l)) {
            let rows = self.marks[0][stripe as usize]
                .iter()
                .zip(&self.marks[1][stripe as usize]);
            let fit = rows
                .enumerate()
                .filter(|(_, (&first, &second))| holds([first, second]));
            found.extend(fit.map(|(row, _)| (stripe, row)));
        }
        if found.is_empty() {
            return None;
        }
        let (stripe, row) = *session.random.one(&found);
        let column = session.random.index(header.width());
        let word = header.stripe_start(stripe) + row * header.width() + column;
        Some((stripe, 4 * word))
    }

    /// Words altered of the readings of a history, each way alone: where both are compared, and where they are not.
    fn altered(&self, session: &mut Session) -> Run<()> {
        for _ in 0..3 {
            self.in_one_that_is_compared(session)?;
            self.in_both(session)?;
            for i in [0, 1] {
                self.where_it_is_lost(session, i)?;
                self.where_it_is_left_alone(session, i)?;
            }
        }
        Ok(())
    }

    /// A word differs, in one bit or in all: 13, of each stripe number.
    fn in_one_that_is_compared(&self, session: &mut Session) -> Run<()> {
        let Some((_, at)) = self.place(session, |[first, second]| !first && !second) else {
            return Ok(());
        };
        let bit = session.random.below(32) as u32;
        let other = *session.random.one(&[1 << bit, 1 << 31, u32::MAX]);
        let image = *session.random.one(&IMAGES);
        change(session, image, at, |word| word ^ other);
        differ(session)?;
        change(session, image, at, |word| word ^ other);
        Ok(())
    }

    /// A word is another in both alike: a stray one is no difference, and refused 8; one of the field 9 where another is left to compare with.
    fn in_both(&self, session: &mut Session) -> Run<()> {
        let Some((stripe, at)) = self.place(session, |[first, second]| !first && !second) else {
            return Ok(());
        };
        let kept = IMAGES.map(|image| session.lent().bytes(image).part().to_vec());
        let stray = session.random.below(2) == 0;
        let more = session.random.below(P - 1) as u32;
        for image in IMAGES {
            change(session, image, at, |word| spoilt(word, more, stray));
        }
        let least = if stray { 0 } else { 1 << stripe };
        let expected = (self.most(stripe) > least).then_some(if stray { 8 } else { 9 });
        self.refused(session, stripe, expected)?;
        restore(session, &kept);
        Ok(())
    }

    /// A word is anything at a position that is lost of the reading: nothing comes of it.
    fn where_it_is_lost(&self, session: &mut Session, i: usize) -> Run<()> {
        let Some((_, at)) = self.place(session, |lost| lost[i]) else {
            return Ok(());
        };
        let other = session.random.below(1 << 32) as u32;
        change(session, IMAGES[i], at, |_| other);
        if session.is_allowed() {
            recovered(session)?;
        }
        Ok(())
    }

    /// A word is another at a position that is left of one reading alone: refused where the stripe is taken from that one.
    fn where_it_is_left_alone(&self, session: &mut Session, i: usize) -> Run<()> {
        let Some((stripe, at)) = self.place(session, |lost| !lost[i] && lost[1 - i]) else {
            return Ok(());
        };
        let kept = IMAGES.map(|image| session.lent().bytes(image).part().to_vec());
        let stray = session.random.below(2) == 0;
        let more = session.random.below(P - 1) as u32;
        change(session, IMAGES[i], at, |word| spoilt(word, more, stray));
        if self.chosen(stripe) != i {
            if session.is_allowed() {
                recovered(session)?;
            }
        } else {
            let least = if stray { 0 } else { 1 << stripe };
            let expected = (self.most(stripe) > least).then_some(if stray { 8 } else { 9 });
            self.refused(session, stripe, expected)?;
        }
        restore(session, &kept);
        Ok(())
    }

    /// A recovery that is refused with this number at that stripe, if the number is known; the stripe is given.
    fn refused(&self, session: &mut Session, stripe: u32, number: Option<u32>) -> Run<()> {
        if !session.is_allowed() {
            return Ok(());
        }
        let answer = session.call(Call::RecoverTwo)?;
        let holds = number.is_none_or(|number| names(answer, number, stripe));
        session.expect(holds, "a word altered was not refused as it should be")?;
        let given = session.call(Call::ShelfOfTwo { stripe })?;
        session.expect(given.number == 0, "readings that agree were refused")
    }

    /// A word of a filled level that is intact in both is another in both alike: 9, of that level.
    fn noticed(&self, session: &mut Session) -> Run<()> {
        let header = session.header();
        let levels: Vec<u32> = (0..header.k).filter(|&l| header.filled(l)).collect();
        if levels.is_empty() {
            return Ok(());
        }
        let stripe = *session.random.one(&levels);
        let mut marks = self.marks.clone();
        for marks in &mut marks {
            marks[stripe as usize].fill(false);
        }
        let rack = self.rack.clone();
        let intact = Readings { rack, marks };
        intact.lend(session);
        let row = session.random.index(2 << stripe);
        let column = session.random.index(header.width());
        let word = header.stripe_start(stripe) + row * header.width() + column;
        let more = session.random.below(P - 1) as u32;
        for image in IMAGES {
            change(session, image, 4 * word, |word| spoilt(word, more, false));
        }
        intact.refused(session, stripe, Some(9))
    }

    /// Of one needed stripe fewer than half is left of either reading: 7, unless they differ elsewhere.
    fn too_few(&self, session: &mut Session) -> Run<()> {
        let header = session.header();
        let needed: Vec<u32> = (0..=header.k).filter(|&l| header.filled(l)).collect();
        let stripe = *session.random.one(&needed);
        let mut marks = self.marks.clone();
        for marks in &mut marks {
            let count = (1 << stripe) + 1 + session.random.index(1 << stripe);
            let lost = session.random.some(2 << stripe, count);
            marks[stripe as usize] = (0..2 << stripe).map(|i| lost.contains(&i)).collect();
        }
        let rack = self.rack.clone();
        let short = Readings { rack, marks };
        short.lend(session);
        if session.is_allowed() {
            let answer = session.call(Call::RecoverTwo)?;
            session.expect(names(answer, 7, stripe), "too few were not refused")?;
        }
        short.stripes(session)?;
        short.in_one_that_is_compared(session)
    }

    /// Alters a word of a needed stripe in one image, or in both alike.
    fn alter_any(&self, session: &mut Session) {
        let Some((_, at)) = self.place(session, |_| true) else {
            return;
        };
        let stray = session.random.below(4) == 0;
        let more = session.random.below(P - 1) as u32;
        let images: &[Bytes] = match session.random.below(4) {
            0 => &IMAGES[..1],
            1 => &IMAGES[1..],
            _ => &IMAGES,
        };
        for &image in images {
            change(session, image, at, |word| spoilt(word, more, stray));
        }
    }
}

/// Another word of the field, or a stray one.
fn spoilt(word: u32, more: u32, stray: bool) -> u32 {
    if stray {
        P as u32 + more
    } else {
        word.wrapping_add(1 + more) % P as u32
    }
}

fn names(answer: Answer, number: u32, stripe: u32) -> bool {
    answer.number == number && answer.stripe == Some(stripe)
}

fn restore(session: &mut Session, images: &[Vec<u8>; 2]) {
    session.set(|lender| {
        for (image, bytes) in IMAGES.into_iter().zip(images) {
            lender.bytes_mut(image).set(bytes);
        }
    });
}

/// The records of a history come back.
fn recovered(session: &mut Session) -> Run<()> {
    let answer = session.call(Call::RecoverTwo)?;
    let holds = answer.number == 0 && session.lent().out.part() == session.lent().raw.part();
    session.expect(holds, "two readings did not give what was written")
}

/// Both calls refuse 13, that for a stripe also where there is no such stripe.
fn differ(session: &mut Session) -> Run<()> {
    let stripe = any_stripe(session);
    for call in [Call::RecoverTwo, Call::ShelfOfTwo { stripe }] {
        let answer = session.call(call)?;
        let holds = answer.number == 13;
        session.expect(holds, "readings that differ were not refused")?;
    }
    Ok(())
}

/// The first reading twice gives what recovery of it gives.
fn same_twice(session: &mut Session) -> Run<()> {
    session.set(|lender| {
        let (image, list) = (lender.image.part().to_vec(), lender.list.part().to_vec());
        lender.image2.set(&image);
        lender.list2.set(&list);
    });
    if !session.is_allowed() {
        return Ok(());
    }
    let once = session.call(Call::Recover)?;
    let records = session.lent().out.part().to_vec();
    let twice = session.call(Call::RecoverTwo)?;
    let same = once == twice && session.lent().out.part() == records;
    session.expect(same, "a reading twice gives something else")
}

/// An image of any bytes or of any words of the field, with lists that touch any positions: read twice alike, and beside another.
fn any_bytes(session: &mut Session) -> Run<()> {
    let size = session.header().image_len();
    let mut image = session.random.bytes(size);
    if session.random.below(2) == 0 {
        let word = |_| (session.random.below(P) as u32).to_le_bytes();
        image = (0..size / 4).flat_map(word).collect();
    }
    let lists = [0; 2].map(|_| erasures::good(&mut session.random, size));
    let other = session.random.bytes(size);
    for second in [&image, &other] {
        session.set(|lender| {
            lender.image.set(&image);
            lender.image2.set(second);
            lender.list.set(&lists[0]);
            lender.list2.set(&lists[1]);
        });
        both_calls(session)?;
    }
    Ok(())
}

/// Recovers, and asks for a stripe, whatever it is that they give.
fn both_calls(session: &mut Session) -> Run<()> {
    session.call_allowed(Call::RecoverTwo)?;
    let stripe = any_stripe(session);
    session.call(Call::ShelfOfTwo { stripe })?;
    Ok(())
}

/// A stripe number, of a stripe that is there or not.
fn any_stripe(session: &mut Session) -> u32 {
    let beyond = session.header().k + 1;
    session.random.below(u64::from(beyond) + 1) as u32
}
