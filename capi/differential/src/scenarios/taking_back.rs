//! Taking back: rounds that are taken back and written anew, after each step of which the image is recovered and explained; and buffers of writes that no
//! history made, with faults on some stripes.
use super::steps::{open, recover_after};
use crate::erasures::Loss;
use crate::faults;
use crate::origins::origins;
use crate::session::{Run, Session};
use crate::writes::{next_write, record_data, strike_some};
use random::Random;
use reference::calls::Call;
use reference::header::Header;
use reference::stripe::code;

pub fn taking_back(session: &mut Session) -> Run<()> {
    session.allow(1000);
    open(session)?;
    let mut round = Round::default();
    for _ in 0..2 {
        there_and_back(session, &mut round)?;
    }
    session.allow(1000);
    mixed(session, &mut round)?;
    session.allow(1000);
    for _ in 0..60 {
        made(session)?;
    }
    Ok(())
}

/// A taking-back in a history: it is taken, but for one at a round's start.
pub fn take_back(session: &mut Session) -> Run<()> {
    let expected = if session.header().c == 0 { 12 } else { 0 };
    let answer = session.call(Call::TakeBack)?;
    session.expect(
        answer.number == expected,
        "a taking-back gave another number",
    )
}

/// The writes of a round, strikes among them: of each the record, and the raw copy and the log before it.
#[derive(Default)]
pub struct Round {
    written: Vec<u32>,
    before: Vec<(Vec<u32>, Vec<u32>)>,
}

fn raw_and_log(session: &Session) -> (Vec<u32>, Vec<u32>) {
    let lent = session.lent();
    (lent.raw.part().to_vec(), lent.log.part().to_vec())
}

impl Round {
    fn write(&mut self, session: &mut Session) -> Run<()> {
        self.event(session, next_write)
    }

    /// An event that gives the record that it puts something into.
    pub fn event(
        &mut self,
        session: &mut Session,
        event: impl Fn(&mut Session) -> Run<u32>,
    ) -> Run<()> {
        self.before.push(raw_and_log(session));
        self.written.push(event(session)?);
        if session.header().c == 0 {
            *self = Round::default();
        }
        Ok(())
    }

    /// Takes back the last write, if there is one: the vault is as it was before it. Both leave the full stripe as it is.
    pub fn take_back(&mut self, session: &mut Session) -> Run<()> {
        take_back(session)?;
        self.written.pop();
        let same = match self.before.pop() {
            Some(before) => raw_and_log(session) == before,
            None => true,
        };
        let counted = session.header().c as usize == self.written.len();
        session.expect(
            same && counted,
            "the vault is not as it was before the write",
        )
    }

    /// The image after a loss: the raw copy is recovered, and the origins are the writes that are left.
    pub fn recovered(&self, session: &mut Session) -> Run<()> {
        let loss = *session.random.one(&Loss::ALL);
        if session.is_allowed() && recover_after(session, loss)? {
            let expected = origins(session.header(), &self.written);
            let holds = session.lent().out.part() == expected;
            session.expect(holds, "the origins are not the round's writes")?;
        }
        Ok(())
    }
}

/// Writes up to the last of the round are taken back, to its start or as far as the reference may eliminate; then all are written anew, and the round ends.
fn there_and_back(session: &mut Session, round: &mut Round) -> Run<()> {
    let n = session.header().records();
    while round.written.len() + 1 < n {
        round.write(session)?;
    }
    while session.header().c > 0 && session.is_allowed() {
        round.take_back(session)?;
        round.recovered(session)?;
    }
    if session.header().c == 0 {
        round.take_back(session)?;
    }
    round.write(session)?;
    while session.header().c > 0 {
        round.write(session)?;
    }
    round.take_back(session)
}

/// Writes and takings-back, one or several, with refused ones between them.
fn mixed(session: &mut Session, round: &mut Round) -> Run<()> {
    for _ in 0..40 + session.header().records() {
        match session.random.below(8) {
            0..5 => round.write(session)?,
            5 | 6 if session.is_allowed() => {
                for _ in 0..=session.random.below(4) {
                    round.take_back(session)?;
                }
            }
            _ => {
                faults::any_faulty(session, Call::TakeBack)?;
            }
        }
        round.recovered(session)?;
    }
    Ok(())
}

/// What buffers hold that no history made: on the filled levels the blocks of some writes, in order of time, and on the full stripe others.
struct Made {
    header: Header,
    writes: Vec<Vec<u64>>,
    full: Vec<Vec<u64>>,
    /// For each stripe the number with which it is refused.
    faults: Vec<u32>,
}

/// Lends such buffers, in which the raw copy and the empty levels hold any words, and takes back until that is refused.
fn made(session: &mut Session) -> Run<()> {
    let header = Header {
        c: session.random.index(session.header().records()) as u32,
        ..session.header()
    };
    let mut made = Made::new(&mut session.random, header);
    made.lend(session);
    loop {
        if !session.is_allowed() {
            return Ok(());
        }
        let kept = raw_and_log(session);
        let (expected, before) = made.expected();
        let answer = session.call(Call::TakeBack)?;
        session.expect(answer.number == expected, "the first fault is not given")?;
        let Some((record, data)) = before else {
            return session.expect(raw_and_log(session) == kept, "a refusal changed something");
        };
        let start = record * header.data();
        let words = &session.lent().raw.part()[start..start + data.len()];
        let holds = words.iter().map(|&x| u64::from(x)).eq(data);
        session.expect(holds, "the record is not that of the write before")?;
        made.take_back();
    }
}

impl Made {
    /// Writes to few records, so that earlier ones stand on any stripe; and a fault on each third stripe or so.
    fn new(random: &mut Random, header: Header) -> Made {
        let few = 1 + random.below(header.records() as u64);
        let mut block = |number| {
            let words = record_data(random, header.data());
            let words = words.into_iter().map(u64::from);
            [number].into_iter().chain(words).collect()
        };
        let full = (0..header.records() as u64).map(&mut block).collect();
        let mut writes: Vec<Vec<u64>> = (0..header.c).map(|_| block(0)).collect();
        for write in &mut writes {
            write[0] = random.below(few);
        }
        let faults = [0, 0, 0, 0, 0, 8, 9, 10];
        Made {
            header,
            writes,
            full,
            faults: (0..=header.k).map(|_| *random.one(&faults)).collect(),
        }
    }

    /// The blocks of a stripe.
    fn blocks(&self, stripe: u32) -> &[Vec<u64>] {
        if stripe == self.header.k {
            return &self.full;
        }
        let first = self.header.first(stripe) as usize;
        &self.writes[first..first + (1 << stripe)]
    }

    fn filled(&self) -> impl Iterator<Item = u32> + '_ {
        (0..=self.header.k).filter(|&stripe| self.header.filled(stripe))
    }

    /// The number of a taking-back; and where it is 0 the record, with its data before the write.
    fn expected(&self) -> (u32, Option<(usize, Vec<u64>)>) {
        let Some(last) = self.writes.last() else {
            return (12, None);
        };
        for stripe in self.filled() {
            match self.faults[stripe as usize] {
                0 => {}
                number => return (number, None),
            }
            let blocks = self.blocks(stripe).iter().rev();
            let own = usize::from(stripe == self.header.c.trailing_zeros());
            if let Some(block) = blocks.skip(own).find(|block| block[0] == last[0]) {
                return (0, Some((last[0] as usize, block[1..].to_vec())));
            }
        }
        unreachable!("the full stripe has each record");
    }

    /// The last write is none any more, and the levels below its own are made anew.
    fn take_back(&mut self) {
        let lowest = self.header.c.trailing_zeros() as usize;
        self.faults[..=lowest].fill(0);
        self.writes.pop();
        self.header.c -= 1;
    }

    /// Lends the words of all stripes, with their faults.
    fn lend(&self, session: &mut Session) {
        let header = self.header;
        let any = |random: &mut Random, count| -> Vec<u32> {
            (0..count).map(|_| random.below(1 << 32) as u32).collect()
        };
        let raw = any(&mut session.random, header.raw_len());
        let mut log = any(&mut session.random, header.log_len());
        let mut full = Vec::new();
        for stripe in self.filled() {
            let words = self.words(&mut session.random, stripe);
            if stripe == header.k {
                full = words;
            } else {
                log[header.level_start(stripe)..][..words.len()].copy_from_slice(&words);
            }
        }
        session.set(|lender| {
            lender.header = header;
            lender.raw.set(&raw);
            lender.full.set(&full);
            lender.log.set(&log);
        });
    }

    /// The words of a stripe: with a stray word, with a word altered, or of blocks of which one is no record.
    fn words(&self, random: &mut Random, stripe: u32) -> Vec<u32> {
        let (header, fault) = (self.header, self.faults[stripe as usize]);
        let mut blocks = self.blocks(stripe).concat();
        let block = random.index(1 << stripe) * header.width();
        if fault == 10 || fault > 7 && random.below(4) == 0 {
            let block = &mut blocks[block..][..header.width()];
            no_record(random, header, stripe, block);
        }
        let words = code(header.k, header.first(stripe), header.width(), &blocks);
        let mut words: Vec<u32> = words.into_iter().map(|x| x as u32).collect();
        let at = random.index(words.len());
        if fault == 9 || fault == 8 && random.below(4) == 0 {
            words[at] = (words[at] + 1 + random.below(65536) as u32) % 65537;
        }
        if fault == 8 {
            words[at] = *random.one(&[65537, 65538, 131_072, 1 << 31, u32::MAX]);
        }
        words
    }
}

/// Makes a block of a stripe one that is no record; on the full stripe a number that is not its place is enough.
fn no_record(random: &mut Random, header: Header, stripe: u32, block: &mut [u64]) {
    let n = header.records() as u64;
    match random.below(if header.data() > 1 { 5 } else { 3 }) {
        0 | 1 if stripe == header.k => block[0] = (block[0] + 1 + random.below(n - 1)) % n,
        0 => block[0] = n,
        1 => block[0] = n + random.below(65537 - n),
        2 => block[0] = 65536,
        _ => strike_some(random, &mut block[1..]),
    }
}
