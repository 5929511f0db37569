//! The scenarios, by kind: what is opened, written, lost, altered and asked.
mod alone;
mod blocks;
mod damage;
mod foreign;
mod histories;
mod losses;
mod refusals;
mod steps;
mod strikes;
mod taking_back;
mod two_readings;

use crate::session::{Run, Session, Settings};
use crate::tally::Tally;
use random::Random;
use reference::header::Header;

#[derive(Clone, Copy, Debug, PartialEq)]
pub enum Kind {
    /// Each refusal that comes before decoding, of each call, one by one.
    Refusals,
    /// A round but for its last write, then each kind of loss.
    Losses,
    /// Writes and strikes of several rounds and nothing else.
    Rounds,
    /// Writes and strikes of several rounds, takings-back, readings, images, losses and refusals, mixed.
    History,
    /// Buffers that no opening made.
    Foreign,
    /// Images of blocks that no history wrote, some of which are no records.
    Blocks,
    /// Rounds that are taken back and written anew, and buffers of writes that no history made, with faults on some stripes.
    TakingBack,
    /// Two readings of what a history left, of blocks that no history wrote, and of any bytes.
    TwoReadings,
    /// Strikes of a record again and again, and words that are 65536 in all of a record or in some, raw and in blocks.
    Strikes,
    /// Recovery at sizes where the reference is too slow: the library alone, against the records written.
    Alone,
}

#[derive(Clone, Copy, Debug)]
pub struct Scenario {
    pub kind: Kind,
    pub k: u32,
    pub s: u32,
}

impl Scenario {
    /// Runs it from a seed, and gives what it counted.
    pub fn run(self, seed: u64, settings: Settings) -> Run<Tally> {
        let Scenario { kind, k, s } = self;
        let random = Random::new(seed);
        let mut session = Session::new(Header { k, s, c: 0 }, random, settings);
        session.allow(100);
        match kind {
            Kind::Refusals => refusals::refusals(&mut session)?,
            Kind::Losses => losses::losses(&mut session)?,
            Kind::Rounds => histories::rounds(&mut session)?,
            Kind::History => histories::history(&mut session)?,
            Kind::Foreign => foreign::foreign(&mut session)?,
            Kind::Blocks => blocks::blocks(&mut session)?,
            Kind::TakingBack => taking_back::taking_back(&mut session)?,
            Kind::TwoReadings => two_readings::two_readings(&mut session)?,
            Kind::Strikes => strikes::strikes(&mut session)?,
            Kind::Alone => alone::alone(&mut session)?,
        }
        Ok(session.tally)
    }
}
