//! Two readings of one rack: what either has of each position, what the library says of each shelf, and the picture of both.
use crate::picture::{heading, Holds, Lines, Lost};
use vault_library::{
    calls, erasures, sizes, stripes, Count, Explanation, Header, Origin, Part, Reading, Refusal,
    Which,
};

/// What two readings have of a position.
#[derive(Clone, Copy, PartialEq)]
enum Position {
    /// Lost in both.
    Lost,
    /// Whole in both, and the same.
    Same,
    /// Whole in both, and not the same.
    Differs,
    /// Whole in one alone.
    Only(Which),
}

/// What the characters of a picture mean.
const LEGEND: &str =
    "# the same in both readings, ! another in each, 1 or 2 in that reading alone, . lost in both";

impl Position {
    fn character(self) -> char {
        match self {
            Position::Lost => '.',
            Position::Same => '#',
            Position::Differs => '!',
            Position::Only(Which::First) => '1',
            Position::Only(Which::Second) => '2',
        }
    }

    fn lost_in(self, which: Which) -> bool {
        match self {
            Position::Lost => true,
            Position::Same | Position::Differs => false,
            Position::Only(whole) => whole != which,
        }
    }
}

/// A needed shelf of two readings.
pub struct Shelf<'a> {
    pub stripe: u32,
    /// What is left of it in the first and in the second.
    pub counts: [Count; 2],
    /// Its bytes in the reading that it is taken from. The one refusal is that the readings
    /// differ, be it on another shelf.
    part: Result<Part<'a>, Refusal>,
    positions: Vec<Position>,
}

impl Shelf<'_> {
    /// The reading that it is taken from. There is none if the readings differ.
    pub fn from(&self) -> Option<Which> {
        self.part.ok().map(|part| part.of)
    }

    /// What is left of it in the reading that it is taken from.
    fn taken(&self) -> Option<&Count> {
        self.from().map(|which| &self.counts[which as usize])
    }

    /// The numbers of the positions that differ.
    pub fn differing(&self) -> impl Iterator<Item = usize> + '_ {
        let numbered = self.positions.iter().enumerate();
        numbered.filter_map(|(number, &position)| (position == Position::Differs).then_some(number))
    }

    /// The numbers of the positions that are lost in a reading.
    fn lost_in(&self, which: Which) -> impl Iterator<Item = usize> + '_ {
        let numbered = self.positions.iter().enumerate();
        numbered.filter_map(move |(number, position)| position.lost_in(which).then_some(number))
    }
}

/// What two readings have of a rack.
pub struct Pair<'a> {
    header: Header,
    /// The needed shelves, the full one first, then the levels downward.
    pub shelves: Vec<Shelf<'a>>,
}

impl<'a> Pair<'a> {
    /// Compares and counts two readings. Refused only where a recovery from one of them names no stripe, since then no position was counted.
    pub fn new(header: Header, readings: [Reading<'a>; 2]) -> Result<Pair<'a>, Refusal> {
        let [first, second] = readings;
        let counts = |reading: Reading| {
            Explanation::new(header, reading.image, reading.erasures).map(|alone| alone.counts)
        };
        let (one, other) = (counts(first)?, counts(second)?);
        let lost = readings.map(|reading| Lost::new(header, reading.erasures));
        let shelf = |(&one, &other): (&Count, &Count)| {
            let stripe = one.stripe;
            Shelf {
                stripe,
                counts: [one, other],
                part: calls::shelf_of_two(header, first, second, stripe),
                positions: positions(header, readings, &lost, stripe),
            }
        };
        Ok(Pair {
            header,
            shelves: one.iter().zip(&other).map(shelf).collect(),
        })
    }

    /// Where the records come from. There is nothing if recovery from both is refused.
    pub fn origins(&self) -> Vec<Origin> {
        let joined = self.joined().ok();
        let origins = joined.and_then(|joined| joined.origins.ok());
        origins.unwrap_or_default()
    }

    /// What recovery from both finds. Refused only if the readings differ.
    ///
    /// Recovery decodes each shelf in one reading alone. What it looks at there is put together
    /// as one image and one gap list: of each needed shelf the bytes of the reading that it is
    /// taken from, and the positions that are lost there; empty levels are not looked at. So each
    /// shelf of this image decodes to the same as in recovery from both, and the number, the shelf
    /// at fault and the origins that the library says of it are those of that recovery.
    fn joined(&self) -> Result<Explanation, Refusal> {
        let Header { k, s, .. } = self.header;
        let mut image = vec![0; sizes::image(k, s)];
        let mut lost = Vec::new();
        for shelf in &self.shelves {
            let Part { of, bytes } = shelf.part?;
            let position = |number| stripes::position(k, s, shelf.stripe, number);
            image[position(0).start..][..bytes.len()].copy_from_slice(bytes);
            lost.extend(shelf.lost_in(of).map(position));
        }
        Explanation::new(self.header, &image, &erasures::list(lost))
    }

    /// The picture of all shelves, and what its characters mean.
    pub fn picture(&self, holds: Holds) -> String {
        let header = self.header;
        let lines = Lines { header, holds };
        let columns = columns(&lines, "left in 1, 2", "from", "needed");
        let rack = lines.rack(heading("positions (legend below)", &columns), |stripe| {
            let shelf = self.shelves.iter().find(|shelf| shelf.stripe == stripe);
            shelf.map_or_else(|| lines.empty(stripe), |shelf| drawn(&lines, shelf))
        });
        rack + &format!("\n   {LEGEND}\n")
    }
}

/// The lines of a shelf.
fn drawn(lines: &Lines, shelf: &Shelf) -> String {
    let digits = lines.digits();
    let [one, other] = shelf.counts;
    let (first, second) = (one.left, other.left);
    let all = stripes::positions(shelf.stripe);
    let left = format!("{first:>digits$}, {second:>digits$} of {all:>digits$}");
    let from = shelf
        .from()
        .map_or("-".into(), |which| number(which).to_string());
    let needed = format!("{:>digits$}{}", one.needed, remark(shelf));
    let drawn = shelf.positions.iter().map(|position| position.character());
    let columns = columns(lines, &left, &from, &needed);
    lines.shelf(shelf.stripe, &drawn.collect::<Vec<char>>(), &columns)
}

fn columns(lines: &Lines, left: &str, from: &str, needed: &str) -> String {
    let width = 12.max(3 * lines.digits() + 6);
    format!("{left:<width$}   {from:<4}   {needed}")
}

/// The number that a reading is called by, as the picture's characters have it.
pub fn number(which: Which) -> u32 {
    match which {
        Which::First => 1,
        Which::Second => 2,
    }
}

/// What two readings have of each position of a shelf.
fn positions(
    header: Header,
    readings: [Reading; 2],
    lost: &[Lost; 2],
    stripe: u32,
) -> Vec<Position> {
    let position = |number| {
        let bytes = stripes::position(header.k, header.s, stripe, number);
        let [one, other] = [0, 1].map(|i| {
            let whole = !lost[i].shelf(stripe)[number];
            whole.then(|| &readings[i].image[bytes.clone()])
        });
        match (one, other) {
            (None, None) => Position::Lost,
            (Some(_), None) => Position::Only(Which::First),
            (None, Some(_)) => Position::Only(Which::Second),
            _ if one == other => Position::Same,
            _ => Position::Differs,
        }
    };
    (0..stripes::positions(stripe)).map(position).collect()
}

/// What follows the number of positions that a shelf needs.
fn remark(shelf: &Shelf) -> String {
    match shelf.taken() {
        Some(count) if count.shortfall > 0 => format!(": {} too few", count.shortfall),
        _ => String::new(),
    }
}

#[cfg(test)]
mod tests {
    use super::*;
    use crate::rack::Stored;
    use random::Random;
    use std::collections::BTreeSet;
    use vault_library::{Fault, Vault};

    /// A rack after some writes of a round.
    fn written(random: &mut Random) -> Result<(Header, Vec<u8>), Refusal> {
        let mut vault = Vault::open(3, 2, vec![0; sizes::raw(3, 2)])?;
        for word in 0..random.below(8) as u32 {
            vault.write(random.below(8) as u32, &[word, 1])?;
        }
        Ok((vault.header(), vault.image()?))
    }

    /// A reading that has lost some positions of each needed shelf, a byte of each in the gap list,
    /// and has other bytes there.
    fn worn(header: Header, image: &[u8], random: &mut Random) -> Stored {
        let mut image = image.to_vec();
        let mut lost = Vec::new();
        for stripe in header.stripes() {
            let all = stripes::positions(stripe);
            let count = random.index(all + 1);
            for number in random.some(all, count) {
                let bytes = stripes::position(header.k, header.s, stripe, number);
                let byte = bytes.start + random.index(bytes.len());
                lost.push(byte..byte + 1);
                image[bytes].fill_with(|| random.below(256) as u8);
            }
        }
        let gaps = erasures::list(lost);
        Stored { image, gaps }
    }

    fn recovered(header: Header, [first, second]: [Reading; 2]) -> Result<(), Fault> {
        let mut records = vec![0; sizes::raw(header.k, header.s)];
        let mut scratch = vec![0; sizes::scratch(header.k, header.s)];
        calls::recover_two(header, first, second, &mut records, &mut scratch)
    }

    /// A bit of one reading is wrong, at times where nothing is looked at.
    #[test]
    fn the_fault_of_both_put_together_is_that_of_recovery() -> Result<(), Refusal> {
        let random = &mut Random::new(1);
        let mut numbers = BTreeSet::new();
        for case in 0..1000 {
            let (header, image) = written(random)?;
            let mut both = [(); 2].map(|()| worn(header, &image, random));
            both[case % 2].image[random.index(image.len())] ^= 1 << random.below(8);
            let readings = [both[0].reading(), both[1].reading()];
            let pair = Pair::new(header, readings)?;
            let stripe = None;
            let joined = pair.joined().map_err(|refusal| Fault { refusal, stripe });
            let fault = joined.and_then(|joined| joined.origins).err();
            assert_eq!(fault, recovered(header, readings).err());
            assert_eq!(fault.is_some(), pair.origins().is_empty());
            numbers.insert(fault.map_or(0, |fault| fault.refusal.number()));
        }
        assert!(numbers.is_superset(&BTreeSet::from([0, 7, 8, 9, 13])));
        Ok(())
    }

    #[test]
    fn origins_from_both_are_those_of_the_rack_as_it_was() -> Result<(), Refusal> {
        let random = &mut Random::new(2);
        let mut mixed = 0;
        for _ in 0..1000 {
            let (header, image) = written(random)?;
            let both = [(); 2].map(|()| worn(header, &image, random));
            let readings = [both[0].reading(), both[1].reading()];
            if recovered(header, readings).is_err() {
                continue;
            }
            let pair = Pair::new(header, readings)?;
            let whole = Explanation::new(header, &image, &[])?;
            assert_eq!(Ok(pair.origins()), whole.origins);
            let of = |which| pair.shelves.iter().any(|shelf| shelf.from() == Some(which));
            mixed += u32::from(of(Which::First) && of(Which::Second));
        }
        assert!(mixed > 100);
        Ok(())
    }
}
