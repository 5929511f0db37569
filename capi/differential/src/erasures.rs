//! Losses of a stripe's positions, and the erasure lists (docs/FORMAT.md) that say so; erasure lists that break each of the rules.
use random::Random;
use reference::header::Header;

/// For each level, and then for the full stripe, which positions are erased.
pub type Marks = Vec<Vec<bool>>;

#[derive(Clone, Copy, Debug, PartialEq)]
pub enum Loss {
    /// Exactly half of each filled stripe, at random.
    Half,
    /// All of X, on each filled stripe.
    AllX,
    /// Exactly half of each filled stripe, and one more of one of them.
    OneMore,
    /// All of Y.
    AllY,
    /// Half of each filled stripe, and all of the empty levels.
    HalfAndEmpty,
    /// Every other position.
    Alternate,
    /// Half of each filled stripe, one after another.
    InARow,
    /// All of X, and one position of Y, on one filled stripe.
    AllXAndOne,
    /// Any positions.
    Some,
    None,
    All,
}

impl Loss {
    pub const ALL: [Loss; 11] = [
        Loss::Half,
        Loss::AllX,
        Loss::OneMore,
        Loss::AllY,
        Loss::HalfAndEmpty,
        Loss::Alternate,
        Loss::InARow,
        Loss::AllXAndOne,
        Loss::Some,
        Loss::None,
        Loss::All,
    ];

    pub fn marks(self, random: &mut Random, header: Header) -> Marks {
        let filled: Vec<u32> = (0..=header.k).filter(|&l| header.filled(l)).collect();
        let chosen = *random.one(&filled);
        let density = random.below(5);
        (0..=header.k)
            .map(|stripe| {
                if header.filled(stripe) {
                    self.marks_of(random, stripe, stripe == chosen, density)
                } else {
                    vec![self == Loss::HalfAndEmpty || self == Loss::All; 2 << stripe]
                }
            })
            .collect()
    }

    fn marks_of(self, random: &mut Random, stripe: u32, chosen: bool, density: u64) -> Vec<bool> {
        let half = 1 << stripe;
        let all = 2 * half;
        let any = |count: usize, random: &mut Random| {
            let erased = random.some(all, count);
            let mut marks = vec![false; all];
            for i in erased {
                marks[i] = true;
            }
            marks
        };
        let extra = usize::from(chosen);
        match self {
            Loss::Half | Loss::HalfAndEmpty => any(half, random),
            Loss::OneMore => any(half + extra, random),
            Loss::AllX => (0..all).map(|i| i < half).collect(),
            Loss::AllY => (0..all).map(|i| i >= half).collect(),
            Loss::AllXAndOne => {
                let one = half + random.index(half);
                (0..all).map(|i| i < half || chosen && i == one).collect()
            }
            Loss::Alternate => {
                let odd = random.index(2);
                (0..all).map(|i| i % 2 == odd).collect()
            }
            Loss::InARow => {
                let first = random.index(half + 1);
                (0..all)
                    .map(|i| (first..first + half).contains(&i))
                    .collect()
            }
            Loss::Some => (0..all).map(|_| random.below(8) < density).collect(),
            Loss::None => vec![false; all],
            Loss::All => vec![true; all],
        }
    }
}

/// Whether at least half of each filled stripe survives.
pub fn enough(header: Header, marks: &Marks) -> bool {
    let counted = |l: u32| marks[l as usize].iter().filter(|&&erased| erased).count();
    (0..=header.k).all(|l| !header.filled(l) || counted(l) <= 1 << l)
}

/// What is left of each stripe, and how many more positions would do: zeros for empty levels.
pub fn counts(header: Header, marks: &Marks) -> Vec<u32> {
    let count = |stripe: u32| {
        if !header.filled(stripe) {
            return [0, 0];
        }
        let survive = marks[stripe as usize].iter().filter(|&&erased| !erased);
        let left = survive.count() as u32;
        [left, (1u32 << stripe).saturating_sub(left)]
    };
    (0..=header.k).flat_map(count).collect()
}

/// Each position in the order of the image: its first byte, and whether it is erased.
pub fn positions(header: Header, marks: &Marks) -> impl Iterator<Item = (usize, bool)> + '_ {
    let stripes = std::iter::once(header.k).chain(0..header.k);
    stripes.flat_map(move |stripe| {
        let start = header.stripe_start(stripe);
        let rows = marks[stripe as usize].iter().enumerate();
        rows.map(move |(i, &erased)| (4 * (start + i * header.width()), erased))
    })
}

/// Offset and end of each gap.
type Gaps = Vec<(usize, usize)>;

/// A list that touches just the erased positions: all of their bytes, or only some, or one; gaps over neighbours are joined or not.
pub fn list(random: &mut Random, header: Header, marks: &Marks) -> Vec<u8> {
    let size = 4 * header.width();
    let style = random.below(4);
    let mut gaps: Gaps = Vec::new();
    let mut joined = false;
    for (start, erased) in positions(header, marks) {
        if !erased {
            joined = false;
            continue;
        }
        let (from, to) = match style {
            0 => (0, size),
            1 => {
                let any = random.index(size);
                let at = *random.one(&[0, size - 1, any]);
                (at, at + 1)
            }
            _ => {
                let at = random.index(size);
                (at, at + 1 + random.index(size - at))
            }
        };
        let join = joined && random.below(2) == 0;
        match gaps.last_mut() {
            Some(last) if join || start + from <= last.1 => last.1 = start + to,
            _ => gaps.push((start + from, start + to)),
        }
        joined = true;
    }
    bytes(&gaps)
}

/// The bytes of pairs of offset and length.
fn pair_bytes(pairs: &[(u32, u32)]) -> Vec<u8> {
    let numbers = pairs.iter().flat_map(|&(offset, length)| [offset, length]);
    numbers.flat_map(u32::to_le_bytes).collect()
}

fn bytes(gaps: &Gaps) -> Vec<u8> {
    let pair = |&(from, to): &(usize, usize)| (from as u32, (to - from) as u32);
    pair_bytes(&gaps.iter().map(pair).collect::<Vec<_>>())
}

/// A rule that an erasure list breaks.
#[derive(Clone, Copy, Debug, PartialEq)]
pub enum Broken {
    /// Not whole pairs: so many bytes over.
    Ragged(usize),
    NoLength,
    EndsOutside,
    BeginsOutside,
    /// Offset and length whose sum in 32 bits would be inside.
    Wraps,
    Touches,
    Overlaps,
    Repeats,
    Unsorted,
}

impl Broken {
    pub const ALL: [Broken; 15] = [
        Broken::Ragged(1),
        Broken::Ragged(2),
        Broken::Ragged(3),
        Broken::Ragged(4),
        Broken::Ragged(5),
        Broken::Ragged(6),
        Broken::Ragged(7),
        Broken::NoLength,
        Broken::EndsOutside,
        Broken::BeginsOutside,
        Broken::Wraps,
        Broken::Touches,
        Broken::Overlaps,
        Broken::Repeats,
        Broken::Unsorted,
    ];

    /// A list for an image of `size` bytes that breaks this rule at one of its pairs.
    pub fn list(self, random: &mut Random, size: usize) -> Vec<u8> {
        let size = size as u32;
        let mut pairs = good_pairs(random, size);
        let at = random.index(pairs.len());
        let (offset, length) = pairs[at];
        let end = offset + length;
        match self {
            Broken::Ragged(_) => {}
            Broken::NoLength => pairs[at].1 = 0,
            Broken::EndsOutside => {
                let last = pairs.len() - 1;
                pairs[last].1 = size + 1 - pairs[last].0;
            }
            Broken::BeginsOutside => {
                let beyond = *random.one(&[0, 1, 7, u32::MAX - size]);
                pairs.push((size + beyond, 1));
            }
            Broken::Wraps => {
                let inside = random.below(u64::from(offset) + 1) as u32;
                let length = inside.wrapping_sub(offset);
                pairs[at].1 = if length == 0 { u32::MAX } else { length };
            }
            Broken::Touches => pairs.insert(at + 1, (end, 1)),
            Broken::Overlaps => pairs.insert(at + 1, (end - 1, 2)),
            Broken::Repeats => pairs.insert(at + 1, (offset, length)),
            Broken::Unsorted if pairs.len() == 1 => pairs.insert(0, (size - 1, 1)),
            Broken::Unsorted => {
                let at = at.min(pairs.len() - 2);
                pairs.swap(at, at + 1);
            }
        }
        let mut list = pair_bytes(&pairs);
        if let Broken::Ragged(over) = self {
            list.truncate(8 * random.index(pairs.len() + 1));
            list.extend((0..over).map(|i| i as u8));
        }
        list
    }
}

/// One to eight pairs that keep the rules, the last of which may end with the image.
fn good_pairs(random: &mut Random, size: u32) -> Vec<(u32, u32)> {
    let step = u64::from(size) / 12 + 1;
    let mut pairs = Vec::new();
    let mut least = random.below(2) as u32;
    for _ in 0..=random.below(8) {
        let offset = least + random.below(step) as u32;
        if offset >= size {
            break;
        }
        let length = (1 + random.below(step) as u32).min(size - offset);
        pairs.push((offset, length));
        least = offset + length + 1;
    }
    pairs
}

/// A list that keeps the rules, up to their edges, whatever positions it touches.
pub fn good(random: &mut Random, size: usize) -> Vec<u8> {
    let last = size as u32 - 1;
    match random.below(4) {
        0 => pair_bytes(&[(last, 1)]),
        1 => pair_bytes(&[(0, 1), (2, 1), (last, 1)]),
        _ => pair_bytes(&good_pairs(random, size as u32)),
    }
}
