//! Test cases for coding and decoding of stripes: what the program `test_stripes` reads, and what it has to print.
//!
//! Input: the count of cases, 2 bytes, then the cases. A case is kind (0 codes, 1 decodes), level, k and width, a byte each, t0 in 2 bytes;
//! for decoding a byte for each position, 1 where it is erased; then the words of all positions, 3 bytes each. Numbers have the low byte first. Where a
//! case codes, the blocks stand in the first half, and what stands in the second must not matter.
//!
//! Output: a line for each case. Coding: the stripe's words. Decoding: 0, 7 or 9 of the table of refusals, and after 0 and 9 what is left in the
//! stripe's place: the blocks and then zeros, or only zeros.
use crate::decode::decode;
use crate::field::P;
use crate::refusal::Refusal;
use crate::stripe::code;
use random::Random;

/// The shape of a stripe.
#[derive(Clone, Copy)]
struct Shape {
    level: u32,
    k: u32,
    first: u64,
    width: usize,
}

impl Shape {
    fn size(self) -> usize {
        1 << self.level
    }

    fn code(self, blocks: &[u64]) -> Vec<u64> {
        code(self.k, self.first, self.width, blocks)
    }
}

/// With marks a case decodes, without it codes.
struct Case {
    shape: Shape,
    erased: Option<Vec<bool>>,
    words: Vec<u64>,
}

impl Case {
    fn input(&self) -> Vec<u8> {
        let shape = self.shape;
        let mut bytes = vec![
            u8::from(self.erased.is_some()),
            shape.level as u8,
            shape.k as u8,
            shape.width as u8,
        ];
        bytes.extend((shape.first as u16).to_le_bytes());
        if let Some(marks) = &self.erased {
            bytes.extend(marks.iter().map(|&m| u8::from(m)));
        }
        for x in &self.words {
            bytes.extend(&x.to_le_bytes()[..3]);
        }
        bytes
    }

    fn output(&self) -> Vec<u64> {
        let shape = self.shape;
        let Some(erased) = &self.erased else {
            return shape.code(&self.words[..shape.size() * shape.width]);
        };
        let (number, mut left) =
            match decode(shape.k, shape.first, shape.width, erased, &self.words) {
                Ok(blocks) => (0, blocks),
                Err(Refusal::TooFew) => return vec![7],
                Err(fault) => (fault as u64, Vec::new()),
            };
        left.resize(self.words.len(), 0);
        left.insert(0, number);
        left
    }
}

/// Words of the field, of which many stand at its edges.
fn words(random: &mut Random, count: usize) -> Vec<u64> {
    let edges = [0, 1, 255, 256, 32768, 65535, 65536, 65536];
    let mut word = || {
        if random.below(4) == 0 {
            *random.one(&edges)
        } else {
            random.below(P)
        }
    };
    (0..count).map(|_| word()).collect()
}

fn marks(shape: Shape, erased: impl IntoIterator<Item = usize>) -> Vec<bool> {
    let mut marks = vec![false; 2 * shape.size()];
    for i in erased {
        marks[i] = true;
    }
    marks
}

/// Which positions are erased.
#[derive(Clone, Copy)]
enum Erased {
    None,
    Some,
    FewerThanHalf,
    Half,
    X,
    Y,
    TooMany,
}

fn erase(random: &mut Random, shape: Shape, which: Erased) -> Vec<bool> {
    let size = shape.size();
    let count = match which {
        Erased::None => 0,
        Erased::X => return marks(shape, 0..size),
        Erased::Y => return marks(shape, size..2 * size),
        Erased::Some => random.index(size + 1),
        Erased::FewerThanHalf => random.index(size),
        Erased::Half => size,
        Erased::TooMany => size + 1 + random.index(size),
    };
    marks(shape, random.some(2 * size, count))
}

/// What happens to a coded stripe.
#[derive(Clone, Copy)]
enum Change {
    /// Erased positions hold any words.
    Garbage,
    /// Erased positions hold zeros.
    Zeros,
    /// Besides garbage, one surviving word is altered.
    Altered,
    /// All words are any words.
    Any,
}

fn coding(random: &mut Random, shape: Shape) -> Case {
    let words = words(random, 2 * shape.size() * shape.width);
    Case {
        shape,
        erased: None,
        words,
    }
}

fn decoding(random: &mut Random, shape: Shape, which: Erased, change: Change) -> Case {
    let (size, width) = (shape.size(), shape.width);
    let erased = erase(random, shape, which);
    let mut stripe = shape.code(&words(random, size * width));
    let garbage = words(random, 2 * size * width);
    for i in 0..stripe.len() {
        match change {
            Change::Any => stripe[i] = garbage[i],
            Change::Zeros if erased[i / width] => stripe[i] = 0,
            _ if erased[i / width] => stripe[i] = garbage[i],
            _ => {}
        }
    }
    if let Change::Altered = change {
        let survivors: Vec<usize> = (0..2 * size).filter(|&i| !erased[i]).collect();
        let i = *random.one(&survivors) * width + random.index(width);
        stripe[i] = (stripe[i] + 1 + random.below(P - 1)) % P;
    }
    Case {
        shape,
        erased: Some(erased),
        words: stripe,
    }
}

const DECODINGS: [(Erased, Change); 12] = [
    (Erased::None, Change::Garbage),
    (Erased::Some, Change::Garbage),
    (Erased::Some, Change::Zeros),
    (Erased::X, Change::Garbage),
    (Erased::Y, Change::Garbage),
    (Erased::Half, Change::Zeros),
    (Erased::Half, Change::Garbage),
    (Erased::FewerThanHalf, Change::Altered),
    (Erased::None, Change::Altered),
    (Erased::Half, Change::Altered),
    (Erased::Half, Change::Any),
    (Erased::TooMany, Change::Garbage),
];

/// Examples P1 to P4 of docs/FORMAT.md.
fn worked(cases: &mut Vec<Case>) {
    let shape = |level, first| Shape {
        level,
        k: 2,
        first,
        width: 1,
    };
    let coding = |level, first, words: &[u64]| Case {
        shape: shape(level, first),
        erased: None,
        words: words.to_vec(),
    };
    cases.push(coding(1, 0, &[1, 2, 0, 0]));
    cases.push(coding(0, 2, &[3, 0]));
    cases.push(coding(2, 0, &[1, 2, 3, 4, 0, 0, 0, 0]));
    cases.push(Case {
        shape: shape(1, 0),
        erased: Some(vec![true, true, false, false]),
        words: vec![0, 0, 65026, 513],
    });
}

/// Up to four multiples of 2^level below 2^k, the least and the greatest among them.
fn firsts(random: &mut Random, level: u32, k: u32) -> Vec<u64> {
    let count = 1 << (k - level);
    let mut some = vec![0, 1, count - 1, random.below(count)];
    some.retain(|&i| i < count);
    some.sort();
    some.dedup();
    some.iter().map(|i| i << level).collect()
}

/// Stripes of every shape up to k = 5: coding, and each kind of decoding.
fn small(random: &mut Random, cases: &mut Vec<Case>) {
    let mut turn = 0;
    for level in 0..=5 {
        for k in level.max(1)..=5 {
            for first in firsts(random, level, k) {
                let shape = |width| Shape {
                    level,
                    k,
                    first,
                    width,
                };
                for width in 1..=4 {
                    cases.push(coding(random, shape(width)));
                }
                for (which, change) in DECODINGS {
                    turn += 1;
                    cases.push(decoding(random, shape(1 + turn % 4), which, change));
                }
            }
        }
    }
}

/// Stripes of a vault of 1024 records.
fn large(random: &mut Random, cases: &mut Vec<Case>) {
    let shape = |level, first, width| Shape {
        level,
        k: 10,
        first,
        width,
    };
    for level in 6..10 {
        let first = random.below(1 << (10 - level)) << level;
        let shape = shape(level, first, 1);
        cases.push(coding(random, shape));
        cases.push(decoding(random, shape, Erased::Some, Change::Garbage));
    }
    let full = shape(10, 0, 2);
    cases.push(coding(random, full));
    for i in [0, 1, 3, 6, 7] {
        let (which, change) = DECODINGS[i];
        cases.push(decoding(random, full, which, change));
    }
}

/// Halves of the positions of level 4, for decoders that multiply the differences of a position's point and the erased points. On the first these products
/// meet -1 times -1, the one product of two words that leaves 32 bits; on the second the product is -1 for a survivor, and its words are multiplied by it.
const MINUS_ONES: [[usize; 16]; 2] = [
    [2, 4, 5, 6, 8, 13, 14, 16, 17, 19, 20, 23, 25, 26, 29, 31],
    [1, 3, 6, 7, 10, 11, 12, 13, 17, 20, 23, 24, 27, 28, 29, 31],
];

/// Stripes with these positions erased, in which every other word is -1.
fn minus_ones(random: &mut Random, cases: &mut Vec<Case>) {
    let shape = Shape {
        level: 4,
        k: 4,
        first: 0,
        width: 8,
    };
    for erased in MINUS_ONES {
        let mut words = words(random, 2 * shape.size() * shape.width);
        words.iter_mut().step_by(2).for_each(|x| *x = P - 1);
        cases.push(Case {
            shape,
            erased: Some(marks(shape, erased)),
            words,
        });
    }
}

fn cases() -> Vec<Case> {
    let mut random = Random::new(2013);
    let mut cases = Vec::new();
    worked(&mut cases);
    small(&mut random, &mut cases);
    large(&mut random, &mut cases);
    minus_ones(&mut random, &mut cases);
    cases
}

/// What the program reads, and what it has to print.
pub fn stripe_cases() -> (Vec<u8>, String) {
    let cases = cases();
    let mut input = (cases.len() as u16).to_le_bytes().to_vec();
    input.extend(cases.iter().flat_map(Case::input));
    let line = |case: &Case| {
        let words: Vec<String> = case.output().iter().map(u64::to_string).collect();
        words.join(" ") + "\n"
    };
    (input, cases.iter().map(line).collect())
}

#[cfg(test)]
mod tests {
    use super::*;
    use crate::field::{mul, pow, root, sub};

    /// For each survivor of the stripe: the differences of its point and the erased points, in their order. The points are those of docs/FORMAT.md, section 4.
    fn differences(erased: [usize; 16]) -> Vec<Vec<u64>> {
        let point = |i: usize| pow(root(4), if i < 16 { 2 * i } else { 2 * i - 31 } as u64);
        let survivors = (0..32).filter(|i| !erased.contains(i));
        let of = |i| erased.map(|j| sub(point(i), point(j))).to_vec();
        survivors.map(of).collect()
    }

    #[test]
    fn products_meet_minus_one_times_minus_one() {
        let product = |d: &[u64]| d.iter().fold(1, |x, &y| mul(x, y));
        let [first, second] = MINUS_ONES.map(differences);
        let meets = |d: &Vec<u64>| (0..16).any(|i| d[i] == P - 1 && product(&d[..i]) == P - 1);
        assert!(first.iter().any(meets));
        assert!(second.iter().any(|d| product(d) == P - 1));
    }
}
