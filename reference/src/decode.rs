//! Decoding of a stripe from its surviving positions: elimination over the first half of them, then a comparison with all.
use crate::field::{inverse, mul, sub, P};
use crate::refusal::Refusal;
use crate::stripe::{code, code_column, rows};

/// The blocks that code to the words of all positions that are not marked erased. `stripe` has 2^(level+1) rows of `width` words.
pub fn decode(
    k: u32,
    first: u64,
    width: usize,
    erased: &[bool],
    stripe: &[u64],
) -> Result<Vec<u64>, Refusal> {
    let size = erased.len() / 2;
    let survivors: Vec<usize> = (0..2 * size).filter(|&i| !erased[i]).collect();
    if survivors.len() < size {
        return Err(Refusal::TooFew);
    }
    let row = |i: usize| &stripe[i * width..(i + 1) * width];
    if survivors.iter().any(|&i| row(i).iter().any(|&x| x >= P)) {
        return Err(Refusal::OutOfField);
    }
    // Position i of a column is the sum over j of word j times coefficient i of the unit column j, coded.
    let units: Vec<Vec<u64>> = (0..size)
        .map(|j| code_column(k, first, &unit(size, j)))
        .collect();
    let system = survivors[..size].iter().map(|&i| {
        let coefficients = units.iter().map(|u| u[i]);
        coefficients.chain(row(i).iter().copied()).collect()
    });
    let blocks = solve(size, system.collect());
    let coded = code(k, first, width, &blocks);
    if survivors
        .iter()
        .any(|&i| coded[i * width..(i + 1) * width] != *row(i))
    {
        return Err(Refusal::Inconsistent);
    }
    Ok(blocks)
}

/// A column of 0, but for 1 at j.
fn unit(size: usize, j: usize) -> Vec<u64> {
    (0..size).map(|i| u64::from(i == j)).collect()
}

/// Gaussian elimination: the rows x with A x = b, where a row of the system is a row of A, then one of b.
fn solve(size: usize, mut system: Vec<Vec<u64>>) -> Vec<u64> {
    for j in 0..size {
        let pivot = (j..size)
            .find(|&i| system[i][j] != 0)
            .expect("half of the positions fix the blocks");
        system.swap(j, pivot);
        let scale = inverse(system[j][j]);
        for x in &mut system[j][j..] {
            *x = mul(*x, scale);
        }
        let (before, rest) = system.split_at_mut(j);
        let (own, after) = rest.split_first_mut().expect("row j");
        for other in before.iter_mut().chain(after) {
            let factor = sub(0, other[j]);
            for (x, &y) in other[j..].iter_mut().zip(&own[j..]) {
                *x = (*x + factor * y) % P;
            }
        }
    }
    let width = system[0].len() - size;
    let columns: Vec<Vec<u64>> = (0..width)
        .map(|c| system.iter().map(|r| r[size + c]).collect())
        .collect();
    rows(&columns)
}

#[cfg(test)]
mod tests {
    use super::*;
    use random::Random;

    #[test]
    fn too_few_out_of_field_inconsistent() {
        let none = [false; 2];
        assert_eq!(
            decode(2, 2, 1, &[true, true], &[3, 12288]),
            Err(Refusal::TooFew)
        );
        assert_eq!(
            decode(2, 2, 1, &none, &[65537, 12288]),
            Err(Refusal::OutOfField)
        );
        // One column fits, the other does not.
        assert_eq!(
            decode(2, 2, 2, &none, &[2, 3, 8192, 12289]),
            Err(Refusal::Inconsistent)
        );
        assert_eq!(decode(2, 2, 2, &none, &[2, 3, 8192, 12288]), Ok(vec![2, 3]));
    }

    #[test]
    fn any_half_gives_the_blocks_back() {
        let mut random = Random::new(1);
        for level in 0..=4u32 {
            for k in level.max(1)..=5 {
                let size = 1 << level;
                let first = random.below(1 << (k - level)) << level;
                let width = 1 + random.index(3);
                let blocks: Vec<u64> = (0..size * width).map(|_| random.below(P)).collect();
                let mut erased = vec![false; 2 * size];
                for i in random.some(2 * size, size) {
                    erased[i] = true;
                }
                let stripe = code(k, first, width, &blocks);
                assert_eq!(decode(k, first, width, &erased, &stripe), Ok(blocks));
            }
        }
    }
}
