//! Coding of a stripe (docs/FORMAT.md; a shelf to users): X, then Y, 2^level positions each.
use crate::field::{add, mul, pow, root, sub};

/// rev(t): t with its k bits reversed.
pub fn rev(k: u32, t: u64) -> u64 {
    (0..k).map(|i| (t >> i & 1) << (k - 1 - i)).sum()
}

/// A (older) mixed with B (newer) under v: `A[i] + v^i B[i]` at i and `A[i] - v^i B[i]` at i + m.
pub fn mix(a: &[u64], b: &[u64], v: u64) -> Vec<u64> {
    let mut factor = 1;
    let mut turned = Vec::new();
    for &y in b {
        turned.push(mul(factor, y));
        factor = mul(factor, v);
    }
    let sums = a.iter().zip(&turned).map(|(&x, &y)| add(x, y));
    let differences = a.iter().zip(&turned).map(|(&x, &y)| sub(x, y));
    sums.chain(differences).collect()
}

/// Half of a stripe: the half of its older words mixed with that of its newer words, and so on down to single words.
fn half(k: u32, words: &[u64]) -> Vec<u64> {
    if words.len() == 1 {
        return words.to_vec();
    }
    let (older, newer) = words.split_at(words.len() / 2);
    let v = pow(root(k), (1 << k) / older.len() as u64);
    mix(&half(k, older), &half(k, newer), v)
}

/// One column, coded: X of the words as they are, then Y of the words times w^rev(t), where t counts up from `first` (t0).
pub fn code_column(k: u32, first: u64, words: &[u64]) -> Vec<u64> {
    let turned: Vec<u64> = (first..)
        .zip(words)
        .map(|(t, &x)| mul(x, pow(root(k), rev(k, t))))
        .collect();
    let mut coded = half(k, words);
    coded.extend(half(k, &turned));
    coded
}

/// Column j of rows of `width` words.
pub fn column(width: usize, j: usize, rows: &[u64]) -> Vec<u64> {
    rows.iter().skip(j).step_by(width).copied().collect()
}

/// The rows whose columns these are.
pub fn rows(columns: &[Vec<u64>]) -> Vec<u64> {
    (0..columns[0].len())
        .flat_map(|i| columns.iter().map(move |c| c[i]))
        .collect()
}

/// Blocks of `width` words, coded column by column.
pub fn code(k: u32, first: u64, width: usize, blocks: &[u64]) -> Vec<u64> {
    rows(
        &(0..width)
            .map(|j| code_column(k, first, &column(width, j, blocks)))
            .collect::<Vec<_>>(),
    )
}

#[cfg(test)]
mod tests {
    use super::*;

    #[test]
    fn columns_are_coded_alone() {
        // The levels of racklist's example in docs/FORMAT.md: record numbers 0, 1 and 2 written with 1, 2 and 3.
        assert_eq!(code(2, 2, 2, &[2, 3]), [2, 3, 8192, 12288]);
        assert_eq!(
            code(2, 0, 2, &[0, 1, 1, 2]),
            [1, 3, 65536, 65536, 65281, 65026, 256, 513]
        );
    }
}
