//! Decoding stripes of one, two or four blocks: the blocks are sums of the first surviving words, by factors that are made of logarithms.
use super::decoding::Outcome;
use super::lanes::*;
use super::tables::{centred, factor, Tables};
use super::weights::power;

/// A small stripe in an image.
pub struct Small<'a> {
    pub level: usize,
    pub stripe: &'a [u8],
    pub width: usize,
    /// The entry of the turning of the first block.
    pub turned: u32,
}

/// A number as a factor, with what doubles its product.
#[derive(Clone, Copy)]
struct Number {
    factor: Lanes,
    double: Lanes,
}

impl Number {
    fn new(x: i64) -> Number {
        let (factor, double) = factor(centred(x));
        Number {
            factor: splat(factor),
            double: splat(-i32::from(double)),
        }
    }

    #[inline(always)]
    fn times(self, x: Lanes) -> Lanes {
        let x = times(add(x, half()), self.factor);
        fold(add(x, and(x, self.double)))
    }
}

impl Small<'_> {
    fn rows(&self) -> usize {
        1 << self.level
    }

    /// The exponent of a position's point as a power of u, and the logarithm of what its words are multiplied by.
    fn point(&self, position: usize) -> (usize, u32) {
        let m = self.rows();
        if position < m {
            (2 * position, 0)
        } else {
            (2 * (position - m) + 1, 32 * self.turned)
        }
    }

    /// The logarithm of u^q.
    fn log(&self, q: usize) -> u32 {
        ((q * 32768) >> self.level) as u32
    }

    /// Lagrange's polynomial that is 1 at survivor a of M, and what turns its word, in one: its coefficients.
    fn basis(&self, tables: &Tables, survivors: &[usize], a: usize) -> [i64; 4] {
        let m = self.rows();
        let (at, turned) = self.point(survivors[a]);
        let mut log = 0_u32.wrapping_sub(turned);
        let mut coefficients = [1, 0, 0, 0];
        for &other in survivors.iter().filter(|&&other| other != survivors[a]) {
            let (q, _) = self.point(other);
            let difference = u32::from(tables.logs[self.level][(at + 2 * m - q) % (2 * m)]);
            log = log.wrapping_sub(self.log(q)).wrapping_sub(difference);
            let x = i64::from(power(tables, self.log(q)));
            for e in (0..4).rev() {
                let below = if e == 0 { 0 } else { coefficients[e - 1] };
                coefficients[e] = (below - x * coefficients[e]) % i64::from(P);
            }
        }
        let scale = i64::from(power(tables, log));
        coefficients.map(|x| x * scale)
    }

    /// The word at column j of a position; four of them, or as many as there are.
    #[inline(always)]
    unsafe fn word(&self, position: usize, j: usize) -> Lanes {
        let at = self
            .stripe
            .as_ptr()
            .add(4 * (position * self.width + j))
            .cast();
        match self.width - j {
            rest @ 1..4 => load_some(at, rest),
            _ => load(at),
        }
    }

    /// Decodes to M rows.
    pub fn decode(&self, rows: &mut [i32], tables: &Tables, marks: &[u8]) -> Outcome {
        let (m, width) = (self.rows(), self.width);
        assert!(self.level <= 2 && rows.len() == m * width && self.stripe.len() == 8 * m * width);
        let mut survivors = [0; 8];
        let mut count = 0;
        for position in (0..2 * m).filter(|&position| marks[position] == 0) {
            survivors[count] = position;
            count += 1;
        }
        let (survivors, others) = survivors[..count].split_at(m);
        let mut matrix = [[Number::new(0); 4]; 4];
        for a in 0..m {
            let basis = self.basis(tables, survivors, a);
            for (j, row) in matrix[..m].iter_mut().enumerate() {
                row[a] = Number::new(basis[usize::from(tables.reversed[j] >> (10 - self.level))]);
            }
        }
        let mut stray = zero();
        for j in (0..width).step_by(4) {
            // SAFETY: the stripe has 2M positions, the rows are M, and j is a column of them.
            unsafe {
                let mut words = [zero(); 4];
                for (word, &position) in words.iter_mut().zip(survivors) {
                    *word = self.word(position, j);
                    stray = or(stray, above(*word, 65536));
                }
                for (i, row) in matrix[..m].iter().enumerate() {
                    let parts = [0, 1, 2, 3].map(|a| row[a].times(words[a]));
                    let sum = add(add(parts[0], parts[1]), add(parts[2], parts[3]));
                    let to = rows.as_mut_ptr().add(i * width + j);
                    match width - j {
                        rest @ 1..4 => store_some(to, settle(sum), rest),
                        _ => store(to, settle(sum)),
                    }
                }
            }
        }
        self.compare(rows, tables, others, any_top(stray))
    }

    /// Whether the other survivors have the words of the field that the blocks code to.
    fn compare(&self, rows: &[i32], tables: &Tables, others: &[usize], stray: bool) -> Outcome {
        let (m, width) = (self.rows(), self.width);
        let (mut stray, mut differ) = (stray, false);
        for &position in others {
            let (q, turned) = self.point(position);
            let bytes = &self.stripe[4 * position * width..4 * (position + 1) * width];
            for (j, bytes) in bytes.chunks_exact(4).enumerate() {
                let word = i64::from(u32::from_le_bytes(bytes.try_into().expect("four bytes")));
                stray |= word > 65536;
                let parts = (0..m).map(|i| {
                    let e = usize::from(tables.reversed[i] >> (10 - self.level));
                    let power = power(tables, self.log(q * e).wrapping_add(turned));
                    i64::from(rows[i * width + j]) * i64::from(power)
                });
                differ |= (parts.sum::<i64>() - word) % i64::from(P) != 0;
            }
        }
        match (stray, differ) {
            (true, _) => Outcome::OutOfField,
            (_, true) => Outcome::Inconsistent,
            _ => Outcome::Decoded,
        }
    }
}
