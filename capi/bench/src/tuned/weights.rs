//! The weights of a stripe's positions, as factors. The points of a stripe are powers of u, and x_i - x_j = x_j (u^(i - j) - 1): but for a factor that all
//! have, the logarithm of a position's weight is a sum over the erased positions of the logarithms of u^d - 1, a cyclic convolution of the marks with these.
//! The common factor falls away, since survivors' words are multiplied by their weights and erased ones by the inverses.
use super::lanes::*;
use super::passes::{mixed, unmixed, Passes};
use super::tables::{centred, factor, Spectra, Tables, DIRECT};
use core::arch::x86_64::*;

/// The logarithm of 2 to base 3.
const LOG_2: u32 = 55296;

/// The factors of a stripe of up to N / 2 blocks.
pub struct Weights<const N: usize> {
    /// The factor of each position's words as they are loaded, of X and then of Y: 0 for an erased one.
    pub load: [i32; N],
    /// All bits set for an erased position.
    pub lost: [i32; N],
    /// The factor of each position of X before the last unmixing: for an erased one it makes the word out of what was mixed, and all divide by M.
    pub exchange: [i32; N],
}

/// What is added to the logarithms: of surviving positions of X and of Y, and of erased ones of X, which are negated first.
struct Logs {
    x: Lanes,
    y: Lanes,
    lost: Lanes,
}

impl<const N: usize> Weights<N> {
    pub fn new() -> Weights<N> {
        Weights {
            load: [0; N],
            lost: [0; N],
            exchange: [0; N],
        }
    }

    /// The factors of a stripe of level 3 and up, whose marks are of X and then of Y; `turned` is the entry of the turning of its first block. Six words of
    /// scratch are lent for each block, or more.
    pub fn set(
        &mut self,
        tables: &Tables,
        level: usize,
        marks: &[u8],
        turned: u32,
        scratch: &mut [i32],
    ) {
        let length = 2 << level;
        let (sums, rest) = scratch.split_at_mut(length);
        let at_zero = if level <= DIRECT {
            direct(tables, level, marks, sums);
            0
        } else {
            let spectra = &tables.spectra[level - DIRECT - 1];
            convolve(tables, spectra, level, marks, sums, &mut rest[..2 * length]);
            spectra.at_zero
        };
        // An erased word is divided by M twice, and by 2 where deriving doubles.
        let twos = 2 * level as u32 + 1 - level as u32 % 2;
        // 32768 and -32768 have no factor: with some common factor none of the numbers is one of these.
        for common in 0_u32.. {
            let [x, y, lost] = [
                common,
                common.wrapping_sub(32 * turned),
                at_zero.wrapping_sub(common).wrapping_sub(twos * LOG_2),
            ]
            .map(|log| splat(log as i32));
            if self.powers(tables, level, marks, sums, &Logs { x, y, lost }) {
                return;
            }
        }
    }

    /// The factors from the sums of logarithms; whether there is one for every number.
    fn powers(
        &mut self,
        tables: &Tables,
        level: usize,
        marks: &[u8],
        sums: &[i32],
        logs: &Logs,
    ) -> bool {
        let m = 1 << level;
        assert!(level >= 2 && 2 * m <= N && marks.len() == 2 * m && sums.len() == 2 * m);
        let (inverse, _) = factor(centred(-(65536 >> level)));
        let inverse = splat(inverse);
        let mut none = zero();
        for i in (0..m).step_by(4) {
            // SAFETY: i + 4 is at most M, and the lengths are as asserted.
            unsafe {
                let sums = sums.as_ptr().add(2 * i);
                let [x, y] = unzip(load(sums), load(sums.add(4)));
                let lost_x = mask(marks.as_ptr().add(i));
                let lost_y = mask(marks.as_ptr().add(m + i));
                let log = choose(lost_x, sub(logs.lost, x), add(logs.x, x));
                let (g, without) = powers(tables, log);
                none = or(none, without);
                store(self.lost.as_mut_ptr().add(i), lost_x);
                store(self.load.as_mut_ptr().add(i), and_not(lost_x, g));
                store(
                    self.exchange.as_mut_ptr().add(i),
                    choose(lost_x, g, inverse),
                );
                let (g, without) = powers(tables, add(logs.y, y));
                none = or(none, and_not(lost_y, without));
                store(self.lost.as_mut_ptr().add(m + i), lost_y);
                store(self.load.as_mut_ptr().add(m + i), and_not(lost_y, g));
            }
        }
        !any_top(none)
    }
}

/// All bits set for each of four marks that is.
///
/// # Safety
/// Four marks can be read.
#[inline(always)]
unsafe fn mask(marks: *const u8) -> Lanes {
    let four = _mm_cvtsi32_si128(marks.cast::<i32>().read_unaligned());
    let four = _mm_unpacklo_epi16(_mm_unpacklo_epi8(four, zero()), zero());
    sub(zero(), four)
}

/// The factors of 3 to four logarithms, with all bits set where there is none.
#[inline(always)]
fn powers(tables: &Tables, logs: Lanes) -> (Lanes, Lanes) {
    let logs = words_of(logs).map(|log| log as usize);
    let high = lanes_of(logs.map(|log| tables.powers[log >> 5 & 2047]));
    let low = lanes_of(logs.map(|log| tables.small[log & 31]));
    let x = product(high, low);
    let x = sub(x, and(greater(x, splat(HALF)), splat(P)));
    let low = and(x, splat(0xffff));
    (or(low, shift::<16>(sub(zero(), x))), equal(low, half()))
}

/// 3^log, from -32768 to 32768.
pub fn power(tables: &Tables, log: u32) -> i32 {
    let high = i64::from(tables.powers[(log >> 5 & 2047) as usize]);
    // The low half of a factor is its number.
    let low = tables.small[(log & 31) as usize] as i16;
    centred(high * i64::from(low))
}

/// The sums for V vectors of eight positions from `first` on: each is below 65536, where logarithms wrap.
#[inline(always)]
fn direct_part<const V: usize>(logs: &[u16], first: usize, lost: &[usize], sums: &mut [i32]) {
    assert!(first + 8 * V <= sums.len() && logs.len() >= 2 * sums.len());
    // SAFETY: the lost positions are below 2M, and there are 4M logarithms; 2M sums.
    unsafe {
        let at = logs.as_ptr().add(sums.len() + first);
        let mut totals = [_mm_setzero_si128(); V];
        for &q in lost {
            for (v, total) in totals.iter_mut().enumerate() {
                *total = _mm_add_epi16(*total, _mm_loadu_si128(at.sub(q).add(8 * v).cast()));
            }
        }
        for (v, total) in totals.into_iter().enumerate() {
            let to = sums.as_mut_ptr().add(first + 8 * v);
            store(to, _mm_unpacklo_epi16(total, zero()));
            store(to.add(4), _mm_unpackhi_epi16(total, zero()));
        }
    }
}

/// The sums of small stripes, position by position.
fn direct(tables: &Tables, level: usize, marks: &[u8], sums: &mut [i32]) {
    let (m, logs) = (1 << level, &tables.logs[level]);
    let mut lost = [0; 2 << DIRECT];
    let mut count = 0;
    for i in 0..m {
        lost[count] = 2 * i;
        count += usize::from(marks[i]);
        lost[count] = 2 * i + 1;
        count += usize::from(marks[m + i]);
    }
    let lost = &lost[..count];
    match level {
        3 => direct_part::<2>(logs, 0, lost, sums),
        4 => direct_part::<4>(logs, 0, lost, sums),
        _ => {
            for first in (0..2 * m).step_by(64) {
                direct_part::<8>(logs, first, lost, sums);
            }
        }
    }
}

/// Unmixes the highest level of a column of marks alone, where the number of levels is odd.
fn unmix_top(column: &mut [i32], inverse: &[i32]) {
    let (low, high) = column.split_at_mut(inverse.len());
    for ((a, b), &t) in low.iter_mut().zip(high).zip(inverse) {
        let (x, y) = (*a, *b);
        *a = x + y;
        *b = (t & -x) - (t & -y);
    }
}

/// The sums of large stripes, through transforms of a column of the scratch, and for each digit of another.
fn convolve(
    tables: &Tables,
    spectra: &Spectra,
    level: usize,
    marks: &[u8],
    sums: &mut [i32],
    scratch: &mut [i32],
) {
    let length = 2 << level;
    let (column, digit) = scratch.split_at_mut(length);
    let (x, y) = marks.split_at(length / 2);
    for (pair, (&x, &y)) in column.chunks_exact_mut(2).zip(x.iter().zip(y)) {
        pair[0] = i32::from(x);
        pair[1] = i32::from(y);
    }
    let odd = level.is_multiple_of(2);
    if odd {
        unmix_top(column, &spectra.top_inverse);
    }
    let levels = level + usize::from(!odd);
    let passes = |quads| Passes {
        from: 2,
        to: levels,
        width: 1,
        quads,
    };
    passes(&tables.unmix_x).unmix::<1>(column, 0);
    sums.fill(0);
    for (low, factors) in &spectra.digits {
        multiply(column, factors, digit);
        passes(&tables.mix_x).mix::<1>(digit, !odd);
        if odd {
            join_top(digit, *low, spectra, sums);
        } else {
            for (sum, x) in sums.iter_mut().zip(digit.iter()) {
                *sum += x << low;
            }
        }
    }
}

/// Ends unmixing, multiplies by the factors of a digit, and begins its mixing.
fn multiply(column: &[i32], factors: &[i32], digit: &mut [i32]) {
    let length = column.len();
    assert!(length.is_multiple_of(16) && factors.len() == length && digit.len() == length);
    for at in (0..length).step_by(16) {
        // SAFETY: all have sixteen words from there on.
        unsafe {
            let four = |from: &[i32]| [0, 4, 8, 12].map(|j| load(from.as_ptr().add(at + j)));
            let [a, b, c, d] = transpose(four(column));
            let v = unmixed([add(a, half()), b, c, d]);
            let g = four(factors);
            let [a, b, c, d] = [0, 1, 2, 3].map(|i| fold(times(v[i], g[i])));
            let out = transpose(mixed([add(a, half()), b, c, d], |x, _| x));
            for (j, x) in out.into_iter().enumerate() {
                store(digit.as_mut_ptr().add(at + 4 * j), x);
            }
        }
    }
}

/// Mixes the highest level of a digit, and adds the digit to the sums.
fn join_top(digit: &[i32], below: u32, spectra: &Spectra, sums: &mut [i32]) {
    let m = spectra.top.len();
    assert!(
        m.is_multiple_of(4)
            && spectra.top_doubled.len() == m
            && digit.len() == 2 * m
            && sums.len() == 2 * m
    );
    for i in (0..m).step_by(4) {
        // SAFETY: m factors, and 2m words of the digit and of the sums, are there.
        unsafe {
            let (low, high) = (digit.as_ptr().add(i), digit.as_ptr().add(m + i));
            let b = times(load(high), load(spectra.top.as_ptr().add(i)));
            let b = fold(add(b, and(b, load(spectra.top_doubled.as_ptr().add(i)))));
            let a = add(load(low), splat(BIAS - HALF));
            for (at, x) in [(i, add(a, b)), (m + i, sub(a, b))] {
                let to = sums.as_mut_ptr().add(at);
                store(to, add(load(to), shift_by(settle_biased(x), below)));
            }
        }
    }
}
