//! Decoding a range of columns of a stripe of eight blocks or more, in place. Words are loaded, weighed, tested and unmixed by two levels in one pass; the end
//! of unmixing, deriving and the beginning of mixing are one pass, and so are the end of mixing, the exchange of erased words and the beginning of the last
//! unmixing.
use super::lanes::*;
use super::passes::{each_four, mixed, numbers, per, unmixed, Factors, Passes, Step, Unmix};
use super::tables::{centred, factor, Tables};
use super::weights::Weights;

/// A range of columns of a stripe in an image.
#[derive(Clone, Copy)]
pub struct Range<'a> {
    pub level: usize,
    /// The stripe's bytes, and the words of its positions.
    pub stripe: &'a [u8],
    pub width: usize,
    pub from: usize,
    pub cols: usize,
    /// How many positions are erased.
    pub erased: usize,
}

/// What becomes of a range, by the numbers of the table of refusals.
pub enum Outcome {
    Decoded = 0,
    OutOfField = 8,
    Inconsistent = 9,
}

/// The steps below are of one word's four rows; with an odd number of levels the last one is by pairs.
#[inline(always)]
fn end_unmixing(odd: bool, v: [Lanes; 4]) -> [Lanes; 4] {
    if odd {
        let [a, b, c, d] = v;
        [add(a, b), sub(a, b), add(c, d), sub(c, d)]
    } else {
        unmixed(v)
    }
}

/// The factors of Y's rows at the end of unmixing, which are left to the product that follows.
fn ends(odd: bool) -> [i64; 4] {
    if odd {
        [1, 256, 1, 256]
    } else {
        [1, 256, -16, -4096]
    }
}

/// Adds `half` to what every result of these has once.
#[inline(always)]
fn with_half(odd: bool, v: [Lanes; 4]) -> [Lanes; 4] {
    let third = if odd { add(v[2], half()) } else { v[2] };
    [add(v[0], half()), v[1], third, v[3]]
}

#[inline(always)]
fn begin_mixing(odd: bool, v: [Lanes; 4]) -> [Lanes; 4] {
    if odd {
        end_unmixing(true, v)
    } else {
        mixed(v, |x, _| x)
    }
}

/// Products with numbers that are known to have a factor.
fn known(x: i64) -> i32 {
    let (factor, double) = factor(centred(x));
    debug_assert!(!double);
    factor
}

impl Range<'_> {
    fn odd(&self) -> bool {
        self.level % 2 == 1
    }

    /// The words of a position in this range.
    #[inline(always)]
    unsafe fn words(&self, position: usize) -> *const i32 {
        self.stripe
            .as_ptr()
            .add(4 * (position * self.width + self.from))
            .cast()
    }

    /// Loads a half and unmixes its two highest levels; whether no surviving word is above 65536.
    ///
    /// # Safety
    /// The part has M rows of this range.
    unsafe fn enter<const W: usize, const N: usize>(
        &self,
        part: *mut i32,
        half: usize,
        tables: &Tables,
        weights: &Weights<N>,
    ) -> bool {
        let m = 1 << self.level >> 2;
        let quads = [&tables.unmix_x, &tables.unmix_y][half];
        let factors = Factors::new::<W>(quads, m);
        let unit = per(W) * self.cols;
        let mut stray = zero();
        for i in 0..m / per(W) {
            let quarters = [0, 1, 2, 3].map(|quarter| (half << self.level) + quarter * m);
            let loads = quarters.map(|at| numbers::<W>(weights.load.as_ptr().add(at), i));
            let lost = quarters.map(|at| numbers::<W>(weights.lost.as_ptr().add(at), i));
            let from = quarters.map(|at| self.words(at + per(W) * i));
            let to = [0, 1, 2, 3].map(|quarter| part.add(quarter * m * self.cols + i * unit));
            let mut weigh = |v: [Lanes; 4]| {
                let mut out = v;
                for row in 0..4 {
                    stray = or(stray, and_not(lost[row], above(v[row], 65536)));
                    out[row] = product(v[row], loads[row]);
                }
                out
            };
            if factors.is_odd(i) {
                let three = factors.doubled::<W>(i);
                each_from::<W>(from, to, unit, |v| {
                    Unmix::apply(weigh(v), |x, kind| three.times(x, kind))
                });
            } else {
                let three = factors.three::<W>(i);
                each_from::<W>(from, to, unit, |v| {
                    Unmix::apply(weigh(v), |x, kind| three.times(x, kind))
                });
            }
        }
        !any_top(stray)
    }

    /// Whether the coefficients above those that P times the erased points' polynomial can have are zeros: S and D are equal there.
    ///
    /// # Safety
    /// X and Y have M rows of this range each.
    unsafe fn is_low(&self, x: *const i32, y: *const i32, tables: &Tables) -> bool {
        let (odd, cols) = (self.odd(), self.cols);
        let (one, ends) = (splat(known(1)), ends(odd).map(|end| splat(known(end))));
        for block in 0..1 << self.level >> 2 {
            let mut differ = [zero(); 4];
            for j in (0..cols).step_by(4) {
                let row = |at: *const i32, i: usize| match cols - j {
                    rest @ 1..4 => load_some(at.add((4 * block + i) * cols + j), rest),
                    _ => load(at.add((4 * block + i) * cols + j)),
                };
                let four = |at| end_unmixing(odd, [0, 1, 2, 3].map(|i| row(at, i)));
                let (s, d) = (four(x), four(y));
                for i in 0..4 {
                    let difference = sub(product(s[i], one), product(d[i], ends[i]));
                    differ[i] = or(differ[i], sub(zero(), settle(difference)));
                }
            }
            for (i, &differ) in differ.iter().enumerate() {
                let e = usize::from(tables.reversed[4 * block + i] >> (10 - self.level));
                if e >= self.erased && any_top(differ) {
                    return false;
                }
            }
        }
        true
    }

    /// Ends unmixing of both halves, derives, and begins mixing: the result is in X. With S and D unmixed, rev(j) * S + M / 2 * (S - D) is derived, or twice
    /// that if the number of levels is even. So all factors of D are even powers of 2 up to their signs: 32768, which has no factor, is an odd one.
    ///
    /// # Safety
    /// X and Y have M rows of this range each.
    unsafe fn turn_round<const W: usize>(&self, x: *mut i32, y: *const i32, tables: &Tables) {
        let (m, odd) = (1_i64 << self.level, self.odd());
        let scale = if odd { 1 } else { 2 };
        let of_d = ends(odd).map(|end| splat(known(-scale * m / 2 * end)));
        // The rows of a block are reversed to these quarters; factors of small numbers add up as the numbers do.
        let of_s = [0, 2, 1, 3].map(|quarter| splat(known(scale * (quarter * m / 4 + m / 2))));
        let cols = if W == 0 { self.cols } else { W };
        let mut bases = [0; 256];
        let blocks = 1 << self.level >> 2;
        for (base, &reversed) in bases[..blocks].iter_mut().zip(&tables.reversed) {
            let number = scale as i32 * i32::from(reversed >> (12 - self.level));
            *base = number | (-number << 16);
        }
        for block in (0..blocks).step_by(per(W)) {
            let base = numbers::<W>(bases.as_ptr(), block / per(W));
            let step = |s: [Lanes; 4], d: [Lanes; 4]| {
                let [s, d] = [s, d].map(|v| end_unmixing(odd, with_half(odd, v)));
                let both =
                    |i: usize| fold(add(times(s[i], add(base, of_s[i])), times(d[i], of_d[i])));
                begin_mixing(odd, with_half(odd, [both(0), both(1), both(2), both(3)]))
            };
            let at = 4 * block * cols;
            let row = |i: usize| at + if W == 2 { 4 * i } else { i * cols };
            let (s, d) = (
                [0, 1, 2, 3].map(|i| x.add(row(i))),
                [0, 1, 2, 3].map(|i| y.add(row(i))),
            );
            turn_rows::<W>(s, d, cols, step);
        }
    }

    /// Mixes the two highest levels of X, takes surviving words out of the image again, and unmixes the two levels.
    ///
    /// # Safety
    /// The part has M rows of this range.
    unsafe fn exchange<const W: usize, const N: usize>(
        &self,
        part: *mut i32,
        tables: &Tables,
        weights: &Weights<N>,
    ) {
        let m = 1 << self.level >> 2;
        let ahead = Factors::new::<W>(&tables.mix_x, m);
        let back = Factors::new::<W>(&tables.unmix_x, m);
        let unit = per(W) * self.cols;
        for i in 0..m / per(W) {
            let quarters = [0, 1, 2, 3].map(|quarter| quarter * m);
            let scale = quarters.map(|at| numbers::<W>(weights.exchange.as_ptr().add(at), i));
            let lost = quarters.map(|at| numbers::<W>(weights.lost.as_ptr().add(at), i));
            let from = quarters.map(|at| self.words(at + per(W) * i));
            let to = quarters.map(|at| part.add(at * self.cols + i * unit));
            let pick = |v: [Lanes; 4], words: [Lanes; 4]| {
                [0, 1, 2, 3].map(|row| {
                    let word = add(words[row], half());
                    fold(times(choose(lost[row], v[row], word), scale[row]))
                })
            };
            if ahead.is_odd(i) | back.is_odd(i) {
                let (up, down) = (ahead.doubled::<W>(i), back.doubled::<W>(i));
                each_with::<W>(from, to, unit, |v, words| {
                    let v = mixed(v, |x, kind| up.times(x, kind));
                    Unmix::apply(pick(v, words), |x, kind| down.times(x, kind))
                });
            } else {
                let (up, down) = (ahead.three::<W>(i), back.three::<W>(i));
                each_with::<W>(from, to, unit, |v, words| {
                    let v = mixed(v, |x, kind| up.times(x, kind));
                    Unmix::apply(pick(v, words), |x, kind| down.times(x, kind))
                });
            }
        }
    }

    fn decode_by<const W: usize, const N: usize>(
        &self,
        rows: &mut [i32],
        tables: &Tables,
        weights: &Weights<N>,
    ) -> Outcome {
        let (level, cols) = (self.level, self.cols);
        let (x, y) = rows.split_at_mut(cols << level);
        // The highest two levels go with loading and exchanging, and the lowest one or two with turning round and leaving.
        let passes = |quads| Passes {
            from: 2 - level % 2,
            to: level - 2,
            width: cols,
            quads,
        };
        // SAFETY: X and Y have M rows each.
        unsafe {
            let fine = self.enter::<W, N>(x.as_mut_ptr(), 0, tables, weights);
            if !(self.enter::<W, N>(y.as_mut_ptr(), 1, tables, weights) && fine) {
                return Outcome::OutOfField;
            }
        }
        passes(&tables.unmix_x).unmix::<W>(x, 1);
        passes(&tables.unmix_y).unmix::<W>(y, 1);
        // SAFETY: the same.
        unsafe {
            if self.erased < 1 << level && !self.is_low(x.as_ptr(), y.as_ptr(), tables) {
                return Outcome::Inconsistent;
            }
            self.turn_round::<W>(x.as_mut_ptr(), y.as_ptr(), tables);
        }
        passes(&tables.mix_x).mix::<W>(x, false);
        // SAFETY: the same.
        unsafe { self.exchange::<W, N>(x.as_mut_ptr(), tables, weights) };
        passes(&tables.unmix_x).unmix::<W>(x, 1);
        let odd = self.odd();
        each_four::<W>(x, cols, |v| end_unmixing(odd, v).map(settle));
        Outcome::Decoded
    }

    /// Decodes the range in 2M rows: the blocks are the first M of them.
    pub fn decode<const N: usize>(
        &self,
        rows: &mut [i32],
        tables: &Tables,
        weights: &Weights<N>,
    ) -> Outcome {
        assert!(
            self.level >= 3 && 2 << self.level <= N && rows.len() == self.cols << self.level << 1
        );
        assert!(
            self.stripe.len() == (8 * self.width) << self.level
                && self.from + self.cols <= self.width
        );
        match (self.cols == self.width, self.cols) {
            (true, 2) => self.decode_by::<2, N>(rows, tables, weights),
            (_, 4) => self.decode_by::<4, N>(rows, tables, weights),
            _ => self.decode_by::<0, N>(rows, tables, weights),
        }
    }
}

/// Does a step on the words of four rows and stores the result in four others.
#[inline(always)]
unsafe fn each_from<const W: usize>(
    from: [*const i32; 4],
    to: [*mut i32; 4],
    words: usize,
    mut step: impl FnMut([Lanes; 4]) -> [Lanes; 4],
) {
    let whole = if W == 0 { words / 4 * 4 } else { 4 };
    let mut j = 0;
    while j < whole {
        let out = step(from.map(|row| load(row.add(j))));
        for (row, x) in to.into_iter().zip(out) {
            store(row.add(j), x);
        }
        j += 4;
    }
    if W == 0 && j < words {
        let out = step(from.map(|row| load_some(row.add(j), words - j)));
        for (row, x) in to.into_iter().zip(out) {
            store_some(row.add(j), x, words - j);
        }
    }
}

/// Does a step on the words of four rows with four others beside them.
#[inline(always)]
unsafe fn each_with<const W: usize>(
    from: [*const i32; 4],
    to: [*mut i32; 4],
    words: usize,
    step: impl Fn([Lanes; 4], [Lanes; 4]) -> [Lanes; 4],
) {
    let whole = if W == 0 { words / 4 * 4 } else { 4 };
    let mut j = 0;
    while j < whole {
        let out = step(
            to.map(|row| load(row.add(j))),
            from.map(|row| load(row.add(j))),
        );
        for (row, x) in to.into_iter().zip(out) {
            store(row.add(j), x);
        }
        j += 4;
    }
    if W == 0 && j < words {
        let rest = words - j;
        let out = step(
            to.map(|row| load_some(row.add(j), rest)),
            from.map(|row| load_some(row.add(j), rest)),
        );
        for (row, x) in to.into_iter().zip(out) {
            store_some(row.add(j), x, rest);
        }
    }
}

/// The same for the rows of a block, or of two blocks of rows of two words.
#[inline(always)]
unsafe fn turn_rows<const W: usize>(
    x: [*mut i32; 4],
    y: [*const i32; 4],
    words: usize,
    step: impl Fn([Lanes; 4], [Lanes; 4]) -> [Lanes; 4],
) {
    each_with::<W>(y, x, words, |s, d| {
        if W == 2 {
            unpair_rows(step(pair_rows(s), pair_rows(d)))
        } else {
            step(s, d)
        }
    });
}
