//! Mixing and unmixing, two levels in one pass over the rows. Rows of one, two or four words have code of their own (W is their width, and 0 stands for any):
//! those of one or two are taken four or two at a time, with the factors of each.
//!
//! While words are mixed each has `half` in it, which products ask for: every result has the first word once, and so has it too.
//!
//! Bounds, with words below 2^29: a product is at most 32767 * (32768 + 8192), so that it folds to -20480 .. 86015. A pass of mixing adds three of these to a
//! word, one difference of two times 256: less than 2^25. Mixing begins below 2^28.1, and has four passes after that. A pass of unmixing makes the words of its
//! first quarter four times as large, and folds them every third time; so it begins with at most 16 times a folded number, and with a difference of two of
//! these times 256 it stays below 16 * 106495 * 257, less than 2^29.
use super::lanes::*;
use super::tables::Quads;

/// How many rows are one vector, where they are narrow.
pub const fn per(w: usize) -> usize {
    match w {
        1 => 4,
        2 => 2,
        _ => 1,
    }
}

/// Words that stay in the first cache: so many are taken through several passes before the next.
const NEAR: usize = 8448;

/// The factors of the rows of unit i: one number in all lanes, or one for each row.
///
/// # Safety
/// The unit's rows have their numbers from `at` on.
#[inline(always)]
pub unsafe fn numbers<const W: usize>(at: *const i32, i: usize) -> Lanes {
    match W {
        1 => load(at.add(4 * i)),
        2 => load_twice(at.add(2 * i)),
        _ => splat(*at.add(i)),
    }
}

/// Does a step on the words of four rows, or units of rows, `words` long.
///
/// # Safety
/// The four can be read and written, and do not overlap. `words` is 4 unless W is 0.
#[inline(always)]
pub unsafe fn each<const W: usize>(
    rows: [*mut i32; 4],
    words: usize,
    step: impl Fn([Lanes; 4]) -> [Lanes; 4],
) {
    let whole = if W == 0 { words / 4 * 4 } else { 4 };
    let mut j = 0;
    while j < whole {
        let out = step(rows.map(|row| load(row.add(j))));
        for (row, x) in rows.into_iter().zip(out) {
            store(row.add(j), x);
        }
        j += 4;
    }
    if W == 0 && j < words {
        let out = step(rows.map(|row| load_some(row.add(j), words - j)));
        for (row, x) in rows.into_iter().zip(out) {
            store_some(row.add(j), x, words - j);
        }
    }
}

/// A step of two levels: four words and three factors.
pub trait Step {
    fn apply(v: [Lanes; 4], times: impl Fn(Lanes, usize) -> Lanes) -> [Lanes; 4];
}

pub struct Mix;
pub struct MixAndSettle;
pub struct Unmix;
pub struct UnmixAndFold;

#[inline(always)]
pub fn mixed(v: [Lanes; 4], times: impl Fn(Lanes, usize) -> Lanes) -> [Lanes; 4] {
    let [a, p, q, r] = [v[0], times(v[1], 0), times(v[2], 1), times(v[3], 2)];
    let (a, b) = (add(a, p), sub(a, p));
    // The square root of -1 is -256.
    let (c, d) = (add(q, r), shift::<8>(sub(q, r)));
    [add(a, c), sub(b, d), sub(a, c), add(b, d)]
}

/// Two levels of unmixing without their factors.
#[inline(always)]
pub fn unmixed(v: [Lanes; 4]) -> [Lanes; 4] {
    let (a, e) = (add(v[0], v[2]), sub(v[0], v[2]));
    let (b, f) = (add(v[1], v[3]), shift::<8>(sub(v[1], v[3])));
    [add(a, b), sub(a, b), add(e, f), sub(e, f)]
}

impl Step for Mix {
    #[inline(always)]
    fn apply(v: [Lanes; 4], times: impl Fn(Lanes, usize) -> Lanes) -> [Lanes; 4] {
        mixed(v, times)
    }
}

impl Step for MixAndSettle {
    #[inline(always)]
    fn apply(v: [Lanes; 4], times: impl Fn(Lanes, usize) -> Lanes) -> [Lanes; 4] {
        let v = [add(v[0], splat(BIAS - HALF)), v[1], v[2], v[3]];
        mixed(v, times).map(settle_biased)
    }
}

impl Step for Unmix {
    #[inline(always)]
    fn apply(v: [Lanes; 4], times: impl Fn(Lanes, usize) -> Lanes) -> [Lanes; 4] {
        let (a, e) = (add(v[0], v[2]), add(sub(v[0], v[2]), half()));
        let (b, f) = (add(v[1], v[3]), shift::<8>(sub(v[1], v[3])));
        let d = sub(add(a, half()), b);
        [
            add(a, b),
            times(d, 0),
            times(add(e, f), 1),
            times(sub(e, f), 2),
        ]
    }
}

impl Step for UnmixAndFold {
    #[inline(always)]
    fn apply(v: [Lanes; 4], times: impl Fn(Lanes, usize) -> Lanes) -> [Lanes; 4] {
        let v = Unmix::apply(v, times);
        [fold(v[0]), v[1], v[2], v[3]]
    }
}

/// The factors of one pass, with m rows in a quarter.
pub struct Factors {
    m: usize,
    factors: [*const i32; 3],
    doubled: [*const i32; 3],
    odd: [usize; 3],
}

/// The factors of a unit.
#[derive(Clone, Copy)]
pub struct Three {
    factors: [Lanes; 3],
}

/// The same where some products are doubled.
#[derive(Clone, Copy)]
pub struct Doubled {
    three: Three,
    masks: [Lanes; 3],
}

impl Factors {
    pub fn new<const W: usize>(quads: &Quads, m: usize) -> Factors {
        Factors {
            m,
            factors: quads.factors(m),
            doubled: quads.doubled(m),
            odd: quads.odd[m.trailing_zeros() as usize].map(|i| i / per(W)),
        }
    }

    /// Whether a product is doubled in unit i.
    #[inline(always)]
    pub fn is_odd(&self, i: usize) -> bool {
        (self.odd[0] == i) | (self.odd[1] == i) | (self.odd[2] == i)
    }

    /// # Safety
    /// i is below m over the rows of a unit.
    #[inline(always)]
    pub unsafe fn three<const W: usize>(&self, i: usize) -> Three {
        let factors = self.factors.map(|at| numbers::<W>(at, i));
        Three { factors }
    }

    /// # Safety
    /// The same.
    #[inline(always)]
    pub unsafe fn doubled<const W: usize>(&self, i: usize) -> Doubled {
        let masks = self.doubled.map(|at| numbers::<W>(at, i));
        let three = self.three::<W>(i);
        Doubled { three, masks }
    }
}

impl Three {
    #[inline(always)]
    pub fn times(&self, x: Lanes, kind: usize) -> Lanes {
        fold(times(x, self.factors[kind]))
    }
}

impl Doubled {
    /// The product with the factor is at most 2^14 * 2^16, so that twice that is no more than any other.
    #[inline(always)]
    pub fn times(&self, x: Lanes, kind: usize) -> Lanes {
        let x = times(x, self.three.factors[kind]);
        fold(add(x, and(x, self.masks[kind])))
    }
}

/// Part of one pass: in each block of 4m rows, the rows of some units of each quarter.
///
/// # Safety
/// The part is `blocks` such blocks, and each quarter of them has these units.
#[inline(always)]
unsafe fn pass_units<const W: usize, S: Step>(
    part: *mut i32,
    blocks: usize,
    width: usize,
    factors: &Factors,
    units: impl Iterator<Item = usize>,
) {
    let (unit, stride) = (per(W) * width, factors.m * width);
    for i in units {
        let rows = |block: usize| {
            let at = part.add(4 * block * stride + i * unit);
            [0, 1, 2, 3].map(|quarter| at.add(quarter * stride))
        };
        if factors.is_odd(i) {
            let three = factors.doubled::<W>(i);
            for block in 0..blocks {
                each::<W>(rows(block), unit, |v| {
                    S::apply(v, |x, kind| three.times(x, kind))
                });
            }
        } else {
            let three = factors.three::<W>(i);
            for block in 0..blocks {
                each::<W>(rows(block), unit, |v| {
                    S::apply(v, |x, kind| three.times(x, kind))
                });
            }
        }
    }
}

/// One pass over rows: narrow ones go by factor, and of wide ones a block comes after the other.
fn pass<const W: usize, S: Step>(part: &mut [i32], m: usize, width: usize, quads: &Quads) {
    let width = if W == 0 { width } else { W };
    let factors = Factors::new::<W>(quads, m);
    let blocks = part.len() / (4 * m * width);
    let together = if W == 0 { 1 } else { blocks };
    for block in (0..blocks).step_by(together) {
        // SAFETY: the part has as many whole blocks of 4m rows, and m is a multiple of the rows in a unit wherever passes are made.
        unsafe {
            let at = part.as_mut_ptr().add(4 * block * m * width);
            pass_units::<W, S>(at, together, width, &factors, 0..m / per(W));
        }
    }
}

/// Two passes over wide rows that are far apart, S with m and T with 4m: the sixteen rows that these take to each other are done with before the next sixteen.
fn pass_far<S: Step, T: Step>(part: &mut [i32], m: usize, width: usize, quads: &Quads, up: bool) {
    let (near, far) = (Factors::new::<0>(quads, m), Factors::new::<0>(quads, 4 * m));
    for block in part.chunks_exact_mut(16 * m * width) {
        let at = block.as_mut_ptr();
        for i in 0..m {
            let units = (i..4 * m).step_by(m);
            // SAFETY: the block is four blocks of 4m rows, and one of 16m.
            unsafe {
                if up {
                    pass_units::<0, S>(at, 4, width, &near, i..i + 1);
                    pass_units::<0, T>(at, 1, width, &far, units);
                } else {
                    pass_units::<0, T>(at, 1, width, &far, units);
                    pass_units::<0, S>(at, 4, width, &near, i..i + 1);
                }
            }
        }
    }
}

/// Passes over rows of some width, from level `from` up to below `to`, an even number of levels.
#[derive(Clone, Copy)]
pub struct Passes<'a> {
    pub from: usize,
    pub to: usize,
    pub width: usize,
    pub quads: &'a Quads,
}

impl Passes<'_> {
    /// The level from which on passes are over all rows: as many as 2^level of them stay near.
    pub fn far(&self) -> usize {
        let mut far = self.to;
        while far > self.from && self.width << far > NEAR {
            far -= 2;
        }
        far
    }

    /// Mixes levels up to below `far`, in rows that are near. The last pass settles if `settle` is set.
    pub fn mix_near<const W: usize>(&self, near: &mut [i32], settle: bool) {
        let &Passes {
            from,
            to,
            width,
            quads,
        } = self;
        for l in (from..self.far()).step_by(2) {
            if settle && l + 2 == to {
                pass::<W, MixAndSettle>(near, 1 << l, width, quads);
            } else {
                pass::<W, Mix>(near, 1 << l, width, quads);
            }
        }
    }

    /// Mixes the levels from `far` on.
    pub fn mix_far<const W: usize>(&self, part: &mut [i32], settle: bool) {
        let &Passes {
            to, width, quads, ..
        } = self;
        let mut l = self.far();
        while l < to {
            let two = W == 0 && l + 4 <= to;
            let last = settle && l + if two { 4 } else { 2 } == to;
            match (two, last) {
                (true, true) => pass_far::<Mix, MixAndSettle>(part, 1 << l, width, quads, true),
                (true, false) => pass_far::<Mix, Mix>(part, 1 << l, width, quads, true),
                (false, true) => pass::<W, MixAndSettle>(part, 1 << l, width, quads),
                (false, false) => pass::<W, Mix>(part, 1 << l, width, quads),
            }
            l += if two { 4 } else { 2 };
        }
    }

    pub fn mix<const W: usize>(&self, part: &mut [i32], settle: bool) {
        for near in part.chunks_exact_mut(self.width << self.far()) {
            self.mix_near::<W>(near, settle);
        }
        self.mix_far::<W>(part, settle);
    }

    /// Unmixes, the highest level first. `grown` passes were made since the words were last folded: each lets the first quarter grow fourfold, and the third
    /// one folds it.
    pub fn unmix<const W: usize>(&self, part: &mut [i32], grown: usize) {
        let &Passes {
            from,
            to,
            width,
            quads,
        } = self;
        let folds = |l: usize| (grown + (to - l) / 2).is_multiple_of(3);
        let mut l = to;
        while l > self.far() {
            let two = W == 0 && l >= self.far() + 4;
            l -= if two { 4 } else { 2 };
            match (two, folds(l), two && folds(l + 2)) {
                (true, true, _) => {
                    pass_far::<UnmixAndFold, Unmix>(part, 1 << l, width, quads, false)
                }
                (true, _, true) => {
                    pass_far::<Unmix, UnmixAndFold>(part, 1 << l, width, quads, false)
                }
                (true, ..) => pass_far::<Unmix, Unmix>(part, 1 << l, width, quads, false),
                (_, true, _) => pass::<W, UnmixAndFold>(part, 1 << l, width, quads),
                _ => pass::<W, Unmix>(part, 1 << l, width, quads),
            }
        }
        for near in part.chunks_exact_mut(width << l) {
            for l in (from..l).step_by(2).rev() {
                if folds(l) {
                    pass::<W, UnmixAndFold>(near, 1 << l, width, quads);
                } else {
                    pass::<W, Unmix>(near, 1 << l, width, quads);
                }
            }
        }
    }
}

/// Does a step on the rows of each block of four. Rows of two words are taken two blocks at a time, and those of one word four at a time.
pub fn each_four<const W: usize>(
    part: &mut [i32],
    width: usize,
    step: impl Fn([Lanes; 4]) -> [Lanes; 4],
) {
    let width = if W == 0 { width } else { W };
    let at = part.as_mut_ptr();
    let blocks = part.len() / (4 * width);
    let together = per(W);
    // SAFETY: the part has as many blocks of four rows.
    unsafe {
        for block in (0..blocks / together * together).step_by(together) {
            let at = at.add(4 * block * width);
            let rows = [0, 1, 2, 3].map(|i| at.add(if W == 0 { i * width } else { 4 * i }));
            each::<W>(rows, width, |v| match W {
                1 => transpose(step(transpose(v))),
                2 => unpair_rows(step(pair_rows(v))),
                _ => step(v),
            });
        }
    }
}
