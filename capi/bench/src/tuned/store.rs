//! Opening and writing: the first two levels of mixing come straight out of the records, and a level is rebuilt straight out of those below it.
use super::lanes::*;
use super::passes::{mixed, per, Factors, Passes};
use super::tables::{factor, Tables, TABLES};
use super::Header;
use core::arch::x86_64::*;
use std::slice;

/// The first one (odd k) or two levels of X and of Y, of four rows. Y's factors, with turning in them, are shifts: -256 in the first level; in the second 4096,
/// and 16 for its second row and for what has the -256 of the first. The words of Y reach 65536 * (4096 + 256 + 16 + 1), which is not folded.
#[inline(always)]
fn begin<const ODD: bool>(v: [Lanes; 4]) -> [[Lanes; 4]; 2] {
    let [a, b, c, d] = v;
    let a = add(a, half());
    if ODD {
        let c = add(c, half());
        let (p, q) = (shift::<8>(b), shift::<8>(d));
        return [
            [add(a, b), sub(a, b), add(c, d), sub(c, d)],
            [sub(a, p), add(a, p), sub(c, q), add(c, q)],
        ];
    }
    let (p, q) = (sub(a, shift::<8>(b)), add(a, shift::<8>(b)));
    let s = add(shift::<12>(c), shift::<4>(d));
    let t = add(shift::<4>(c), shift::<12>(d));
    [
        mixed([a, b, c, d], |x, _| x),
        [add(p, s), add(q, t), sub(p, s), sub(q, t)],
    ]
}

/// Where the rows of a full stripe begin, and its records. What is unsafe below asks that there are n records of s words, four of them or more, and 2n rows,
/// and that rows i and on, as many as a step takes, are below n.
#[derive(Clone, Copy)]
struct Rows {
    raw: *const i32,
    full: *mut i32,
    n: usize,
    s: usize,
}

impl Rows {
    /// Stores `count` words, or four, of the rows of X and Y from row i and column j on.
    #[inline(always)]
    unsafe fn put(self, i: usize, j: usize, out: [[Lanes; 4]; 2], count: usize) {
        let width = self.s + 1;
        for (half, rows) in out.into_iter().enumerate() {
            for (row, x) in rows.into_iter().enumerate() {
                let at = self.full.add((half * self.n + i + row) * width + j);
                if count < 4 {
                    store_some(at, x, count);
                } else {
                    store(at, x);
                }
            }
        }
    }

    /// Four rows of any width: the numbers, then the data.
    #[inline(always)]
    unsafe fn begin_any(
        self,
        i: usize,
        step: impl Fn([Lanes; 4]) -> [[Lanes; 4]; 2],
        reduce: impl Fn(Lanes) -> Lanes,
    ) {
        let numbers = [0, 1, 2, 3].map(|row| splat((i + row) as i32));
        self.put(i, 0, step(numbers), 1);
        let records = [0, 1, 2, 3].map(|row| self.raw.add((i + row) * self.s));
        let mut j = 0;
        while j + 4 <= self.s {
            let v = records.map(|record| reduce(load(record.add(j))));
            self.put(i, j + 1, step(v), 4);
            j += 4;
        }
        if j < self.s {
            let rest = self.s - j;
            let v = records.map(|record| reduce(load_some(record.add(j), rest)));
            self.put(i, j + 1, step(v), rest);
        }
    }

    /// Four rows of four words. The word before a record, which the first one lacks, gives way to its number.
    #[inline(always)]
    unsafe fn begin_three(
        self,
        i: usize,
        step: impl Fn([Lanes; 4]) -> [[Lanes; 4]; 2],
        reduce: impl Fn(Lanes) -> Lanes,
    ) {
        let data = _mm_set_epi32(-1, -1, -1, 0);
        let row = |j: usize| {
            let words = load(self.raw.add(3 * j).sub(1));
            or(and(data, words), _mm_cvtsi32_si128(j as i32))
        };
        let first = if i == 0 {
            _mm_slli_si128::<4>(load(self.raw))
        } else {
            row(i)
        };
        let v = [first, row(i + 1), row(i + 2), row(i + 3)].map(reduce);
        self.put(i, 0, step(v), 4);
    }

    /// Eight rows of two words.
    #[inline(always)]
    unsafe fn begin_one(
        self,
        i: usize,
        step: impl Fn([Lanes; 4]) -> [[Lanes; 4]; 2],
        reduce: impl Fn(Lanes) -> Lanes,
    ) {
        let numbers = add(splat(i as i32), _mm_set_epi32(3, 2, 1, 0));
        let (low, high) = (
            reduce(load(self.raw.add(i))),
            reduce(load(self.raw.add(i + 4))),
        );
        let after = add(numbers, splat(4));
        let v = [
            _mm_unpacklo_epi32(numbers, low),
            _mm_unpackhi_epi32(numbers, low),
            _mm_unpacklo_epi32(after, high),
            _mm_unpackhi_epi32(after, high),
        ];
        let out = step(pair_rows(v)).map(unpair_rows);
        for (half, vectors) in out.into_iter().enumerate() {
            for (j, x) in vectors.into_iter().enumerate() {
                store(self.full.add(2 * (half * self.n + i) + 4 * j), x);
            }
        }
    }

    /// The first passes over rows from `first` on, `count` of them.
    #[inline(always)]
    unsafe fn begin_all<const ODD: bool>(
        self,
        first: usize,
        count: usize,
        reduce: impl Fn(Lanes) -> Lanes,
    ) {
        let end = first + count;
        match self.s {
            1 if self.n >= 8 => {
                for i in (first..end).step_by(8) {
                    self.begin_one(i, begin::<ODD>, &reduce);
                }
            }
            3 => {
                for i in (first..end).step_by(4) {
                    self.begin_three(i, begin::<ODD>, &reduce);
                }
            }
            _ => {
                for i in (first..end).step_by(4) {
                    self.begin_any(i, begin::<ODD>, &reduce);
                }
            }
        }
    }

    /// The same for any k, where the records' words may be any or not.
    unsafe fn begin(self, first: usize, count: usize, any: bool) {
        match (self.n.trailing_zeros() % 2 == 1, any) {
            (true, false) => self.begin_all::<true>(first, count, |x| x),
            (true, true) => self.begin_all::<true>(first, count, fold_unsigned),
            (false, false) => self.begin_all::<false>(first, count, |x| x),
            (false, true) => self.begin_all::<false>(first, count, fold_unsigned),
        }
    }
}

/// The full stripe of two records.
fn build_two(raw: &[u32], full: &mut [u32], s: usize) {
    let word = |i: usize, j: usize| {
        if j == 0 {
            i as i64
        } else {
            i64::from(raw[i * s + j - 1])
        }
    };
    for j in 0..=s {
        let (a, b) = (word(0, j), word(1, j));
        for (row, x) in [a + b, a - b, a - 256 * b, a + 256 * b]
            .into_iter()
            .enumerate()
        {
            full[row * (s + 1) + j] = x.rem_euclid(65537) as u32;
        }
    }
}

/// Words as the lanes take them: the same bits, signed.
pub fn signed(words: &mut [u32]) -> &mut [i32] {
    // SAFETY: the two types have the same size and alignment, and any bits are a number of either.
    unsafe { slice::from_raw_parts_mut(words.as_mut_ptr().cast(), words.len()) }
}

/// Codes a full stripe of four records and more: as many rows of X and of Y as stay near are begun and mixed, then the next, and then all together.
///
/// # Safety
/// `raw` has n records of s words, and `full` 2n rows.
unsafe fn build_by<const W: usize>(rows: Rows, any: bool, tables: &Tables) {
    let k = rows.n.trailing_zeros() as usize;
    let width = rows.s + 1;
    let halves = [(0, &tables.mix_x), (rows.n * width, &tables.mix_y)];
    let halves = halves.map(|(at, quads)| {
        let (from, to) = (2 - k % 2, k);
        (
            at,
            Passes {
                from,
                to,
                width,
                quads,
            },
        )
    });
    let near = 1 << halves[0].1.far().max(2);
    for i in (0..rows.n).step_by(near) {
        rows.begin(i, near, any);
        for (at, passes) in &halves {
            let part = rows.full.add(at + i * width);
            passes.mix_near::<W>(slice::from_raw_parts_mut(part, near * width), true);
        }
    }
    for (at, passes) in &halves {
        let half = slice::from_raw_parts_mut(rows.full.add(*at), rows.n * width);
        passes.mix_far::<W>(half, true);
    }
}

/// Codes the full stripe. Where `any` is set the records' words may be any, and count modulo p.
pub fn build(header: Header, raw: &[u32], full: &mut [u32], any: bool) {
    let (k, s) = (header.k as usize, header.s as usize);
    assert!(raw.len() == s << k && full.len() == (2 * s + 2) << k);
    if k == 1 {
        return build_two(raw, full, s);
    }
    let rows = Rows {
        raw: raw.as_ptr().cast(),
        full: full.as_mut_ptr().cast(),
        n: 1 << k,
        s,
    };
    // SAFETY: the lengths are as asserted. There are four records and more: one of three words that is read with the word before it is not the first, and the
    // first is followed by others.
    unsafe {
        match s {
            1 => build_by::<2>(rows, any, &TABLES),
            3 => build_by::<4>(rows, any, &TABLES),
            _ => build_by::<0>(rows, any, &TABLES),
        }
    }
    if k == 2 {
        // The first pass was all of it, and did not settle.
        for x in signed(full) {
            *x = (*x - HALF).rem_euclid(P);
        }
    }
}

/// The halves that a level is rebuilt from and to: X's if `half` is 0, and Y's if it is 1. What is unsafe below asks that the log has all rows of this level
/// and of those below.
#[derive(Clone, Copy)]
struct Halves {
    log: *mut i32,
    half: usize,
    level: usize,
    width: usize,
}

impl Halves {
    /// Row i of this half of a level.
    #[inline(always)]
    unsafe fn row(self, level: usize, i: usize) -> *mut i32 {
        let first = (2 << level) - 2 + (self.half << level);
        self.log.add((first + i) * self.width)
    }

    /// The new block, as the last row: its number, then its data, each times the factor.
    #[inline(always)]
    unsafe fn put(self, record: u32, block: &[u32], step: impl Fn(Lanes) -> Lanes) {
        let at = self.row(self.level, (1 << self.level) - 1);
        store_some(at, step(splat(record as i32)), 1);
        let (from, to) = (block.as_ptr().cast::<i32>(), at.add(1));
        let mut j = 0;
        while j + 4 <= block.len() {
            store(to.add(j), step(load(from.add(j))));
            j += 4;
        }
        if j < block.len() {
            let rest = block.len() - j;
            store_some(to.add(j), step(load_some(from.add(j), rest)), rest);
        }
    }

    /// Mixes level 0 and the last row.
    #[inline(always)]
    unsafe fn fold_one(self, end: impl Fn(Lanes) -> Lanes) {
        let (older, low) = (self.row(0, 0), self.row(self.level, (1 << self.level) - 2));
        let high = low.add(self.width);
        let mut j = 0;
        while j < self.width {
            let rest = self.width - j;
            let get = |at: *mut i32| {
                if rest < 4 {
                    load_some(at, rest)
                } else {
                    load(at)
                }
            };
            let (a, b) = (fold_unsigned(get(older.add(j))), get(high.add(j)));
            for (to, x) in [(low, end(add(a, b))), (high, end(sub(a, b)))] {
                if rest < 4 {
                    store_some(to.add(j), x, rest);
                } else {
                    store(to.add(j), x);
                }
            }
            j += 4;
        }
    }

    /// Mixes level q with the last 2^q rows, and level q + 1 with what that gives.
    #[inline(always)]
    unsafe fn fold_two<const W: usize>(
        self,
        q: usize,
        tables: &Tables,
        end: impl Fn(Lanes) -> Lanes,
    ) {
        let m = 1 << q;
        let unit = per(W) * self.width;
        let factors = Factors::new::<W>(&tables.mix_x, m);
        let (near, older) = (self.row(q, 0), self.row(q + 1, 0));
        let to = self.row(self.level, (1 << self.level) - 4 * m);
        for i in 0..m / per(W) {
            let at = i * unit;
            let rows = [0, 1, 2, 3].map(|quarter| to.add(at + quarter * m * self.width));
            let from = [near.add(at), older.add(at), older.add(at + m * self.width)];
            if factors.is_odd(i) {
                let three = factors.doubled::<W>(i);
                fold_rows::<W>(from, rows, unit, |x, kind| three.times(x, kind), &end);
            } else {
                let three = factors.three::<W>(i);
                fold_rows::<W>(from, rows, unit, |x, kind| three.times(x, kind), &end);
            }
        }
    }
}

/// One row of two steps: `near` is the older half of the first step, the last row the newer; the other two are the older half of the second step.
#[inline(always)]
unsafe fn fold_rows<const W: usize>(
    from: [*mut i32; 3],
    rows: [*mut i32; 4],
    words: usize,
    times: impl Fn(Lanes, usize) -> Lanes,
    end: impl Fn(Lanes) -> Lanes,
) {
    let step = |near: Lanes, a: Lanes, b: Lanes, new: Lanes| {
        let [near, a, b] = [near, a, b].map(fold_unsigned);
        let (q, r) = (times(add(near, half()), 1), times(add(new, half()), 2));
        let (c, d) = (add(q, r), shift::<8>(sub(q, r)));
        [add(a, c), sub(b, d), sub(a, c), add(b, d)].map(&end)
    };
    let whole = if W == 0 { words / 4 * 4 } else { 4 };
    let mut j = 0;
    while j < whole {
        let [near, a, b] = from.map(|at| load(at.add(j)));
        let out = step(near, a, b, load(rows[3].add(j)));
        for (row, x) in rows.into_iter().zip(out) {
            store(row.add(j), x);
        }
        j += 4;
    }
    if W == 0 && j < words {
        let rest = words - j;
        let [near, a, b] = from.map(|at| load_some(at.add(j), rest));
        let out = step(near, a, b, load_some(rows[3].add(j), rest));
        for (row, x) in rows.into_iter().zip(out) {
            store_some(row.add(j), x, rest);
        }
    }
}

impl Halves {
    #[inline(always)]
    unsafe fn fold_any<const W: usize>(self, q: usize, tables: &Tables) {
        if q + 2 == self.level {
            self.fold_two::<W>(q, tables, settle);
        } else {
            self.fold_two::<W>(q, tables, |x| x);
        }
    }

    /// Mixes all levels below with the last row.
    unsafe fn fold_all<const W: usize>(self, tables: &Tables) {
        if self.level == 1 {
            return self.fold_one(settle);
        }
        if self.level % 2 == 1 {
            self.fold_one(|x| x);
        }
        for q in (self.level % 2..self.level).step_by(2) {
            if 1 << q < per(W) {
                self.fold_any::<0>(q, tables);
            } else {
                self.fold_any::<W>(q, tables);
            }
        }
    }
}

/// Rebuilds a level from those below, which become zeros, and a block.
pub fn rebuild(header: Header, log: &mut [u32], level: usize, record: u32, block: &[u32]) {
    let width = header.width();
    let tables = &*TABLES;
    let turn = usize::from(tables.reversed[header.c as usize]);
    let (turn, double) = factor(tables.powers[turn]);
    let (turn, double) = (splat(turn), splat(-i32::from(double)));
    let turned = |x: Lanes| {
        let x = times(add(x, half()), turn);
        fold(add(x, and(x, double)))
    };
    let at = signed(log).as_mut_ptr();
    for half in 0..2 {
        let halves = Halves {
            log: at,
            half,
            level,
            width,
        };
        // SAFETY: the log has all rows of all levels below k, and the level is one of them; the block has width - 1 words.
        unsafe {
            match (half, level) {
                (0, _) => halves.put(record, block, |x| x),
                (_, 0) => halves.put(record, block, |x| settle(turned(x))),
                _ => halves.put(record, block, turned),
            }
            match width {
                _ if level == 0 => {}
                2 => halves.fold_all::<2>(tables),
                4 => halves.fold_all::<4>(tables),
                _ => halves.fold_all::<0>(tables),
            }
        }
    }
    log[..((2 << level) - 2) * width].fill(0);
}
