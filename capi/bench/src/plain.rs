//! The library's algorithm in plain Rust, for a comparison: the same steps on the same buffers as the crates named below, on slices and iterators, with
//! nothing proved.

const P: u32 = 65537;

#[derive(Clone, Copy)]
pub struct Header {
    pub k: u32,
    pub s: u32,
    pub c: u32,
}

// Arithmetic modulo p (crates/field).

fn add(x: u32, y: u32) -> u32 {
    let s = x + y;
    if s < P {
        s
    } else {
        s - P
    }
}

fn sub(x: u32, y: u32) -> u32 {
    if y <= x {
        x - y
    } else {
        x + (P - y)
    }
}

/// 65536 is -1, so a product is reduced by a difference of its halves.
fn mul(x: u32, y: u32) -> u32 {
    let t = u64::from(x) * u64::from(y);
    let lo = (t % 65536) as u32;
    let hi = (t / 65536) as u32;
    if hi <= lo {
        lo - hi
    } else {
        lo + (P - hi)
    }
}

fn power(x: u32, e: u32) -> u32 {
    let (mut acc, mut base, mut rest) = (1, x, e);
    while rest != 0 {
        if rest % 2 == 1 {
            acc = mul(acc, base);
        }
        base = mul(base, base);
        rest /= 2;
    }
    acc
}

fn inverse(x: u32) -> u32 {
    power(x, P - 2)
}

fn root(k: usize) -> u32 {
    power(3, 32768 >> k)
}

/// The k lowest bits of t, reversed.
fn reversed(k: usize, t: usize) -> u32 {
    let (mut r, mut rest) = (0, t);
    for _ in 0..k {
        r = r * 2 + (rest % 2) as u32;
        rest /= 2;
    }
    r
}

// Mixing and its inverse (crates/mixing, crates/transform).

/// Does a step on each row of the older half and the row of the newer half that stands beside it, with the powers of v.
fn each_pair(part: &mut [u32], width: usize, v: u32, step: impl Fn(&mut [u32], &mut [u32], u32)) {
    let (older, newer) = part.split_at_mut(part.len() / 2);
    let rows = older.chunks_exact_mut(width);
    let mut g = 1;
    for (low, high) in rows.zip(newer.chunks_exact_mut(width)) {
        step(low, high, g);
        g = mul(g, v);
    }
}

fn mix_row(low: &mut [u32], high: &mut [u32], g: u32) {
    for (x, y) in low.iter_mut().zip(high) {
        let a = *x;
        let t = mul(g, *y);
        *x = add(a, t);
        *y = sub(a, t);
    }
}

fn mix(part: &mut [u32], width: usize, v: u32) {
    each_pair(part, width, v, mix_row);
}

fn mix_all(half: &mut [u32], level: usize, k: usize, width: usize, root: u32) {
    for l in 0..level {
        let v = power(root, 1 << (k - l));
        for block in half.chunks_exact_mut((2 << l) * width) {
            mix(block, width, v);
        }
    }
}

fn unmix_row(low: &mut [u32], high: &mut [u32], g: u32) {
    for (x, y) in low.iter_mut().zip(high) {
        let (a, b) = (*x, *y);
        *x = add(a, b);
        *y = mul(g, sub(a, b));
    }
}

fn unmix(part: &mut [u32], width: usize, v: u32) {
    each_pair(part, width, v, unmix_row);
}

fn unmix_all(half: &mut [u32], level: usize, k: usize, width: usize, root: u32) {
    for l in (0..level).rev() {
        let v = power(root, 1 << (k - l));
        for block in half.chunks_exact_mut((2 << l) * width) {
            unmix(block, width, v);
        }
    }
}

// Coding a stripe (crates/encoder).

fn scale_row(row: &mut [u32], g: u32) {
    for x in row {
        *x = mul(g, *x);
    }
}

fn turn(part: &mut [u32], first: usize, k: usize, width: usize, root: u32) {
    for (j, row) in part.chunks_exact_mut(width).enumerate() {
        scale_row(row, power(root, reversed(k, first + j)));
    }
}

fn code(stripe: &mut [u32], level: usize, k: usize, first: usize, width: usize, root: u32) {
    let (x, y) = stripe.split_at_mut(width << level);
    y.copy_from_slice(x);
    mix_all(x, level, k, width, root);
    turn(y, first, k, width, root);
    mix_all(y, level, k, width, root);
}

// The weights of a stripe's positions (crates/weights).

fn points(part: &mut [u32], level: usize, k: usize, root: u32) {
    let u = power(root, 1 << (k - level));
    let v = mul(u, u);
    let (xs, ys) = part.split_at_mut(1 << level);
    let mut point = 1;
    for (x, y) in xs.iter_mut().zip(ys) {
        *x = point;
        *y = mul(u, point);
        point = mul(v, point);
    }
}

fn weigh_by(points: &[u32], weights: &mut [u32], j: usize) {
    let x = points[j];
    let kept = weights[j];
    for (w, &point) in weights.iter_mut().zip(points) {
        *w = mul(*w, sub(point, x));
    }
    weights[j] = kept;
}

/// The part's first half becomes the points, and its second half the weights.
fn weights(part: &mut [u32], marks: &[bool], level: usize, k: usize, root: u32) {
    let (at, weights) = part.split_at_mut(2 << level);
    points(at, level, k, root);
    weights.fill(1);
    for (j, _) in marks.iter().enumerate().filter(|(_, &erased)| erased) {
        weigh_by(at, weights, j);
    }
}

// Decoding (crates/decoder).

fn weigh(rows: &mut [u32], weights: &[u32], marks: &[bool], width: usize) {
    let factors = weights.iter().zip(marks);
    for (row, (&w, &erased)) in rows.chunks_exact_mut(width).zip(factors) {
        scale_row(row, if erased { 0 } else { w });
    }
}

fn split(rows: &mut [u32], level: usize, k: usize, first: usize, width: usize, back: u32) {
    let (x, y) = rows.split_at_mut(width << level);
    unmix_all(x, level, k, width, back);
    unmix_all(y, level, k, width, back);
    turn(y, first, k, width, back);
}

fn is_low(rows: &[u32], level: usize, width: usize, erased: usize) -> bool {
    let (x, y) = rows.split_at(width << level);
    let pairs = x.chunks_exact(width).zip(y.chunks_exact(width));
    pairs
        .enumerate()
        .all(|(j, (low, high))| (reversed(level, j) as usize) < erased || low == high)
}

fn derive_row(low: &[u32], high: &mut [u32], a: u32, b: u32) {
    for (&x, y) in low.iter().zip(high) {
        *y = sub(mul(a, x), mul(b, *y));
    }
}

fn derive(rows: &mut [u32], level: usize, width: usize) {
    let (x, y) = rows.split_at_mut(width << level);
    let b = mul(32769, 1 << level);
    let pairs = x.chunks_exact(width).zip(y.chunks_exact_mut(width));
    for (j, (low, high)) in pairs.enumerate() {
        derive_row(low, high, add(reversed(level, j), b), b);
    }
}

fn evaluate(rows: &mut [u32], level: usize, k: usize, width: usize, root: u32) {
    let (x, y) = rows.split_at_mut(width << level);
    mix_all(x, level, k, width, root);
    mix_all(y, level, k, width, root);
}

fn choose_row(to: &mut [u32], from: &[u32], g: u32) {
    for (x, &y) in to.iter_mut().zip(from) {
        *x = mul(g, y);
    }
}

fn choose(
    rows: &mut [u32],
    weights: &[u32],
    marks: &[bool],
    level: usize,
    k: usize,
    width: usize,
    root: u32,
) {
    let (x, y) = rows.split_at_mut(width << level);
    let square = mul(1 << level, 1 << level);
    let u = power(root, 1 << (k - level));
    let pairs = x.chunks_exact_mut(width).zip(y.chunks_exact(width));
    for (i, (own, other)) in pairs.enumerate() {
        if marks[i] {
            let d = mul(power(u, 2 * i as u32), weights[i]);
            choose_row(own, other, inverse(mul(square, d)));
        } else {
            scale_row(own, inverse(mul(square, weights[i])));
        }
    }
}

/// Decodes rows in place: whether some blocks code to all surviving words, which then stand in the first half.
fn decode_rows(
    rows: &mut [u32],
    weights: &[u32],
    marks: &[bool],
    stripe: &Stripe,
    width: usize,
) -> bool {
    let &Stripe {
        level, k, first, ..
    } = stripe;
    let root = root(k);
    let back = inverse(root);
    weigh(rows, weights, marks, width);
    split(rows, level, k, first, width, back);
    if !is_low(rows, level, width, count(marks)) {
        rows.fill(0);
        return false;
    }
    derive(rows, level, width);
    evaluate(rows, level, k, width, root);
    choose(rows, weights, marks, level, k, width, root);
    let (x, y) = rows.split_at_mut(width << level);
    unmix_all(x, level, k, width, back);
    y.fill(0);
    true
}

fn count(marks: &[bool]) -> usize {
    marks.iter().filter(|&&erased| erased).count()
}

// Opening and writing (crates/store: opening, writing).

impl Header {
    fn fits(self) -> bool {
        (1..=10).contains(&self.k) && (1..=128).contains(&self.s) && self.c < 1 << self.k
    }

    fn n(self) -> usize {
        1 << self.k
    }

    fn width(self) -> usize {
        self.s as usize + 1
    }

    fn raw_len(self) -> usize {
        self.n() * self.s as usize
    }

    fn full_len(self) -> usize {
        2 * self.n() * self.width()
    }

    fn log_len(self) -> usize {
        (2 * self.n() - 2) * self.width()
    }
}

fn lengths_fit(header: Header, raw: &[u32], full: &[u32], log: &[u32]) -> bool {
    raw.len() == header.raw_len()
        && full.len() == header.full_len()
        && log.len() == header.log_len()
}

fn all_data(words: &[u32]) -> bool {
    words.iter().all(|&x| x <= 65535)
}

fn build(header: Header, raw: &[u32], full: &mut [u32]) {
    let records = raw.chunks_exact(header.s as usize);
    let rows = full.chunks_exact_mut(header.width());
    for (i, (row, record)) in rows.zip(records).enumerate() {
        row[0] = i as u32;
        for (to, &x) in row[1..].iter_mut().zip(record) {
            *to = x % P;
        }
    }
    let k = header.k as usize;
    code(full, k, k, 0, header.width(), root(k));
}

pub fn open(k: u32, s: u32, raw: &[u32], full: &mut [u32], log: &mut [u32]) -> u32 {
    let header = Header { k, s, c: 0 };
    if !header.fits() {
        return 1;
    }
    if !lengths_fit(header, raw, full, log) {
        return 2;
    }
    if !all_data(raw) {
        return 5;
    }
    build(header, raw, full);
    log.fill(0);
    0
}

/// Copies one half of all levels below to that half of the level, the oldest first, and puts the block's row times g after them.
fn gather(log: &mut [u32], level: usize, half: usize, width: usize, row: (u32, &[u32]), g: u32) {
    let start = |level: usize| ((2 << level) - 2) * width + half * (width << level);
    let (lower, upper) = log.split_at_mut(((2 << level) - 2) * width);
    let (rows, last) = upper[half * (width << level)..].split_at_mut((1 << level) * width - width);
    let mut at = 0;
    for l in (0..level).rev() {
        let size = width << l;
        let from = &lower[start(l)..start(l) + size];
        for (to, &x) in rows[at..at + size].iter_mut().zip(from) {
            *to = x % P;
        }
        at += size;
    }
    last[0] = mul(g, row.0);
    for (to, &x) in last[1..width].iter_mut().zip(row.1) {
        *to = mul(g, x);
    }
}

fn fold(half: &mut [u32], level: usize, k: usize, width: usize, root: u32) {
    let end = half.len();
    for l in 0..level {
        let v = power(root, 1 << (k - l));
        mix(&mut half[end - (2 << l) * width..], width, v);
    }
}

fn rebuild(header: Header, log: &mut [u32], level: usize, record: u32, block: &[u32]) {
    let k = header.k as usize;
    let width = header.width();
    let root = root(k);
    let turn = power(root, reversed(k, header.c as usize));
    gather(log, level, 0, width, (record, block), 1);
    gather(log, level, 1, width, (record, block), turn);
    let start = ((2 << level) - 2) * width;
    let (x, y) = log[start..start + (2 << level) * width].split_at_mut(width << level);
    fold(x, level, k, width, root);
    fold(y, level, k, width, root);
    log[..start].fill(0);
}

/// The number, and c afterwards.
pub fn write(
    header: Header,
    raw: &mut [u32],
    full: &mut [u32],
    log: &mut [u32],
    record: u32,
    block: &[u32],
) -> (u32, u32) {
    let s = header.s as usize;
    let c = header.c;
    if !header.fits() {
        return (1, c);
    }
    if !lengths_fit(header, raw, full, log) || block.len() != s {
        return (2, c);
    }
    let i = record as usize;
    if i >= header.n() {
        return (4, c);
    }
    if !all_data(block) {
        return (5, c);
    }
    raw[i * s..(i + 1) * s].copy_from_slice(block);
    if c as usize + 1 == header.n() {
        build(header, raw, full);
        log.fill(0);
        return (0, 0);
    }
    rebuild(header, log, c.trailing_ones() as usize, record, block);
    (0, c + 1)
}

// Recovery (crates/image: erasures, loading; crates/judging, crates/range_decoding, crates/recovery).

/// A stripe of an image: its level (k for the full stripe), the number of its first write, its first byte.
struct Stripe {
    level: usize,
    k: usize,
    first: usize,
    at: usize,
}

fn number_at(bytes: &[u8], at: usize) -> u32 {
    u32::from_le_bytes(bytes[at..at + 4].try_into().expect("four bytes"))
}

fn erasures_fit(erasures: &[u8], size: usize) -> bool {
    if !erasures.len().is_multiple_of(8) {
        return false;
    }
    let mut least = 0;
    for pair in erasures.chunks_exact(8) {
        let offset = number_at(pair, 0) as usize;
        let end = offset + number_at(pair, 4) as usize;
        if offset < least || end <= offset || size < end {
            return false;
        }
        least = end + 1;
    }
    true
}

/// Marks the positions, of `step` bytes each, from byte `base` on, that a gap touches.
fn mark(marks: &mut [bool], erasures: &[u8], base: usize, step: usize) {
    let last = base + marks.len() * step;
    for pair in erasures.chunks_exact(8) {
        let offset = number_at(pair, 0) as usize;
        let end = offset + number_at(pair, 4) as usize;
        if end <= base || last <= offset {
            continue;
        }
        let low = offset.saturating_sub(base) / step;
        let high = if end < last {
            (end - base - 1) / step + 1
        } else {
            marks.len()
        };
        marks[low..high].fill(true);
    }
}

fn in_field(stripe: &[u8], marks: &[bool], width: usize) -> bool {
    stripe
        .chunks_exact(4 * width)
        .zip(marks)
        .all(|(row, &erased)| {
            let mut fine = true;
            if !erased {
                for word in row.chunks_exact(4) {
                    fine &= number_at(word, 0) < P;
                }
            }
            fine
        })
}

/// Loads some columns of a stripe's rows; zeros for a marked row.
fn load(part: &mut [u32], stripe: &[u8], marks: &[bool], width: usize, from: usize, cols: usize) {
    let rows = stripe.chunks_exact(4 * width).zip(marks);
    for (to, (row, &erased)) in part.chunks_exact_mut(cols).zip(rows) {
        if erased {
            to.fill(0);
        } else {
            let words = row[4 * from..4 * (from + cols)].chunks_exact(4);
            for (x, word) in to.iter_mut().zip(words) {
                *x = number_at(word, 0);
            }
        }
    }
}

fn stripe_of(header: Header, level: usize) -> Stripe {
    let k = header.k as usize;
    let (first, at) = if level == k {
        (0, 0)
    } else {
        let size = 2 << level;
        (
            header.c as usize / size * size,
            header.full_len() + (size - 2) * header.width(),
        )
    };
    Stripe {
        level,
        k,
        first,
        at: 4 * at,
    }
}

impl Stripe {
    fn bytes<'a>(&self, image: &'a [u8], width: usize) -> &'a [u8] {
        &image[self.at..self.at + 4 * (2 << self.level) * width]
    }

    /// Marks the erased positions and tests 7 and 8; where neither applies, the weights are the last words of the scratch.
    fn prepare(
        &self,
        header: Header,
        image: &[u8],
        erasures: &[u8],
        marks: &mut [bool],
        scratch: &mut [u32],
    ) -> u32 {
        let width = header.width();
        mark(marks, erasures, self.at, 4 * width);
        if count(marks) > 1 << self.level {
            return 7;
        }
        if !in_field(self.bytes(image, width), marks, width) {
            return 8;
        }
        let start = scratch.len() - (4 << self.level);
        weights(
            &mut scratch[start..],
            marks,
            self.level,
            self.k,
            root(self.k),
        );
        0
    }

    /// Decodes a range of columns in the scratch: the blocks' rows, where there are some.
    fn decode_range<'a>(
        &self,
        stripe: &[u8],
        marks: &[bool],
        width: usize,
        columns: (usize, usize),
        scratch: &'a mut [u32],
    ) -> Option<&'a [u32]> {
        let (from, cols) = columns;
        let start = scratch.len() - (2 << self.level) * (cols + 1);
        let (rows, weights) = scratch[start..].split_at_mut((2 << self.level) * cols);
        load(rows, stripe, marks, width, from, cols);
        if !decode_rows(rows, weights, marks, self, cols) {
            return None;
        }
        Some(&rows[..cols << self.level])
    }
}

/// Decodes the full stripe, a range of columns after the other, to the output.
fn recover_full(
    header: Header,
    image: &[u8],
    erasures: &[u8],
    out: &mut [u32],
    scratch: &mut [u32],
) -> u32 {
    let mut marks = [false; 2048];
    let marks = &mut marks[..2 * header.n()];
    let stripe = stripe_of(header, header.k as usize);
    let number = stripe.prepare(header, image, erasures, marks, scratch);
    if number != 0 {
        return number;
    }
    let (s, width) = (header.s as usize, header.width());
    let bytes = stripe.bytes(image, width);
    let mut number = 0;
    let mut from = 0;
    while from < width {
        let cols = (width - from).min((s + 3) / 2);
        let range = stripe.decode_range(bytes, marks, width, (from, cols), scratch);
        let Some(rows) = range else {
            return 9;
        };
        let skip = usize::from(from == 0);
        let pairs = out.chunks_exact_mut(s).zip(rows.chunks_exact(cols));
        for (i, (record, row)) in pairs.enumerate() {
            if skip == 1 && row[0] as usize != i {
                number = 10;
            }
            record[from + skip - 1..from + cols - 1].copy_from_slice(&row[skip..]);
        }
        from += cols;
    }
    if !all_data(out) {
        return 10;
    }
    number
}

/// Decodes a level and lays its records over the output.
fn recover_level(
    header: Header,
    image: &[u8],
    erasures: &[u8],
    level: usize,
    out: &mut [u32],
    scratch: &mut [u32],
) -> u32 {
    let mut marks = [false; 2048];
    let marks = &mut marks[..2 << level];
    let stripe = stripe_of(header, level);
    let number = stripe.prepare(header, image, erasures, marks, scratch);
    if number != 0 {
        return number;
    }
    let (s, width) = (header.s as usize, header.width());
    let bytes = stripe.bytes(image, width);
    let range = stripe.decode_range(bytes, marks, width, (0, width), scratch);
    let Some(rows) = range else {
        return 9;
    };
    let fits = |row: &[u32]| (row[0] as usize) < header.n() && all_data(&row[1..]);
    if !rows.chunks_exact(width).all(fits) {
        return 10;
    }
    for row in rows.chunks_exact(width) {
        let at = row[0] as usize * s;
        out[at..at + s].copy_from_slice(&row[1..]);
    }
    0
}

fn recover_stripes(
    header: Header,
    image: &[u8],
    erasures: &[u8],
    out: &mut [u32],
    scratch: &mut [u32],
) -> (u32, Option<u32>) {
    let number = recover_full(header, image, erasures, out, scratch);
    if number != 0 {
        return (number, Some(header.k));
    }
    for level in (0..header.k).rev().filter(|l| header.c >> l & 1 == 1) {
        let number = recover_level(header, image, erasures, level as usize, out, scratch);
        if number != 0 {
            return (number, Some(level));
        }
    }
    (0, None)
}

/// The number, and the stripe at fault.
pub fn recover(
    header: Header,
    image: &[u8],
    erasures: &[u8],
    out: &mut [u32],
    scratch: &mut [u32],
) -> (u32, Option<u32>) {
    if !header.fits() {
        return (1, None);
    }
    let (n, width) = (header.n(), header.width());
    if image.len() != 4 * width * (4 * n - 2)
        || out.len() != header.raw_len()
        || scratch.len() != n * width + 4 * n
    {
        return (2, None);
    }
    if !erasures_fit(erasures, image.len()) {
        return (3, None);
    }
    let (number, stripe) = recover_stripes(header, image, erasures, out, scratch);
    scratch.fill(0);
    if number != 0 {
        out.fill(0);
    }
    (number, stripe)
}
