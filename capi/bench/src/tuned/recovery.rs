//! Recovery: the erasure list is read once for all stripes; then each stripe is decoded and laid over the records.
use super::decoding::Range;
use super::small::Small;
use super::store::signed;
use super::tables::{Tables, TABLES};
use super::weights::Weights;
use super::{all_records, is_record, Header};

/// Sets a mark, 1, for each position of an image that is erased; whether the erasure list is good.
fn mark(marks: &mut [u8], erasures: &[u8], size: usize, width: usize) -> bool {
    if !erasures.len().is_multiple_of(8) {
        return false;
    }
    // Offsets are below 2^22 and a position has at most 516 bytes: a product with this, without its lowest 42 bits, is the quotient.
    let inverse = (1_u64 << 42) / (4 * width as u64) + 1;
    let mut least = 0;
    for pair in erasures.chunks_exact(8) {
        let pair = u64::from_le_bytes(pair.try_into().expect("eight bytes"));
        let (offset, length) = (pair & 0xffff_ffff, pair >> 32);
        let end = offset + length;
        if offset < least || length == 0 || end > size as u64 {
            return false;
        }
        least = end + 1;
        let (low, high) = ((offset * inverse) >> 42, ((end - 1) * inverse) >> 42);
        for mark in &mut marks[low as usize..=high as usize] {
            *mark = 1;
        }
    }
    true
}

/// One stripe of an image.
struct Stripe<'a> {
    level: usize,
    bytes: &'a [u8],
    marks: &'a [u8],
    erased: usize,
    /// The entry of the turning of its first block.
    turned: u32,
}

impl<'a> Stripe<'a> {
    fn new(
        header: Header,
        level: usize,
        image: &'a [u8],
        marks: &'a [u8],
        tables: &Tables,
    ) -> Stripe<'a> {
        let (n, width) = (header.n(), header.width());
        let size = 2 << level;
        let (first, at) = if level == header.k as usize {
            (0, 0)
        } else {
            (header.c as usize / size * size, 2 * n + size - 2)
        };
        let marks = &marks[at..at + size];
        Stripe {
            level,
            bytes: &image[4 * at * width..4 * (at + size) * width],
            marks,
            // Up to 255 at once fit a byte, of which the compiler adds sixteen at a time.
            erased: marks
                .chunks(128)
                .map(|part| usize::from(part.iter().sum::<u8>()))
                .sum(),
            turned: u32::from(tables.reversed[first]),
        }
    }

    /// Whether no surviving word is above 65536.
    fn in_field(&self) -> bool {
        let rows = self.bytes.chunks_exact(self.bytes.len() / self.marks.len());
        let word = |bytes: &[u8]| u32::from_le_bytes(bytes.try_into().expect("four bytes"));
        rows.zip(self.marks)
            .all(|(row, &mark)| mark == 1 || row.chunks_exact(4).all(|bytes| word(bytes) <= 65536))
    }
}

/// What all stripes of a recovery have in common: N is at least the positions of the largest.
struct Recovery<'a, const N: usize> {
    header: Header,
    tables: &'a Tables,
    weights: Weights<N>,
}

impl<const N: usize> Recovery<'_, N> {
    /// Computes the weights of a stripe, if enough of it survives; the number.
    fn weigh(&mut self, stripe: &Stripe, scratch: &mut [i32]) -> u32 {
        let &Stripe {
            level,
            marks,
            erased,
            turned,
            ..
        } = stripe;
        if erased > 1 << level {
            return 7;
        }
        if level > 2 {
            self.weights.set(self.tables, level, marks, turned, scratch);
        }
        0
    }

    /// Decodes a range of columns: the number, and the blocks' rows.
    fn decode<'b>(
        &self,
        stripe: &Stripe,
        columns: (usize, usize),
        scratch: &'b mut [i32],
    ) -> (u32, &'b [i32]) {
        let &Stripe { level, bytes, .. } = stripe;
        let (tables, width) = (self.tables, self.header.width());
        let (from, cols) = columns;
        let outcome = if level <= 2 {
            let turned = stripe.turned;
            let small = Small {
                level,
                stripe: bytes,
                width,
                turned,
            };
            small.decode(&mut scratch[..width << level], tables, stripe.marks)
        } else {
            let erased = stripe.erased;
            let range = Range {
                level,
                stripe: bytes,
                width,
                from,
                cols,
                erased,
            };
            range.decode(&mut scratch[..cols << level << 1], tables, &self.weights)
        };
        (outcome as u32, &scratch[..cols << level])
    }

    /// The full stripe: of records of up to three words all columns at once, otherwise in two ranges.
    fn full(&mut self, stripe: &Stripe, out: &mut [u32], scratch: &mut [i32]) -> u32 {
        let (s, width) = (self.header.s as usize, self.header.width());
        let number = self.weigh(stripe, scratch);
        if number != 0 {
            return number;
        }
        let (mut in_place, mut all_data) = (true, true);
        let half = if s <= 3 || stripe.level <= 2 {
            width
        } else {
            width.div_ceil(2)
        };
        for from in (0..width).step_by(half) {
            let cols = half.min(width - from);
            let (refused, rows) = self.decode(stripe, (from, cols), scratch);
            if refused != 0 {
                // A word out of the field counts before, also in columns that are not decoded yet.
                return if stripe.in_field() { refused } else { 8 };
            }
            let (placed, data) = match s {
                1 => lay_full::<1>(out, s, rows, (from, cols)),
                3 => lay_full::<3>(out, s, rows, (from, cols)),
                _ => lay_full::<0>(out, s, rows, (from, cols)),
            };
            in_place &= placed;
            all_data &= data;
        }
        // All columns of a record say whether it is struck.
        if in_place && (all_data || all_records(out, s)) {
            0
        } else {
            10
        }
    }

    /// A level, whose blocks are laid over the records; where one is no record, that is seen afterwards, and the output is cleared then.
    fn level(&mut self, stripe: &Stripe, out: &mut [u32], scratch: &mut [i32]) -> u32 {
        let (s, width) = (self.header.s as usize, self.header.width());
        let number = self.weigh(stripe, scratch);
        if number != 0 {
            return number;
        }
        let (refused, rows) = self.decode(stripe, (0, width), scratch);
        if refused != 0 {
            return refused;
        }
        let laid = match s {
            1 => lay_level::<1>(out, s, rows),
            3 => lay_level::<3>(out, s, rows),
            _ => lay_level::<0>(out, s, rows),
        };
        if laid {
            0
        } else {
            10
        }
    }
}

/// Lays blocks over the records they name; whether all are records. S is s, or 0 for any: where it is known a record is copied without a call.
fn lay_level<const S: usize>(out: &mut [u32], s: usize, rows: &[i32]) -> bool {
    let s = if S == 0 { s } else { S };
    let mut beyond = 0;
    for row in rows.chunks_exact(s + 1) {
        let at = row[0] as usize * s;
        let Some(record) = out.get_mut(at..at + s) else {
            return false;
        };
        for (to, &x) in record.iter_mut().zip(&row[1..]) {
            beyond |= x;
            *to = x as u32;
        }
    }
    let mut rows = rows.chunks_exact(s + 1);
    beyond <= 65535 || rows.all(|row| is_record(row[1..].iter().map(|&x| x as u32)))
}

/// Stores a range of columns of the records; whether numbers are in their places, and whether data words are such. S is as above, where the range is all
/// columns.
fn lay_full<const S: usize>(
    out: &mut [u32],
    s: usize,
    rows: &[i32],
    columns: (usize, usize),
) -> (bool, bool) {
    let (from, cols) = if S == 0 { columns } else { (0, S + 1) };
    let s = if S == 0 { s } else { S };
    let skip = usize::from(from == 0);
    let (mut beyond, mut misplaced) = (0, 0);
    let pairs = out.chunks_exact_mut(s).zip(rows.chunks_exact(cols));
    for (i, (record, row)) in pairs.enumerate() {
        if skip == 1 {
            misplaced |= row[0] ^ i as i32;
        }
        let to = &mut record[from + skip - 1..from + cols - 1];
        for (to, &x) in to.iter_mut().zip(&row[skip..]) {
            beyond |= x;
            *to = x as u32;
        }
    }
    (misplaced == 0, beyond <= 65535)
}

/// Decodes all stripes that are needed: the number, and the stripe at fault.
fn recover_all<const N: usize>(
    header: Header,
    image: &[u8],
    marks: &[u8],
    out: &mut [u32],
    scratch: &mut [i32],
) -> (u32, Option<u32>) {
    let tables = &*TABLES;
    let mut recovery = Recovery::<N> {
        header,
        tables,
        weights: Weights::new(),
    };
    let stripe = |level: u32| Stripe::new(header, level as usize, image, marks, tables);
    let number = recovery.full(&stripe(header.k), out, scratch);
    if number != 0 {
        return (number, Some(header.k));
    }
    for level in (0..header.k).rev().filter(|l| header.c >> l & 1 == 1) {
        let number = recovery.level(&stripe(level), out, scratch);
        if number != 0 {
            return (number, Some(level));
        }
    }
    (0, None)
}

/// The number, and the stripe at fault.
pub fn recover(
    header: Header,
    image: &[u8],
    erasures: &[u8],
    out: &mut [u32],
    scratch: &mut [u32],
) -> (u32, Option<u32>) {
    if !header.fits() {
        return (1, None);
    }
    let (n, width) = (header.n(), header.width());
    if image.len() != 4 * width * (4 * n - 2)
        || out.len() != header.raw_len()
        || scratch.len() != n * width + 4 * n
    {
        return (2, None);
    }
    let mut marks = [0; 4096];
    let marks = &mut marks[..4 * n - 2];
    if !mark(marks, erasures, image.len(), width) {
        return (3, None);
    }
    let answer = if header.k <= 6 {
        recover_all::<128>(header, image, marks, out, signed(scratch))
    } else {
        recover_all::<2048>(header, image, marks, out, signed(scratch))
    };
    scratch.fill(0);
    if answer.0 != 0 {
        out.fill(0);
    }
    answer
}
