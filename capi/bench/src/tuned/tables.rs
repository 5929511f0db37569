//! What the transforms and weights look up, computed once: powers, factors in the order of the passes, logarithms, and spectra of logarithms.
use super::lanes::P;
use std::sync::LazyLock;

/// The largest level whose weights are summed directly: above it they go through a transform.
pub const DIRECT: usize = 7;

pub static TABLES: LazyLock<Tables> = LazyLock::new(Tables::new);

pub struct Tables {
    /// (3^32)^i, from -32768 to 32768.
    pub powers: [i32; 2048],
    /// The factors of 3^r.
    pub small: [i32; 32],
    pub mix_x: Quads,
    pub mix_y: Quads,
    pub unmix_x: Quads,
    pub unmix_y: Quads,
    /// The ten lowest bits of i, reversed.
    pub reversed: [u16; 1024],
    /// For each level up to `DIRECT`, the logarithms of u^d - 1 for d = 0 .. 2M - 1, 0 at d = 0; all of them twice.
    pub logs: Vec<Vec<u16>>,
    /// For the levels above.
    pub spectra: Vec<Spectra>,
}

/// Any number's class, from -32768 to 32768.
pub fn centred(x: i64) -> i32 {
    let x = x.rem_euclid(i64::from(P)) as i32;
    if x > 32768 {
        x - P
    } else {
        x
    }
}

/// A factor (see `lanes`), and whether it is half of the number: 32768 and -32768 have no factor of their own.
pub fn factor(x: i32) -> (i32, bool) {
    let double = x.abs() == 32768;
    let g = if double { x / 2 } else { x };
    ((g & 0xffff) | (-g << 16), double)
}

/// The factors of mixing or unmixing two levels in one pass, for m = 1, 2, 4, .. 512 rows in a quarter: three arrays of m for each m.
pub struct Quads {
    factors: Vec<i32>,
    /// All bits set where the product with the factor has to be doubled.
    doubled: Vec<i32>,
    /// For each m, the rows where one is; a number that is none otherwise.
    pub odd: [[usize; 3]; 10],
}

impl Quads {
    /// Row i of m has the factors of entries 2e, e and 3e. e is i * 512 / m for X, and stands between two of those for Y, whose turning is in it.
    fn new(powers: &[i32; 2048], turned: bool, inverse: bool) -> Quads {
        let mut quads = Quads {
            factors: vec![0; 3 * 1023],
            doubled: vec![0; 3 * 1023],
            odd: [[usize::MAX; 3]; 10],
        };
        for b in 0..10 {
            let m = 1 << b;
            let mut found = 0;
            for i in 0..m {
                let e = (2 * i + usize::from(turned)) * 256 / m;
                for (kind, e) in [2 * e, e, 3 * e].into_iter().enumerate() {
                    let e = if inverse { 2048 - e } else { e };
                    let (factor, double) = factor(powers[e % 2048]);
                    let at = 3 * (m - 1) + kind * m + i;
                    quads.factors[at] = factor;
                    if double {
                        quads.doubled[at] = -1;
                        quads.odd[b][found] = i;
                        found += 1;
                    }
                }
            }
        }
        quads
    }

    /// The three arrays of m factors.
    pub fn factors(&self, m: usize) -> [*const i32; 3] {
        let all = &self.factors[3 * (m - 1)..6 * m - 3];
        [0, 1, 2].map(|kind| all[kind * m..].as_ptr())
    }

    pub fn doubled(&self, m: usize) -> [*const i32; 3] {
        let all = &self.doubled[3 * (m - 1)..6 * m - 3];
        [0, 1, 2].map(|kind| all[kind * m..].as_ptr())
    }
}

/// The logarithms of u^d - 1 as digits, each a column transformed by unmixing and divided by its length: a product with an unmixed column of marks, mixed, is
/// the sum of that digit for each position. Digits are so small that no sum of M of them reaches p.
pub struct Spectra {
    /// The bits below each digit, and its factors.
    pub digits: Vec<(u32, Vec<i32>)>,
    /// What stands for the logarithm at d = 0: it is chosen such that there is a factor for every number.
    pub at_zero: u32,
    /// Where there is an odd number of levels, the highest is mixed and unmixed alone: u^i, the factors for it, and u^-i as a number.
    pub top: Vec<i32>,
    pub top_doubled: Vec<i32>,
    pub top_inverse: Vec<i32>,
}

/// One level of unmixing after the other, of one column.
fn unmix(column: &mut [i64], powers: &[i32; 2048]) {
    let mut m = column.len() / 2;
    while m > 0 {
        for block in column.chunks_exact_mut(2 * m) {
            for i in 0..m {
                let (x, y) = (block[i], block[i + m]);
                let back = powers[(2048 - i * 1024 / m) % 2048];
                block[i] = (x + y) % i64::from(P);
                block[i + m] = (x - y) * i64::from(back) % i64::from(P);
            }
        }
        m /= 2;
    }
}

/// The factors of a digit's transform, and the digit at d = 0.
fn digit(logs: &[u32], low: u32, bits: u32, powers: &[i32; 2048]) -> (Vec<i32>, u32) {
    let mask = (1 << bits) - 1;
    // The inverse of 2^b is -2^(16 - b).
    let scale = -(65536 / logs.len() as i64);
    for at_zero in 0..=mask {
        let mut column: Vec<i64> = logs.iter().map(|l| i64::from(l >> low & mask)).collect();
        column[0] = i64::from(at_zero);
        unmix(&mut column, powers);
        let factors = column.iter().map(|&x| factor(centred(x * scale)));
        let factors: Vec<(i32, bool)> = factors.collect();
        if factors.iter().all(|&(_, double)| !double) {
            // As the lanes have them in the last pass of unmixing: of sixteen, those of each remainder modulo 4 together.
            let order = (0..factors.len()).map(|i| i / 16 * 16 + i % 4 * 4 + i % 16 / 4);
            return (order.map(|i| factors[i].0).collect(), at_zero);
        }
    }
    unreachable!("a digit at 0 leaves a factor for every number")
}

impl Spectra {
    fn new(logs: &[u32], powers: &[i32; 2048]) -> Spectra {
        let splits: &[(u32, u32)] = match logs.len() {
            512 => &[(0, 8), (8, 8)],
            _ => &[(0, 6), (6, 5), (11, 5)],
        };
        let mut at_zero = 0;
        let digits = splits.iter().map(|&(low, bits)| {
            let (factors, digit) = digit(logs, low, bits, powers);
            at_zero += digit << low;
            (low, factors)
        });
        let digits = digits.collect();
        let m = logs.len() / 2;
        let top = (0..m).map(|i| factor(powers[i * 1024 / m]));
        Spectra {
            digits,
            at_zero,
            top: top.clone().map(|(g, _)| g).collect(),
            top_doubled: top.map(|(_, double)| -i32::from(double)).collect(),
            top_inverse: (0..m)
                .map(|i| powers[(2048 - i * 1024 / m) % 2048])
                .collect(),
        }
    }
}

/// 3^e.
fn power(e: usize) -> i64 {
    (0..e).fold(1, |x, _| x * 3 % i64::from(P))
}

fn powers() -> [i32; 2048] {
    let step = power(32);
    let mut powers = [1; 2048];
    for i in 1..2048 {
        powers[i] = centred(i64::from(powers[i - 1]) * step);
    }
    powers
}

/// The logarithms to base 3 of u^d - 1 for level 10, where u is the first power, and 0 at d = 0.
fn logs(powers: &[i32; 2048]) -> [u32; 2048] {
    let mut log_of = vec![0; 65537];
    let mut x = 1;
    for e in 0..65536 {
        log_of[x as usize] = e;
        x = x * 3 % P;
    }
    std::array::from_fn(|d| match d {
        0 => 0,
        _ => log_of[(powers[d] - 1).rem_euclid(P) as usize],
    })
}

impl Tables {
    fn new() -> Tables {
        let powers = powers();
        let logs = logs(&powers);
        // The u of another level is a power of the u of level 10.
        let of = |level: usize| logs.iter().copied().step_by(1024 >> level);
        let twice = |level: usize| {
            let words = of(level).cycle().take(4 << level);
            words.map(|log| log as u16).collect()
        };
        let spectra = |level: usize| Spectra::new(&of(level).collect::<Vec<u32>>(), &powers);
        Tables {
            small: std::array::from_fn(|r| factor(centred(power(r))).0),
            mix_x: Quads::new(&powers, false, false),
            mix_y: Quads::new(&powers, true, false),
            unmix_x: Quads::new(&powers, false, true),
            unmix_y: Quads::new(&powers, true, true),
            reversed: std::array::from_fn(|i| (i as u16).reverse_bits() >> 6),
            logs: (0..=DIRECT).map(twice).collect(),
            spectra: (DIRECT + 1..=10).map(spectra).collect(),
            powers,
        }
    }
}
