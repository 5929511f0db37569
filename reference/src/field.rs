//! Arithmetic modulo p = 65537. A word of the field is 0 to 65536.

pub const P: u64 = 65537;

pub fn add(x: u64, y: u64) -> u64 {
    (x + y) % P
}

pub fn sub(x: u64, y: u64) -> u64 {
    (x + P - y % P) % P
}

pub fn mul(x: u64, y: u64) -> u64 {
    x * y % P
}

/// x to the power e.
pub fn pow(x: u64, e: u64) -> u64 {
    if e == 0 {
        return 1;
    }
    let square = pow(mul(x, x), e / 2);
    if e % 2 == 1 {
        mul(x, square)
    } else {
        square
    }
}

/// The inverse of x, which is not 0, by Euclid's algorithm.
pub fn inverse(x: u64) -> u64 {
    // r = a x for each of the two pairs (r, a).
    let (mut r0, mut a0, mut r1, mut a1) = (P as i64, 0i64, (x % P) as i64, 1i64);
    while r1 != 0 {
        let q = r0 / r1;
        (r0, a0, r1, a1) = (r1, a1, r0 - q * r1, a0 - q * a1);
    }
    assert_eq!(r0, 1, "0 has no inverse");
    a0.rem_euclid(P as i64) as u64
}

/// w = 3^(32768/n), of order 2n, for n = 2^k.
pub fn root(k: u32) -> u64 {
    pow(3, 32768 / (1 << k))
}

#[cfg(test)]
mod tests {
    use super::*;

    #[test]
    fn roots_of_the_document() {
        assert_eq!([root(1), root(2), root(3)], [65281, 4096, 64]);
    }

    #[test]
    fn roots_have_order_two_n() {
        for k in 1..=10 {
            assert_eq!(pow(root(k), 1 << k), P - 1);
        }
    }

    #[test]
    fn inverses() {
        for x in [1, 2, 3, 255, 256, 32768, 65535, 65536] {
            assert_eq!(mul(x, inverse(x)), 1);
        }
    }
}
