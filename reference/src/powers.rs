//! The table of powers that card readers carry.
use crate::field::pow;
use crate::refusal::{number, test, Refusal};

/// How many entries the table has.
pub const ENTRIES: usize = 2048;

/// Stores the table: entry i is (3^32)^i. Gives the number.
pub fn powers(out: &mut [u32]) -> u32 {
    let tested = test(out.len() == ENTRIES, Refusal::Length);
    if tested.is_ok() {
        for (entry, i) in out.iter_mut().zip(0..) {
            *entry = pow(pow(3, 32), i) as u32;
        }
    }
    number(&tested)
}

#[cfg(test)]
mod tests {
    use super::*;
    use crate::field::{inverse, mul, root};

    /// The table, stored over what it does not hold.
    fn table() -> Vec<u64> {
        let mut out = [9; ENTRIES];
        assert_eq!(powers(&mut out), 0);
        out.map(u64::from).to_vec()
    }

    #[test]
    fn entries_of_the_document() {
        let table = table();
        assert_eq!(table[..2], [1, 61869]);
        assert_eq!([512, 256, 128].map(|i| table[i]), [65281, 4096, 64]);
    }

    /// The entries go round once: each is the one before times 3^32, and 1 comes again after the last alone.
    #[test]
    fn the_order_is_the_table_s_length() {
        let table = table();
        for (i, &entry) in table.iter().enumerate() {
            assert_eq!(table[(i + 1) % ENTRIES], mul(entry, 61869));
            assert_eq!(entry == 1, i == 0);
        }
    }

    #[test]
    fn powers_of_each_root_and_their_inverses() {
        let table = table();
        for k in 1..=10 {
            let n = 1 << k;
            for j in 0..2 * n {
                let (entry, power) = (j * 1024 / n, pow(root(k), j as u64));
                assert_eq!(table[entry], power);
                assert_eq!(table[(ENTRIES - entry) % ENTRIES], inverse(power));
            }
        }
    }

    #[test]
    fn other_lengths_are_refused() {
        for length in [0, 1, 2, 1024, 2047, 2049, 4096] {
            let mut out = vec![9; length];
            assert_eq!(powers(&mut out), 2);
            assert_eq!(out, vec![9; length]);
        }
    }
}
