//! The table of powers, and where the roots of all vaults stand in it.
use vault_library::{calls, sizes, stripes, Refusal, Vault};

/// The modulus of the field.
const P: u32 = 65537;

fn product(x: u32, y: u32) -> u32 {
    (u64::from(x) * u64::from(y) % u64::from(P)) as u32
}

/// The table, stored over words that it does not have.
fn table() -> Vec<u32> {
    let mut powers = vec![P; sizes::POWERS];
    assert_eq!(calls::powers(&mut powers), Ok(()));
    powers
}

#[test]
fn each_entry_is_the_one_before_times_the_second() {
    let powers = table();
    assert_eq!(powers[..2], [1, 61869]);
    for pair in powers.windows(2) {
        assert_eq!(pair[1], product(pair[0], 61869));
    }
    // 3^32 has the order 2048.
    assert_eq!(product(powers[2047], 61869), 1);
    assert!(powers[1..].iter().all(|&power| power != 1));
}

/// With a 1 in record n / 2 alone, the words of Y are w, w^3, w^5 and so on.
#[test]
fn the_roots_that_the_library_codes_with_are_entries() {
    let powers = table();
    for k in 1..=10 {
        let n = 1 << k;
        let mut raw = vec![0; sizes::raw(k, 1)];
        raw[n / 2] = 1;
        let image = Vault::open(k, 1, raw).unwrap().image().unwrap();
        for i in 0..n {
            let bytes = stripes::position(k, 1, k, n + i);
            let word = stripes::words(&image, bytes).nth(1);
            assert_eq!(word, Some(powers[(2 * i + 1) * 1024 / n]));
        }
    }
}

#[test]
fn inverses_stand_from_the_end() {
    let powers = table();
    for k in 1..=10 {
        let n = 1 << k;
        for j in 1..2 * n {
            let entry = j * 1024 / n;
            assert_eq!(product(powers[entry], powers[2048 - entry]), 1);
        }
    }
    assert_eq!(
        [512, 256, 128].map(|entry| powers[entry]),
        [65281, 4096, 64]
    );
}

#[test]
fn other_lengths_are_refused_and_nothing_changes() {
    for length in [0, 1, 2, 1024, 2046, 2047, 2049, 2050, 4096] {
        let mut powers = vec![9; length];
        assert_eq!(calls::powers(&mut powers), Err(Refusal::Length));
        assert_eq!(powers, vec![9; length]);
    }
}
