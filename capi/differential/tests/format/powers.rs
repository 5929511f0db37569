//! The table of powers: its rule and what stands in it (section 2), and the entries and calls of section 12.
use crate::calls::{power_table, powers};
use crate::document::{code_block, said, section, table};
use crate::forms::{fit, holes, number, numbers};
use reference::field::{inverse, mul, pow, root};
use reference::stripe::rev;
use std::collections::HashSet;

/// The rule, and the sentences before and after it.
#[test]
fn section_2_rule_of_the_table() {
    let lines = section("### The table of powers");
    let start = "The roots of all k, ";
    let pattern = "{}, the root of k = {}: 3^{} = {}, of order {}. The **table of powers** has them all: {} entries, \
                   numbered from 0, where";
    let [_, k, exponent, base, order, count] = said(&lines, start, pattern);
    let count = count.replace(',', "");
    let [k, exponent, base, order, count] = [k, exponent, base, order, count].map(number);
    let base = u64::from(base);
    assert_eq!((root(k), pow(3, exponent.into())), (base, base));

    let rule = &code_block(&lines, start, 1)[0];
    let pattern = "entry i = (3^{})^i          for i = 0 .. {}";
    assert_eq!(fit(rule, pattern).map(number), [exponent, count - 1]);
    let powers = power_table();
    for (&entry, i) in powers.iter().zip(0..) {
        assert_eq!(u64::from(entry), pow(base, i), "entry {i}");
    }
    let distinct: HashSet<u32> = powers.iter().copied().collect();
    assert_eq!([powers.len(), distinct.len()], [count as usize; 2]);
    let after = mul(powers[powers.len() - 1].into(), base);
    assert_eq!((after, order), (1, count));

    let pattern = "{}, each entry after it is the one before times {}, and all are distinct. {}";
    let [first, times, _] = said(&lines, "So entry 0 is ", pattern);
    let (first, times) = (number(first), u64::from(number(times)));
    assert_eq!((powers[0], times), (first, base));
}

/// What a row says of the table for a vault of this k: entries, and the powers that have to stand there.
fn factors(row: &[&str], k: u32) -> Vec<(u64, u64)> {
    let (n, w) = (1 << k, root(k));
    // The powers of the root of order 2m, which v and u are.
    let of_order = |m: u64, count: u64| {
        let root = pow(w, n / m);
        (0..count).map(move |i| (i * 1024 / m, pow(root, i)))
    };
    match row {
        ["w^j", "j = 0 .. 2n - 1", "j * 1024 / n"] => of_order(n, 2 * n).collect(),
        ["inverse of w^j", "j = 1 .. 2n - 1", "2048 - j * 1024 / n"] => {
            let inverses = of_order(n, 2 * n).skip(1);
            inverses.map(|(at, x)| (2048 - at, inverse(x))).collect()
        }
        ["v^i, mixing arrays of m words", "i = 0 .. m - 1", "i * 1024 / m"] => {
            let lengths = (0..k).map(|l| 1 << l);
            lengths.flat_map(|m| of_order(m, m)).collect()
        }
        ["u^i, a stripe of M blocks", "i = 0 .. 2M - 1", "i * 1024 / M"] => {
            let counts = (0..=k).map(|l| 1 << l);
            counts.flat_map(|m| of_order(m, 2 * m)).collect()
        }
        ["w^rev(t, k), turning", "t = 0 .. n - 1", "rev(t, k) * 1024 / n"] => {
            let exponents = (0..n).map(|t| rev(k, t));
            exponents.map(|e| (e * 1024 / n, pow(w, e))).collect()
        }
        _ => panic!("not understood: {row:?}"),
    }
}

/// The table of what stands in the table of powers, at every k.
#[test]
fn section_2_factors_and_points() {
    let lines = section("### The table of powers");
    let powers = power_table();
    for row in table(&lines, "| power | for | entry |", 5) {
        for k in 1..=10 {
            for (entry, power) in factors(&row, k) {
                let given = u64::from(powers[entry as usize]);
                assert_eq!(given, power, "entry {entry} at k = {k}: {row:?}");
            }
        }
    }
}

/// The power of the root of k that an example names, and its entry.
fn named(power: &str, k: u32) -> (u64, u64) {
    let n = 1 << k;
    let (inverted, power) = match power.strip_prefix("inverse of ") {
        Some(power) => (true, power),
        None => (false, power),
    };
    let exponent = match holes(power, "w^{}") {
        Some(["n"]) => n,
        Some([exponent]) => number(exponent).into(),
        None => {
            assert_eq!(power, "w");
            1
        }
    };
    let (entry, value) = (exponent * 1024 / n, pow(root(k), exponent));
    if inverted {
        (2048 - entry, inverse(value))
    } else {
        (entry, value)
    }
}

/// The table of entries.
#[test]
fn section_12_entries() {
    let lines = section("### Entries of the table of powers");
    let powers = power_table();
    for row in table(&lines, "| entry | number | power | n |", 14) {
        let [entry, value] = [row[0], row[1]].map(number);
        assert_eq!(powers[entry as usize], value, "{row:?}");
        let of_n = |k: &u32| row[3] == "any" || number(row[3]) == 1 << k;
        let vaults: Vec<u32> = (1..=10).filter(of_n).collect();
        assert!(!vaults.is_empty(), "{row:?}");
        for k in vaults {
            let expected = named(row[2], k);
            assert_eq!((entry.into(), value.into()), expected, "{row:?}");
        }
    }
}

/// The points of P1 and the factor of P2, where k = 2.
#[test]
fn section_12_points_and_factor() {
    let lines = section("### Entries of the table of powers");
    let pattern = "{} (section 4), which are {} with M = {}: entries {}. P2 turns by w^rev({}, {}) = {}, entry {}.";
    let said = said(&lines, "P1 has the points ", pattern);
    let [points, names, blocks, entries, t, k, factor, entry] = said;
    let (points, entries) = (numbers(&points, ", "), numbers(&entries, ", "));
    let exponents = names.split(", ").map(|name| {
        let [exponent] = fit(name, "u^{}");
        number(exponent)
    });
    let [blocks, t, k, factor, entry] = [blocks, t, k, factor, entry].map(number);
    let powers = power_table();
    let at = |entry: &u32| powers[*entry as usize];
    assert!(exponents.map(|e| e * 1024 / blocks).eq(entries.clone()));
    assert_eq!(entries.iter().map(at).collect::<Vec<u32>>(), points);
    let turned = rev(k, t.into()) * 1024 / (1 << k);
    assert_eq!((u64::from(entry), at(&entry)), (turned, factor));
}

/// The table of lengths that the call powers accepts or refuses.
#[test]
fn section_12_lengths() {
    let lines = section("### Entries of the table of powers");
    let head = "| words lent | powers gives | the buffer |";
    for row in table(&lines, head, 6) {
        let left = powers(number(row[0]) as usize);
        let buffer = match left.stored() {
            None => "unchanged",
            Some(words) => {
                assert_eq!(words, power_table());
                "the table"
            }
        };
        assert_eq!(row[1..], [&left.number.to_string(), buffer], "{row:?}");
    }
}
