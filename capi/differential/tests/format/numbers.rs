//! Sections 2 and 3: roots, lengths, and the places of stripes.
use crate::calls::{decode_stripe, power_table, Vault};
use crate::document::{cells, said, section, table};
use crate::forms::{fit, number};
use crate::places::stripes_in_order;
use reference::field;
use reference::header::Header as ReferenceHeader;
use reference::powers::ENTRIES;
use std::ops::Range;
use vault_library::{calls, erasures, sizes, stripes, Header, Reading, Refusal};

/// w and its inverse, as the library codes with them: with a 1 in record n / 2 alone, the words of Y are w, w^3, .., w^(2n - 1).
fn root_and_inverse(k: u32) -> [u32; 2] {
    let mut raw = vec![0; sizes::raw(k, 1)];
    raw[1 << (k - 1)] = 1;
    let (_, image) = Vault::open(k, 1, raw).image();
    [1 << k, (2 << k) - 1].map(|position| {
        let bytes = stripes::position(k, 1, k, position);
        stripes::words(&image, bytes).nth(1).expect("a data word")
    })
}

/// The table of roots: those that the library codes with, and their entries in its table of powers.
#[test]
fn section_2_roots() {
    let lines = section("## 2 ");
    let head = "| k | n | 2n | 32768 / n | w | inverse of w | entry of w | entry of the inverse |";
    let powers = power_table();
    for (k, row) in (1..).zip(table(&lines, head, 10)) {
        let row: Vec<u32> = row.into_iter().map(number).collect();
        let n = 1 << k;
        let [w, inverse] = root_and_inverse(k);
        let entries = [1024 / n, 2048 - 1024 / n];
        assert_eq!(row[..6], [k, n, 2 * n, 32768 / n, w, inverse]);
        assert_eq!(row[6..], entries);
        assert_eq!(entries.map(|entry| powers[entry as usize]), [w, inverse]);
        assert_eq!(field::root(k), w.into());
        assert_eq!(field::inverse(w.into()), inverse.into());
    }
}

/// A length by its row's formula, by the wrapper, and by reference/.
fn length(what: &str, formula: &str, k: u32, s: u32) -> [usize; 3] {
    let header = ReferenceHeader { k, s, c: 0 };
    let (n, words, width) = (1 << k, s as usize, s as usize + 1);
    match (what, formula) {
        ("block of a write", "s") => [words, words, header.data()],
        ("raw copy; out of recover and recover_two", "n * s") => {
            [n * words, sizes::raw(k, s), header.raw_len()]
        }
        ("full stripe", "2n(s + 1)") => [2 * n * width, sizes::full(k, s), header.full_len()],
        ("log", "(2n - 2)(s + 1)") => [(2 * n - 2) * width, sizes::log(k, s), header.log_len()],
        ("n blocks: out of decode", "n(s + 1)") => {
            [n * width, sizes::blocks(k, s), header.blocks_len()]
        }
        ("scratch of decode, recover, recover_two and explain", "n(s + 1) + 4n") => {
            let formula = n * width + 4 * n;
            [formula, sizes::scratch(k, s), header.scratch_len()]
        }
        ("scratch of take_back", "2n(s + 1) + 8n") => {
            let formula = 2 * n * width + 8 * n;
            let wrapped = sizes::take_back_scratch(k, s);
            [formula, wrapped, header.double_scratch_len()]
        }
        ("counts of explain", "2(k + 1)") => {
            let formula = 2 * (k as usize + 1);
            [formula, sizes::counts(k, s), header.counts_len()]
        }
        ("origins of explain", "2n") => [2 * n, sizes::origins(k, s), header.origins_len()],
        ("table of powers", "2048") => [2048, sizes::POWERS, ENTRIES],
        ("image, bytes", "4(s + 1)(4n - 2)") => {
            let formula = 4 * width * (4 * n - 2);
            [formula, sizes::image(k, s), header.image_len()]
        }
        _ => panic!("not understood: {what}, {formula}"),
    }
}

/// Makes the library's calls over buffers of these lengths: those of the table in its order, and the output of recovery.
#[rustfmt::skip]
fn all_calls(k: u32, s: u32, lengths: [usize; 12]) -> Result<(), Refusal> {
    let [block, raw, full, log, blocks, scratch, double, counts, origins, powers, image, records] = lengths;
    let words = |length| vec![0; length];
    let (mut raw, mut full, mut log) = (words(raw), words(full), words(log));
    let (mut scratch, mut image) = (words(scratch), vec![0; image]);
    let mut header = calls::open(k, s, &raw, &mut full, &mut log)?;
    let block = vec![1; block];
    calls::write(&mut header, &mut raw, &mut full, &mut log, 0, &block)?;
    calls::take_back(&mut header, &mut raw, &full, &mut log, &mut words(double))?;
    calls::strike(&mut header, &mut raw, &mut full, &mut log, 0)?;
    calls::image(header, &full, &log, &mut image)?;
    calls::powers(&mut words(powers))?;
    calls::decode(header, &image, &[], k, &mut words(blocks), &mut scratch)?;
    let (mut counts, mut origins) = (words(counts), words(origins));
    let reading = Reading { image: &image, erasures: &[] };
    calls::shelf_of_two(header, reading, reading, k)?;
    calls::recover_two(header, reading, reading, &mut words(records), &mut scratch)
        .and_then(|()| calls::recover(header, &image, &[], &mut words(records), &mut scratch))
        .and_then(|()| calls::explain(header, &image, &[], &mut counts, &mut origins, &mut scratch))
        .map_err(|fault| fault.refusal)
}

/// The table of lengths: the library accepts these, and each that is one more or less it refuses.
#[test]
fn section_3_lengths() {
    let lines = section("## 3 ");
    let head = "| what | length | k=1 s=1 | k=2 s=1 | k=2 s=3 | k=4 s=2 | k=5 s=16 | k=10 s=3 | k=10 s=128 |";
    let rows = table(&lines, head, 11);
    for (column, name) in cells(head).into_iter().enumerate().skip(2) {
        let [k, s] = fit(name, "k={} s={}").map(number);
        let mut lengths = Vec::new();
        for row in &rows {
            let given = number(row[column].replace(',', "")) as usize;
            assert_eq!([given; 3], length(row[0], row[1], k, s), "{row:?}");
            lengths.push(given);
        }
        lengths.push(lengths[1]);
        let lengths = lengths.try_into().expect("eleven lengths and one more");
        assert_eq!(all_calls(k, s, lengths), Ok(()));
        for i in 0..lengths.len() {
            for other in [lengths[i] - 1, lengths[i] + 1] {
                let mut wrong = lengths;
                wrong[i] = other;
                assert_eq!(all_calls(k, s, wrong), Err(Refusal::Length));
            }
        }
    }
}

/// The row of a stripe in the table of places.
fn place_of(k: u32, s: u32, stripe: u32) -> Vec<String> {
    let header = ReferenceHeader { k, s, c: 0 };
    let count = stripes::positions(stripe);
    let start = stripes::position(k, s, stripe, 0).start;
    let end = stripes::position(k, s, stripe, count - 1).end;
    assert_eq!(4 * header.stripe_start(stripe), start);
    let (name, log) = if stripe == k {
        (format!("{k}, full"), String::new())
    } else {
        let start = header.level_start(stripe);
        (stripe.to_string(), start.to_string())
    };
    let mut row = vec![name, (count / 2).to_string(), count.to_string(), log];
    row.extend([start / 4, start, end - start].map(|x| x.to_string()));
    row
}

/// The library takes a stripe from these bytes of an image: it decodes it without the first half of them or the last, and not with one byte more lost.
fn stands_there(header: Header, image: &[u8], stripe: u32, bytes: Range<usize>) {
    let Range { start, end } = bytes;
    let middle = (start + end) / 2;
    let lost = [
        start..middle,
        start..middle + 1,
        middle..end,
        middle - 1..end,
    ];
    let given = lost.map(|range| {
        let list = erasures::list(vec![range]);
        decode_stripe(header, image, &list, stripe).number
    });
    assert_eq!(given, [0, 7, 0, 7], "stripe {stripe}");
}

/// The table of the places of stripes, in a vault whose levels are all filled.
#[test]
fn section_3_places_of_stripes() {
    let lines = section("## 3 ");
    let start = "Where the stripes of an image stand";
    let pattern = "{}, k = {}, s = {} (a position has {} bytes):";
    let [_, k, s, size] = said(&lines, start, pattern);
    let [k, s, size] = [k, s, size].map(number);
    assert_eq!(stripes::position(k, s, 0, 0).len(), size as usize);
    let head = "| stripe | blocks | positions | start in the log, words | start in the image, words | byte offset | bytes |";
    let rows = table(&lines, head, 5);
    let mut expected: Vec<Vec<String>> = stripes_in_order(k)
        .map(|stripe| place_of(k, s, stripe))
        .collect();
    let (log, image) = (sizes::log(k, s), sizes::image(k, s));
    let [log, words, image] = [log, image / 4, image].map(|x| x.to_string());
    let end = ["end", "", "", &log, &words, &image, ""];
    expected.push(end.map(String::from).to_vec());
    assert_eq!(rows, expected);

    let mut vault = Vault::zeros(k, s);
    for _ in 1..1 << k {
        vault.write(0, &vec![1; s as usize]);
    }
    let (header, image) = vault.image();
    for (stripe, row) in stripes_in_order(k).zip(rows) {
        let [start, size] = [5, 6].map(|i| number(row[i]) as usize);
        stands_there(header, &image, stripe, start..start + size);
    }
}
