//! Struck records in section 12: the words of the vault and the origins, what is decoded of other words, and openings.
use crate::calls::{decode_stripe, explain, Vault};
use crate::document::{said, section, table};
use crate::forms::{self, joined, low_byte_first, number, numbers, ordinal};
use crate::places::{positions, Position};
use crate::struck::{after, told};
use reference::field::P;
use reference::lent::Words;
use reference::record::STRUCK;
use vault_library::{sizes, stripes, Header};

/// The vault of the words, as the paragraph before them tells it.
fn of_the_words(lines: &[String]) -> Vault {
    let [.., events, _] = told(lines);
    after(lines, ordinal(&events))
}

/// The table of words.
#[test]
fn section_12_words_of_struck_records() {
    let lines = section("### Struck records");
    let (header, image) = of_the_words(&lines).image();
    let rows = table(&lines, "| stripe, position | words |", 14);
    let row = |position: Position| {
        let words = stripes::words(&image, position.bytes);
        [position.name, joined(words, " ")]
    };
    let expected: Vec<[String; 2]> = positions(header).into_iter().map(row).collect();
    assert_eq!(rows, expected);
}

/// What the paragraph before the table of decodings tells: the origins, and the headers of rows by the words of a position.
fn decoded_with(lines: &[String]) -> (String, Header, Header, u32) {
    let start = "and explain names as the origins ";
    let pattern =
        "{}. With the header {}, or {} where a position has {} words, and other words on stripe {}:";
    let [origins, wide, narrow, words, stripe] = said(lines, start, pattern);
    let (wide, narrow) = (forms::header(&wide), forms::header(&narrow));
    let counted = forms::counted(&words) as u32;
    assert_eq!(narrow.s + 1, counted);
    (origins, wide, narrow, number(stripe))
}

#[test]
fn section_12_origins_of_struck_records() {
    let lines = section("### Struck records");
    let (header, image) = of_the_words(&lines).image();
    let (origins, wide, ..) = decoded_with(&lines);
    assert_eq!(header, wide);
    let explained = explain(header, &image, &[]);
    assert_eq!(explained.number, 0);
    let pairs = explained.out.chunks(2).map(|pair| joined(pair, " "));
    assert_eq!(joined(pairs, ", "), origins);
}

/// The table of decodings: of an image that has these words on the stripe.
#[test]
fn section_12_decoded_struck_or_not() {
    let lines = section("### Struck records");
    let (_, wide, narrow, stripe) = decoded_with(&lines);
    let head = format!("| words of stripe {stripe} | decode gives |");
    for row in table(&lines, &head, 5) {
        let words = numbers(row[0], " ");
        let width = words.len() / stripes::positions(stripe);
        let fits = |header: &Header| header.s as usize + 1 == width;
        let header = [wide, narrow].into_iter().find(fits).expect("a header");
        let mut image = vec![0; sizes::image(header.k, header.s)];
        let start = stripes::position(header.k, header.s, stripe, 0).start;
        let bytes = low_byte_first(words);
        image[start..start + bytes.len()].copy_from_slice(&bytes);
        let left = decode_stripe(header, &image, &[], stripe);
        let block = joined(&left.out[..width << stripe], " ");
        let given = match left.number {
            0 => format!("0: {block}"),
            refused => refused.to_string(),
        };
        assert_eq!(row[1], given, "{row:?}");
    }
}

/// The table of openings, and that what an opening took is read as struck or not.
#[test]
fn section_12_openings_with_struck_records() {
    let lines = section("### Struck records");
    let [k] = said(&lines, "Openings of k = ", "{}:").map(number);
    for row in table(&lines, "| s | records | open gives |", 9) {
        let (s, raw) = (number(row[0]), numbers(row[1], " "));
        let given = Vault::any_opening(k, s, &raw);
        assert_eq!(given, number(row[2]), "{row:?}");
        if given == 0 {
            let vault = Vault::open(k, s, raw.clone());
            for (record, data) in (0..).zip(raw.chunks(s as usize)) {
                let struck = data.iter().all(|&x| x == STRUCK);
                assert_eq!(vault.read(record), if struck { 14 } else { 0 });
            }
        }
    }
}

/// The sentence after it: raw words that are 65536 modulo p.
#[test]
fn section_12_words_modulo_p() {
    let lines = section("### Struck records");
    let pattern = " is {} modulo p, and no strike: words are judged as they are. So read gives a record of raw words {} as it is.";
    let [residue, word] = said(&lines, "131073", pattern).map(number);
    assert_eq!((word, u64::from(word) % P), (131_073, residue.into()));
    assert_eq!(residue, STRUCK);
    for s in 1..=3 {
        let mut vault = Vault::zeros(2, s);
        for at in 0..s as usize {
            vault.set_word(Words::Raw, at, word);
        }
        assert_eq!(vault.read(0), 0);
        for at in 0..s as usize {
            vault.set_word(Words::Raw, at, residue);
        }
        assert_eq!(vault.read(0), 14);
    }
}
