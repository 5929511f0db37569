//! Any words and any files: every run ends with 0, 1 or 2 (`program::vault` checks it).
use crate::program::{file, refusal, vault};
use random::Random;
use std::collections::BTreeSet;

/// Numbers as words of the command line, mostly in the ranges of a small vault.
fn plate(random: &mut Random) -> (usize, usize, usize) {
    let k = 1 + random.index(4);
    (k, 1 + random.index(3), random.index(1 << k))
}

fn image_len(k: usize, s: usize) -> usize {
    4 * (s + 1) * ((4 << k) - 2)
}

/// Random bytes as the image, as the gap list and as the writes. Lengths are often right, so that bytes are looked at.
#[test]
fn random_bytes() {
    let mut random = Random::new(2);
    let mut seen = [0; 14];
    for run in 0..300 {
        let (k, s, c) = plate(&mut random);
        let all = image_len(k, s);
        let image = random_image(&mut random, all, run % 8 < 4);
        let gaps = random_gaps(&mut random, all);
        let image = file("random-image", &image);
        let gaps = file("random-gaps", &gaps);
        let [k, s, c] = [k, s, c].map(|x| x.to_string());
        let shelf = random.below(6).to_string();
        let mut words = match run % 4 {
            0 => vec!["recover", &k, &s, &c, image, gaps],
            1 => vec!["explain", &k, &s, &c, image, gaps],
            2 => vec!["decode", &k, &s, &c, image, gaps, &shelf],
            _ => vec!["list", &k, &s, &c, image],
        };
        // Another reading has other gaps, and often the same image.
        let gaps = file("random-other-gaps", &random_gaps(&mut random, all));
        let other = random_image(&mut random, all, run % 8 < 4);
        let image = *random.one(&[image, file("random-other-image", &other)]);
        if run % 4 < 2 && random.below(2) == 0 {
            words.extend(["--and", image, gaps]);
        }
        let answer = vault(&words, &[]);
        seen[refusal(&answer).1.unwrap_or(0) as usize] += 1;
        let length = random.index(200);
        let answer = vault(["image", &k, &s], &random.bytes(length));
        seen[refusal(&answer).1.unwrap_or(0) as usize] += 1;
    }
    // The runs reach what they are for.
    for number in [0, 2, 3, 4, 6, 7, 8, 9, 13] {
        assert!(seen[number] > 0, "no run gave {number}: {seen:?}");
    }
}

/// An image of any words, or of words of the field; one in four of any length.
fn random_image(random: &mut Random, all: usize, in_field: bool) -> Vec<u8> {
    let length = if random.below(4) == 0 {
        random.index(2 * all)
    } else {
        all
    };
    let mut image = random.bytes(length);
    if in_field {
        for word in image.chunks_exact_mut(4) {
            word[2..].fill(0);
        }
    }
    image
}

/// A gap list: none, pairs, or any bytes.
fn random_gaps(random: &mut Random, all: usize) -> Vec<u8> {
    match random.below(3) {
        0 => Vec::new(),
        1 => random_pairs(random, all),
        _ => {
            let length = random.index(40);
            random.bytes(length)
        }
    }
}

/// Some good pairs of a gap list, most of the time.
fn random_pairs(random: &mut Random, all: usize) -> Vec<u8> {
    let mut offset = random.index(8);
    let mut list = Vec::new();
    while offset < all {
        let length = 1 + random.index(all / 3);
        list.extend((offset as u32).to_le_bytes());
        list.extend((length as u32).to_le_bytes());
        offset += length + 1 + random.index(20);
    }
    list
}

/// Lines of `image --text`, of words that it knows and others.
#[test]
fn random_lines() {
    let words = [
        "strike", "back", "struck", "0", "1", "2", "3", "4", "65535", "65536", "-1", "é",
    ];
    let mut random = Random::new(5);
    let mut seen = BTreeSet::new();
    for _ in 0..300 {
        let mut lines = String::new();
        for _ in 0..random.below(4) {
            lines += ["strike 1\n", "2 3\n", "back\n", "\n"][random.index(4)];
        }
        for _ in 0..random.below(4) {
            lines += *random.one(&words);
            lines += *random.one(&[" ", "\n"]);
        }
        let answer = vault(["image", "2", "1", "--text"], lines.as_bytes());
        seen.insert(refusal(&answer));
    }
    // The runs reach what they are for.
    let numbers = [2, 4, 5, 11, 12].map(|number| (1, Some(number)));
    let expected = numbers.into_iter().chain([(0, None), (2, None)]);
    assert!(
        expected.into_iter().all(|answer| seen.contains(&answer)),
        "{seen:?}"
    );
}

/// A good image with one byte changed: recovery notices, unless few positions are left or an empty level was hit.
#[test]
fn one_byte_changed() {
    let mut random = Random::new(3);
    for _ in 0..100 {
        let (k, s, c) = plate(&mut random);
        let [kw, sw, cw] = [k, s, c].map(|x| x.to_string());
        // Each write is to record 1, and its words are all 256.
        let sheets = [1, 0].into_iter().chain([0, 1].repeat(s));
        let sheets = sheets.collect::<Vec<u8>>().repeat(c);
        let mut image = vault(["image", &kw, &sw], &sheets).stdout;
        let whole = file("changed-before", &image);
        let before = vault(["recover", &kw, &sw, &cw, whole], &[]);
        assert_eq!(before.status, 0, "{before:?}");
        let at = random.index(image.len());
        image[at] ^= 1 << random.index(8);
        let changed = file("changed", &image);
        let after = vault(["recover", &kw, &sw, &cw, changed], &[]);
        let empty = empty_level_at(k, s, c, at);
        let noticed = matches!(refusal(&after), (1, Some(8 | 9)));
        assert!(if empty { after == before } else { noticed }, "{after:?}");
    }
}

/// Whether a byte of an image is of an empty level.
fn empty_level_at(k: usize, s: usize, c: usize, at: usize) -> bool {
    let position = at / (4 * (s + 1));
    let full = 2 << k;
    // Levels have 2, 4, 8, ... positions.
    position >= full && {
        let level = (position - full + 2).ilog2() - 1;
        c >> level & 1 == 0
    }
}

/// Words of the command line, the commands first.
const WORDS: [&str; 35] = [
    "demo",
    "image",
    "gaps",
    "recover",
    "explain",
    "decode",
    "list",
    "table",
    "--json",
    "--and",
    "--seed",
    "-o",
    "--text",
    "--",
    "-",
    "",
    "0",
    "1",
    "2",
    "3",
    "10",
    "11",
    "4294967295",
    "4294967296",
    "-1",
    "C",
    "C:0",
    "0:0-1",
    "C:0-9",
    "1:",
    ":",
    "--help",
    "/dev/null",
    "/dev/zero",
    "é",
];

/// Words of the command line in any order.
#[test]
fn random_words() {
    let image = file("words-image", &[0; 112]);
    let words = [&WORDS[..], &[image]].concat();
    let out = file("words-out", &[]);
    let mut random = Random::new(4);
    for _ in 0..300 {
        let mut line = vec![*random.one(&WORDS[..8])];
        if random.below(2) == 0 {
            line.extend(["2", "1"]);
        }
        for _ in 0..random.below(6) {
            let word = *random.one(&words);
            line.push(word);
            if word == "-o" {
                line.push(out);
            }
        }
        vault(&line, &[0, 0, 1, 0]);
    }
}
