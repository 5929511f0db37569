//! The tuned twin beside the library on random calls: histories, erasures of every extent, altered words, and buffers that no history left. What is measured
//! is then work that gives the right answer in every case, not only in those that are timed.
use super::{open, recover, write, Header};
use random::Random;
use vault_library::{calls, erasures, sizes, stripes, Header as Plate, Refusal, STRUCK_WORD};

fn words(random: &mut Random, count: usize, below: u64) -> Vec<u32> {
    (0..count).map(|_| random.below(below) as u32).collect()
}

/// One or two of the words, below a number, that let the numbers inside a transform grow most: the same in all places or mixed.
fn extremes(random: &mut Random, count: usize, below: u32) -> Vec<u32> {
    let all = [0, 1, 32767, 32768, 32769, 65535, 65536];
    let all = &all[..all.partition_point(|&word| word < below)];
    let two = [*random.one(all), *random.one(all)];
    (0..count).map(|_| *random.one(&two)).collect()
}

/// Sizes of all kinds: each width with code of its own, each parity of k.
fn size(random: &mut Random) -> (u32, u32) {
    let most = if random.below(8) == 0 { 10 } else { 7 };
    let k = 1 + random.below(most) as u32;
    let s = *random.one(&[1, 1, 2, 3, 3, 4, 5, 6, 7, 8, 11, 15, 128]);
    (k, s)
}

/// The buffers of one implementation.
#[derive(Clone, Debug, PartialEq)]
struct Buffers {
    raw: Vec<u32>,
    full: Vec<u32>,
    log: Vec<u32>,
}

impl Buffers {
    /// Buffers with words below a number.
    fn new(random: &mut Random, k: u32, s: u32, below: u64) -> Buffers {
        Buffers {
            raw: words(random, sizes::raw(k, s), below),
            full: words(random, sizes::full(k, s), below),
            log: words(random, sizes::log(k, s), below),
        }
    }
}

/// Strikes one record of four.
fn strike_some(random: &mut Random, raw: &mut [u32], s: u32) {
    for record in raw.chunks_exact_mut(s as usize) {
        if random.below(4) == 0 {
            record.fill(STRUCK_WORD);
        }
    }
}

/// A write by both; c afterwards.
fn write_both(
    header: Plate,
    library: &mut Buffers,
    tuned: &mut Buffers,
    record: u32,
    block: &[u32],
) -> u32 {
    let Plate { k, s, c } = header;
    let mut after = header;
    let Buffers { raw, full, log } = library;
    let answer = calls::write(&mut after, raw, full, log, record, block);
    let number = answer.err().map_or(0, Refusal::number);
    let Buffers { raw, full, log } = tuned;
    let mine = write(Header { k, s, c }, raw, full, log, record, block);
    assert_eq!(mine, (number, after.c), "write {k} {s} {c}");
    assert!(library == tuned, "buffers differ after a write {k} {s} {c}");
    after.c
}

#[test]
fn openings_and_writes() {
    let mut random = Random::new(1);
    for _ in 0..400 {
        let (k, s) = size(&mut random);
        // Mostly data words; sometimes one that is none, in any place.
        let mut library = Buffers::new(&mut random, k, s, 65536);
        if random.below(4) == 0 {
            library.raw = extremes(&mut random, sizes::raw(k, s), 65536);
        }
        if random.below(4) == 0 {
            strike_some(&mut random, &mut library.raw, s);
        }
        if random.below(8) == 0 {
            let at = random.index(library.raw.len());
            library.raw[at] = 65536;
        }
        let mut tuned = library.clone();
        let answer = calls::open(k, s, &library.raw, &mut library.full, &mut library.log);
        let number = answer.err().map_or(0, Refusal::number);
        assert_eq!(
            open(k, s, &tuned.raw, &mut tuned.full, &mut tuned.log),
            number
        );
        assert!(library == tuned, "buffers differ after an opening {k} {s}");
        let mut c = 0;
        for _ in 0..random.below(3 << k.min(6)) {
            let (record, below) = (random.below(1 << k) as u32, *random.one(&[2, 65536, 65537]));
            let block = words(&mut random, s as usize, below);
            c = write_both(Plate { k, s, c }, &mut library, &mut tuned, record, &block);
        }
    }
}

/// On buffers that no history left words count modulo p.
#[test]
fn writes_on_any_buffers() {
    let mut random = Random::new(2);
    for _ in 0..1000 {
        let (k, s) = size(&mut random);
        let below = *random.one(&[65537, 1 << 18, 1 << 31, 1 << 32]);
        let mut library = Buffers::new(&mut random, k, s, below);
        let mut tuned = library.clone();
        let last = (1 << k) - 1;
        let c = match random.below(3) {
            0 => last,
            1 => last >> 1,
            _ => random.below(1 << k) as u32,
        };
        let block = words(&mut random, s as usize, 65536);
        let record = random.below(1 << k) as u32;
        write_both(Plate { k, s, c }, &mut library, &mut tuned, record, &block);
    }
}

/// An image after some writes, and its header.
fn image(random: &mut Random, k: u32, s: u32) -> (Plate, Vec<u8>) {
    let mut buffers = Buffers::new(random, k, s, 65536);
    let Buffers { raw, full, log } = &mut buffers;
    let strikes = random.below(4) == 0;
    if strikes {
        strike_some(random, raw, s);
    }
    let mut header = calls::open(k, s, raw, full, log).expect("records");
    for _ in 0..random.below(1 << k) {
        let mut block = words(random, s as usize, 65536);
        block[0] = block[0].max(1);
        let record = random.below(1 << k) as u32;
        let answer = if strikes && random.below(4) == 0 {
            calls::strike(&mut header, raw, full, log, record)
        } else {
            calls::write(&mut header, raw, full, log, record, &block)
        };
        answer.expect("a good write or strike");
    }
    let mut image = vec![0; sizes::image(k, s)];
    calls::image(header, full, log, &mut image).expect("an image");
    (header, image)
}

/// A list that leaves half of each stripe, or somewhat more, and rarely less; X alone or Y alone at times.
fn losses(random: &mut Random, k: u32, s: u32) -> Vec<u8> {
    let kind = random.below(4);
    let mut lost = Vec::new();
    for stripe in 0..=k {
        let positions = stripes::positions(stripe);
        let half = positions / 2;
        let count = match random.below(16) {
            0 => half + usize::from(random.below(4) == 0),
            1..=9 => half,
            10..=12 => half - half.min(random.index(3)),
            _ => random.index(half + 1),
        };
        let some = match kind {
            0 => (0..count).collect(),
            1 => (positions - count..positions).collect(),
            _ => random.some(positions, count),
        };
        lost.extend(some.iter().map(|&i| stripes::position(k, s, stripe, i)));
    }
    erasures::list(lost)
}

/// Alters some words: by little, to a word out of the field, or to any.
fn alter(random: &mut Random, image: &mut [u8]) {
    for _ in 0..1 + random.below(6) {
        let at = 4 * random.index(image.len() / 4);
        let word = match random.below(4) {
            0 => 65536,
            1 => 65537,
            2 => random.below(65537) as u32,
            _ => random.below(1 << 32) as u32,
        };
        image[at..at + 4].copy_from_slice(&word.to_le_bytes());
    }
}

fn recover_both(header: Plate, image: &[u8], list: &[u8], random: &mut Random) -> u32 {
    let Plate { k, s, c } = header;
    let mut out = words(random, sizes::raw(k, s), 1 << 32);
    let mut scratch = words(random, sizes::scratch(k, s), 1 << 32);
    let (mut my_out, mut my_scratch) = (out.clone(), scratch.clone());
    let answer = calls::recover(header, image, list, &mut out, &mut scratch);
    let answer = answer
        .err()
        .map_or((0, None), |fault| (fault.refusal.number(), fault.stripe));
    let mine = recover(
        Header { k, s, c },
        image,
        list,
        &mut my_out,
        &mut my_scratch,
    );
    assert_eq!(mine, answer, "recovery {k} {s} {c}");
    assert!(
        out == my_out && scratch == my_scratch,
        "recovery {k} {s} {c} leaves other words"
    );
    answer.0
}

#[test]
fn recoveries() {
    let mut random = Random::new(3);
    let mut answers = [0; 12];
    for _ in 0..3000 {
        let (k, s) = size(&mut random);
        let (mut header, mut image) = image(&mut random, k, s);
        let mut list = losses(&mut random, k, s);
        if random.below(3) == 0 {
            alter(&mut random, &mut image);
        }
        if random.below(32) == 0 {
            header.c = random.below((1 << k) + 1) as u32;
        }
        if random.below(32) == 0 && !list.is_empty() {
            let at = random.index(list.len());
            list[at] = list[at].wrapping_add(1);
        }
        if random.below(32) == 0 {
            image.pop();
        }
        answers[recover_both(header, &image, &list, &mut random) as usize] += 1;
    }
    for number in [0, 1, 2, 3, 7, 8, 9, 10] {
        assert!(
            answers[number] > 0,
            "no recovery gave {number}: {answers:?}"
        );
    }
}

/// Words of the field that nothing coded: with exactly half of each stripe left they decode to blocks that are hardly ever records.
#[test]
fn any_words() {
    let mut random = Random::new(4);
    for _ in 0..600 {
        let (k, s) = size(&mut random);
        let count = sizes::image(k, s) / 4;
        let words = if random.below(2) == 0 {
            extremes(&mut random, count, 65537)
        } else {
            words(&mut random, count, 65537)
        };
        let image: Vec<u8> = words.iter().flat_map(|word| word.to_le_bytes()).collect();
        let header = Plate {
            k,
            s,
            c: random.below(1 << k) as u32,
        };
        let list = losses(&mut random, k, s);
        recover_both(header, &image, &list, &mut random);
    }
}
