//! Section 12: the variations on the whole image, and the stripes that decoding refuses.
use crate::calls::{decode_stripe, recover, reference_header, Left};
use crate::document::{said, table};
use crate::example::{put, Example, LOST};
use crate::forms::{self, bytes, counted, fit, header, holes, number, numbers};
use crate::places::erased;
use reference::{decode, erasures, image};
use vault_library::{sizes, Header};

/// A row of the table of variations, and what both gave.
struct Variation<'a> {
    example: &'a Example,
    header: Header,
    image: Vec<u8>,
    list: Vec<u8>,
    left: Left,
}

impl Variation<'_> {
    /// Reads the row but for its last cell, and recovers.
    fn new<'a>(example: &'a Example, row: &[&str]) -> Variation<'a> {
        let (header, image, list) = example.given(row);
        let left = recover(header, &image, &list);
        Variation {
            example,
            header,
            image,
            list,
            left,
        }
    }

    /// The records that the remark of an accepted recovery says.
    fn records(&self, remark: &str) -> Vec<u32> {
        let writes = self.example.story.writes.len();
        let mut all = self.example.records(writes);
        if remark == "the same records" {
            return all;
        }
        if let Some([record, block]) =
            holes(remark, "record {} is {}; nothing is left to compare with")
        {
            assert_eq!(self.list, self.example.list);
            put(&mut all, number(record), &numbers(block, " "));
            return all;
        }
        let [records, moment] = fit(remark, "{}, {}");
        let expected = match moment {
            "as before the last write" => self.example.records(writes - 1),
            "the round's start" => self.example.records(0),
            _ => panic!("not understood: {remark}"),
        };
        assert_eq!(numbers(records, " "), expected);
        expected
    }

    /// Holds a refusal to its remark, if it has one.
    fn remark_holds(&self, remark: &str) {
        match (self.left.stripe, remark) {
            (_, "") => {}
            // Each call was seen to leave its buffers so.
            (None, "out and scratch unchanged") => assert_ne!(self.left.number, 0),
            (Some(stripe), _) => self.reason_holds(stripe, remark),
            _ => panic!("not understood: {remark}"),
        }
    }

    /// Holds a refusal that names a stripe to its reason.
    fn reason_holds(&self, stripe: u32, remark: &str) {
        let header = reference_header(self.header);
        let gaps = erasures::gaps(&self.list, self.image.len()).expect("a good list");
        let lost = erasures::erased(header, stripe, &gaps);
        if let Some([count]) = holes(remark, "{} positions survive") {
            let survivors = lost.iter().filter(|&&x| !x).count();
            assert_eq!(counted(count), survivors);
        } else if let Some([name]) = holes(remark, "{} is lost too") {
            let has = |list| erased(self.header, list).contains(&name.to_string());
            assert!(has(&self.list) && !has(&self.example.list), "{remark}");
        } else if let Some([c, t0]) = holes(remark, "with c = {} its t0 is {}") {
            let given = (u64::from(header.c), header.first(stripe));
            assert_eq!((number(c).into(), number(t0).into()), given);
        } else {
            self.block_holds(stripe, &lost, remark);
        }
    }

    /// Holds a refusal that is given for a block to this block, which reference/ decodes of the stripe without its lost positions.
    fn block_holds(&self, stripe: u32, lost: &[bool], remark: &str) {
        let header = reference_header(self.header);
        let [name, t0, block] = fit(remark, "{} read with t0 = {} is the block {}");
        let width = header.width();
        let start = header.stripe_start(stripe);
        let words = image::words(&self.image, start, lost.len() * width);
        let t0 = number(t0).into();
        let decoded = decode::decode(header.k, t0, width, lost, &words);
        let block: Vec<u64> = numbers(block, " ").into_iter().map(u64::from).collect();
        assert_eq!((t0, decoded), (header.first(stripe), Ok(block)));
        let survivor = lost.iter().position(|&x| !x).expect("a survivor");
        assert_eq!(name, format!("{stripe} {survivor}"));
    }
}

/// The table of variations: the answer and the remark of each row.
#[test]
fn section_12_variations() {
    let example = Example::read();
    let pattern = "(the image above is called whole, the one with {} is called damaged; the list above is called L):";
    let [lost] = said(&example.lines, "Variations ", pattern);
    assert_eq!(bytes(&lost), [LOST]);
    let head = "| header | image | erasure list | recovery gives |";
    for row in table(&example.lines, head, 13) {
        let variation = Variation::new(&example, &row);
        let end = row[3].find([':', ';']).unwrap_or(row[3].len());
        let (answer, rest) = row[3].split_at(end);
        let remark = rest.trim_start_matches([':', ';', ' ']);
        let Left { number, stripe, .. } = variation.left;
        assert_eq!(answer, forms::answer(number, stripe), "{row:?}");
        if number == 0 {
            assert_eq!(variation.left.out, variation.records(remark), "{row:?}");
        } else {
            variation.remark_holds(remark);
        }
    }
}

/// The sentence on refusal 6 after the variations.
#[test]
fn section_12_stripes_refused() {
    let example = Example::read();
    let pattern = "{} with the header {} (level {} is not filled), or stripe {} with any header of k = {}, gives {}.";
    let said = said(&example.lines, "Decoding stripe ", pattern);
    let [stripe, given, level, beyond, k, refusal] = said;
    let given = header(&given);
    let [stripe, level, beyond, k, refusal] = [stripe, level, beyond, k, refusal].map(number);
    assert_eq!((stripe, given.filled(level)), (level, false));
    let left = decode_stripe(given, &example.whole, &[], level);
    assert_eq!((left.number, refusal), (6, 6));
    for s in 1..=128 {
        let image = vec![0; sizes::image(k, s)];
        for c in 0..1 << k {
            let left = decode_stripe(Header { k, s, c }, &image, &[], beyond);
            assert_eq!(left.number, refusal);
        }
    }
}
