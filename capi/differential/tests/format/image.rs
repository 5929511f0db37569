//! Section 12: the words and bytes of the whole image, its erasure list, and what is decoded and recovered of it.
use crate::calls::{decode_stripe, recover, reference_header};
use crate::document::{byte_block, code_block, said, table};
use crate::example::{Example, LOST};
use crate::forms::{bytes, fit, header, hexadecimal, joined, low_byte_first, number, numbers};
use crate::places::erased;
use std::ops::Range;
use vault_library::{erasures, stripes};

/// What the first paragraph says of lengths, of the header, and of the levels after the writes.
#[test]
fn section_12_story() {
    let example = Example::read();
    let story = &example.story;
    let lengths = [example.positions()[0].bytes.len(), example.whole.len()];
    assert_eq!(lengths, story.lengths.map(|x| x as usize));
    let pattern =
        "{}: level {} holds writes {} and {} (t0 = {}), level {} holds write {} (t0 = {})";
    let [after, high, t, u, first, low, v, last] = fit(&story.then, pattern);
    assert_eq!(header(after), example.header);
    for (level, listed, t0) in [(high, vec![t, u], first), (low, vec![v], last)] {
        let level = number(level);
        let left = decode_stripe(example.header, &example.whole, &[], level);
        let mut blocks = Vec::new();
        for write in listed {
            let (record, block) = &story.writes[number(write) as usize];
            blocks.push(*record);
            blocks.extend(block);
        }
        blocks.resize(left.out.len(), 0);
        assert_eq!((left.number, left.out), (0, blocks));
        let t0_of_reference = reference_header(example.header).first(level);
        assert_eq!(t0_of_reference, number(t0).into());
    }
}

/// The table of the image.
#[test]
fn section_12_words_and_bytes() {
    let example = Example::read();
    let head = "| stripe, position | words | byte | bytes of the image |";
    let rows = table(&example.lines, head, 14);
    let expected: Vec<[String; 4]> = example
        .positions()
        .into_iter()
        .map(|position| {
            let words = stripes::words(&example.whole, position.bytes.clone());
            let bytes = &example.whole[position.bytes.clone()];
            let start = position.bytes.start.to_string();
            [position.name, joined(words, " "), start, hexadecimal(bytes)]
        })
        .collect();
    assert_eq!(rows, expected);
}

/// L as bytes, and the positions that each of its pairs erases.
#[test]
fn section_12_erasure_list() {
    let example = Example::read();
    let listed = byte_block(&example.lines, "The erasure list ");
    let length = example.list_length as usize;
    assert_eq!((listed.len(), &listed), (length, &example.list));

    let pattern =
        "{}. Exactly half of each stripe survives. As read, with {} where a byte is lost:";
    let [groups, lost] = said(&example.lines, "It erases ", pattern);
    assert_eq!(bytes(&lost), [LOST]);
    let groups: Vec<&str> = groups.split("; ").collect();
    assert_eq!(groups.len(), example.pairs.len());
    for (group, &[offset, length]) in groups.into_iter().zip(&example.pairs) {
        let last = offset + length - 1;
        let names = erased(example.header, &low_byte_first([offset, length]));
        let names = joined(names, " and ");
        let range = match length {
            1 => String::new(),
            2 => format!(" (bytes {offset} and {last})"),
            _ => format!(" (bytes {offset} to {last})"),
        };
        assert_eq!(group, names + &range);
    }
}

/// The damaged image. Exactly half of each stripe survives: the library decodes it, and does not if one more position is lost.
#[test]
fn section_12_damaged_image() {
    let example = Example::read();
    let erased = erased(example.header, &example.list);
    let mut expected = Vec::new();
    for position in example.positions() {
        let bytes = hexadecimal(&example.damaged[position.bytes.clone()]);
        let lost = erased.contains(&position.name);
        let mark = if lost { "   erased" } else { "" };
        let start = position.bytes.start;
        expected.push(format!("{start:3}  {bytes}     {}{mark}", position.name));

        let pair = |&[offset, length]: &[u32; 2]| offset as usize..(offset + length) as usize;
        let mut ranges: Vec<Range<usize>> = example.pairs.iter().map(pair).collect();
        assert_eq!(erasures::list(ranges.clone()), example.list);
        ranges.push(position.bytes);
        let (header, list) = (example.header, erasures::list(ranges));
        let left = decode_stripe(header, &example.damaged, &list, position.stripe);
        assert_eq!(left.number, if lost { 0 } else { 7 }, "{}", position.name);
    }
    assert_eq!(code_block(&example.lines, "It erases ", 14), expected);
}

/// The table of outputs, and the output of recovery as bytes.
#[test]
fn section_12_decoded_and_recovered() {
    let example = Example::read();
    let (header, image, list) = (example.header, &example.damaged, &example.list);
    let pattern = ", with number {} each time, and then recovery:";
    let [given] = said(&example.lines, "Decoding gives", pattern).map(number);
    for row in table(&example.lines, "| call | out, in words |", 4) {
        let left = match row[0] {
            "recover" => recover(header, image, list),
            call => {
                let [stripe] = fit(call, "decode stripe {}");
                decode_stripe(header, image, list, number(stripe))
            }
        };
        let words = numbers(row[1], " ");
        assert_eq!((left.number, left.out), (given, words), "{row:?}");
    }
    let start = "The output of recovery, as words of 4 bytes, low byte first:";
    let listed = byte_block(&example.lines, start);
    let records = recover(header, image, list).out;
    assert_eq!(listed, low_byte_first(records.clone()));
    assert_eq!(records, example.records(example.story.writes.len()));
}
