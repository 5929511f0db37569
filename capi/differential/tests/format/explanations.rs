//! Section 12: the explanations of the whole image and of its variations.
use crate::calls::explain;
use crate::document::{said, table};
use crate::example::Example;
use crate::forms::{answer, joined, number};
use vault_library::Header;

/// The numbers from 0 to the last, as the document lists them: 0, 1 and 2.
fn up_to(last: u32) -> String {
    format!("{} and {last}", joined(0..last, ", "))
}

/// What a buffer of pairs holds afterwards, as the document writes it.
fn held(words: Option<&[u32]>) -> String {
    match words {
        None => "unchanged".to_string(),
        Some(words) if words.iter().all(|&x| x == 0) => "zeros".to_string(),
        Some(words) => joined(words.chunks(2).map(|pair| joined(pair, " ")), ", "),
    }
}

/// The table of explanations: the answer, the counts and the origins of each row.
#[test]
fn section_12_explanations() {
    let example = Example::read();
    let start = "Explanations of the same images. ";
    let pattern = "counts has the pairs of stripes {}, origins those of records {}:";
    let k = example.header.k;
    let listed = [k, (1 << k) - 1].map(up_to);
    assert_eq!(said(&example.lines, start, pattern), listed);

    let head = "| header | image | erasure list | explain gives | counts | origins |";
    for row in table(&example.lines, head, 12) {
        let (header, image, list) = example.given(&row);
        let given = explain(header, &image, &list);
        let cells = [
            answer(given.number, given.stripe),
            held(given.counts()),
            held(given.stored()),
        ];
        assert_eq!(row[3..], cells, "{row:?}");
    }
}

/// The sentences on the record that was written twice, and on the one that was written once.
#[test]
fn section_12_origins() {
    let example = Example::read();
    let pattern = "{} and {} are to record {}: its origin is write {}, on level {}, and before that write (c = {}) \
                   it is write {}, on level {}. Record {} has write {}. {}";
    let [first, second, twice, last, low, before, older, high, once, only, _] =
        said(&example.lines, "Writes ", pattern);
    let [first, second, only] = [first, second, only].map(number);
    let [twice, once, before] = [twice, once, before].map(number);
    let [last, low, older, high] = [last, low, older, high].map(number);
    let to = |record: u32| -> Vec<u32> {
        let writes = (0..).zip(&example.story.writes);
        writes.filter(|x| x.1 .0 == record).map(|x| x.0).collect()
    };
    assert_eq!((to(twice), to(once)), (vec![first, second], vec![only]));
    let origin = |c: u32, record: u32| {
        let header = Header {
            c,
            ..example.header
        };
        let explained = explain(header, &example.whole, &[]);
        assert_eq!(explained.number, 0);
        explained.out[2 * record as usize..][..2].to_vec()
    };
    assert_eq!(origin(example.header.c, twice), [low, last]);
    assert_eq!((last, before), (second, last));
    assert_eq!(origin(before, twice), [high, older]);
}
