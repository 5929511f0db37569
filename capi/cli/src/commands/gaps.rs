//! `vault gaps`: a gap list from the positions that are lost.
use super::Command;
use crate::arguments::{number, usage, Arguments, Options};
use crate::failure::Failure;
use crate::{files, rack};
use std::ffi::OsStr;
use std::ops::RangeInclusive;
use vault_library::{erasures, stripes, Header, Refusal};

pub const COMMAND: Command = Command {
    name: "gaps",
    line: "make a gap list from the positions that are lost",
    help: "\
usage: vault gaps K S POSITION... > GAPS
       vault gaps K S -o GAPS POSITION...

Makes the gap list that recover, explain and decode take from the positions that cannot be
read, in any order; one may be named twice. No image is needed.

  K S       the plate's numbers: 2^K records of S words
  POSITION  SHELF:NUMBER, or SHELF:FIRST-LAST for a run. SHELF is a level, or C (or K) for
            the full shelf. Level L has positions 0 to 2^(L+1) - 1, the full shelf has
            0 to 2^(K+1) - 1
  -o FILE   write to a file instead of standard output

The list is pairs of offset and length in the image, 4 bytes each, low byte first, sorted,
with positions that touch joined.

  vault gaps 4 3 C:0-15 3:2 3:7 > gaps

Refused with exit status 1: 1 (plate). A position that the shelf does not have is bad
usage, exit status 2, and then nothing is written.
",
    options: Options {
        flags: &[],
        values: &["-o"],
        part: None,
    },
    run,
};

fn run(mut arguments: Arguments) -> Result<(), Failure> {
    let (k, s) = (arguments.number("K")?, arguments.number("S")?);
    let mut words = vec![arguments.needed("POSITION")?];
    while let Some(word) = arguments.next() {
        words.push(word);
    }
    if !(Header { k, s, c: 0 }).fits() {
        return Err(Refusal::Header.into());
    }
    let mut ranges = Vec::new();
    for word in words {
        let (stripe, positions) = parsed(k, &word)?;
        ranges.extend(positions.map(|position| stripes::position(k, s, stripe, position)));
    }
    let list = erasures::list(ranges);
    match arguments.value("-o") {
        Some(path) => files::store(path, &list),
        None => {
            files::not_to_terminal("the gap list")?;
            files::print(&list)
        }
    }
}

/// A shelf, and positions that it has.
fn parsed(k: u32, word: &OsStr) -> Result<(u32, RangeInclusive<usize>), Failure> {
    let parts = word.to_str().and_then(|text| text.split_once(':'));
    let Some((shelf, numbers)) = parts else {
        return usage(format!(
            "{word:?} is not SHELF:NUMBER or SHELF:FIRST-LAST, as C:5 or 3:0-7"
        ));
    };
    let stripe = rack::shelf(k, OsStr::new(shelf))?;
    if stripe > k {
        return usage(format!("{word:?}: with K = {k}, levels are 0 to {}", k - 1));
    }
    let (first, last) = numbers.split_once('-').unwrap_or((numbers, numbers));
    let name = format!("a position in {word:?}");
    let bound = |text| number(&name, OsStr::new(text)).map(|bound| bound as usize);
    let (first, last) = (bound(first)?, bound(last)?);
    let most = stripes::positions(stripe) - 1;
    if first > last || last > most {
        return usage(format!("{word:?}: shelf {shelf} has positions 0 to {most}"));
    }
    Ok((stripe, first..=last))
}
