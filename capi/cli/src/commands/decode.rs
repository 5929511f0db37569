//! `vault decode`: the blocks of one shelf.
use super::Command;
use crate::arguments::{Arguments, Options};
use crate::failure::Failure;
use crate::{files, rack};
use vault_library::{calls, sizes, Record};

pub const COMMAND: Command = Command {
    name: "decode",
    line: "print the sheets that one shelf of a rack holds",
    help: "\
usage: vault decode K S C IMAGE GAPS SHELF

Prints the sheets that one shelf holds, in order of time: a line for each, the record's
number and its S words in decimal, one space between. On the full shelf these are the
records when that shelf was last built, on a level the writes it holds. Of a struck record,
and of a write that is a strike, it prints the number and 'struck'.

  K S C   the plate's numbers: 2^K records of S words, C writes since the full shelf was
          last built
  IMAGE   a file, as 'vault image' writes it; what it holds in the gaps does not matter
  GAPS    a gap list, as 'vault gaps' writes it; '-': there are no gaps
  SHELF   a level, or C (or K) for the full shelf

Refused with exit status 1: 1 (plate), 2 (length), 3 (gap list), 6 (shelf), 7 (too few),
8 (stray), 9 (discord), 10 (no sheet).
",
    options: Options::NONE,
    run,
};

fn run(mut arguments: Arguments) -> Result<(), Failure> {
    let header = rack::header(&mut arguments)?;
    let path = arguments.needed("IMAGE")?;
    let gaps = arguments.needed("GAPS")?;
    let stripe = rack::shelf(header.k, &arguments.needed("SHELF")?)?;
    arguments.end()?;
    let image = rack::image(header, &path)?;
    let gaps = rack::gaps(header, Some(gaps))?;
    let mut blocks = vec![0; sizes::blocks(header.k, header.s)];
    let mut scratch = vec![0; sizes::scratch(header.k, header.s)];
    calls::decode(header, &image, &gaps, stripe, &mut blocks, &mut scratch)?;
    let mut text = String::new();
    for block in blocks.chunks(header.s as usize + 1).take(1 << stripe) {
        rack::add_record(&mut text, block[0], Record::of(&block[1..]));
    }
    files::print(text.as_bytes())
}
